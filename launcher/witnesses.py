"""What the lines of a journal tell of one call in several places, and where one of them stands against the others, stands twice or is missing.

A journal tells a request, its way, its reply and its end again and again: at the station that asks, on each ring, at each bridge and at the station that
serves. So a line that was changed, doubled or left out is found from the others. A legal journal has no such line.
"""
import re
from collections import Counter, defaultdict

# What is told at most once of a call.
ONCE = {
    "asked": "is asked", "posted": "has its request posted", "taken": "has its request taken", "served": "is served or accepted",
    "replied": "has its reply posted", "heard": "ends at its node", "ended": "ends at its station", "returned": "has its reply given back",
}


class Finding:
    """Lines of a journal that do not fit, or that tell of a line which is missing, and why; and the calls that they are about.

    In `why` {lines} stands for these lines, {others} for others with which they do not fit, and {has} and {have} for what each of both do."""

    def __init__(self, lines, why, calls=(), others=(), is_missing=False, is_open=False):
        self.lines, self.why, self.calls, self.others = sorted(set(lines)), why, calls, others
        # Whether a line is missing, and whether it is open which of the lines is wrong.
        self.is_missing, self.is_open = is_missing, is_open

    def told(self, first):
        """Why, in a file in which the journal begins in a line."""
        lines, others = (listed(line + first - 1 for line in some) if some else "" for some in (self.lines, self.others))
        has, have = ("has" if len(set(some)) == 1 else "have" for some in (self.lines, self.others))
        return self.why.format(lines=lines, others=others, has=has, have=have)


class Call:
    """The lines of a call by what they tell, and what each tells of its way, its request and its end."""

    def __init__(self, name):
        self.name, self.lines, self.onward, self.before = name, defaultdict(list), None, None


def addresses(route):
    return () if route == "-" else tuple(int(word) for word in route.split("."))


def listed(lines):
    lines = sorted(set(lines))
    return f"line {lines[0]}" if len(lines) == 1 else f"lines {', '.join(map(str, lines[:-1]))} and {lines[-1]}"


class Witnesses:
    """All that a journal tells of its calls: statements by what they are about, each a value with its line."""

    def __init__(self, journal):
        self.journal, self.calls = journal, {}
        # By call: ways with the number of addresses that are told from the end, requests, replies, ends and operations of the own port.
        self.ways, self.firsts, self.requests, self.replies, self.ends, self.own = (defaultdict(list) for _ in range(6))
        for head, entries in journal.sections.items():
            for entry in entries:
                reader = getattr(self, f"read_{entry.words[0]}", None)
                if reader:
                    reader(head.split(), entry, entry.words)

    def call(self, name, role, entry):
        call = self.calls.setdefault(name, Call(name))
        call.lines[role].append(entry.line)
        return call

    def ask(self, name, route, request, entry):
        self.ways[name].append((addresses(route), entry.line))
        self.requests[name].append((request, entry.line))

    def read_L(self, _, entry, words):
        for word in words[1:]:
            name, _, told = word.partition("=")
            self.call(name, "asked", entry)
            if told[:1].isdigit():
                self.ask(name, *told.split(":"), entry)
            else:
                self.own[name].append((told, entry.line))

    def read_Q(self, _, entry, words):
        self.call(words[1], "asked", entry)
        self.ask(*words[1:4], entry)

    def read_U(self, _, entry, words):
        self.call(words[3], "asked", entry).before = words[2]
        self.call(words[2], "sent on", entry).onward = words[3]
        self.ask(*words[3:6], entry)

    def read_P(self, head, entry, words):
        self.serve(int(head[1]), words[1], words[2], entry)
        self.calls[words[1]].lines["answered"].append(entry.line)
        self.replies[words[1]].append((words[3], entry.line))

    def read_N(self, head, entry, words):
        self.serve(int(head[1]), words[1], words[2], entry)

    def serve(self, node, name, request, entry):
        self.call(name, "served", entry)
        self.ways[name].append(((node,), entry.line))
        self.requests[name].append((request, entry.line))

    def read_T(self, _, entry, words):
        self.call(words[2], "served", entry)
        self.ways[words[2]].append(((int(words[1]), *addresses(words[3])), entry.line))
        self.requests[words[2]].append((words[4], entry.line))

    def read_V(self, _, entry, words):
        self.call(words[2], "returned", entry)
        self.firsts[words[2]].append((int(words[1]), entry.line))
        self.replies[words[2]].append((words[3], entry.line))

    def read_F(self, _, entry, words):
        self.call(words[1], "ended", entry)
        self.ends[words[1]].append((" ".join(words[2:]), entry.line))

    def read_A(self, head, entry, words):
        name, *told = words[1 + (head[0] == "W") :]
        self.call(name, "ended", entry)
        if told[0] == "R":
            self.replies[name].append((told[1], entry.line))
        else:
            self.ends[name].append((" ".join(told), entry.line))

    def read_PO(self, _, entry, words):
        self.call(words[3], "posted" if words[2] == "Q" else "replied", entry)
        if words[2] == "Q":
            self.ask(*words[3:6], entry)
        else:
            self.firsts[words[3]].append((int(words[1]), entry.line))
            self.replies[words[3]].append((words[4], entry.line))

    def read_TA(self, _, entry, words):
        if words[2] == "Q":
            self.call(words[3], "taken", entry)
            self.ways[words[3]].append(((int(words[1]), *addresses(words[5] if len(words) > 5 else "-")), entry.line))
            self.requests[words[3]].append((words[4], entry.line))
        else:
            self.call(words[3], "heard", entry)
            self.replies[words[3]].append((words[4], entry.line))

    def read_LO(self, _, entry, words):
        if words[3] in ("RG", "RC"):
            self.call(words[2], "port", entry)
            return
        self.call(words[2], "heard", entry)
        self.own[words[2]].append((words[3], entry.line))
        self.ends[words[2]].append((" ".join(words[4:]), entry.line))

    def read_GU(self, _, entry, words):
        self.call(words[1], "heard", entry)
        self.ends[words[1]].append((f"B {words[2]}", entry.line))

    # Calls under their several names.

    def root(self, name):
        """The first name of a request, and how often bridges had sent it on when it got this one."""
        depth = 0
        while self.calls[name].before in self.calls and depth < 5:
            name, depth = self.calls[name].before, depth + 1
        return name, depth

    def chains(self):
        """The names of each request, from its first on, with how often it had been sent on."""
        found = defaultdict(list)
        for name in self.calls:
            root, depth = self.root(name)
            found[root].append((depth, name))
        return [sorted(names) for names in found.values()]

    # What does not fit.

    def findings(self):
        for finder in (self.of_chains, self.of_lines, self.of_leaves):
            yield from finder()

    def of_chains(self):
        for names in self.chains():
            calls = [name for _, name in names]
            told = f"request {calls[0]}" if len(calls) == 1 else f"request {' = '.join(calls)}"
            yield from odd([one for name in calls for one in self.requests[name]], f"the bytes of {told}", calls)
            yield from self.of_way(names, told, calls)
            yield from self.of_reply(names, told, calls)
            for name in calls:
                yield from odd(self.own[name], f"the operation of call {name}", [name])

    def of_way(self, names, told, calls):
        """The addresses of a request, each from all who tell it, and how many there are."""
        lengths, places = [], defaultdict(list)
        for depth, name in names:
            for way, line in self.ways[name]:
                lengths.append((depth + len(way), line))
                for place, address in enumerate(way):
                    places[depth + place].append((address, line))
            for address, line in self.firsts[name]:
                places[depth].append((address, line))
        yield from odd(lengths, f"how many addresses the way of {told} has", calls)
        for place, values in sorted(places.items()):
            yield from odd(values, f"address {place + 1} on the way of {told}", calls)

    def of_reply(self, names, told, calls):
        """The reply of a request as it comes back under its names, where no bridge made another of it; and its end at each."""
        group, before = [], None
        for _, name in reversed(names):
            if before and any(end[0] == "B" for end, _ in self.ends[before]):
                # A bridge answers for a node that did not.
                yield from odd(group, f"the reply to {told}", calls)
                group = []
            group += self.replies[name]
            before = name
        yield from odd(group, f"the reply to {told}", calls)
        for _, name in names:
            yield from odd([*self.ends[name], *self.end_of_reply(name)], f"the end of call {name}", [name])

    def end_of_reply(self, name):
        """The end that a reply makes for a block, as far as that is told by its bytes: an exception, or the words of a read."""
        if not self.calls[name].lines["ended"] or not self.ends[name]:
            return
        for reply, line in self.replies[name]:
            if line not in self.calls[name].lines["heard"]:
                # Its node may have given it up before this reply came.
                continue
            if len(reply) == 4 and int(reply[:2], 16) & 0x80:
                yield f"B 30{reply[2:]}", line
            elif reply[:2] in ("03", "04") and len(reply) > 4:
                yield f"G {reply[4:]}", line

    def of_lines(self):
        for name, call in self.calls.items():
            lines = call.lines
            for role, words in ONCE.items():
                if len(lines[role]) > 1:
                    first, *others = lines[role]
                    yield Finding(others, f"{{lines}} stands a second time: call {name} {words} in {{others}} already", [name], [first])
            yield from self.of_missing(name, call, lines)

    def section_of(self, node):
        """The head of the section of a station or of the bridge with an end."""
        heads = [head for head in (f"C {node}", f"H {node}", self.journal.bridge(node)) if head in self.journal.sections]
        return heads[0] if heads else f"C {node}"

    def nodes_of(self, lines):
        """The nodes that make some entries of a ring."""
        return [self.journal.lines[line - 1].split(" ")[1] for line in lines]

    def of_missing(self, name, call, lines):
        """Entries that have to be there, since others of the call are."""
        node, is_own = name.split(".")[0], name.split(".")[1:2] == ["0"]
        section = self.section_of(node)
        asks = {"C": f"L .. {name}=..", "H": f"Q {name} ..", "W": f"U {node} .. {name} .."}[section[0]]
        ends = {"C": f"F {name} ..", "H": f"A {name} ..", "W": f"A {node} {name} .."}[section[0]]
        taker = next(iter(self.nodes_of(lines["taken"])), "")
        at = self.section_of(taker)
        serves = {"C": f"P {name} ..` or `N {name} ..", "H": f"P {name} ..", "W": f"T {taker} {name} .."}[at[0]]
        replier = next(iter(self.nodes_of(lines["replied"])), "")
        gives = ["replied"] if self.section_of(replier)[0] == "W" and not lines["port"] else []
        heard = ["heard"] if self.is_reply_heard(lines) else []
        wanted = [
            ("asked", ("posted", "ended", "heard"), asks, f"in {section}"),
            ("posted", () if is_own else ("asked", "taken"), f"PO {node} Q {name} ..", "on the ring of its node"),
            ("taken", ("served", "port"), f"TA .. Q {name} ..", "on the ring of the node that served it"),
            ("served", () if lines["port"] else ("taken", "sent on"), serves, f"in {at}" if taker else "in the section of the node that took it"),
            ("returned", gives, f"V {replier} {name} ..", f"in {self.section_of(replier)}"),
            ("replied", ("answered", "returned", "port", *heard), f"PO {taker or '..'} R {name} ..", "on the ring of the node that served it"),
            ("heard", ("ended",), f"TA {node} R {name} ..`, `GU {name} ..` or `LO {node} {name} ..", "on the ring of its node"),
            ("ended", ("heard",), ends, f"in {section}"),
        ]
        for role, present, entry, place in wanted:
            told = [line for one in present for line in lines[one]]
            if told and not lines[role]:
                yield Finding(told, f"a line `{entry}` is missing {place}: {{lines}} of call {name} cannot be without it", [name], (), True)
        if call.onward and lines["returned"] and not (self.calls[call.onward].lines["ended"] or self.calls[call.onward].lines["heard"]):
            end = call.onward.split(".")[0]
            why = f"a line `A {end} {call.onward} ..` is missing in {self.section_of(end)}: {{lines}} cannot be without it"
            yield Finding(lines["returned"], why, [name, call.onward], (), True)

    def is_reply_heard(self, lines):
        """Whether a call ended by a reply that its node took."""
        return any(self.journal.lines[line - 1].startswith("TA ") for line in lines["heard"])

    def of_leaves(self):
        """Nodes that leave their ring, come back, and ends of bridges that leave for good."""
        ring = self.journal.ring("")
        for head in self.journal.sections:
            for end in head.split()[1:] if head[0] == "W" else ():
                left = [entry.line for entry in ring if re.fullmatch(f"LE {end} [ES]", entry.text)]
                gone = [entry.line for entry in self.journal.of(head) if entry.text == f"G {end}"]
                if left and not gone:
                    why = f"a line `G {end}` is missing in {head}: in {{lines}} node {end} leaves its ring, and so the bridge for good"
                    yield Finding(left, why, (), (), True)
                if gone and not left:
                    yield Finding(gone, f"a line `LE {end} E` is missing on a ring: in {{lines}} the end {end} leaves it for good", (), (), True)
        yield from of_absences(ring)


def maker_of(entry):
    """The node that makes an entry of a ring."""
    return entry.words[1].split(".")[0]


def of_absences(ring):
    """A node that left without power neither sends, takes nor passes until it asks to come in."""
    away, asking = {}, {}
    for entry in ring:
        kind, node = entry.words[0], maker_of(entry)
        if kind == "JN" and node in asking:
            yield Finding([entry.line], f"{{lines}} stands a second time: node {node} asks to come in in {{others}} already", (), [asking[node]])
        elif kind == "JN" and node not in away:
            yield Finding([entry.line], f"a line `LE {node} D..` is missing before {{lines}}: node {node} has not left the ring", (), (), True)
        asking.pop(node, None)
        if kind == "JN":
            away.pop(node, None)
            asking[node] = entry.line
        elif node in away and kind in ("SE", "TA", "PA", "LE"):
            why = f"a line `JN {node}` is missing before {{lines}}: node {node} left the ring in {{others}}, and has not asked to come in again"
            yield Finding([entry.line], why, (), [away.pop(node)], True)
        if kind == "LE" and entry.words[2][0] == "D":
            away[node] = entry.line


def odd(statements, what, calls):
    """The lines that tell something else than most do; where no more tell one thing than another, all of them."""
    counts = Counter(value for value, _ in statements)
    if len(counts) < 2:
        return
    (usual, most), (_, second) = counts.most_common(2)
    others = [line for value, line in statements if value != usual]
    told = " and ".join(dict.fromkeys(shown(value) for value, _ in statements if most == second or value != usual))
    if most > second:
        agree = [line for value, line in statements if value == usual]
        yield Finding(others, f"{{lines}} {{has}} {told} as {what}, and {{others}} {{have}} {shown(usual)}", calls, agree)
    else:
        yield Finding([line for _, line in statements], f"{{lines}} do not agree: they have {told} as {what}", calls, is_open=True)


def shown(value, most=40):
    text = str(value)
    return text if len(text) <= most else text[:most] + ".."
