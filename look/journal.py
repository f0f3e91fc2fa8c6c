"""Reads journals and panel lines (docs/guide/JOURNAL.md), and says what became of each call and frame."""
import heapq
import re
from collections import deque
from dataclasses import dataclass, field

import modbus

NUMBER = r"(?:0|[1-9][0-9]{0,9})"
ID = rf"{NUMBER}\.{NUMBER}\.{NUMBER}"
# A route has at most five addresses; where a request is posted, its target stands before one.
ROUTE = rf"{NUMBER}(?:\.{NUMBER}){{0,4}}"
WAY = rf"{NUMBER}(?:\.{NUMBER}){{0,5}}"
PDU = r"(?:[0-9a-f]{2}){1,253}"
WORDS = r"(?:-|(?:[0-9a-f]{4})+)"
BLOCK = r"(?:-|(?:[0-9a-f]{4}){1,100})"
WORD = r"[0-9a-f]{4}"
LOCAL = rf"(?:GS|CS|PG:{WORDS}|GG:{NUMBER}:{NUMBER})"
CALL = rf"{ID}={ROUTE}:{PDU}|{ID}={LOCAL}"

STATION = rf"""
    (?P<kind>P)\ (?P<id>{ID})\ (?P<pdu>{PDU})\ (?P<reply>{PDU})"""
CONTROLLER = re.compile(
    rf"""(?P<event>[BEXK]) | (?P<row>[IS])\ (?P<at>{NUMBER}) | O\ (?P<out>{NUMBER})\ {BLOCK}
    | L(?P<calls>(?:\ (?:{CALL}))+) | {STATION} | N\ (?P<declined>{ID})\ {PDU}
    | F\ (?P<ended>{ID})\ (?:G\ (?P<good>{BLOCK})|B\ (?P<bad>{WORD}))""",
    re.VERBOSE,
)
HOST = re.compile(
    rf"""Q\ (?P<asked>{ID})\ (?P<route>{ROUTE})\ (?P<ask>{PDU})
    | A\ (?P<ended>{ID})\ (?:R\ (?P<good>{PDU})|B\ (?P<bad>{WORD})) | {STATION}""",
    re.VERBOSE,
)
BRIDGE = re.compile(
    rf"""T\ (?P<accepts>{NUMBER})\ (?P<accepted>{ID})\ (?P<rest>-|{ROUTE})\ (?P<pdu>{PDU})
    | U\ (?P<sends>{NUMBER})\ (?P<old>{ID})\ (?P<asked>{ID})\ (?P<route>{ROUTE})\ (?P<ask>{PDU})
    | A\ (?P<hears>{NUMBER})\ (?P<ended>{ID})\ (?:R\ (?P<good>{PDU})|B\ (?P<bad>{WORD}))
    | V\ (?P<gives>{NUMBER})\ (?P<returned>{ID})\ (?P<reply>{PDU})
    | G\ (?P<gone>{NUMBER})""",
    re.VERBOSE,
)
RING = re.compile(
    rf"""PO\ (?P<post>{NUMBER})\ (?:Q\ (?P<asked>{ID})\ (?P<route>{WAY})|R\ (?P<replied>{ID}))\ (?P<posted>{PDU})
    | SE\ (?P<send>{NUMBER})\ (?P<heard>[ASB])
    | TA\ (?P<take>{NUMBER})\ (?P<what>(?P<is_ask>Q)|R)\ (?P<taken>{ID})\ (?P<pdu>{PDU})(?(is_ask)(?:\ (?P<rest>{ROUTE}))?)
    | LO\ (?P<local>{NUMBER})\ (?P<own>{ID})\ (?P<op>{LOCAL}|RG|RC)\ (?:G\ (?P<good>{BLOCK})|B\ (?P<bad>{WORD}))
    | GU\ (?P<given>{ID})\ (?P<word>{WORD})
    | PA\ (?P<passed>{NUMBER})\ (?P<done>[01])\ (?P<words>{WORDS})
    | LE\ (?P<left>{NUMBER})\ (?:(?P<cause>[ES])|D(?P<down>{NUMBER}))
    | JN\ (?P<joined>{NUMBER})""",
    re.VERBOSE,
)
# The sections in their order: by the letter of its head what numbers stand there, and the form of an entry.
SECTIONS = {
    "C": (re.compile(rf"C ({NUMBER})"), CONTROLLER),
    "H": (re.compile(rf"H ({NUMBER})"), HOST),
    "W": (re.compile(rf"W ({NUMBER}) ({NUMBER})"), BRIDGE),
    # Network 0 has no number there.
    "R": (re.compile(r"R(?: ([1-9][0-9]{0,9}))?"), RING),
}
# The largest number that each of these fields takes.
LIMITS = {"at": 65535, "out": 65535}
IDS = ("id", "ended", "asked", "replied", "taken", "own", "given", "declined", "accepted", "old", "returned")
# Who makes an entry of a ring, and of a bridge; a give-up has its node in the name of the call.
MAKERS = ("post", "send", "take", "local", "passed", "left", "joined")
ENDS = ("accepts", "sends", "hears", "gives", "gone")
ONE_CALL = re.compile(rf"(?P<id>{ID})=(?:(?P<route>{ROUTE}):(?P<pdu>{PDU})|(?P<op>{LOCAL}))")


class JournalFault(Exception):
    """The number of the first line that does not read, from 1."""

    def __init__(self, line):
        super().__init__(line)
        self.line = line


@dataclass
class Entry:
    line: int
    text: str
    fields: dict


def head_of(letter, place):
    """The line that begins a section. A place is a node, the two ends of a bridge, or the number of a network."""
    numbers = place if letter == "W" else [place]
    return " ".join([letter, *(str(number) for number in numbers if letter != "R" or number)])


@dataclass
class Journal:
    """The entries of each section, by its place."""

    controllers: dict = field(default_factory=dict)
    hosts: dict = field(default_factory=dict)
    bridges: dict = field(default_factory=dict)
    rings: dict = field(default_factory=dict)

    def kinds(self):
        return {"C": self.controllers, "H": self.hosts, "W": self.bridges, "R": self.rings}

    def begin(self, letter, numbers):
        """Adds a section, and gives the list of its entries."""
        return self.kinds()[letter].setdefault(numbers if letter == "W" else numbers[0], [])

    def lists(self):
        """The entries of each section."""
        return [entries for sections in self.kinds().values() for entries in sections.values()]

    def ends(self):
        """The addresses of all bridge ends."""
        return {end for ends in self.bridges for end in ends}

    def text(self):
        """The journal as it is written."""
        lines = ["%JOURNAL"]
        for letter, sections in self.kinds().items():
            for place, entries in sections.items():
                lines += [head_of(letter, place)] + [entry.text for entry in entries]
        return "\n".join(lines + ["%END"]) + "\n"


def small(name, value):
    """Whether the numbers of a field are within their types."""
    if value is None or not isinstance(value, str):
        return True
    if name in IDS:
        node, path, seq = (int(part) for part in value.split("."))
        return node <= 255 and path <= 255 and seq < 2**32
    if name in ("route", "rest"):
        return value == "-" or all(int(address) <= 255 for address in value.split("."))
    if name in MAKERS or name in ENDS:
        return int(value) <= 255
    if name == "down":
        return int(value) < 2**32
    if name == "op":
        parts = value.split(":")
        return parts[0] != "GG" or (int(parts[1]) <= 255 and int(parts[2]) <= 65535)
    if name == "calls":
        return all(small(key, part) for call in ONE_CALL.finditer(value) for key, part in call.groupdict().items())
    return int(value) <= LIMITS[name] if name in LIMITS else True


def read_head(line):
    """The letter and the numbers of a line that begins a section; None where it begins none."""
    form, _ = SECTIONS.get(line[:1], (None, None))
    match = form.fullmatch(line) if form else None
    numbers = tuple(int(number or 0) for number in match.groups()) if match else ()
    return (line[0], numbers) if numbers and max(numbers) <= 255 else None


def read_entry(number, line, form):
    """The entry of a line, which has to read."""
    match = form.fullmatch(line) if form else None
    fields = {key: value for key, value in match.groupdict().items() if value is not None} if match else {}
    if not match or not all(small(key, value) for key, value in fields.items()):
        raise JournalFault(number)
    return Entry(number, line, fields)


def read_journal(text):
    """A journal, or the first line that does not read."""
    lines = text.split("\n")
    journal, entries, form, last = Journal(), [], None, (-1, -1)
    if lines[0] != "%JOURNAL":
        raise JournalFault(1)
    for number, line in enumerate(lines[1:], 2):
        if number == len(lines):
            raise JournalFault(number)
        if line == "%END":
            if lines[number:] != [""]:
                raise JournalFault(number + 1)
            return journal
        head = read_head(line)
        if head is None:
            entries.append(read_entry(number, line, form))
            continue
        # Those of a kind rise, bridges by their left ends.
        letter, numbers = head
        place = (list(SECTIONS).index(letter), numbers[0])
        if place <= last:
            raise JournalFault(number)
        last, form, entries = place, SECTIONS[letter][1], journal.begin(letter, numbers)
    raise JournalFault(len(lines))


@dataclass
class Panel:
    """The values of panel lines: by node and reference a list of a value a scan; and where a controller stopped or was dark."""

    values: dict = field(default_factory=dict)
    scans: dict = field(default_factory=dict)
    stops: dict = field(default_factory=dict)
    dark: dict = field(default_factory=dict)
    hosts: dict = field(default_factory=dict)
    lines: list = field(default_factory=list)

    def changes(self, node, reference):
        """Scan and value, again and again, for each scan in which the value is another than before; None without power."""
        found, before = [], None
        values = self.values.get(node, {}).get(reference, [])
        for scan, value in sorted([*values, *((scan, None) for scan in self.dark.get(node, []))], key=lambda pair: pair[0]):
            if value != before:
                found += [scan, value]
                before = value
        return found

    def lit(self, node):
        """The number of scans of which a controller has a line with values."""
        last = self.scans.get(node, 0)
        return last - sum(scan < last for scan in self.dark.get(node, []))


def read_panel(text):
    panel = Panel()
    for line in text.splitlines():
        words = line.split(" ")
        if words[0] == "H":
            panel.hosts.setdefault(int(words[1]), []).append(" ".join(words[3:]))
            continue
        panel.lines.append(line)
        scan, node = int(words[1]), int(words[3])
        values = panel.values.setdefault(node, {})
        if words[4:5] == ["STOP"]:
            panel.stops[node] = (scan, int(words[5]))
        elif words[4:5] == ["OFF"]:
            panel.dark.setdefault(node, []).append(scan)
        else:
            panel.scans[node] = scan
            for word in words[4:]:
                reference, _, value = word.partition("=")
                values.setdefault(reference, []).append((scan, int(value)))
    return panel


def split_trace(text):
    """A trace as its journal and its panel lines."""
    head, mark, rest = text.partition("\n%END\n")
    return head + mark, rest


# What became of calls and frames.


@dataclass
class Call:
    id: str
    node: int
    route: str = ""
    words: str = ""
    pdu: str = ""
    kind: str = "local"
    began: list = None
    ended: list = None
    served: list = None
    declined: list = None
    # The name under which a bridge sent its request on.
    onward: str = ""
    outcome: str = "open"
    result: str = ""
    raw: str = ""
    sends: list = field(default_factory=list)
    lines: list = field(default_factory=list)


LOCAL_WORDS = {
    "GS": "own statistics",
    "CS": "clear the own statistics",
    "RG": "statistics, for another node",
    "RC": "clear the statistics, for another node",
}


def target_words(route):
    """Where a route leads: to its last address, along the others."""
    return f"node {route.rpartition('.')[2]}" + (f" by route {route}" if "." in route else "")


def local_words(op):
    name, *rest = op.split(":")
    if name == "PG":
        return f"put global words {'none' if rest[0] == '-' else decimal(rest[0])}"
    if name == "GG":
        return f"{rest[1]} global words of node {rest[0]}"
    return LOCAL_WORDS[name]


def decimal(words):
    return "" if words == "-" else modbus.listed(int(words[at : at + 4], 16) for at in range(0, len(words), 4))


class Calls:
    """All calls of a journal, by their names, in the order in which they stand."""

    def __init__(self, journal):
        self.by_id = {}
        # By node the scans that ended with power.
        self.powered = {}
        for node, entries in journal.controllers.items():
            self.read_controller(node, entries)
        for node, entries in journal.hosts.items():
            self.read_host(node, entries)
        for ends, entries in journal.bridges.items():
            self.read_bridge(head_of("W", ends), entries)

    def call(self, name, entry, section):
        call = self.by_id.setdefault(name, Call(name, int(name.split(".")[0])))
        call.lines.append([entry.line, section, entry.text])
        return call

    def read_controller(self, node, entries):
        scan, is_inside = 0, False
        for entry in entries:
            fields = entry.fields
            event = fields.get("event")
            if event in ("B", "K"):
                scan += 1
            if event:
                is_inside = event == "B"
            if event == "E":
                self.powered.setdefault(node, []).append(scan)
            at = [scan, is_inside, entry.line]
            for one in ONE_CALL.finditer(fields.get("calls", "")):
                call = self.call(one["id"], entry, f"C {node}")
                call.began = at
                if one["pdu"]:
                    self.ask(call, one["route"], one["pdu"], "controller")
                else:
                    call.words, call.route = local_words(one["op"]), str(node)
            self.read_served(node, entry, at, "C")
            if "declined" in fields:
                self.call(fields["declined"], entry, f"C {node}").declined = [node, *at]
            if "ended" in fields:
                call = self.call(fields["ended"], entry, f"C {node}")
                call.ended = at
                self.end_of_block(call, fields)

    def read_host(self, node, entries):
        for entry in entries:
            fields, at = entry.fields, [0, False, entry.line]
            if "asked" in fields:
                call = self.call(fields["asked"], entry, f"H {node}")
                call.began = at
                self.ask(call, fields["route"], fields["ask"], "host")
            self.read_served(node, entry, at, "H")
            if "ended" in fields:
                call = self.call(fields["ended"], entry, f"H {node}")
                call.ended = at
                self.end_of_request(call, fields)

    def read_bridge(self, section, entries):
        for entry in entries:
            fields, at = entry.fields, [0, False, entry.line]
            for name in ("accepted", "old", "returned"):
                if name in fields:
                    self.call(fields[name], entry, section)
            if "asked" in fields:
                self.by_id[fields["old"]].onward = fields["asked"]
                call = self.call(fields["asked"], entry, section)
                call.began = at
                self.ask(call, fields["route"], fields["ask"], "bridge")
            if "ended" in fields:
                call = self.call(fields["ended"], entry, section)
                call.ended = at
                self.end_of_request(call, fields)

    def at_target(self, call):
        """The call as which a request came to its target, under the last of its names."""
        names = {call.id}
        while call.onward and call.onward not in names:
            call = self.by_id[call.onward]
            names.add(call.id)
        return call

    def read_served(self, node, entry, at, letter):
        if entry.fields.get("kind") == "P":
            call = self.call(entry.fields["id"], entry, f"{letter} {node}")
            call.served = [node, *at]

    def ask(self, call, route, pdu, kind):
        call.route, call.pdu, call.kind, call.words = route, pdu, kind, modbus.request_words(pdu)

    def end_of_block(self, call, fields):
        if "good" in fields:
            call.outcome, call.raw = "good", fields["good"]
            call.result = decimal(fields["good"]) or "done"
        else:
            call.outcome, call.raw = "bad", fields["bad"]
            call.result = modbus.error_words(fields["bad"])

    def end_of_request(self, call, fields):
        if "bad" in fields:
            self.end_of_block(call, fields)
            return
        call.raw = fields["good"]
        call.outcome = "bad" if modbus.is_exception(fields["good"]) else "good"
        call.result = modbus.reply_words(call.pdu, fields["good"]) if call.pdu else fields["good"]


def maker(entry):
    """The node that makes an entry of a ring."""
    fields = entry.fields
    return int(next((fields[name] for name in MAKERS if name in fields), None) or fields["given"].split(".")[0])


class Ring:
    """The entries of a ring as the rows of a chart: frames with their fates, and idle rounds of the token as one row."""

    def __init__(self, journal, network, plant, calls, scans):
        self.network, self.plant, self.calls, self.scans = network, plant, calls, scans
        self.entries, self.ends, self.fates = journal.rings[network], journal.ends(), plant.fates_of(network)
        # On a ring with a number those are members that do something there.
        self.members = {maker(entry) for entry in self.entries} if network else set(plant.nodes)
        # The nodes that ask to come in, and the one that has left in a turn that goes on: it gives up its calls.
        self.asking, self.leaving = set(), None
        self.outboxes = {}
        self.passed = {}
        self.sent = 0
        self.rows = []
        self.round, self.turns_left, self.hold = 1, len(self.members), []
        for place, entry in enumerate(self.entries, 1):
            self.add(place, entry)
        self.rows += self.hold

    def scan(self):
        """The repetition that a hold belongs to; 0 in a run of threads, where no scan waits for the token."""
        return min((self.round - 1) // self.plant.rotations + 1, self.scans) if self.scans else 0

    def order(self):
        """Where a row stands among those of other rings: a serial run makes a round of each in turn."""
        return {"scan": self.scan(), "round": self.round if self.scans else 0, "network": self.network}

    def row(self, place, entry, kind, node, **more):
        name = more.get("id")
        row = {"at": place, "line": entry.line, "kind": kind, "node": node, "text": entry.text} | self.order() | more
        began = self.calls.by_id[name].began if name in self.calls.by_id else None
        if self.scans and node not in self.members and began:
            # The visit of a node that has left: it holds no token, and its call tells the scan.
            row["scan"] = max(row["scan"], began[0])
        if name:
            self.calls.call(name, entry, head_of("R", self.network))
        self.hold.append(row)
        return row

    def add(self, place, entry):
        f = entry.fields
        if self.leaving is not None and not self.goes_on(f):
            self.leaving = None
            self.end_turn()
        if "post" in f:
            self.post(place, entry, f)
        elif "send" in f:
            self.send(place, entry, int(f["send"]), f["heard"])
        elif "take" in f:
            more = {"onward": target_words(f["rest"])} if "rest" in f else {}
            self.row(place, entry, "take", int(f["take"]), id=f["taken"], what=f["what"], **more)
        elif "local" in f:
            result = decimal(f["good"]) or "done" if "good" in f else modbus.error_words(f["bad"])
            mark = "came" if "good" in f else "failed"
            self.row(place, entry, "local", int(f["local"]), id=f["own"], words=local_words(f["op"]), fate=result, mark=mark)
        elif "given" in f:
            node = int(f["given"].split(".")[0])
            self.row(place, entry, "give up", node, id=f["given"], fate=modbus.error_words(f["word"]))
            self.outboxes[node] = deque(frame for frame in self.outboxes.get(node, ()) if frame["shown"]["id"] != f["given"])
        elif "passed" in f:
            self.pass_on(place, entry, int(f["passed"]), f)
        elif "joined" in f:
            self.join(place, entry, int(f["joined"]))
        else:
            self.leave(place, entry, int(f["left"]), f)

    def leave(self, place, entry, node, f):
        cause = {"E": "all are done", "S": "its passes are spent"}.get(f.get("cause"), "power has failed")
        self.row(place, entry, "leave", node, words=f"leaves the ring: {cause}")
        self.admit()
        self.members.discard(node)
        self.leaving = node
        if "down" in f:
            # Its boxes and its global words are lost with the power.
            self.outboxes.pop(node, None)
            self.passed.pop(node, None)

    def goes_on(self, f):
        """Whether an entry still belongs to the turn in which a node left."""
        if "joined" in f:
            return int(f["joined"]) == self.leaving and self.scan_of_join(self.leaving) == self.scan()
        return "given" in f and int(f["given"].split(".")[0]) == self.leaving

    def scan_of_join(self, node):
        """A node comes back behind the first scan that its controller ends with power."""
        return next((scan for scan in self.calls.powered.get(node, []) if scan >= self.scan()), 0) if self.scans else 0

    def join(self, place, entry, node):
        scan = self.scan_of_join(node)
        if scan > self.scan():
            # The node was away: it asks between the scans and the rounds of that repetition.
            self.rows += self.hold
            self.hold, self.round = [], (scan - 1) * self.plant.rotations + 1
            self.turns_left = None
        self.row(place, entry, "join", node, words="has power, and asks to come in again")
        (self.asking if self.members else self.members).add(node)
        if self.turns_left is None:
            self.turns_left = len(self.members)

    def admit(self):
        """At a pass, and at a leave, all that ask come in."""
        self.members |= self.asking
        self.asking = set()

    def post(self, place, entry, f):
        node, is_request = int(f["post"]), "asked" in f
        name = f["asked"] if is_request else f["replied"]
        route = f["route"] if is_request else name.split(".")[0]
        call = self.calls.by_id.get(name)
        asked = call.pdu if call and call.pdu else "00"
        words = modbus.request_words(f["posted"]) if is_request else modbus.reply_words(asked, f["posted"])
        to, dot, _ = route.partition(".")
        shown = {"id": name, "what": "Q" if is_request else "R", "to": int(to), "target": target_words(route), "words": words}
        self.outboxes.setdefault(node, deque()).append({"shown": shown, "is_onward": bool(dot), "tries": 0, "came": False})
        self.row(place, entry, "post", node, **shown)

    def send(self, place, entry, node, heard):
        self.sent += 1
        letter = self.fates[(self.sent - 1) % len(self.fates)] if self.fates else None
        box = self.outboxes.get(node)
        if not box:
            self.row(place, entry, "send", node, fate="nothing to send")
            return
        frame = box[0]
        frame["tries"] += 1
        fate, mark = self.fate(frame, letter, heard)
        row = self.row(place, entry, "send", node, **frame["shown"], fate=fate, mark=mark, tries=frame["tries"])
        self.calls.by_id[row["id"]].sends.append(row["at"])
        if heard in "AB" or frame["tries"] == 3:
            box.popleft()

    def fate(self, frame, letter, heard):
        """What became of a transmission, in words and as the mark of its arrow."""
        came_before, is_member = frame["came"], frame["shown"]["to"] in self.members
        # A node that is no bridge hears no frame that is to go on from it.
        hears = is_member and (not frame["is_onward"] or frame["shown"]["to"] in self.ends)
        frame["came"] = came_before or (hears and letter != "L")
        again = ", a repeat that is dropped" if came_before else ""
        last = ", no further try" if frame["tries"] == 3 else ""
        if heard == "A":
            return f"acknowledged{again}", "came"
        if heard == "B":
            return "four requests wait there", "busy"
        if not hears:
            return f"{'no bridge' if is_member else 'nobody'} there{last}", "nobody"
        if letter is None:
            return f"no acknowledgement{last}", "lost"
        if letter == "L":
            return f"lost{last}", "lost"
        return f"received{again}, its acknowledgement lost{last}", "unheard"

    def pass_on(self, place, entry, node, f):
        new_words = f["words"] != self.passed.get(node, "-")
        self.passed[node] = f["words"]
        words = f"passes the token with global words {decimal(f['words']) or 'none'}" if new_words else "passes the token"
        last = self.rows[-1] if self.rows else None
        if not self.hold and not new_words and last and last["kind"] == "idle" and last["scan"] == self.scan():
            last["count"] += 1
            last["end"] = entry.line
        elif not self.hold and not new_words:
            row = {"at": place, "line": entry.line, "end": entry.line, "kind": "idle", "node": node, "count": 1}
            self.rows.append(row | self.order())
        else:
            self.row(place, entry, "pass", node, words=words, done=f["done"] == "1")
        self.admit()
        self.end_turn()

    def end_turn(self):
        """A round has as many turns as there were members at its beginning."""
        self.rows += self.hold
        self.hold = []
        self.turns_left -= 1
        if self.turns_left == 0:
            self.round, self.turns_left = self.round + 1, len(self.members)


def chart(journal, plant, calls, scans=0):
    """The rows of all rings: in the order of a serial run, or else ring by ring."""
    rings = [Ring(journal, network, plant, calls, scans).rows for network in journal.rings]
    return list(heapq.merge(*rings, key=lambda row: (row["scan"], row["round"])))


def ring_lines(rings):
    """The line of each entry of a ring that is linked with another list, by what it is and the call's name."""
    found = {}
    for entry in rings:
        f = entry.fields
        if "asked" in f:
            found["posted", f["asked"]] = entry.line
        elif "replied" in f:
            found["replied", f["replied"]] = entry.line
        elif "taken" in f:
            found["taken " + f["what"], f["taken"]] = entry.line
        elif "given" in f:
            found["given", f["given"]] = entry.line
        elif "own" in f and f["op"] not in ("RG", "RC"):
            found["local", f["own"]] = entry.line
    return found


def caused(entry, made):
    """Pairs of lines, a cause and what stands behind it, between an entry of a station or a bridge and a ring."""
    f, line = entry.fields, entry.line
    begun = [one["id"] for one in ONE_CALL.finditer(f.get("calls", ""))] + ([f["asked"]] if "asked" in f else [])
    pairs = [(line, made.get((kind, name))) for name in begun for kind in ("posted", "local")]
    if "ended" in f:
        pairs += [(made.get((kind, f["ended"])), line) for kind in ("taken R", "given", "local")]
    came, went = f.get("accepted"), f.get("returned")
    if f.get("kind") == "P":
        came = went = f["id"]
    pairs += [(made.get(("taken Q", came)), line), (line, made.get(("replied", went)))]
    return [pair for pair in pairs if None not in pair]


def caused_on_ring(entry, made):
    """The same between entries of a ring: what a port answers stands between the Take of its request and the Reply to it."""
    f, line = entry.fields, entry.line
    pairs = []
    if "replied" in f:
        pairs.append((made.get(("taken Q", f["replied"])), line))
    elif f.get("op") in ("RG", "RC"):
        pairs += [(made.get(("taken Q", f["own"])), line), (line, made.get(("replied", f["own"])))]
    return [pair for pair in pairs if None not in pair]


def caused_in_bridge(entries):
    """The same within a bridge: a request goes on, and a reply goes back, behind what came."""
    came, sent_on, ended = {}, {}, {}
    for entry in entries:
        f = entry.fields
        came |= {f["accepted"]: entry.line} if "accepted" in f else {}
        sent_on |= {f["old"]: f["asked"]} if "old" in f else {}
        ended |= {f["ended"]: entry.line} if "ended" in f else {}
    pairs = []
    for entry in entries:
        f, line = entry.fields, entry.line
        pairs += [(came.get(f[name]), line) for name in ("old", "returned") if name in f]
        pairs += [(ended.get(sent_on.get(f["returned"])), line)] if "returned" in f else []
    return [pair for pair in pairs if None not in pair]


def waiting_lines(journal):
    """Two lines of which each waits for the other, where the lists of a journal fit no order in time; else None.

    An entry stands behind the one before it in its list, and behind its cause in another list.
    """
    lists, rings = journal.lists(), [entry for entries in journal.rings.values() for entry in entries]
    others, made = lists[: len(lists) - len(journal.rings)], ring_lines(rings)
    pairs = [(first.line, then.line) for entries in lists for first, then in zip(entries, entries[1:])]
    pairs += [pair for entries in others for entry in entries for pair in caused(entry, made)]
    pairs += [pair for entry in rings for pair in caused_on_ring(entry, made)]
    pairs += [pair for entries in journal.bridges.values() for pair in caused_in_bridge(entries)]
    left = lines_that_wait(pairs, [entry.line for entries in lists for entry in entries])
    if not left:
        return None
    # Each line that is left waits for another that is left: going back comes to a cycle.
    line, seen = next(iter(left)), {}
    while line not in seen:
        seen[line] = len(seen)
        line = next(first for first in left[line] if first in left)
    cycle = [one for one, place in seen.items() if place >= seen[line]]
    return min(cycle), max(cycle)


def lines_that_wait(pairs, lines):
    """The lines that no order can reach, each with those that it waits for."""
    causes, behind = {line: [] for line in lines}, {line: [] for line in lines}
    for first, then in pairs:
        causes[then].append(first)
        behind[first].append(then)
    count = {line: len(firsts) for line, firsts in causes.items()}
    free = deque(line for line in lines if count[line] == 0)
    while free:
        line = free.popleft()
        del causes[line]
        for then in behind[line]:
            count[then] -= 1
            if count[then] == 0:
                free.append(then)
    return causes
