"""Searches all runs of a controller's field in plain Python, for `plants/never`: states in breadth, each made by a walk over the ladder (plants/walking.py).
And all runs of two controllers in one field, for `plants/same`.

A state is what no scan tells from another: the references, the edge bits, the stop code and the clock modulo 100 ticks. A search for something counts
those that differ in what can matter to it: in references of its cone, in edge bits of networks that matter to it, in the stop code or in that clock.
"""
import itertools
from collections import Counter, deque

import walking
from elements import elements, is_five_digits

# The least common period of the three time bases.
CLOCK = 100
# So many scans are made in a search.
SCANS = 100000
# What each operand of an element is to be, by the table of docs/guide/PLANT_FILE.md.
SLOTS = {name: slots for name, (_, slots) in elements().items()}
# They say what of a segment is solved.
DIRECTING = ("SKP", "LAB", "JSR", "RET")
COUNTERS = ("UCTR", "DCTR")


class TooMany(Exception):
    """There are more scans than are made here."""


class Cone:
    """What can matter to what is asked, STOP or a reference: the least set of references that has it, if it is one, and the control of each row of the
    order of solve, and all that a network reads which stores in one of the set or directs the solve."""

    def __init__(self, one, asked):
        self.references = {int(control) for _, control, _, _ in one.orders if control != "-"} | (set() if asked == "STOP" else {int(asked)})
        networks = [network for segment in one.segments for network in segment.networks]
        grew = True
        while grew:
            read = set().union(*(read_in(cell) for network in networks if self.matters(network) for cell in network.cells))
            grew = not read <= self.references
            self.references |= read
        self.counters = [self.matters(network) for _, network, cell in one.cells() if cell.name in COUNTERS]

    def matters(self, network):
        """Whether a network does: it can store in one of these references, or it directs the solve."""
        return any(cell.name in DIRECTING or stored_in(cell) & self.references for cell in network.cells)

    def of(self, state):
        """What of a state can matter."""
        clock, stop, edges, held = state
        return (clock, stop, tuple(itertools.compress(edges, self.counters)), frozenset(one for one in held if one[0] in self.references))


def run_of(cell, is_such):
    """The references of an element's operands whose slot is such, with all that it uses from them on."""
    length = int(cell.operands[-1]) if cell.operands else 0
    found = set()
    for slot, word in zip(SLOTS[cell.name], cell.operands):
        if is_five_digits(word) and is_such(slot):
            found.update(range(int(word), int(word) + slot.count(length)))
    return found


def read_in(cell):
    """What an element reads: all that it names but the coil that it drives, so also registers that are its target."""
    return run_of(cell, lambda slot: slot.kinds != "0")


def stored_in(cell):
    """What an element can store in: its coil, its targets, and the number that MBIT and SENS move on, if it is a holding register."""
    moved = {int(cell.operands[0])} if cell.name in ("MBIT", "SENS") and is_five_digits(cell.operands[0]) and cell.operands[0][0] == "4" else set()
    return run_of(cell, lambda slot: slot.kinds in ("0", "4")) | moved


class Field:
    """A controller by itself, and what its field may bring at each input exchange."""

    def __init__(self, plant, node):
        self.plant, self.one = plant, plant.controller(node)
        self.drops = [None if row[2] == "-" else int(row[2]) for row in self.one.orders]
        rows = {drop["number"]: max(1, len(drop.get("script", []))) for drop in self.one.table.get("drop", [])}
        # The first exchange of a scan changes fastest, as the digits of a number do.
        turned = [range(1, rows[drop] + 1) if drop is not None else (1,) for drop in reversed(self.drops)]
        self.ways = [way[::-1] for way in itertools.product(*turned)]
        self.walk = walking.Controller(self.one, plant)
        self.counters = [id(cell) for _, _, cell in self.one.cells() if cell.name in COUNTERS]

    @property
    def start(self):
        return (0, 0, (0,) * len(self.counters), frozenset())

    def exchanges(self, way):
        """The input exchanges of a scan in which the field brings these rows: drop and row."""
        return [(drop, row) for drop, row in zip(self.drops, way) if drop is not None]

    def next(self, state, way):
        """The state after a scan, or after a stop in it, in which the field brings these rows."""
        clock, stop, edges, held = state
        if stop:
            return state
        walk = self.walk
        walk.now, walk.held, walk.edges, walk.lines, walk.is_stopped = clock, dict(held), dict(zip(self.counters, edges)), [], False
        walk.past = walk.discretes_on()
        walk.begin()
        for row, (drop, number) in enumerate(zip(self.drops, way), 1):
            if drop is not None:
                # `read_drop` counts the exchange, and takes the row of that number.
                walk.exchanges[drop] = number - 1
                walk.read_drop(row)
            walk.solve_row(row)
            if walk.is_stopped:
                break
        edges = tuple(int(bool(walk.edges.get(counter))) for counter in self.counters)
        held = frozenset((number, value) for number, value in walk.held.items() if value)
        return (walk.now % CLOCK, int(walk.is_stopped), edges, held)

    def is_so(self, state, asked):
        """Whether what must never be is so: STOP, or a reference as it is written."""
        return bool(state[1]) if asked == "STOP" else (int(asked), 1) in state[3]

    def search(self, asked, depth=None, most=SCANS):
        """How many states there are, no two alike on the cone, and None; or None, and the ways of the first scans after which it is so, as few as there are."""
        count, ways, _ = self.search_by(Cone(self.one, asked).of, asked, depth, most)
        return count, ways

    def search_whole(self, asked, depth=None, most=SCANS):
        """The same from all states that differ in anything at all, with how many these are: none is taken for another one before the end."""
        states, ways, found = self.search_by(lambda state: state, asked, depth, most)
        return None if states is None else len(set(map(Cone(self.one, asked).of, found))), ways, states

    def search_by(self, key_of, asked, depth, most):
        """The same, where states with one key are taken for one; and all keys."""
        first = key_of(self.start)
        found = {first: (None, None, 0)}
        queue = deque([(first, self.start)])
        while queue:
            key, state = queue.popleft()
            if self.is_so(state, asked):
                return None, self.path_to(key, found), found
            after = found[key][2] + 1
            if state[1] or depth is not None and after > depth:
                continue
            for way in self.ways:
                new = self.next(state, way)
                new_key = key_of(new)
                if new_key not in found:
                    found[new_key] = (key, way, after)
                    queue.append((new_key, new))
            most -= len(self.ways)
            if most < 0:
                raise TooMany
        return len(found), None, found

    def path_to(self, state, found):
        ways = []
        while found[state][1] is not None:
            state, way, _ = found[state]
            ways.append(way)
        return ways[::-1]

    def panel(self, ways):
        """The panel lines of the run in which the field brings these rows."""
        state, lines = self.start, []
        for scan, way in enumerate(ways, 1):
            state = self.next(state, way)
            values = dict(state[3])
            shown = [f"{name}={values.get(int(name), 0)}" for name in self.one.panel]
            lines.append(" ".join([f"S {scan} N {self.one.node}", *(shown if not state[1] else ["STOP 1"])]))
            if state[1]:
                break
        return lines

    def text(self, asked, depth=None):
        """What is due, where the rows of a run are those that are found first."""
        count, ways = self.search(asked, depth)
        if ways is None:
            return f"holds {count}{f' to {depth}' if depth else ''}\n"
        lines = [f"I {scan} {drop} {row}" for scan, way in enumerate(ways, 1) for drop, row in self.exchanges(way)]
        return "\n".join([f"fails {len(ways)}", *lines, *self.panel(ways)]) + "\n"


class Pair:
    """Two controllers that run side by side in one field: at each scan the j-th exchange of a drop in that scan brings both the same row."""

    def __init__(self, old, new, node):
        self.old, self.new = Field(old, node), Field(new, node)
        # The exchanges of a scan, a drop and j: those of the old one in their order, and then those that the new one has beside them.
        own = numbered(self.old.drops)
        self.slots = own + [slot for slot in numbered(self.new.drops) if slot not in own]
        rows = {drop: brought(self.old, drop) for drop, _ in self.slots}
        turned = [range(1, len(rows[drop]) + 1) for drop, _ in reversed(self.slots)]
        self.ways = [way[::-1] for way in itertools.product(*turned)]
        # The row of the new script that brings what a row of the old one does.
        there = {drop: {row: place for place, row in enumerate(brought(self.new, drop), 1)} for drop in rows}
        self.turned = {(drop, place): there[drop][row] for drop in rows for place, row in enumerate(rows[drop], 1)}

    @property
    def start(self):
        return (self.old.start, self.new.start)

    def exchanges(self, way):
        """The input exchanges of a scan in which the field brings these rows: drop and row of the old script."""
        return [(drop, row) for (drop, _), row in zip(self.slots, way)]

    def ways_of(self, way):
        """What that brings each of the two, for each row of its order of solve."""
        told = dict(zip(self.slots, way))
        old, new = iter(numbered(self.old.drops)), iter(numbered(self.new.drops))
        left = tuple(1 if drop is None else told[next(old)] for drop in self.old.drops)
        right = tuple(1 if drop is None else self.turned[drop, told[next(new)]] for drop in self.new.drops)
        return left, right

    def next(self, pair, way):
        left, right = self.ways_of(way)
        return (self.old.next(pair[0], left), self.new.next(pair[1], right))

    def is_so(self, pair):
        """Whether the panel lines of the scan that ended so differ."""
        return shown(self.old.one, pair[0]) != shown(self.new.one, pair[1])

    def search(self, depth=None, most=SCANS):
        """How many pairs of states there are, and None; or None, and the ways of the first scans after which the panel lines differ, as few as there are."""
        found = {self.start: (None, None, 0)}
        queue = deque(found)
        while queue:
            pair = queue.popleft()
            if self.is_so(pair):
                return None, self.old.path_to(pair, found)
            after = found[pair][2] + 1
            # Where one has stopped both have, and nothing comes any more.
            if pair[0][1] or depth is not None and after > depth:
                continue
            for way in self.ways:
                new = self.next(pair, way)
                if new not in found:
                    found[new] = (pair, way, after)
                    queue.append(new)
            most -= len(self.ways)
            if most < 0:
                raise TooMany
        return len(found), None

    def panels(self, ways):
        """Both panel lines of the last of these scans, the old one's first."""
        pair = self.start
        for way in ways:
            pair = self.next(pair, way)
        sides = zip((self.old.one, self.new.one), pair)
        return [" ".join([f"S {len(ways)} N {one.node}", *shown(one, state)]) for one, state in sides]

    def text(self, depth=None):
        """What is due, where the rows of a run are those that are found first."""
        count, ways = self.search(depth)
        if ways is None:
            return f"holds {count}{f' to {depth}' if depth else ''}\n"
        lines = [f"I {scan} {drop} {row}" for scan, way in enumerate(ways, 1) for drop, row in self.exchanges(way)]
        return "\n".join([f"fails {len(ways)}", *lines, *self.panels(ways)]) + "\n"


def numbered(drops):
    """The exchanges of a scan: each drop that is read, and for which time in that scan."""
    times = Counter()
    found = []
    for drop in drops:
        if drop is not None:
            times[drop] += 1
            found.append((drop, times[drop]))
    return found


def brought(field, number):
    """What each row of a drop's script brings, as words."""
    return rows_of(field.walk.drops[number])


def rows_of(drop):
    """The rows of a script, as words; an empty one is one row of zeros."""
    size = sum(1 if kind == "in" else int(more[0]) for kind, _, *more in map(walking.words_of, drop["modules"]) if kind in ("in", "inw"))
    return [tuple(word.upper() for word in walking.words_of(row)) for row in drop.get("script") or [" ".join(["0000"] * size)]]


def difference(old, new, node):
    """The first thing in which two controllers differ so that no field can be that of both, as the place of a refusal, or None."""
    sides = [(plant, plant.controller(node)) for plant in (old, new)]
    if sides[0][1].panel != sides[1][1].panel:
        return "panel"
    times = [plant.document.get("scan_time", 10) for plant, _ in sides]
    if times[0] != times[1]:
        return "scan_time"
    drops = [{drop["number"]: takes(drop) for drop in one.table.get("drop", [])} for _, one in sides]
    numbers = [number for number in sorted({*drops[0], *drops[1]}) if drops[0].get(number) != drops[1].get(number)]
    return f"drop {numbers[0]}" if numbers else None


def takes(drop):
    """What a drop takes: its modules in their order, and its rows in any order, however often."""
    return [tuple(walking.words_of(module)) for module in drop["modules"]], set(rows_of(drop))


def shown(one, state):
    """What a panel line shows of a state."""
    values = dict(state[3])
    return ["STOP 1"] if state[1] else [f"{name}={values.get(int(name), 0)}" for name in one.panel]
