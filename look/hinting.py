"""What an engineer would want to be told of a plant that is accepted. None of it is an error, and nothing is run."""
import itertools
import math
from collections import defaultdict
from dataclasses import dataclass

import ladder
import modbus
import pairs

# Outputs that may be on without power at the top node, from 0.
ALWAYS = {name: (0, 1) for name in ladder.TIMERS + ladder.COUNTERS}
ALWAYS |= {name: (1,) for name in ("R>T", "T>R", "T>T")} | {name: (1, 2) for name in ("FIN", "FOUT")}
# By operation of an MSTR: which registers of the control block it has to find set, and whether it fills the data area.
NEEDS = {1: (3, 4, 5), 2: (3, 4, 5), 3: (3,), 4: (), 5: (3,), 6: (3, 5), 7: (3, 5), 8: (5,)}
FILLS = (2, 3, 6, 7)
ROUTED = (1, 2, 7, 8)
SERVES = (1, 2)
# What an end of a bridge answers itself: the requests for its statistics, and to clear them.
STATISTICS = ("0800150003", "0800150004")
# The most routes of a block that are looked at, where constants give its registers several values.
MOST_ROUTES = 64


@dataclass(order=True)
class Hint:
    line: int
    text: str


def register(first, offset):
    return f"{first[0]}{int(first[1:]) + offset:04}"


def listed(references):
    """References in words, rows of them as ranges: 40001 to 40003, 40007."""
    found = []
    for kind in "0134":
        numbers = sorted(int(reference[1:]) for reference in references if reference[0] == kind)
        for first, last in pairs.ranges_of(numbers):
            found.append(f"{kind}{first:04}" if first == last else f"{kind}{first:04} to {kind}{last:04}")
    return ", ".join(found)


class ControllerHints:
    """The hints of one controller. Places are a segment, a network and a cell."""

    def __init__(self, one, plant):
        self.one, self.plant = one, plant
        self.found = []
        self.places = list(one.cells())
        self.mstrs = [place for place in self.places if place[2].name == "MSTR"]
        self.from_outside = {reference for access in self.written_from_outside() for reference in access.references()}
        self.looked_at = self.read_from_outside()
        self.reach = {}
        self.writers = defaultdict(list)
        for place in self.places:
            if place[2].name != "MSTR":
                self.add_writer(place, [one for access in place[2].accesses() if access.writes for one in access.references()])
        # What a message block writes depends on its operation, which other blocks set.
        for place, references in [(place, self.mstr_writes(place[2])) for place in self.mstrs]:
            self.add_writer(place, references)
        self.readers = self.all_readers()

    def hint(self, line, text):
        self.found.append(Hint(line or self.one.line or 0, f"controller {self.one.node}{text}"))

    def at(self, place, text):
        segment, network, cell = place
        self.hint(cell.line, f", segment {segment.number} network {network.number}, '{cell.text}': {text}")

    # Who writes and who reads.

    def operations(self, cell):
        """The operations that an MSTR can have, or None where that is not told by constants."""
        return self.constants(register(cell.operands[0], 0))

    def add_writer(self, place, references):
        for reference in references:
            self.writers[reference].append(place)

    def mstr_writes(self, cell):
        control, area, length = cell.operands
        operations = self.operations(cell)
        found = [register(control, 1)]
        if operations is None or 6 in operations:
            found.append(register(control, 3))
        if operations is None or operations & set(FILLS):
            found += [register(area, offset) for offset in range(int(length))]
        return found

    def constants(self, reference):
        """The values that constants give a register, or None where something else may write it."""
        found = set()
        for _, _, cell in self.writers.get(reference, []):
            is_sum = cell.name in ("ADD", "SUB") and not any(ladder.is_five_digits(one) for one in cell.operands[:2])
            if not is_sum:
                return None
            a, b = (int(one) for one in cell.operands[:2])
            found.add((a + b) % 10000 if cell.name == "ADD" else abs(a - b))
        return None if self.is_from_outside(reference) else found or {0}

    def routes(self, cell):
        """The routes that an MSTR can have, or None where that is not told by constants."""
        count = 5 if self.plant.is_version_two else 1
        values = [self.constants(register(cell.operands[0], offset)) for offset in range(4, 4 + count)]
        if any(value is None for value in values) or math.prod(map(len, values)) > MOST_ROUTES:
            return None
        return [list(itertools.takewhile(bool, row)) for row in itertools.product(*map(sorted, values))]

    def requests(self):
        for host in self.plant.hosts:
            for request in host["requests"]:
                if request["route"][-1] == self.one.node:
                    yield from modbus.touched(request["pdu"])

    def written_from_outside(self):
        """What drops that are read and hosts' requests write."""
        used = {row[2] for row in self.one.orders}
        found = []
        for drop in self.one.table.get("drop", []):
            for module in drop["modules"]:
                kind, first, *count = module.split()
                if kind in ("in", "inw") and str(drop["number"]) in used:
                    found.append(ladder.Access(first, int(count[0]) if count else 16, False, True))
        for kind, address, quantity, is_write in self.requests():
            if is_write and address < 9984:
                found.append(ladder.Access(f"{kind}{address + 1:04}", quantity, False, True))
        return found

    def is_from_outside(self, reference):
        return reference in self.from_outside

    def windows_of(self, other):
        """The registers here that the MSTRs of another controller may write: ranges, from each first one to the one behind its last."""
        windows = set()
        for _, _, cell in other.mstrs:
            operations, routes = other.operations(cell), other.routes(cell)
            starts, lengths = (other.constants(register(cell.operands[0], offset)) for offset in (3, 2))
            if operations is not None and 1 not in operations:
                continue
            if routes is not None and self.one.node not in {route[-1] for route in routes if route}:
                continue
            windows |= {(0, 10000)} if starts is None or lengths is None else {(start, start + length) for start in starts for length in lengths}
        return windows

    def may_be_written_by(self, other, reference):
        """Whether an MSTR of another controller may write a register here."""
        if other not in self.reach:
            self.reach[other] = self.windows_of(other)
        return any(first <= int(reference[1:]) < end for first, end in self.reach[other])

    def all_readers(self):
        """What looks at a reference: cells, and what is not in a network."""
        found = defaultdict(list)
        for place in self.places:
            for access in place[2].accesses():
                if access.reads and place[2].name != "MSTR":
                    for reference in access.references():
                        found[reference].append(place)
        for place in self.mstrs:
            self.add_mstr_reads(found, place)
        return found

    def add_mstr_reads(self, found, place):
        control, area, length = place[2].operands
        operations = self.operations(place[2])
        found[register(control, 0)].append(place)
        for number in sorted({need for one in operations or () for need in NEEDS.get(one, ())}):
            found[register(control, number - 1)].append(place)
        if operations is None or operations & {1, 5}:
            lengths = self.constants(register(control, 2)) or {int(length)}
            for offset in range(min(int(length), max(lengths))):
                found[register(area, offset)].append(place)

    def read_from_outside(self):
        """The references that something other than a network looks at."""
        outs = []
        for drop in self.one.table.get("drop", []):
            for module in drop["modules"]:
                kind, first, *count = module.split()
                if kind in ("out", "outw"):
                    outs.append(ladder.Access(first, int(count[0]) if count else 16, True, False))
        outs += [
            ladder.Access(f"{kind}{address + 1:04}", quantity, True, False)
            for kind, address, quantity, is_write in self.requests()
            if not is_write and address < 9984
        ]
        controls = {row[1] for row in self.one.orders}
        return {*self.one.panel} | controls | {reference for access in outs for reference in access.references()}

    # The hints.

    def all(self, others):
        for segment in self.one.segments:
            for network in segment.networks:
                self.power(segment, network)
        self.orders()
        self.subroutines()
        self.unread_coils()
        self.never_written(others)
        self.written_twice()
        for place in self.mstrs:
            self.message(place)
        return self.found

    def power(self, segment, network):
        """Cells that no power can reach: nothing to their left ever gives any."""
        live, dark, columns = set(range(1, 8)), set(), defaultdict(list)
        for cell in network.cells:
            columns[cell.column].append(cell)
        for column in range(1, max(columns, default=0) + 1):
            out = set()
            for cell in columns[column]:
                has_top = cell.row in live
                if not has_top and (cell.row, column - 1) not in dark:
                    where = f"nothing gives any at row {cell.row} to the left of column {column}"
                    self.at((segment, network, cell), f"no power can reach it: {where}")
                if not has_top:
                    dark |= {(cell.row + node, column) for node in range(ladder.NODES[cell.name])}
                is_held = cell.name in ALWAYS and ladder.NODES[cell.name] == 2 and cell.row + 1 not in live
                if is_held and has_top:
                    why = f"no power can reach its lower input, at row {cell.row + 1}"
                    self.at((segment, network, cell), f"it never runs: {why}")
                outputs = ladder.OUTPUTS[cell.name] if has_top else ALWAYS.get(cell.name, ())
                out |= {cell.row + node for node in outputs}
            live = self.joined(out, [row for row, at in ((s.row, s.column) for s in network.shorts) if at == column])

    def joined(self, out, shorts):
        live = set(out)
        for row in sorted(shorts) + sorted(shorts, reverse=True):
            if row in live or row + 1 in live:
                live |= {row, row + 1}
        return live

    def orders(self):
        if not self.one.orders:
            self.hint(self.one.line, ": it has no order rows, so it solves nothing")
            return
        solved = {row[0] for row in self.one.orders}
        for segment in self.one.segments:
            is_last = segment is self.one.segments[-1] and segment.is_subroutines
            if str(segment.number) not in solved and not is_last:
                line = segment.networks[0].line if segment.networks else None
                self.hint(line, f", segment {segment.number}: no order row solves it")

    def subroutine_at(self, network_number):
        """The LAB of the subroutine that a network of the last segment belongs to."""
        label = None
        for network in self.one.segments[-1].networks[:network_number]:
            label = next((cell.operands[0] for cell in network.cells if cell.name == "LAB"), label)
        return label

    def subroutines(self):
        labels = {cell.operands[0]: place for place in self.places if (cell := place[2]).name == "LAB"}
        calls, is_known = defaultdict(set), True
        for place in self.places:
            segment, network, cell = place
            if cell.name != "JSR":
                continue
            operand = cell.operands[0]
            values = self.constants(operand) if ladder.is_five_digits(operand) else {int(operand)}
            is_known = is_known and values is not None
            caller = self.subroutine_at(network.number) if segment.is_subroutines else None
            for value in values or ():
                calls[caller].add(str(value))
                if str(value) not in labels:
                    self.at(place, f"there is no LAB {value}")
        if not is_known:
            return
        reached, ahead = set(), set(calls[None])
        while ahead:
            reached |= ahead
            ahead = {name for one in ahead for name in calls[one]} - reached
        for label, place in labels.items():
            if label not in reached:
                self.at(place, "no JSR calls this subroutine")

    def unread_coils(self):
        for place in self.places:
            cell = place[2]
            if cell.name in ladder.COILS:
                reference = cell.operands[0]
                if not self.readers.get(reference) and reference not in self.looked_at:
                    self.at(place, f"nothing reads {reference}")

    def never_written(self, others):
        """What is read and never written, told at the first cell that reads it."""
        missing = defaultdict(list)
        for reference, places in self.readers.items():
            if self.writers.get(reference) or self.is_from_outside(reference):
                continue
            if reference[0] == "4" and any(self.may_be_written_by(other, reference) for other in others):
                continue
            missing[id(places[0][2])].append((places[0], reference))
        for found in missing.values():
            references = listed([reference for _, reference in found])
            self.at(found[0][0], f"nothing writes {references}, which it reads")
        for number, row in enumerate(self.one.orders, 1):
            control = row[1]
            if control != "-" and not self.writers.get(control) and not self.is_from_outside(control):
                self.hint(self.one.line, f", order row {number}: nothing writes its control {control}")

    def written_twice(self):
        groups = defaultdict(list)
        for reference, places in self.writers.items():
            # FIN and FOUT on one queue belong together.
            is_queue = {place[2].name for place in places} == {"FIN", "FOUT"}
            if len(places) > 1 and reference[0] == "4" and not is_queue:
                groups[tuple(id(place[2]) for place in places)].append((places, reference))
        for found in groups.values():
            places = found[0][0]
            texts = ", ".join(f"'{cell.text}' of line {cell.line}" for _, _, cell in places[:-1])
            are_timers = all(place[2].name in ladder.TIMERS for place in places)
            what = "counts in the same accumulator as" if are_timers else f"writes {listed([one for _, one in found])}, as does"
            self.at(places[-1], f"it {what} {texts}")

    def message(self, place):
        segment, network, cell = place
        control = cell.operands[0]
        status = register(control, 1)
        ends = {(cell.row + node, cell.column) for node in (1, 2)}
        shorts = [short for short in network.shorts if short.column == cell.column]
        is_wired = any(row in (short.row, short.row + 1) for row, _ in ends for short in shorts)
        for other in network.cells:
            rows = range(other.row, other.row + ladder.NODES[other.name])
            is_wired = is_wired or (other.column == cell.column + 1 and any(row in rows for row, _ in ends))
        if not is_wired and not self.readers.get(status) and status not in self.looked_at:
            self.at(place, f"its status is never looked at: neither {status} nor its middle and bottom outputs")
        operations = self.operations(cell) or set()
        routes = self.routes(cell) or [] if operations & set(ROUTED) else []
        if 6 in operations:
            routes = routes + [[node] for node in self.constants(register(control, 4)) or ()]
        for lost in sorted({lost_way(self.plant, self.one.node, route, operations & set(SERVES)) for route in routes} - {""}):
            self.at(place, lost)


def lost_way(plant, node, route, asks_registers):
    """Why a request does not come to a station that serves it, or nothing."""
    if not route:
        return "no station has the address 0"
    if asks_registers and plant.ends_at_bridge(node, route):
        return f"its route ends at {route[-1]}, an end of a bridge, which has no registers"
    return plant.lost_on(node, route)


def checks_of(plant):
    """The hints of each controller of a plant, which know who reads and who writes there."""
    return [ControllerHints(one, plant) for one in plant.controllers]


def hints_of(plant, checks=None):
    """All hints of a plant, by line."""
    checks = checks or checks_of(plant)
    found = []
    for check in checks:
        found += check.all([other for other in checks if other is not check])
    for host in plant.hosts:
        for number, request in enumerate(host["requests"], 1):
            lost = lost_way(plant, host["node"], request["route"], request["pdu"] not in STATISTICS)
            if lost:
                name = f"host {host['node']}, request {number}, '{request['text'].strip()}'"
                found.append(Hint(request["line"] or 0, f"{name}: {lost}"))
    return sorted(found)
