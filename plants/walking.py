"""Walks a run in plain Python, network by network, and notes where power flowed.

It is a second reading of docs/guide/ELEMENTS.md, MSTR.md and POWER.md, made to be compared with the program: of the run it takes the journal alone,
which says in which order scans, requests and answers came. A number of a reference is its five digits as a number: 40001 is 40001, 00001 is 1.
"""
import os
import sys
from dataclasses import dataclass, field

sys.path.insert(0, os.path.join(os.path.dirname(os.path.dirname(os.path.abspath(__file__))), "look"))
import journal as journals  # noqa: E402
import ladder  # noqa: E402
import modbus  # noqa: E402
from elements import is_five_digits, words_of  # noqa: E402

ROWS, COLUMNS, MOST_CALLS = range(1, 8), range(1, 12), 100
ALL_LIVE = 0x7F
# Power at the nodes of a block, from the top; a block with two nodes has T and LOW.
T, M, B = 1, 2, 4
LOW = 2
TICKS = {"T1.0": 100, "T0.1": 10, "T.01": 1}
# What a network that ends before its last column was ended by.
SKIPPED, RETURNED, STOPPED = "SKP", "RET", "stop"
NOT_SOLVED = "--"


class Strange(Exception):
    """The journal tells something that this walk does not find."""


@dataclass
class Line:
    """Where power was in a network at one solve: for each column up to its end the live rows at its right border, row 1 the lowest bit."""

    scan: int
    node: int
    row: int
    segment: int
    network: int
    live: list

    @property
    def text(self):
        columns = [f"{mask:02x}" for mask in self.live] + [NOT_SOLVED] * (len(COLUMNS) - len(self.live))
        return " ".join(["F", *map(str, (self.scan, self.node, self.row, self.segment, self.network)), *columns])


@dataclass
class Block:
    """A message block: idle, waiting, active, aborted or ready; its call, and what it kept of its control block as that began."""

    state: str = "idle"
    call: tuple = ()
    operation: int = 0
    length: int = 0
    # The error word, or None with the words of an answer.
    bad: object = None
    words: list = field(default_factory=list)


class Ended(Exception):
    """The network ends here: by SKP, with how many networks it counts, by RET, or by a stop."""

    def __init__(self, by, count=0):
        super().__init__(by)
        self.by, self.count = by, count


class Grid:
    """A network's cells by columns, each from the top, and its shorts by columns."""

    def __init__(self, network):
        self.number = network.number
        self.columns = {column: [] for column in COLUMNS}
        for cell in sorted(network.cells, key=lambda cell: cell.row):
            self.columns[cell.column].append(cell)
        self.shorts = {column: [short.row for short in network.shorts if short.column == column] for column in COLUMNS}
        self.label = next((int(cell.operands[0]) for cell in network.cells if cell.name == "LAB"), None)


def joined(out, shorts):
    """The rows that are live where some are on: those that an unbroken row of shorts joins to one of them."""
    if not out or not shorts:
        return out
    live = 0
    for row in ROWS:
        first = last = row
        while first - 1 in shorts:
            first -= 1
        while last in shorts:
            last += 1
        if any(out >> (other - 1) & 1 for other in range(first, last + 1)):
            live |= 1 << (row - 1)
    return live


class Controller:
    """What a controller holds, and what each event of its journal does with it."""

    def __init__(self, one, plant):
        self.one, self.node, self.plant = one, one.node, plant
        self.held, self.past, self.edges = {}, set(), {}
        self.before = self.now = self.left = 0
        self.scan, self.row = 0, 0
        self.is_stopped = False
        self.exchanges = {}
        self.drops = {drop["number"]: drop for drop in one.table.get("drop", [])}
        self.segments = [(segment.number, [Grid(network) for network in segment.networks]) for segment in one.segments]
        self.by_coil = [int(cell.operands[0]) for _, _, cell in one.cells() if cell.name == "CO"]
        messages = [(segment.number, network.number, cell.column, cell.row, cell) for segment, network, cell in one.cells() if cell.name == "MSTR"]
        self.blocks = {id(row[-1]): Block() for row in sorted(messages, key=lambda row: row[:4])}
        self.numbers = dict.fromkeys(range(5), 0)
        self.started = []
        self.lines = []

    # References.

    def value(self, word):
        return self.held.get(int(word), 0) if is_five_digits(word) else int(word)

    def table(self, first, count):
        return [self.held.get(int(first) + place, 0) for place in range(count)]

    def store(self, first, values):
        for place, value in enumerate(values):
            self.held[int(first) + place] = value

    def discretes_on(self):
        return {number for number, value in self.held.items() if number < 20000 and value}

    # Events.

    def do(self, entry):
        fields = entry.fields
        if "event" in fields:
            {"B": self.begin, "E": self.end, "X": self.fail, "K": self.dark}[fields["event"]]()
        elif "row" in fields:
            {"I": self.read_drop, "S": self.solve_row}[fields["row"]](int(fields["at"]))
        elif "calls" in fields:
            self.collect(fields["calls"])
        elif "kind" in fields:
            self.serve(bytes.fromhex(fields["pdu"]), bytes.fromhex(fields["reply"]))
        elif "ended" in fields:
            self.finish(fields)

    def begin(self):
        self.scan += 1
        self.before, self.now = self.now, self.now + self.plant.document.get("scan_time", 10)
        self.left = self.plant.document.get("watchdog", 500)

    def end(self):
        self.past = self.discretes_on()

    def dark(self):
        self.scan += 1

    def fail(self):
        for coil in self.by_coil:
            self.held[coil] = 0
        self.past = self.discretes_on()
        for block in self.blocks.values():
            block.state = {"active": "aborted", "aborted": "aborted"}.get(block.state, "idle")

    def read_drop(self, row):
        drop = self.drops[int(self.one.orders[row - 1][2])]
        self.exchanges[drop["number"]] = self.exchanges.get(drop["number"], 0) + 1
        script = drop.get("script") or [None]
        words = script[min(self.exchanges[drop["number"]], len(script)) - 1]
        if words is not None and words_of(words) == ["X"]:
            return
        given = [int(word, 16) for word in words_of(words or "")]
        for module in drop["modules"]:
            kind, first, *count = words_of(module)
            if kind not in ("in", "inw"):
                continue
            mine, given = given[: int(count[0]) if count else 1], given[int(count[0]) if count else 1 :]
            if kind == "in":
                mine = [(mine[0] if mine else 0) >> (15 - bit) & 1 for bit in range(16)]
            self.store(first, mine or [0] * int(count[0]))

    def solve_row(self, row):
        segment, control, _, _ = self.one.orders[row - 1]
        if control != "-" and not self.value(control):
            return
        self.row = row
        self.solve_list(*self.segments[int(segment) - 1], 0, 0)

    def collect(self, calls):
        told = [tuple(int(part) for part in one["id"].split(".")) for one in journals.ONE_CALL.finditer(calls)]
        if told != self.started:
            raise Strange(f"controller {self.node}, scan {self.scan}: the calls {told} were sent, and {self.started} were started")
        self.started = []

    def serve(self, request, reply):
        """What a request writes, where its reply is none of an exception."""
        if reply[0] & 0x80:
            return
        function, address, value = request[0], modbus.number(request, 1), modbus.number(request, 3)
        if function == 5:
            self.held[address + 1] = int(value != 0)
        elif function == 15:
            self.store(address + 1, modbus.bits_of(request[6:], value))
        elif function == 6:
            self.held[40001 + address] = value
        elif function == 16:
            self.store(40001 + address, modbus.words_at(request, 6))
        elif function == 22:
            was, other = self.held.get(40001 + address, 0), modbus.number(request, 5)
            self.held[40001 + address] = was & value | other & ~value & 0xFFFF
        elif function == 23:
            self.store(40001 + modbus.number(request, 5), modbus.words_at(request, 10))

    def finish(self, fields):
        call = tuple(int(part) for part in fields["ended"].split("."))
        block = next(block for block in self.blocks.values() if block.call == call and block.state in ("active", "aborted"))
        if block.state == "aborted":
            block.state = "idle"
            return
        block.state = "ready"
        block.bad = int(fields["bad"], 16) if "bad" in fields else None
        good = fields.get("good", "-").replace("-", "")
        block.words = [int(good[at : at + 4], 16) for at in range(0, len(good), 4)]

    # Segments and networks.

    def solve_list(self, segment, grids, first, depth):
        """Solves a segment from its first network, or a subroutine from that of its LAB, to its end."""
        to_skip = 0
        for grid in grids[first:]:
            if depth and grid.label is not None and grid is not grids[first]:
                return
            if to_skip:
                to_skip -= 1
                continue
            self.left -= 1
            if self.left == 0:
                self.is_stopped = True
                return
            end = self.solve_network(segment, grid, depth)
            if self.is_stopped or end and (end.by == RETURNED or end.count == 0):
                return
            to_skip = end.count - 1 if end else 0

    def solve_network(self, segment, grid, depth):
        """Solves a network column by column, each from the top; what ended it before its last column, or None."""
        live, noted, end = ALL_LIVE, [], None
        try:
            for column in COLUMNS:
                out = 0
                for cell in grid.columns[column]:
                    out |= self.solve_cell(cell, live >> (cell.row - 1), depth) << (cell.row - 1)
                live = joined(out, grid.shorts[column])
                noted.append(live)
        except Ended as early:
            end = early
        self.lines.append(Line(self.scan, self.node, self.row, segment, grid.number, noted))
        return end

    def solve_cell(self, cell, power, depth):
        name = cell.name
        if name in TICKS:
            return self.timer(cell, power, TICKS[name])
        if name in ladder.COUNTERS:
            return self.counter(cell, power)
        if name in ("R>T", "T>R", "T>T", "FIN", "FOUT"):
            return self.pointed(cell, power)
        if name == "MSTR":
            return self.message(cell, power)
        if name in ladder.COILS:
            self.held[int(cell.operands[0])] = power & T
            return 0
        if not power & T or name == "LAB":
            return 0
        if name in ladder.CONTACTS:
            return self.contact(name, int(cell.operands[0]))
        if name == "JSR":
            return self.call(self.value(cell.operands[0]), depth)
        if name == "SKP":
            raise Ended(SKIPPED, self.value(cell.operands[0]))
        if name == "RET":
            raise Ended(RETURNED)
        return T if name == "H" else POWERED[name](self, cell.operands, power)

    # Elements.

    def contact(self, name, reference):
        now, before = bool(self.held.get(reference, 0)), reference in self.past
        return int({"NO": now, "NC": not now, "PT": now and not before, "NT": before and not now}[name])

    def call(self, label, depth):
        number, grids = self.segments[-1]
        first = next((place for place, grid in enumerate(grids) if grid.label == label), None)
        if first is None or depth == MOST_CALLS:
            return LOW
        self.solve_list(number, grids, first, depth + 1)
        if self.is_stopped:
            raise Ended(STOPPED)
        return T

    def timer(self, cell, power, ticks):
        preset, count = self.value(cell.operands[0]), self.value(cell.operands[1])
        if power & T:
            count += self.now // ticks - self.before // ticks
        count = min(preset, count) if power & LOW else 0
        self.store(cell.operands[1], [count])
        return (T if count == preset else 0) | (LOW if count < preset else 0)

    def counter(self, cell, power):
        preset, count = self.value(cell.operands[0]), self.value(cell.operands[1])
        edge = power & T and not self.edges.get(id(cell))
        self.edges[id(cell)] = power & T
        if cell.name == "UCTR":
            count = min(count, preset)
            count += bool(edge and count < preset)
            count = count if power & LOW else 0
            ended, goes_on = count == preset, count < preset
        else:
            count = min(count, preset)
            count -= bool(edge and count > 0)
            count = count if power & LOW else preset
            ended, goes_on = count == 0, count > 0
        self.store(cell.operands[1], [count])
        return (T if ended else 0) | (LOW if goes_on else 0)

    def pointed(self, cell, power):
        """Table moves and queues with a pointer: some of their outputs are there without power at the top."""
        top, mid, length = int(cell.operands[0]), int(cell.operands[1]), int(cell.operands[2])
        if cell.name in ("FIN", "FOUT"):
            return self.queue(cell.name, top, mid, length, power)
        place = 0 if power & B else self.held.get(mid, 0)
        if power & T and place < length:
            value = self.held.get(top if cell.name == "R>T" else top + place, 0)
            self.held[mid + 1 if cell.name == "T>R" else mid + 1 + place] = value
            self.held[mid] = place if power & M else place + 1
            place = self.held[mid]
        elif power & B:
            self.held[mid] = 0
        return power & T | (M if place >= length else 0)

    def queue(self, name, top, mid, length, power):
        pointer = mid if name == "FIN" else top
        count = self.held.get(pointer, 0)
        if name == "FIN" and power & T and count < length:
            self.store(pointer + 1, [self.held.get(top, 0), *self.table(pointer + 1, count)])
            self.held[pointer] = count = count + 1
        elif name == "FOUT" and power & T and 0 < count <= length:
            self.held[mid] = self.held.get(pointer + count, 0)
            self.held[pointer] = count = count - 1
        return power & T | (M if count >= length else 0) | (B if count == 0 else 0)

    # What does nothing without power at the top.

    def total(self, operands, power):
        added = self.value(operands[0]) + self.value(operands[1])
        self.store(operands[2], [added % 10000])
        return T if added > 9999 else 0

    def difference(self, operands, power):
        one, other = self.value(operands[0]), self.value(operands[1])
        self.store(operands[2], [abs(one - other)])
        return T if one > other else M if one == other else B

    def product(self, operands, power):
        one, other = self.value(operands[0]), self.value(operands[1])
        if max(one, other) > 9999:
            return 0
        self.store(operands[2], divmod(one * other, 10000))
        return T

    def quotient(self, operands, power):
        high, units = self.table(operands[0], 2) if is_five_digits(operands[0]) else (0, int(operands[0]))
        by = self.value(operands[1])
        if max(high, units, by) > 9999:
            return 0
        if by == 0:
            return B
        whole, rest = divmod(high * 10000 + units, by)
        if whole > 9999:
            return M
        self.store(operands[2], [whole, rest * 10000 // by if power & M else rest])
        return T

    def block_move(self, operands, power):
        self.store(operands[1], self.table(operands[0], int(operands[2])))
        return T

    def search(self, operands, power):
        pointer, length = int(operands[1]), int(operands[2])
        start, sought = self.held.get(pointer, 0) if power & M else 0, self.held.get(pointer + 1, 0)
        values = self.table(operands[0], length)
        found = next((place for place in range(start, length) if values[place] == sought), None)
        self.held[pointer] = 0 if found is None else found + 1
        return T if found is None else T | M

    def bits(self, first, length):
        return [word >> (15 - bit) & 1 for word in self.table(first, length) for bit in range(16)]

    def store_bits(self, first, bits):
        words = [bits[at : at + 16] for at in range(0, len(bits), 16)]
        self.store(first, [sum(bit << (15 - place) for place, bit in enumerate(word)) for word in words])

    def bitwise(self, operands, join):
        length = int(operands[2])
        pairs = zip(self.table(operands[0], length), self.table(operands[1], length))
        self.store(operands[1], [join(one, other) & 0xFFFF for one, other in pairs])
        return T

    def compare(self, operands, power):
        pointer, length = int(operands[1]), int(operands[2])
        start = 0 if power & M else self.held.get(pointer, 0)
        one, other = self.bits(operands[0], length), self.bits(pointer + 1, length)
        found = next((place for place in range(start, 16 * length) if one[place] != other[place]), None)
        self.held[pointer] = 0 if found is None else found + 1
        return T if found is None else T | M | (B if one[found] else 0)

    def modify(self, operands, power):
        number, length = self.value(operands[0]), int(operands[2])
        if not 1 <= number <= 16 * length:
            return T | B
        bits = self.bits(operands[1], length)
        bits[number - 1] = power // M & 1
        self.store_bits(operands[1], bits)
        if power & B and operands[0][0] == "4" and is_five_digits(operands[0]):
            self.store(operands[0], [number + 1])
        return T | power & M

    def sense(self, operands, power):
        is_register, length = is_five_digits(operands[0]) and operands[0][0] == "4", int(operands[2])
        bits = self.bits(operands[1], length)
        if power & B and is_register:
            self.store(operands[0], [1])
        number = self.value(operands[0])
        if not 1 <= number <= 16 * length:
            return T | B
        if power & M and is_register:
            self.store(operands[0], [number + 1])
        return T | (M if bits[number - 1] else 0)

    def rotate(self, operands, power):
        bits = self.bits(operands[0], int(operands[2]))
        out = bits[0] if power & M else bits[-1]
        comes = out if power & B else 0
        self.store_bits(operands[1], bits[1:] + [comes] if power & M else [comes] + bits[:-1])
        return T | (M if out else 0)

    # Messages.

    def message(self, cell, power):
        block, control = self.blocks[id(cell)], int(cell.operands[0])
        if block.state == "active" and power & M:
            self.held[control + 1], block.state = 0x1001, "aborted"
            return M
        if block.state == "active":
            return T
        if block.state == "aborted":
            return 0
        if block.state == "ready":
            return self.answer(block, cell)
        if block.state == "waiting" and power & M:
            self.held[control + 1], block.state = 0x1001, "idle"
            return M
        if block.state == "idle" and (power & M or not power & T):
            return 0
        return self.start(block, cell)

    def answer(self, block, cell):
        control, area, length = int(cell.operands[0]), int(cell.operands[1]), int(cell.operands[2])
        block.state = "idle"
        if block.bad is not None:
            self.held[control + 1] = block.bad
            return M
        self.held[control + 1] = 0
        words = block.words
        if block.operation == 6:
            if words:
                self.held[control + 3] = words[0]
            words = words[1:]
        if block.operation in (2, 3, 6, 7):
            self.store(area, words[: min(block.length, length)])
        return B

    def start(self, block, cell):
        control, length = int(cell.operands[0]), int(cell.operands[2])
        fields = self.table(control, 9)
        block.state = "idle"
        wrong = self.wrong_start(fields, length)
        if wrong:
            self.held[control + 1] = wrong
            return M
        self.held[control + 1] = 0
        path = self.free_path() if fields[0] in (1, 2, 7, 8) else 0
        if path is None:
            block.state = "waiting"
            return T
        self.numbers[path] += 1
        block.state, block.call = "active", (self.node, path, self.numbers[path])
        block.operation, block.length = fields[0], fields[2]
        self.started.append(block.call)
        return T

    def free_path(self):
        busy = {block.call[1] for block in self.blocks.values() if block.state in ("active", "aborted")}
        return next((path for path in range(1, 5) if path not in busy), None)

    def wrong_start(self, fields, area):
        """The word of the first test that fails, or 0."""
        operation, _, length, start, node, *rest = fields
        if not 1 <= operation <= 8:
            return 0x2001
        most = {1: 100, 2: 100, 3: 20, 5: 32, 6: 32, 7: 20}.get(operation)
        if most and not 1 <= length <= most:
            return 0x2003
        if operation in (1, 2) and start == 0 or operation in (3, 7) and start > 19:
            return 0x2004
        if operation in (1, 2) and start + length - 1 > 9984 or operation in (3, 7) and start + length > 20:
            return 0x2005
        if most and length > area:
            return 0x2006
        if operation in (1, 2, 6, 7, 8) and not 1 <= node <= 64 or operation in (1, 2, 7, 8) and not self.is_route_end(rest):
            return 0x2008
        return 0x2009 if operation in (1, 2, 7, 8) and node == self.node else 0

    def is_route_end(self, rest):
        """Whether the addresses behind the first are in order: in version 2 numbers up to 64, and then zeros alone."""
        if not self.plant.is_version_two:
            return not any(rest)
        addresses = rest[: rest.index(0)] if 0 in rest else rest
        return all(address <= 64 for address in addresses) and not any(rest[len(addresses) :])


POWERED = {
    "ADD": Controller.total,
    "SUB": Controller.difference,
    "MUL": Controller.product,
    "DIV": Controller.quotient,
    "BLKM": Controller.block_move,
    "SRCH": Controller.search,
    "AND": lambda one, operands, power: one.bitwise(operands, lambda top, mid: top & mid),
    "OR": lambda one, operands, power: one.bitwise(operands, lambda top, mid: top | mid),
    "XOR": lambda one, operands, power: one.bitwise(operands, lambda top, mid: top ^ mid),
    "COMP": lambda one, operands, power: one.bitwise(operands, lambda top, mid: ~top),
    "CMPR": Controller.compare,
    "MBIT": Controller.modify,
    "SENS": Controller.sense,
    "BROT": Controller.rotate,
}


def walk(plant, journal):
    """The controllers of a plant, as its journal leaves them; each has its lines."""
    made = []
    for one in plant.controllers:
        controller = Controller(one, plant)
        for entry in journal.controllers[one.node]:
            controller.do(entry)
        made.append(controller)
    return made


def lines(plant, journal, first, last):
    """The lines of some scans, as `flow FIRST LAST` writes them."""
    found = [line for controller in walk(plant, journal) for line in controller.lines if first <= line.scan <= last]
    # What is of one scan and node stands in the order in which it was solved.
    return [line.text for line in sorted(found, key=lambda line: (line.scan, line.node))]
