"""What made the first difference of two runs: the cell that is first in the order of solve of those whose output differs, or what came from outside.

Both runs' flow tells which cells had power before and behind them in the scan of the difference. A place is a segment, a network and a cell.
"""
import difflib
from dataclasses import dataclass

import flow
import hinting
import ladder

OLD, NEW = 0, 1
LAST_COLUMN = 11
ENDERS = ("SKP", "RET")


@dataclass
class Solve:
    """A solve of a network: its order row, its place, and for each column the rows that were live behind it; None from where it ended."""

    row: int
    segment: object
    network: object
    live: list

    def before(self, column):
        return 0x7F if column == 1 else self.live[column - 2]

    def is_fed(self, cell):
        return bool((self.before(cell.column) or 0) >> (cell.row - 1) & 1)

    @property
    def end(self):
        """The column in which it ended."""
        return next((column for column, rows in enumerate(self.live, 1) if rows is None), LAST_COLUMN + 1)

    def ender(self):
        """The cell that ended it, or None."""
        fed = [cell for cell in sorted(self.network.cells, key=lambda cell: cell.row) if cell.column == self.end and self.is_fed(cell)]
        return next((cell for names in (ENDERS, ("JSR",)) for cell in fed if cell.name in names), None)


def solves_of(controller, lines):
    """The solves of a controller in the lines of a scan."""
    networks = {(segment.number, network.number): (segment, network) for segment in controller.segments for network in segment.networks}
    found = []
    for line in lines:
        _, _, node, row, segment, network, *columns = line.split(" ")
        if int(node) == controller.node:
            live = [None if text == "--" else int(text, 16) for text in columns]
            found.append(Solve(int(row), *networks[int(segment), int(network)], live))
    return found


def text_of(network):
    return "; ".join(sorted(cell.text for cell in network.cells + network.shorts))


def pairs_of(old, new):
    """By segment and network of the new controller the number of the network in the old one that it stands for."""
    found = {}
    for one, other in zip(old.segments, new.segments):
        texts = [[text_of(network) for network in segment.networks] for segment in (one, other)]
        for _, a, b, c, d in difflib.SequenceMatcher(None, *texts, autojunk=False).get_opcodes():
            found |= {(other.number, c + place + 1): a + place + 1 for place in range(min(b - a, d - c))}
    return found


class Comparison:
    """The solves of one controller in one scan of two runs, and the order in which they are compared."""

    def __init__(self, controllers, solves):
        self.controllers, self.solves = controllers, solves
        self.pairs = pairs_of(*controllers)
        in_both = {(segment, old) for (segment, _), old in self.pairs.items()}
        # What stands in one plant alone has nothing that it could differ from.
        self.own = [
            [solve for solve in solves[OLD] if (solve.segment.number, solve.network.number) in in_both],
            [solve for solve in solves[NEW] if (solve.segment.number, solve.network.number) in self.pairs],
        ]

    def key(self, side, solve):
        number = solve.network.number if side == OLD else self.pairs[solve.segment.number, solve.network.number]
        return solve.row, solve.segment.number, number

    def at(self, number):
        """The solves of both runs of this number, or None where there are not so many."""
        return [own[number] if 0 <= number < len(own) else None for own in self.own]

    def first(self):
        """The number of the first solves that differ; one run may have none of that number. None where all are alike."""
        rows = [[(self.key(side, solve), solve.live) for solve in self.own[side]] for side in (OLD, NEW)]
        found = next((number for number, (one, other) in enumerate(zip(*rows)) if one != other), min(map(len, rows)))
        return found if found < max(map(len, rows)) else None

    def are_alike(self, solves):
        """Whether there are both, of one network."""
        return None not in solves and self.key(OLD, solves[OLD]) == self.key(NEW, solves[NEW])

    def callers(self, number):
        """The networks behind whose calls the solves of this number stand, or None."""
        if not any(solve and solve.segment.is_subroutines for solve in self.at(number)):
            return None
        outer = [next((solve for solve in own[number:] if not solve.segment.is_subroutines), None) for own in self.own]
        return outer if self.are_alike(outer) else None

    def differing(self, number):
        """The solves of one network that are the first to differ, if those of this number are: a caller that differs before its call goes first."""
        outer = self.callers(number)
        if outer:
            column, calls = first_column(*outer), [cell.column for solve in outer for cell in calls_of(solve)]
            if column and (not calls or column < min(calls)):
                return outer
        return self.at(number) if self.are_alike(self.at(number)) else None


def calls_of(solve):
    """The JSR cells that power came to."""
    return [cell for cell in solve.network.cells if cell.name == "JSR" and solve.is_fed(cell)]


def first_column(old, new):
    """The first column behind which two solves of a network differ."""
    return next((column for column, (one, other) in enumerate(zip(old.live, new.live), 1) if one != other), None)


def joined(shorts, column, rows):
    """Some rows and those that shorts of a column join to them."""
    found = set(rows)
    for _ in range(7):
        for short in shorts:
            if short.column == column and found & {short.row, short.row + 1}:
                found |= {short.row, short.row + 1}
    return found


def rows_of(cell):
    return set(range(cell.row, cell.row + max(1, ladder.NODES[cell.name])))


def at_place(network, row, column, cells=None):
    return next((cell for cell in (cells or network.cells) if (cell.row, cell.column) == (row, column)), None)


class Cause:
    """A cell of the old plant, of the new one or of both, and what differs there."""

    def __init__(self, solves, cells, what):
        self.solves, self.cells, self.what = solves, cells, what

    def place(self):
        """Where it stands in its network; before all cells where it is none of them."""
        return min(((cell.column, cell.row) for cell in self.cells if cell), default=(0, 0))

    def text(self):
        old, new = self.cells
        where = next(f"segment {solve.segment.number} network {solve.network.number}" for solve in reversed(self.solves) if solve)
        if old and new and old.text == new.text:
            told = f"'{new.text}', old line {old.line} and new line {new.line}"
        elif old and new:
            told = f"'{old.text}', old line {old.line}, now '{new.text}', new line {new.line}"
        else:
            side = "old" if old else "new"
            told = f"'{(old or new).text}', {side} line {(old or new).line}, which the {'new' if old else 'old'} plant has not"
        return f"made by {told} ({where}): {self.what}"


def of_power(old, new):
    """The cell at which two solves of a network differ first."""
    column = first_column(old, new)
    masks = [solve.live[column - 1] for solve in (old, new)]
    if None in masks:
        return of_end(old, new)
    rows = {row for row in range(1, 8) if (masks[OLD] ^ masks[NEW]) >> (row - 1) & 1}
    shorts = [{(short.row, short.column): short for short in solve.network.shorts if short.column == column} for solve in (old, new)]
    reach = rows.union(*(joined(solve.network.shorts, column, rows) for solve in (old, new)))
    row = min(rows)
    was, now = ("on" if mask >> (row - 1) & 1 else "off" for mask in masks)
    what = f"power behind it in row {row} was {was} and is {now}"
    cells = changed_cell(old, new, column, reach) or changed_short(*shorts, reach) or fed_cell(old, new, column, reach)
    return Cause((old, new), cells, what) if cells else None


def changed_cell(old, new, column, reach):
    """The first place of a column at which the plants have different cells that power may come from."""
    for row in range(1, 8):
        cells = [at_place(solve.network, row, column) for solve in (old, new)]
        if any(cells) and [cell and cell.text for cell in cells][OLD] != [cell and cell.text for cell in cells][NEW]:
            if any(rows_of(cell) & reach and gives(cell) for cell in cells if cell):
                return cells
    return None


def gives(cell):
    return bool(ladder.OUTPUTS[cell.name])


def changed_short(old, new, reach):
    """A short that one plant has and the other has not."""
    for place in sorted(old.keys() ^ new.keys()):
        if {place[0], place[0] + 1} & reach:
            return [old.get(place), new.get(place)]
    return None


def fed_cell(old, new, column, reach):
    """The first cell of a column from which the power may have come, by what came to it."""
    own = sorted((cell for cell in new.network.cells if cell.column == column), key=lambda cell: cell.row)
    cells = [cell for cell in own if rows_of(cell) & reach and gives(cell)]
    likely = [cell for cell in cells if new.is_fed(cell)] or [cell for cell in cells if cell.name in hinting.ALWAYS or cell.name == "MSTR"]
    # A wire gives what came to it, which is the same in both.
    chosen = next((cell for cell in likely if cell.name != "H"), None)
    return chosen and [at_place(old.network, chosen.row, column), chosen]


def of_end(old, new):
    """Where a network ended in one run before it did in the other."""
    enders = [solve.ender() for solve in (old, new)]
    side = OLD if old.end < new.end else NEW
    if not enders[side]:
        return None
    cell = enders[side]
    cells = [at_place(solve.network, cell.row, cell.column) for solve in (old, new)]
    what = "the controller stopped in its subroutine" if cell.name == "JSR" else "it ended the network"
    return Cause((old, new), cells, f"{what} in the {'old' if side == OLD else 'new'} run alone")


def writers(controller, reference):
    """The cells that write a reference, those of messages last."""
    found = [place for place in controller.cells() for access in place[2].accesses() if access.writes and access.has(reference)]
    return sorted(found, key=lambda place: place[2].name == "MSTR")


class Run:
    """A plant with its bytes, and for each controller the places that read and drive its references."""

    def __init__(self, plant, data, places):
        self.plant, self.data, self.places = plant, data, places
        self.flows = {}

    def lines(self, scan):
        """Where power flowed in a scan, or None."""
        if scan not in self.flows:
            self.flows[scan] = flow.told(scan, scan, self.data)
        return self.flows[scan]


def from_outside(runs, node, reference):
    """What wrote a reference that no cell drives: a drop, or a request."""
    for run in reversed(runs):
        for place in run.places[node]:
            if place["does"] == "drives" and "network" not in place and reference[0] == place["first"][0]:
                if 0 <= int(reference) - int(place["first"]) < place["count"]:
                    return f"it came from outside: {place['at']}, '{place['what']}'"
    return ""


def of_writer(comparison, reference):
    """The cell of each plant that writes a reference, as a cause that differs in what it wrote."""
    found = [next(iter(writers(controller, reference)), None) for controller in comparison.controllers]
    solves = []
    for own, place in zip(comparison.solves, found):
        solves.append(place and next((solve for solve in own if (solve.segment, solve.network) == place[:2]), None))
    if not any(solves):
        return None
    return Cause(tuple(solves), [place and place[2] for place in found], f"it wrote {reference}")


def order_of(solves, cause, side):
    """The place of a cause in the order of solve. Solves stand in the order in which they ended, and a subroutine is solved at the JSR that calls it."""
    own = next(number for number, solve in enumerate(solves) if solve is cause.solves[side])
    outer = next((number for number, solve in enumerate(solves[own:], own) if not solve.segment.is_subroutines), own)
    if outer == own:
        return (own, *cause.place())
    call = min(((cell.column, cell.row) for cell in calls_of(solves[outer])), default=(0, 0))
    return (outer, *call, own, *cause.place())


def is_before(comparison, one, other):
    """Whether a cause is solved before another."""
    for side in (NEW, OLD):
        if one.solves[side] and other.solves[side]:
            own, others = (order_of(comparison.solves[side], cause, side) for cause in (one, other))
            return own < others
    return False


def of_flow(comparison, number):
    """What made the solves of this number differ, or nothing."""
    solves = comparison.differing(number)
    if solves:
        return of_power(*solves)
    return of_call(comparison, number) or of_skip(comparison, number)


def of_skip(comparison, number):
    """A SKP behind which other networks were solved, though it had power in both runs."""
    solves = comparison.at(number - 1)
    cells = [solve.ender() for solve in solves] if None not in solves else [None]
    return Cause(solves, cells, "other networks were solved behind it") if None not in cells and cells[NEW].name == "SKP" else None


def of_call(comparison, number):
    """A JSR that called another subroutine."""
    outer = comparison.callers(number)
    cells = [next(iter(calls_of(solve)), None) for solve in outer] if outer else [None]
    return Cause(outer, cells, "it called another subroutine") if None not in cells else None


def of_order(comparison, number):
    """Where one run solved a network that the other did not, though all before it was alike."""
    old, solve = comparison.at(number)
    solve, side = (solve, "new") if solve else (old, "old")
    rows = [controller.orders for controller in comparison.controllers]
    texts = [" ".join(orders[solve.row - 1]) if solve.row <= len(orders) else "" for orders in rows]
    same = f"'{texts[NEW]}'" if texts[OLD] == texts[NEW] else f"'{texts[OLD]}', now '{texts[NEW]}'"
    where = f"segment {solve.segment.number} network {solve.network.number}"
    return f"made by order row {solve.row}, {same}: {where} was solved there in the {side} run alone"


def cause_of(runs, node, scan, reference):
    """What made the first difference of a controller, in words; nothing where no flow tells it. Without a reference one of the runs stopped there."""
    controllers, lines = [run.plant.controller(node) for run in runs], [run.lines(scan) for run in runs]
    if None in lines:
        return ""
    if reference and not any(writers(controller, reference) for controller in controllers):
        return from_outside(runs, node, reference)
    comparison = Comparison(controllers, [solves_of(controller, own) for controller, own in zip(controllers, lines)])
    number, writer = comparison.first(), of_writer(comparison, reference) if reference else None
    if number is None:
        return writer.text() if writer else ""
    found = of_flow(comparison, number)
    if writer and is_before(comparison, writer, found or Cause(comparison.at(number), [], "")):
        return writer.text()
    return found.text() if found else of_order(comparison, number)
