"""Where power flowed, network by network, as the program tells it; and that packed for a page.

A line `F <scan> <node> <row> <segment> <network> <m1> .. <m11>` has for each column which rows are live at its right border, row 1 the lowest
bit, and `--` where the network ended before. Of a program that has no such command there is no flow to draw.
"""
import itertools

import program

USAGE = 2
# A page has the flow of so many networks at most, each scan's counted anew: of the last scans.
MOST_SOLVES = 1 << 20


def most_solves(plant):
    """How many networks the controllers of a plant solve in a scan, at most: a scan begins fewer than its watchdog."""
    watchdog = plant.document.get("watchdog", 500)
    most = 0
    for one in plant.controllers:
        sizes = {str(segment.number): len(segment.networks) for segment in one.segments}
        is_calling = any(cell.name == "JSR" for _, _, cell in one.cells())
        most += watchdog if is_calling else min(watchdog, sum(sizes[row[0]] for row in one.orders))
    return most


def scans_told(plant, scans):
    """Of how many scans the flow is told on a page."""
    return min(scans, max(1, MOST_SOLVES // max(1, most_solves(plant))))


def told(first, last, data):
    """The lines of some scans of a plant, or of a plant and a journal; None where the program tells none, as one without such a command."""
    try:
        return program.call(["flow", str(first), str(last)], data, quiet=True).splitlines()
    except program.ProgramEnd as error:
        if error.status != USAGE:
            program.say(f"where power flowed is not told: the program ended with status {error.status}")
        return None


class Packing:
    """The flow of scans, packed as they come. `solves` has each list of order rows and columns that some network has in some scan, and `networks` by
    `node.segment.network` a scan and the place of its list, again and again, for each scan with another list than the one before; -1 where it is not
    solved."""

    def __init__(self, first):
        self.columns, self.solves, self.networks = {}, {}, {}
        # The last scan that was added, and the place of the list of each network that it solved.
        self.first, self.scan, self.places = first, first - 1, {}
        # What is behind the scan in a line, read once: the network, and its order row and the place of its columns.
        self.read = {}

    def parts(self, rest):
        node, row, segment, network, columns = rest.split(" ", 4)
        found = f"{node}.{segment}.{network}", (int(row), self.columns.setdefault(columns.replace(" ", ""), len(self.columns)))
        self.read[rest] = found
        return found

    def add(self, scan, rests):
        """Adds a scan, by what its lines have behind it."""
        if scan > self.scan + 1:
            self.change(self.scan + 1, {})
        solved = {}
        for rest in rests:
            network, solve = self.read.get(rest) or self.parts(rest)
            solved.setdefault(network, []).append(solve)
        self.change(scan, {network: self.solves.setdefault(tuple(list_), len(self.solves)) for network, list_ in solved.items()})

    def change(self, scan, places):
        """Notes for each network that is solved another way than in the scan before, and for each that no longer is."""
        for network, place in places.items():
            if self.places.get(network) != place:
                self.networks.setdefault(network, []).extend((scan, place))
        for network in self.places.keys() - places.keys():
            self.networks[network] += [scan, -1]
        self.scan, self.places = scan, places

    def data(self, last):
        """What a page has of it, from the first scan that is told to the last."""
        if self.scan < last:
            self.change(self.scan + 1, {})
        solves = [[number for solve in list_ for number in solve] for list_ in self.solves]
        return {"first": self.first, "last": last, "columns": list(self.columns), "solves": solves, "networks": self.networks}


def packed(lines, first, last):
    packing = Packing(first)
    for scan, own in itertools.groupby((line.split(" ", 2) for line in lines), key=lambda parts: parts[1]):
        packing.add(int(scan), [parts[2] for parts in own])
    return packing.data(last)


def for_page(plant, scans, data):
    """What a page of a run draws, or None where the program tells no flow. Data is the plant, with a journal behind it where that tells the run."""
    first = scans - scans_told(plant, scans) + 1
    lines = told(first, scans, data)
    return None if lines is None else packed(lines, first, scans)
