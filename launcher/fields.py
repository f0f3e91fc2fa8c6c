"""What the field brings a controller's drops, as scripts of a plant file: each combination of some inputs, or the rows of one run."""
import itertools
import re
import tomllib

from elements import words_of
from places import Places

# The line between two plants.
MARK = b"%NEW\n"
BETWEEN = re.compile(rb"^%NEW(?:\n|\Z)", re.MULTILINE)
MOST_ROWS = 10000
INPUTS_OF_A_MODULE = 16
# How many rows stand in a line of a script that is written here.
ROWS_A_LINE = 8


class FieldFault(Exception):
    """What is wrong with the inputs that were named."""


def two_plants(data):
    """The old plant of an input, and the new one, which begins behind the first line that is exactly %NEW."""
    mark = BETWEEN.search(data)
    return (data[: mark.start()], data[mark.end() :]) if mark else (data, b"")


def inputs_of(words):
    """The inputs that words as 10001-10004,10007 name, in rising order."""
    found = set()
    for word in words.split(","):
        ends = re.fullmatch(r"1(\d{4})(?:-1(\d{4}))?", word)
        first, last = (int(ends[1]), int(ends[2] or ends[1])) if ends else (0, 0)
        if not 1 <= first <= last <= 9984:
            raise FieldFault(f"'{word}' is no input, as 10007, and no inputs from one to another, as 10001-10004")
        found |= {10000 + number for number in range(first, last + 1)}
    return sorted(found)


class Module:
    """What a module of a drop brings in: so many words, and the first input where it is one of inputs."""

    def __init__(self, text):
        kind, first, *count = words_of(text)
        self.words = {"in": 1, "inw": int(count[0]) if count else 1}.get(kind, 0)
        self.first = int(first) if kind == "in" else None

    def carries(self, number):
        return self.first is not None and self.first <= number < self.first + INPUTS_OF_A_MODULE

    def row(self, on):
        """Its words, with these inputs on."""
        value = sum(1 << (self.first + INPUTS_OF_A_MODULE - 1 - number) for number in on if self.carries(number))
        return [f"{value:04X}", *["0000"] * (self.words - 1)] if self.words else []


class FieldDrop:
    """A drop of a controller, with its place among the drops of the file."""

    def __init__(self, place, table):
        self.place, self.number, self.script = place, table["number"], table.get("script", [])
        self.modules = [Module(text) for text in table["modules"]]

    def carried(self, inputs):
        return [number for number in inputs if any(module.carries(number) for module in self.modules)]

    def combinations(self, inputs):
        """A row for each combination of these inputs, all others off; the first input changes fastest."""
        rows = []
        for chosen in itertools.product((False, True), repeat=len(inputs)):
            on = [number for number, is_on in zip(reversed(inputs), chosen) if is_on]
            rows.append(" ".join(word for module in self.modules for word in module.row(on)))
        return rows


def script_text(rows, line_ends=0):
    """A script as a plant file writes it, in one line where it is to have no more line ends."""
    return "[" + ", ".join(f'"{row}"' for row in rows) + "\n" * line_ends + "]"


def script_lines(rows):
    """The lines of a script to paste."""
    if len(rows) <= ROWS_A_LINE:
        return [f"script = {script_text(rows)}"]
    lines = [", ".join(f'"{row}"' for row in rows[at : at + ROWS_A_LINE]) for at in range(0, len(rows), ROWS_A_LINE)]
    return ["script = [", *(f"    {line}," for line in lines), "]"]


class FieldPlant:
    """The text of a plant that the program accepts, and one of its controllers; that is None where the plant has none with the node."""

    def __init__(self, data, node):
        self.text = data.decode()
        self.document, self.places = tomllib.loads(self.text), Places(self.text)
        tables = self.document["controller"]
        self.place = next((place for place, table in enumerate(tables) if table["node"] == node), None)
        self.drops = [] if self.place is None else [FieldDrop(place, drop) for place, drop in enumerate(tables[self.place].get("drop", []))]

    def drop(self, number):
        return next(drop for drop in self.drops if drop.number == number)

    def with_scripts(self, scripts):
        """The text with other scripts, by the numbers of drops. A script that stands there takes as many lines as before."""
        pieces = []
        for drop in self.drops:
            if drop.number in scripts:
                path = ("controller", self.place, "drop", drop.place)
                span, rows = self.places.found.get((*path, "script")), scripts[drop.number]
                if span:
                    line_ends = self.text.count("\n", span.begin, span.end)
                    pieces.append((span.begin, span.end, script_text(rows, line_ends)))
                else:
                    end = self.places.found[(*path, "modules")].end
                    pieces.append((end, end, f"\nscript = {script_text(rows)}"))
        return replaced(self.text, pieces)

    def combined(self, inputs):
        """The scripts that bring each combination of these inputs, by the numbers of the drops that carry any of them."""
        carried = {drop.number: drop.carried(inputs) for drop in self.drops}
        lost = set(inputs) - {number for numbers in carried.values() for number in numbers}
        if lost:
            raise FieldFault(f"no drop brings {', '.join(map(str, sorted(lost)))} to this controller")
        for number, numbers in carried.items():
            if 1 << len(numbers) > MOST_ROWS:
                raise FieldFault(f"drop {number} would have more rows for its {len(numbers)} inputs than the {MOST_ROWS:,} that a script may have")
        return {drop.number: drop.combinations(carried[drop.number]) for drop in self.drops if carried[drop.number]}

    def alone(self):
        """The text without the other stations, each of their lines empty: a run of the controller by itself."""
        headers = self.places.headers
        ends = [begin for begin, _ in headers[1:]] + [len(self.text)]
        network = self.document["controller"][self.place].get("network")
        pieces = [(begin, end, "\n" * self.text.count("\n", begin, end)) for (begin, path), end in zip(headers, ends) if self.is_other(path, network)]
        bridges = self.places.found.get(("bridges",))
        if bridges:
            pieces.append((bridges.key, bridges.end, "\n" * self.text.count("\n", bridges.key, bridges.end)))
        return replaced(self.text, pieces)

    def is_other(self, path, network):
        """Whether a table is one of another station, or of another network."""
        if path[0] == "network":
            return self.document["network"][path[1]]["number"] != network
        return path[0] == "host" or path[0] == "controller" and path[1] != self.place


def replaced(text, pieces):
    """A text in which some pieces of it, each from a place to another, are others."""
    for begin, end, new in sorted(pieces, reverse=True):
        text = text[:begin] + new + text[end:]
    return text
