"""The wires of a word exchange (docs/guide/EXCHANGE.md): their lines, after a plant or in a file of their own, and why one is refused."""
import itertools
import os
import re
from dataclasses import dataclass

from elements import words_of
from reasons import Finding

MARK = re.compile(rb"^%COP$", re.MULTILINE)
LINE = re.compile(" ".join([r"(0|[1-9][0-9]*)"] * 7))
FORM = "<node> <drop> <word> <from node> <from drop> <from word> <count>"
MOST_WORDS = 32
# A number of more digits is out of every range, and is not made a number.
MOST_DIGITS = 9
# How many characters of a word are shown.
SHOWN = 30
DOES_NOT_READ, NOT_ENDED = (18, "a wire that does not read"), (18, "a wire whose line has no end")
NO_CONTROLLER, NO_DROP = (18, "a wire of a node without a controller"), (18, "a wire of a drop that is not there")
WRONG_COUNT, NO_WORDS = (18, "a wire of other than 1 to 32 words"), (18, "words that the drop does not have")
WIRED_TWICE = (18, "a word that is wired already")


@dataclass(frozen=True)
class Wire:
    """So many output words of a drop, and the input words of another drop that they reach. Words count from 1; `line` is the number of its line."""

    line: int
    node: int
    drop: int
    word: int
    source: int
    from_drop: int
    from_word: int
    count: int

    @property
    def text(self):
        return f"{self.node} {self.drop} {self.word} {self.source} {self.from_drop} {self.from_word} {self.count}"

    def inputs(self):
        """The input words that it reaches: nodes, drops and words."""
        return [(self.node, self.drop, self.word + more) for more in range(self.count)]

    def outputs(self):
        return [(self.source, self.from_drop, self.from_word + more) for more in range(self.count)]


def cut(data):
    """A plant, and what stands after its first line that is exactly %COP; None where there is no such line."""
    mark = MARK.search(data)
    return (data[: mark.start()], data[mark.end() + 1 :]) if mark else (data, None)


def lines_of(data):
    """The lines, and whether the last one is ended too."""
    lines = data.split(b"\n")
    is_ended = lines[-1] == b""
    return lines[:-1] if is_ended else lines, is_ended


def file_beside(plant_file):
    """The name of the file in which the wires of a plant stand."""
    return os.path.splitext(plant_file)[0] + ".wires"


def references(table, kinds):
    """The words of a drop's modules of these kinds, in their order: the first reference of each, and how many it has."""
    found = []
    for text in table["modules"]:
        kind, first, *count = words_of(text)
        if kind in kinds:
            # A module of an accepted plant has 16 registers at most.
            words = range(min(int(count[0]), 16)) if count else ()
            found += [(f"{first[0]}{int(first[1:]) + more:04}", 1) for more in words] if count else [(first, 16)]
    return found


def input_words(table):
    return references(table, ("in", "inw"))


def output_words(table):
    return references(table, ("out", "outw"))


def drops_of(document):
    """The table of each drop, by its node and its number; and the nodes of all controllers."""
    controllers = {table["node"]: table for table in document["controller"]}
    return controllers, {(node, drop["number"]): drop for node, table in controllers.items() for drop in table.get("drop", [])}


def why_unread(line):
    """What keeps a line from being seven numbers with single blanks between them."""
    text = line.decode(errors="replace")
    if not line:
        return f"the line is empty, and each line after %COP is a wire: {FORM}"
    if "\r" in text:
        return "it has a carriage return, and a line ends with a line feed alone"
    if text[0] in "#%":
        return "it is a comment or a mark, and each line after %COP, or in a file of wires, is a wire"
    if text.strip(" ") != text or "  " in text or "\t" in text:
        return "it has a blank or a tab beside the single blanks between its numbers"
    words = text.split(" ")
    strange = next((word for word in words if not re.fullmatch("0|[1-9][0-9]*", word)), None)
    if strange is not None:
        shown = strange[:SHOWN].encode("unicode_escape").decode()
        is_zero = re.fullmatch("0[0-9]+", strange) is not None
        return f"'{shown}' has a leading zero" if is_zero else f"'{shown}' is no number of plain digits"
    return f"it has {len(words)} numbers, and a wire has seven: {FORM}"


def read_line(number, line):
    """The wire in a line, or None. A number of many digits stands as one that is out of range too."""
    found = LINE.fullmatch(line.decode(errors="replace"))
    return Wire(number, *(int(word[:MOST_DIGITS]) if len(word) > MOST_DIGITS else int(word) for word in found.groups())) if found else None


def listed(numbers, what, none):
    numbers = sorted(numbers)
    if not numbers:
        return none
    *others, last = map(str, numbers)
    return f"{what}s {', '.join(others)} and {last}" if others else f"{what} {last}"


class Tests:
    """The tests of a wire, in their order, over the drops of a plant; of each word that is wired it is kept by which line."""

    def __init__(self, document):
        self.controllers, self.drops = drops_of(document)
        self.wired = {}

    def fault(self, number, line, is_ended):
        """What is wrong with a line, behind those that were tested before it; None where it is a wire."""
        if not is_ended:
            return Finding(*NOT_ENDED, "the last line has to end with a line feed too", number)
        wire = read_line(number, line)
        if wire is None:
            return Finding(*DOES_NOT_READ, why_unread(line), number)
        found = self.of_drops(wire) or self.of_words(wire) or self.of_inputs(wire)
        return found and Finding(*found, number, *([self.wired[self.taken(wire)]] if found[:2] == WIRED_TWICE else []))

    def of_drops(self, wire):
        for node, drop in ((wire.node, wire.drop), (wire.source, wire.from_drop)):
            if node not in self.controllers:
                return *NO_CONTROLLER, f"there is none at node {node}; the plant has {listed(self.controllers, 'node', '')}"
            if (node, drop) not in self.drops:
                own = [number for at, number in self.drops if at == node]
                return *NO_DROP, f"the controller at node {node} has no drop {drop}; it has {listed(own, 'drop', 'none')}"
        return None

    def of_words(self, wire):
        if not 1 <= wire.count <= MOST_WORDS:
            return *WRONG_COUNT, f"its last number says how many, and is {wire.count}"
        into, source = input_words(self.drops[wire.node, wire.drop]), output_words(self.drops[wire.source, wire.from_drop])
        for node, drop, first, words, kind in (
            (wire.node, wire.drop, wire.word, into, "in"),
            (wire.source, wire.from_drop, wire.from_word, source, "out"),
        ):
            last = first + wire.count - 1
            if first == 0 or last > len(words):
                asked = f"word {first}" if wire.count == 1 else f"words {first} to {last}"
                has = f"{len(words)} word{'s' * (len(words) != 1)} {kind}, counted from 1" if words else f"no words {kind}"
                return *NO_WORDS, f"it names {asked}, and drop {drop} of node {node} has {has}"
        return None

    def taken(self, wire):
        return next((place for place in wire.inputs() if place in self.wired), None)

    def of_inputs(self, wire):
        place = self.taken(wire)
        if place:
            return *WIRED_TWICE, f"word {place[2]} of drop {place[1]} of node {place[0]}"
        self.wired |= dict.fromkeys(wire.inputs(), wire.line)
        return None


def faults_of(document, data):
    """What is wrong with each line, None where it is a wire."""
    tests, (lines, is_ended) = Tests(document), lines_of(data)
    return (tests.fault(place, line, is_ended or place < len(lines)) for place, line in enumerate(lines, 1))


def finding_of(document, data, number):
    """What is wrong with the wire of a number; None where these tests find nothing."""
    return next(itertools.islice(faults_of(document, data), number - 1, None), None)


def first_fault(document, data):
    return next((found for found in faults_of(document, data) if found), None)


def read_wires(data):
    """The wires of lines that the program accepts."""
    return [read_line(number, line) for number, line in enumerate(lines_of(data)[0], 1)]


def wires_for(plant_file, data):
    """The bytes of the wires of a plant in a file: those after the plant, or in the file beside it; and in which file, and after how many lines of
    it, they stand. None where there are none."""
    plant, wires = cut(data)
    if wires is not None:
        return wires, plant_file, plant.count(b"\n") + 1
    beside = file_beside(plant_file)
    if not os.path.isfile(beside):
        return None
    with open(beside, "rb") as source:
        return source.read(), beside, 0
