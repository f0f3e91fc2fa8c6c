"""What references are called: the file NAME.names beside a plant NAME.toml (docs/guide/NAMES.md).

A line is a node or `*`, a reference, a name, and perhaps a unit and a scale, with tabs between them. The program knows nothing of it.
"""
import os
import re
from dataclasses import dataclass
from decimal import Decimal

from elements import COUNTS, is_reference
from output import named, say

HEAD = ("node", "reference", "name", "unit", "scale")
NUMBER = r"[0-9]{1,9}(?:\.[0-9]{1,6})?"
SCALE = re.compile(rf"value *(?:[×*] *(?P<factor>-?{NUMBER}))? *(?:(?P<sign>[+-]) *(?P<offset>{NUMBER}))?")
NODE = re.compile("[1-9]|[1-5][0-9]|6[0-4]")
# A text in quotes, or a reference that is no number of a line.
MENTION = re.compile(r"'[^']*'|(?<!line )\b[0134][0-9]{4}\b")
REFERENCE = re.compile(r"\b[0134][0-9]{4}\b")
# Of so many lines that do not read it is said why.
MOST_SAID = 5


class Misread(Exception):
    """Why a line does not read."""


@dataclass(frozen=True)
class Name:
    """What a reference of a node is called, or that of each node where there is none; and what unit its value has, as value * factor + offset."""

    line: int
    node: int
    reference: str
    text: str
    unit: str = ""
    factor: Decimal = Decimal(1)
    offset: Decimal = Decimal(0)

    @property
    def decimals(self):
        return max(-number.as_tuple().exponent for number in (self.factor, self.offset))

    @property
    def is_measure(self):
        """Whether its value is more than the number that it holds."""
        return bool(self.unit) or (self.factor, self.offset) != (1, 0)

    def number(self, value):
        return f"{value * self.factor + self.offset:.{self.decimals}f}"

    def measure(self, value):
        """A value in its unit."""
        return " ".join([self.number(value), self.unit]).strip()


def read_scale(text):
    found = SCALE.fullmatch(text)
    if not found or text == "value":
        raise Misread(f"the scale '{text}' is not as 'value × 0.1 + 4'")
    offset = Decimal(found["offset"] or 0)
    return Decimal(found["factor"] or 1), -offset if found["sign"] == "-" else offset


def read_line(number, line):
    """The name in a line."""
    columns = [column.strip(" ") for column in line.split("\t")]
    while columns and not columns[-1]:
        columns.pop()
    if not 3 <= len(columns) <= 5:
        raise Misread(f"it has {len(columns)} columns, and not three to five with tabs between them: {', '.join(HEAD)}")
    node, reference, text, unit, scale = columns + [""] * (5 - len(columns))
    if node != "*" and not NODE.fullmatch(node):
        raise Misread(f"the node '{node}' is neither 1 to 64 nor *")
    if not is_reference(reference):
        raise Misread(f"'{reference}' is no reference")
    if not text:
        raise Misread(f"{reference} has no name")
    if not (text + unit).isprintable():
        raise Misread("it has a character that cannot be seen")
    if (unit or scale) and reference[0] in "01":
        raise Misread(f"{reference} is on or off, and has no unit and no scale")
    return Name(number, 0 if node == "*" else int(node), reference, text, unit, *(read_scale(scale) if scale else ()))


def file_beside(plant_file):
    """The name of the file in which the names of a plant stand."""
    return os.path.splitext(plant_file)[0] + ".names"


class Names:
    """The names of a plant's references, and of each line that does not count its number and why."""

    def __init__(self, file="", data=b""):
        self.file, self.by_place, self.faults = file, {}, []
        for number, line in enumerate(data.removeprefix(b"\xef\xbb\xbf").split(b"\n"), 1):
            self.add(number, line.rstrip(b"\r"))

    def add(self, number, line):
        if not line.strip() or line.lstrip().startswith(b"#"):
            return
        try:
            name = read_line(number, line.decode())
            other = self.by_place.setdefault((name.node, name.reference), name)
            if other is not name:
                raise Misread(f"{name.reference} has the name '{other.text}' in line {other.line} already")
        except UnicodeDecodeError:
            self.faults.append((number, "it is not UTF-8"))
        except Misread as why:
            self.faults.append((number, str(why)))

    def over(self, others):
        """These names, and those of others for what has none here."""
        both = Names(self.file)
        both.by_place = others.by_place | self.by_place
        return both

    def of(self, node, reference):
        """The name of a reference of a controller, or None: that for its node goes before that for each."""
        return self.by_place.get((node, reference)) or self.by_place.get((0, reference))

    def told(self, node, reference):
        """A reference with its name."""
        name = self.of(node, reference)
        return f"{reference} ({name.text})" if name else reference

    def told_value(self, node, reference, value):
        """A value, and what it is in its unit."""
        name = self.of(node, reference)
        return f"{value} ({name.measure(value)})" if name and name.is_measure else str(value)

    def in_text(self, node, text):
        """A text with the name of each reference where it stands first; those in a text in quotes come behind it."""
        seen = set()

        def with_names(found):
            told = []
            for reference in REFERENCE.findall(found[0]):
                name = self.of(node, reference)
                if name and reference not in seen:
                    seen.add(reference)
                    told.append(name.text)
            return f"{found[0]} ({', '.join(told)})" if told else found[0]

        return MENTION.sub(with_names, text) if self.by_place else text

    def hints(self, sizes):
        """The number of each line that an engineer would want to be told of, and why. Sizes has by node how many of each kind a controller has."""
        found = list(self.faults)
        for name in self.by_place.values():
            owners = [node for node in sizes if name.node in (0, node)]
            if not owners:
                found.append((name.line, f"there is no controller {name.node}"))
            elif not any(int(name.reference[1:]) <= sizes[node].get(COUNTS[name.reference[0]], 0) for node in owners):
                which = f"controller {name.node} has no" if name.node else "no controller has a"
                found.append((name.line, f"{which} {name.reference}"))
        return sorted(found)


def names_beside(plant_file):
    """The names of a plant in a file; none where there are none."""
    file = file_beside(plant_file)
    if not os.path.isfile(file):
        return Names(file)
    with open(file, "rb") as source:
        return Names(file, source.read())


def names_for(plant_file):
    """The same, with a line on standard error for each line that is left out."""
    names = names_beside(plant_file)
    for number, why in names.faults[:MOST_SAID]:
        say(f"{named(names.file)} line {number}: {why}; this line is left out")
    if len(names.faults) > MOST_SAID:
        say(f"{named(names.file)} has {len(names.faults) - MOST_SAID} more such lines")
    return names
