"""Explains what `same` refuses of two plants: a fault of either, or what the two controllers differ in that have no field in common."""
import tomllib

import elements
import explaining
from fields import BETWEEN, two_plants
from places import Places
from reasons import Finding, Plant, words_in
from schema import schema

NOT_ALIKE = 21


class Side:
    """One of two plants, and its controller."""

    def __init__(self, name, data, node):
        text = data.decode()
        self.name, self.plant = name, Plant(text, tomllib.loads(text), Places(text), schema())
        tables = self.plant.document["controller"]
        self.path = ("controller", next(place for place, table in enumerate(tables) if table["node"] == node))
        self.table = self.plant.at(self.path)

    def drop(self, number):
        """The table of a drop and its path; nothing, and that of the controller, where there is none."""
        found = next(((table, (*self.path, "drop", place)) for place, table in enumerate(self.table.get("drop", [])) if table["number"] == number), None)
        return found or (None, self.path)

    def spot(self, path):
        return explaining.spot_of(self.plant, path)


def files_of(data, names):
    """The bytes of both plants. In one file with the other the new one keeps the numbers of its lines."""
    old, new = two_plants(data)
    mark = BETWEEN.search(data)
    return old, b"\n" * data.count(10, 0, mark.end()) + new if mark and names[0] == names[1] else new


def panels(sides):
    shown = [[text.strip(" \t") for text in side.table.get("panel", [])] for side in sides]
    place = next((place for place, (one, other) in enumerate(zip(*shown)) if one != other), None)
    detail = f"the old one has {len(shown[0])} references and the new one {len(shown[1])}"
    if place is not None:
        detail = f"reference {place + 1} is {shown[0][place]} in the old one and {shown[1][place]} in the new one"
    return Finding(*explaining.OTHER_PANEL, detail, *[(*side.path, "panel") for side in sides])


def scan_times(sides):
    times = [side.plant.document.get("scan_time", 10) for side in sides]
    return Finding(*explaining.OTHER_SCAN_TIME, f"{times[0]} in the old one and {times[1]} in the new one", ("scan_time",), ("scan_time",))


def rows_of(table):
    """The rows of a script by what they bring; an empty one is one row of zeros."""
    rows = table.get("script") or [" ".join(["0000"] * words_in(table, ("in", "inw")))]
    return {tuple(word.upper() for word in elements.words_of(row)): row for row in rows}


def drops(sides, number):
    (one, path), (other, other_path) = [side.drop(number) for side in sides]
    if one is None or other is None:
        detail = f"the {'new' if one is None else 'old'} one alone has a drop {number}"
        return Finding(*explaining.ONE_DROP, detail, path, other_path)
    modules = [[tuple(elements.words_of(text)) for text in table["modules"]] for table in (one, other)]
    if modules[0] != modules[1]:
        return Finding(*explaining.OTHER_MODULES, f"of drop {number}", (*path, "modules"), (*other_path, "modules"))
    rows, others = rows_of(one), rows_of(other)
    alone = [("old", rows[row]) for row in rows if row not in others] + [("new", others[row]) for row in others if row not in rows]
    detail = "".join(f"the {whose} one alone brings {row}" for whose, row in alone[:1])
    return Finding(*explaining.OTHER_ROWS, f"of drop {number}: {detail}", (*path, "script"), (*other_path, "script"))


def explain(names, data, refusal, node, of_references):
    """The lines that explain the refusal of two plants in one input; NAMES are what they are called."""
    if refusal.is_new and not BETWEEN.search(data):
        return [f"{refusal.number} {refusal.name}: {names[1]} has no line that is exactly %NEW, so there is no new plant",
                "what to do: give the new plant as a second file, or after such a line"]
    old, new = files_of(data, names)
    if refusal.number != NOT_ALIKE:
        place = int(refusal.is_new)
        return explaining.explain(names[place], (old, new)[place], refusal, of_references[place])
    sides = [Side(name, part, node) for name, part in zip(names, (old, new))]
    finding = {"panel": panels, "scan_time": scan_times}.get(refusal.what, lambda both: drops(both, refusal.path[1] + 1))(sides)
    spots = [side.spot(spot) for side, spot in zip(sides, finding.spots)]
    return explaining.told(names[0], spots, refusal.number, refusal.name, finding, "" if names[0] == names[1] else names[1])
