"""Explains a refusal line: the line of the file, the text that stands there, what is wrong with it and what to do."""
import os
import re
import tomllib

import cells
import reasons
import wires
from names import Names
from places import Places
from reasons import Finding, Plant
from schema import TOP, schema
from toml_faults import of_toml

PAGE = os.path.join(TOP, "docs/guide/REFUSALS.md")
ROW = re.compile(r"^\| `(\d+ \w+)` \| ([^|]+) \| [^|]+ \| ([^|]+) \|$", re.MULTILINE)
STEPS = {"module": "modules", "network": "networks", "order": "orders", "request": "requests"}
# The steps of places that begin so, where a network is one of several.
OWN_STEPS = {"network": "network", "bridge": "bridges", "wire": "wire"}
# How many characters of a line are shown.
SHOWN = 100
# Places of faults of the words and the plant together, and not of the plant file.
OF_WORDS = ("session", "never", "same")
NO_CONTROLLER = (17, "a node without a controller")
LOSES_POWER, ASKS_OTHERS = (19, "a controller that loses its power"), (19, "a controller with a message block")
NO_REFERENCE = (20, "a reference that the controller does not have")
BAD_WIRE = 18
OTHER_PANEL, OTHER_SCAN_TIME = (21, "panels that differ"), (21, "scan times that differ")
ONE_DROP, OTHER_MODULES, OTHER_ROWS = (21, "a drop of one of the two alone"), (21, "a drop with other modules"), (21, "a drop with other rows")
WITH_WORDS = {NO_CONTROLLER, LOSES_POWER, ASKS_OTHERS, NO_REFERENCE, OTHER_PANEL, OTHER_SCAN_TIME, ONE_DROP, OTHER_MODULES, OTHER_ROWS}
NO_NAMES = Names()
# The faults that may be about a reference: BadRef, BadCell, BadShape, CoilTwice and BadOrder. What they say has no other number of five digits.
ABOUT_REFERENCES = range(5, 10)


def advice():
    """What docs/guide/REFUSALS.md says to do, by fault and by what is wrong."""
    with open(PAGE, encoding="utf-8") as file:
        return {(int(fault.split()[0]), reason): words for fault, reason, words in ROW.findall(file.read())}


class Refusal:
    """A line `refused <number> <name> <place>`, and the path of its place."""

    def __init__(self, line):
        found = re.fullmatch(r"refused (\d+) (\w+) (?:new )?(plant|net|session|never|same|panel|scan_time|(?:[a-z]+ \d+ ?)+)\n?", line)
        if not found:
            raise ValueError(f"no refusal line: {line!r}")
        self.is_new = " new " in line
        self.number, self.name = int(found[1]), found[2]
        self.path, self.what = (("net",) if found[3] == "net" else ()), found[3]
        if found[3] not in ("plant", "net", "panel", "scan_time", *OF_WORDS):
            words = found[3].split()
            if words[0] in OWN_STEPS:
                self.path, self.what = (OWN_STEPS[words[0]], int(words[1]) - 1), words[0]
                return
            steps = zip(words[::2], words[1::2])
            self.path = tuple(it for word, number in steps for it in (STEPS.get(word, word), int(number) - 1) if it != "cell")
            self.what = words[-2]


TESTS = {
    "controller": reasons.of_controller,
    "drop": reasons.of_drop,
    "module": reasons.of_module,
    "script": reasons.of_script,
    "order": reasons.of_order,
    "power": reasons.of_power,
    "panel": reasons.of_panel,
    "host": reasons.of_host,
    "request": reasons.of_request,
    "cell": cells.of_cell,
    "network": reasons.of_network,
    "bridge": reasons.of_bridge,
}


def findings(plant, refusal):
    """What is wrong at the place of a refusal."""
    if refusal.what == "plant":
        return reasons.of_table(plant, (), plant.rule(""), reasons.TABLES[""])
    if refusal.what in ("net", "segment"):
        return reasons.of_table(plant, refusal.path, plant.rule(refusal.what), reasons.TABLES[refusal.what])
    return TESTS[refusal.what](plant, refusal.path)


def seen(text):
    """A text in which what cannot be seen is written as an escape."""
    return "".join(it if it.isprintable() or it == "\t" else it.encode("unicode_escape").decode() for it in text)


def shown(text):
    """The first line of a text, cut where it is long."""
    first, _, more = text.strip(" \t\r\n").partition("\n")
    cut = first.rstrip("\r")[:SHOWN]
    return seen(cut) + (" .." if more or len(cut) < len(first.rstrip("\r")) else "")


def spot_of(plant, spot):
    """The number of a line, and the text that stands there."""
    if isinstance(spot, cells.Piece):
        return plant.places.line_at(spot.offset), shown(spot.text)
    span = plant.places.nearest(spot)
    if span.key == span.end:
        return 1, shown(plant.text.partition("\n")[0])
    return plant.places.line_at(span.key), shown(plant.text[span.key : span.end])


def told(name, spots, number, fault, finding, other=""):
    """The lines that explain. What a spot is against stands in the same file, or in another one."""
    (line, text), *others = spots
    yield f"{name} line {line}: {text}"
    for line, text in others:
        yield f"  against {other}{' ' if other else ''}line {line}: {text}"
    yield f"{number} {fault}, {finding.reason}: {finding.detail}"
    words = advice().get((number, finding.reason))
    if words:
        yield f"what to do: {words.replace('`', '')}"


def no_controller(plant, refusal):
    """Why there is no session, no standby or no search: no line of the file is at fault."""
    nodes = sorted(controller["node"] for controller in plant.document["controller"])
    *others, last = map(str, nodes)
    has = f"controllers at nodes {', '.join(others)} and {last}" if others else f"a controller at node {last}"
    which = {"same": "new plant" if refusal.is_new else "old plant"}.get(refusal.what, "plant")
    yield f"{refusal.number} {refusal.name}, {NO_CONTROLLER[1]}: the {which} has {has}"
    yield f"what to do: {advice()[NO_CONTROLLER].replace('`', '')}"


def no_reference(plant, refusal):
    """Why it cannot be asked what never comes: which coils and inputs there are."""
    has = [f"controller {table['node']} has coils = {table.get('coils', 0)} and inputs = {table.get('inputs', 0)}" for table in plant.document["controller"]]
    yield f"{refusal.number} {refusal.name}, {NO_REFERENCE[1]}: {', '.join(has)}"
    yield f"what to do: {advice()[NO_REFERENCE].replace('`', '')}"


def not_alone(plant, node):
    """What takes a controller its power, or ties it to other nodes. In this refusal a controller is named by its node."""
    place, table = next((place, table) for place, table in enumerate(plant.document["controller"]) if table["node"] == node)
    if table.get("power"):
        return Finding(*LOSES_POWER, f"node {node} has power = {table['power']}", ("controller", place, "power", 0))
    networks = [(segment, number) for segment, one in enumerate(table["segment"]) for number in range(len(one["networks"]))]
    pieces = (piece for segment, number in networks for piece in cells.pieces_at(plant, ("controller", place, "segment", segment, "networks", number)))
    message = next((piece for piece in pieces if piece.name == "MSTR"), None)
    return message and Finding(*ASKS_OTHERS, f"node {node} asks others, and their answers are not of its field", message)


def with_names(plant, refusal, finding, names):
    """What is wrong, with the names of its references: those of the controller in which it is."""
    if finding.fault not in ABOUT_REFERENCES or refusal.path[:1] != ("controller",):
        return finding.detail
    return names.in_text(plant.at(refusal.path[:2]).get("node"), finding.detail)


def of_wire(name, data, refusal, own_file):
    """The lines that explain the refusal of a wire, after a plant or in a file of their own."""
    plant, lines = wires.cut(data)
    finding = wires.finding_of(tomllib.loads(plant.decode()), lines or b"", refusal.path[1] + 1)
    if finding is None:
        return []
    rows = [row.decode(errors="replace") for row in (lines or b"").split(b"\n")]
    before = 0 if own_file else plant.count(b"\n") + 1
    # What stands at the end of a wire may be what is wrong with it.
    spots = [(before + spot, seen(rows[spot - 1][:SHOWN]) + " .." * (len(rows[spot - 1]) > SHOWN)) for spot in finding.spots]
    return told(own_file or name, spots, refusal.number, refusal.name, finding)


def explain(name, data, refusal, names=NO_NAMES, own_file=None):
    """The lines that explain the refusal of a file's bytes; none where these tests find nothing wrong there. Wires may stand in a file of their own."""
    if refusal.number == BAD_WIRE:
        return of_wire(name, data, refusal, own_file)
    try:
        text = data.decode()
    except UnicodeDecodeError as error:
        line, begins = data.count(10, 0, error.start) + 1, data.rfind(10, 0, error.start) + 1
        row = data[begins:].split(b"\n", 1)[0].decode(errors="replace")
        finding = Finding(1, "a file that is not UTF-8", f"the byte {data[error.start]:02x} is none of a character there")
        return told(name, [(line, shown(row))], refusal.number, refusal.name, finding)
    found = of_toml(text)
    if found:
        reason, detail, line = found
        row = text.split("\n")[line - 1]
        return told(name, [(line, shown(row))], refusal.number, refusal.name, Finding(1, reason, detail))
    plant = Plant(text, tomllib.loads(text), Places(text), schema())
    if refusal.what in OF_WORDS:
        return no_reference(plant, refusal) if refusal.number == NO_REFERENCE[0] else no_controller(plant, refusal)
    if refusal.number == LOSES_POWER[0]:
        finding = not_alone(plant, refusal.path[1] + 1)
    else:
        finding = next((it for it in findings(plant, refusal) if it.fault == refusal.number), None)
    if finding is None:
        return []
    spots = [spot_of(plant, spot) for spot in finding.spots]
    finding.detail = with_names(plant, refusal, finding, names)
    return told(name, spots, refusal.number, refusal.name, finding)


def plant_part(data):
    """A file up to its first line `%JOURNAL`, behind which a journal stands."""
    if data.startswith(b"%JOURNAL\n"):
        return b""
    begins = data.find(b"\n%JOURNAL\n")
    return data if begins < 0 else data[: begins + 1]
