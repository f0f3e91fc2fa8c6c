"""Why a plant is refused: the tests of docs/guide/REFUSALS.md at one place of a document, in their order.

Each test that fails gives a Finding. The launcher shows the first of the fault that the program named; these tests
explain, and what is refused is the program's own.
"""
import difflib
import re

import elements
from elements import COUNTS, MOST, NAMES, is_constant, is_five_digits, is_reference, pieces_of, words_of
from schema import resolved

TYPES = {"object": dict, "array": list, "string": str, "integer": int}
TYPE_NAMES = {"object": "a table", "array": "an array", "string": "a text", "integer": "a whole number"}
ITEMS = {"object": "tables", "string": "texts"}
TABLES = {"": "the top table", "net": "[net]", "controller": "a controller", "drop": "a drop", "segment": "a segment", "host": "a host"}
TABLES |= {"network": "a network"}
# The rules of the tables in the schema, where they are not named as these; and of those that differ in version 2.
RULES = {"": "plant", "network": "ring"}
OF_VERSION_TWO = {"": "plant_2", "net": "net_2", "controller": "controller_2", "host": "host_2"}


class Finding:
    """A fault, the row of REFUSALS.md that says why, what that means here, and the paths or pieces that it is about."""

    def __init__(self, fault, reason, detail, *spots):
        self.fault, self.reason, self.detail, self.spots = fault, reason, detail, spots


class Plant:
    """A plant's text, its document, and where each part of that stands."""

    def __init__(self, text, document, places, schema):
        self.text, self.document, self.places, self.schema = text, document, places, schema

    def at(self, path):
        value = self.document
        for step in path:
            value = value[step]
        return value

    def line(self, path):
        return self.places.line_of(path)

    def is_version_two(self):
        return is_of(self.document.get("version"), "integer") and self.document["version"] == 2

    def rule(self, table):
        """What the schema says of a table."""
        name = RULES.get(table, table)
        if self.is_version_two():
            name = OF_VERSION_TWO.get(table, name)
        return self.schema["$defs"][name]


def is_of(value, name):
    return isinstance(value, TYPES[name]) and not isinstance(value, bool)


def rule_of(plant, rule):
    return resolved(rule, plant.schema)


def near(word, words):
    found = difflib.get_close_matches(word.lower(), words, 1, 0.6)
    return f"; is it '{found[0]}'?" if found else f"; the keys are {', '.join(words)}"


# How alike a key has to be to one of its table, that it is taken for that one misspelt and not for one of another table.
NEAR = 0.85
# Where the keys of a table stand, and how the headers of tables are written.
STANDS = {"": "at the head of the file, before the first line in brackets", "net": "under [net]", "network": "under a [[network]]"}
STANDS |= {"controller": "under a [[controller]], before its first [[controller.drop]] or [[controller.segment]]", "host": "under a [[host]]"}
STANDS |= {"drop": "under a [[controller.drop]]", "segment": "under a [[controller.segment]]"}
HEADERS = {"controller": "[[controller]]", "segment": "[[controller.segment]]", "drop": "[[controller.drop]]", "host": "[[host]]", "net": "[net]"}
HEADERS |= {"network": "[[network]]"}


def is_tables(value):
    """Whether a value is a table or a list of tables: what a line in brackets begins."""
    return isinstance(value, dict) or isinstance(value, list) and bool(value) and isinstance(value[0], dict)


def keys_of(plant, table, is_two):
    """The keys of a table in version 1 or 2."""
    name = RULES.get(table, table)
    name = OF_VERSION_TWO.get(table, name) if is_two else name
    return plant.schema["$defs"][name]["properties"]


def owners(plant, key, is_two):
    """The tables that have a key."""
    return [table for table in TABLES if (is_two or table != "network") and key in keys_of(plant, table, is_two)]


def header_of(path, value):
    """The line that begins a table or a list of tables."""
    name = ".".join(step for step in path if isinstance(step, str))
    return f"[{name}]" if isinstance(value, dict) else f"[[{name}]]"


def nearest_tables(path, is_two):
    """The headers of all tables, the one first that is most like an unknown one."""
    whole, last = ".".join(step for step in path if isinstance(step, str)), path[-1]

    def likeness(header):
        name = header.strip("[]")
        pairs = ((whole, name), (last, name.rpartition(".")[2]))
        return max(difflib.SequenceMatcher(None, one, other).ratio() for one, other in pairs)

    return sorted((header for table, header in HEADERS.items() if is_two or table != "network"), key=likeness, reverse=True)


def of_unknown(plant, path, value, name):
    """Why a key is not known in its table: it is one of version 2, begins a table that is none, stands in the wrong table, or is misspelt."""
    key, is_two = path[-1], plant.is_version_two()
    table = next((step for step in reversed(path[:-1]) if isinstance(step, str)), "")
    here, of_two = owners(plant, key, is_two), owners(plant, key, True)
    words = list(keys_of(plant, table, is_two))
    is_table, is_near = is_tables(value), difflib.get_close_matches(key.lower(), words, 1, NEAR)
    if not is_two and (table in of_two or of_two and not (here or is_table or is_near)):
        where = " or ".join(STANDS[owner] for owner in of_two if owner == table or table not in of_two)
        return Finding(2, "a key of version 2", f"'{key}' is a key of version 2 ({where}), and this plant has version = 1", path)
    if is_table:
        first, *others = nearest_tables(path, is_two)
        detail = f"there is no table {header_of(path, value)}; is it {first}? The others are {', '.join(others)}"
        return Finding(2, "a table that is not known", detail, path)
    if here and not is_near:
        where = " or ".join(STANDS[owner] for owner in here)
        return Finding(2, "a key in the wrong table", f"{name} has no key '{key}'; it belongs {where}", path)
    return Finding(2, "a key that is not known", f"{name} has no key '{key}'{near(key, words)}", path)


def of_keys(plant, path, table, rule, name):
    keys = rule["properties"]
    for key, value in table.items():
        if key not in keys:
            yield of_unknown(plant, path + (key,), value, name)
    for key in rule.get("required", []):
        if key not in table:
            yield Finding(2, "a key that is missing", f"{name} has to have the key '{key}'", path)


def of_items(path, key, items, rule, item):
    for number, value in enumerate(items):
        if not is_of(value, item["type"]):
            yield Finding(3, "a value of another type", f"each item of '{key}' has to be {TYPE_NAMES[item['type']]}", path + (number,))
    if len(items) > rule["maxItems"]:
        detail = f"'{key}' has {len(items)} items, and takes at most {rule['maxItems']}"
        yield Finding(13, "too many items", detail, path + (rule["maxItems"],))
    if len(items) < rule.get("minItems", 0):
        yield Finding(3, f"a plant without a {key}", f"'{key}' has no item", path)


def of_number(path, key, value, rule):
    if key == "network":
        # Whether the plant has it is tested apart.
        return
    low, high, step = rule["minimum"], rule["maximum"], rule.get("multipleOf", 1)
    if not low <= value <= high:
        fault, reason = (12, "an address out of its range") if key == "node" else (3, "a number out of its range")
        yield Finding(fault, reason, f"'{key}' is {value}, and has to be {low} to {high}", path)
    elif value % step:
        below = value - value % step
        yield Finding(3, "a number of discretes that is no multiple of 16", f"'{key}' is {value}; {below} and {below + step} are", path)


def of_type(path, value, rule):
    """A value of another type, or one table where a list of them belongs, or the other way round."""
    key, header = path[-1], HEADERS.get(path[-1])
    if header and is_tables(value):
        return Finding(3, "a table with the wrong brackets", f"it is {header_of(path, value)}, and has to be {header}", path)
    return Finding(3, "a value of another type", f"'{key}' has to be {TYPE_NAMES[rule['type']]}", path)


def of_value(plant, path, key, value, rule):
    if "enum" in rule:
        if not is_of(value, "integer"):
            yield Finding(3, "a value of another type", f"'{key}' has to be a whole number", path)
        elif value not in rule["enum"]:
            yield Finding(4, "another version", f"'{key}' is {value}, and has to be {' or '.join(map(str, rule['enum']))}", path)
    elif not is_of(value, rule["type"]):
        yield of_type(path, value, rule)
    elif rule["type"] == "array":
        yield from of_items(path, key, value, rule, rule_of(plant, rule["items"]))
    elif rule["type"] == "integer":
        yield from of_number(path, key, value, rule)
    elif "pattern" in rule and not re.search(rule["pattern"], value):
        strange = "".join(sorted(set(value) - set("DLA")))
        detail = f"'{key}' has {strange!r}" if strange else f"'{key}' has {len(value)} letters"
        yield Finding(3, "fates that are no 1 to 1000 letters D, L and A", detail, path)


def of_table(plant, path, rule, name):
    """The tests of a table's own keys."""
    table = plant.at(path)
    if not isinstance(table, dict):
        return
    yield from of_keys(plant, path, table, rule, name)
    for key, value_rule in rule["properties"].items():
        if key in table:
            yield from of_value(plant, path + (key,), key, table[key], rule_of(plant, value_rule))


def of_twice(plant, path, key, others, fault, reason):
    """Whether a value at a key stands at an earlier table too."""
    value = plant.at(path).get(key)
    for other in others:
        if plant.at(other).get(key) == value:
            detail = f"{key} = {value} stands in line {plant.line(other + (key,))} already"
            yield Finding(fault, reason, detail, path + (key,), other + (key,))
            return


def of_reference(plant, word, kinds, count, controller, spot, what):
    """The tests of a reference that is to be of some kinds, with so many from it on in the map."""
    if not is_reference(word):
        detail = f"{word}: the first digit is 0, 1, 3 or 4, and the other four are 0001 to {MOST}"
        yield Finding(5, "no reference", detail, spot)
    elif word[0] not in kinds:
        wanted = " or ".join(NAMES[kind] for kind in kinds)
        yield Finding(5, "a reference of another kind", f"{word} is {NAMES[word[0]]}, and {what} takes {wanted}", spot)
    else:
        yield from of_map(plant, word, count, controller, spot)


def of_map(plant, word, count, controller, spot):
    key = COUNTS[word[0]]
    size, last = plant.at(controller).get(key, 0), int(word[1:]) + count - 1
    if last <= size:
        return
    has = f"{key} = {size} in line {plant.line(controller + (key,))}" if key in plant.at(controller) else f"no {key}"
    if int(word[1:]) > size:
        yield Finding(5, "a reference outside the map", f"{word}, and the controller has {has}", spot)
    else:
        detail = f"{word} to {word[0]}{last:04}, and the controller has {has}"
        yield Finding(5, "references that reach beyond the map", detail, spot)


MODULES = {"in": "1", "out": "0", "inw": "3", "outw": "4"}


def of_module(plant, path):
    words = words_of(plant.at(path))
    name, count = words[0] if words else "", 1
    if name not in MODULES or not is_five_digits((words + [""])[1]) or len(words) != (3 if name[-1:] == "w" else 2):
        yield Finding(10, "a module that does not read", "it is as `in 10001`, `out 00001`, `inw 30001 4` or `outw 40001 4`", path)
        return
    if name[-1] == "w":
        if not is_constant(words[2]) or not 1 <= int(words[2]) <= 16:
            yield Finding(10, "a module of other than 1 to 16 registers", f"it has {words[2]}", path)
            return
        count = int(words[2])
    elif int(words[1][1:]) % 16 != 1:
        first = max(int(words[1][1:]) - 1, 0) // 16 * 16 + 1
        detail = f"{words[1]}; {words[1][0]}{first:04} and {words[1][0]}{first + 16:04} are such numbers"
        yield Finding(10, "a module that does not begin at 1 plus a multiple of 16", detail, path)
    count = count if name[-1] == "w" else 16
    yield from of_reference(plant, words[1], MODULES[name], count, path[:2], path, f"`{name}`")


def words_in(drop, names):
    """How many words the modules of these names have."""
    modules = [words_of(text) for text in drop.get("modules", [])]
    return sum(int(words[2]) if len(words) > 2 else 1 for words in modules if words and words[0] in names)


def of_drop(plant, path):
    yield from of_table(plant, path, plant.rule("drop"), TABLES["drop"])
    others = [path[:3] + (number,) for number in range(path[3])]
    yield from of_twice(plant, path, "number", others, 10, "a drop number that is taken")
    for names, what in ((("in", "inw"), "in"), (("out", "outw"), "out")):
        if words_in(plant.at(path), names) > 64:
            detail = f"it has {words_in(plant.at(path), names)} words {what}"
            yield Finding(13, "more than 64 words in or out of a drop", detail, path + ("modules",))


def of_script(plant, path):
    words, wanted = words_of(plant.at(path)), words_in(plant.at(path[:4]), ("in", "inw"))
    if words == ["X"]:
        return
    for word in words:
        if not re.fullmatch("[0-9A-Fa-f]{4}", word):
            yield Finding(11, "a word that is not four hexadecimal digits", word, path)
    if len(words) != wanted:
        detail = f"it has {len(words)}, and the modules in line {plant.line(path[:4] + ('modules',))} have {wanted} words in"
        yield Finding(11, "a script row with another number of words", detail, path)


def labels_of(controller):
    """Whether the last segment is that of subroutines."""
    last = (controller.get("segment") or [{}])[-1]
    return any(words_of(piece)[1:2] == ["LAB"] for network in last.get("networks", []) for piece in pieces_of(network))


def of_order(plant, path):
    controller, words = plant.at(path[:2]), words_of(plant.at(path))
    if len(words) != 4:
        detail = f"it has {len(words)}: segment, control or -, input drop or -, output drop or -"
        yield Finding(9, "a row that has not four words", detail, path)
        return
    count, numbers = len(controller.get("segment", [])), [str(drop.get("number")) for drop in controller.get("drop", [])]
    if words[0] not in map(str, range(1, count + 1)):
        yield Finding(9, "a segment that is not there", f"{words[0]}; the controller has {count or 'none'}", path)
    elif int(words[0]) == count and labels_of(controller):
        yield Finding(9, "the segment of subroutines", f"segment {words[0]} has a LAB, and is solved by calls alone", path)
    if words[1] != "-" and not is_five_digits(words[1]):
        yield Finding(9, "a control that does not read", f"{words[1]} is neither five digits nor -", path)
    for word, which in ((words[2], "input"), (words[3], "output")):
        if word != "-" and word not in numbers:
            has = f"drop{'s' if len(numbers) > 1 else ''} {', '.join(numbers)}" if numbers else "no drop"
            yield Finding(9, "a drop that is not there", f"{word} as the {which} drop, and the controller has {has}", path)
    if words[1] != "-":
        yield from of_reference(plant, words[1], "01", 1, path[:2], path, "a control")


# The most scans of a run, and the most dark scans behind a failure.
MOST_SCANS = 2000


def of_power(plant, path):
    words, rows = words_of(plant.at(path)), len(plant.at(path[:2]).get("orders", []))
    if len(words) != 3:
        detail = f"it has {len(words)}: the scan, the row of the order of solve, and how many scans after it are dark"
        yield Finding(15, "a power failure that has not three words", detail, path)
        return
    limits = (("scan", 1, MOST_SCANS), ("row", 0, rows), ("number of dark scans", 0, MOST_SCANS))
    for word, (name, low, high) in zip(words, limits):
        if not re.fullmatch("0|[1-9][0-9]*", word) or not low <= int(word) <= high:
            has = f"; the controller has {rows} order row{'s' if rows != 1 else ''}" if name == "row" else ""
            yield Finding(15, "a number of a power failure out of its range", f"the {name} {word} is not {low} to {high}{has}", path)
    if path[-1]:
        before = path[:-1] + (path[-1] - 1,)
        scan, _, dark = [int(word) for word in words_of(plant.at(before))]
        if int(words[0]) <= scan + dark:
            detail = f"it is in scan {words[0]}, and the one before it goes to scan {scan + dark}"
            yield Finding(15, "a power failure before the last one is over", detail, path, before)


def of_panel(plant, path):
    words = words_of(plant.at(path))
    word = words[0] if len(words) == 1 else plant.at(path)
    yield from of_reference(plant, word, "0134", 1, path[:2], path, "a panel")


def is_number(word):
    return re.fullmatch("0|[1-9][0-9]*", word)


# The most addresses of a route.
MOST_ADDRESSES = 5


def of_route(plant, word, path):
    """The tests of how a route reads, or of a node in version 1, whose routes have one address."""
    if not plant.is_version_two():
        if not is_number(word):
            yield Finding(3, "a request that does not read", f"the node {word} is no number", path)
    elif not all(map(is_number, word.split("."))):
        detail = f"the route {word} is not numbers without a leading zero, joined by points"
        yield Finding(3, "a request that does not read", detail, path)
    elif len(word.split(".")) > MOST_ADDRESSES:
        detail = f"the route {word} has {len(word.split('.'))} addresses, and not 1 to {MOST_ADDRESSES}"
        yield Finding(3, "a request that does not read", detail, path)


def of_request(plant, path):
    words, node = words_of(plant.at(path)), plant.at(path[:2]).get("node")
    if len(words) != 3:
        what = "route" if plant.is_version_two() else "node"
        yield Finding(3, "a request that does not read", f"it has {len(words)} words, and not three: hold, {what}, PDU", path)
        return
    if not is_number(words[0]) or not 1 <= int(words[0]) <= 10000:
        yield Finding(3, "a request that does not read", f"the hold {words[0]} is not 1 to 10000", path)
        return
    wrong = list(of_route(plant, words[1], path))
    route = words[1].split(".")
    if wrong:
        yield from wrong
    elif not re.fullmatch("(?:[0-9a-fA-F]{2}){1,253}", words[2]):
        yield Finding(3, "a request that does not read", f"the PDU {words[2][:20]} is not 1 to 253 bytes of two hexadecimal digits", path)
    elif not all(1 <= int(address) <= 64 for address in route):
        far = next(address for address in route if not 1 <= int(address) <= 64)
        yield Finding(12, "an address out of its range", f"it asks node {far}, and addresses are 1 to 64", path)
    elif int(route[0]) == node:
        yield Finding(12, "a host that asks itself", f"its own node is {node}", path, path[:2] + ("node",))


def of_host(plant, path):
    yield from of_table(plant, path, plant.rule("host"), TABLES["host"])
    others = [("controller", number) for number in range(len(plant.document.get("controller", [])))]
    others += [("host", number) for number in range(path[1])]
    yield from of_twice(plant, path, "node", others, 12, "an address that is taken")
    yield from of_own_network(plant, path)


def of_controller(plant, path):
    yield from of_table(plant, path, plant.rule("controller"), TABLES["controller"])
    others = [("controller", number) for number in range(path[1])]
    yield from of_twice(plant, path, "node", others, 12, "an address that is taken")
    yield from of_own_network(plant, path)


def networks_of(plant):
    """The numbers of the plant's networks."""
    return [table.get("number") for table in plant.document.get("network", [])]


def no_network(plant, number, path):
    listed = ", ".join(map(str, networks_of(plant)))
    return Finding(16, "a network that is not there", f"there is no network {number}; the plant has {listed}", path)


def of_own_network(plant, path):
    """Whether a station's network is there."""
    if plant.is_version_two() and plant.at(path).get("network") not in networks_of(plant):
        yield no_network(plant, plant.at(path).get("network"), path + ("network",))


def of_network(plant, path):
    yield from of_table(plant, path, plant.rule("network"), TABLES["network"])
    others = [("network", number) for number in range(path[1])]
    yield from of_twice(plant, path, "number", others, 16, "a network number that is taken")
    number = plant.at(path).get("number")
    stations = plant.document.get("controller", []) + plant.document.get("host", [])
    if all(station.get("network") != number for station in stations):
        yield Finding(16, "a network without a station", f"no controller and no host has network = {number}", path)


def of_bridge(plant, path):
    words = words_of(plant.at(path))
    if len(words) != 4 or not all(map(is_number, words)):
        detail = "it is four numbers without a leading zero: a network, an address, another network, an address"
        yield Finding(16, "a bridge that does not read", detail, path)
        return
    for word in words[::2]:
        if int(word) not in networks_of(plant):
            yield no_network(plant, word, path)
    if words[0] == words[2]:
        yield Finding(16, "a bridge that joins a network to itself", f"both ends are on network {words[0]}", path)
    taken = [("controller", number) for number in range(len(plant.document.get("controller", [])))]
    taken += [("host", number) for number in range(len(plant.document.get("host", [])))]
    for word in words[1::2]:
        yield from of_end(plant, path, word, taken)
    if words[1] == words[3]:
        yield Finding(12, "an address that is taken", f"both ends have the address {words[1]}", path)


def of_end(plant, path, word, stations):
    """The tests of an address of a bridge."""
    if not 1 <= int(word) <= 64:
        yield Finding(12, "an address out of its range", f"an end has {word}, and addresses are 1 to 64", path)
    for other in stations:
        if plant.at(other).get("node") == int(word):
            detail = f"node = {word} stands in line {plant.line(other + ('node',))} already"
            yield Finding(12, "an address that is taken", detail, path, other + ("node",))
    for number in range(path[1]):
        other = path[:1] + (number,)
        if word in words_of(plant.at(other))[1::2]:
            detail = f"{word} is an end of the bridge in line {plant.line(other)} already"
            yield Finding(12, "an address that is taken", detail, path, other)
