"""What a value breaks of docs/plant.schema.json. Of JSON Schema it knows the words that the schema uses, and fails at any other."""
import json
import os
import re

TOP = os.path.dirname(os.path.dirname(os.path.abspath(__file__)))
TYPES = {"object": dict, "array": list, "string": str, "integer": int}
NAMES = {"object": "a table", "array": "an array", "string": "a text", "integer": "a whole number"}
KNOWN = {"type", "required", "additionalProperties", "properties", "items", "minItems", "maxItems", "minimum"}
KNOWN |= {"maximum", "multipleOf", "const", "enum", "pattern", "if", "then", "else", "$ref", "$defs", "$schema", "title", "description", "default"}


def schema():
    with open(os.path.join(TOP, "docs/plant.schema.json"), encoding="utf-8") as file:
        return json.load(file)


def resolved(rule, root):
    """A rule with that which it names by `#/..` beside its own words."""
    if "$ref" not in rule:
        return rule
    named = root
    for step in rule["$ref"].removeprefix("#/").split("/"):
        named = named[step]
    return resolved(named, root) | {key: word for key, word in rule.items() if key != "$ref"}


def is_of(value, name):
    return isinstance(value, TYPES[name]) and not isinstance(value, bool)


def faults(value, rule, at, root):
    """What is wrong with a value: pairs of its place (keys and numbers from 0) and words."""
    strange = set(rule) - KNOWN
    if strange:
        raise ValueError(f"the schema has a word that is not known here: {strange}")
    rule = resolved(rule, root)
    if "if" in rule:
        is_so = not any(faults(value, rule["if"], at, root))
        yield from faults(value, rule["then" if is_so else "else"], at, root)
        return
    if "enum" in rule and (value not in rule["enum"] or isinstance(value, (bool, float))):
        yield at, f"has to be {' or '.join(map(repr, rule['enum']))}"
    if "const" in rule and (value != rule["const"] or isinstance(value, (bool, float))):
        yield at, f"has to be {rule['const']!r}"
    if "type" in rule and not is_of(value, rule["type"]):
        yield at, f"has to be {NAMES[rule['type']]}"
        return
    if isinstance(value, dict):
        yield from faults_of_table(value, rule, at, root)
    if isinstance(value, list):
        if len(value) < rule.get("minItems", 0) or len(value) > rule.get("maxItems", len(value)):
            yield at, f"has {len(value)} items, and takes {rule.get('minItems', 0)} to {rule.get('maxItems')}"
        for number, item in enumerate(value):
            yield from faults(item, rule.get("items", {}), at + [number], root)
    if isinstance(value, int) and not isinstance(value, bool):
        if value < rule.get("minimum", value) or value > rule.get("maximum", value):
            yield at, f"is {value}, and has to be {rule['minimum']} to {rule['maximum']}"
        elif value % rule.get("multipleOf", 1):
            yield at, f"is {value}, and has to be a multiple of {rule['multipleOf']}"
    if isinstance(value, str) and "pattern" in rule and not re.search(rule["pattern"], value):
        yield at, f"does not read: {value!r}" if len(value) < 40 else "does not read"


def faults_of_table(value, rule, at, root):
    keys = rule.get("properties", {})
    for key in value:
        if key not in keys and rule.get("additionalProperties", True) is False:
            yield at + [key], f"is no key here; the keys are {', '.join(keys)}"
    for key in rule.get("required", []):
        if key not in value:
            yield at, f"has no key '{key}'"
    for key, item in value.items():
        yield from faults(item, keys.get(key, {}), at + [key], root)
