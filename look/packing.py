"""Packs lists of records for a page: a column for each key, which says each value once. look/page/reading.js unpacks them."""
import json

# What a page needs of a row of the chart, and of a call; the texts of the journal's lines stand once beside them.
ROW_KEYS = ("line", "kind", "node", "scan", "network", "id", "what", "to", "target", "words", "fate", "mark", "tries", "count", "done", "onward")
CALL_KEYS = (
    *("id", "node", "route", "target", "kind", "words", "began", "ended", "onward", "served", "declined", "outcome", "result", "tries", "lines"),
    "touched",
)


def length(data):
    return len(json.dumps(data, separators=(",", ":")))


def runs_of(numbers):
    """Numbers as pairs: each with how often it comes on end."""
    runs = []
    for number in numbers:
        if runs and runs[-2] == number:
            runs[-1] += 1
        else:
            runs += [number, 1]
    return runs


def column(values):
    """Values in the shortest of three forms: `steps` from each number to the next; or a table, and for each value (`at`), or for each run of
    one value (`runs`), its place there. None is null."""
    if values and all(type(value) is int for value in values):
        steps = {"steps": runs_of([number - before for before, number in zip([0, *values], values)])}
    else:
        steps = None
    places, table = {}, []
    at = []
    for value in values:
        name = (value.__class__, repr(value) if isinstance(value, (list, tuple)) else value)
        if name not in places:
            places[name] = len(table)
            table.append(value)
        at.append(places[name])
    forms = [form for form in (steps, {"table": table, "at": at}, {"table": table, "runs": runs_of(at)}) if form]
    return min(forms, key=length)


def packed(records, keys):
    """Records as their number and a column for each key that one of them has."""
    columns = {key: [record.get(key) for record in records] for key in keys}
    return {"count": len(records), "columns": {key: column(values) for key, values in columns.items() if any(value is not None for value in values)}}


def packed_call(call):
    """Of a call's lines the numbers, each as the step from the one before."""
    numbers = [line for line, _, _ in call["lines"]]
    return call | {"lines": [number - before for before, number in zip([0, *numbers], numbers)]}


def packed_run(run):
    return run | {"rows": packed(run["rows"], ROW_KEYS), "calls": packed([packed_call(call) for call in run["calls"]], CALL_KEYS)}
