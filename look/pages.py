"""Makes a page: one HTML file with its style, its scripts and the data that they draw."""
import html
import json
import os

import ladder
import journal as journals
import modbus
import packing
import wires as lines_of_wires

FOLDER = os.path.join(os.path.dirname(os.path.abspath(__file__)), "page")
SCRIPTS = ("reading.js", "names.js", "layout.js", "timing.js", "messages.js", "web.js", "flow.js", "networks.js", "page.js")


def part(name):
    with open(os.path.join(FOLDER, name), encoding="utf-8") as file:
        return file.read()


def in_script(data):
    """JSON that can stand inside a script element, whatever texts are in it."""
    text = json.dumps(data, separators=(",", ":"), ensure_ascii=False)
    for sign in "<>&\u2028\u2029":
        text = text.replace(sign, f"\\u{ord(sign):04x}")
    return text


def fill_in(title, data):
    data = data | {"runs": [packing.packed_run(run) for run in data["runs"]]}
    scripts = "\n".join(part(name) for name in SCRIPTS)
    holes = {"title": html.escape(title), "style": part("page.css"), "data": in_script(data), "script": scripts}
    page = part("page.html")
    pieces = page.split("{{")
    filled = [pieces[0]]
    for piece in pieces[1:]:
        name, _, rest = piece.partition("}}")
        filled += [holes[name], rest]
    return "".join(filled)


def cell_data(cell):
    return {
        "row": cell.row,
        "column": cell.column,
        "name": cell.name,
        "operands": cell.operands,
        "text": cell.text,
        "line": cell.line,
        "nodes": ladder.NODES.get(cell.name, 0),
    }


def controller_data(one, sources):
    others = one.references()[1]
    segments = [
        {
            "number": segment.number,
            "subroutines": segment.is_subroutines,
            "networks": [
                {
                    "number": network.number,
                    "line": network.line,
                    "comment": network.comment,
                    "cells": [cell_data(cell) for cell in network.cells],
                    "shorts": [[short.row, short.column] for short in network.shorts],
                }
                for network in segment.networks
            ],
        }
        for segment in one.segments
    ]
    return {
        "node": one.node,
        "line": one.line,
        "panel": one.panel,
        "others": others,
        "orders": [" ".join(row) for row in one.orders],
        "segments": segments,
        "places": sources,
    }


def place(first, count, does, what, at, **more):
    return {"first": first, "count": count, "does": does, "what": what, "at": at} | more


DOES = {(True, False): "reads", (False, True): "drives", (True, True): "reads and drives"}


def places_of(one):
    """Each place in a plant that reads or drives a reference of a controller; the page adds the requests of a run."""
    found = []
    for segment, network, cell in one.cells():
        at = f"segment {segment.number} network {network.number}"
        more = {"line": cell.line, "network": [segment.number, network.number], "cell": [cell.row, cell.column]}
        for access in cell.accesses():
            does = DOES[access.reads, access.writes]
            found.append(place(access.first, access.count, does, cell.text, at, **more))
    for number, row in enumerate(one.orders, 1):
        if row[1] != "-":
            found.append(place(row[1], 1, "reads", " ".join(row), f"order row {number}, its control"))
    for drop in one.table.get("drop", []):
        for module in drop["modules"]:
            kind, first, *count = module.split()
            size = int(count[0]) if count else 16
            does = "drives" if kind in ("in", "inw") else "reads"
            found.append(place(first, size, does, module, f"drop {drop['number']}"))
    return found


def wires_at(one, wires):
    """The references of a controller that wires reach or take, as places."""
    tables = {table["number"]: table for table in one.table.get("drop", [])}
    for wire in wires:
        if wire.node == one.node:
            at = f"wire {wire.line}, from drop {wire.from_drop} of node {wire.source}"
            for first, count in lines_of_wires.input_words(tables[wire.drop])[wire.word - 1 :][: wire.count]:
                yield place(first, count, "drives", wire.text, at)
        if wire.source == one.node:
            at = f"wire {wire.line}, to drop {wire.drop} of node {wire.node}"
            for first, count in lines_of_wires.output_words(tables[wire.from_drop])[wire.from_word - 1 :][: wire.count]:
                yield place(first, count, "reads", wire.text, at)


def requests_at(node, calls):
    """What the requests of a run that a node served read or write there, as places."""
    return [
        place(first, count, "drives" if writes else "reads", call["words"], f"request {call['id']} of node {call['node']}, in scan {call['served'][1]}")
        for call in calls
        if call["touched"] and call["served"][0] == node
        for first, count, writes in call["touched"]
    ]


def touched_by(call, last):
    """What a request that was served, under its last name, reads or writes: first reference, count, and whether it writes; None where it is nothing."""
    if call.kind == "bridge" or not call.pdu or not last.served:
        return None
    found = [[f"{kind}{address + 1:04}", quantity, writes] for kind, address, quantity, writes in modbus.touched(call.pdu) if address < 9984]
    return found or None


def call_data(call, last, rows_scan):
    """A call, and where it was served: under its own name, or under the last under which bridges sent it on."""
    began, ended = list(call.began or [0, False, 0]), list(call.ended or [0, False, 0])
    if call.kind in ("host", "bridge"):
        began[0], ended[0] = rows_scan.get((call.id, "began"), 0), rows_scan.get((call.id, "ended"), 0)
    return {
        "id": call.id,
        "node": call.node,
        "route": call.route,
        "target": journals.target_words(call.route),
        "kind": call.kind,
        "words": call.words,
        "began": began if call.began else None,
        "ended": ended if call.ended else None,
        "onward": call.onward,
        "served": last.served,
        "declined": last.declined,
        "outcome": call.outcome,
        "result": call.result,
        "tries": len(call.sends),
        "lines": call.lines,
        "touched": touched_by(call, last),
    }


def ring_data(journal, plant, scans):
    """The calls and the rows of the chart. Scans is 0 where the token's rounds tell no scan."""
    calls = journals.Calls(journal)
    rows = journals.chart(journal, plant, calls, scans)
    rows_scan = {}
    for row in rows:
        name = row.get("id")
        if name and row["kind"] == "post" and row["what"] == "Q":
            rows_scan[name, "began"] = row["scan"]
        elif name and (row["kind"] == "give up" or (row["kind"] == "take" and row["what"] == "R")):
            rows_scan[name, "ended"] = row["scan"]
    listed = [call_data(call, calls.at_target(call), rows_scan) for call in calls.by_id.values()]
    first_row = {}
    for number, row in enumerate(rows):
        if row.get("id"):
            first_row.setdefault(row["id"], number)
    listed.sort(key=lambda call: first_row.get(call["id"], len(rows)))
    return calls, listed, rows


def run_data(name, plant, panel, verdict, journal=None, scans=0, note=""):
    """A run as the page draws it, and its calls."""
    calls, listed, rows = ring_data(journal, plant, scans) if journal else (None, [], [])
    values = {node: {name: panel.changes(node, name) for name in names} for node, names in panel.values.items()}
    data = {
        "name": name,
        "verdict": verdict,
        "note": note,
        "scan_time": plant.document.get("scan_time", 10),
        "values": values,
        "lasts": panel.scans,
        "stops": panel.stops,
        "dark": panel.dark,
        "calls": listed,
        "rows": rows,
        "journal": journal.text() if journal else "",
        "nodes": sorted({*plant.nodes, *(journal.ends() if journal else ())}),
    }
    return data, calls


def web_data(plant):
    """The network of each station and of each end of a bridge, and the bridges; nothing in version 1."""
    if not plant.is_version_two:
        return {"networks": {}, "bridges": []}
    networks = {node: plant.network_of(node) for node in plant.nodes} | {address: network for network, address in plant.across}
    # Both ends of a bridge stand there, one behind the other.
    bridges = [[left_net, left, right_net, right] for (left_net, left), (right_net, right) in list(plant.across.items())[::2]]
    return {"networks": networks, "bridges": bridges}


def names_data(plant, names):
    """What the references of each controller are called, with the unit and the scale of a value."""
    named = {(one.node, name.reference): names.of(one.node, name.reference) for one in plant.controllers for name in names.by_place.values()}
    data = {one.node: {} for one in plant.controllers}
    for (node, reference), name in named.items():
        if name:
            # Whole numbers of the last decimal place.
            scale = [int(number.scaleb(name.decimals)) for number in (name.factor, name.offset)] if name.is_measure else []
            data[node][reference] = [name.text, name.unit, *scale, *([name.decimals] if scale else [])]
    return {node: of_node for node, of_node in data.items() if of_node}


def plant_data(plant, names, wires=()):
    controllers = [controller_data(one, places_of(one) + list(wires_at(one, wires))) for one in plant.controllers]
    head = []
    for line, text in plant.comments:
        if line != len(head) + 1:
            break
        head.append(text)
    return {
        "head": head,
        "names": names_data(plant, names),
        "hosts": [host["node"] for host in plant.hosts],
        "controllers": controllers,
        **web_data(plant),
    }
