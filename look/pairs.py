"""Compares two runs: where the values of a controller differ, and which requests were answered otherwise."""
from dataclasses import dataclass

import ladder
import solving


@dataclass
class Run:
    """What is compared of a run: its name, its plant, its panel with the values of all references, and its calls."""

    name: str
    plant: object
    panel: object
    calls: list


def ranges_of(scans):
    """Rising scans as pairs of the first and the last of each row without a gap."""
    found = []
    for scan in scans:
        if found and found[-1][1] == scan - 1:
            found[-1][1] = scan
        else:
            found.append([scan, scan])
    return found


def ranges_text(ranges, most=6):
    texts = [str(first) if first == last else f"{first} to {last}" for first, last in ranges]
    return ", ".join(texts[:most]) + (" and more" if len(texts) > most else "")


def has(controller, reference):
    return int(reference[1:]) <= controller.table.get(ladder.KINDS[reference[0]], 0)


def shared_references(old, new):
    """What both maps have of the references of the panels, and of the others that either plant names."""
    (old_panel, old_others), (new_panel, new_others) = old.references(), new.references()
    panel = [one for one in dict.fromkeys(old_panel + new_panel) if has(old, one) and has(new, one)]
    others = sorted({one for one in old_others + new_others if has(old, one) and has(new, one)} - set(panel))
    return panel, others


def differing(old, new, node, references):
    """The scans in which values differ, by reference; a scan that only one run has differs too."""
    found = {}
    ends = [run.panel.scans.get(node, 0) for run in (old, new)]
    for reference in references:
        one, other = (dict(run.panel.values.get(node, {}).get(reference, [])) for run in (old, new))
        scans = [scan for scan in range(1, max(ends) + 1) if one.get(scan) != other.get(scan)]
        if scans:
            found[reference] = scans
    return found


def value_text(run, node, reference, scan, names):
    """The value of a reference, or why there is none."""
    value = dict(run.panel.values.get(node, {}).get(reference, [])).get(scan)
    if value is not None:
        return names.told_value(node, reference, value)
    if scan in run.panel.dark.get(node, []):
        return "without power"
    return "stopped" if node in run.panel.stops else "no value"


def compare_controller(old, new, node, scans, names, are_journals, cause_of):
    """Lines that say how a controller differs, and the ranges of scans by reference. What made the first difference a function tells by the node, the
    scan and the reference."""
    lines = []
    stops = [run.panel.stops.get(node) for run in (old, new)]
    if stops[0] != stops[1]:
        told = [f"stopped in scan {stop[0]} with code {stop[1]}" if stop else "did not stop" for stop in stops]
        lines.append(f"controller {node}: {told[0]} in {old.name}, {told[1]} in {new.name}")
    dark = [run.panel.dark.get(node, []) for run in (old, new)]
    if dark[0] != dark[1]:
        told = [f"without power in scans {ranges_text(ranges_of(them))}" if them else "never without power" for them in dark]
        lines.append(f"controller {node}: {told[0]} in {old.name}, {told[1]} in {new.name}")
    controllers = [run.plant.controller(node) for run in (old, new)]
    panel, others = shared_references(*controllers)
    found = differing(old, new, node, panel + others)
    if not found:
        return lines, {}
    order = {reference: place for place, reference in enumerate(panel + others)}
    scan = min(scans[0] for scans in found.values())
    first = solving.first_of(controllers, [reference for reference in found if found[reference][0] == scan], order)
    all_scans = sorted(set().union(*found.values()))
    values = [value_text(run, node, first, scan, names) for run in (old, new)]
    rest = [names.told(node, reference) for reference in sorted(found, key=order.get) if reference != first]
    also = f"; also {', '.join(rest[:12])}{f' and {len(rest) - 12} more' if len(rest) > 12 else ''}" if rest else ""
    told = f"which was {values[0]} and is {values[1]}"
    if are_journals:
        told = f"{values[0]} in {old.name} and {values[1]} in {new.name}"
    lines.append(
        f"controller {node}: first in scan {scan} at {names.told(node, first)}, {told}; "
        f"{len(all_scans)} of {scans} scans differ ({ranges_text(ranges_of(all_scans))}){also}"
    )
    is_stop = any(stop and stop[0] == scan for stop in stops)
    cause = "" if any(scan in scans_ for scans_ in dark) else cause_of(node, scan, None if is_stop else first)
    if cause:
        lines.append(f"controller {node}: {names.in_text(node, cause)}")
    return lines, {reference: ranges_of(list_) for reference, list_ in found.items()}


def numbered(calls, node):
    """The requests of a node; those that a bridge sends on are others' requests."""
    return [call for call in calls if call["node"] == node and call["kind"] not in ("local", "bridge")]


def side_of(call, with_scans):
    """How a request was answered, and in which scans; a host has none of its own, so its target's is told."""
    if call is None:
        return "not asked"
    answer = call["result"] or "no end"
    if not with_scans:
        return answer
    if call["kind"] == "host":
        return f"{answer}, served in scan {call['served'][1]}" if call["served"] and call["served"][1] else answer
    scans = [at[0] for at in (call["began"], call["ended"]) if at]
    return f"{answer}, scan {scans[0]}" if len(set(scans)) == 1 else f"{answer}, scans {scans[0]} to {scans[-1]}"


def pair_calls(old, new, with_scans):
    """The requests of each node, side by side by their number."""
    found = []
    for node in sorted({call["node"] for run in (old, new) for call in run.calls}):
        one, other = numbered(old.calls, node), numbered(new.calls, node)
        for place in range(max(len(one), len(other))):
            pair = [list_[place] if place < len(list_) else None for list_ in (one, other)]
            there = [call for call in pair if call]
            asked = list(dict.fromkeys(f"{call['target']}: {call['words']}" for call in there))
            sides = [side_of(call, with_scans) for call in pair]
            words = asked[0] if len(asked) == 1 else f"was {asked[0]}; is {asked[1]}"
            same = len(asked) == 1 and sides[0] == sides[1]
            found.append({"node": node, "number": place + 1, "words": words, "sides": sides, "same": same})
    return found


def lines_of_calls(pairs, most=40):
    lines = []
    for pair in pairs:
        if not pair["same"]:
            was, now = pair["sides"]
            lines.append(f"node {pair['node']}, request {pair['number']} ({pair['words']}): was {was}; is {now}")
    return lines[:most] + ([f"and {len(lines) - most} more requests"] if len(lines) > most else [])


def no_cause(_node, _scan, _reference):
    """Nothing is told of what made a difference."""
    return ""


def compare(old, new, scans, names, are_journals=False, cause_of=no_cause):
    """All that differs: lines on controllers and requests, ranges of scans by node and reference, and all requests."""
    lines, ranges = [], {}
    for name, mine, others in ((old.name, old, new), (new.name, new, old)):
        for one in mine.plant.controllers:
            if not others.plant.controller(one.node):
                lines.append(f"controller {one.node}: only in {name}")
    for one in old.plant.controllers:
        if new.plant.controller(one.node):
            more, ranges[one.node] = compare_controller(old, new, one.node, scans, names, are_journals, cause_of)
            lines += more
    calls = pair_calls(old, new, are_journals)
    sides = ["1st", "2nd"] if are_journals else ["was", "is"]
    return {"lines": lines, "requests": lines_of_calls(calls), "ranges": ranges, "calls": calls, "sides": sides}
