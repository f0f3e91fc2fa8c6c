"""The plant that a word exchange makes (docs/guide/EXCHANGE.md): the rows that its wires bring stand in its scripts, and its serial run is that of `cop`.

It is found by runs of plants alone, and by nothing that the program knows of wires: a plant whose rows are those that its own journal brings about is
the one. Each row depends on what ran before it, so each run makes at least one more moment right.
"""
import itertools
import json
from collections import Counter

import journal as journals
import plantfile
import wires as lines_of_wires

MOST_ROWS = 10000
ZERO = "0000"


class TooManyRows(Exception):
    """A drop that would have more rows than a plant file takes."""


class Passing(journals.Ring):
    """A ring in which is told after which scans each node passed the token."""

    def __init__(self, *given):
        self.passes = {}
        super().__init__(*given)

    def pass_on(self, place, entry, node, f):
        self.passes.setdefault(node, set()).add(self.scan())
        super().pass_on(place, entry, node, f)


class Course:
    """What a journal of so many scans tells of drops, moment by moment: the moment s is that before scan s."""

    def __init__(self, plant, journal, scans):
        self.scans, self.passes = scans, {}
        # By node and drop: the words of its last output in each scan, and in which scan each of its inputs is.
        self.outputs, self.inputs = {}, {}
        calls = journals.Calls(journal)
        for network in journal.rings:
            self.passes |= Passing(journal, network, plant, calls, scans).passes
        for one in plant.controllers:
            self.read(one, journal.controllers[one.node])

    def read(self, one, entries):
        scan = 0
        for entry in entries:
            words = entry.text.split(" ")
            if words[0] in "BK":
                scan += 1
            elif words[0] == "O":
                drop = int(one.orders[int(words[1]) - 1][3])
                self.outputs.setdefault((one.node, drop), {})[scan] = words[2]
            elif words[0] == "I":
                drop = int(one.orders[int(words[1]) - 1][2])
                self.inputs.setdefault((one.node, drop), []).append(scan)

    def sent(self, node, drop, count):
        """The words of a drop at each moment, the first one first: those of its last output before its node's last pass; zeros where there is none."""
        made, passes = self.outputs.get((node, drop), {}), self.passes.get(node, ())
        latest = sent = ZERO * count
        found = []
        for scan in range(1, self.scans + 1):
            found.append([sent[4 * place : 4 * place + 4] for place in range(count)])
            latest = made.get(scan, latest)
            sent = latest if scan in passes else sent
        return found

    def inputs_before(self, node, drop):
        """How many inputs a drop has made at each moment."""
        made = Counter(self.inputs.get((node, drop), []))
        return list(itertools.accumulate((made[scan] for scan in range(1, self.scans)), initial=0))


class Exchange:
    """A plant and its wires."""

    def __init__(self, data, wires):
        self.plant, self.wires = plantfile.read_plant(data), wires
        self.drops = lines_of_wires.drops_of(self.plant.document)[1]
        self.wired = sorted({(wire.node, wire.drop) for wire in wires})

    def sent(self, course):
        """The words that come over each wire at each moment."""
        found = {}
        for wire in self.wires:
            source = (wire.source, wire.from_drop)
            moments = course.sent(*source, len(lines_of_wires.output_words(self.drops[source])))
            first = wire.from_word - 1
            found[wire] = [words[first : first + wire.count] for words in moments]
        return found

    def own_row(self, drop, number):
        """The row of a number of a drop's own script, or its last, as words; None where it is silent."""
        script = drop.get("script") or [" ".join([ZERO] * len(lines_of_wires.input_words(drop)))]
        words = lines_of_wires.words_of(script[min(number, len(script)) - 1])
        return None if words == ["X"] else words

    def row(self, place, number, words_of):
        """A row of a wired drop, with the words that its wires bring."""
        words = self.own_row(self.drops[place], number)
        if words is None:
            return "X"
        for wire in self.wires:
            if (wire.node, wire.drop) == place:
                words[wire.word - 1 : wire.word - 1 + wire.count] = words_of(wire)
        return " ".join(words)

    def script(self, place, scans, inputs, sent):
        """The rows of a wired drop: the first is made with zeros; then before each scan there have to be as many as it has made inputs, and as a full
        scan makes."""
        a_scan = sum(row[2] == str(place[1]) for row in self.plant.controller(place[0]).orders)
        rows = [self.row(place, 1, lambda wire: [ZERO] * wire.count)]
        for moment in range(scans):
            while len(rows) < inputs[moment] + a_scan:
                rows.append(self.row(place, len(rows) + 1, lambda wire: sent[wire][moment]))
        if len(rows) > MOST_ROWS:
            raise TooManyRows(f"drop {place[1]} of node {place[0]} would have {len(rows)} rows, and a script takes {MOST_ROWS}; fewer scans have fewer")
        return rows

    def scripts(self, scans, course):
        sent = self.sent(course)
        return {place: self.script(place, scans, course.inputs_before(*place), sent) for place in self.wired}

    def with_rows(self, scripts):
        """The plant with these scripts of its wired drops."""
        document = json.loads(json.dumps(self.plant.document))
        for place, drop in lines_of_wires.drops_of(document)[1].items():
            if place in scripts:
                drop["script"] = scripts[place]
        return plantfile.toml_of(document).encode()

    def tries(self, scans):
        """Plants, each of which is sent its trace of so many scans; the last one, which is returned, is the plant that is due."""
        scripts = {}
        for _ in range(scans + 2):
            data = self.with_rows(scripts)
            journal, _ = journals.split_trace((yield data))
            made = self.scripts(scans, Course(self.plant, journals.read_journal(journal), scans))
            if made == scripts:
                return data
            scripts = made
        raise AssertionError("the rows of a word exchange go on changing")

    def fed(self, scans, trace):
        """The plant that is due for so many scans. `trace` gives the trace of a plant."""
        tries = self.tries(scans)
        data = next(tries)
        while True:
            try:
                data = tries.send(trace(data))
            except StopIteration as end:
                return end.value
