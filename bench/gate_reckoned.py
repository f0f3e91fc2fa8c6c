"""What was not measured is reckoned from what was: edits as one more proof of their crate and a further check for each, tests by lines."""
import collections
import os

import gate_pieces
import gate_times

# What was measured or reckoned: the processor seconds of each kind by crate, what of a proof goes on one processor, and which are reckoned.
Found = collections.namedtuple("Found", "costs alone reckoned")
# As many measured crates tell a rate.
FEW = 3
# What a further check of an edit takes at least, and its share of the crate's proof beside that, where few were measured.
CHECK, SHARE = 10, 0.1
# What the tests of a crate of tests alone take at least, what its proof takes, and a line of it, in seconds, where few were measured; and
# how often those of another crate take its proof.
TESTS, PROOF, LINE, AGAIN = 40, 12, 0.12, 1.5


def lines_of(top, name, parts, endings):
    """How many lines the files of a crate have that end so."""
    count = 0
    for part in parts:
        for folder, _, files in os.walk(os.path.join(top, "crates", name, part)):
            for file in [it for it in files if it.endswith(endings)]:
                with open(os.path.join(folder, file), "rb") as it:
                    count += it.read().count(b"\n")
    return count


def all_lines(top, name):
    return lines_of(top, name, ("src", "specs", "proofs"), (".rt", ".antt"))


def checks_of(top, name):
    """The checks that a crate's edits take after the first one: one for each further edit, and one of the crate itself."""
    folder = os.path.join(top, "crates", name, "must-fail")
    edits = len([it for it in os.listdir(folder) if it.endswith(".edit")]) if os.path.isdir(folder) else 0
    return edits if edits > 1 else 0


def ratio(pairs, other):
    """How much of the first there is for the second, over all pairs, where there are as many as tell."""
    return max(sum(first for first, _ in pairs), 0) / sum(second for _, second in pairs) if len(pairs) >= FEW else other


class Reckoning:
    """The rates by which pieces that were not measured are reckoned."""

    def __init__(self, top, costs, names):
        self.top, self.costs = top, costs
        self.alone = {it for it in names if it.endswith("_tests")}
        self.share = ratio([self.further(it) for it in names if costs[it]["edits"] and costs[it]["proof"]], SHARE)
        self.line = ratio([(costs[it]["tests"] - TESTS, all_lines(top, it)) for it in self.alone if costs[it]["tests"]], LINE)
        own = [it for it in names if it not in self.alone]
        self.again = ratio([(costs[it]["tests"], costs[it]["proof"]) for it in own if costs[it]["tests"] and costs[it]["proof"]], AGAIN)
        self.pace = ratio([(costs[it]["proof"], all_lines(top, it)) for it in own if costs[it]["proof"]], LINE)

    def further(self, name):
        """What the further checks of a crate's edits took beside the least, for their number and its proof."""
        checks = checks_of(self.top, name)
        return self.costs[name]["edits"] - self.costs[name]["proof"] - CHECK * checks, self.costs[name]["proof"] * checks

    def of(self, name, kind):
        proof = self.costs[name]["proof"]
        if kind == "edits":
            return proof + (CHECK + self.share * proof) * checks_of(self.top, name)
        if kind == "tests":
            return TESTS + self.line * all_lines(self.top, name) if name in self.alone else self.again * proof
        return PROOF if name in self.alone else self.pace * all_lines(self.top, name)


def found(path, top):
    """What was measured, with what was not, reckoned."""
    pieces, names = gate_times.read(path), gate_times.listed(top)
    costs, reckoned = gate_times.costs_of(pieces), set()
    rates = Reckoning(top, costs, names)
    for name in names:
        for kind in gate_pieces.kinds_of(os.path.join(top, "crates", name)):
            if not costs[name][kind]:
                costs[name][kind] = rates.of(name, kind)
                reckoned.add((name, kind))
    return Found(costs, gate_times.alone_of(pieces), reckoned)
