"""What an engineer would want to be told of wires that are accepted."""
import wires as lines_of_wires
from hinting import Hint, listed


class WireHints:
    """The hints of wires, by the controllers at both ends of each."""

    def __init__(self, checks, wires):
        self.checks, self.wires = {check.one.node: check for check in checks}, wires
        self.drops = {(node, table["number"]): table for node, check in self.checks.items() for table in check.one.table.get("drop", [])}

    def all(self):
        return [Hint(wire.line, f"wire '{wire.text}': {words}") for wire in self.wires for words in (*self.into(wire), *self.source(wire))]

    def is_named(self, node, drop, column):
        """Whether an order row names a drop there: in column 2 it is read, in column 3 written."""
        return any(row[column] == str(drop) for row in self.checks[node].one.orders)

    def into(self, wire):
        """What keeps its words from being seen."""
        check, table = self.checks[wire.node], self.drops[wire.node, wire.drop]
        if not self.is_named(wire.node, wire.drop, 2):
            yield f"no order row of node {wire.node} reads drop {wire.drop}, so nothing comes in there"
            return
        script = table.get("script", [])
        if script and all(row.strip(" \t") == "X" for row in script):
            yield f"each row of drop {wire.drop} of node {wire.node} is X, so nothing comes in there"
            return
        words = lines_of_wires.input_words(table)[wire.word - 1 :][: wire.count]
        unread = [word for word in words if not self.is_any(word, lambda reference: check.readers.get(reference) or reference in check.looked_at)]
        if unread:
            yield f"nothing reads {listed(references(unread))} of node {wire.node}, which it brings"

    def source(self, wire):
        """What keeps its words zeros, or as they were."""
        check, table = self.checks[wire.source], self.drops[wire.source, wire.from_drop]
        if not self.is_named(wire.source, wire.from_drop, 3):
            yield f"no order row of node {wire.source} writes drop {wire.from_drop}, so its words stay zeros"
            return
        words = lines_of_wires.output_words(table)[wire.from_word - 1 :][: wire.count]
        others = [other for other in self.checks.values() if other is not check]
        unwritten = [word for word in words if not self.is_any(word, lambda reference: is_written(check, others, reference))]
        if unwritten:
            yield f"nothing writes {listed(references(unwritten))} of node {wire.source}, which it takes"

    def is_any(self, word, holds):
        return any(map(holds, references([word])))


def references(words):
    """All references of some words."""
    return [f"{first[0]}{int(first[1:]) + more:04}" for first, count in words for more in range(count)]


def is_written(check, others, reference):
    if check.writers.get(reference) or check.is_from_outside(reference):
        return True
    return reference[0] == "4" and any(check.may_be_written_by(other, reference) for other in others)


def hints_of(checks, wires):
    """All hints of wires, by line."""
    return WireHints(checks, wires).all()
