"""Where in a scan a reference gets its value: its place in the order of solve."""

# What the ladder does not drive has its value before the first network is solved: inputs, what other nodes wrote, and what came for a message block.
FROM_OUTSIDE = ()


def places(controller):
    """The least place at which a cell drives each reference: the order row, the network, the column and the row."""
    rows = {int(row[0]): number for number, row in reversed(list(enumerate(controller.orders, 1)))}
    calls = {cell.operands[0]: (segment, network, cell) for segment, network, cell in reversed(list(controller.cells())) if cell.name == "JSR"}
    found, label = {}, None
    for segment, network, cell in controller.cells():
        if cell.name == "LAB":
            label = cell.operands[0]
        at = place_of(rows, segment, network, cell)
        if segment.is_subroutines and label in calls:
            # A subroutine is solved where it is called.
            at = place_of(rows, *calls[label]) + at
        if cell.name == "MSTR":
            continue
        for access in cell.accesses():
            for reference in access.references() if access.writes else ():
                found[reference] = min(found.get(reference, at), at)
    return found


def place_of(rows, segment, network, cell):
    """Segments that no order row solves come last."""
    return (rows.get(segment.number, len(rows) + 1), segment.number, network.number, cell.column, cell.row)


def first_of(controllers, references, order):
    """Of references that differ in one scan, the one that got its value first in the order of solve, in whichever plant; else by their order."""
    tables = [places(controller) for controller in controllers]

    def place(reference):
        known = [table[reference] for table in tables if reference in table]
        return (min(known, default=FROM_OUTSIDE), order[reference])

    return min(references, key=place)
