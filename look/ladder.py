"""What each ladder element reads and writes, and which of its outputs can give power.

The table follows docs/guide/ELEMENTS.md. A row of ACCESS is (operand, offset, count, how): the operand counts from 0,
"L" stands for the length operand, how is r, w or rw.
"""
import os
import sys
from dataclasses import dataclass

sys.path.append(os.path.join(os.path.dirname(os.path.dirname(os.path.abspath(__file__))), "launcher"))
from elements import COUNTS as KINDS  # noqa: E402, F401
from elements import elements, is_five_digits  # noqa: E402


@dataclass(frozen=True)
class Access:
    """Registers or discretes that a cell reads or writes: `count` of them from `first` on."""

    first: str
    count: int
    reads: bool
    writes: bool

    def references(self):
        if self.count == 1:
            return [self.first]
        start = int(self.first[1:])
        return [f"{self.first[0]}{number:04}" for number in range(start, start + self.count)]

    def has(self, reference):
        return self.first[0] == reference[0] and 0 <= int(reference) - int(self.first) < self.count


CONTACTS = ("NO", "NC", "PT", "NT")
COILS = ("CO", "CL")
TIMERS = ("T1.0", "T0.1", "T.01")
COUNTERS = ("UCTR", "DCTR")

# Name: its nodes.
NODES = {name: nodes for name, (nodes, _) in elements().items()}

# Name: its nodes, from 0, at which power can come out.
OUTPUTS = {name: (0,) for name in CONTACTS + ("H", "ADD", "MUL", "BLKM", "AND", "OR", "XOR", "COMP")}
OUTPUTS |= {name: (0, 1) for name in TIMERS + COUNTERS + ("JSR", "R>T", "T>R", "T>T", "SRCH", "BROT")}
OUTPUTS |= {name: (0, 1, 2) for name in ("SUB", "DIV", "FIN", "FOUT", "CMPR", "MBIT", "SENS", "MSTR")}
OUTPUTS |= {name: () for name in COILS + ("SKP", "LAB", "RET")}

_MATRIX = [(0, 0, "L", "r"), (1, 0, "L", "rw")]
_ONTO = [(0, 0, "L", "r"), (1, 0, "L", "w")]
_COUNT = [(0, 0, 1, "r"), (1, 0, 1, "rw")]
_SUM = [(0, 0, 1, "r"), (1, 0, 1, "r"), (2, 0, 1, "w")]
ACCESS = {name: [(0, 0, 1, "r")] for name in CONTACTS + ("SKP", "JSR")}
ACCESS |= {name: [(0, 0, 1, "w")] for name in COILS}
ACCESS |= {name: _COUNT for name in TIMERS + COUNTERS}
ACCESS |= {name: _MATRIX for name in ("AND", "OR", "XOR")}
ACCESS |= {name: _ONTO for name in ("COMP", "BROT", "BLKM")}
ACCESS |= {
    "H": [],
    "LAB": [],
    "RET": [],
    "ADD": _SUM,
    "SUB": _SUM,
    "MUL": _SUM[:2] + [(2, 0, 2, "w")],
    "DIV": [(0, 0, 2, "r"), (1, 0, 1, "r"), (2, 0, 2, "w")],
    "R>T": [(0, 0, 1, "r"), (1, 0, 1, "rw"), (1, 1, "L", "w")],
    "T>R": [(0, 0, "L", "r"), (1, 0, 1, "rw"), (1, 1, 1, "w")],
    "T>T": [(0, 0, "L", "r"), (1, 0, 1, "rw"), (1, 1, "L", "w")],
    "FIN": [(0, 0, 1, "r"), (1, 0, 1, "rw"), (1, 1, "L", "rw")],
    "FOUT": [(0, 0, 1, "rw"), (0, 1, "L", "r"), (1, 0, 1, "w")],
    "SRCH": [(0, 0, "L", "r"), (1, 0, 1, "rw"), (1, 1, 1, "r")],
    "CMPR": [(0, 0, "L", "r"), (1, 0, 1, "rw"), (1, 1, "L", "r")],
    "MBIT": [(0, 0, 1, "rw"), (1, 0, "L", "rw")],
    "SENS": [(0, 0, 1, "rw"), (1, 0, "L", "r")],
    # The control block: operation, status, length, start, node and route; then the data area.
    "MSTR": [(0, 0, 1, "r"), (0, 1, 1, "w"), (0, 2, 1, "r"), (0, 3, 1, "rw"), (0, 4, 5, "r"), (1, 0, "L", "rw")],
}


def accesses(name, operands):
    """All that an element reads and writes; constants are no accesses."""
    found = []
    for operand, offset, count, how in ACCESS[name]:
        first = operands[operand]
        if is_five_digits(first):
            length = int(operands[-1]) if count == "L" else count
            start = f"{first[0]}{int(first[1:]) + offset:04}"
            found.append(Access(start, length, "r" in how, "w" in how and first[0] in "04"))
    return found
