"""The table of elements of docs/guide/PLANT_FILE.md, and how the words of a piece read."""
import os
import re

TOP = os.path.dirname(os.path.dirname(os.path.abspath(__file__)))
PAGE = os.path.join(TOP, "docs/guide/PLANT_FILE.md")
ROW = re.compile(r"^\| (`[^|]+`) \| [^|]+ \| (\d) \| ([^|]+) \|$", re.MULTILINE)
SLOT = re.compile(r"(?:n or )?([dcpsrn])(?:\((\d+|L|L\+1)\))?(?: 1 to (\d+))?")
KINDS = {"d": "01", "c": "0", "p": "34", "s": "34", "r": "4", "n": ""}
NAMES = {"0": "a coil (0x)", "1": "an input (1x)", "3": "an input register (3x)", "4": "a holding register (4x)"}
COUNTS = {"0": "coils", "1": "inputs", "3": "input_registers", "4": "registers"}
MOST = 9984


class Slot:
    """What an operand is to be: a number or a reference, of which kinds, with how many registers, or a constant up to `most`."""

    def __init__(self, letter, run, most):
        self.kinds, self.is_number, self.is_constant = KINDS[letter], letter in "pn", letter == "n"
        self.run, self.most = run or "1", int(most or 0)

    def count(self, length):
        return {"L": length, "L+1": length + 1}.get(self.run) or int(self.run)

    def words(self):
        if self.is_constant:
            return f"a constant from 1 to {self.most}"
        kinds = " or ".join(NAMES[kind] for kind in self.kinds)
        return f"a constant, {kinds}" if self.is_number else kinds


def slots_of(text):
    text = text.replace("n or s(2)", "p(2)")
    return [] if text == "none" else [Slot(*found) for found in SLOT.findall(text)]


def elements():
    """Each name with its nodes and its operands."""
    with open(PAGE, encoding="utf-8") as file:
        rows = ROW.findall(file.read().partition("\n## Networks\n")[2])
    return {name: (int(nodes), slots_of(text)) for names, nodes, text in rows for name in re.findall("`([^`]+)`", names)}


def words_of(text):
    """Only space and tab separate words."""
    return [word for word in re.split("[ \t]+", text) if word]


def is_constant(word):
    return re.fullmatch("0|[1-9][0-9]{0,3}", word) is not None


def is_five_digits(word):
    return re.fullmatch("[0-9]{5}", word) is not None


def is_reference(word):
    return is_five_digits(word) and word[0] in NAMES and 1 <= int(word[1:]) <= MOST


def pieces_of(network):
    return [piece.strip(" \t") for piece in re.split(r";|\r?\n", network) if piece.strip(" \t")]
