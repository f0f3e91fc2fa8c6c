"""Why a piece of a network is refused: its tests, in their order."""
import difflib
import re

from elements import elements, is_constant, is_five_digits, pieces_of, words_of
from reasons import Finding, of_reference


class Piece:
    """A piece of a network: its text and where that stands, and its place and name where they read."""

    def __init__(self, number, text, offset):
        self.number, self.text, self.offset, self.words = number, text, offset, words_of(text)
        found = re.fullmatch(r"([1-9][0-9]{0,3}),([1-9][0-9]{0,3})", self.words[0]) if self.words else None
        self.row, self.column = (int(found[1]), int(found[2])) if found else (0, 0)
        self.name = self.words[1] if len(self.words) > 1 else ""
        self.nodes = ELEMENTS.get(self.name, (0, []))[0]

    def rows(self):
        return range(self.row, self.row + self.nodes)


ELEMENTS = elements()


def pieces_at(plant, path):
    """The pieces of a network with their places, found one behind the other."""
    span, found = plant.places.nearest(path), []
    at = span.begin
    for number, text in enumerate(pieces_of(plant.at(path)), 1):
        begins = plant.text.find(text, at, span.end)
        # A piece written with escapes is shown where its network begins.
        found.append(Piece(number, text, begins if begins >= 0 else span.begin))
        at = begins + len(text) if begins >= 0 else at
    return found


def of_words(piece):
    """The tests of a piece's words, up to its operands' ranges."""
    if len(piece.words) < 2:
        yield Finding(6, "a piece without a position and a name", "it is `<row>,<column> NAME operands`", piece)
        return
    if not (1 <= piece.row <= 7 and 1 <= piece.column <= 11):
        detail = f"{piece.words[0]}: row 1 to 7, a comma, column 1 to 11, without a leading zero"
        yield Finding(6, "a position that does not read", detail, piece)
    if piece.name not in ELEMENTS:
        found = difflib.get_close_matches(piece.name.upper(), ELEMENTS, 1, 0.5)
        yield Finding(6, "a name that is no element", f"{piece.name!r}{f'; is it {found[0]}?' if found else ''}", piece)
        return
    yield from of_operands(piece, ELEMENTS[piece.name][1], piece.words[2:])
    if piece.name == "V" and piece.row == 7:
        yield Finding(6, "a short in row 7", "a short joins its row and the next, and there is no row 8", piece)


def of_operands(piece, slots, words):
    if len(words) != len(slots):
        detail = f"{piece.name} takes {len(slots) or 'none'}, and has {len(words) or 'none'}"
        yield Finding(6, "another number of operands", detail, piece)
        return
    for slot, word in zip(slots, words):
        if is_five_digits(word) and slot.is_constant:
            yield Finding(6, "a reference in place of a constant", f"{word}; {piece.name} takes {slot.words()} there", piece)
        elif is_constant(word) and not slot.is_number:
            detail = f"{word}; {piece.name} takes {slot.words()} there, in five digits"
            yield Finding(6, "a constant in place of a reference", detail, piece)
        elif not is_five_digits(word) and not is_constant(word):
            detail = f"{word!r} is neither five digits nor a number from 0 to 9999 without a leading zero"
            yield Finding(6, "an operand that does not read", detail, piece)
    for slot, word in zip(slots, words):
        if slot.is_constant and is_constant(word) and not 1 <= int(word) <= slot.most:
            detail = f"{word}; {piece.name} takes {slot.words()} there"
            yield Finding(3, "a constant out of its range", detail, piece)


def of_references(plant, piece, controller):
    slots, words = ELEMENTS[piece.name][1], piece.words[2:]
    length = int(words[-1]) if slots and slots[-1].is_constant and is_constant(words[-1]) else 0
    for slot, word in zip(slots, words):
        if is_five_digits(word) and not slot.is_constant:
            yield from of_reference(plant, word, slot.kinds, slot.count(length), controller, piece, f"{piece.name} there")


def of_shape(piece, earlier):
    """The tests of a cell against those of its network before it."""
    if piece.name == "V":
        for other in earlier:
            if other.name == "V" and (other.row, other.column) == (piece.row, piece.column):
                yield Finding(7, "a short that stands there already", f"cell {other.number} is the same short", piece, other)
        return
    if piece.name == "LAB" and (piece.row, piece.column) != (1, 1):
        yield Finding(7, "a LAB that is not at row 1, column 1", f"it is at {piece.words[0]}", piece)
    if piece.row + piece.nodes > 8:
        detail = f"{piece.name} takes {piece.nodes} rows, and begins in row {piece.row} of 7"
        yield Finding(7, "a cell that reaches below row 7", detail, piece)
    for other in earlier:
        shared = sorted(set(piece.rows()) & set(other.rows()))
        if not shared or other.name == "V":
            continue
        if other.column == piece.column:
            detail = f"cell {other.number} stands on row {shared[0]}, column {piece.column} too"
            yield Finding(7, "two cells on one place", detail, piece, other)
        left, right = sorted((other, piece), key=lambda it: it.column)
        if left.name in ("CO", "CL") and left.column < right.column:
            yield Finding(7, "a cell to the right of a coil", f"row {shared[0]} ends with {left.text!r}", piece, other)


def all_before(plant, path):
    """The pieces of the controller's networks before a network, with the paths of these."""
    for number, segment in enumerate(plant.at(path[:2]).get("segment", [])[: path[3] + 1]):
        networks = segment["networks"] if number < path[3] else segment["networks"][: path[5]]
        for place in range(len(networks)):
            yield from pieces_at(plant, path[:3] + (number, "networks", place))


def of_standing(plant, path, piece, earlier):
    """The tests of a cell against all of its controller before it."""
    others = [*all_before(plant, path), *earlier]
    count = len(plant.at(path[:3]))
    if piece.name == "LAB" and path[3] + 1 < count:
        yield Finding(7, "a LAB outside the last segment", f"it is in segment {path[3] + 1} of {count}", piece)
    for other in others:
        if piece.name == "LAB" and other.words[1:] == piece.words[1:]:
            yield Finding(7, "a LAB number that is taken", f"LAB {piece.words[2]} stands there already", piece, other)
        if piece.name in ("CO", "CL") and other.name in ("CO", "CL") and other.words[2:] == piece.words[2:]:
            yield Finding(8, "a coil that is driven already", f"{piece.words[2]} is driven there", piece, other)
    if piece.name == "MSTR" and sum(other.name == "MSTR" for other in others) >= 64:
        yield Finding(13, "more than 64 MSTR blocks in a controller", "this is the 65th", piece)


def of_cell(plant, path):
    """The tests of a piece at the path of its network and its number from 0."""
    network = path[:-1]
    pieces = pieces_at(plant, network)
    piece, earlier = pieces[path[-1]], pieces[: path[-1]]
    yield from of_words(piece)
    if piece.name in ELEMENTS and len(piece.words) - 2 == len(ELEMENTS[piece.name][1]):
        yield from of_references(plant, piece, path[:2])
        yield from of_shape(piece, earlier)
        yield from of_standing(plant, network, piece, earlier)
