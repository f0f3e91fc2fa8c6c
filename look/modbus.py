"""Modbus requests and replies in words (docs/guide/MODBUS.md), and what error words say (docs/guide/MSTR.md)."""

ERRORS = {
    "1001": "the ladder aborted it",
    "2001": "the operation is not 1 to 8",
    "2003": "the length is out of range",
    "2004": "the start or offset is out of range",
    "2005": "the last register or word is out of range",
    "2006": "the length is above that of the data area",
    "2008": "the node or route is out of range",
    "2009": "the node is its own address",
    "200a": "the node passed fewer global words",
    "3000": "the reply does not fit",
    "3001": "the target does not know the function",
    "3002": "the target has not all of the references",
    "3003": "the target could not read the request",
    "3006": "no room at a bridge",
    "300a": "no way on from a bridge",
    "300b": "no answer behind a bridge",
    "6101": "no answer",
    "6103": "no such node, or it has left",
    "6105": "four requests waited there already",
}
EXCEPTIONS = {1: "function not known", 2: "reference outside the map", 3: "request not well formed"}
EXCEPTIONS |= {6: "no room at a bridge", 10: "no way on from a bridge", 11: "no answer behind a bridge"}
READS = {1: "0", 2: "1", 3: "4", 4: "3"}


def number(data, at):
    return int.from_bytes(data[at : at + 2], "big")


def reference(kind, address):
    return f"{kind}{address + 1:04}" if address < 9984 else f"address {address}"


def span(kind, address, quantity):
    first = reference(kind, address)
    return first if quantity == 1 else f"{first} to {reference(kind, address + quantity - 1)}"


def words_at(data, at):
    return [number(data, place) for place in range(at, len(data) - 1, 2)]


def bits_of(data, quantity):
    return [data[place // 8] >> (place % 8) & 1 for place in range(min(quantity, 8 * len(data)))]


def listed(values):
    return ", ".join(str(value) for value in values)


def request_words(pdu):
    """A request in words, as `read 40001 to 40002`."""
    data = bytes.fromhex(pdu)
    function, a, b = data[0], number(data, 1), number(data, 3)
    if function in READS and len(data) == 5:
        return f"read {span(READS[function], a, b)}"
    if function == 5 and len(data) == 5 and b in (0, 0xFF00):
        return f"force {reference('0', a)} {'on' if b else 'off'}"
    if function == 6 and len(data) == 5:
        return f"preset {reference('4', a)} to {b}"
    if function == 8 and len(data) == 5 and a == 0:
        return f"send back the word {b:04x}"
    if function == 8 and data[1:] in (b"\x00\x15\x00\x03", b"\x00\x15\x00\x04"):
        return "read its statistics" if b == 3 else "clear its statistics"
    if function == 15 and len(data) > 6:
        states = listed("on" if bit else "off" for bit in bits_of(data[6:], b))
        return f"force {span('0', a, b)}: {states}"
    if function == 16 and len(data) > 6:
        return f"preset {span('4', a, b)}: {listed(words_at(data, 6))}"
    if function == 22 and len(data) == 7:
        return f"mask {reference('4', a)}: AND {b:04x}, OR {number(data, 5):04x}"
    if function == 23 and len(data) > 10:
        written = span("4", number(data, 5), number(data, 7))
        return f"preset {written}: {listed(words_at(data, 10))}; then read {span('4', a, b)}"
    return f"function {function}, bytes {pdu}"


def reply_words(request, reply):
    """A reply in words, as `42, 43` or `exception 2: reference outside the map`."""
    asked, data = bytes.fromhex(request), bytes.fromhex(reply)
    if data[0] & 0x80 and len(data) == 2:
        return f"exception {data[1]}: {EXCEPTIONS.get(data[1], 'not listed')}"
    if data[0] in (1, 2) and len(data) > 2 and len(asked) == 5:
        return listed("on" if bit else "off" for bit in bits_of(data[2:], number(asked, 3)))
    if data[0] in (3, 4, 23) and len(data) > 2:
        return listed(words_at(data, 2))
    if data[0] == 8 and data[1:5] == b"\x00\x15\x00\x03":
        return f"statistics {listed(words_at(data, 5))}"
    return "done"


def is_exception(reply):
    return bool(int(reply[:2], 16) & 0x80)


def touched(pdu):
    """The references that a request names, as triples of kind, address and quantity with whether it writes."""
    data = bytes.fromhex(pdu)
    function, a, b = data[0], number(data, 1), number(data, 3)
    if function in READS:
        return [(READS[function], a, b, False)]
    if function in (5, 6, 22):
        return [("0" if function == 5 else "4", a, 1, True)]
    if function in (15, 16):
        return [("0" if function == 15 else "4", a, b, True)]
    if function == 23 and len(data) > 8:
        return [("4", a, b, False), ("4", number(data, 5), number(data, 7), True)]
    return []


def error_words(word):
    return f"{word} ({ERRORS.get(word, 'not listed')})"
