"""Changes at random of plants, journals and wires, for `fuzz`. Each takes a source of random choices, a text, and another text to take parts from."""
import re

# Numbers at the limits of the plant file, of a request, of a byte, a word and what a machine counts in.
LIMITS = [edge + step for step in (-1, 0, 1) for edge in (
    1, 4, 7, 11, 16, 20, 32, 64, 100, 125, 127, 253, 255, 1000, 1968, 2000, 9984, 9999, 10000, 32768, 65535, 100000)]
LIMITS += [2**power + step for power in (31, 32, 63, 64, 128) for step in (-1, 0)]
BYTES = b"\0\t\n\r \"#',-.0:;=[\\]_{}%\x7f\x80\xff\xc3"
# How long a changed text is at most.
MOST_BYTES = 1 << 18


def change_bytes(choose, text, other):
    at = choose.randrange(len(text) + 1)
    length = choose.choice((1, 1, 1, 2, 4, 16, 64))
    way = choose.randrange(5)
    if way == 0:
        return text[:at] + text[at + length :]
    if way == 1:
        return text[:at] + bytes(choose.choice(BYTES) for _ in range(min(length, 4))) + text[at:]
    if way == 2:
        return text[:at] + bytes([choose.choice((choose.randrange(256), choose.choice(BYTES)))]) + text[at + 1 :]
    if way == 3:
        return text[:at] + text[at : at + length] * choose.choice((2, 3, 100)) + text[at + length :]
    start = choose.randrange(len(other) + 1)
    return text[:at] + other[start : start + length] + text[at + length :]


def change_words(choose, text, other):
    return change_parts(choose, text, other, re.compile(rb"[^\s\",;=\[\]]+"))


def change_parts(choose, text, other, form):
    """Takes away, doubles, moves or exchanges what fits a form, or takes another from the other text."""
    parts = list(form.finditer(text))
    if not parts:
        return text
    one, two = (choose.choice(parts).span() for _ in range(2))
    one, two = min(one, two), max(one, two)
    first, second = text[slice(*one)], text[slice(*two)]
    way = choose.randrange(5)
    if way == 0:
        return text[: one[0]] + text[one[1] :]
    if way == 1:
        return text[: one[1]] + first + text[one[1] :]
    if way == 2 and one != two:
        return text[: one[0]] + second + text[one[1] : two[0]] + first + text[two[1] :]
    if way == 3 and one != two:
        return text[: one[0]] + text[one[1] : two[1]] + first + text[two[1] :]
    others = list(form.finditer(other)) or parts
    return text[: one[0]] + choose.choice(others)[0] + text[one[1] :]


def change_lines(choose, text, other):
    return change_parts(choose, text, other, re.compile(rb"[^\n]*\n"))


def change_sections(choose, text, other):
    """A table of a plant with its keys, or a section of a journal."""
    head = rb"\[|[CHW] \d|R(?: \d+)?$|%"
    return change_parts(choose, text, other, re.compile(rb"^(?:%s)[^\n]*\n(?:(?!%s).*\n)*" % (head, head), re.M))


def change_texts(choose, text, other):
    """A whole text in quotes: a network, an order, a module, a row of a script, a request."""
    return change_parts(choose, text, other, re.compile(rb'"[^"\n]*"'))


def change_number(choose, text, other):
    numbers = list(re.finditer(rb"(?<![\w.])\d+(?![\w])", text)) or list(re.finditer(rb"\d+", text))
    if not numbers:
        return text
    place = choose.choice(numbers)
    old = place[0]
    near = int(old[-9:]) + choose.choice((-1, 1, 16, choose.randrange(1000)))
    new = choose.choice((near, choose.choice(LIMITS)))
    digits = b"%d" % max(new, 0)
    if len(old) == 5 and old[0] in b"0134" and choose.randrange(8):
        digits = old[:1] + b"%04d" % (max(new, 0) % 10000)
    return text[: place.start()] + digits + text[place.end() :]


def change_hex(choose, text, other):
    """Digits of a request, a reply or a word."""
    words = list(re.finditer(rb"\b[0-9a-fA-F]{4,}\b", text))
    if not words:
        return text
    place = choose.choice(words)
    digits = bytearray(place[0])
    for _ in range(choose.choice((1, 1, 4))):
        digits[choose.randrange(len(digits))] = choose.choice(b"0123456789abcdef")
    return text[: place.start()] + bytes(digits) + text[place.end() :]


def change_call(choose, text, other):
    """The lines of one call: all gone, some gone, under another name, or one of them exchanged with its neighbour."""
    calls = sorted(set(re.findall(rb"\b\d+\.\d\.\d+\b", text)))
    if not calls:
        return text
    call, new = choose.choice(calls), choose.choice(calls)
    lines = text.splitlines(keepends=True)
    its = [at for at, line in enumerate(lines) if re.search(rb"\b%s\b" % re.escape(call), line)]
    way, one = choose.randrange(4), choose.choice(its)
    if way == 0:
        lines = [line for at, line in enumerate(lines) if at not in its]
    elif way == 1:
        lines = [line for at, line in enumerate(lines) if at not in its or choose.randrange(2)]
    elif way == 2:
        for at in choose.choice((its, [one])):
            lines[at] = lines[at].replace(call, new)
    elif one:
        lines[one - 1], lines[one] = lines[one], lines[one - 1]
    return b"".join(lines)


# Each element with its operands: d a discrete, c a coil, p a constant or a word, s a word, r a register, n a number.
ELEMENTS = """NO d|NC d|PT d|NT d|CO c|CL c|H|V|T1.0 p r|T0.1 p r|T.01 p r|UCTR p r|DCTR p r|ADD p p r|SUB p p r|MUL p p r|
DIV p p r|R>T s r n|T>R s r n|T>T s r n|BLKM s r n|FIN s r n|FOUT r r n|SRCH s r n|AND s r n|OR s r n|XOR s r n|COMP s r n|
BROT s r n|CMPR s r n|MBIT p r n|SENS p s n|SKP p|LAB n|JSR p|RET|MSTR r r n""".replace("\n", "").split("|")


def operand(choose, kind):
    number = choose.choice((choose.randrange(1, 17), choose.randrange(1, 41), choose.randrange(10000)))
    digit = {"d": "01", "c": "0", "p": "344", "s": "34", "r": "4"}.get(kind, "")
    if not digit or kind == "p" and choose.randrange(2):
        return str(choose.choice((choose.randrange(1, 5), choose.randrange(256), choose.choice(LIMITS))))
    return f"{choose.choice(digit)}{number:04}"


def change_cell(choose, text, other):
    """One cell more in a network."""
    places = [place.start() for place in re.finditer(rb'"(?=[^"\n]*")|;', text)]
    if not places:
        return text
    at = choose.choice(places) + 1
    name, *kinds = choose.choice(ELEMENTS).split()
    row, column = choose.choice(((1, 1), (choose.randrange(9), choose.randrange(13)), (choose.randrange(1, 8), 11)))
    cell = " ".join([f"{row},{column}", name, *(operand(choose, kind) for kind in kinds)])
    return text[:at] + cell.encode() + b"; " + text[at:]


def change_power(choose, text, other):
    """One power failure more: at the head of those that a controller has, or in a key of its own behind its orders."""
    places = list(re.finditer(rb"^power = \[|^orders = \[[^\]]*\]\n", text, re.M))
    if not places:
        return text
    place = choose.choice(places)
    scan = choose.choice((1, 1, 2, 3, choose.randrange(10), choose.choice(LIMITS)))
    row = choose.choice((0, 0, 1, 2, choose.randrange(34)))
    dark = choose.choice((0, 0, 1, 2, choose.randrange(10), choose.choice(LIMITS)))
    row_text = b'"%d %d %d"' % (scan, row, dark)
    new = row_text + b", " if place[0].startswith(b"power") else b"power = [" + row_text + b"]\n"
    return text[: place.end()] + new + text[place.end() :]


def change_network(choose, text, other):
    """A bridge more, a station on another network, fates of a network, a network more, or another route of a host."""
    address, numbers = choose.choice((1, 2, 5, 9, 11, 12, 21, 22, choose.randrange(70))), [choose.randrange(1, 4) for _ in range(2)]
    number = choose.choice((*numbers, 8, choose.choice(LIMITS)))
    route = b".".join(b"%d" % choose.choice((2, 5, 8, 9, 11, 12, 21, 22, 31, 32, address)) for _ in range(choose.choice((1, 2, 3, 3, 5, 6))))
    form, new = choose.choice((
        (rb"^bridges = \[()", b'"%d %d %d %d", ' % (numbers[0], address, numbers[1], choose.randrange(40, 70))),
        (rb"^network = ([1-9])$", b"%d" % number),
        (rb"^number = [1-9]$()", b'\nfates = "%s"' % "".join(choose.choice("DDDLA") for _ in range(choose.randrange(1, 9))).encode()),
        (rb"()^\[\[controller\]\]", b"[[network]]\nnumber = %d\n" % number),
        (rb'^ *"[1-9]\d* ([\d.]+) [0-9a-fA-F]+"', route),
    ))
    places = list(re.finditer(form, text, re.M))
    if not places:
        return text
    start, end = choose.choice(places).span(1)
    return text[:start] + new + text[end:]


def change_failure(choose, text, other):
    """A line of a failure more, or one in the place of another, in a section of a controller or of the ring."""
    lines = text.splitlines(keepends=True)
    at = choose.randrange(1, len(lines)) if len(lines) > 1 else 0
    node = b"%d" % choose.choice((1, 2, 3, 5, choose.randrange(70)))
    names = re.findall(rb"\b\d+\.\d\.\d+\b", text) or [b"2.1.1"]
    new = choose.choice((b"X", b"K", b"B", b"N %s 0300000001" % choose.choice(names),
                         b"LE %s D%d" % (node, choose.choice((0, 1, 1, 2, choose.choice(LIMITS)))), b"JN " + node))
    return b"".join(lines[:at] + [new + b"\n"] + lines[at + choose.randrange(2) :])


def change_bridge(choose, text, other):
    """A line of a bridge more, or one in the place of another; or one that begins a bridge or a ring."""
    lines = text.splitlines(keepends=True)
    at = choose.randrange(1, len(lines)) if len(lines) > 1 else 0
    end, other_end, network = (b"%d" % choose.choice((0, 1, 2, 9, 9, 12, 12, choose.choice(LIMITS))) for _ in range(3))
    name, new_name = (choose.choice(re.findall(rb"\b\d+\.\d\.\d+\b", text) or [b"12.1.1"]) for _ in range(2))
    route = choose.choice((b"5", b"5.7", b"1.2.3.4.5", b"1.2.3.4.5.6", b"-", end))
    new = choose.choice((b"W %s %s" % (end, other_end), b"W 9 12\nG 9", b"R", b"R " + network, b"R 2\nPA 9 0 -",
                         b"T %s %s %s 0300000001" % (end, name, route), b"U %s %s %s %s 0300000001" % (end, name, new_name, route),
                         b"A %s %s R 03020007" % (end, name), b"A %s %s B 6103" % (end, name), b"V %s %s 830a" % (end, name), b"G " + end))
    return b"".join(lines[:at] + [new + b"\n"] + lines[at + choose.randrange(2) :])


OF_PLANTS = [change_bytes, change_words, change_lines, change_sections, change_texts] + [change_number, change_cell] * 3 + [change_power] * 2 + [change_network] * 2
OF_JOURNALS = [change_bytes, change_words, change_sections, change_number, change_hex, change_failure, change_bridge]
OF_JOURNALS += [change_lines, change_call] * 3
OF_WIRES = [change_bytes, change_lines, change_number, change_words]


def changed(choose, text, other, changes):
    for _ in range(choose.choice((1, 1, 1, 2, 2, 3, 6))):
        text = choose.choice(changes)(choose, text, other)[:MOST_BYTES]
    return text
