"""Reads the pixels of a picture that the browser took: a PNG of 8 bits a colour that is not interlaced."""
import base64
import struct
import zlib


def chunks(png):
    at = 8
    while at < len(png):
        length, kind = struct.unpack(">I4s", png[at : at + 8])
        yield kind, png[at + 8 : at + 8 + length]
        at += length + 12


def predicted(kind, left, above, corner):
    """What a filter of PNG predicts of a byte from those beside it."""
    if kind == 4:
        guess = left + above - corner
        return min((left, above, corner), key=lambda one: abs(guess - one))
    return (0, left, above, (left + above) // 2)[kind]


def rows_of(png):
    """The rows of a picture, each a list of colours (red, green, blue)."""
    parts = list(chunks(png))
    width, height, depth, colour, _, _, interlaced = struct.unpack(">IIBBBBB", parts[0][1])
    if depth != 8 or colour not in (2, 6) or interlaced:
        raise ValueError("a picture of another kind")
    size = 3 if colour == 2 else 4
    data = zlib.decompress(b"".join(part for kind, part in parts if kind == b"IDAT"))
    before, rows = bytearray(width * size), []
    for number in range(height):
        begin = number * (width * size + 1)
        kind, row = data[begin], bytearray(data[begin + 1 : begin + 1 + width * size])
        for at in range(len(row)):
            left, corner = (row[at - size], before[at - size]) if at >= size else (0, 0)
            row[at] = (row[at] + predicted(kind, left, before[at], corner)) & 0xFF
        rows.append([tuple(row[at : at + 3]) for at in range(0, len(row), size)])
        before = row
    return rows


def box_of(window, expression):
    """The box of an element in the whole page, once it is in sight."""
    window.value(f"{expression}.scrollIntoView({{block: 'center'}})")
    window.settle()
    box = f"(box => [box.left + scrollX, box.top + scrollY, box.width, box.height])({expression}.getBoundingClientRect())"
    return window.value(box)


def picture_of(window, left, top, width, height):
    """The colours of a piece of what is in sight."""
    clip = {"x": left, "y": top, "width": width, "height": height, "scale": 1}
    return rows_of(base64.b64decode(window.call("Page.captureScreenshot", format="png", clip=clip)["data"]))
