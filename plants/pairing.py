"""What a primary and its standby write, told from the session of the same controller and the fates of its network: a plain model, which has no part of
the program."""
import itertools
import re


def framed(pdu, node=1):
    """A frame of a PDU in hexadecimal."""
    data = bytes([node]) + bytes.fromhex(pdu)
    return b":" + (data + bytes([-sum(data) % 256])).hex().upper().encode() + b"\r\n"


def fates_of(plant, node):
    """The letters by which the packets of a controller go: those of its network. Needs Python 3.11."""
    import tomllib

    document = tomllib.loads(plant.decode())
    if document["version"] == 1:
        return document.get("net", {}).get("fates", "D")
    number = next(one["network"] for one in document["controller"] if one["node"] == node)
    return next(one for one in document["network"] if one["number"] == number).get("fates", "D")


def scans_of(session):
    """The scans of a session: of each its panel line, and the replies after it."""
    return [(line + b"\n", replies) for line, _, replies in (part.partition(b"\n") for part in re.split(rb"^(?=S )", session, flags=re.M)[1:])]


class Pair:
    """A primary that fails after a scan, and its standby, on the scans of a session."""

    def __init__(self, session, fates, fail):
        self.scans = scans_of(session)
        self.fates = itertools.cycle(fates)
        # The scans that the standby has, those that are acknowledged, and those that the last packet that it took says to be so.
        self.held = self.acked = self.said = 0
        self.text = b"".join([*self.primary(fail), b"SWITCH %d\n" % self.held, *self.standby()])

    def primary(self, fail):
        for number, (line, _) in enumerate(self.scans[:fail], 1):
            yield line
            yield from self.transmitted(number)

    def transmitted(self, last):
        """The packets of the scans up to this one that are not acknowledged, in order, up to the first of which the primary is not told. Gives the
        replies of each scan that is acknowledged."""
        for scan in range(self.acked + 1, last + 1):
            fate = next(self.fates)
            if fate in "DA":
                assert scan <= self.held + 1, "a packet that comes early"
                self.held, self.said = max(self.held, scan), scan - 1
            if fate != "D":
                return
            self.acked = scan
            yield self.scans[scan - 1][1]

    def standby(self):
        yield from (replies for _, replies in self.scans[self.said : self.held])
        for line, replies in self.scans[self.held :]:
            yield line + replies


def pair_text(session, plant, node, fail):
    """What `standby` has to write of a plant whose `session` is this."""
    return Pair(session, fates_of(plant, node), fail).text
