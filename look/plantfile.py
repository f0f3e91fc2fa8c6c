"""Reads a plant file as the pages and hints need it: tables, cells, comments and the lines where they stand.

Whether a plant is accepted is the program's answer alone. What is read here is a plant that it accepted.
"""
import bisect
import json
import re
import tomllib
from dataclasses import dataclass, field

import ladder
from elements import words_of
from places import Places

# A comment, or a string of one of the four forms of TOML.
TOKEN = re.compile(
    r"""(?P<comment>\#[^\n]*)
      | (?P<string>\"\"\"(?:[^\\]|\\.)*?\"\"\"\"{0,2} | '''.*?''''{0,2} | "(?:[^"\\\n]|\\.)*" | '[^'\n]*')""",
    re.VERBOSE | re.DOTALL,
)
PIECE = re.compile(r"[ \t]*(\d+),(\d+)[ \t]+(\S+?)((?:[ \t]+\S+)*)[ \t]*$")


@dataclass
class Cell:
    """An element at its top node, or a short (name V)."""

    row: int
    column: int
    name: str
    operands: list
    line: int
    # What was found, since it is asked for again and again.
    found: list = None

    @property
    def text(self):
        return " ".join([f"{self.row},{self.column}", self.name, *self.operands])

    def accesses(self):
        if self.found is None:
            self.found = [] if self.name == "V" else ladder.accesses(self.name, self.operands)
        return self.found


@dataclass
class Network:
    number: int
    line: int
    comment: list
    cells: list = field(default_factory=list)
    shorts: list = field(default_factory=list)


@dataclass
class Segment:
    number: int
    networks: list

    @property
    def is_subroutines(self):
        return any(cell.name == "LAB" for network in self.networks for cell in network.cells)


@dataclass
class Controller:
    node: int
    table: dict
    panel: list
    orders: list
    segments: list
    line: int

    def cells(self):
        """All cells with their segment and network."""
        for segment in self.segments:
            for network in segment.networks:
                for cell in network.cells:
                    yield segment, network, cell

    def references(self):
        """The references of the panel, and then all others that networks and order rows name, in rising order."""
        named = {reference for _, _, cell in self.cells() for access in cell.accesses() for reference in access.references()}
        named |= {row[1] for row in self.orders if row[1] != "-"}
        panel = list(dict.fromkeys(self.panel))
        return panel, sorted(named - set(panel))


@dataclass
class Plant:
    text: str
    document: dict
    controllers: list
    hosts: list
    comments: list
    rotations: int

    @property
    def nodes(self):
        return sorted([one.node for one in self.controllers] + [host["node"] for host in self.hosts])

    @property
    def is_version_two(self):
        return self.document["version"] == 2

    def network_of(self, node):
        """The network of a station, 0 in version 1."""
        tables = self.document["controller"] + self.document.get("host", [])
        return next(table.get("network", 0) for table in tables if table["node"] == node)

    def stations_of(self, network):
        """The addresses of the stations of a network."""
        return {node for node in self.nodes if self.network_of(node) == network}

    @property
    def across(self):
        """Each end of a bridge, as its network and its address, with the other end."""
        found = {}
        for text in self.document.get("bridges", []):
            left_net, left, right_net, right = map(int, words_of(text))
            found[left_net, left], found[right_net, right] = (right_net, right), (left_net, left)
        return found

    def lost_on(self, node, route):
        """Why a request of a station gets lost on its route, or nothing; ends of bridges count as stations."""
        network, own_end = self.network_of(node), None
        for place, address in enumerate(route):
            is_last, end = place + 1 == len(route), self.across.get((network, address))
            if address == own_end:
                return f"its route goes over {address}, and names it again"
            if not is_last and end is None:
                return f"its route goes on from {address}, and no bridge has the end {address} on network {network}"
            if is_last and end is None and address not in self.stations_of(network):
                where = f" on network {network}" if self.is_version_two else ""
                return f"no station has the address {address}{where}"
            network, own_end = end or (network, None)
        return ""

    def ends_at_bridge(self, node, route):
        """Whether the last address of a route that does not get lost is an end of a bridge."""
        return route[-1] not in self.nodes and not self.lost_on(node, route)

    def controller(self, node):
        return next((one for one in self.controllers if one.node == node), None)

    def fates_of(self, network):
        """The fates on a network, by its number; None where the plant has no such network."""
        tables = self.document.get("network", [self.document.get("net", {})])
        return next((table.get("fates", "D") for table in tables if table.get("number", 0) == network), None)

    def with_panels(self, panels):
        """The text of this plant with other panels: a list of references by node. A panel is an output alone."""
        document = json.loads(json.dumps(self.document))
        for table in document["controller"]:
            table["panel"] = panels.get(table["node"], [])
        return toml_of(document)


def toml_text(value):
    """A value of a plant file as TOML. JSON's escapes are TOML's, but for DEL."""
    if isinstance(value, list):
        return "[" + ", ".join(toml_text(item) for item in value) + "]"
    return json.dumps(value, ensure_ascii=False).replace("\x7f", "\\u007f")


def toml_of(document):
    lines = []

    def write(table, path):
        inner = {}
        for key, value in table.items():
            is_tables = isinstance(value, list) and value and isinstance(value[0], dict)
            if isinstance(value, dict) or is_tables:
                inner[key] = value
            else:
                lines.append(f"{key} = {toml_text(value)}")
        for key, value in inner.items():
            name = ".".join(path + [key])
            for item in [value] if isinstance(value, dict) else value:
                lines.append(f"[{name}]" if isinstance(value, dict) else f"[[{name}]]")
                write(item, path + [key])

    write(document, [])
    return "\n".join(lines) + "\n"


class Source:
    """The text of a plant file, with the places of its values, and its comments by their lines."""

    def __init__(self, text):
        self.text = text
        self.places = Places(text)
        self.starts = [0] + [match.end() for match in re.finditer("\n", text)]
        self.comments = {}
        for token in TOKEN.finditer(text):
            if token["comment"] is not None:
                self.comments[self.line_at(token.start())] = token["comment"].lstrip("#").strip(" \t\r")
        self.own_lines = {line for line in self.comments if self.line_text(line).lstrip(" \t").startswith("#")}

    def line_of(self, *path):
        return self.line_at(self.places.nearest(path).key)

    def line_at(self, offset):
        return bisect.bisect_right(self.starts, offset)

    def line_text(self, line):
        end = self.starts[line] if line < len(self.starts) else len(self.text)
        return self.text[self.starts[line - 1] : end]

    def text_start(self, span):
        """Where the text of a string begins, or None where its escapes or line ends are others than in the file."""
        raw = self.text[span.begin : span.end]
        quotes = 3 if raw[:3] in ('"""', "'''") else 1
        is_plain = raw[0] == "'" or "\\" not in raw
        return span.begin + quotes + (raw[quotes] == "\n" and quotes == 3) if is_plain and "\r" not in raw else None

    def comment_beside(self, first, last):
        """The comment lines right above a line, and what stands behind it on its first or last line."""
        above = []
        line = first - 1
        while line in self.own_lines:
            above.insert(0, self.comments[line])
            line -= 1
        beside = [self.comments[line] for line in sorted({first, last}) if line in self.comments and line not in self.own_lines]
        return above + beside


def read_network(number, text, source, path):
    span = source.places.nearest(path)
    first, start = source.line_at(span.begin), source.text_start(span)
    network = Network(number, first, source.comment_beside(first, source.line_at(span.end)))
    offset = 0
    for piece in re.split(r"(;|\r?\n)", text):
        match = PIECE.match(piece)
        if match:
            line = source.line_at(start + offset) if start is not None else first
            cell = Cell(int(match[1]), int(match[2]), match[3], words_of(match[4]), line)
            (network.shorts if cell.name == "V" else network.cells).append(cell)
        offset += len(piece)
    return network


def read_segments(table, source, path):
    segments = []
    for number, segment in enumerate(table.get("segment", []), 1):
        own = (*path, "segment", number - 1, "networks")
        networks = [read_network(place, text, source, (*own, place - 1)) for place, text in enumerate(segment["networks"], 1)]
        segments.append(Segment(number, networks))
    return segments


def read_host(table, source, path):
    requests = []
    for number, text in enumerate(table.get("requests", [])):
        hold, route, pdu = words_of(text)
        line = source.line_of(*path, "requests", number)
        route = [int(address) for address in route.split(".")]
        requests.append({"line": line, "text": text, "hold": int(hold), "route": route, "pdu": pdu.lower()})
    return {"node": table["node"], "requests": requests}


def read_plant(data):
    """A plant from the bytes of a file that the program accepts."""
    text = data.decode()
    document = tomllib.loads(text)
    source = Source(text)
    controllers = []
    for place, table in enumerate(document["controller"]):
        controllers.append(
            Controller(
                node=table["node"],
                table=table,
                panel=[word.strip(" \t") for word in table.get("panel", [])],
                orders=[words_of(row) for row in table.get("orders", [])],
                segments=read_segments(table, source, ("controller", place)),
                line=source.line_of("controller", place),
            )
        )
    hosts = [read_host(table, source, ("host", place)) for place, table in enumerate(document.get("host", []))]
    net = document.get("net", {})
    return Plant(
        text=text,
        document=document,
        controllers=sorted(controllers, key=lambda one: one.node),
        hosts=sorted(hosts, key=lambda host: host["node"]),
        comments=sorted(source.comments.items()),
        rotations=net.get("rotations", 4),
    )
