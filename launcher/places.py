"""Where keys and values stand in a TOML document: each path of keys and item numbers (from 0) with its place in the text.

It reads documents that `tomllib` has accepted, and looks only for where things begin and end.
"""
import re

BLANK = re.compile(r"(?:[ \t\r\n]|#[^\n]*)*")
KEY = re.compile(r"""[\w-]+|"(?:\\.|[^"\\])*"|'[^']*'""", re.ASCII)
TEXT = re.compile(r'"{3}(?:\\.|[^\\])*?"{3,5}|\'{3}.*?\'{3,5}|"(?:\\.|[^"\\])*"|\'[^\']*\'', re.DOTALL)
PLAIN = re.compile(r"[^,\]}#\n]*")


class Span:
    """A piece of the text: where its key or it itself begins, where its value begins, and where that ends."""

    def __init__(self, key, begin, end):
        self.key, self.begin, self.end = key, begin, end


class Places:
    def __init__(self, text):
        self.text, self.at, self.found, self.counts = text, 0, {(): Span(0, 0, 0)}, {}
        # Where each table begins, and its path.
        self.headers = []
        table = ()
        while self.skip() < len(text):
            table = self.header() if text[self.at] == "[" else self.pair(table)

    def skip(self):
        self.at = BLANK.match(self.text, self.at).end()
        return self.at

    def keys(self):
        """The names of a dotted key."""
        names = []
        while True:
            found = KEY.match(self.text, self.skip())
            self.at = found.end()
            name = found[0]
            names.append(name[1:-1] if name[0] in "\"'" else name)
            if self.text[self.skip()] != ".":
                return names
            self.at += 1

    def header(self):
        """Reads [table] or [[table]], and gives its path."""
        begin = self.at
        is_array = self.text.startswith("[[", begin)
        self.at += 1 + is_array
        names, path = self.keys(), ()
        for number, name in enumerate(names, 1):
            path += (name,)
            if is_array and number == len(names):
                self.counts[path] = self.counts.get(path, -1) + 1
            if path in self.counts:
                path += (self.counts[path],)
        self.at += 1 + is_array
        span = Span(begin, begin, self.at)
        self.found[path] = span
        self.headers.append((begin, path))
        # A list of tables, and a table that is only named in the name of another, begin where the first of these does.
        for length in range(1, len(path)):
            self.found.setdefault(path[:length], span)
        return path

    def pair(self, table):
        """Reads a key and its value, and gives the table that they stand in."""
        begin = self.at
        path = table + tuple(self.keys())
        self.at += 1
        self.skip()
        value = self.at
        self.value(path)
        self.found[path] = Span(begin, value, self.at)
        return table

    def value(self, path):
        first = self.text[self.at]
        if first == "[":
            self.array(path)
        elif first == "{":
            self.inline(path)
        else:
            self.at = (TEXT if first in "\"'" else PLAIN).match(self.text, self.at).end()

    def array(self, path):
        self.at += 1
        number = 0
        while self.text[self.skip()] != "]":
            begin = self.at
            self.value(path + (number,))
            self.found[path + (number,)] = Span(begin, begin, self.at)
            number += 1
            if self.text[self.skip()] == ",":
                self.at += 1
        self.at += 1

    def inline(self, path):
        self.at += 1
        while self.text[self.skip()] != "}":
            self.pair(path)
            if self.text[self.skip()] == ",":
                self.at += 1
        self.at += 1

    def nearest(self, path):
        """The span of a path, or of the nearest above it that has one."""
        path = tuple(path)
        while path not in self.found:
            path = path[:-1]
        return self.found[path]

    def line_at(self, offset):
        return self.text.count("\n", 0, offset) + 1

    def line_of(self, path):
        return self.line_at(self.nearest(path).key)
