"""Why a text is no TOML document, as far as slips in plants go: the place that was mistyped, which may be another than where reading stopped."""
import re
import tomllib

from places import TEXT, Places
from reasons import HEADERS, nearest_tables

MOST_BRACKETS = 80
# Quotes that a word processor writes.
QUOTES = "\u201c\u201d\u201e\u201f\u2018\u2019\u201a\u201b\u00ab\u00bb"
PART = re.compile(TEXT.pattern + r"|#[^\n]*|[\[\]{},=\n]|[^\s\[\]{},=#\"']+|[\"']", re.DOTALL)
HEADER = re.compile(r"(\[\[?)[ \t]*([\w-]+(?:[ \t]*\.[ \t]*[\w-]+)*)[ \t]*\]")


def parts(text):
    """The strings, signs, words and line ends of a text, without comments: each with where it begins and ends."""
    for found in PART.finditer(text):
        if found[0][0] != "#":
            yield found[0], found.start(), found.end()


def line_at(text, offset):
    return text.count("\n", 0, offset) + 1


def brackets(text):
    """The place of the first bracket that is one too many open at once, or None."""
    depth = 0
    for part, begin, _ in parts(text):
        depth += (part in ("[", "{")) - (part in ("]", "}"))
        if depth > MOST_BRACKETS:
            return begin
    return None


def large_number(value, path=()):
    """The path of a number beyond 64 bits, or None."""
    if isinstance(value, int) and not -(2**63) <= value < 2**63:
        return path
    items = value.items() if isinstance(value, dict) else enumerate(value) if isinstance(value, list) else ()
    return next((found for key, item in items if (found := large_number(item, path + (key,))) is not None), None)


def statements(text):
    """The parts of each statement: a line, or several where a bracket is open. A header is one of its own, as far as its line goes."""
    depth, statement, is_header = 0, [], False
    for part, begin, end in parts(text):
        if part == "\n" and (depth == 0 or is_header):
            yield statement
            depth, statement, is_header = 0, [], False
            continue
        if part == "\n":
            continue
        if not statement and part == "[":
            is_header = True
        depth += (part in ("[", "{")) - (part in ("]", "}"))
        statement.append((part, begin, end))
    yield statement


def missing_comma(text):
    """Where the item ends that has no comma between it and the next one, or None."""
    for statement in statements(text):
        depth, last = 0, None
        for place, (part, begin, end) in enumerate(statement):
            if part == "[":
                if depth and last is not None and not HEADER.match(text, begin):
                    return last
                depth, last = depth + 1, None
            elif part == "]":
                depth, last = depth - 1, end
            elif part == ",":
                last = None
            elif depth:
                is_key = place + 1 < len(statement) and statement[place + 1][0] == "="
                if last is not None:
                    # What follows a bracket that was never closed is a key or a header.
                    return None if is_key else last
                last = end
            if depth and part == "[" and last is not None:
                return None
    return None


def wrong_header(text):
    """The first line in brackets that names no table, or has one pair where two belong, or two where one does: what is wrong, details and the line."""
    wanted = {header.strip("[]"): header for header in HEADERS.values()}
    for statement in statements(text):
        found = HEADER.match(text, statement[0][1]) if statement and statement[0][0] == "[" else None
        if not found:
            continue
        name, line = re.sub(r"\s", "", found[2]), line_at(text, statement[0][1])
        is_now = f"[{name}]" if found[1] == "[" else f"[[{name}]]"
        if name not in wanted:
            first, *others = nearest_tables(tuple(name.split(".")), True)
            return "a table that is not known", f"there is no table {is_now}; is it {first}? The others are {', '.join(others)}", line
        if is_now != wanted[name]:
            return "a table with the wrong brackets", f"it is {is_now}, and has to be {wanted[name]}", line
    return None


def of_mark(row):
    """What a line begins that is no TOML, but the mark of a journal, of a port, of wires or of a second plant, or nearly so."""
    mark = row.strip().upper()
    if mark.startswith("%JOURNAL"):
        return "a journal where none is read", "`run`, `trace`, `live`, `never` and `same` read no journal, and others a journal after a line that is exactly %JOURNAL"
    if mark.startswith("%SESSION"):
        return "bytes of a port where none are read", "only `session` and `standby` read them, after a line that is exactly %SESSION"
    if mark.startswith("%COP"):
        return "wires where none are read", "only `cop` reads them, after a line that is exactly %COP"
    if mark.startswith("%NEW"):
        return "a second plant where none is read", "only `same` reads two, the second after a line that is exactly %NEW"
    return None


def of_error(text, words, line):
    """What is wrong where `tomllib` stopped, details, and the number of the line that was mistyped."""
    row = text.split("\n")[line - 1]
    if of_mark(row):
        return *of_mark(row), line
    quotes = [sign for sign in re.sub("#.*", "", row) if sign in QUOTES]
    if quotes:
        return "typographic quotes", f"{' and '.join(dict.fromkeys(quotes))} in the place of a straight one", line
    if re.search("overwrite|declare|twice|immutable|already|mutate", words):
        return wrong_header(text) or ("a key or a table that stands there twice", words, line)
    end = missing_comma(text)
    if end is not None and line_at(text, end) <= line:
        return "a list without a comma between two items", "none stands after this one", line_at(text, end)
    return "a line that is no TOML", words[:1].lower() + words[1:], line


def of_toml(text):
    """Why a text is no TOML document: what is wrong, details, and the number of the line."""
    deep = brackets(text)
    if deep is not None:
        return "more than 80 open brackets", "the 81st opens here", line_at(text, deep)
    try:
        document = tomllib.loads(text)
    except (ValueError, RecursionError) as error:
        found = re.fullmatch(r"(.*) \(at (?:line (\d+), column \d+|end of document)\)", str(error), re.DOTALL)
        words, last = (found[1], found[2]) if found else (str(error), None)
        return of_error(text, words, int(last or text.rstrip("\n").count("\n") + 1))
    path = large_number(document)
    return ("a number beyond 64 bits", "here", Places(text).line_of(path)) if path is not None else None
