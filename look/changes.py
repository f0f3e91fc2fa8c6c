"""Which lines of two texts differ."""
import difflib

# So many lines are shown, and texts of more lines that differ are not compared line by line.
MOST_SHOWN, MOST_COMPARED = 20, 1000
# How many characters of a line are shown, and how many before the first that differs.
SHOWN, BEFORE = 100, 30


def middle(old, new):
    """How many lines two lists begin with alike, and with how many they end alike."""
    least = min(len(old), len(new))
    begin = next((place for place in range(least) if old[place] != new[place]), least)
    end = next((place for place in range(least - begin) if old[-1 - place] != new[-1 - place]), least - begin)
    return begin, end


def cut(text, at):
    """A line around the character `at`."""
    text = text.rstrip("\r").replace("\t", " ")
    lead = len(text) - len(text.lstrip(" "))
    begin = lead if at < SHOWN - BEFORE else max(at - BEFORE, lead)
    return (".. " if begin > lead else "") + text[begin : begin + SHOWN] + (" .." if len(text) > begin + SHOWN else "")


def where_differ(one, other):
    return next((place for place, (a, b) in enumerate(zip(one, other)) if a != b), min(len(one), len(other)))


def pair_lines(old, new, old_at, new_at):
    """The lines of one place at which texts differ: each of the old with that of the new beside it, as far as there are both."""
    for place in range(max(len(old), len(new))):
        was, now = (lines[place] if place < len(lines) else None for lines in (old, new))
        at = where_differ(was, now) if was is not None and now is not None else 0
        if was is not None:
            yield f"old line {old_at + place}: {cut(was, at)}"
        if now is not None:
            yield f"new line {new_at + place}: {cut(now, at)}"


def lines_of(old, new):
    """Lines that say in which lines two texts differ."""
    old, new = old.split("\n"), new.split("\n")
    begin, end = middle(old, new)
    own = [lines[begin : len(lines) - end] for lines in (old, new)]
    if max(map(len, own)) > MOST_COMPARED:
        return [f"the files differ from line {begin + 1} on, in {len(own[0])} lines of the old and {len(own[1])} of the new"]
    found = []
    for kind, a, b, c, d in difflib.SequenceMatcher(None, *own, autojunk=False).get_opcodes():
        if kind != "equal":
            found += pair_lines(own[0][a:b], own[1][c:d], begin + a + 1, begin + c + 1)
    more = len(found) - MOST_SHOWN
    return found[:MOST_SHOWN] + ([f"and {more} more lines of the files differ"] if more > 0 else [])
