"""What the field brought in a run that a search found: rows of scripts, which are told as scripts to paste."""
import program
from fields import MOST_ROWS, script_lines
from output import tell

# So many scans a run that is looked at has at most.
MOST_SCANS = 2000


def exchanges_of(text):
    """How many scans the run has, and its input exchanges in their order: scan, drop and row."""
    lines = [line.split() for line in text.splitlines()]
    told = []
    for words in lines[1:]:
        if words[0] != "I":
            break
        told.append(tuple(map(int, words[1:])))
    return int(lines[0][1]), told


def rows_of(exchanges):
    """The rows that these bring each drop, by their numbers, in their order."""
    brought = {}
    for _, drop, row in exchanges:
        brought.setdefault(drop, []).append(row)
    return brought


def scripts_of(plant, brought):
    """The rows themselves: what a script that is empty brings is no row."""
    scripts = {number: plant.drop(number).script for number in brought}
    return {number: [scripts[number][row - 1] for row in rows] for number, rows in brought.items() if scripts[number]}


def tell_scripts(scripts):
    for number, rows in sorted(scripts.items()):
        if len(rows) > MOST_ROWS:
            program.say(f"drop {number}: {len(rows):,} rows, and a script has at most {MOST_ROWS:,}")
            continue
        program.say(f"drop {number}:")
        tell("".join(f"{line}\n" for line in script_lines(rows)))
    if not scripts:
        program.say("no drop brings anything: it is the one run of this controller")


def has_page(scans, scripts):
    """Whether a run with these scripts can be looked at; where not it is said."""
    if scans <= MOST_SCANS and all(len(rows) <= MOST_ROWS for rows in scripts.values()):
        return True
    program.say(f"there is no page of it, since a run that is looked at has at most {MOST_SCANS} scans")
    return False
