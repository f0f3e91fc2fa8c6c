"""What the program takes of something else that is timed beside it, by turns, and what it took of it before (README.md)."""
import collections
import datetime
import os
import platform
import re
import tempfile

from live_plants import TRAFFIC, live_plant
from measuring import PROGRAM, TOP, by_turns, journal_in, once, panel_of, plain_case, plain_solver, plant, plant_of_stations
from measuring import processors, row, small_network

README = os.path.join(TOP, "bench/README.md")
WIDTH = 16
NETWORKS, PANEL = 480, 64
# A ratio is worse where it is more than this times the one that is stored.
WORSE = 1.2

# A ratio, and what it is hoped to be: less is better.
Ratio = collections.namedtuple("Ratio", "name value aim")


def shown(name, ours, other, aim):
    """Prints a row, and gives its ratio."""
    ratio = Ratio(name, ours / other, aim)
    row(WIDTH, f"  {name}", f"{ours:.3f}", f"{other:.3f}", f"{ratio.value:.2f}", f"{aim:.2f}")
    return ratio


def head(title, ours, other):
    row(WIDTH, title, ours, other, "ratio", "aim")


def beside_the_plain(scans):
    """A run with a panel, and the solves of a run alone, beside the plain solver on the same networks."""
    head(f"{NETWORKS} networks of 5 cells, {scans} scans", "plant984 s", "plain s")
    networks = [small_network(number + 1) for number in range(NETWORKS)]
    found = []
    with tempfile.TemporaryDirectory() as folder:
        program = plain_solver(folder)
        if program is None:
            print("  NOT RUN: there is no rustc")
            return found
        text = plant(networks, coils=NETWORKS, panel=panel_of(PANEL))
        ours, other = by_turns(
            ([PROGRAM, "run", str(scans)], text), plain_case(program, scans, networks, NETWORKS, PANEL)
        )
        if ours.written != other.written:
            print("  THE PANELS DIFFER")
        found.append(shown(f"run, panel of {PANEL}", ours.seconds, other.seconds, 1.0))
        # What one scan takes is the start and the reading, so the rest is solving and a short line a scan.
        text = plant(networks, coils=NETWORKS)
        cases = [
            case
            for count in (scans, 1)
            for case in (([PROGRAM, "run", str(count)], text), plain_case(program, count, networks, NETWORKS, 0))
        ]
        ours, other, our_start, other_start = (run.seconds for run in by_turns(*cases))
        found.append(shown("solve alone", ours - our_start, other - other_start, 0.6))
    return found


# What a live run may take of its trace, by networks and processors.
LIVE_AIMS = {(200, 1): 1.3, (200, 2): 0.8, (200, 4): 0.5, (1000, 1): 1.3, (1000, 2): 0.6, (1000, 4): 0.33}


def beside_the_trace(scans):
    """A live run beside the trace of the same plant."""
    head(f"16 controllers, {scans} scans", "live s", "trace s")
    found = []
    for traffic in TRAFFIC:
        for networks in (200, 1000):
            text = live_plant(traffic, networks)
            for count in (1, 2, 4):
                name = f"live, {traffic} traffic, {networks} networks, {count} cpu"
                on = processors(count)
                if on is None:
                    print(f"  {name}: NOT RUN")
                    continue
                live, trace = by_turns(*(([PROGRAM, word, str(scans)], text, on) for word in ("live", "trace")))
                found.append(shown(name, live.seconds, trace.seconds, LIVE_AIMS[networks, count]))
    return found


# Requests of each host and scans, whose journals have about 256,000, 512,000 and 1,024,000 lines of the same kinds.
JOURNALS = [(250, 500), (500, 1000), (1000, 2000)]


def checks(scans):
    """The judging of journals of three sizes: lines, processor time, memory, and what twice the lines take."""
    row(WIDTH, "check", "lines", "seconds", "MiB", "bytes a line", "lines a second")
    judged = []
    for requests, most in JOURNALS:
        count = str(min(scans, most))
        text = plant_of_stations(requests, rotations=10)
        journal = journal_in(once([PROGRAM, "trace", count], text).written)
        lines = journal.count(b"\n")
        (run,) = by_turns(([PROGRAM, "check", count], text + journal))
        judged.append((lines, run))
        each = [f"{run.memory * 2**20 / lines:.0f}", f"{lines / run.seconds:.0f}"]
        row(WIDTH, f"  journal {len(judged)}: {count} scans", lines, f"{run.seconds:.3f}", f"{run.memory:.0f}", *each)
    head("for twice the lines", "seconds", "of half")
    found = []
    for place in (1, 2):
        (few, small_run), (many, large_run) = judged[place - 1 : place + 1]
        found.append(shown(f"check of journal {place + 1}, of journal {place}", large_run.seconds * 2 * few / many, small_run.seconds, 2.2))
    return found


def stored():
    """The ratios that bench/README.md has, by their names."""
    with open(README, encoding="utf-8") as file:
        rows = re.findall(r"^\| ([^|]+) \| ([0-9.]+) \| [0-9.]+ \|$", file.read(), re.M)
    return {name: float(value) for name, value in rows}


def machine():
    """How many processors of which kind."""
    with open("/proc/cpuinfo", encoding="utf-8") as file:
        models = re.findall(r"^model name\s*:\s*(.+)$", file.read(), re.M)
    return f"{len(os.sched_getaffinity(0))} processors, {models[0] if models else platform.machine()}"


def store(found):
    """Writes the ratios into the table of bench/README.md, with the day and the machine."""
    with open(README, encoding="utf-8") as file:
        text = file.read()
    today = datetime.date.today()
    taken = f"Taken on {today.day} {today:%B %Y}: {machine()}."
    rows = "".join(f"| {it.name} | {it.value:.2f} | {it.aim:.2f} |\n" for it in found)
    front, rest = re.split(r"(?<=\n)Taken on .*\n", text)
    head, behind = re.match(r"(\n\|.*\n\|[-|]*\n)(?:\|.*\n)*([^$]*)", rest).groups()
    with open(README, "w", encoding="utf-8") as file:
        file.write(f"{front}{taken}\n{head}{rows}{behind}")


def compare(found):
    """Says which ratios got worse by more than a fifth against those that are stored."""
    before = stored()
    for it in found:
        if it.name not in before:
            print(f"not stored: {it.name}")
        elif it.value > WORSE * before[it.name]:
            print(f"WORSE: {it.name}: {it.value:.2f}, which was {before[it.name]:.2f}")


def small(scans=2000, keep=False):
    """All ratios, by turns; those of 2000 scans are compared with the table, or stored there."""
    found = beside_the_plain(scans) + beside_the_trace(scans) + checks(scans)
    if keep:
        store(found)
    elif scans == 2000:
        compare(found)
