"""What the benches share: the program, plants that they make, and runs that are timed by turns."""
import collections
import os
import shutil
import subprocess
import sys
import tempfile
import time

TOP = os.path.dirname(os.path.dirname(os.path.abspath(__file__)))
PROGRAM = os.path.join(TOP, "crates/plant984/out/plant984")
# The best of so many runs counts.
TIMES = 3

# Seconds from start to end, those of all processors together, the peak of memory in MiB, and what was written.
Timed = collections.namedtuple("Timed", "seconds cpu memory written")


def build():
    """Has the launcher build the program where that is needed; ends where it cannot."""
    words = [os.path.join(TOP, "plant984"), "run", "1", os.path.join(TOP, "plants/first.toml")]
    if subprocess.run(words, stdin=subprocess.DEVNULL, stdout=subprocess.DEVNULL).returncode != 0:
        sys.exit("the program could not be built, so nothing was timed")


def row(width, name, *columns):
    print(f"{name:<44}" + "".join(f"{column:>{width}}" for column in columns), flush=True)


def processors(count):
    """The first processors that this script may use, or None where there are fewer."""
    numbers = sorted(os.sched_getaffinity(0))
    return numbers[:count] if len(numbers) >= count else None


def once(words, text, on=None):
    """One run of a program on an input, on these processors or on all."""
    with tempfile.TemporaryFile() as source, tempfile.TemporaryFile() as sink:
        source.write(text)
        source.seek(0)
        bound = (lambda: os.sched_setaffinity(0, on)) if on else None
        start = time.perf_counter()
        child = subprocess.Popen(words, stdin=source, stdout=sink, preexec_fn=bound)
        _, status, usage = os.wait4(child.pid, 0)
        took = time.perf_counter() - start
        child.returncode = os.waitstatus_to_exitcode(status)
        sink.seek(0)
        if child.returncode != 0:
            sys.exit(f"{' '.join(words)} ended with {child.returncode}: {sink.read(200)!r}")
        return Timed(took, usage.ru_utime + usage.ru_stime, usage.ru_maxrss / 1024, sink.read())


def by_turns(*cases):
    """The best run of each of some (words, input, processors), by turns, so that a busy machine slows each."""
    turns = [[once(*case) for case in cases] for _ in range(TIMES)]
    return [min(runs, key=lambda run: run.seconds) for runs in zip(*turns)]


def listed(texts):
    return ",\n".join(f'"{text}"' for text in texts)


def plant(networks, coils=16, inputs=16, panel=(), registers=100, more=(), orders=("1 - - -",), drops=()):
    """One segment of networks, or more, and drops; a scan can solve 9999 networks."""
    segments = [f"[[controller.segment]]\nnetworks = [\n{listed(texts)}\n]\n" for texts in (networks, *more)]
    return (
        "version = 1\nwatchdog = 10000\n[[controller]]\nnode = 1\n"
        f"coils = {coils}\ninputs = {inputs}\nregisters = {registers}\n"
        f"panel = [{listed(panel)}]\norders = [{listed(orders)}]\n" + "".join(drops) + "".join(segments)
    ).encode()


def small_network(coil):
    """5 cells in 3 columns, with a short. The coil is the opposite of the one before; the first changes at each scan."""
    before = max(coil - 1, 1)
    return f"1,1 NO 10001; 2,1 NC {before:05}; 1,1 V; 1,2 NC 10003; 2,2 H; 1,3 CO {coil:05}"


def panel_of(count):
    """The first coils."""
    return [f"{number:05}" for number in range(1, count + 1)]


def plain_solver(folder, source="main"):
    """The plain solver, or the plain search that uses it, built; None where there is no Rust compiler."""
    if shutil.which("rustc") is None:
        return None
    program = os.path.join(folder, f"plain_{source}")
    source = os.path.join(TOP, f"bench/plain/{source}.rs")
    subprocess.run(["rustc", "--edition", "2021", "-O", "-o", program, source], check=True)
    return program


def plain_case(program, scans, networks, coils, panel):
    """The plain solver on these networks, which writes what `run` writes for a plant of them."""
    words = [program, str(scans), str(coils), "16", str(panel)]
    return words, ("\n".join(networks) + "\n").encode()


def reader(node, to):
    """A controller whose one block reads a register of another node in every second scan."""
    networks = listed(
        [
            "1,1 ADD 2 0 40001; 4,1 ADD 1 0 40003",
            f"1,1 ADD 1 0 40004; 4,1 ADD {to} 0 40005",
            "1,1 H; 1,2 MSTR 40001 40011 1",
        ]
    )
    return (
        f"[[controller]]\nnode = {node}\nregisters = 40\norders = [\"1 - - -\"]\n"
        f"[[controller.segment]]\nnetworks = [\n{networks}\n]\n"
    )


def asking(node, to, count):
    """A host with so many requests, one more due at each of its holds."""
    requests = listed(f"{hold} {to} 0300000001" for hold in range(1, count + 1))
    return f"[[host]]\nnode = {node}\nrequests = [\n{requests}\n]\n"


def plant_of_stations(requests=1000, rotations=2):
    """16 controllers that read each other in a ring, and 16 hosts that each ask one of them."""
    controllers = [reader(node, node % 16 + 1) for node in range(1, 17)]
    hosts = [asking(16 + node, node, requests) for node in range(1, 17)]
    return (f"version = 1\n[net]\nrotations = {rotations}\n" + "".join(controllers + hosts)).encode()


def journal_in(written):
    """The journal that a trace wrote."""
    return written[: written.index(b"%END\n") + 5]
