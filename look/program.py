"""Calls the launcher beside this folder, which sets PLANT984_UNPROVED where the program is to be one without proof.
PLANT984_PROGRAM names another program in its place, as tests do."""
import os
import signal
import subprocess
import sys
from concurrent.futures import ThreadPoolExecutor
from dataclasses import dataclass

TOP = os.path.dirname(os.path.dirname(os.path.abspath(__file__)))
sys.path.append(os.path.join(TOP, "launcher"))
import journal as journals  # noqa: E402
import wires  # noqa: E402
from names import names_beside, names_for  # noqa: E402, F401
from output import WRITE_FAULT, end_unread, named, say, write  # noqa: E402, F401

LAUNCHER = os.path.join(TOP, "plant984")
PANEL = 64
UNPROVED = "PLANT984_UNPROVED" in os.environ
# A run without proof builds the program, so such runs come one after another.
AT_ONCE = 1 if UNPROVED else os.cpu_count()


# Control-C ends a script without a word, as it ends other programs.
signal.signal(signal.SIGINT, signal.SIG_DFL)
# The runs that were begun and have not ended.
running = set()


def end(number, _):
    """Ends as a signal ends a script, behind what it began."""
    for child in list(running):
        child.send_signal(number)
    for child in list(running):
        try:
            os.waitid(os.P_PID, child.pid, os.WEXITED | os.WNOWAIT)
        except ChildProcessError:
            pass
    signal.signal(number, signal.SIG_DFL)
    os.kill(os.getpid(), number)


for ending in (signal.SIGTERM, signal.SIGHUP):
    # One that is ignored, as behind nohup, stays so.
    if signal.getsignal(ending) is not signal.SIG_IGN:
        signal.signal(ending, end)


class ProgramEnd(Exception):
    """The program did not end well: its status and what it wrote."""

    def __init__(self, status, text):
        super().__init__(status)
        self.status, self.text = status, text


def call(words, data=b"", file=None, quiet=False):
    """What the program writes for these words and this input, which is that of a file where it comes from one. Where it is to be quiet nothing is
    said on standard error."""
    command = [os.environ.get("PLANT984_PROGRAM", LAUNCHER), *(["--unproved"] if UNPROVED else []), *words]
    if file is not None and os.path.isfile(file):
        # So the launcher can show the lines of a refused plant.
        with open(file, "rb") as source:
            status, out = ended(command, source)
    else:
        status, out = ended(command, subprocess.PIPE, data, subprocess.DEVNULL if quiet else None)
    text = out.decode(errors="replace")
    if status != 0:
        raise ProgramEnd(status, text)
    return text


def ended(command, source, data=None, said=None):
    """The status of a run and what it wrote; what it says goes where `said` tells."""
    with subprocess.Popen(command, stdin=source, stdout=subprocess.PIPE, stderr=said) as child:
        running.add(child)
        try:
            out, _ = child.communicate(data)
        finally:
            running.discard(child)
    return child.returncode, out


def merge(panel, other):
    for node, values in other.values.items():
        panel.values.setdefault(node, {}).update(values)


def all_values(plant, scans, panel, journal_text=None, told=None):
    """Adds to a panel the values of all other references that the plant names, by runs of copies with other panels."""
    others = {one.node: one.references()[1] for one in plant.controllers}
    add_values(plant, scans, panel, others, journal_text, told)


def add_values(plant, scans, panel, others, journal_text=None, told=None):
    """The same for some references of each controller; `told` hears how many of the runs are done."""
    copies = []
    for start in range(0, max((len(references) for references in others.values()), default=0), PANEL):
        copies.append(plant.with_panels({node: list_[start : start + PANEL] for node, list_ in others.items()}))
    words = ["replay" if journal_text else "run", str(scans)]

    def run(copy):
        return journals.read_panel(call(words, (copy + (journal_text or "")).encode()))

    with ThreadPoolExecutor(AT_ONCE) as pool:
        for count, other in enumerate(pool.map(run, copies), 1):
            merge(panel, other)
            if told:
                told(count, len(copies))


def read_file(name):
    with open(name, "rb") as file:
        return file.read()


@dataclass(frozen=True)
class Wired:
    """The wires of a plant, and the file in which they stand, after so many lines of it."""

    wires: list
    file: str
    before: int


def plant_and_wires(file, data):
    """The plant in the bytes of a file, and its wires, which stand after it or in the file beside it; None where there are none. Where the program
    refuses them, or the plant, it does so here."""
    found = wires.wires_for(file, data)
    if found is None:
        return data, None
    lines, where, before = found
    if where == file:
        call(["cop", "1"], data, file)
    elif "PLANT984_PROGRAM" in os.environ:
        call(["cop", "1"], b"\n".join([data.rstrip(b"\n"), b"%COP", lines]))
    else:
        # So the launcher can show the lines of both files.
        status, out = ended([LAUNCHER, *(["--unproved"] if UNPROVED else []), "cop", "1", file, where], subprocess.DEVNULL)
        if status != 0:
            raise ProgramEnd(status, out.decode(errors="replace"))
    return wires.cut(data)[0], Wired(wires.read_wires(lines), where, before)


def end_with(error):
    """Ends as the program did, with the line that it wrote."""
    write(error.text)
    sys.exit(error.status)


def shown(name):
    """A file's name without its folder, as text that can be written."""
    return os.fsencode(os.path.basename(name)).decode(errors="replace")


def number_of_scans(word):
    """A number of scans as the program takes it, or None."""
    return int(word) if word.isascii() and word.isdigit() and word[0] != "0" and len(word) < 5 and int(word) <= 2000 else None


def is_other_file(name):
    """Whether a file is there that is no page of this program."""
    try:
        with open(name, "rb") as file:
            begins = file.read(200)
    except FileNotFoundError:
        return False
    return bool(begins) and b'content="plant984"' not in begins


def write_page(text, name):
    """Writes a page to a file, or to standard output; a file that is there and is no such page is left alone."""
    if name is None:
        write(text)
        return
    try:
        if is_other_file(name):
            say(f"{named(name)} is there and is no page of this program; it is left as it is (the page is the last word)")
            sys.exit(2)
        with open(name, "w", encoding="utf-8", errors="replace") as file:
            file.write(text)
    except OSError as error:
        say(f"writing {named(name)} failed: {error.strerror}")
        sys.exit(WRITE_FAULT)
