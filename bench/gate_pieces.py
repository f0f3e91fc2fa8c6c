"""Pieces of the gate, each alone and from nothing, over the libraries that a build or a check left: a crate's proof, its tests, its edits."""
import os
import shutil
import subprocess
import tempfile
import time

import gate_times

PARTS = ("src", "specs", "proofs", "must-fail", "data")
# On the file system of the repository, so that libraries are linked, and not below the top, where rt ci reads all files.
TEMPORARY = [tempfile.gettempdir(), "/var/tmp"]
KINDS = ["proof", "tests", "edits"]


def has_tests(folder):
    for at, _, files in os.walk(os.path.join(folder, "src")):
        for name in files:
            with open(os.path.join(at, name), encoding="utf-8") as file:
                if "#[test]" in file.read():
                    return True
    return False


def kinds_of(folder):
    """The kinds of pieces that a crate has."""
    edits = os.path.join(folder, "must-fail")
    has_edits = os.path.isdir(edits) and any(name.endswith(".edit") for name in os.listdir(edits))
    return ["proof"] + ["tests"] * has_tests(folder) + ["edits"] * has_edits


def library_of(top, name):
    return os.path.join(top, "crates", name, "out", "rlib")


def lacking(top, names):
    """Those crates of which there is no library."""
    return [name for name in names if not os.path.isfile(os.path.join(library_of(top, name), "stamp"))]


def linked(source, target):
    """Copies a folder as further links to its files, where it can."""
    def link(one, other):
        try:
            os.link(one, other)
        except OSError:
            shutil.copy2(one, other)

    shutil.copytree(source, target, copy_function=link)


def furnish(room, top, name, below):
    """Puts into a room the crates below with their libraries, and the crate with nothing that an earlier run kept."""
    for other in [*below, name]:
        for part in PARTS:
            source = os.path.join(top, "crates", other, part)
            if os.path.isdir(source):
                shutil.copytree(source, os.path.join(room, "crates", other, part))
    for other in below:
        linked(library_of(top, other), library_of(room, other))
    shutil.copy2(os.path.join(top, "HANDLES"), room)
    with open(os.path.join(top, "crates.txt"), encoding="utf-8") as file:
        lines = [line for line in file if line.split(":")[0].split(" ")[0] in {name, *below}]
    with open(os.path.join(room, "crates.txt"), "w", encoding="utf-8") as file:
        file.writelines(lines)


def proved(words, folder, log):
    """Runs a command; gives its status, what it used with all that it waited for, and the processor seconds of each folder in which it had
    something proved: of each edit, in turn."""
    rooms, ended = {}, 0
    with open(log, "w", encoding="utf-8") as out:
        run = subprocess.Popen(words, cwd=folder, stdin=subprocess.DEVNULL, stdout=out, stderr=subprocess.STDOUT)
        while not ended:
            for it in gate_times.provers():
                rooms.setdefault(it.folder, {})[it.process] = it.seconds
            time.sleep(0.5)
            ended, status, used = os.wait4(run.pid, os.WNOHANG)
    run.returncode = os.waitstatus_to_exitcode(status)
    return run.returncode, used, [sum(found.values()) for found in rooms.values()]


def measure_one(top, name, kind, below):
    """Runs one piece in a room of its own, with what it prints in out/pieces. Gives its status, the piece, and what its parts took."""
    logs = os.path.join(top, "out", "pieces")
    os.makedirs(logs, exist_ok=True)
    place = next((it for it in TEMPORARY if os.stat(it).st_dev == os.stat(top).st_dev), TEMPORARY[-1])
    with tempfile.TemporaryDirectory(prefix="gate-", dir=place) as room:
        furnish(room, top, name, below)
        crate = os.path.join(room, "crates", name)
        verb = "lib" if os.path.isfile(os.path.join(crate, "src", "lib.rt")) else "check"
        words, folder = {
            "proof": (["rt", verb, "--jobs", "1"], crate),
            "tests": (["rt", "test", "--jobs", "1"], crate),
            "edits": (["rt", "must-fail", name], room),
        }[kind]
        began = time.time()
        status, used, parts = proved(words, folder, os.path.join(logs, f"{name}-{kind}.log"))
    seconds = used.ru_utime + used.ru_stime
    return status, gate_times.Piece(name, kind, began, time.time(), seconds, used.ru_maxrss // 1000), parts


def measure(top, kept, names, kinds):
    """Measures these kinds of pieces of these crates, or of all whose libraries are there; without names, those that were not measured yet.
    Gives how many failed."""
    uses, known, failed = gate_times.listed(top), {}, 0
    for name in names or uses:
        below = sorted(gate_times.below(name, uses, known))
        for kind in [it for it in kinds_of(os.path.join(top, "crates", name)) if it in kinds]:
            if not names and any((it.crate, it.kind) == (name, kind) for it in gate_times.read(kept)):
                continue
            without = lacking(top, below)
            if without:
                print(f"{name}: its {kind}: not measured, since there is no library of {' '.join(without[:3])}", flush=True)
                continue
            status, piece, parts = measure_one(top, name, kind, below)
            each = f" ({' '.join(f'{it:.0f}' for it in parts)})" if kind == "edits" else ""
            print(f"{name}: its {kind}: {piece.seconds:.0f} s of processor{each}, {piece.memory} MB{', FAILED' * bool(status)}", flush=True)
            gate_times.keep(kept, [piece])
            failed += bool(status)
    return failed
