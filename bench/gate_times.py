"""What the pieces of a gate take: watched as they run, and kept; and what stands on what."""
import collections
import json
import os
import re
import time

TICK = os.sysconf("SC_CLK_TCK")
PROVER = re.compile(r"(^|/)(rattle|antt-kernel|clang)$")
CRATE = re.compile(r"/crates/(\w+)")
KINDS = ["proof", "tests", "edits", "build"]

# A piece of proof: the crate, its kind, when it began and ended, its processor seconds and its most memory in MB, and whether it is a further
# job of a proof, which goes on beside it.
Piece = collections.namedtuple("Piece", "crate kind began ended seconds memory is_job", defaults=[False])


def kind_of(folder, words):
    """An edit is tried in a room of its own; of the rest, what names no crate is a build."""
    if "/rt-edit-" in folder:
        return "edits"
    if "--crate-name" not in words:
        return "build"
    return "tests" if "--test" in words else "proof"


def crate_of(folder, words):
    if "--crate-name" in words:
        return words[words.index("--crate-name") + 1]
    return CRATE.search(folder + "/crates/other")[1]


# A prover that runs: its process with its start, that of what started it, its words, folder, processor seconds and memory.
Prover = collections.namedtuple("Prover", "process parent words folder seconds memory")


def provers():
    """The provers of this run that run now. Those of other runs on this machine are of other sessions."""
    own = os.getsid(0)
    for process in filter(str.isdigit, os.listdir("/proc")):
        try:
            if os.getsid(int(process)) != own:
                continue
            with open(f"/proc/{process}/cmdline", "rb") as file:
                words = file.read().decode(errors="replace").split("\0")
            if not PROVER.search(words[0]) or words[1:2] == ["fmt"]:
                continue
            with open(f"/proc/{process}/stat", encoding="ascii", errors="replace") as file:
                fields = file.read().rsplit(")", 1)[1].split()
            seconds = (int(fields[11]) + int(fields[12])) / TICK
            memory = int(fields[21]) * os.sysconf("SC_PAGE_SIZE") // 1_000_000
            yield Prover((process, fields[19]), fields[1], words, os.readlink(f"/proc/{process}/cwd"), seconds, memory)
        except (OSError, IndexError):
            continue


def look(pieces):
    """Brings the pieces up to what runs now."""
    now, found = time.time(), list(provers())
    numbers = {it.process[0] for it in found}
    for it in found:
        old = pieces.get(it.process)
        began, most = (old.began, old.memory) if old else (now, 0)
        is_job = it.parent in numbers
        kind = kind_of(it.folder, it.words)
        pieces[it.process] = Piece(crate_of(it.folder, it.words), kind, began, now, it.seconds, max(it.memory, most), is_job)


def read(path):
    if not os.path.isfile(path):
        return []
    with open(path, encoding="utf-8") as file:
        return [Piece(*row) for row in json.load(file)]


def keep(path, pieces):
    """Keeps the pieces of a run in place of those that earlier runs had of the same crates and kinds."""
    new = {(piece.crate, piece.kind) for piece in pieces}
    old = [piece for piece in read(path) if (piece.crate, piece.kind) not in new]
    with open(path, "w", encoding="utf-8") as file:
        json.dump([*old, *pieces], file)


def costs_of(pieces):
    """The processor seconds of each kind, by crate."""
    costs = collections.defaultdict(collections.Counter)
    for piece in pieces:
        costs[piece.crate][piece.kind] += piece.seconds
    return costs


def alone_of(pieces):
    """What of a proof went on in one process while it had further jobs, in seconds, by crate."""
    with_jobs = {piece.crate for piece in pieces if piece.kind == "proof" and piece.is_job}
    alone = collections.Counter()
    for piece in pieces:
        if piece.kind == "proof" and piece.crate in with_jobs and not piece.is_job:
            alone[piece.crate] += piece.seconds
    return alone


def listed(top):
    """The crates of crates.txt, each with those of them that it stands on."""
    with open(os.path.join(top, "crates.txt"), encoding="utf-8") as file:
        lines = [line.partition("#")[0] for line in file if ":" in line.partition("#")[0]]
    uses = {line.split(":")[0].split()[0]: line.partition(":")[2].split() for line in lines}
    return {name: [it for it in found if it in uses] for name, found in uses.items()}


def below(name, uses, known):
    """All crates that a crate stands on."""
    if name not in known:
        known[name] = set()
        for other in uses[name]:
            known[name] |= {other, *below(other, uses, known)}
    return known[name]
