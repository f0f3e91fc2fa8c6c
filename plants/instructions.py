"""Counts the instructions of runs by valgrind's callgrind. Unlike their time, these do not depend on what else the machine does."""
import os
import re
import shutil
import subprocess
import tempfile
from concurrent.futures import ThreadPoolExecutor


def count(words, source):
    """The instructions of a command that reads this open file, or None where it did not end well or was not counted."""
    source.seek(0)
    with tempfile.TemporaryDirectory() as folder:
        counting = ["valgrind", "--tool=callgrind", f"--callgrind-out-file={folder}/calls", *words]
        done = subprocess.run(
            counting, stdin=source, stdout=subprocess.DEVNULL, stderr=subprocess.PIPE, encoding="utf-8", errors="replace", check=False
        )
    found = re.search(r"Collected : (\d+)", done.stderr)
    return int(found[1]) if done.returncode == 0 and found else None


def counts(runs):
    """Those of some (words, open file), as many at once as there are processors; None where there is no valgrind, or one was not counted."""
    if not shutil.which("valgrind"):
        return None
    with ThreadPoolExecutor(len(os.sched_getaffinity(0))) as pool:
        found = list(pool.map(lambda run: count(*run), runs))
    return None if None in found else found
