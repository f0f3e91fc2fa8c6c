"""The dearest functions and lemmas, by the records that a check leaves: one is written as each part of a proof ends, so that the gap before
it is what the part took. Where a check had several jobs, it took at least that."""
import collections
import glob
import os
import re

MOST = 10
# A record is named by its crate, by what was proved, and by the part of that.
NAME = re.compile(r"^Rattle-(?P<crate>\w+)[-.](?:proofs\.|specs\.contracts\.|specs\.)?(?P<name>.*?)\.decls\.oantt$")
PART = re.compile(r"\.(Answers|Code|Goals|Kinds|Lts|Met|Mir|Proof|Symbol|TheLaws|Tie)\b.*$")
# Before these a check waits for its other jobs.
WAITS = re.compile(r"\.(Key|TheLink)\b")


def gaps(folder):
    """The seconds before each record of a check, with its name."""
    found = sorted((os.stat(path).st_mtime, os.path.basename(path)) for path in glob.glob(os.path.join(folder, "*")))
    return [(after - before, name) for (before, _), (after, name) in zip(found, found[1:]) if not WAITS.search(name)]


def tell(top):
    took = collections.Counter()
    for folder in glob.glob(os.path.join(top, "crates/*/out/incremental/*/records")):
        for seconds, record in gaps(folder):
            named = NAME.match(record)
            if named:
                took[named["crate"], PART.sub("", named["name"])] += seconds
    for (crate, name), seconds in took.most_common(MOST):
        print(f"| {seconds:.0f} | `{crate}` | `{name}` |")
    return 0 if took else 1
