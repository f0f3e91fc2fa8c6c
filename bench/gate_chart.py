"""Draws which crate was proved when, and how many processors worked."""
import collections

# A minute of the chart, in seconds, and its signs.
MINUTE = 60
SIGNS = {"proof": "#", "tests": "t", "edits": "e", "build": "b"}

# A bar of the chart: the crate, the kind of its piece, when it began and ended, and its processor seconds.
Bar = collections.namedtuple("Bar", "crate kind began ended seconds")


def draw(bars):
    """One line for each crate, in the order in which they began: a sign for each minute, and below how many processors worked."""
    start, end = min(it.began for it in bars), max(it.ended for it in bars)
    columns = int((end - start) // MINUTE) + 1
    rows, busy = collections.defaultdict(lambda: [" "] * columns), [0.0] * columns
    for bar in sorted(bars, key=lambda it: it.began):
        long = max(bar.ended - bar.began, 0.5)
        for minute in range(int((bar.began - start) // MINUTE), int((bar.ended - start) // MINUTE) + 1):
            shared = min(bar.ended, start + MINUTE * (minute + 1)) - max(bar.began, start + MINUTE * minute)
            busy[minute] += bar.seconds / long * max(shared, 0) / MINUTE
            if shared > MINUTE / 4 or rows[bar.crate][minute] == " ":
                rows[bar.crate][minute] = SIGNS[bar.kind]
    for name, signs in rows.items():
        print(f"{name:<18} {''.join(signs).rstrip()}")
    print(f"{'processors busy':<18} {''.join(f'{min(it, 9):.0f}' for it in busy)}")
