"""Says on standard error how far a script is that takes long: after PLANT984_PATIENCE seconds (5 where it is not set, `none` for never),
then now and then, and once more as it ends. Of one that is quicker nothing is said."""
import os
import re
import threading
import time

from output import say

PATIENCE, AGAIN = 5.0, 15.0


def patience():
    """The seconds that are waited, or None for ever. Another word counts for nothing."""
    word = os.environ.get("PLANT984_PATIENCE", "")
    if word == "none":
        return None
    return float(word) if re.fullmatch(r"[0-9]{1,6}(\.[0-9]{1,3})?", word) else PATIENCE


class Progress:
    """The steps of a script, in words that end the sentence 'it ..'; the first of them has begun."""

    def __init__(self, name, steps):
        self.name, self.steps, self.place, self.part = name, steps, 0, ""
        self.begun, self.is_told, self.has_ended = time.monotonic(), False, threading.Event()
        if patience() is not None:
            threading.Thread(target=self.watch, args=(patience(),), daemon=True).start()

    def seconds(self):
        return f"{time.monotonic() - self.begun:.0f} s"

    def watch(self, wait):
        while not self.has_ended.wait(wait):
            self.is_told = True
            say(f"{self.name}: {self.seconds()} so far; step {self.place + 1} of {len(self.steps)}: it {self.steps[self.place]}{self.part}")
            wait = AGAIN

    def next(self):
        """The next step has begun."""
        self.place, self.part = self.place + 1, ""

    def done(self, count, of_how_many):
        """So many of a step's runs are done."""
        self.part = f" ({count} of {of_how_many} done)"

    def end(self):
        self.has_ended.set()
        if self.is_told:
            say(f"{self.name}: done after {self.seconds()}")
