"""What a command takes for long streams: the time and the memory of a stream and of half of it, and the instructions for a part of it and for half of that.

A stream is a piece, again and again up to a size, after a head. The ratio of memory is judged. So is that of instructions, which a busy machine does not
change: callgrind counts those of an eighth of each stream and of half of that. Without valgrind the ratio of time is judged in its place.
"""
import contextlib
import os
import subprocess
import tempfile

import instructions

MOST_BYTES = 67108864
# Twice the bytes are to take at most so much of the time and of the memory. So few seconds more are too few to tell.
MOST, FEW = 2.2, 0.02
# Instructions are counted of such a part of a stream, since that takes some 50 times as long as a run. What grows by the square and makes
# 2.2 of a whole stream makes 2.03 of an eighth.
PART, MOST_COUNTED = 8, 2.03


def once(words, source):
    """Seconds of the processor, MiB and status of a command that reads this open file."""
    source.seek(0)
    # A child that is forked begins with what this script has now, and not with the most that it ever had.
    child = subprocess.Popen(words, stdin=source, stdout=subprocess.DEVNULL, preexec_fn=lambda: None)
    _, status, usage = os.wait4(child.pid, 0)
    child.returncode = os.waitstatus_to_exitcode(status)
    return usage.ru_utime + usage.ru_stime, usage.ru_maxrss / 1024, child.returncode


def fill(file, head, piece, size):
    """Writes so many bytes: the head, and after it this piece again and again."""
    file.write(head)
    many = piece * (1 + 65536 // len(piece))
    left = size - len(head)
    while left:
        left -= file.write(many[:left])
    file.flush()


def is_in_time(half, whole):
    return whole[0] <= half[0] * MOST + FEW


def least(tries):
    """The least of what each try took for half of a stream, and the least for the whole."""
    return [min(runs) for runs in zip(*tries)]


def took(words, head, piece, size, is_judged):
    """What half of a stream takes, and what the whole does: the least of tries by turns, of more where time is judged and over."""
    with tempfile.TemporaryFile() as half, tempfile.TemporaryFile() as whole:
        fill(half, head, piece, size // 2)
        fill(whole, head, piece, size)
        tries = []
        while len(tries) < 3 or is_judged and len(tries) < 12 and not is_in_time(*least(tries)):
            tries.append((once(words, half), once(words, whole)))
    return least(tries)


def counted(words, head, streams):
    """The instructions for half of a part of each stream, and for that part; None where they are not counted."""
    with contextlib.ExitStack() as stack:
        runs = []
        for _, piece, size in streams:
            for length in (size // PART // 2, size // PART):
                source = stack.enter_context(tempfile.TemporaryFile())
                fill(source, head, piece, length)
                runs.append((words, source))
        counts = instructions.counts(runs)
    return counts and list(zip(counts[::2], counts[1::2]))


def judge(command, words, head, streams, equal):
    """Runs a command on streams, each a name, a piece and a size; prints what they took, and notes by `equal` whether that grows with the bytes."""
    counts = counted(words, head, streams)
    for number, (name, piece, size) in enumerate(streams):
        half, whole = took(words, head, piece, size, is_judged=not counts)
        equal(f"{name}: the status", (0, 0), (half[2], whole[2]))
        times, memory = whole[0] / max(half[0], 0.001), whole[1] / max(half[1], 1)
        said = f"{command}: {size >> 20} MiB of {name}: {whole[0]:.2f} s and {whole[1]:.0f} MiB, {times:.2f} and {memory:.2f} times what half of it took"
        equal(f"{name}: the ratio of memory is at most {MOST}", True, memory <= MOST)
        if counts:
            few, many = counts[number]
            said += f"; 1/{PART} of it: {many / 1e6:.0f} million instructions, {many / few:.3f} times those of half of that"
            equal(f"{name}: the ratio of instructions is at most {MOST_COUNTED}", True, many <= few * MOST_COUNTED)
        else:
            equal(f"{name}: the ratio of time is at most {MOST}", True, is_in_time(half, whole))
        print(said)
