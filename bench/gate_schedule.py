"""What a build or a gate takes on so many processors, by a schedule: its pieces are laid on processors in the order that the launcher or
`rt ci` takes them in. It knows nothing of memory, of what else a machine does, nor that two provers on one chip slow each other."""
import collections
import os

import gate_chart
import gate_reckoned
import gate_times

# What of a proof goes on one processor, in seconds, however many jobs it has, where that was not measured; and the most jobs of a proof.
ALONE = 20
MOST_JOBS = 4
# The memory of the machine that is reckoned with, and what the launcher takes a job to need, in MB.
MEMORY = 22_000
JOB_MEMORY = 2_000

# What the sum of one crate's sources takes, in seconds. `rt ci` takes that of a library twice, with those of all crates below it anew along
# each path that leads to them.
SUM = 0.0047

# A task: its crate and kind, its processor seconds, those that further jobs do not shorten, the tasks that it waits for, and its lines, by
# which tasks are put in order.
Task = collections.namedtuple("Task", "crate kind seconds alone waits lines")


def proof_of(found, name):
    """What a crate's proof takes, and what of that goes on one processor."""
    seconds = found.costs[name]["proof"] + found.costs[name]["build"]
    return seconds, min(found.alone.get(name, ALONE), seconds)


def build_tasks(found, uses, top):
    """The proofs of a first build: those of the program and of all below it."""
    known, tasks = {}, {}
    for name in sorted({"plant984", *gate_times.below("plant984", uses, known)}):
        waits = [(other, "proof") for other in gate_times.below(name, uses, known)]
        lines = gate_reckoned.all_lines(top, name)
        tasks[name, "proof"] = Task(name, "proof", *proof_of(found, name), waits, lines)
    return tasks


def paths_to(name, uses, known):
    """How many paths lead from a crate to itself and to those that it stands on."""
    if name not in known:
        known[name] = 1 + sum(paths_to(other, uses, known) for other in uses[name])
    return known[name]


def sums_of(name, uses, known, top):
    """What `rt ci` takes for the sums of a crate's sources."""
    is_library = os.path.isfile(os.path.join(top, "crates", name, "src", "lib.rt"))
    return 2 * SUM * paths_to(name, uses, known) if is_library else 0


def gate_tasks(found, uses, top):
    """All pieces of `rt ci`: a crate's edits are one task, in turn, once its proof and its tests have passed."""
    known, paths, tasks, costs = {}, {}, {}, found.costs
    for name in sorted(uses, key=lambda it: len(gate_times.below(it, uses, known))):
        waits = [(other, "proof") for other in gate_times.below(name, uses, known)]
        lines = gate_reckoned.lines_of(top, name, ("src",), (".rt",))
        seconds, alone = proof_of(found, name)
        sums = sums_of(name, uses, paths, top)
        tasks[name, "proof"] = Task(name, "proof", seconds + sums, alone + sums, waits, lines)
        if costs[name]["tests"]:
            tasks[name, "tests"] = Task(name, "tests", costs[name]["tests"], min(alone, costs[name]["tests"]), waits, lines)
        if costs[name]["edits"]:
            own = [(name, kind) for kind in ("proof", "tests") if (name, kind) in tasks]
            tasks[name, "edits"] = Task(name, "edits", costs[name]["edits"], costs[name]["edits"], own, lines)
    return tasks


def behind(tasks):
    """The lines of each task and of those that wait behind it, on the longest chain."""
    waiting, found = collections.defaultdict(list), {}
    for key, task in tasks.items():
        for other in task.waits:
            waiting[other].append(key)

    def chain(key):
        if key not in found:
            found[key] = tasks[key].lines + max(map(chain, waiting[key]), default=0)
        return found[key]

    return {key: chain(key) for key in tasks}


class Running:
    """A task that runs: what is left of it, alone and shared among its jobs."""

    def __init__(self, key, task, jobs, now):
        self.key, self.jobs, self.began = key, jobs, now
        self.alone = task.seconds if jobs == 1 else task.alone
        self.shared = task.seconds - self.alone

    def wants(self):
        """How many processors it could use now."""
        return 1 if self.alone else self.jobs

    def left(self):
        return self.alone or self.shared / self.jobs

    def go_on(self, seconds):
        if self.alone:
            self.alone = 0 if self.alone - seconds < 1e-6 else self.alone - seconds
        else:
            self.shared = 0 if self.shared - seconds * self.jobs < 1e-6 else self.shared - seconds * self.jobs


def gate_jobs(key, ready, at, running, processors, _):
    """The jobs that `rt ci` begins a task with, or none: the processors that no other task waits for. Edits take one."""
    idle = processors - sum(it.jobs for it in running)
    return min(idle, 1 if key[1] == "edits" else max(1, min(MOST_JOBS, idle // (len(ready) - at))))


def build_jobs(key, ready, at, running, processors, left):
    """The jobs that the launcher begins a proof with, or none: as many as have memory, beside those that run and one for each proof that
    can begin before it ends."""
    if len(running) >= processors:
        return 0
    beside = [other for other in left if other != key and key not in left[other].waits]
    others = sum(it.jobs for it in running) + min(len(beside), processors - len(running) - 1)
    return max(1, min(processors, MOST_JOBS, MEMORY // JOB_MEMORY - others))


def laid(tasks, processors, jobs_of):
    """Lays tasks on processors, the head of the longest chain first. Gives the seconds to the end, and when each task ran."""
    longest, running, now, rows = behind(tasks), [], 0.0, []
    left, open_tasks = sorted(tasks, key=lambda key: -longest[key]), set(tasks)
    while left or running:
        ready = [key for key in left if not open_tasks & set(tasks[key].waits)]
        for at, key in enumerate(ready):
            jobs = jobs_of(key, ready, at, running, processors, {it: tasks[it] for it in left})
            if jobs:
                left.remove(key)
                running.append(Running(key, tasks[key], jobs, now))
        # Where they could use more processors than there are, each goes on more slowly.
        pace = min(1, processors / sum(it.wants() for it in running))
        step = min(it.left() for it in running)
        now += step / pace
        for it in list(running):
            it.go_on(step)
            if not it.alone and not it.shared:
                running.remove(it)
                open_tasks.discard(it.key)
                rows.append((it.key, it.began, now))
    return now, rows


def reckoned(path, top):
    """What is reckoned by the schedule: its title, its tasks, and how many jobs each begins with."""
    found, uses = gate_reckoned.found(path, top), gate_times.listed(top)
    return {
        "build": ("a first build", build_tasks(found, uses, top), build_jobs),
        "gate": ("all of `rt ci`", gate_tasks(found, uses, top), gate_jobs),
    }


def bars(path, top, what, processors):
    """The bars of a chart of the schedule: of a build, or of the gate."""
    _, tasks, jobs_of = reckoned(path, top)[what]
    _, rows = laid(tasks, processors, jobs_of)
    return [gate_chart.Bar(key[0], key[1], began, ended, tasks[key].seconds) for key, began, ended in rows]


def tables(path, top):
    """What each crate takes, dearest first, and what a first build and a whole run take on two and four processors."""
    found, kinds = gate_reckoned.found(path, top), gate_times.KINDS[:3]
    print("| Crate | " + " | ".join(kinds) + " |\n|---|" + "---|" * len(kinds))
    for name in sorted(found.costs, key=lambda it: -sum(found.costs[it].values())):
        row = [f"{'~' * ((name, kind) in found.reckoned)}{found.costs[name][kind]:.0f}" for kind in kinds]
        print(f"| `{name}` | " + " | ".join(row) + " |")
    sums = [sum(cost[kind] for cost in found.costs.values()) for kind in kinds]
    print("| all | " + " | ".join(f"{it:.0f}" for it in sums) + " |")
    print(f"\nReckoned, and not measured, is what has a ~: {len(found.reckoned)} pieces.")
    print("\n| By the schedule | Processor minutes | 2 processors | idle of 2 | 4 processors | idle of 4 |\n|---|---|---|---|---|---|")
    for title, tasks, jobs_of in reckoned(path, top).values():
        whole, row = sum(task.seconds for task in tasks.values()), []
        for processors in (2, 4):
            end, _ = laid(tasks, processors, jobs_of)
            row += [end / 60, processors * end / 60 - whole / 60]
        print(f"| {title} | {whole / 60:.0f} | {row[0]:.0f} min | {row[1]:.0f} min | {row[2]:.0f} min | {row[3]:.0f} min |")
