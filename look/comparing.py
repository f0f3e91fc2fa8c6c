"""Two plants whose runs are compared: what is said of them, and the page of both."""
import functools

import causes
import changes
import journal as journals
import pages
import pairs
import plantfile
import program
from names import Names
from viewing import traced

# What is done, step by step.
STEPS = ("runs the plant and reads it", "does so with the other", "runs both again for the values that no panel shows", "compares")


def read_run(scans, file):
    """The trace of a plant, as its plant, panel and journal, the bytes of the plant that was run, and its wires or None."""
    data, wired = program.plant_and_wires(file, program.read_file(file))
    due, text = traced(scans, file, data, wired)
    journal_text, panel_text = journals.split_trace(text)
    return plantfile.read_plant(data), journals.read_panel(panel_text), journals.read_journal(journal_text), due, wired


def add_shared(scans, plants, panels, texts, wired):
    """Adds the values of all references that both plants of a controller have and either names."""
    wanted = [{}, {}]
    for one in plants[0].controllers:
        other = plants[1].controller(one.node)
        panel, others = pairs.shared_references(one, other) if other else ([], [])
        for place, own in enumerate((one, other)):
            if other:
                wanted[place][one.node] = [reference for reference in panel + others if reference not in own.references()[0]]
    for plant, panel, text, wires, references in zip(plants, panels, texts, wired, wanted):
        program.add_values(plantfile.read_plant(text) if wires else plant, scans, panel, references)


def changed_lines(plants, wired):
    """The lines in which two plants differ, and then their wires."""
    lines = changes.lines_of(plants[0].text, plants[1].text)
    texts = ["".join(f"{wire.text}\n" for wire in wires.wires) if wires else "" for wires in wired]
    return lines + [f"wires, {line}" for line in changes.lines_of(*texts)]


def causes_in(plants, texts, made):
    """A function that says what made the first difference of a controller."""
    runs = []
    for plant, text, (run, _) in zip(plants, texts, made):
        places = {one.node: pages.places_of(one) + pages.requests_at(one.node, run["calls"]) for one in plant.controllers}
        runs.append(causes.Run(plant, text, places))
    return functools.partial(causes.cause_of, runs)


class Comparison:
    """The runs of two plants, side by side. Where copies are run, `named` has the files that they are of, empty for standard input."""

    def __init__(self, scans, files, progress, named=None):
        self.scans = scans
        one = read_run(scans, files[0])
        progress.next()
        self.plants, panels, read, texts, self.wired = zip(one, read_run(scans, files[1]))
        progress.next()
        add_shared(scans, self.plants, panels, texts, self.wired)
        own = [program.names_for(file) if file else Names() for file in named or files]
        progress.next()
        self.names = [program.shown(file) if file else "standard input" for file in named or files]
        if self.names[0] == self.names[1]:
            self.names = [f"{self.names[0]} (old)", f"{self.names[1]} (new)"]
        self.made = [pages.run_data(*one, "legal", journal, scans) for *one, journal in zip(self.names, self.plants, panels, read)]
        runs = [pairs.Run(name, plant, panel, run["calls"]) for name, plant, panel, (run, _) in zip(self.names, self.plants, panels, self.made)]
        self.called = own[1].over(own[0])
        self.found = pairs.compare(*runs, scans, self.called, cause_of=causes_in(self.plants, texts, self.made))
        self.found["files"] = changed_lines(self.plants, self.wired)

    @property
    def told(self):
        """In what the runs differ, as lines."""
        return self.found["lines"] + self.found["requests"]

    def page(self, title, cursor=1):
        """The page of both runs, which opens with a scan."""
        plant = pages.plant_data(self.plants[1], self.called, self.wired[1].wires if self.wired[1] else ())
        if pages.web_data(self.plants[0]) != pages.web_data(self.plants[1]):
            # One drawing would not be that of both.
            plant |= {"networks": {}, "bridges": []}
        data = {"title": title, "scans": self.scans, "cursor": cursor, "plant": plant, "runs": [run for run, _ in self.made], "pair": self.found}
        data["withoutNetworks"] = True
        return pages.fill_in(title, data)
