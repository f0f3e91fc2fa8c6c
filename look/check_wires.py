"""Tests of pages, comparisons and hints of plants with wires."""
import os

import journal as journals
import plantfile
import program
import viewing
import wires
import wiring
from checking import PLANTS, plant_file, read_text, results, run_script
from progress import Progress

WIRED = [file for file in PLANTS if os.path.isfile(wires.file_beside(file))]


def put(folder, name, text):
    file = os.path.join(folder, name)
    with open(file, "w", encoding="utf-8", newline="") as out:
        out.write(text)
    return file


def behind(folder, name, plant, lines):
    """A plant with wires after it."""
    return put(folder, f"{name}.toml", f"{read_text(plant_file(plant))}%COP\n{lines}")


def try_runs():
    """The run that is looked at is the one that `cop` writes the panel of, and the plant that runs is the one that is due."""
    results.equal("wires: the plants that have some", ["two_belts.toml", "wired_lamp.toml"], [os.path.basename(file) for file in WIRED])
    for file in WIRED:
        name, panel = os.path.basename(file), journals.read_panel(read_text(file.replace(".toml", ".cop")))
        scans = max(panel.scans.values())
        plant, wired, (run,) = viewing.read_runs(scans, file, [], Progress("view", viewing.STEPS))
        shown = {node: {reference: panel.changes(node, reference) for reference in values} for node, values in panel.values.items()}
        found = {node: {reference: run.data["values"][node][reference] for reference in values} for node, values in shown.items()}
        results.equal(f"wires: the values of {name}", shown, found)
        results.equal(f"wires: the scans of {name}", (panel.scans, panel.dark), (run.data["lasts"], run.data["dark"]))
        results.equal(f"wires: what is drawn of {name}", (read_text(file), os.path.basename(wires.file_beside(file))), (plant.text, program.shown(wired.file)))


def try_pages(folder):
    file = behind(folder, "lamp", "wired_lamp", "5 1 1 2 1 1 1\n")
    own = put(folder, "own.toml", read_text(plant_file("wired_lamp")))
    put(folder, "own.wires", "5 1 1 2 1 1 1\n")
    for page in (file, own):
        name = os.path.basename(page if page == file else wires.file_beside(page))
        status, text, said = run_script("view", "3", page)
        results.equal(f"wires: a page with {name}", (0, ""), (status, said))
        for part in (f"cop 3, with {name}", "wire 1, from drop 1 of node 2", "wire 1, to drop 1 of node 5"):
            results.note(f"wires: a page with {name} tells '{part}'", f'"{part}"' in text, text[-300:])
    status, text, _ = run_script("view", "3", own, put(folder, "run.journal", program.call(["trace", "3"], program.read_file(own))), os.path.join(folder, "page.html"))
    results.equal("wires: a journal is looked at without them", (0, ""), (status, text))
    results.note("wires: which the page says", '"name":"run.journal"' in read_text(os.path.join(folder, "page.html")), "")
    many = ", ".join(['"1 - 1 -"'] * 6)
    file = put(folder, "many.toml", read_text(plant_file("wired_lamp")).replace('"1 - 1 -"', many))
    put(folder, "many.wires", "5 1 1 2 1 1 1\n")
    status, text, said = run_script("view", "2000", file)
    results.note("wires: more rows than a script takes", (status, text) == (2, "") and "drop 1 of node 5 would have 12000 rows" in said, status, said)


def try_refused(folder):
    for name, lines in (("none", "5 1 2 2 1 1 1\n"), ("unended", "5 1 1 2 1 1 1")):
        for file in (behind(folder, name, "wired_lamp", lines), put(folder, f"own_{name}.toml", read_text(plant_file("wired_lamp")))):
            put(folder, f"own_{name}.wires", lines)
            for script, words in (("view", ["3", file]), ("hints", [file]), ("compare", ["3", file, file])):
                status, text, _ = run_script(script, *words)
                results.equal(f"wires: {script} of {os.path.basename(file)}", (5, "refused 18 BadWire wire 1\n"), (status, text))
    refused = put(folder, "refused.toml", read_text(plant_file("wired_lamp")).replace("coils = 16", "coils = 17", 1))
    put(folder, "refused.wires", "x\n")
    status, text, _ = run_script("view", "3", refused)
    results.equal("wires: a plant that is refused first", (5, "refused 3 BadValue controller 1\n"), (status, text))


def try_compare(folder):
    one = behind(folder, "one", "wired_lamp", "5 1 1 2 1 1 1\n")
    none = behind(folder, "two", "wired_lamp", "")
    status, text, said = run_script("compare", "3", one, one)
    results.equal("wires: nothing differs", (0, "nothing differs in 3 scans\n", ""), (status, text, said))
    status, text, said = run_script("compare", "3", one, none)
    results.note("wires: one that is left out", status == 8 and text.startswith("wires, old line 1: 5 1 1 2 1 1 1\n"), status, text, said)
    told = "controller 5: first in scan 2 at 10001, which was 1 and is 0"
    results.note("wires: what it changes", told in text, text)


def try_model():
    """Rows by hand: what stands in the script of the wired drop of wired_lamp after five scans."""
    data = program.read_file(plant_file("wired_lamp"))
    exchange = wiring.Exchange(data, wires.read_wires(b"5 1 1 2 1 1 1\n"))
    due = exchange.fed(5, lambda plant: program.call(["trace", "5"], plant))
    scripts = [drop.get("script") for one in plantfile.read_plant(due).controllers for drop in one.table["drop"]]
    results.equal("wires: the rows that they make", [None, ["0000", "8000", "0000", "8000", "0000"]], scripts)


def try_wires(folder):
    try_model()
    try_runs()
    try_pages(folder)
    try_refused(folder)
    try_compare(folder)
