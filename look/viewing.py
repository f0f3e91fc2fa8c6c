"""Runs that are looked at: that of a plant, or those that journals tell, as a page draws them. All values come from the program."""
import itertools

import flow
import journal as journals
import pages
import pairs
import plantfile
import program
import wiring

ILLEGAL = 7
# What is done for a page of a plant's run, step by step.
STEPS = ("runs the plant", "reads the plant", "runs it again for the values that no panel shows", "reads what ran", "asks where power flowed", "makes the page")


def run_of_trace(scans, plant, data, journal_text, panel, progress, wired=None):
    # Where there are wires, what runs is the plant that has the rows that they bring.
    program.all_values(plantfile.read_plant(data) if wired else plant, scans, panel, told=progress.done)
    progress.next()
    name = f"cop {scans}, with {program.shown(wired.file)}" if wired else f"trace {scans}"
    run = Looked(name, plant, panel, "legal", journals.read_journal(journal_text), scans)
    progress.next()
    run.data["flow"] = flow.for_page(plant, scans, data)
    return run


class Looked:
    """A run as it is drawn, with what a comparison needs of it."""

    def __init__(self, name, plant, panel, verdict, journal=None, scans=0, note=""):
        self.data, self.calls = pages.run_data(name, plant, panel, verdict, journal, scans, note)
        self.pair = pairs.Run(name, plant, panel, self.data["calls"])


def journal_in(text):
    """The journal of a file that `trace` or `live` wrote, with or without a plant before it and a panel behind it."""
    begin = text.find("%JOURNAL\n")
    journal_text, _ = journals.split_trace(text[begin:] if begin > 0 and text[begin - 1] == "\n" else text)
    return journal_text


def verdict_of(scans, both):
    try:
        return program.call(["check", str(scans)], both).strip()
    except program.ProgramEnd as error:
        if error.status != ILLEGAL:
            raise
        return error.text.strip()


def run_of_journal(scans, plant, data, name, serial_text):
    """The run that a journal tells, as far as it tells one."""
    journal_text = journal_in(program.read_file(name).decode(errors="replace"))
    both = b"\n".join([data.rstrip(b"\n"), journal_text.encode()])
    short, verdict = program.shown(name), verdict_of(scans, both)
    try:
        journal = journals.read_journal(journal_text)
    except journals.JournalFault as fault:
        note = f"This is no journal from its line {fault.line} on, so nothing of it is shown."
        return Looked(short, plant, journals.Panel(), verdict, note=note)
    note, panel = "", journals.Panel()
    waiting = journals.waiting_lines(journal)
    if waiting:
        note = f"The lists of this journal fit no order in time: its lines {waiting[0]} and {waiting[1]} wait for each other. "
        note += "Each list is shown in its own order."
    if verdict == "legal":
        panel = journals.read_panel(program.call(["replay", str(scans)], both))
        program.all_values(plant, scans, panel, journal_text)
    run = Looked(short, plant, panel, verdict, journal, scans if journal_text == serial_text else 0, note)
    if verdict == "legal":
        run.data["flow"] = flow.for_page(plant, scans, both)
    return run


def traced(scans, file, data, wired, told=None):
    """The plant that is run for so many scans, with wires that which has the rows that they bring, and its trace; `told` hears of each run."""
    words = ["trace", str(scans)]
    if not wired:
        return data, program.call(words, data, file)
    tries = wiring.Exchange(data, wired.wires).tries(scans)
    due = next(tries)
    for count in itertools.count(1):
        if told:
            told(count, scans + 1)
        text = program.call(words, due)
        try:
            due = tries.send(text)
        except StopIteration as end:
            return end.value, text


def read_runs(scans, file, journal_names, progress):
    """The plant, its wires or None, and the runs that are looked at."""
    # The serial run comes first: a refused plant is refused here, before anything is read of it.
    data, wired = program.plant_and_wires(file, program.read_file(file))
    due, text = traced(scans, None if wired else file, data, None if journal_names else wired, progress.done)
    journal_text, panel_text = journals.split_trace(text)
    progress.next()
    plant = plantfile.read_plant(data)
    progress.next()
    if not journal_names:
        return plant, wired, [run_of_trace(scans, plant, due, journal_text, journals.read_panel(panel_text), progress, wired)]
    return plant, None, [run_of_journal(scans, plant, data, name, journal_text) for name in journal_names]


def page_of_run(scans, title, plant, names, run, cursor):
    """The page of one run, which opens with a scan."""
    data = {"title": title, "scans": scans, "cursor": cursor, "plant": pages.plant_data(plant, names), "runs": [run.data]}
    return pages.fill_in(title, data)
