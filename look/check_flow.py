"""Tests of power on pages and in comparisons: by what the page's elements say, by its pixels, and by keys alone."""
import os
import re
import sys
from random import Random

import browser
import flow
import journal as journals
import ladder
import pixels
import plantfile
import program
from checking import CASES, changed, plant_file, read_text, results, run_script

sys.path.append(os.path.join(program.TOP, "plants"))
import walking  # noqa: E402

SOLVES = os.path.join(CASES, "solves.toml")
# A wire with power.
BLUE = (11, 98, 168)


def has_flow():
    """Whether the program tells where power flowed."""
    return flow.told(1, 1, program.read_file(plant_file("first"))) is not None


# How lines are packed for a page.


def unpacked(data):
    """By scan and network the order rows and columns of its solves, from what a page has."""
    found = {}
    for network, changes in data["networks"].items():
        ends = [*changes[2::2], data["last"] + 1]
        for scan, place, end in zip(changes[::2], changes[1::2], ends):
            flat = data["solves"][place] if place >= 0 else []
            for one in range(scan, end):
                found[one, network] = [(row, data["columns"][columns]) for row, columns in zip(flat[::2], flat[1::2])]
    return {key: solves for key, solves in found.items() if solves}


def try_packing():
    some, other, ended = ("01 " + "00 " * 9 + "00", "03 " + "02 " * 9 + "00", "01 " + "-- " * 9 + "--")
    lines = [f"F {scan} 1 1 1 1 {some}" for scan in (2, 3, 4, 7, 8)]
    lines += [f"F 3 1 1 1 2 {other}", f"F 3 1 2 1 2 {ended}", f"F 4 1 1 1 2 {other}", f"F 4 64 1 1 2 {ended}", f"F 8 1 1 1 2 {other}"]
    lines.sort(key=lambda line: int(line.split()[1]))
    wanted = {}
    for line in lines:
        _, scan, node, row, segment, network, columns = line.split(" ", 6)
        wanted.setdefault((int(scan), f"{node}.{segment}.{network}"), []).append((int(row), columns.replace(" ", "")))
    for first, last in ((1, 8), (2, 9), (1, 20)):
        data = flow.packed(lines, first, last)
        results.equal(f"packed flow of scans {first} to {last}", wanted, unpacked(data))
    results.equal("no flow is packed", {}, unpacked(flow.packed([], 1, 5)))
    text = read_text(plant_file("first"))
    many = text.replace('"1,1 NC 10001; 1,2 CO 00001"', ", ".join(['"1,1 H"'] * 480)).replace("version = 1", "version = 1\nwatchdog = 10000")
    more = many.replace('"1 - - -"', ", ".join(['"1 - - -"'] * 4))
    told = [flow.scans_told(plantfile.read_plant(one.encode()), 2000) for one in (text, many, more)]
    results.equal("of how many scans 1, 480 and 1920 networks are told", [2000, 2000, flow.MOST_SOLVES // 1920], told)


# What a page draws.


def figure(network, node=4):
    return f'figure[data-node="{node}"][data-network="{network}"] '


def classes(window, selector):
    """The last word of the classes of each element, as live, dead or on."""
    return [one.split(" ")[-1] for one in window.fields(selector, "attributes.class.value")]


def why(window, network):
    return window.field(figure(network).strip(), "dataset.why")


def go(window, scan):
    window.value(f"view.moveTo({scan}); networks.draw(true)")
    window.settle()


def try_stuck_contact(window, folder):
    """A stop button of the wrong kind: power ends at its contact."""
    file, page = changed(folder, "starter.toml", "NC 00012", "NO 00012", "motor_starter"), os.path.join(folder, "starter.html")
    results.equal("a stuck contact: view", (0, "", ""), run_script("view", "6", file, page))
    window.open("file://" + page + "#scan=1")
    window.value("networks.draw(true)")
    own = figure("1.3", 1)
    lit = [(one, state) for one, state in zip(window.fields(own + ".contact", "dataset.reference"), classes(window, own + ".contact"))]
    results.equal("a stuck contact: what let power pass", [("00011", "on"), ("00001", "off"), ("00012", "off")], lit)
    results.equal("a stuck contact: the coil", ["off"], classes(window, own + ".coil"))
    results.equal("a stuck contact: its wires", ["live", "dead"], classes(window, own + '[data-reference="00012"] .wire'))
    told = window.field(own + '[data-reference="00012"] title', "textContent")
    results.equal("a stuck contact: in words", "1,2 NO 00012, line 18: power came to it, and it was open", told)
    results.equal("a stuck contact: the heading", "as power flowed in scan 1", window.text("#as"))
    try_wires(window, own)
    results.equal("a stuck contact: errors", [], window.errors())


def try_wires(window, own):
    """A wire with power is thick and blue, one without is thin and grey, and a contact is filled where it let power pass."""
    widths, blue = {}, {}
    for number, name in ((0, "live"), (1, "dead")):
        element = f"""document.querySelectorAll('{own}[data-reference="00012"] .wire')[{number}]"""
        left, top, width, _ = pixels.box_of(window, element)
        rows = pixels.picture_of(window, left + width / 2, top - 6, 1, 16)
        widths[name] = sum(min(row[0]) < 200 for row in rows)
        blue[name] = sum(all(abs(a - b) < 20 for a, b in zip(row[0], BLUE)) for row in rows)
    is_right = widths["live"] >= 4 and blue["live"] >= 3 and 1 <= widths["dead"] <= 2 and blue["dead"] == 0
    results.note("the thickness and colour of wires in pixels", is_right, widths, blue)
    fills = {}
    for reference in ("00011", "00012"):
        left, top, width, height = pixels.box_of(window, f"""document.querySelector('{own}[data-reference="{reference}"] .lamp')""")
        colours = {row[0] for row in pixels.picture_of(window, left + width / 2, top + height / 2, 1, 1)}
        fills[reference] = next(iter(colours))
    results.equal("the middles of contacts", {"00011": (140, 196, 240), "00012": (255, 255, 255)}, fills)


def try_solves(window, folder):
    """A subroutine that is called twice, a network that is skipped, a control that is off, and a stop."""
    page = os.path.join(folder, "solves.html")
    results.equal("solves: view", (0, "", ""), run_script("view", "5", SOLVES, page))
    window.open("file://" + page + "#scan=2")
    go(window, 2)
    reasons = {network: why(window, network) for network in ("1.1", "2.1", "3.1", "4.2", "4.3", "4.4")}
    wanted = {"1.1": None, "2.1": "its control was off: 00016 of order row 2", "3.1": "no order row solves its segment", "4.2": None}
    results.equal("why networks were not solved", wanted | {"4.3": "LAB 2 was not called", "4.4": "LAB 3 was not called"}, reasons)
    opacity = window.value(f"getComputedStyle(document.querySelector('{figure('2.1')} svg')).opacity")
    results.equal("a network that was not solved is pale", "0.55", opacity)
    go(window, 1)
    try_leaves(window)
    go(window, 3)
    reasons = {network: why(window, network) for network in ("1.5", "1.6", "2.1", "4.4")}
    wanted = {"1.5": "skipped by '1,2 SKP 2' of network 4", "1.6": None, "2.1": "the watchdog stopped the controller before it"}
    results.equal("why in a stopped scan", wanted | {"4.4": "LAB 3 was not called before the watchdog stopped the controller"}, reasons)
    results.equal("where it stopped", ["the controller stopped in the subroutine of '2,2 JSR 2'"], window.texts(figure("1.6") + ".ended"))
    results.equal("behind the place where it stopped", ["unsolved"], classes(window, figure("1.6") + '.coil[data-reference="00006"] .wire'))
    results.equal("a network that a SKP ended", ["ended at '1,2 SKP 2'"], window.texts(figure("1.4") + ".ended"))
    go(window, 4)
    results.equal("behind a stop", ["the controller stopped in scan 3"] * 2, [why(window, network) for network in ("1.1", "4.1")])
    results.equal("solves: errors", [], window.errors())


def leaves(window, network):
    """Which solve of a network is shown."""
    return window.text(figure(network) + ".leaves").partition("◀")[0].strip()


def try_leaves(window):
    """The solves of one network, one after another."""
    found = []
    for _ in range(4):
        found.append((leaves(window, "4.1"), window.texts(figure("4.1") + ".ended"), classes(window, figure("4.1") + ".coil")))
        window.value(f"document.querySelectorAll('{figure('4.1')} .leaves button')[1].click()")
    wanted = [
        ("solve 1 of 4, order row 1", ["ended at '4,2 RET'"], ["off", "off"]),
        ("solve 2 of 4, order row 1", [], ["off", "on"]),
        ("solve 3 of 4, order row 3", [], ["off", "on"]),
        ("solve 4 of 4, order row 3", [], ["on", "off"]),
    ]
    results.equal("its solves", wanted, found)


def try_late_contact(window, folder):
    """A contact that stands before its coil is drawn as it was when it was solved."""
    text = read_text(plant_file("tank_level"))
    count = '"1,1 NO 00001; 2,1 H; 1,2 UCTR 9999 40001",\n'
    file, page = os.path.join(folder, "late.toml"), os.path.join(folder, "late.html")
    with open(file, "w", encoding="utf-8") as out:
        out.write(text.replace("    " + count, "").replace("networks = [\n", "networks = [\n" + count))
    results.equal("a late contact: view", (0, "", ""), run_script("view", "3", file, page))
    window.open("file://" + page + "#scan=1")
    go(window, 1)
    own = figure("1.1", 1) + '.contact[data-reference="00001"] '
    found = classes(window, own.strip()), classes(window, own + ".wire"), window.text(own + ".held")
    results.equal("a late contact: in the scan in which its coil goes on", (["off"], ["live", "dead"], "0→1"), found)
    go(window, 2)
    results.equal("a late contact: in the next", (["on"], ["live", "live"]), (classes(window, own.strip()), classes(window, own + ".wire")))


def tab(window):
    for kind in ("rawKeyDown", "keyUp"):
        window.call("Input.dispatchKeyEvent", type=kind, key="Tab", code="Tab", windowsVirtualKeyCode=9)
    window.settle()


def focus(window):
    return window.value("[document.activeElement.dataset.network || '', document.activeElement.textContent, document.activeElement.tagName]")


def tab_to(window, text, most=40):
    """Goes on by Tab until what has the focus has a text."""
    for _ in range(most):
        if focus(window)[1] == text:
            return True
        tab(window)
    return False


def try_keys(window, folder):
    """From the page's begin to a network, its solves, a reference, what drives that, and a message: by keys alone."""
    window.open("file://" + os.path.join(folder, "solves.html"))
    for wanted in ("1.1", "1.2"):
        window.press("n")
        results.equal("n: the next network", wanted, focus(window)[0])
    window.press("N", shift=True)
    results.equal("N: the network before", "1.1", focus(window)[0])
    window.press("]")
    results.equal("]: the next solve", "solve 2 of 2, order row 3", leaves(window, "1.1"))
    window.press("[")
    results.equal("[: the solve before", "solve 1 of 2, order row 1", leaves(window, "1.1"))
    results.note("Tab comes to a reference", tab_to(window, "00001"), focus(window))
    window.press("Enter")
    results.equal("Enter finds it", ("00001", False), (window.field("#find", "value"), window.value("byId('found').hidden")))
    results.equal("and goes to the first place", "place link", window.value("document.activeElement.className"))
    window.press("Enter")
    results.equal("Enter shows the place that drives it", ("1.1", 1), (focus(window)[0], len(window.texts(figure("1.1") + ".found"))))
    window.press("ArrowRight")
    results.equal("an arrow moves the cursor on", "2", window.field("#scan", "value"))
    page = os.path.join(folder, "read_two_power.html")
    run_script("view", "2", plant_file("read_two"), page)
    window.open("file://" + page)
    window.press("c")
    results.equal("c: the first call", "2.1.1", window.value("view.selected"))
    results.equal("keys: errors", [], window.errors())


def try_live(window, folder):
    """The page of a journal has the flow of the run that it tells."""
    journal, page = os.path.join(folder, "power.journal"), os.path.join(folder, "power.html")
    with open(journal, "w", encoding="utf-8") as out:
        out.write(program.call(["live", "3"], file=plant_file("read_two")))
    results.equal("a live run's page", 0, run_script("view", "3", plant_file("read_two"), journal, page)[0])
    window.open("file://" + page)
    results.equal("the flow of a live run", "as power flowed in scan 1", window.text("#as"))


def try_part(window, folder):
    """Where the flow of the last scans alone is told, the scans before these are drawn as they were left."""
    page = os.path.join(folder, "part.html")
    plant = plantfile.read_plant(program.read_file(plant_file("first")))
    most, flow.MOST_SOLVES = flow.MOST_SOLVES, 2
    told = flow.for_page(plant, 5, program.read_file(plant_file("first")))
    flow.MOST_SOLVES = most
    results.equal("the flow of the last two scans", (4, 5), (told["first"], told["last"]))
    run_script("view", "5", plant_file("first"), page)
    window.open("file://" + page + "#scan=3")
    window.value("runs[0].flow.first = 4; showScan()")
    found = window.text("#as"), window.texts("figure .wire.live")
    window.press("ArrowRight")
    results.equal("before the scans that are told", ("as scan 3 left them; power is told from scan 4 on", []), found)
    results.equal("in a scan that is told", ("as power flowed in scan 4", 3), (window.text("#as"), len(window.texts("figure .wire.live"))))


def many_networks():
    """480 networks, in most of which power flows another way in each scan."""
    contacts = [
        f'"1,1 NO {10001 + one % 16}; 2,1 NC {10001 + one * 7 % 16}; 1,1 V; 1,2 PT {10001 + one * 3 % 16}; 1,3 ADD 40001 1 40001"'
        for one in range(480)
    ]
    script = [f'"{scan * 40503 % 65536:04X}"' for scan in range(2000)]
    lines = ["version = 1", "watchdog = 1000", "[[controller]]", "node = 1", "inputs = 16", "registers = 1", 'panel = ["40001"]', 'orders = ["1 - 1 -"]']
    lines += ["[[controller.drop]]", "number = 1", 'modules = ["in 10001"]', f"script = [{', '.join(script)}]"]
    return "\n".join([*lines, "[[controller.segment]]", f"networks = [{', '.join(contacts)}]"]) + "\n"


def try_many(window, folder):
    """480 networks and 2000 scans are drawn within seconds, and the cursor moves without delay."""
    file, page = os.path.join(folder, "many.toml"), os.path.join(folder, "many.html")
    with open(file, "w", encoding="utf-8") as out:
        out.write(many_networks())
    results.equal("many networks: view", (0, "", ""), run_script("view", "2000", file, page))
    window.open("file://" + page + "#scan=2000")
    took = window.seconds()
    results.note("many networks: drawn within three seconds", 0 < took < 3, f"it took {took:.2f} s")
    results.equal("many networks: the last scan", "as power flowed in scan 2000", window.text("#as"))
    before = window.seconds()
    for _ in range(20):
        window.press("ArrowLeft")
    took = window.seconds() - before
    results.note("many networks: twenty scans without delay", took < 4, f"they took {took:.2f} s")
    results.equal("many networks: errors", [], window.errors())


def any_network(random, coils):
    """A network of contacts, wires and shorts in four rows and columns, with a coil behind some of its rows."""
    pieces = []
    for row in range(1, 5):
        for column in range(1, 5):
            kind = random.choices(["NO", "NC", "PT", "NT", "H", ""], [5, 5, 1, 1, 2, 3])[0]
            reference = f"{random.choice('01')}{random.randint(1, 16):04}"
            pieces += [f"{row},{column} {kind}" + ("" if kind == "H" else f" {reference}")] if kind else []
            pieces += [f"{row},{column} V"] if row < 4 and random.random() < 0.35 else []
        if coils and random.random() < 0.6:
            pieces.append(f"{row},5 CO {coils.pop():05}")
    return '"' + "; ".join(pieces) + '"'


def any_plant(seed):
    """Ten networks, some of which call a subroutine twice, and inputs that change."""
    random = Random(seed)
    coils = random.sample(range(1, 17), 16)
    networks = [any_network(random, coils) for _ in range(8)]
    networks[2] = networks[2][:-1] + '; 6,1 JSR 1"'
    networks[5] = networks[5][:-1] + '; 6,1 NO 10001; 6,2 JSR 1"'
    inside = [f'"1,1 LAB 1; {any_network(random, coils)[1:-1]}"'.replace("; 1,1 ", "; 5,1 "), any_network(random, coils)]
    script = ", ".join(f'"{random.randrange(65536):04X}"' for _ in range(8))
    lines = ["version = 1", "[[controller]]", "node = 4", "coils = 16", "inputs = 16", 'orders = ["1 - 1 -"]', "[[controller.drop]]", "number = 1"]
    lines += ['modules = ["in 10001"]', f"script = [{script}]", "[[controller.segment]]", f"networks = [{', '.join(networks)}]"]
    return "\n".join([*lines, "[[controller.segment]]", f"networks = [{', '.join(inside)}]"]) + "\n"


class Noting(walking.Controller):
    """A walk that notes at each solve which contacts let power pass."""

    def __init__(self, *words):
        super().__init__(*words)
        self.passed, self.told = [], {}

    def solve_network(self, segment, grid, depth):
        outer, self.passed = self.passed, []
        end = super().solve_network(segment, grid, depth)
        self.told.setdefault(f"{self.scan} {segment}.{grid.number}", []).append(sorted(self.passed))
        self.passed = outer
        return end

    def solve_cell(self, cell, power, depth):
        given = super().solve_cell(cell, power, depth)
        if cell.name in ladder.CONTACTS and given:
            self.passed.append([cell.row, cell.column])
        return given


# By scan and network, for each solve the contacts that a page draws as such that let power pass, and those of which it does not know.
DRAWN = """(() => { const found = {}, [controller] = data.plant.controllers;
  for (let scan = 1; scan <= data.scans; scan++) for (const segment of controller.segments) for (const network of segment.networks)
    found[`${scan} ${segment.number}.${network.number}`] = solvesOf(runs[0], 4, segment.number, network.number, scan).map(solve => {
      const power = new Power(runs[0], 4, segment, network, solve, scan), contacts = network.cells.filter(cell => CONTACTS.includes(cell.name));
      return [true, null].map(state => contacts.filter(cell => power.isOn(cell) === state).map(cell => [cell.row, cell.column])); });
  return found; })()"""


def try_contacts(window, folder):
    """Which contacts let power pass, in networks made at random: the page finds it from where power was, a walk of the run knows it."""
    count = unknown = 0
    for seed in range(6):
        file, page = os.path.join(folder, "any.toml"), os.path.join(folder, "any.html")
        with open(file, "w", encoding="utf-8") as out:
            out.write(any_plant(seed))
        results.equal(f"random networks {seed}: view", (0, "", ""), run_script("view", "8", file, page))
        window.open("file://" + page)
        plant, (text, _) = plantfile.read_plant(program.read_file(file)), journals.split_trace(program.call(["trace", "8"], file=file))
        walk = Noting(plant.controllers[0], plant)
        for entry in journals.read_journal(text).controllers[4]:
            walk.do(entry)
        for name, solves in window.value(DRAWN).items():
            wanted = walk.told.get(name, [])
            # What is not known may be either.
            found = [sorted(on + [one for one in own if one in open_]) for (on, open_), own in zip(solves, wanted)]
            results.equal(f"random networks {seed}, scan and network {name}", (len(wanted), wanted), (len(solves), found))
            count, unknown = count + sum(len(on) for on, _ in solves), unknown + sum(len(open_) for _, open_ in solves)
    results.note(f"random networks: few contacts are not known, {unknown} beside {count}", count > 1000 and unknown < count / 10, "")


def try_without(window, folder):
    """A program that tells no flow has pages as the scans left them."""
    page = os.path.join(folder, "plain.html")
    results.equal("without flow: view", (0, "", ""), run_script("view", "2", plant_file("first"), page))
    window.open("file://" + page)
    found = window.text("#as"), classes(window, "figure .contact"), window.texts("figure .wire.live, figure.unsolved")
    results.equal("without flow: the networks", ("as scan 1 left them", ["on"], []), found)


# What a comparison says of causes.

# What is changed in look/cases/solves.toml, and the cell that is named: its lines, its place and what it did.
CAUSES = [
    ("a block's constant", "SUB 40001 4 40002", "SUB 40001 5 40002", "1,1 {} of 20", "segment 1 network 4", "it wrote 40002"),
    ("another subroutine", "1,1 JSR 1; 1,2 CO 00001", "1,1 JSR 3; 1,2 CO 00001", "1,1 JSR 1 of 16 is 1,1 JSR 3", "segment 1 network 1", "it called another subroutine"),
    ("a call that stopped", "2,2 JSR 2", "2,2 JSR 3", "{} of 22", "segment 1 network 6", "it called another subroutine"),
    ("a skip", "1,2 SKP 2", "1,2 SKP 3", "{} of 20", "segment 1 network 4", "other networks were solved behind it"),
    ("a contact", "3,2 NC 00002", "3,2 NO 00002", "{} of 18", "segment 1 network 3", "power behind it in row 3 was off and is on"),
]


def cause_told(old, new, scans="5"):
    status, found, said = run_script("compare", scans, old, new)
    return re.findall("^controller [0-9]+: ((?:made by|it came) .*)$", found, re.MULTILINE), status, said


def named(cells, old, new):
    """The cells of a row of CAUSES as a comparison names them."""
    was, _, rest = cells.partition(" of ")
    line, _, other = rest.partition(" is ")
    pair = (was, other) if other else (was.format(old), was.format(new))
    return f"made by '{pair[0]}', old line {line}, now '{pair[1]}', new line {line}"


def try_causes(folder):
    text, file = read_text(SOLVES), os.path.join(folder, "cause.toml")

    def cause_of(old, new):
        results.equal(f"cause, '{old}' stands once", 1, text.count(old))
        with open(file, "w", encoding="utf-8") as out:
            out.write(text.replace(old, new))
        return cause_told(SOLVES, file)

    for name, old, new, cells, place, what in CAUSES:
        results.equal(f"cause, {name}", ([f"{named(cells, old, new)} ({place}): {what}"], 8, ""), cause_of(old, new))
    wanted = "made by order row 2, '2 00016 - -', now '2 - - -': segment 2 network 1 was solved there in the new run alone"
    results.equal("cause, a control", ([wanted], 8, ""), cause_of("2 00016 - -", "2 - - -"))
    wanted = "made by '1,2 CO 00014', old line 34, which the new plant has not (segment 4 network 2): it wrote 00014"
    results.equal("cause, another coil", ([wanted], 8, ""), cause_of("CO 00014", "CO 00018"))
    try_causes_in_plants(folder)


def try_causes_in_plants(folder):
    longer = changed(folder, "longer.toml", "T1.0 6 40001", "T1.0 7 40001", "traffic_light")
    wanted = named("1,2 {} of 17", "T1.0 6 40001", "T1.0 7 40001") + " (segment 1 network 1): power behind it in row 1 was on and is off"
    results.equal("cause, a timer", ([wanted], 8, ""), cause_told(plant_file("traffic_light"), longer, "8"))
    hot = changed(folder, "hot.toml", '"0321"', '"0341"', "analogue_alarm")
    found = cause_told(plant_file("analogue_alarm"), hot, "7")
    results.equal("cause, an input", (["it came from outside: drop 1, 'inw 30001 1' (Temperature)"], 8, ""), found)
    wrong = changed(folder, "stop.toml", "NC 00012", "NO 00012", "motor_starter")
    wanted = named("1,2 {} of 18", "NC 00012", "NO 00012").replace("NC 00012'", "NC 00012' (Stop button)")
    wanted += " (segment 1 network 3): power behind it in row 1 was on and is off"
    results.equal("cause, a stop button", ([wanted], 8, ""), cause_told(plant_file("motor_starter"), wrong, "6"))


def try_causes_at_random(folder):
    """Where one contact of a plant that is made at random is another one, that contact made what differs."""
    old, new = os.path.join(folder, "any.toml"), os.path.join(folder, "other.toml")
    told = 0
    for seed in range(24):
        random, text = Random(seed), any_plant(seed)
        chosen = random.choice(list(re.finditer("[1-4],[1-4] (NO|NC) [01][0-9]{4}", text)))
        other = chosen[0].replace(chosen[1], "NC" if chosen[1] == "NO" else "NO")
        for file, written in ((old, text), (new, text[: chosen.start()] + other + text[chosen.end() :])):
            with open(file, "w", encoding="utf-8") as out:
                out.write(written)
        causes, status, said = cause_told(old, new, "8")
        own = [cause for cause in causes if cause.startswith(f"made by '{chosen[0]}', old line ") and f", now '{other}', new line " in cause]
        results.note(f"cause, {seed}: '{chosen[0]}' is now '{other}'", said == "" and (own == causes or status == 0), causes, status, said)
        told += len(own)
    results.note("causes at random: some are told", told >= 6, told)


def try_pages(window, folder):
    try_stuck_contact(window, folder)
    try_solves(window, folder)
    try_late_contact(window, folder)
    try_part(window, folder)
    try_keys(window, folder)
    try_live(window, folder)
    try_contacts(window, folder)
    try_many(window, folder)


def try_flow(folder):
    try_packing()
    is_told = has_flow()
    if is_told:
        try_causes(folder)
        try_causes_at_random(folder)
    if not browser.installed():
        print("look: power on pages NOT RUN, since there is no Chromium")
        return
    window = browser.Browser()
    try:
        window.size(1400, 1000)
        (try_pages if is_told else try_without)(window, folder)
    finally:
        window.close()
