"""Tests of names of references: how their files are read, and where they are shown."""
import glob
import os
import shutil
import subprocess

import browser
import plantfile
import program
from checking import TOP, changed, plant_file, results, run_script
from names import Names

LINES = [
    ("1\t00001\tPump runs", None),
    ("64\t10001\tStart\t\t", None),
    ("*\t40001\tLevel\tcm\tvalue × 0.1 + 4", None),
    ("1\t40002\tLevel\tcm\tvalue*0.25-1\r", None),
    ("1\t40003\tLevel\t\tvalue - 273", None),
    ("1\t40004\tLevel # 2\tm", None),
    ("  # a comment\t1\t2", None),
    ("", None),
    ("1\t00001", "it has 2 columns, and not three to five with tabs between them: node, reference, name, unit, scale"),
    ("1 00001 Pump", "it has 1 columns, and not three to five with tabs between them: node, reference, name, unit, scale"),
    ("1\t40001\ta\tb\tvalue\tc", "it has 6 columns, and not three to five with tabs between them: node, reference, name, unit, scale"),
    ("0\t00002\ta", "the node '0' is neither 1 to 64 nor *"),
    ("65\t00002\ta", "the node '65' is neither 1 to 64 nor *"),
    ("01\t00002\ta", "the node '01' is neither 1 to 64 nor *"),
    ("1\t20001\ta", "'20001' is no reference"),
    ("1\t00000\ta", "'00000' is no reference"),
    ("1\t09985\ta", "'09985' is no reference"),
    ("1\t40005\t\tcm", "40005 has no name"),
    ("1\t40006\ta\x07", "it has a character that cannot be seen"),
    ("1\t00003\ta\tcm", "00003 is on or off, and has no unit and no scale"),
    ("1\t40007\ta\t\tvalue / 10", "the scale 'value / 10' is not as 'value × 0.1 + 4'"),
    ("1\t40008\ta\t\tvalue", "the scale 'value' is not as 'value × 0.1 + 4'"),
    ("1\t40009\ta\t\tvalue × 1e3", "the scale 'value × 1e3' is not as 'value × 0.1 + 4'"),
    ("1\t00001\tagain", "00001 has the name 'Pump runs' in line 1 already"),
]


def try_lines():
    for text, wanted in LINES:
        before = LINES[0][0] + "\n" if "again" in text else ""
        found = [why for _, why in Names("", (before + text).encode()).faults]
        results.equal(f"names: the line {text!r}", [wanted] if wanted else [], found)
    names = Names("", b"\xef\xbb\xbf" + "\n".join(text for text, wanted in LINES if wanted is None).encode() + b"\n1\t00009\t\xff\n")
    results.equal("names: a line that is not UTF-8", [(9, "it is not UTF-8")], names.faults)
    cases = [(1, "40001", 300, "300 (34.0 cm)"), (2, "40001", 0, "0 (4.0 cm)"), (1, "40002", 3, "3 (-0.25 cm)"), (1, "40003", 300, "300 (27)")]
    cases += [(1, "40004", 7, "7 (7 m)"), (1, "40005", 7, "7"), (1, "00001", 1, "1")]
    for node, reference, value, wanted in cases:
        results.equal(f"names: the value of {reference}", wanted, names.told_value(node, reference, value))
    told = names.in_text(1, "'1,1 NO 00001': 00001, 40004 and '40001' in line 40001, not 140001")
    results.equal("names: in a text", "'1,1 NO 00001' (Pump runs): 00001, 40004 (Level # 2) and '40001' (Level) in line 40001, not 140001", told)
    both = Names("", "1\t00001\tOwn\n*\t00001\tEach".encode())
    results.equal("names: for a node and for each", ["Own", "Each"], [both.of(node, "00001").text for node in (1, 2)])


def try_plants():
    """Each file of names belongs to a plant that has all it names, and names what its panels show."""
    files = glob.glob(os.path.join(TOP, "plants/*.names"))
    results.note("names: those of five plants", len(files) >= 5, files)
    for file in files:
        plant_of = file[: -len("names")] + "toml"
        plant, names = plantfile.read_plant(program.read_file(plant_of)), program.names_beside(plant_of)
        results.equal(f"{os.path.basename(file)}: hints", [], names.hints({one.node: one.table for one in plant.controllers}))
        lacking = [(one.node, name) for one in plant.controllers for name in one.panel if not names.of(one.node, name)]
        results.equal(f"{os.path.basename(file)}: panel references without a name", [], lacking)


def with_names(folder, name, old, new, plant, names):
    """A changed plant with a file of names beside it."""
    file = changed(folder, name + ".toml", old, new, plant)
    with open(os.path.join(folder, name + ".names"), "w", encoding="utf-8") as out:
        out.write(names)
    return file


def try_hints(folder):
    names = "1\t00001\tLamp\n1\t10001\tButton\n1\t00001\tAlarm\n1\t00099\tBell\n7\t00001\tHorn\n*\t30001\tLevel\n1\t00002\n"
    file = with_names(folder, "odd", "# Hint: no drop reads 10001, so it stays off and the lamp on.\n", "", "first", names)
    own = file[: -len("toml")] + "names"
    wanted = [
        f"{file} line 13: controller 1, segment 1 network 1, '1,1 NC 10001' (Button): nothing writes 10001, which it reads",
        f"{own} line 3: 00001 has the name 'Lamp' in line 1 already",
        f"{own} line 4: controller 1 has no 00099",
        f"{own} line 5: there is no controller 7",
        f"{own} line 6: no controller has a 30001",
        f"{own} line 7: it has 2 columns, and not three to five with tabs between them: node, reference, name, unit, scale",
    ]
    results.equal("hints on names", (0, wanted, ""), (lambda found: (found[0], found[1].splitlines(), found[2]))(run_script("hints", file)))
    status, _, said = run_script("view", "1", file, os.path.join(folder, "odd.html"))
    results.equal("view says which lines are left out", (0, 2), (status, said.count("this line is left out")))


def try_compare(folder):
    old = plant_file("pump_house")
    new = changed(folder, "lower.toml", "012c0064", "00fa0064", "pump_house")
    _, found, _ = run_script("compare", "4", old, new)
    told = "controller 3: first in scan 2 at 40001 (Start level), which was 300 (3.00 m) and is 250 (2.50 m); 3 of 4 scans differ (2 to 4); "
    results.note("compare with names", told + "also 00001 (Pump runs), 00011 (Above start level), 40011, 40012" in found, found)
    with open(os.path.join(folder, "lower.names"), "w", encoding="utf-8") as out:
        out.write("3\t40001\tNew level\tcm\n")
    _, found, _ = run_script("compare", "4", old, new)
    results.note("compare: a name of the new plant goes first", "at 40001 (New level), which was 300 (300 cm) and is 250 (250 cm)" in found, found)


def try_refusal(folder):
    names = "12\t00001\tHorn\n12\t30001\tTemperature\n"
    for old, new, wanted in (
        ("CO 00002\"", "CO 00001\"", "8 CoilTwice, a coil that is driven already: 00001 (Horn) is driven there"),
        ('panel = ["30001"', 'panel = ["00001", "30099"', "5 BadRef, a reference outside the map: 30099, and the controller has"),
    ):
        file = with_names(folder, "wrong", old, new, "analogue_alarm", names)
        done = subprocess.run([program.LAUNCHER, "run", "1", file], capture_output=True, text=True, check=False)
        results.note("names in a refusal", done.returncode == 5 and wanted in done.stderr, done)


def try_sweep(folder):
    if not shutil.which("parallel"):
        print("look: a sweep with names NOT RUN, since there is no GNU parallel")
        return
    template = changed(folder, "house.template", '"0096", "00c8"', '"@level@"', "pump_house")
    shutil.copy(plant_file("pump_house")[: -len("toml")] + "names", os.path.join(folder, "house.names"))
    words = [os.path.join(TOP, "plants/sweep"), "2", template, "level=00c8", "level=0190"]
    done = subprocess.run(words, capture_output=True, text=True, check=False)
    rows = [line.split("\t") for line in done.stdout.splitlines()]
    results.equal("sweep with names: its head", ["3.30001 Level [m]", "3.40001 Start level [m]"], rows[0][2:4])
    results.equal("sweep with names: the values", [["2.50", "3.00"], ["2.50", "3.00"]], [row[2:4] for row in rows[1:]])
    results.equal("sweep with names: the first difference", ["-", "scan 1 3.30001 Level 2.00>4.00"], [row[-2] for row in rows[1:]])


def try_page(folder):
    if not browser.installed():
        print("look: a page with names NOT RUN, since there is no Chromium")
        return
    page = os.path.join(folder, "named.html")
    results.equal("a page with names", (0, "", ""), run_script("view", "7", plant_file("analogue_alarm"), page))
    window = browser.Browser()
    try:
        window.size(1400, 1000)
        window.open("file://" + page + "#scan=3")
        results.equal("names in the timing diagram", ["Temperature", "Horn", "Temperature shown", "Highest so far"], window.texts("#plot .called"))
        results.equal("values in their units", ["80.1 °C"] * 3, window.texts("#plot .in-unit"))
        results.equal("bands in their units", ["75.0", "80.0", "80.1", "79.0", "77.9", "90.0"], window.texts("#plot .number")[:6])
        window.value("networks.draw(true)")
        network = 'figure[data-node="12"][data-network="1.4"] '
        found = window.fields(network + ".called", "firstChild.textContent"), window.texts(network + ".called title"), window.texts(network + ".held")
        wanted = ["Temperature", "Temperature sh…"], ["Temperature shown"], ["80.0→80.1 °C"] * 2
        results.equal("a network with names, one of them cut", wanted, found)
        for key in ["/", *"above"]:
            window.press(key)
        results.equal("a search by a part of a name", ["00002Above 80.0 °Ccontroller 12"], window.texts("#found .place"))
        window.value("document.querySelector('#found .place').click()")
        found = window.text("#found .named"), window.field("#find", "value")
        results.equal("what a found name leads to", ("Above 80.0 °C (controller 12)", "00002"), found)
        results.equal("a page with names: errors", [], window.errors())
        try_markup(window, folder)
    finally:
        window.close()


def try_markup(window, folder):
    """A name stays a text."""
    nasty = """</script><b>'"&{{data}}"""
    file = with_names(folder, "nasty", "# Hint: ", "# Hint, ", "first", f"1\t00001\t{nasty}\n")
    page = os.path.join(folder, "nasty.html")
    results.equal("a name with markup: view", 0, run_script("view", "1", file, page)[0])
    window.open("file://" + page)
    results.equal("a name with markup", ([nasty], [], []), (window.texts("#plot .called"), window.texts("#plot b"), window.errors()))


def try_names(folder):
    try_lines()
    try_plants()
    try_hints(folder)
    try_compare(folder)
    try_refusal(folder)
    try_sweep(folder)
    try_page(folder)
