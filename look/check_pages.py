"""Tests of the pages, in a headless Chromium."""
import json
import os
import re
import subprocess
import tempfile

import browser
import journal as journals
import packing
import pages
import plantfile
import program
from checking import CASES, TOP, changed, panel_of, plant_file, read_text, results, run_script

PAGES = "bottle_counter conveyor count_line endless_call matrices motor_starter power_cut pump_house pumps read_two traffic_light".split()
LABELS = """(() => { const box = document.getElementById('plot'), found = {};
  for (let top = 0; top === 0 || top < box.scrollHeight; top += 100) {
    box.scrollTop = top; drawTiming(view);
    for (const one of document.querySelectorAll('.value')) found[one.dataset.node + ' ' + one.dataset.reference] = one.textContent;
  }
  box.scrollTop = 0; return found; })()"""


def try_page(window, folder, name):
    """A page shows the stored panel, scan by scan, as the cursor moves by key."""
    file = plant_file(name)
    stored, scans = panel_of(file)
    page = os.path.join(folder, name + ".html")
    results.equal(f"{name}: view", (0, "", ""), run_script("view", str(scans), file, page))
    window.open("file://" + page)
    kept = [line for line in stored.splitlines() if line.startswith("S ")]
    for scan in range(1, scans + 1):
        lines = [line for line in kept if line.split(" ")[1] == str(scan)]
        results.equal(f"{name}: the panel lines of scan {scan}", "\n".join(lines), window.text("#panel"))
        if scan in (1, 2, scans):
            words = [(line.split(" ")[3], word.split("=")) for line in lines for word in line.split(" ")[4:] if "=" in word]
            wanted = {f"{node} {reference}": value for node, (reference, value) in words}
            results.equal(f"{name}: values at the cursor in scan {scan}", wanted, window.value(LABELS))
        window.press("ArrowRight")
    results.equal(f"{name}: the cursor stays at the last scan", str(scans), window.field("#scan", "value"))
    window.press("Home")
    results.equal(f"{name}: the cursor at the first scan", "1", window.field("#scan", "value"))
    results.equal(f"{name}: errors", [], window.errors())


PUMP = 'figure[data-node="3"][data-network="1.4"]'


def try_pump_house(window, folder):
    """The bands, networks, search, calls and frames of one page."""
    window.open("file://" + os.path.join(folder, "pump_house.html") + "#scan=5")
    band = '.band[data-node="3"][data-reference="40001"][data-from="2"]'
    results.equal("a band from scan 2 on", "300", window.field(band, "dataset.value"))
    high = '.high[data-reference="00001"]'
    results.equal("the pump's high line", ["5", "8"], [window.field(high, "dataset.from"), window.field(high, "dataset.to")])
    line = window.field('.line[data-node="3"][data-reference="00001"]', "attributes.d.value")
    down, up, down_again = (float(level) for level in re.findall(r"(?:M[\d.]+ |V)([\d.]+)", line))
    results.note("the pump's line is low, high and low", down == down_again > up, line)
    window.value("networks.draw(true)")
    results.equal("the pump's coil is on", ["00001"], window.fields(PUMP + " .coil.on", "dataset.reference"))
    closed = window.fields(PUMP + " .contact.on", "dataset.reference")
    # The pump's own contact is open as it is solved: the coil behind it goes on later in the scan.
    wanted = ["00011", "00012", "00013"] if window.value("hasFlow(runs[0], 5)") else ["00011", "00001", "00012", "00013"]
    results.equal("its closed contacts", wanted, closed)
    results.equal("the comment beside it", "The pump holds itself until the level is low.", window.text(PUMP + " .comment"))
    for key, wanted in (("c", "7.1.1"), ("c", "20.1.1"), ("C", "7.1.1"), ("C", "7.1.6")):
        window.press(key, shift=key == "C")
        results.equal(f"the call that {key} goes to", wanted, window.value("view.selected"))
    window.value("view.find('40021')")
    does, what = window.fields("#found .place", "dataset.does"), window.texts("#found .place code")
    wanted = [("drives", "1,1 BLKM 30001 40021 1")] + [("reads", "read 40021")] * 5
    results.equal("who drives and reads 40021", wanted, list(zip(does, what))[:6])
    window.value("document.querySelector('#found .place.link').focus()")
    window.press("Enter")
    results.equal("a place that is shown by key", 1, window.value("document.querySelectorAll('.cell.found').length"))
    try_failed_call(window)
    try_room(window, "pump_house")
    try_measure(window)
    try_lists(window)
    results.equal("pump_house: errors", [], window.errors())


# Rows of the lists whose text is cut, wherever they are scrolled to, and what stands over the page's right edge.
CUT = """(() => { const found = [];
  for (const [box, list] of [[byId('calls'), callList], [byId('chart'), chart]]) {
    for (let top = 0; top === 0 || top < box.scrollHeight && top < 4000; top += 150) {
      box.scrollTop = top; list.draw();
      for (const row of box.querySelectorAll('.row')) for (const one of [row, ...row.querySelectorAll('span')]) {
        if (one.scrollWidth > one.clientWidth + 1 || one.scrollHeight > row.clientHeight + 1) found.push(row.textContent);
      }
    }
  }
  if (document.documentElement.scrollWidth > innerWidth) found.push('the page is ' + document.documentElement.scrollWidth + ' wide');
  return found; })()"""


def try_room(window, name):
    """No text of a list is cut at any width, and nothing stands over the edge of the page."""
    for width in (1500, 1200, 900):
        window.size(width, 1000)
        window.settle()
        results.equal(f"{name}, {width} pixels wide: texts that are cut", [], window.value(CUT)[:3])
    window.size(1400, 1000)
    window.settle()


def try_measure(window):
    """By keys alone: a row is chosen, its edges are gone to, and the time between two of them is told."""
    window.press("Home")
    for _ in range(20):
        if window.text("#chosen") == "00001 of node 3":
            break
        window.press("j")
    results.equal("the chosen row", ["00001"], window.fields(".chosen .name", "textContent"))
    window.press(".")
    results.equal("its first edge", "5", window.field("#scan", "value"))
    window.press("m")
    window.press(".")
    wanted = "00001 0→1 in scan 5 – 00001 1→0 in scan 9: 4 scans, 2 s"
    results.equal("the measure between two edges", wanted, window.text("#measure"))
    results.equal("the measure in the diagram", "4 scans, 2 s", window.text(".measure text"))
    lines = window.fields(".measure .limit", "x1.baseVal.value")
    places = window.value("[5, 9].map(scan => view.scale.x(scan - 1))")
    results.equal("the edges that are marked", [round(place, 2) for place in places], [round(line, 2) for line in lines])
    window.press("k")
    results.note("an edge of another row", window.text("#measure").endswith("scan 9: 4 scans, 2 s"), window.text("#measure"))
    window.press(",")
    window.press("m")
    window.press("m")
    results.equal("no mark, no measure", "", window.text("#measure"))
    room = window.value("[view.scale.sheetWidth, view.box.clientWidth]")
    results.note("twelve scans fill the diagram", room[0] > 0.95 * room[1], room)


def try_lists(window):
    """The lists that the page unpacks are those that were read of the journal."""
    file = plant_file("pump_house")
    plant = plantfile.read_plant(program.read_file(file))
    journal = journals.read_journal(journals.split_trace(program.call(["trace", str(panel_of(file)[1])], file=file))[0])
    _, calls, rows = pages.ring_data(journal, plant, panel_of(file)[1])

    def told(records, keys):
        return [{key: record[key] for key in keys if record.get(key) is not None} for record in json.loads(json.dumps(records))]

    for name, keys, records in (("rows", packing.ROW_KEYS, rows), ("calls", packing.CALL_KEYS, calls)):
        given = [record | {"lines": [line for line, _, _ in record["lines"]]} if "lines" in record else record for record in records]
        results.equal(f"the {name} of a run, unpacked", told(given, keys), told(window.value(f"runs[0].{name}"), keys))
    lines = window.value("runs[0].calls.flatMap(call => call.lines.map(line => [line, sectionOf(runs[0], line), lineOf(runs[0], line)]))")
    results.equal("the lines of calls", [line for call in calls for line in call["lines"]], lines)


def try_failed_call(window):
    """A click on the failed call shows it, its lines and its frames."""
    file = plant_file("pump_house")
    trace = program.call(["trace", str(panel_of(file)[1])], file=file)
    good, bad = (len(re.findall(form, trace, re.MULTILINE)) for form in ("^(?:F .* G|A .* R) ", "^[FA] .* B "))
    results.equal("outcomes", [f"✓ {good} ended well", f"✕ {bad} failed"], window.texts("#outcomes button"))
    window.value("document.querySelector('#outcomes .bad').click()")
    told = window.text("#call")
    wanted = ("Call 20.1.4: failed", "Node 20 asks node 9", "6103", "GU 20.1.4 6103")
    results.note("the call that failed", all(word in told for word in wanted), told)
    fates = [text.strip() for text in window.texts("#chart .send.selected i")]
    results.equal("the fates of its frames", ["nobody there", "nobody there", "nobody there, no further try"], fates)


def try_markup(window, folder):
    """Texts of the plant file stay texts."""
    nasty = """<script>document.title = "no"</script> " ' & </script x <!-- <script x <b>{{data}}</b> \u2028"""
    file = changed(folder, "markup.toml", "# One contact and one coil: ", f"# {nasty}\n# One contact and one coil: ", "first")
    text = read_text(file).replace('networks = ["', f'# {nasty}\nnetworks = ["')
    named = os.path.join(folder, """a <b>"name" & 'co'.toml""")
    with open(named, "w", encoding="utf-8") as out:
        out.write(text)
    page = os.path.join(folder, "markup.html")
    results.equal("markup: view", 0, run_script("view", "2", named, page)[0])
    window.open("file://" + page)
    results.note("markup at the head", nasty.strip() in window.text("#head"), "")
    results.equal("markup beside a network", nasty, window.text(".comment"))
    results.equal("markup in the title", """plant984: a <b>"name" & 'co'.toml, 2 scans""", window.value("document.title"))
    results.equal("markup makes no elements", [], window.texts("#head *, .comment *, h1 *"))
    results.equal("markup: errors", [], window.errors())


def large_plant():
    """64 references on the panel: coils that divide the scans by two again and again, and registers that count."""
    panel = [text for number in range(1, 33) for text in (f"{number:05}", f"4{number:04}")]
    networks = ["1,1 NC 00001; 1,2 CO 00001"]
    for number in range(2, 33):
        before, own = f"{number - 1:05}", f"{number:05}"
        networks.append(f"1,1 PT {before}; 1,2 NC {own}; 1,2 V; 1,3 CO {own}; 2,1 NC {before}; 2,2 NO {own}")
    networks += [f"1,1 ADD 4{number:04} {number} 4{number:04}" for number in range(1, 33)]
    lines = ["version = 1", "[[controller]]", "node = 1", "coils = 32", "registers = 32"]
    lines += [f"panel = {panel}", 'orders = ["1 - - -"]']
    return "\n".join(lines + ["[[controller.segment]]", f"networks = {networks}"]).replace("'", '"') + "\n"


def try_large(window, folder):
    """2000 scans of 64 references are drawn within two seconds, and scroll."""
    file, page = os.path.join(folder, "large.toml"), os.path.join(folder, "large.html")
    with open(file, "w", encoding="utf-8") as out:
        out.write(large_plant())
    results.equal("large: view", 0, run_script("view", "2000", file, page)[0])
    window.open("file://" + page)
    took = window.seconds()
    results.note("large: drawn within two seconds", 0 < took < 2, f"it took {took:.2f} s")
    results.equal("large: 64 values", 64, len(window.value(LABELS)))
    window.press("End")
    results.equal("large: the last value of a counter", str(2000 * 32 % 10000), window.value(LABELS)["1 40032"])
    for _ in range(6):
        window.press("+")
    firsts, before = [], window.seconds()
    for step in range(20):
        window.value(f"view.box.scrollLeft = {900 * step}")
        window.settle()
        firsts.append(window.value("view.scale.first"))
    took = window.seconds() - before
    results.note("large: it scrolls", firsts == sorted(firsts) and len(set(firsts)) > 10, firsts)
    results.note("large: without delay", took < 4, f"20 steps took {took:.2f} s")
    results.equal("large: errors", [], window.errors())


def try_journal_pages(window, folder):
    """A journal is shown with its verdict; two are laid side by side."""
    read_two = plant_file("read_two")
    trace = program.call(["trace", "3"], file=read_two)
    names = {"good": trace, "wrong": trace.replace("F 2.1.1 G 002a002b", "F 2.1.1 G 002a002c")}
    names["none"] = trace.replace("SE 2 A", "SE 2 X", 1)
    for name, text in names.items():
        with open(os.path.join(folder, name + ".journal"), "w", encoding="utf-8") as out:
            out.write(text)
    page = os.path.join(folder, "journal.html")
    line = names["none"].split("\n").index("SE 2 X") + 1
    cases = ("good", "legal", "42"), ("wrong", "illegal J4 2 1", "–"), ("none", f"illegal text {line}", "–")
    for name, wanted, values in cases:
        status = run_script("view", "3", read_two, os.path.join(folder, name + ".journal"), page)[0]
        window.open("file://" + page + "#scan=2")
        found = (status, window.field(".chip", "dataset.verdict"), window.value(LABELS)["2 40011"], window.errors())
        results.equal(f"a journal, {name}", (0, wanted, values, []), found)
    both_ways = os.path.join(CASES, "read_both_ways")
    status = run_script("view", "1", both_ways + ".toml", both_ways + ".journal", page)[0]
    window.open("file://" + page)
    note = window.text(".note")
    results.note("a journal that fits no order in time", status == 0 and note and "no order in time" in note, status, note)
    live = os.path.join(folder, "live.journal")
    with open(live, "w", encoding="utf-8") as out:
        out.write(program.call(["live", "3"], file=read_two))
    status = run_script("view", "3", read_two, os.path.join(folder, "good.journal"), live, page)[0]
    window.open("file://" + page)
    chips = window.texts(".chip")
    wanted = (0, ["good.journal: legal", "live.journal: legal"], [])
    results.equal("two journals side by side", wanted, (status, chips[:2], window.errors()))
    window.value("byId('which').value = 1; byId('which').dispatchEvent(new Event('change'))")
    results.equal("the networks and messages of the other", 1, window.value("view.charted"))
    head = window.texts(".answers th")
    results.equal("their requests", ["node", "its request", "good.journal", "live.journal"], head)


def try_routes(window, folder):
    """The routes of calls and of frames, and where a request that was taken is to go on to."""
    page = os.path.join(folder, "routes.html")
    status = run_script("view", "1", plant_file("read_two"), os.path.join(CASES, "routes.journal"), page)[0]
    window.open("file://" + page)
    ways = window.texts("#calls .way")
    wanted = {"2 → 5.7", "2 → 1.2.3.4.255", "2 → 5", "10 → 5.7", "10 → 0.2.3.4.255", "own port"}
    results.equal("the routes of calls", (0, wanted), (status, set(ways)))
    words = window.texts("#chart .words")
    wanted = [
        "puts request 2.1.1 to node 7 by route 5.7 into its outbox",
        "request 2.1.1 to node 7 by route 5.7: no bridge there – read 40001 to 40002",
        "puts request 9.1.1 to node 255 by route 1.2.3.4.5.255 into its outbox",
        "takes request 2.1.1",
        "takes request 2.1.1, which is to go on to node 7",
        "takes request 2.2.1, which is to go on to node 255 by route 2.3.4.255",
        "takes reply to 2.1.1",
    ]
    results.equal("the routes of frames", wanted, [one for one in wanted if one in words])
    window.value("view.select('2.1.1', 0)")
    told = window.text("#call")
    try_room(window, "routes")
    results.note("a call by a route", "Node 2 asks node 7 by route 5.7: read 40001 to 40002." in told, told)
    results.equal("routes: errors", [], window.errors())


def try_bridges(window, folder):
    """Calls that bridges send on, and the rings of several networks."""
    page = os.path.join(folder, "bridges.html")
    status = run_script("view", "1", plant_file("read_two"), os.path.join(CASES, "bridges.journal"), page)[0]
    window.open("file://" + page)
    results.equal("bridges: the verdict", (0, "illegal sections"), (status, window.field(".chip", "dataset.verdict")))
    results.equal("outcomes over bridges", ["✓ 1 ended well", "✕ 2 failed"], window.texts("#outcomes button"))
    ways = window.texts("#calls .way")
    results.equal("the ways of calls over bridges", {"2 → 9.5", "2 → 9.20.7", "2 → 9", "12 → 5", "12 → 20.7", "3 → 7"}, set(ways))
    results.equal("the lanes of bridge ends", ["2", "3", "5", "9", "12", "20"], window.texts("#chart .lanes text"))
    words = window.value("charted.map(partsOf).map(({head, fate, tail}) => head + fate + tail)")
    results.note("the rows of the chart", set(window.texts("#chart .words")) <= set(words), window.texts("#chart .words"))
    try_room(window, "bridges")
    wanted = [
        "network 1: puts request 2.1.1 to node 5 by route 9.5 into its outbox",
        "network 1: request 2.1.1 to node 5 by route 9.5: acknowledged – read 40001 to 40002",
        "network 1: takes request 2.1.1, which is to go on to node 5",
        "network 1: reply to 2.3.1 to node 2: acknowledged – exception 1: function not known",
    ]
    results.equal("the frames of bridges", wanted, [one for one in wanted if one in words])
    window.value("view.select('2.1.1', 0)")
    told = window.text("#call")
    for wanted in ("Node 2 asks node 5 by route 9.5", "went on as call 12.1.1", "served at node 5 after scan 1", "W 9 12", "R 1"):
        results.note(f"a call over a bridge: {wanted}", wanted in told, told)
    window.value("document.querySelector('#call .onward').click()")
    results.equal("a click on the name under which it went on", "12.1.1", window.value("view.selected"))
    told, row = window.text("#call"), window.text("#chart .selected .words")
    results.note("the call of a bridge", "Node 12 asks node 5: read 40001 to 40002." in told and row.startswith("network 2: "), told, row)
    results.equal("bridges: errors", [], window.errors())


def frames_of(trace):
    """The transmissions of each node in a trace."""
    found = {}
    for node in re.findall(r"^SE ([0-9]+) ", trace, re.MULTILINE):
        found[int(node)] = found.get(int(node), 0) + 1
    return found


def try_web(window, folder):
    """The networks of a plant of version 2, with their stations, bridges and traffic."""
    file, page = plant_file("filter_works"), os.path.join(folder, "filter_works.html")
    results.equal("networks: view", (0, "", ""), run_script("view", "12", file, page))
    window.open("file://" + page + "#scan=2")
    stations = ["controller 3", "controller 8", "controller 15", "host 40"]
    results.equal("networks: the stations", stations, window.texts("#web .node:not(.bridge) .name"))
    results.equal("networks: the ends of bridges", ["11", "12", "21", "22"], window.texts("#web .bridge.end .name"))
    frames = frames_of(program.call(["trace", "12"], file=file))
    titles = dict(zip(map(int, window.fields("#web .node", "dataset.node")), window.texts("#web .node title")))
    told = {node: int(re.search(r"of (\d+) frame", title)[1]) for node, title in titles.items()}
    results.equal("networks: the frames of each node", {node: frames.get(node, 0) for node in told}, told)
    sums = [sum(int(count) for count in re.findall(r"^of (\d+)", text)) for text in window.texts("#web svg > .traffic")]
    results.equal("networks: the frames of all", sum(frames.values()), sum(sums))
    results.equal("networks: beside each controller and lane", ["network 1", "network 2", "network 3"], window.texts("#chart .lanes .network"))
    heads = window.texts("#plot .name")
    results.note("networks: beside each controller", "controller 8, network 2" in heads and "host 40, network 3" in heads, heads)
    results.equal("networks: the calls under way", ["✓ 40.1.2, 40 → 22.12.3: read 40011", "✓ 40.2.1, 40 → 22.8: read 40031"], window.texts("#web .ways button"))
    # By keys: the next call of the supervisor, and the ways of a route over two bridges.
    window.value("document.querySelector('#web [data-node=\"40\"]').focus()")
    window.press("Enter")
    results.equal("networks: a call of a station by key", "40.1.1", window.value("view.selected"))
    way = window.value("wayOnWeb(data.plant, callOf(runs[0], '40.1.2'))")
    wanted = {"way": [[40, 3], [22, 3], [21, 2], [12, 2], [11, 1], [3, 1]], "isWhole": True}
    results.equal("networks: the way of a call", wanted, way)
    window.value("byId('ring').value = 1; layRings(runs[0])")
    results.equal("networks: the chart of one", ({"1"}, ["network 1", "3", "11"]), (
        {text.split(":")[0].split(" ")[1] for text in window.texts("#chart .words")}, window.texts("#chart .lanes text")))
    try_room(window, "filter_works")
    results.equal("networks: errors", [], window.errors())
    # A live run tells no scan of a frame; a plant of one ring has no such drawing.
    live = os.path.join(folder, "filter_works.journal")
    with open(live, "w", encoding="utf-8") as out:
        out.write(program.call(["live", "12"], file=file))
    results.equal("networks: view of a live run", 0, run_script("view", "12", file, live, page)[0])
    window.open("file://" + page)
    frames = frames_of(read_text(live))
    sums = [int(re.match(r"\d+", text)[0]) for text in window.texts("#web svg > .traffic") if "frame" in text]
    results.equal("networks: the frames of a live run", (sum(frames.values()), []), (sum(sums), window.errors()))
    window.open("file://" + os.path.join(folder, "pump_house.html"))
    results.equal("networks: none in version 1", True, window.value("byId('web').hidden && byId('ring').parentElement.hidden"))


def try_eight_rings(window, folder):
    """Two hundred scans of the largest plant of several networks: a page of less than 5 MB, and less than 0.1 s for a key."""
    file, page = os.path.join(folder, "most.toml"), os.path.join(folder, "most.html")
    with open(file, "wb") as out:
        subprocess.run([os.path.join(TOP, "plants/networks"), "--most", "200"], stdout=out, check=True)
    results.equal("eight rings: view", 0, run_script("view", "200", file, page)[0])
    results.note("eight rings: less than 5 MB", os.path.getsize(page) < 5_000_000, os.path.getsize(page))
    window.open("file://" + page)
    results.equal("eight rings: its nodes", 64, window.value("document.querySelectorAll('#web .node').length"))
    for ring in (1, 0):
        window.value(f"byId('ring').value = {ring}; layRings(runs[0])")
        for key, times in (("ArrowRight", 20), ("ArrowLeft", 10), (".", 10), ("j", 5), ("+", 4), ("-", 4)):
            before = window.seconds()
            for _ in range(times):
                window.press(key)
            took = (window.seconds() - before) / times
            results.note(f"eight rings: the key {key}", took < 0.1, f"{took:.3f} s")
    results.equal("eight rings: errors", [], window.errors())


def try_own_port(window, folder):
    """An operation of a node's own port that fails is wrong in the list and in the chart, and one that ends well in neither."""
    page = os.path.join(folder, "own_port.html")
    status = run_script("view", "2", os.path.join(CASES, "all_lines.toml"), page)[0]
    window.open("file://" + page)
    results.equal("own ports: the outcomes", (0, ["good", "good", "bad"]), (status, own_ports(window, "#calls .row")[:3]))
    window.value("byId('chart').scrollTop = 0; chart.draw()")
    marks = window.value("""[...document.querySelectorAll('#chart .local')].map(row => ['i', 'svg .taken, svg .refused'].map(one =>
        row.querySelector(one).getAttribute('class')).concat(row.querySelectorAll('.cross').length))""")
    results.equal("own ports: the chart", [["good", "taken", 0], ["good", "taken", 0], ["bad", "refused", 1]], marks[:3])
    results.equal("own ports: errors", [], window.errors())


def own_ports(window, rows):
    return window.value(f"""[...document.querySelectorAll('{rows}')].filter(row => row.textContent.includes('own port')).map(row => row.classList[2])""")


def try_compare_page(window, folder):
    read_two, page = plant_file("read_two"), os.path.join(folder, "compare.html")
    lost = changed(folder, "lost.toml", "rounds = 1", 'rounds = 1\nfates = "A"', "read_two")
    results.equal("compare with a page", 8, run_script("compare", "2", read_two, lost, page)[0])
    window.open("file://" + page)
    marks = list(zip(window.fields(".differs[data-from]", "dataset.from"), window.fields(".differs[data-from]", "dataset.to")))
    results.equal("differences are marked, for was and is", [("2", "2")] * 10, marks)
    results.equal("the line of the file that differs", ['new line 7: fates = "A"'], window.texts("#differences .file"))
    results.equal("what can be chosen where no networks are shown", "messages of", window.text("#which-of"))
    quiet = plant_file("traffic_light")
    longer = changed(folder, "longer.toml", "T1.0 6 40001", "T1.0 7 40001", "traffic_light")
    run_script("compare", "8", quiet, longer, page)
    window.open("file://" + page)
    hidden = window.value("['messages', 'networks'].map(one => byId(one).hidden).concat(byId('which').parentElement.hidden)")
    results.equal("compare without calls: nothing is offered", [True] * 3, hidden)
    keys = window.value("[...document.querySelectorAll('.of-networks')].map(one => one.hidden)")
    results.equal("compare: no keys of networks", [True] * 2, keys)
    found = (window.texts("#outcomes .run"), window.texts("#differences table"))
    results.equal("compare without calls: no table", (["traffic_light.toml: no calls", "longer.toml: no calls"], []), found)
    results.equal("compare page: errors", [], window.errors())
    # Seconds are those of either plant's scans; networks and bridges are drawn where both plants have the same.
    faster = changed(folder, "faster.toml", "scan_time = 50 ", "scan_time = 20 ", "filter_works")
    run_script("compare", "12", plant_file("filter_works"), faster, page)
    window.open("file://" + page)
    window.press("m")
    window.press("End")
    seconds = [window.text("#measure").split(": ")[-1]]
    window.press("j")
    seconds.append(window.text("#measure").split(": ")[-1])
    results.equal("compare: the seconds of each side", ["11 scans, 5.5 s", "11 scans, 2.2 s"], seconds)
    drawn = [window.value("!byId('web').hidden")]
    run_script("compare", "3", plant_file("read_two"), plant_file("read_over_bridge"), page)
    window.open("file://" + page)
    drawn.append(window.value("!byId('web').hidden"))
    results.equal("compare: the networks of both", ([True, False], []), (drawn, window.errors()))


def try_found(window, folder):
    """The page of a run that `never` found opens with its last scan, and draws the controller alone."""
    page = os.path.join(folder, "hoist.html")
    words = ["never", "4", "00016", os.path.join(TOP, "plants/interlocks/hoist_fault.toml"), "--page", page]
    done = subprocess.run([program.LAUNCHER, *words], capture_output=True, text=True, check=False)
    results.equal("a page of what was found", 9, done.returncode)
    window.open("file://" + page)
    results.equal("it opens with its last scan", ("2", done.stdout.splitlines()[-1]), (window.field("#scan", "value"), window.text("#panel")))
    results.equal("its errors", [], window.errors())


def try_apart(window, folder):
    """The page of the runs that `same` found has both, and opens with their last scan."""
    page = os.path.join(folder, "turns.html")
    files = [os.path.join(TOP, f"plants/rewrites/turns_{side}.toml") for side in ("old", "new")]
    words = ["same", "6", *files, "--any", "10001-10003", "--page", page]
    done = subprocess.run([program.LAUNCHER, *words], capture_output=True, text=True, check=False)
    results.equal("a page of what tells two apart", 9, done.returncode)
    window.open("file://" + page)
    old, new = done.stdout.splitlines()[-2:]
    shown = [line for line in window.text("#panel").splitlines() if line.startswith("S ")]
    results.equal("it opens with the scan that does", ("3", [old, new]), (window.field("#scan", "value"), shown))
    results.equal("its errors too", [], window.errors())


def try_pages(folder):
    if not browser.installed():
        print("look: pages NOT RUN, since there is no Chromium")
        return
    window = browser.Browser()
    try:
        window.size(1400, 1000)
        for name in PAGES:
            try_page(window, folder, name)
        try_pump_house(window, folder)
        try_markup(window, folder)
        try_large(window, folder)
        try_journal_pages(window, folder)
        try_routes(window, folder)
        try_bridges(window, folder)
        try_web(window, folder)
        try_eight_rings(window, folder)
        try_own_port(window, folder)
        try_compare_page(window, folder)
        try_found(window, folder)
        try_apart(window, folder)
    finally:
        window.close()


def make_picture():
    """The picture of README.md: the pump house as its pump starts."""
    page = os.path.join(tempfile.mkdtemp(), "page.html")
    run_script("view", "12", plant_file("pump_house"), page)
    window = browser.Browser()
    window.size(1280, 1060)
    window.open("file://" + page + "#scan=5")
    window.value("document.querySelector('#outcomes .bad').click(); window.scrollTo(0, 0)")
    window.value("document.querySelector('#networks .list').scrollTop = 480")
    window.settle()
    window.picture(os.path.join(TOP, "docs/look.png"))
    window.close()
