// The page's state and what keys and clicks do with it.

const view = {
  cursor: 1,
  // The place of the chosen row, and the edge that is marked: its scan, and in words.
  row: 0,
  mark: null,
  selected: null,
  charted: 0,
  rows: timingRows(false),
  scale: new Scale(data.scans),
  box: document.getElementById('plot'),
  svg: document.querySelector('#plot svg'),
};
const byId = name => document.getElementById(name);

view.moveTo = scan => {
  view.cursor = Math.min(data.scans, Math.max(1, scan));
  keepCursorSeen();
  showScan();
};

// To the edge of the chosen row before the cursor, or behind it.
view.toEdge = isOn => {
  const edges = view.row < 0 ? [] : edgesOf(view.rows[view.row]);
  const edge = isOn ? edges.find(scan => scan > view.cursor) : edges.findLast(scan => scan < view.cursor);
  if (edge) view.moveTo(edge);
};

view.choose = row => {
  if (!view.rows[row] || view.rows[row].kind === 'head') return;
  view.row = row;
  const {box} = view, top = row * ROW, bottom = top + ROW + AXIS;
  if (top < box.scrollTop) box.scrollTop = top - ROW;
  if (bottom > box.scrollTop + box.clientHeight) box.scrollTop = bottom - box.clientHeight;
  drawTiming(view);
  showMeasure();
};

function chooseFirst() { view.row = view.rows.findIndex(row => row.kind !== 'head'); }

// The row below the chosen one, or above it, that is no head.
view.chooseNext = step => {
  let row = view.row + step;
  while (view.rows[row] && view.rows[row].kind === 'head') row += step;
  view.choose(row);
};

view.setMark = scan => {
  view.mark = view.mark && view.mark.scan === scan ? null : {scan, words: edgeWords(view.rows[view.row], scan)};
  drawCursor(view);
  showMeasure();
};

// Finds a reference; by key, the first place that can be shown gets the focus.
view.find = (reference, byKey = false) => {
  byId('find').value = reference;
  showFound(reference);
  const place = document.querySelector('#found .place.link');
  if (byKey && place) place.focus();
};

view.select = (id, number) => {
  view.selected = id;
  if (number !== view.charted) showChartOf(number);
  const call = callOf(runs[number], id);
  drawCall(byId('call'), call, view);
  callList.show(runs[number].byId.get(id));
  chart.show(charted.findIndex(row => row.id === id));
  drawTiming(view);
};

// The call behind the selected one in the list, or before it.
view.selectNext = step => {
  const {calls, byId: places} = runs[view.charted];
  if (!calls.length) return;
  const place = places.has(view.selected) ? places.get(view.selected) + step : 0;
  view.select(calls[(place + calls.length) % calls.length].id, view.charted);
};

let charted = [], lanes = null, heightOfCall = null, heightOfRow = null;
const callList = virtualList(byId('calls'), number => heightOfCall(runs[view.charted].calls[number]), (row, number) => {
  drawCallRow(row, runs[view.charted].calls[number], view, view.charted);
});
const chart = virtualList(byId('chart'), number => heightOfRow(charted[number]), (row, number, height) => {
  drawChartRow(row, charted, number, height, lanes, view);
});
let networks = null, web = null;

function showChartOf(number) {
  view.charted = number;
  byId('which').value = number;
  const run = runs[number], calls = byId('calls');
  calls.hidden = run.calls.length === 0;
  layRings(run);
  heightOfCall = layCalls(calls, run.calls);
  callList.lay(run.calls.length);
  callList.draw();
  if (networks) networks.draw(false);
  showWhat();
  if (web) web.draw();
}

// The chart: of one ring, or of all. Messages stand below the networks where the lanes would take their room.
function layRings(run) {
  const ring = Number(byId('ring').value), box = byId('chart');
  const nodes = run.nodes.filter(node => !ring || networkOf(node) === ring);
  document.querySelector('main').classList.toggle('stacked', lanesOf(run.nodes, 0).width > 460);
  charted = chartRows(run, byId('frames').checked, ring);
  lanes = lanesOf(nodes, Math.min(420, box.clientWidth * 0.5));
  view.rowOfScan = new Map();
  charted.forEach((row, number) => { if (!view.rowOfScan.has(row.scan)) view.rowOfScan.set(row.scan, number); });
  drawLaneNames(document.querySelector('#chart .lanes'), lanes);
  heightOfRow = layChart(box, charted, lanes);
  chart.lay(charted.length);
  chart.draw();
}

function keepCursorSeen() {
  const {box, scale} = view, left = (view.cursor - 1) * scale.zoom, room = box.clientWidth - LABEL;
  if (left < box.scrollLeft) box.scrollLeft = left - room / 4;
  if (left + scale.zoom > box.scrollLeft + room) box.scrollLeft = left - room / 2;
}

// What the networks show in the cursor's scan.
function showWhat() {
  const run = runs[view.charted], scan = view.cursor, told = run.flow ? `; power is told from scan ${run.flow.first} on` : '';
  byId('as').textContent = hasFlow(run, scan) ? `as power flowed in scan ${scan}` : `as scan ${scan} left them${told}`;
}

function showScan() {
  showWhat();
  byId('scan').value = view.cursor;
  document.querySelectorAll('.at-scan').forEach(output => { output.textContent = view.cursor; });
  byId('panel').textContent = runs.flatMap(run => (isPair ? [run.name] : []).concat(panelLines(run, view.cursor))).join('\n');
  drawCursor(view);
  showMeasure();
  if (networks) networks.draw(false);
  if (web) web.draw();
  const row = view.rowOfScan.get(view.cursor);
  if (row !== undefined) chart.show(row);
  clearTimeout(view.later);
  view.later = setTimeout(() => history.replaceState(null, '', '#scan=' + view.cursor), 400);
}

function showMeasure() {
  const {mark, cursor, rows, row} = view, box = byId('measure');
  byId('chosen').textContent = rows[row] ? [rows[row].reference || 'calls', 'of node', rows[row].node].join(' ') : '';
  box.textContent = mark ? `${mark.words} – ${edgeWords(rows[row], cursor)}: ${spanWords(view, cursor - mark.scan)}` : '';
}

function zoomTo(zoom) {
  const {box, scale} = view;
  scale.zoom = Math.max(0.2, Math.min(MOST_ZOOM, zoom));
  setSheet();
  box.scrollLeft = (view.cursor - 0.5) * scale.zoom - (box.clientWidth - LABEL) / 2;
  drawTiming(view);
}

function setSheet() {
  const sheet = view.box.querySelector('.sheet');
  sheet.style.width = view.scale.sheetWidth + 'px';
  sheet.style.height = AXIS + view.rows.length * ROW + 'px';
}

function showFound(reference) {
  const box = byId('found'), isName = hasNames && !/^\d+$/.test(reference);
  const places = /^[0134]\d{4}$/.test(reference) ? placesOf(reference, runs[view.charted]) : [];
  box.hidden = reference === '';
  box.replaceChildren();
  if (box.hidden) return;
  if (isName) {
    listNamed(box, reference, namedLike(reference), view);
    return;
  }
  make(box, 'h2', {}, `${reference}: ${places.length} place${places.length === 1 ? '' : 's'}`);
  if (namesOf(reference)) make(box, 'p', {class: 'named'}, namesOf(reference));
  if (!places.length) make(box, 'p', {}, 'Nothing in this plant reads or drives it.');
  const list = make(box, 'div', {class: 'places'});
  for (const place of places.slice(0, 400)) {
    const isShown = place.network && networks, row = make(list, 'div', {class: 'place' + (isShown ? ' link' : ''), 'data-does': place.does});
    make(row, 'b', {}, place.does);
    make(row, 'span', {}, `controller ${place.node}, ${place.at}`);
    make(row, 'code', {}, place.what);
    if (place.line) make(row, 'small', {}, 'line ' + place.line);
    if (isShown) pressable(row, () => networks.show(place.node, place.network, place.cell));
  }
}

function showHead() {
  document.title = data.title;
  byId('title').textContent = data.title;
  byId('head').textContent = data.plant.head.join(' ');
  const box = byId('summary');
  for (const run of runs) {
    const isLegal = run.verdict === 'legal';
    const chip = {class: 'chip ' + (isLegal ? 'good' : 'bad'), 'data-verdict': run.verdict};
    make(box, 'span', chip, `${run.name}: ${run.verdict}`);
    if (run.note) make(box, 'span', {class: 'chip bad note'}, run.note);
    for (const node in run.stops) {
      make(box, 'span', {class: 'chip bad'}, `✕ controller ${node} stopped in scan ${run.stops[node][0]}`);
    }
    for (const node in run.dark) {
      const scans = run.dark[node].length;
      make(box, 'span', {class: 'chip bad'}, `✕ controller ${node} without power in ${scans} scan${scans > 1 ? 's' : ''}`);
    }
  }
}

function showDifferences() {
  if (!isPair) return;
  const section = byId('differences'), box = section.querySelector('div');
  section.hidden = false;
  for (const line of data.pair.files || []) make(box, 'p', {class: 'file'}, line);
  for (const line of data.pair.lines) make(box, 'p', {}, line);
  if (!data.pair.files && !data.pair.lines.length) make(box, 'p', {}, 'No value differs.');
  if (!data.pair.calls.length) return;
  const table = make(box, 'table', {class: 'answers'});
  const head = make(table, 'tr', {});
  for (const name of ['node', 'its request', runs[0].name, runs[1].name]) make(head, 'th', {}, name);
  for (const pair of data.pair.calls) {
    const row = make(table, 'tr', {class: pair.same ? '' : 'differs'});
    make(row, 'td', {}, `${pair.node}, number ${pair.number}`);
    make(row, 'td', {}, pair.words);
    for (const side of pair.sides) make(row, 'td', {}, side);
  }
}

// With two runs there is a choice of the one whose networks and messages are shown.
function listRuns() {
  runs.forEach((run, number) => make(byId('which'), 'option', {value: number}, run.name));
  const things = [networks ? 'networks' : '', byId('messages').hidden ? '' : 'messages'].filter(one => one);
  byId('which-of').textContent = things.join(' and ') + ' of';
  byId('which').parentElement.hidden = !isPair || !things.length;
  for (const key of document.querySelectorAll('.of-networks')) key.hidden = !networks;
}

// The chart of one network alone, where there are several.
function listRings() {
  const numbers = [...new Set(Object.values(data.plant.networks))].sort((one, other) => one - other);
  make(byId('ring'), 'option', {value: 0}, 'all');
  for (const number of numbers) make(byId('ring'), 'option', {value: number}, number);
  byId('ring').parentElement.hidden = numbers.length < 2;
  // Lanes that take too much of the page are shown network by network.
  if (lanesOf(runs[0].nodes, 0).width > document.body.clientWidth * 0.6) byId('ring').value = numbers[0] || 0;
}

function listReferences() {
  const all = new Set(data.plant.controllers.flatMap(one => one.panel.concat(one.others)));
  for (const reference of [...all].sort()) make(byId('references'), 'option', {value: reference, ...(namesOf(reference) ? {label: namesOf(reference)} : {})});
}

function onKey(event) {
  if (event.target.matches('input, select') && event.key !== 'Escape') return;
  if (event.target.matches('button') && event.key === 'Enter') return;
  const step = event.shiftKey ? 10 : 1;
  const moves = {
    ArrowRight: () => view.moveTo(view.cursor + step),
    ArrowLeft: () => view.moveTo(view.cursor - step),
    Home: () => view.moveTo(1),
    End: () => view.moveTo(data.scans),
    '+': () => zoomTo(view.scale.zoom * 1.5),
    '-': () => zoomTo(view.scale.zoom / 1.5),
    '0': () => zoomTo(view.scale.fitted()),
    '.': () => view.toEdge(true),
    ',': () => view.toEdge(false),
    j: () => view.chooseNext(1),
    k: () => view.chooseNext(-1),
    m: () => view.setMark(view.cursor),
    c: () => view.selectNext(1),
    C: () => view.selectNext(-1),
    '/': () => byId('find').focus(),
    n: () => networks && networks.step(1),
    N: () => networks && networks.step(-1),
    '[': () => networks && networks.leaf(-1),
    ']': () => networks && networks.leaf(1),
    Escape: () => { view.find(''); event.target.blur(); },
  };
  const move = moves[event.key];
  if (!move || event.ctrlKey || event.altKey || event.metaKey) return;
  event.preventDefault();
  move();
}

// A click chooses a row and moves the cursor, with shift the mark. Where something is measured, an edge that is near takes it.
function onDiagram(event) {
  const corner = view.svg.getBoundingClientRect(), x = event.clientX - corner.left, {scale} = view;
  const row = Math.floor((event.clientY - corner.top - AXIS + view.box.scrollTop) / ROW);
  view.choose(row);
  if (x <= LABEL) return;
  const near = (view.row < 0 ? [] : edgesOf(view.rows[view.row])).find(scan => Math.abs(scale.x(scan - 1) - x) < 8);
  const scan = (event.shiftKey || view.mark) && near ? near : scale.scanAt(x);
  if (event.shiftKey) view.setMark(scan); else view.moveTo(scan);
}

function listen() {
  const on = (name, event, action) => byId(name).addEventListener(event, action);
  on('first', 'click', () => view.moveTo(1));
  on('back', 'click', () => view.moveTo(view.cursor - 1));
  on('on', 'click', () => view.moveTo(view.cursor + 1));
  on('last', 'click', () => view.moveTo(data.scans));
  on('scan', 'change', () => view.moveTo(Number(byId('scan').value) || 1));
  on('edge-back', 'click', () => view.toEdge(false));
  on('edge-on', 'click', () => view.toEdge(true));
  on('mark', 'click', () => view.setMark(view.cursor));
  on('out', 'click', () => zoomTo(view.scale.zoom / 1.5));
  on('in', 'click', () => zoomTo(view.scale.zoom * 1.5));
  on('fit', 'click', () => zoomTo(view.scale.fitted()));
  on('find', 'input', () => showFound(byId('find').value.trim()));
  on('which', 'change', () => showChartOf(Number(byId('which').value)));
  on('frames', 'change', () => layRings(runs[view.charted]));
  on('ring', 'change', () => layRings(runs[view.charted]));
  on('others', 'change', () => { view.rows = timingRows(byId('others').checked); chooseFirst(); setSheet(); drawTiming(view); });
  view.box.addEventListener('scroll', () => requestAnimationFrame(() => drawTiming(view)));
  view.svg.addEventListener('click', onDiagram);
  document.addEventListener('keydown', onKey);
  window.addEventListener('resize', () => { drawTiming(view); showChartOf(view.charted); });
  window.addEventListener('beforeprint', () => { if (networks) networks.draw(true); });
}

function begin() {
  byId('scan').max = data.scans;
  chooseFirst();
  showHead();
  showDifferences();
  listReferences();
  if (data.plant.controllers.some(one => one.segments.length) && !data.withoutNetworks) {
    networks = listNetworks(document.querySelector('#networks .list'), view);
  } else {
    byId('networks').hidden = true;
  }
  byId('messages').hidden = !runs.some(tellsOfRings);
  if (Object.keys(data.plant.networks).length) {
    byId('web').hidden = false;
    web = new Web(byId('web'), view);
  }
  listRuns();
  listRings();
  drawOutcomes(byId('outcomes'), view);
  view.scale.width = view.box.clientWidth;
  view.scale.zoom = view.scale.fitted();
  setSheet();
  drawTiming(view);
  showChartOf(0);
  listen();
  const wanted = /scan=(\d+)/.exec(location.hash);
  view.moveTo(wanted ? Number(wanted[1]) : data.cursor || 1);
}

begin();
