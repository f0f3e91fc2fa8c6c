// Where things stand: rows and columns of the timing diagram, cells of a network, lanes of the chart.

const LABEL = hasNames ? 330 : 176, ROW = 26, AXIS = 24;
const CELL = {width: hasNames ? 116 : 92, height: hasNames ? 60 : 46, left: 26, top: 10};
// A row of the lists, and each further line of its text.
const LIST_ROW = 22, LIST_LINE = 17;

// The network of a station or of an end of a bridge, 0 where networks have no numbers.
function networkOf(node) { return data.plant.networks[node] || 0; }
function besideNetwork(text, node) { return text + (networkOf(node) ? `, network ${networkOf(node)}` : ''); }

// The rows of the timing diagram: for each controller its references, then the calls of each node.
function timingRows(withOthers) {
  const rows = [];
  for (const controller of data.plant.controllers) {
    const node = controller.node;
    rows.push({kind: 'head', node, text: besideNetwork('controller ' + node, node)});
    const shown = withOthers ? controller.panel.concat(controller.others) : controller.panel;
    for (const reference of shown) {
      runs.forEach((run, number) => rows.push({kind: isBit(reference) ? 'bit' : 'word', node, reference, run: number}));
    }
    addCalls(rows, node);
  }
  for (const node of data.plant.hosts) {
    rows.push({kind: 'head', node, text: besideNetwork('host ' + node, node)});
    addCalls(rows, node);
  }
  return rows;
}

function addCalls(rows, node) {
  runs.forEach((run, number) => {
    const calls = run.calls.filter(call => call.node === node && call.began && call.began[0]);
    if (calls.length) rows.push({kind: 'calls', node, run: number, calls});
  });
}

const MOST_ZOOM = 480;

// The columns of scans that are seen: scan k stands from x(k - 1) to x(k).
class Scale {
  constructor(scans) { this.scans = scans; this.zoom = 40; this.from = 0; this.width = 800; }
  x(scan) { return LABEL + scan * this.zoom - this.from; }
  scanAt(x) { return Math.min(this.scans, Math.max(1, Math.floor((x - LABEL + this.from) / this.zoom) + 1)); }
  get first() { return Math.max(1, Math.floor(this.from / this.zoom) + 1); }
  get last() { return Math.min(this.scans, Math.ceil((this.from + this.width - LABEL) / this.zoom)); }
  get sheetWidth() { return LABEL + this.scans * this.zoom + 20; }
  fitted() { return Math.max(0.2, Math.min(MOST_ZOOM, (this.width - LABEL - 24) / this.scans)); }
  // How many scans stand between two numbers of the axis.
  step() {
    for (const step of [1, 2, 5, 10, 20, 50, 100, 200, 500]) if (step * this.zoom >= 36) return step;
    return 1000;
  }
}

// The pieces of a list of changes between two scans: from, to (both inside) and value.
function spansOf(changes, first, last) {
  const spans = [];
  let place = Math.max(0, lastChange(changes, first));
  for (; place < changes.length / 2 && changes[2 * place] <= last; place++) {
    const next = place + 1 < changes.length / 2 ? changes[2 * place + 2] - 1 : Infinity;
    spans.push({from: Math.max(first, changes[2 * place]), to: Math.min(last, next), value: changes[2 * place + 1]});
  }
  return spans;
}

function networkSize(network) {
  let rows = 1, columns = 1;
  for (const cell of network.cells) {
    rows = Math.max(rows, cell.row + Math.max(1, cell.nodes) - 1);
    columns = Math.max(columns, cell.column);
  }
  for (const [row, column] of network.shorts) { rows = Math.max(rows, row + 1); columns = Math.max(columns, column); }
  return {rows, columns, width: CELL.left + columns * CELL.width + 14, height: CELL.top * 2 + rows * CELL.height};
}

function cellLeft(column) { return CELL.left + (column - 1) * CELL.width; }
function wireOf(row) { return CELL.top + (row - 0.5) * CELL.height; }

// The lanes of the chart: each node's middle, those of a network side by side, and one behind them for addresses that nobody has.
function lanesOf(nodes, width) {
  const ordered = [...nodes].sort((one, other) => networkOf(one) - networkOf(other) || one - other);
  const wide = Math.max(18, Math.min(64, width / (ordered.length + 1)));
  const places = new Map(ordered.map((node, place) => [node, place]));
  const x = node => wide * ((places.has(node) ? places.get(node) : ordered.length) + 0.6);
  const networks = [...new Set(ordered.map(networkOf))].filter(number => number);
  const groups = networks.map(number => {
    const own = ordered.filter(node => networkOf(node) === number);
    return {number, from: x(own[0]) - wide / 2, to: x(own[own.length - 1]) + wide / 2};
  });
  return {x, nodes: ordered, groups, width: x(null) + wide * 0.5, has: node => places.has(node)};
}

// The widths of texts in the font of an element.
class Measure {
  constructor(element, weight) {
    const style = getComputedStyle(element);
    this.context = document.createElement('canvas').getContext('2d');
    this.context.font = `${weight} ${style.fontSize} ${style.fontFamily}`;
    this.widths = new Map();
  }
  ofSign(sign) {
    if (!this.widths.has(sign)) this.widths.set(sign, this.context.measureText(sign).width);
    return this.widths.get(sign);
  }
  width(text) {
    let sum = 0;
    for (const sign of text) sum += this.ofSign(sign);
    return sum;
  }
}

// How many lines texts take one behind the other, each with its measure: broken between words, and within a word that is too long.
function linesOf(texts, room) {
  let lines = 1, used = 0;
  for (const [measure, text] of texts) {
    for (const [word] of text.matchAll(/\S+\s*|\s+/g)) {
      const wide = measure.width(word), seen = measure.width(word.trimEnd());
      if (used && used + seen > room) { lines++; used = 0; }
      used += wide;
      for (; used - wide + seen > room; used -= room) lines++;
    }
  }
  return lines;
}
