// Where power flowed in a network at a solve, as the program tells it, and why a network was not solved in a scan.

const ENDERS = ['SKP', 'RET'], CONTACTS = ['NO', 'NC', 'PT', 'NT'];
// The nodes, from 0, at which a block may give power with none at its top.
const GIVES_ALWAYS = {'T1.0': [0, 1], 'T0.1': [0, 1], 'T.01': [0, 1], UCTR: [0, 1], DCTR: [0, 1], 'R>T': [1], 'T>R': [1], 'T>T': [1],
  FIN: [1, 2], FOUT: [1, 2], MSTR: [0, 1, 2]};

// One solve of a network: the order row that it belongs to, and for each column the live rows at its right border as bits, null where it had ended.
class Solve {
  constructor(row, text) {
    this.row = row;
    this.columns = text.match(/../g).map(two => (two === '--' ? null : parseInt(two, 16)));
    const end = this.columns.indexOf(null);
    // The column in which the network ended; 12 where it was solved to its end.
    this.end = end < 0 ? 12 : end + 1;
  }

  // Whether a row is live at the right border of a column; left of column 1 each row is.
  isLive(column, row) { return column === 0 || !!((this.columns[column - 1] || 0) >> (row - 1) & 1); }
}

// Whether the flow of a scan is told.
function hasFlow(run, scan) { return !!run.flow && scan >= run.flow.first && scan <= run.flow.last; }

// The solves of a network in a scan, in their order.
function solvesOf(run, node, segment, number, scan) {
  const changes = run.flow.networks[`${node}.${segment}.${number}`];
  const place = changes ? lastChange(changes, scan) : -1, list = place < 0 ? -1 : changes[2 * place + 1];
  const solves = [], flat = list < 0 ? [] : run.flow.solves[list];
  for (let at = 0; at < flat.length; at += 2) solves.push(new Solve(flat[at], run.flow.columns[flat[at + 1]]));
  return solves;
}

// The cell that ended a network: the first SKP or RET with power in the column in which it ended, else the JSR in whose subroutine the controller stopped.
function enderOf(network, solve) {
  const fed = network.cells.filter(cell => cell.column === solve.end && solve.isLive(solve.end - 1, cell.row));
  fed.sort((one, other) => one.row - other.row);
  return fed.find(cell => ENDERS.includes(cell.name)) || fed.find(cell => cell.name === 'JSR') || null;
}

// The rows that shorts join to a row at a column, itself among them.
function joinedRows(network, column, row) {
  const has = one => network.shorts.some(([r, c]) => r === one && c === column);
  let first = row, last = row;
  while (has(first - 1)) first--;
  while (has(last)) last++;
  return Array.from({length: last - first + 1}, (_, number) => first + number);
}

// Whether a cell may have given power at a row.
function mayGive(cell, row, solve) {
  const node = row - cell.row;
  if (node < 0 || node >= Math.max(1, cell.nodes) || isCoil(cell)) return false;
  return solve.isLive(cell.column - 1, cell.row) || (GIVES_ALWAYS[cell.name] || []).includes(node);
}

function isCoil(cell) { return cell.name === 'CO' || cell.name === 'CL'; }

// Where each coil is driven, by node and reference.
const drivers = {};
for (const {node, segments} of data.plant.controllers) {
  drivers[node] = {};
  for (const segment of segments) {
    for (const network of segment.networks) {
      for (const cell of network.cells) if (isCoil(cell)) drivers[node][cell.operands[0]] = {segment, network, cell};
    }
  }
}

// Whether the first of two places is solved before the other, both in one order row, or null where that is not told by where they stand.
function isBefore(one, other) {
  if (one.segment !== other.segment || one.segment.subroutines) return null;
  const places = [one, other].map(({network, cell}) => network.number * 10000 + cell.column * 100 + cell.row);
  return places[0] < places[1];
}

// What a discrete was as a cell was solved, or null where the page cannot know.
function heldAtSolve(run, node, place, scan) {
  const reference = place.cell.operands[0], driver = drivers[node][reference];
  const now = valueAt(run, node, reference, scan), before = valueAt(run, node, reference, scan - 1);
  if (now === null || !driver) return now;
  const [drives, solves] = [driver, place].map(({segment, network}) => solvesOf(run, node, segment.number, network.number, scan).length);
  // A coil that is solved more than once may have been something else in between.
  if (drives > 1) return null;
  if (now === before) return now;
  const isDriven = isBefore(driver, place);
  if (isDriven === null || drives !== 1 || solves !== 1) return null;
  return isDriven ? now : before;
}

// Whether a contact let power pass: null where another row that is joined to its own may have had the power, and what it held is not known.
function letPass(run, node, place, solve, scan) {
  const {network, cell} = place;
  if (!solve.isLive(cell.column - 1, cell.row)) return false;
  if (cell.column >= solve.end) return null;
  if (!solve.isLive(cell.column, cell.row)) return false;
  const rows = joinedRows(network, cell.column, cell.row);
  const isAlone = network.cells.every(other => other === cell || other.column !== cell.column || !rows.some(row => mayGive(other, row, solve)));
  if (isAlone) return true;
  const held = heldAtSolve(run, node, place, scan);
  return held === null ? null : !!isLit(cell, held, valueAt(run, node, cell.operands[0], scan - 1));
}

// How a network is drawn at one of its solves.
class Power {
  constructor(run, node, segment, network, solve, scan) {
    Object.assign(this, {run, node, segment, network, solve, scan, ender: solve.end > 11 ? null : enderOf(network, solve)});
  }

  // Whether a cell was solved before its network ended; the one that ended it was.
  isSolved(cell) {
    if (cell.column !== this.solve.end) return cell.column < this.solve.end;
    return !this.ender || cell.row <= this.ender.row;
  }

  // The class of a wire at the right border of a column.
  wire(column, row) {
    if (column >= this.solve.end) return 'unsolved';
    return this.solve.isLive(column, row) ? 'live' : 'dead';
  }

  // That of a wire to the left of a cell.
  left(cell, row) {
    if (!this.isSolved(cell)) return 'unsolved';
    return this.solve.isLive(cell.column - 1, row) ? 'live' : 'dead';
  }

  // Whether a contact let power pass, a coil got it, or a block had it at its top; null where the page cannot know.
  isOn(cell) {
    if (!this.isSolved(cell)) return false;
    const {run, node, segment, network, solve, scan} = this;
    return CONTACTS.includes(cell.name) ? letPass(run, node, {segment, network, cell}, solve, scan) : solve.isLive(cell.column - 1, cell.row);
  }

  // The rows of a cell that are live at a border.
  liveRows(cell, column) {
    return Array.from({length: Math.max(1, cell.nodes)}, (_, node) => cell.row + node).filter(row => this.solve.isLive(column, row));
  }

  // What happened at a cell, in words.
  told(cell) {
    if (!this.isSolved(cell)) return 'not solved, since the network had ended';
    const came = this.liveRows(cell, cell.column - 1), isFed = came.includes(cell.row);
    if (cell === this.ender) return cell.name === 'JSR' ? 'the controller stopped in its subroutine' : 'it ended the network';
    if (isCoil(cell)) return isFed ? 'power came to it' : 'no power came to it';
    if (CONTACTS.includes(cell.name)) {
      if (!isFed) return 'no power came to it';
      const passed = this.isOn(cell);
      if (passed !== null) return passed ? 'it let power pass' : 'power came to it, and it was open';
      return cell.column < this.solve.end ? 'power came to it; whether it let it pass is not known, since a joined row may have had it' : 'power came to it';
    }
    const rows = list => (list.length ? `in row ${list.join(', ')}` : 'in no row');
    const behind = cell.column < this.solve.end ? `; behind it ${rows(this.liveRows(cell, cell.column))}` : '';
    return `power before it ${rows(came)}${behind}`;
  }
}

// Why a network was not solved in a scan.
function whyNotSolved(run, controller, segment, network, scan) {
  const {node} = controller, stop = run.stops[node];
  if (stop && scan > stop[0]) return `the controller stopped in scan ${stop[0]}`;
  const rows = controller.orders.map((text, number) => ({number: number + 1, words: text.split(' ')})).filter(({words}) => Number(words[0]) === segment.number);
  const first = segment.subroutines ? labelBefore(segment, network) : segment.networks[0];
  const isDark = (run.dark[node] || []).includes(scan);
  if (!first) return 'no LAB stands before it, so nothing calls it';
  if (!segment.subroutines && !rows.length) return controller.orders.length ? 'no order row solves its segment' : 'the controller has no order rows';
  const begun = solvesOf(run, node, segment.number, first.number, scan);
  if (begun.length) return whyLeftOut(run, node, segment, first, network, scan, begun) || stopped(stop, scan);
  if (isDark) return isAnySolved(run, controller, scan) ? 'power failed before it' : 'the controller had no power';
  const isStopped = stop && scan === stop[0];
  if (segment.subroutines) return `LAB ${labelOf(first)} was not called${isStopped ? ' before the watchdog stopped the controller' : ''}`;
  if (isStopped) return stopped(stop, scan);
  return `its control was off: ${rows.map(({number, words}) => `${words[1]} of order row ${number}`).join(', ')}`;
}

function stopped(stop, scan) { return stop && stop[0] === scan ? 'the watchdog stopped the controller before it' : 'the network before it did not go on'; }

function labelOf(network) {
  const cell = network.cells.find(one => one.name === 'LAB');
  return cell ? cell.operands[0] : null;
}

// The network with whose LAB the subroutine begins that a network belongs to.
function labelBefore(segment, network) {
  return segment.networks.filter(one => one.number <= network.number && labelOf(one)).pop() || null;
}

function isAnySolved(run, controller, scan) {
  return controller.segments.some(segment => segment.networks.some(network => solvesOf(run, controller.node, segment.number, network.number, scan).length));
}

// Which SKP or RET left a network out, between the first of its segment or subroutine and itself, or nothing.
function whyLeftOut(run, node, segment, first, network, scan, begun) {
  const last = begun[begun.length - 1].row, before = segment.networks.filter(one => one.number >= first.number && one.number < network.number).reverse();
  for (const one of before) {
    const solves = solvesOf(run, node, segment.number, one.number, scan).filter(solve => solve.row === last);
    if (!solves.length) continue;
    const ender = enderOf(one, solves[solves.length - 1]);
    if (solves[solves.length - 1].end > 11 || !ender || ender.name === 'JSR') return '';
    const what = ender.name === 'SKP' ? 'skipped by' : 'left out by';
    return `${what} '${ender.text}' of network ${one.number}`;
  }
  return '';
}
