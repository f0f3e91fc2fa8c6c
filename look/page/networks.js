// Draws networks as an engineer draws them: left rail, contacts, coils, blocks and shorts, with what they hold at a scan. Where the program tells of
// power they are drawn as they conducted at a solve, else by what the scan left.

function cellClass(cell) {
  if (CONTACTS.includes(cell.name)) return 'contact';
  return isCoil(cell) ? 'coil' : 'block';
}

// Whether a contact is closed or a coil is on, by what its reference had and what it had as the scan before ended.
function isLit(cell, now, before) {
  switch (cell.name) {
    case 'NC': return !now;
    case 'PT': return now && !before;
    case 'NT': return !now && before;
    default: return !!now;
  }
}

// The networks where nothing tells of power: wires are plain, contacts and coils as the scan left their references.
const NO_POWER = {
  isSolved: () => true,
  wire: () => '',
  left: () => '',
  isOn(cell, now, before) { return now === null ? null : isLit(cell, now, before); },
  told: () => '',
};

// One that was not solved.
const NOT_SOLVED = {isSolved: () => false, wire: () => 'unsolved', left: () => 'unsolved', isOn: () => false, told: () => 'not solved in this scan'};

function drawNetwork(svg, network, node, view, power) {
  const size = networkSize(network), run = runs[view.charted];
  svg.setAttribute('viewBox', `0 0 ${size.width} ${size.height}`);
  svg.setAttribute('width', size.width);
  svg.replaceChildren();
  draw(svg, 'line', {x1: CELL.left, x2: CELL.left, y1: 2, y2: size.height - 2, class: 'rail'});
  for (const [row, column] of network.shorts) {
    const x = cellLeft(column + 1), state = power.wire(column, row);
    draw(svg, 'line', {x1: x, x2: x, y1: wireOf(row), y2: wireOf(row + 1), class: 'wire short ' + state, 'data-row': row, 'data-column': column});
    for (const end of [row, row + 1]) draw(svg, 'circle', {cx: x, cy: wireOf(end), r: state === 'live' ? 4 : 2.5, class: 'joint ' + state});
  }
  for (const cell of network.cells) {
    const group = draw(svg, 'g', {class: 'cell ' + cellClass(cell), 'data-row': cell.row, 'data-column': cell.column});
    const words = power.told(cell);
    draw(group, 'title', {}, `${cell.text}${cell.line ? ', line ' + cell.line : ''}${words ? ': ' + words : ''}`);
    if (!power.isSolved(cell)) group.classList.add('unsolved');
    drawCell(group, cell, run, node, view, power);
  }
}

function drawCell(group, cell, run, node, view, power) {
  const left = cellLeft(cell.column), y = wireOf(cell.row), right = left + CELL.width;
  if (cell.name === 'H') {
    drawWire(group, left, right, y, power.left(cell, cell.row));
  } else if (cellClass(cell) === 'block') {
    drawBlock(group, cell, run, node, view, left, right, power);
  } else {
    drawRelay(group, cell, run, node, view, left, right, y, power);
  }
}

function drawWire(group, x1, x2, y, state) { draw(group, 'line', {x1, x2, y1: y, y2: y, class: 'wire ' + state}); }

// A contact or a coil.
function drawRelay(group, cell, run, node, view, left, right, y, power) {
  const reference = cell.operands[0], middle = (left + right) / 2, isAtEnd = isCoil(cell);
  const now = valueAt(run, node, reference, view.cursor), before = valueAt(run, node, reference, view.cursor - 1);
  const lit = power.isOn(cell, now, before);
  group.classList.add(lit === null ? 'unknown' : lit ? 'on' : 'off');
  group.dataset.reference = reference;
  draw(group, 'rect', {x: middle - 11, y: y - 11, width: 22, height: 22, rx: isAtEnd ? 11 : 2, class: 'lamp'});
  drawWire(group, left, middle - 8, y, power.left(cell, cell.row));
  if (!isAtEnd) drawWire(group, middle + 8, right, y, power.isSolved(cell) ? power.wire(cell.column, cell.row) : 'unsolved');
  if (isAtEnd) {
    for (const side of [-1, 1]) {
      draw(group, 'path', {d: `M${middle + side * 4} ${y - 10}q${side * 8} 10 0 20`, class: 'symbol'});
    }
  } else {
    for (const x of [middle - 8, middle + 8]) draw(group, 'line', {x1: x, x2: x, y1: y - 10, y2: y + 10, class: 'symbol'});
  }
  if (cell.name === 'NC') draw(group, 'line', {x1: middle - 7, x2: middle + 7, y1: y + 9, y2: y - 9, class: 'symbol'});
  const sign = {PT: '↑', NT: '↓', CL: 'L'}[cell.name];
  if (sign) draw(group, 'text', {x: middle, y: y + 5, 'text-anchor': 'middle', class: 'sign'}, sign);
  drawReference(group, node, view, reference, middle, y - 13);
  drawHeld(group, node, reference, now, before, middle, y + 21);
}

// A reference with its name above it.
function drawReference(group, node, view, reference, x, y, room = CELL.width - 4) {
  const name = draw(group, 'text', {x, y, 'text-anchor': 'middle', class: 'reference link'}, reference);
  pressable(name, byKey => view.find(reference, byKey));
  drawName(group, node, reference, room, {x, y: y - 11, 'text-anchor': 'middle'});
}

// A block: a box over its nodes, with an operand at each and what a register holds.
function drawBlock(group, cell, run, node, view, left, right, power) {
  const top = wireOf(cell.row) - CELL.height / 2 + 3, height = Math.max(1, cell.nodes) * CELL.height - 6;
  draw(group, 'rect', {x: left + 8, y: top, width: CELL.width - 16, height, rx: 2, class: 'box'});
  if (power !== NO_POWER) group.classList.add(power.isOn(cell) ? 'on' : 'off');
  for (let place = 0; place < Math.max(1, cell.nodes); place++) {
    const y = wireOf(cell.row + place);
    drawWire(group, left, left + 8, y, power.left(cell, cell.row + place));
    drawOutput(group, right, y, power.isSolved(cell) ? power.wire(cell.column, cell.row + place) : 'unsolved');
  }
  const lines = blockLines(cell);
  draw(group, 'text', {x: (left + right) / 2, y: top + 12, 'text-anchor': 'middle', class: 'sign'}, cell.name);
  lines.forEach((operand, place) => {
    const y = wireOf(cell.row + place) + (place || cell.nodes === 1 ? 0 : 6);
    drawOperand(group, operand, run, node, view, (left + right) / 2, cell.nodes === 1 ? y + 10 : y);
  });
}

// An output of a block; one behind which there is power has a tip.
function drawOutput(group, right, y, state) {
  drawWire(group, right - 8, right, y, state);
  if (state === 'live') draw(group, 'path', {d: `M${right - 9} ${y - 6}l10 6l-10 6z`, class: 'gives'});
}

// The operands, one for each node from the top; those of a block with fewer nodes stand on its last.
function blockLines(cell) { return cell.operands.slice(0, 3); }

function drawOperand(group, operand, run, node, view, x, y) {
  if (operand.length !== 5) {
    draw(group, 'text', {x, y: y + 4, 'text-anchor': 'middle', class: 'constant'}, operand);
    return;
  }
  drawReference(group, node, view, operand, x, y + 2, CELL.width - 22);
  const now = valueAt(run, node, operand, view.cursor), before = valueAt(run, node, operand, view.cursor - 1);
  drawHeld(group, node, operand, now, before, x, y + 14);
}

// What a reference holds, with what it held before where that is another value.
function drawHeld(group, node, reference, now, before, x, y) {
  if (now === null) return;
  const isNew = before !== null && before !== now;
  const held = {x, y, 'text-anchor': 'middle', class: isNew ? 'held changed' : 'held', 'data-reference': reference, 'data-value': now};
  const number = value => numberOf(node, reference, value);
  draw(group, 'text', held, (isNew ? `${number(before)}→${number(now)}` : number(now)) + unitOf(node, reference));
}

// All networks of the plant, each drawn once it is seen.
function listNetworks(box, view) {
  const pictures = [];
  const seen = new Set();
  const watcher = new IntersectionObserver(entries => {
    for (const entry of entries) {
      const picture = pictures[Number(entry.target.dataset.picture)];
      if (entry.isIntersecting) { seen.add(picture); drawPicture(picture, view); } else seen.delete(picture);
    }
  }, {rootMargin: '200px'});
  for (const controller of data.plant.controllers) {
    make(box, 'h3', {}, besideNetwork('Controller ' + controller.node, controller.node));
    make(box, 'p', {class: 'orders'}, 'order of solve: ' + (controller.orders.join('; ') || 'nothing is solved'));
    for (const segment of controller.segments) {
      for (const network of segment.networks) {
        const picture = makePicture(box, controller, segment, network, view);
        picture.element.dataset.picture = pictures.push(picture) - 1;
        watcher.observe(picture.element);
      }
    }
  }
  const focused = () => pictures[Number((document.activeElement.closest('figure') || {dataset: {picture: -1}}).dataset.picture)];
  return {
    draw(all) { (all ? pictures : [...seen]).forEach(picture => drawPicture(picture, view)); },
    show(node, [segment, number], [row, column]) {
      const picture = pictures.find(one => one.node === node && one.segment.number === segment && one.network.number === number);
      drawPicture(picture, view);
      picture.element.scrollIntoView({block: 'center'});
      document.querySelectorAll('.cell.found').forEach(cell => cell.classList.remove('found'));
      picture.found = [row, column];
      drawPicture(picture, view);
      picture.element.focus({preventScroll: true});
    },
    // The network behind or before the one that has the focus gets it.
    step(by) {
      const at = pictures.indexOf(focused()), next = at < 0 ? (by > 0 ? 0 : pictures.length - 1) : at + by;
      if (!pictures[next]) return;
      pictures[next].element.scrollIntoView({block: 'nearest'});
      pictures[next].element.focus({preventScroll: true});
    },
    // Leafs through the solves of the network that has the focus.
    leaf(by) { if (focused()) leafPicture(focused(), by, view); },
  };
}

function makePicture(box, controller, segment, network, view) {
  const element = make(box, 'figure', {'data-node': controller.node, 'data-network': `${segment.number}.${network.number}`, tabindex: 0});
  const caption = make(element, 'figcaption', {});
  const name = (segment.subroutines ? 'subroutines' : 'segment') + ` ${segment.number}, network ${network.number}`;
  make(caption, 'b', {}, name + (network.line ? `, line ${network.line}` : ''));
  if (network.comment.length) make(caption, 'span', {class: 'comment'}, network.comment.join(' '));
  const state = make(caption, 'span', {class: 'solve'});
  const svg = draw(element, 'svg', {});
  const size = networkSize(network);
  element.classList.toggle('wide', size.columns > 4);
  svg.setAttribute('viewBox', `0 0 ${size.width} ${size.height}`);
  svg.setAttribute('width', size.width);
  return {element, svg, state, network, controller, node: controller.node, segment, solve: 0};
}

function leafPicture(picture, by, view) {
  picture.solve += by;
  drawPicture(picture, view);
  // The button that was pressed has been drawn anew.
  picture.element.focus({preventScroll: true});
}

function drawPicture(picture, view) {
  drawNetwork(picture.svg, picture.network, picture.node, view, powerOf(picture, view));
  if (picture.found) {
    const [row, column] = picture.found;
    const cell = picture.svg.querySelector(`[data-row="${row}"][data-column="${column}"].cell`);
    if (cell) cell.classList.add('found');
  }
}

// What a picture tells of power in the cursor's scan. Says beside it which of several solves it shows, and why a network was not solved.
function powerOf(picture, view) {
  const {element, state, controller, node, segment, network} = picture, run = runs[view.charted], scan = view.cursor;
  state.replaceChildren();
  element.classList.remove('unsolved');
  delete element.dataset.why;
  if (!hasFlow(run, scan)) return NO_POWER;
  const solves = solvesOf(run, node, segment.number, network.number, scan);
  element.dataset.solves = solves.length;
  if (!solves.length) {
    element.classList.add('unsolved');
    element.dataset.why = whyNotSolved(run, controller, segment, network, scan);
    state.textContent = `not solved in scan ${scan}: ${element.dataset.why}`;
    return NOT_SOLVED;
  }
  picture.solve = Math.max(0, Math.min(solves.length - 1, picture.solve));
  if (solves.length > 1) showLeaves(picture, solves, view);
  const solve = solves[picture.solve];
  if (solve.end < 12) make(state, 'span', {class: 'ended'}, endedWords(network, solve));
  return new Power(run, node, segment, network, solve, scan);
}

// Which of several solves is shown, with buttons to leaf through them.
function showLeaves(picture, solves, view) {
  const words = `solve ${picture.solve + 1} of ${solves.length}, order row ${solves[picture.solve].row} `;
  const shown = make(picture.state, 'span', {class: 'leaves'}, words);
  for (const [by, sign, title] of [[-1, '◀', 'the solve before ([)'], [1, '▶', 'the next solve (])']]) {
    const button = make(shown, 'button', {title}, sign);
    button.disabled = !solves[picture.solve + by];
    button.addEventListener('click', () => leafPicture(picture, by, view));
  }
}

function endedWords(network, solve) {
  const ender = enderOf(network, solve);
  if (!ender) return `ended in column ${solve.end}`;
  return ender.name === 'JSR' ? `the controller stopped in the subroutine of '${ender.text}'` : `ended at '${ender.text}'`;
}
