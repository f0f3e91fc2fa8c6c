// Draws the timing diagram: only the rows and scans that are seen.

const SVG = 'http://www.w3.org/2000/svg';

function draw(parent, name, attributes, text) {
  const element = document.createElementNS(SVG, name);
  for (const key in attributes) if (attributes[key] !== undefined) element.setAttribute(key, attributes[key]);
  if (text !== undefined) element.textContent = text;
  parent.appendChild(element);
  return element;
}

function make(parent, name, attributes, text) {
  const element = document.createElement(name);
  for (const key in attributes) element.setAttribute(key, attributes[key]);
  if (text !== undefined) element.textContent = text;
  parent.appendChild(element);
  return element;
}

// Lets an element be pressed: by a click, or by Enter or the space bar once Tab has come to it. The action hears whether it was by key.
function pressable(element, action) {
  element.setAttribute('tabindex', 0);
  element.setAttribute('role', 'button');
  element.addEventListener('click', () => action(false));
  element.addEventListener('keydown', event => {
    if (event.key !== 'Enter' && event.key !== ' ') return;
    event.preventDefault();
    action(true);
  });
}

function drawTiming(view) {
  const {box, svg, scale, rows} = view;
  scale.width = box.clientWidth;
  scale.from = box.scrollLeft;
  const height = Math.min(box.clientHeight || 400, AXIS + rows.length * ROW);
  svg.setAttribute('width', scale.width);
  svg.setAttribute('height', height);
  svg.replaceChildren();
  view.drawn = {height, labels: []};
  drawColumns(svg, scale, height, view.drawn);
  const begin = Math.floor(box.scrollTop / ROW);
  const end = Math.min(rows.length, begin + Math.ceil(height / ROW) + 1);
  const plot = draw(svg, 'g', {'clip-path': 'url(#below-axis)'});
  for (let number = begin; number < end; number++) drawRow(plot, view, rows[number], AXIS + number * ROW - box.scrollTop);
  drawAxis(svg, scale, height, view.drawn);
  drawCursor(view);
}

// What moves with the cursor: its column, the values at it, and the measure up to it.
function drawCursor(view) {
  const {scale, cursor, drawn} = view;
  drawn.column.setAttribute('x', scale.x(cursor - 1));
  drawn.at.textContent = cursor;
  for (const {row, y, named, value} of drawn.labels) {
    const held = valueAt(runs[row.run], row.node, row.reference, cursor);
    value.textContent = held === null ? '–' : held;
    value.classList.toggle('on', !!held);
    named.replaceChildren();
    drawNamed(named, row, held, y + 17, isPair ? 92 : 56);
  }
  drawMeasure(view);
}

// The scans as columns, that of the cursor marked.
function drawColumns(svg, scale, height, drawn) {
  const clips = draw(svg, 'defs', {});
  draw(draw(clips, 'clipPath', {id: 'below-axis'}), 'rect', {x: 0, y: AXIS, width: scale.width, height});
  draw(draw(clips, 'clipPath', {id: 'right-of-labels'}), 'rect', {x: LABEL, y: 0, width: scale.width, height: height + ROW});
  const pattern = {id: 'stripes', width: 6, height: 6, patternUnits: 'userSpaceOnUse', patternTransform: 'rotate(45)'};
  const stripes = draw(clips, 'pattern', pattern);
  draw(stripes, 'rect', {width: 2, height: 6, class: 'stripe'});
  const inside = draw(svg, 'g', {'clip-path': 'url(#right-of-labels)'});
  const step = scale.step();
  for (let scan = Math.ceil(scale.first / step) * step; scan <= scale.last; scan += step) {
    draw(inside, 'line', {x1: scale.x(scan), x2: scale.x(scan), y1: AXIS, y2: height, class: 'grid'});
  }
  drawn.column = draw(inside, 'rect', {y: 0, width: Math.max(2, scale.zoom), height, class: 'cursor'});
}

function drawAxis(svg, scale, height, drawn) {
  draw(svg, 'rect', {x: 0, y: 0, width: LABEL, height: AXIS, class: 'corner'});
  draw(svg, 'text', {x: 8, y: 16, class: 'axis'}, 'after scan');
  drawn.at = draw(svg, 'text', {x: LABEL - 8, y: 16, class: 'axis at', 'text-anchor': 'end'});
  const inside = draw(svg, 'g', {'clip-path': 'url(#right-of-labels)'});
  const step = scale.step();
  for (let scan = Math.max(step, Math.floor(scale.first / step) * step); scan <= scale.last; scan += step) {
    draw(inside, 'text', {x: (scale.x(scan - 1) + scale.x(scan)) / 2, y: 16, class: 'axis', 'text-anchor': 'middle'}, scan);
  }
  draw(svg, 'line', {x1: LABEL, x2: LABEL, y1: 0, y2: height, class: 'edge'});
  drawn.measure = draw(svg, 'g', {'clip-path': 'url(#right-of-labels)', class: 'measure'});
}

// From the mark's edge to the cursor's: a value that a scan changed has its edge where the scan's column begins.
function drawMeasure(view) {
  const {scale, cursor, mark, drawn} = view, group = drawn.measure;
  group.replaceChildren();
  if (!mark) return;
  const from = scale.x(mark.scan - 1), to = scale.x(cursor - 1), y = AXIS - 4;
  for (const x of [from, to]) draw(group, 'line', {x1: x, x2: x, y1: y - 6, y2: drawn.height, class: 'limit'});
  draw(group, 'path', {d: `M${from - 5} 2h10l-5 8z`, class: 'flag'});
  if (from === to) return;
  const side = to > from ? 1 : -1;
  draw(group, 'path', {d: `M${from} ${y}H${to}M${to - 6 * side} ${y - 3}L${to} ${y}l${-6 * side} 3`, class: 'span'});
  const text = spanWords(view, cursor - mark.scan), width = text.length * 6.5 + 8, middle = (from + to) / 2;
  if (Math.abs(to - from) < width + 14) return;
  draw(group, 'rect', {x: middle - width / 2, y: 1, width, height: AXIS - 8, class: 'side'});
  draw(group, 'text', {x: middle, y: 13, 'text-anchor': 'middle', class: 'axis at'}, text);
}

// A number of scans, with the seconds that they take in the run of the chosen row.
function spanWords(view, scans) {
  const {scan_time: time} = runs[view.row < 0 ? 0 : view.rows[view.row].run];
  const count = Math.abs(scans), seconds = String(Number((count * time / 100).toFixed(2)));
  return `${count} scan${count === 1 ? '' : 's'}, ${seconds} s`;
}

// The edges of a row in rising order: the scans in which its value is another than before, or in which a call began or ended.
function edgesOf(row) {
  const scans = new Set(), run = runs[row.run];
  if (row.kind === 'calls') {
    for (const {began, ended} of row.calls) for (const at of [began, ended]) if (at && at[0]) scans.add(at[0]);
    return [...scans].sort((one, other) => one - other);
  }
  const changes = (run.values[row.node] || {})[row.reference] || [];
  for (let place = 0; place < changes.length; place += 2) {
    // Before the first scan everything is 0.
    if (place || changes[1]) scans.add(changes[place]);
  }
  return [...scans];
}

// What happened in a row at a scan, in words.
function edgeWords(row, scan) {
  if (!row || row.kind === 'head' || !edgesOf(row).includes(scan)) return `scan ${scan}`;
  if (row.kind === 'calls') return `a call of node ${row.node} in scan ${scan}`;
  const told = [scan - 1, scan].map(one => valueAt(runs[row.run], row.node, row.reference, one));
  const numbers = told.map(one => (one === null ? '–' : numberOf(row.node, row.reference, one)));
  return `${row.reference} ${numbers.join('→')}${unitOf(row.node, row.reference)} in scan ${scan}`;
}

function drawRow(plot, view, row, y) {
  const {scale} = view;
  if (row.kind === 'head') {
    draw(plot, 'rect', {x: 0, y, width: scale.width, height: ROW, class: 'head'});
    draw(plot, 'text', {x: 8, y: y + 17, class: 'name'}, row.text);
    return;
  }
  const run = runs[row.run];
  const inside = draw(plot, 'g', {'clip-path': 'url(#right-of-labels)'});
  drawLabel(plot, view, row, y);
  if (row.kind === 'calls') {
    drawCalls(inside, view, row, run, y);
    return;
  }
  drawDifferences(inside, scale, row, y);
  const changes = (run.values[row.node] || {})[row.reference] || [];
  const last = Math.min(scale.last, lastScan(run, row.node));
  if (changes.length && scale.first <= last) {
    const spans = spansOf(changes, scale.first, last).filter(span => span.value !== null);
    if (row.kind === 'bit') drawBit(inside, scale, spans, y, row); else drawWord(inside, scale, spans, y, row);
  }
  drawStop(inside, scale, run, row.node, y);
  draw(plot, 'line', {x1: 0, x2: scale.width, y1: y + ROW, y2: y + ROW, class: 'under'});
}

function drawLabel(plot, view, row, y) {
  const side = isPair ? ' ' + data.pair.sides[row.run] : '', isChosen = row === view.rows[view.row];
  const group = draw(plot, 'g', {class: isChosen ? 'label chosen' : 'label'});
  draw(group, 'rect', {x: 0, y, width: LABEL, height: ROW, class: 'side'});
  if (isChosen) draw(group, 'path', {d: `M0 ${y + 6}l6 7l-6 7z`, class: 'flag'});
  if (row.kind === 'calls') {
    draw(group, 'text', {x: 8, y: y + 17, class: 'name'}, 'calls' + side);
    return;
  }
  const name = draw(group, 'text', {x: 8, y: y + 17, class: 'name link'}, row.reference + side);
  pressable(name, byKey => view.find(row.reference, byKey));
  const named = draw(group, 'g', {});
  const value = draw(group, 'text', {
    x: LABEL - 8, y: y + 17, 'text-anchor': 'end', class: 'value',
    'data-node': row.node, 'data-reference': row.reference, 'data-run': row.run,
  });
  view.drawn.labels.push({row, y, named, value});
}

// A discrete: a line that is high or low, filled below where it is on. Narrow fills are drawn as one.
function drawBit(plot, scale, spans, y, row) {
  const high = y + 5, low = y + ROW - 5;
  let line = '', narrow = '', told = null;
  for (const span of spans) {
    const left = scale.x(span.from - 1), right = scale.x(span.to);
    line += `${told === span.from - 1 ? 'V' : 'M' + left + ' '}${span.value ? high : low}H${right}`;
    told = span.to;
    if (!span.value) continue;
    if (right - left < 4) {
      narrow += `M${left} ${high}H${right}V${low}H${left}Z`;
    } else {
      const box = {x: left, y: high, width: right - left, height: low - high, class: 'high'};
      draw(plot, 'rect', {...box, ...marksOf(row, span)});
    }
  }
  if (narrow) draw(plot, 'path', {d: narrow, class: 'high'});
  draw(plot, 'path', {d: line, class: 'line', 'data-reference': row.reference, 'data-node': row.node});
}

// What a piece of a row shows, for who looks at the page with a tool.
function marksOf(row, span) {
  return {'data-node': row.node, 'data-reference': row.reference, 'data-from': span.from, 'data-to': span.to, 'data-value': span.value};
}

// A register: a band for each value. Bands that are too narrow to be told apart are drawn as one.
function drawWord(plot, scale, spans, y, row) {
  let dense = null;
  const close = () => {
    if (dense) draw(plot, 'rect', {x: dense.left, y: y + 5, width: dense.right - dense.left, height: ROW - 10, class: 'dense'});
    dense = null;
  };
  for (const span of spans) {
    const left = scale.x(span.from - 1), right = scale.x(span.to);
    if (right - left < 4) {
      dense = dense ? {left: dense.left, right} : {left, right};
      continue;
    }
    close();
    drawBand(plot, scale, span, left, right, y, row);
  }
  close();
}

function drawBand(plot, scale, span, left, right, y, row) {
  const slant = Math.min(4, (right - left) / 4), top = y + 4, low = y + ROW - 4, middle = y + ROW / 2;
  const d = `M${left} ${middle}L${left + slant} ${top}H${right - slant}L${right} ${middle}L${right - slant} ${low}H${left + slant}Z`;
  draw(plot, 'path', {d, class: 'band', ...marksOf(row, span)});
  const seenLeft = Math.max(left, LABEL), seenRight = Math.min(right, scale.width);
  const number = numberOf(row.node, row.reference, span.value);
  if (seenRight - seenLeft > 8 + number.length * 7) {
    draw(plot, 'text', {x: (seenLeft + seenRight) / 2, y: y + 17, class: 'number', 'text-anchor': 'middle'}, number);
  }
}

// Where two runs differ.
function drawDifferences(plot, scale, row, y) {
  if (!isPair) return;
  for (const [from, to] of (data.pair.ranges[row.node] || {})[row.reference] || []) {
    if (to < scale.first || from > scale.last) continue;
    const left = scale.x(from - 1), width = Math.max(1.5, scale.x(to) - left);
    draw(plot, 'rect', {x: left, y: y + 1, width, height: ROW - 2, class: 'differs', ...marksOf(row, {from, to})});
  }
}

// From the scan of a stop on nothing is told; a dark scan has no values.
function drawStop(plot, scale, run, node, y) {
  const stop = run.stops[node];
  if (stop) {
    const left = scale.x(stop[0] - 1);
    draw(plot, 'rect', {x: left, y: y + 3, width: Math.max(0, scale.x(scale.scans) - left), height: ROW - 6, class: 'stopped'});
    draw(plot, 'text', {x: left + 6, y: y + 17, class: 'bad'}, `✕ stopped in scan ${stop[0]}, code ${stop[1]}`);
  }
  for (const scan of run.dark[node] || []) {
    const box = {x: scale.x(scan - 1), y: y + 3, width: scale.zoom, height: ROW - 6, class: 'stopped dark'};
    if (scan >= scale.first && scan <= scale.last) draw(plot, 'rect', box);
  }
}

// Calls of a node as bars from their beginning to their end, a path below the other.
function drawCalls(plot, view, row, run, y) {
  const {scale} = view;
  for (const call of row.calls) {
    const from = call.began[0], to = call.ended && call.ended[0] ? call.ended[0] : scale.scans;
    if (to < scale.first || from > scale.last) continue;
    const path = Number(call.id.split('.')[1]), top = y + 3 + path * 4;
    const left = scale.x(from) - Math.min(8, scale.zoom / 2), right = Math.max(left + 3, scale.x(to));
    const bar = draw(plot, 'g', {class: 'call ' + call.outcome, 'data-call': call.id});
    bar.classList.toggle('selected', view.selected === call.id);
    draw(bar, 'rect', {x: left, y: top, width: right - left, height: 4});
    if (scale.zoom > 7) draw(bar, 'text', {x: right + 1, y: top + 6}, OUTCOMES[call.outcome][0]);
    draw(bar, 'title', {}, `${call.id} to ${call.target}: ${call.words}; ${OUTCOMES[call.outcome][1]}: ${call.result}`);
    bar.addEventListener('click', event => { event.stopPropagation(); view.select(call.id, row.run); });
  }
}
