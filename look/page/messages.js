// Draws the calls and the chart of the rings: lists of which only the rows that are seen are drawn.

// Keeps a list's seen rows drawn, each as high as heightOf(number) says. drawRow(element, number, height) fills in a row.
function virtualList(box, heightOf, drawRow) {
  const sheet = box.querySelector('.sheet');
  let tops = new Float64Array(1), first = 0, end = 0;
  // The last row that begins at a height or above it.
  const rowAt = height => {
    let low = 0, high = tops.length - 1;
    while (low < high) {
      const middle = (low + high + 1) >> 1;
      if (tops[middle] <= height) low = middle; else high = middle - 1;
    }
    return low;
  };
  const list = {
    lay(count) {
      tops = new Float64Array(count + 1);
      for (let number = 0; number < count; number++) tops[number + 1] = tops[number] + heightOf(number);
      sheet.style.height = tops[count] + 'px';
    },
    draw() {
      const top = box.scrollTop, bottom = top + (box.clientHeight || 400);
      first = rowAt(Math.max(0, top - LIST_ROW));
      end = Math.min(tops.length - 1, rowAt(bottom + LIST_ROW) + 1);
      sheet.replaceChildren();
      for (let number = first; number < end; number++) {
        const height = tops[number + 1] - tops[number];
        drawRow(make(sheet, 'div', {class: 'row', style: `top:${tops[number]}px;height:${height}px`}), number, height);
      }
    },
    show(number) {
      box.scrollTop = number < 0 ? 0 : tops[Math.max(0, number - 2)];
      list.draw();
    },
  };
  // Draws again once the rows that are drawn are not those that are seen.
  box.addEventListener('scroll', () => requestAnimationFrame(() => {
    if (tops[first] > box.scrollTop || (end < tops.length - 1 && tops[end] < box.scrollTop + box.clientHeight)) list.draw();
  }));
  return list;
}

function drawOutcomes(box, view) {
  box.replaceChildren();
  runs.forEach((run, number) => {
    const group = make(box, 'span', {class: 'group run'}, isPair ? run.name + ': ' : '');
    if (!run.calls.length) make(group, 'span', {class: 'open'}, 'no calls');
    for (const outcome of Object.keys(OUTCOMES)) {
      // A request that bridges send on counts once, under its first name.
      const calls = run.calls.filter(call => call.outcome === outcome && call.kind !== 'bridge');
      if (!calls.length) continue;
      const [sign, words] = OUTCOMES[outcome];
      const button = make(group, 'button', {class: outcome, title: 'the next of them'}, `${sign} ${calls.length} ${words}`);
      let next = 0;
      button.addEventListener('click', () => {
        view.select(calls[next++ % calls.length].id, number);
        document.getElementById('messages').scrollIntoView();
      });
    }
  });
}

function drawCallRow(row, call, view, number) {
  row.classList.add('call', call.outcome);
  row.classList.toggle('selected', view.selected === call.id);
  row.dataset.call = call.id;
  const [sign, words] = OUTCOMES[call.outcome];
  make(row, 'b', {title: words}, sign);
  make(row, 'span', {class: 'id'}, call.id);
  make(row, 'span', {class: 'way'}, wayOf(call));
  make(row, 'span', {class: 'words'}, call.words);
  make(row, 'span', {class: 'result'}, call.result || words);
  make(row, 'span', {class: 'when'}, spanOf(call));
  row.addEventListener('click', () => view.select(call.id, number));
}

function wayOf(call) { return call.kind === 'local' ? 'own port' : `${call.node} → ${call.route}`; }

// The columns of the calls, as wide as what stands in them, and from that the height of each row.
function layCalls(box, calls) {
  const measure = new Measure(box, 400), bold = new Measure(box, 600);
  const widest = (least, textOf) => Math.ceil(calls.reduce((most, call) => Math.max(most, measure.width(textOf(call))), least)) + 4;
  const id = widest(40, call => call.id), way = widest(50, wayOf), when = widest(60, spanOf);
  for (const [name, width] of Object.entries({id, way, when})) box.style.setProperty(`--${name}`, width + 'px');
  // Padding, sign and the gaps between six columns.
  const room = Math.max(60, (box.clientWidth - 12 - 16 - 5 * 8 - id - way - when) / 2 - 2);
  return call => {
    const lines = Math.max(linesOf([[measure, call.words]], room), linesOf([[bold, call.result || OUTCOMES[call.outcome][1]]], room));
    return LIST_ROW + (lines - 1) * LIST_LINE;
  };
}

// A call in full: where it began, was served and ended, and its lines in the journal.
function drawCall(box, call, view) {
  box.hidden = !call;
  box.replaceChildren();
  if (!call) return;
  box.className = call.outcome;
  const [sign, words] = OUTCOMES[call.outcome];
  make(box, 'h3', {}, `${sign} Call ${call.id}: ${words}`);
  const target = call.kind === 'local' ? 'its own port' : call.target;
  make(box, 'p', {}, `Node ${call.node} asks ${target}: ${call.words}.`);
  make(box, 'p', {class: 'result'}, call.result);
  const steps = make(box, 'p', {});
  step(steps, 'began', call.began, view);
  if (call.onward) {
    const on = make(steps, 'span', {class: 'step link onward'}, 'went on as call ' + call.onward);
    pressable(on, () => view.select(call.onward, view.charted));
  }
  const others = call.outcome === 'good' ? "answered by the node's port" : 'nobody served it';
  if (call.served) step(steps, `served at node ${call.served[0]}`, call.served.slice(1), view);
  else if (call.declined) step(steps, `came to node ${call.declined[0]} without power`, call.declined.slice(1), view);
  else if (call.kind !== 'local') make(steps, 'span', {class: 'step'}, others);
  step(steps, 'ended', call.ended, view);
  if (call.tries) make(steps, 'span', {class: 'step'}, `${call.tries} transmissions`);
  const lines = make(box, 'table', {class: 'lines'});
  const run = runs[view.charted];
  for (const line of call.lines) {
    const row = make(lines, 'tr', {});
    for (const text of [line, sectionOf(run, line), lineOf(run, line)]) make(row, 'td', {}, text);
  }
}

function step(box, name, at, view) {
  const span = make(box, 'span', {class: 'step'}, name + ' ' + whenOf(at));
  if (at && at[0]) {
    span.classList.add('link');
    pressable(span, () => view.moveTo(at[0]));
  }
}

// Whether a run has more to tell of its rings than that the token went round, and that all left when they were done.
function tellsOfRings(run) {
  const ends = row => row.kind === 'leave' && row.words.endsWith('all are done');
  return run.calls.length > 0 || run.rows.some(row => !ends(row) && row.kind !== 'idle' && (row.kind !== 'pass' || row.words.includes('global')));
}

// The rows of the chart that are wanted; network is 0 for those of all.
function chartRows(run, framesAlone, network) {
  const kinds = ['send', 'give up', 'leave', 'join'];
  return run.rows.filter(row => (!framesAlone || kinds.includes(row.kind)) && (!network || row.network === network));
}

// How high the rows of the chart are, beside these lanes.
function layChart(box, rows, lanes) {
  const measure = new Measure(box, 400), bold = new Measure(box, 600), room = Math.max(60, box.clientWidth - 68 - lanes.width - 12);
  return row => {
    const {head, fate, tail} = partsOf(row);
    return LIST_ROW + (linesOf([[measure, head], [bold, fate], [measure, tail]], room) - 1) * LIST_LINE;
  };
}

function drawLaneNames(box, lanes) {
  box.replaceChildren();
  const top = lanes.groups.length ? 16 : 0;
  box.style.height = 20 + top + 'px';
  const svg = draw(box, 'svg', {width: lanes.width, height: 20 + top});
  make(box.insertBefore(document.createElement('span'), svg), 'b', {}, top ? 'network, node' : 'node');
  for (const {number, from, to} of lanes.groups) {
    draw(svg, 'rect', {x: from + 1, y: 1, width: to - from - 2, height: 15, class: 'of-network'});
    draw(svg, 'text', {x: (from + to) / 2, y: 12, 'text-anchor': 'middle', class: 'network'}, to - from > 62 ? 'network ' + number : number);
  }
  for (const node of lanes.nodes) draw(svg, 'text', {x: lanes.x(node), y: 14 + top, 'text-anchor': 'middle', class: 'name'}, node);
}

// The lines of all lanes as one path.
function laneLines(lanes, height) { return lanes.nodes.map(node => `M${lanes.x(node)} 0V${height}`).join(''); }

function drawChartRow(element, rows, number, height, lanes, view) {
  const row = rows[number], before = rows[number - 1];
  const isNew = row.scan && (!before || before.scan !== row.scan);
  element.classList.add('entry', row.kind.replace(' ', '-'));
  element.classList.toggle('selected', !!row.id && view.selected === row.id);
  element.classList.toggle('begins', !!isNew);
  if (row.id) element.dataset.call = row.id;
  make(element, 'span', {class: 'scan'}, isNew ? 'scan ' + row.scan : '');
  const svg = draw(element, 'svg', {width: lanes.width, height});
  draw(svg, 'path', {d: laneLines(lanes, height), class: 'lane'});
  if (row.kind !== 'idle' && lanes.has(row.node)) {
    draw(svg, 'rect', {x: lanes.x(row.node) - 5, y: 0, width: 10, height, class: 'hold'});
  }
  drawMark(svg, row, lanes);
  const {head, fate, tail} = partsOf(row);
  const words = make(element, 'span', {class: 'words'}, head);
  if (fate) make(words, 'i', {class: isBadMark(row) ? 'bad' : 'good'}, fate);
  words.append(tail);
  element.title = `line ${row.line}: ${row.kind === 'idle' ? 'passes of the token' : lineOf(runs[view.charted], row.line)}`;
  if (row.id) element.addEventListener('click', () => view.select(row.id, view.charted));
}

// The text of a row, with the fate apart.
function partsOf(row) {
  const head = (row.network ? `network ${row.network}: ` : '') + wordsOf(row);
  return {head, fate: row.fate ? ' ' + row.fate : '', tail: row.kind === 'send' && row.words ? ' – ' + row.words : ''};
}

function isBadMark(row) { return row.kind === 'give up' || ((row.kind === 'send' || row.kind === 'local') && row.mark !== 'came'); }

function frameName(row) { return (row.what === 'Q' ? 'request ' : 'reply to ') + row.id; }

function wordsOf(row) {
  switch (row.kind) {
    case 'idle': return (row.count === 1 ? `node ${row.node} passes the token` : `the token goes on, ${row.count} passes from node ${row.node}`) + ', nothing else';
    case 'post': return `puts ${frameName(row)} to ${row.target} into its outbox`;
    case 'send': return row.id ? `${frameName(row)} to ${row.target}${row.tries > 1 ? `, try ${row.tries}` : ''}:` : 'sends';
    case 'take': return `takes ${frameName(row)}${row.onward ? `, which is to go on to ${row.onward}` : ''}`;
    case 'local': return `own port, ${row.id}, ${row.words}:`;
    case 'give up': return `gives up ${row.id}:`;
    default: return row.words + (row.done ? ', and is done' : '');
  }
}

// The mark of an entry: an arrow for a frame, which stops short where the frame is lost.
function drawMark(svg, row, lanes) {
  const middle = LIST_ROW / 2, x = lanes.has(row.node) ? lanes.x(row.node) : 8;
  if (row.kind === 'idle') {
    const group = lanes.groups.find(one => one.number === row.network) || {from: 8, to: lanes.width - 8};
    draw(svg, 'line', {x1: group.from, x2: group.to, y1: middle, y2: middle, class: 'token'});
  } else if (row.kind === 'send' && row.id) {
    drawArrow(svg, row, x, lanes.x(row.to), middle, lanes.has(row.to));
  } else if (row.kind === 'take') {
    draw(svg, 'circle', {cx: x, cy: middle, r: 5, class: 'taken'});
  } else if (row.kind === 'post') {
    draw(svg, 'circle', {cx: x, cy: middle, r: 4, class: 'posted'});
  } else if (row.kind === 'local') {
    draw(svg, 'rect', {x: x - 5, y: middle - 5, width: 10, height: 10, class: isBadMark(row) ? 'refused' : 'taken'});
    if (isBadMark(row)) draw(svg, 'text', {x: x + 13, y: middle + 5, 'text-anchor': 'middle', class: 'bad cross'}, '✕');
  } else if (row.kind === 'give up') {
    draw(svg, 'text', {x, y: middle + 6, 'text-anchor': 'middle', class: 'bad cross'}, '✕');
  } else {
    draw(svg, 'path', {d: `M${x - 5} ${middle}L${x} ${middle - 5}L${x + 5} ${middle}L${x} ${middle + 5}Z`, class: 'pass'});
  }
}

function drawArrow(svg, row, from, to, y, isLane) {
  const right = to > from ? 1 : -1, isLost = row.mark === 'lost' || row.mark === 'nobody';
  const end = !isLost ? to - 6 * right : isLane ? from + (to - from) * 0.6 : to;
  draw(svg, 'line', {x1: from, x2: end, y1: y, y2: y, class: 'frame ' + row.what + ' ' + row.mark});
  if (isLost) {
    draw(svg, 'text', {x: end, y: y + 5, 'text-anchor': 'middle', class: 'bad cross'}, '✕');
  } else {
    draw(svg, 'path', {d: `M${to} ${y}l${-8 * right} -4v8Z`, class: 'tip ' + row.mark});
    const told = {busy: 'full', unheard: 'ack lost'}[row.mark];
    if (told) draw(svg, 'text', {x: (from + to) / 2, y: y - 1, 'text-anchor': 'middle', class: 'bad small'}, told);
  }
}
