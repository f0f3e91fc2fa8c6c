// Draws the networks of a plant of version 2: a line for each, its stations above it, the bridges between the lines, and the traffic at a scan.

const WEB = {names: 150, station: 106, narrow: 48, bridge: 48, row: 92, line: 62, box: 26};

// Where things stand: the heights of the lines, the columns of stations, and those of bridges, of which two that do not meet share one.
function webLayout(plant) {
  const numbers = [...new Set(Object.values(plant.networks))].sort((one, other) => one - other);
  const heights = new Map(numbers.map((number, place) => [number, WEB.line + place * WEB.row]));
  const ends = new Set(plant.bridges.flatMap(([, left, , right]) => [left, right]));
  const stations = numbers.map(number => Object.keys(plant.networks).map(Number).filter(node => networkOf(node) === number && !ends.has(node)));
  const most = Math.max(...stations.map(list => list.length)), wide = most > 8 ? WEB.narrow : WEB.station;
  const x = new Map(stations.flatMap(list => list.map((node, place) => [node, WEB.names + (place + 0.5) * wide])));
  const from = WEB.names + most * wide + WEB.bridge / 2, columns = [];
  for (const [left, one, right, other] of plant.bridges) {
    const [top, low] = [heights.get(left), heights.get(right)].sort((a, b) => a - b);
    let column = columns.findIndex(spans => spans.every(([begin, end]) => end < top || begin > low));
    if (column < 0) column = columns.push([]) - 1;
    columns[column].push([top, low]);
    for (const end of [one, other]) x.set(end, from + column * WEB.bridge);
  }
  return {numbers, heights, x, wide, ends, width: from + columns.length * WEB.bridge + 16, height: WEB.line + (numbers.length - 1) * WEB.row + 34};
}

// Frames by node and by network: in all, lost ones, and those of each scan.
function trafficOf(run) {
  const found = new Map();
  const add = (name, row) => {
    if (!found.has(name)) found.set(name, {sent: 0, lost: 0, scans: new Map()});
    const all = found.get(name);
    if (!all.scans.has(row.scan)) all.scans.set(row.scan, [0, 0]);
    const own = all.scans.get(row.scan), lost = row.mark === 'came' ? 0 : 1;
    all.sent += 1; all.lost += lost; own[0] += 1; own[1] += lost;
  };
  for (const row of run.rows) {
    if (row.kind !== 'send') continue;
    add(row.node, row);
    add('network ' + row.network, row);
  }
  return found;
}

function framesWords(sent, lost) { return `${sent} frame${sent === 1 ? '' : 's'}${lost ? `, ${lost} ✕` : ''}`; }

// The way of a call: a list of places [node, network], and whether each address of its route is there.
function wayOnWeb(plant, call) {
  const way = [[call.node, networkOf(call.node)]];
  const addresses = call.route.split('.').map(Number);
  let network = networkOf(call.node);
  for (const [place, address] of addresses.entries()) {
    if (networkOf(address) !== network) return {way, isWhole: false};
    way.push([address, network]);
    if (place + 1 === addresses.length) break;
    const bridge = plant.bridges.find(([, one, , other]) => one === address || other === address);
    if (!bridge) return {way, isWhole: false};
    const [left, one, right, other] = bridge;
    const far = one === address ? [other, right] : [one, left];
    network = far[1];
    way.push(far);
  }
  return {way, isWhole: true};
}

class Web {
  constructor(section, view) {
    this.view = view;
    this.svg = section.querySelector('svg');
    this.list = section.querySelector('.ways');
    this.layout = webLayout(data.plant);
    this.traffic = runs.map(trafficOf);
    const {width, height} = this.layout;
    for (const [name, value] of Object.entries({width, height, viewBox: `0 0 ${width} ${height}`})) this.svg.setAttribute(name, value);
    this.counts = new Map();
    this.drawLines();
    this.ways = draw(this.svg, 'g', {});
    this.drawNodes();
  }

  drawLines() {
    const {numbers, heights, width} = this.layout;
    for (const number of numbers) {
      const y = heights.get(number);
      draw(this.svg, 'line', {x1: WEB.names, x2: width - 12, y1: y, y2: y, class: 'cable'});
      draw(this.svg, 'text', {x: 8, y: y - 12, class: 'name'}, 'network ' + number);
      this.counts.set('network ' + number, draw(this.svg, 'text', {x: 8, y: y + 4, class: 'traffic'}));
      this.counts.set('all ' + number, draw(this.svg, 'text', {x: 8, y: y + 19, class: 'traffic'}));
    }
    for (const [left, one, right] of data.plant.bridges) {
      const x = this.layout.x.get(one);
      draw(this.svg, 'line', {x1: x, x2: x, y1: heights.get(left), y2: heights.get(right), class: 'cable bridge'});
    }
  }

  drawNodes() {
    const {heights, x, wide, ends} = this.layout;
    const hosts = new Set(data.plant.hosts);
    for (const [node, left] of x) {
      const isEnd = ends.has(node), y = heights.get(networkOf(node)), kind = isEnd ? 'bridge end' : hosts.has(node) ? 'host' : 'controller';
      const group = draw(this.svg, 'g', {class: 'node ' + kind, 'data-node': node});
      const half = isEnd ? 15 : wide / 2 - 4, top = isEnd ? y - 10 : y - 48;
      if (!isEnd) draw(group, 'line', {x1: left, x2: left, y1: y - 22, y2: y, class: 'cable'});
      draw(group, 'rect', {x: left - half, y: top, width: 2 * half, height: isEnd ? 20 : WEB.box, rx: kind === 'controller' ? 1 : 9, class: 'box'});
      draw(group, 'text', {x: left, y: top + (isEnd ? 14 : 17), 'text-anchor': 'middle', class: 'name'}, wide === WEB.narrow || isEnd ? node : `${kind} ${node}`);
      this.counts.set(node, draw(group, 'text', {x: left - (isEnd ? 17 : 5), y: isEnd ? y - 4 : y - 8, 'text-anchor': 'end', class: 'traffic'}));
      draw(group, 'title', {}, '');
      pressable(group, () => this.next(node));
    }
  }

  // Selects the next call of a station, or of those that a bridge sent on at this end.
  next(node) {
    const {view} = this, calls = runs[view.charted].calls.filter(call => call.node === node || (call.served && call.served[0] === node));
    if (!calls.length) return;
    const place = calls.findIndex(call => call.id === view.selected);
    view.select(calls[(place + 1) % calls.length].id, view.charted);
    this.draw();
  }

  draw() {
    const {view, layout} = this, traffic = this.traffic[view.charted];
    // In a live run no frame belongs to a scan.
    const hasScans = runs[view.charted].rows.some(row => row.scan);
    for (const number of layout.numbers) {
      const {sent, lost, scans} = traffic.get('network ' + number) || {sent: 0, lost: 0, scans: new Map()};
      this.counts.get('network ' + number).textContent = hasScans ? framesWords(...(scans.get(view.cursor) || [0, 0])) : 'in the whole run';
      this.counts.get('all ' + number).textContent = (hasScans ? 'of ' : '') + framesWords(sent, lost);
    }
    for (const node of layout.x.keys()) {
      const {sent, lost, scans} = traffic.get(node) || {sent: 0, lost: 0, scans: new Map()}, own = scans.get(view.cursor) || [0, 0];
      const element = this.counts.get(node);
      element.textContent = own[0] ? `${own[0]}${own[1] ? '✕' : ''}` : '';
      element.classList.toggle('bad', own[1] > 0);
      element.parentElement.querySelector('title').textContent =
        besideNetwork(`node ${node}`, node) + `: sends ${hasScans ? `${framesWords(...own)} in scan ${view.cursor}, of ` : ''}${framesWords(sent, lost)}; ` +
        'Enter or a click: its next call';
    }
    this.drawWays();
  }

  // The calls that are under way at the cursor's scan.
  drawWays() {
    const {view, layout} = this, {cursor, selected} = view;
    const isUnderWay = ({began, ended}) => began && began[0] && began[0] <= cursor && (!ended || !ended[0] || ended[0] >= cursor);
    const isThere = call => layout.x.has(call.node) && call.kind !== 'local' && call.kind !== 'bridge';
    const all = runs[view.charted].calls.filter(call => isThere(call) && (call.id === selected || isUnderWay(call)));
    const calls = all.slice(0, 12);
    this.ways.replaceChildren();
    this.list.replaceChildren();
    calls.forEach((call, place) => this.drawWay(call, 6 + place * Math.min(4, 16 / calls.length)));
    for (const call of calls) {
      const [sign, words] = OUTCOMES[call.outcome];
      const button = make(this.list, 'button', {class: call.outcome, title: words}, `${sign} ${call.id}, ${wayOf(call)}: ${call.words}`);
      button.classList.toggle('selected', call.id === selected);
      button.addEventListener('click', () => { view.select(call.id, view.charted); this.draw(); });
    }
    if (all.length > calls.length) make(this.list, 'span', {}, `and ${all.length - calls.length} more`);
    if (!all.length) make(this.list, 'span', {class: 'open'}, 'no call between nodes is under way in this scan');
    this.svg.querySelectorAll('.node').forEach(node => {
      const isOn = calls.some(call => call.id === selected && (call.node === Number(node.dataset.node) || call.route.split('.').includes(node.dataset.node)));
      node.classList.toggle('selected', isOn);
    });
  }

  drawWay(call, shift) {
    const {layout} = this, {way, isWhole} = wayOnWeb(data.plant, call);
    let d = '', x = 0, y = 0;
    way.forEach(([node, network], place) => {
      x = layout.x.get(node) + shift;
      y = layout.heights.get(network) - shift;
      const isStation = !layout.ends.has(node);
      if (!place) d += `M${x} ${layout.heights.get(network) - 22}V${y}`;
      else d += `L${x} ${y}`;
      if (place && isStation) d += `V${y = layout.heights.get(network) - 22}`;
    });
    if (!isWhole) { x += 18; d += `H${x}`; }
    const group = draw(this.ways, 'g', {class: `way ${call.outcome}` + (call.id === this.view.selected ? ' selected' : '')});
    draw(group, 'path', {d});
    if (isWhole && !layout.ends.has(way[way.length - 1][0])) draw(group, 'path', {d: `M${x - 5} ${y + 8}L${x} ${y}L${x + 5} ${y + 8}`});
    draw(group, 'text', {x: x + 7, y: y + 12, class: 'sign'}, OUTCOMES[call.outcome][0]);
    draw(group, 'title', {}, `${call.id} to ${call.target}: ${call.words}; ${OUTCOMES[call.outcome][1]}: ${call.result}`);
  }
}
