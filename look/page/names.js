// What references are called, and what their values are in their units.

const hasNames = Object.keys(data.plant.names).length > 0;

// The name of a reference of a controller, or nothing.
function nameOf(node, reference) { return ((data.plant.names[node] || {})[reference] || [''])[0]; }

// A value as the number that it is in its unit; the value itself where it has none. No digit is lost.
function numberOf(node, reference, value) {
  const [, , factor, offset, decimals] = (data.plant.names[node] || {})[reference] || [];
  if (value === null || factor === undefined) return String(value);
  const scaled = BigInt(value) * BigInt(factor) + BigInt(offset), digits = String(scaled < 0n ? -scaled : scaled).padStart(decimals + 1, '0');
  const point = digits.length - decimals;
  return (scaled < 0n ? '-' : '') + digits.slice(0, point) + (decimals ? '.' + digits.slice(point) : '');
}

// The unit of a reference with a blank before it, or nothing.
function unitOf(node, reference) {
  const unit = ((data.plant.names[node] || {})[reference] || [])[1];
  return unit ? ' ' + unit : '';
}

// Whether a value of a reference is more than the number that it holds.
function isMeasure(node, reference) { return ((data.plant.names[node] || {})[reference] || []).length > 2; }

// A text that is cut to about so much room.
function cutTo(text, room, size = 5.9) {
  const most = Math.max(1, Math.floor(room / size));
  return text.length > most ? text.slice(0, most - 1) + '…' : text;
}

// A name in a drawing; one that is cut is told whole where the pointer rests.
function drawName(parent, node, reference, room, place) {
  const text = nameOf(node, reference);
  if (!text) return;
  const shown = cutTo(text, room), element = draw(parent, 'text', {...place, class: 'called'}, shown);
  if (shown !== text) draw(element, 'title', {}, text);
}

// In the label of a row of the timing diagram: the name behind the reference, and before the value what that is in its unit.
function drawNamed(group, row, value, y, begins) {
  const {node, reference} = row, hasMeasure = value !== null && isMeasure(node, reference);
  const measure = hasMeasure ? numberOf(node, reference, value) + unitOf(node, reference) : '', ends = LABEL - 54;
  if (hasMeasure) {
    draw(group, 'text', {x: ends, y, 'text-anchor': 'end', class: 'in-unit', 'data-node': node, 'data-reference': reference}, measure);
  }
  drawName(group, node, reference, ends - begins - (hasMeasure ? 12 + 7 * measure.length : 0), {x: begins, y});
}

// The names that have a text in them, with their references.
function namedLike(text) {
  const found = [], sought = text.toLowerCase();
  for (const [node, names] of Object.entries(data.plant.names)) {
    for (const [reference, [name]] of Object.entries(names)) {
      if (name.toLowerCase().includes(sought)) found.push({node: Number(node), reference, name});
    }
  }
  return found.sort((one, other) => one.node - other.node || one.reference.localeCompare(other.reference));
}

// A list of references whose names have a text in them; a click finds one.
function listNamed(box, text, found, view) {
  make(box, 'h2', {}, `${text}: ${found.length} name${found.length === 1 ? '' : 's'}`);
  if (!found.length) make(box, 'p', {}, 'No reference has such a name.');
  const list = make(box, 'div', {class: 'places'});
  for (const {node, reference, name} of found.slice(0, 400)) {
    const row = make(list, 'div', {class: 'place link', 'data-reference': reference});
    make(row, 'b', {}, reference);
    make(row, 'span', {}, name);
    make(row, 'span', {}, `controller ${node}`);
    pressable(row, byKey => view.find(reference, byKey));
  }
}

// What a reference is called at each controller that has a name for it.
function namesOf(reference) {
  const nodes = Object.keys(data.plant.names).filter(node => nameOf(node, reference));
  return nodes.map(node => `${nameOf(node, reference)} (controller ${node})`).join(', ');
}
