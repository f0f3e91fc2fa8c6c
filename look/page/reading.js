'use strict';
// What the page was given, and what a run had at a scan. Nothing here computes a value: all are the program's.

const data = JSON.parse(document.getElementById('data').textContent);
const runs = data.runs.map(unpackRun);
const isPair = runs.length === 2;

// Lists of records come as columns: look/packing.py says how.
function unpack({count, columns}) {
  const records = Array.from({length: count}, () => ({}));
  for (const key in columns) fillColumn(records, key, columns[key]);
  return records;
}

function fillColumn(records, key, {steps, table, at, runs}) {
  if (at) { at.forEach((place, number) => { records[number][key] = table[place]; }); return; }
  const pairs = steps || runs;
  let number = 0, sum = 0;
  for (let pair = 0; pair < pairs.length; pair += 2) {
    for (let left = pairs[pair + 1]; left > 0; left--) {
      sum += pairs[pair];
      records[number++][key] = steps ? sum : table[pairs[pair]];
    }
  }
}

function unpackRun(run) {
  const calls = unpack(run.calls), text = run.journal.split('\n');
  for (const call of calls) {
    let line = 0;
    call.lines = call.lines.map(step => line += step);
  }
  const heads = text.flatMap((one, place) => (/^[CHWR]( \d+)*$/.test(one) ? [place + 1] : []));
  return {...run, calls, rows: unpack(run.rows), text, heads, byId: new Map(calls.map((call, number) => [call.id, number]))};
}

// A line of the journal, and the one that begins its section.
function lineOf(run, line) { return run.text[line - 1]; }
function sectionOf(run, line) { return lineOf(run, run.heads.findLast(head => head < line)); }

// The last entry of a list of changes (scan, value, scan, value, ..) that is not behind a scan.
function lastChange(changes, scan) {
  let low = 0, high = changes.length / 2;
  while (low < high) {
    const middle = (low + high) >> 1;
    if (changes[2 * middle] <= scan) low = middle + 1; else high = middle;
  }
  return low - 1;
}

// A reference's value as a scan left it; 0 before the first scan, null where the run tells none.
function valueAt(run, node, reference, scan) {
  const changes = (run.values[node] || {})[reference];
  if (!changes || scan > lastScan(run, node)) return null;
  const place = lastChange(changes, scan);
  return place < 0 ? 0 : changes[2 * place + 1];
}

// The last scan of which a controller has a panel line with values.
function lastScan(run, node) { return run.lasts[node] || 0; }

function controllerOf(node) { return data.plant.controllers.find(one => one.node === node); }

function isBit(reference) { return reference[0] === '0' || reference[0] === '1'; }

// The panel lines of a scan.
function panelLines(run, scan) {
  const lines = [];
  for (const {node, panel} of data.plant.controllers) {
    const stop = run.stops[node], head = `S ${scan} N ${node}`;
    if (stop && stop[0] === scan) lines.push(`${head} STOP ${stop[1]}`);
    else if ((run.dark[node] || []).includes(scan)) lines.push(head + ' OFF');
    else if (scan <= lastScan(run, node)) lines.push([head, ...valuesOf(run, node, panel, scan)].join(' '));
  }
  return lines;
}

function valuesOf(run, node, panel, scan) {
  return panel.filter(one => valueAt(run, node, one, scan) !== null).map(one => `${one}=${valueAt(run, node, one, scan)}`);
}

// The places of a plant that read or drive a reference: those that drive it first.
function placesOf(reference, run) {
  const found = [];
  for (const controller of data.plant.controllers) {
    for (const place of controller.places) {
      const offset = Number(reference) - Number(place.first);
      if (place.first[0] === reference[0] && offset >= 0 && offset < place.count) found.push({node: controller.node, ...place});
    }
    if (controller.panel.includes(reference)) found.push({node: controller.node, does: 'shows', what: reference, at: 'panel'});
  }
  for (const call of run.calls) {
    for (const [first, count, writes] of call.touched || []) {
      const offset = Number(reference) - Number(first), at = `request ${call.id} of node ${call.node}, in scan ${call.served[1]}`;
      if (first[0] !== reference[0] || offset < 0 || offset >= count) continue;
      found.push({node: call.served[0], does: writes ? 'drives' : 'reads', what: call.words, at});
    }
  }
  const order = {'drives': 0, 'reads and drives': 1, 'reads': 2, 'shows': 3};
  return found.sort((one, other) => one.node - other.node || order[one.does] - order[other.does]);
}

function callOf(run, id) { return run.calls[run.byId.get(id)]; }

// When a call began or ended, in words.
function whenOf(at) {
  if (!at) return '-';
  if (!at[0]) return 'line ' + at[2];
  return (at[1] ? 'in scan ' : 'after scan ') + at[0];
}

function spanOf({began, ended}) {
  if (began && ended && began[0] && began[0] !== ended[0] && began[1] === ended[1]) {
    return `${began[1] ? 'in' : 'after'} scans ${began[0]} to ${ended[0]}`;
  }
  return [...new Set([whenOf(began), whenOf(ended)])].join(' – ');
}

const OUTCOMES = {good: ['✓', 'ended well'], bad: ['✕', 'failed'], open: ['…', 'did not end']};
