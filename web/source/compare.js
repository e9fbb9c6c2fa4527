// Two markings side by side: what differs, where units wait, and the steps on 1 to 16 units.

import { announce, draw, find, make, plural, put } from './elements.js';
import { alignLines } from './difference.js';
import { waitsOf, waitsTable } from './waits.js';
import { whyNoRun } from './runner.js';

const WIDTH = 520;
const HEIGHT = 260;
const MARGIN = { left: 44, right: 12, top: 12, bottom: 36 };

// The steps on 1 to 16 units, from the table of `curve`.
function stepsByUnits(jobs, program, settings) {
  const { text } = jobs.curve(program, { ...settings, units: 16 });
  const rows = [...text.matchAll(/^ +(\d+) +(\d+) +(\d+) +.* (\S.*)$/gm)].map(row => ({ units: Number(row[1]), steps: Number(row[2]), end: row[4].trim() }));
  return rows.length ? { rows } : { reason: whyNoRun(text) };
}

function niceStep(most) {
  const rough = most / 4;
  const power = 10 ** Math.floor(Math.log10(Math.max(rough, 1)));
  return [1, 2, 5, 10].map(it => it * power).find(it => it >= rough);
}

function axes(most, placeX, placeY) {
  const parts = [];
  const step = niceStep(most);
  for (let value = 0; value <= most; value += step) {
    parts.push(draw('line', { x1: MARGIN.left, x2: WIDTH - MARGIN.right, y1: placeY(value), y2: placeY(value), class: 'grid-line' }));
    parts.push(draw('text', { x: MARGIN.left - 6, y: placeY(value) + 4, 'text-anchor': 'end', class: 'axis' }, String(value)));
  }
  for (let units = 1; units <= 16; units += 1) {
    const place = { x: placeX(units), y: HEIGHT - MARGIN.bottom + 16 };
    parts.push(draw('text', { ...place, 'text-anchor': 'middle', class: 'axis' }, String(units)));
  }
  parts.push(draw('text', { x: (WIDTH + MARGIN.left) / 2, y: HEIGHT - 4, 'text-anchor': 'middle', class: 'axis' }, 'units'));
  parts.push(draw('text', { x: 12, y: HEIGHT / 2, 'text-anchor': 'middle', class: 'axis', transform: `rotate(-90 12 ${HEIGHT / 2})` }, 'steps'));
  return parts;
}

function curveOf(rows, kind, placeX, placeY) {
  const points = rows.map(it => `${placeX(it.units)},${placeY(it.steps)}`).join(' ');
  const dots = rows.map(it => kind === 'one'
    ? draw('circle', { cx: placeX(it.units), cy: placeY(it.steps), r: 4 }, draw('title', {}, `${it.units} units: ${it.steps} steps`))
    : draw('rect', { x: placeX(it.units) - 4, y: placeY(it.steps) - 4, width: 8, height: 8 }, draw('title', {}, `${it.units} units: ${it.steps} steps`)));
  return draw('g', { class: `curve is-${kind}` }, draw('polyline', { points }), dots);
}

function plot(one, other) {
  const most = Math.max(1, ...[...one, ...other].map(it => it.steps)) * 1.05;
  const placeX = units => MARGIN.left + 14 + ((units - 1) / 15) * (WIDTH - MARGIN.left - MARGIN.right - 28);
  const placeY = steps => MARGIN.top + (1 - steps / most) * (HEIGHT - MARGIN.top - MARGIN.bottom);
  return draw('svg', { viewBox: `0 0 ${WIDTH} ${HEIGHT}`, role: 'img', 'aria-label': 'Steps on 1 to 16 units. The table below has the numbers.' },
    axes(most, placeX, placeY), curveOf(other, 'other', placeX, placeY), curveOf(one, 'one', placeX, placeY));
}

function stepsTable(one, other) {
  const numbers = Array.from({ length: 16 }, (_, at) => at + 1);
  const cells = rows => numbers.map(units => make('td', {}, String(rows.find(it => it.units === units)?.steps ?? '–')));
  return make('table', {}, make('caption', {}, 'Steps'),
    make('tr', {}, make('th', { scope: 'col' }, 'units'), numbers.map(it => make('th', { scope: 'col' }, String(it)))),
    make('tr', {}, make('th', { scope: 'row' }, '● ', make('span', { class: 'side-name' }, 'this program')), cells(one)),
    make('tr', {}, make('th', { scope: 'row' }, '■ ', make('span', { class: 'side-name' }, 'the other')), cells(other)));
}

// The lines of one text, with their numbers; those that the other text lacks are of a kind of their own.
function numberedLines(rows, own, kind) {
  const lines = rows.filter(it => it.kind === 'kept' || it.kind === own);
  return lines.map((it, at) => make('div', { class: it.kind === own ? kind : '', 'data-line': at + 1 },
    make('span', { class: 'line-number' }, String(at + 1)), it.text || ' '));
}

// Marks one line of a text beside the other, and scrolls to it.
function pointInto(place, number) {
  place.querySelector('.is-pointed')?.classList.remove('is-pointed');
  const line = place.querySelector(`[data-line="${number}"]`);
  if (!line) return;
  line.classList.add('is-pointed');
  place.scrollTop = line.offsetTop - (place.clientHeight - line.offsetHeight) / 2;
  announce(`Line ${number}: ${line.lastChild.textContent.trim()}`);
}

export class Compare {
  // `otherText` answers the text that is chosen to compare with; `pointed` is called with a line of the program.
  constructor(jobs, otherText, pointed) {
    this.jobs = jobs;
    this.otherText = otherText;
    this.pointed = pointed;
  }

  show(program, settings) {
    const other = this.otherText();
    const rows = alignLines(program, other);
    put(find('lines-one'), numberedLines(rows, 'removed', 'is-removed'));
    put(find('lines-other'), numberedLines(rows, 'added', 'is-added'));
    const [one, two] = [program, other].map(text => stepsByUnits(this.jobs, text, settings));
    const reasons = [one.reason && `This program: ${one.reason}`, two.reason && `The other: ${two.reason}`].filter(Boolean);
    find('compare-reason').textContent = reasons.join(' ');
    put(find('plot'), plot(one.rows ?? [], two.rows ?? []));
    put(find('steps-table'), stepsTable(one.rows ?? [], two.rows ?? []));
    this.showWaits(program, other, settings);
  }

  // The tables of waits of both, with bars of one scale.
  showWaits(program, other, settings) {
    const tables = [program, other].map(it => waitsOf(this.jobs, it, settings));
    const most = Math.max(1, ...tables.map(it => it?.rows[0]?.count ?? 0));
    const caption = `Waits on ${plural(settings.units, 'unit')}`;
    const choose = (name, line) => {
      pointInto(find(`lines-${name}`), line);
      if (name === 'one') this.pointed(line);
    };
    const table = (waits, text, name) => waitsTable(waits, { caption, program: text, name, most, choose: line => choose(name, line) });
    put(find('waits-one'), table(tables[0], program, 'one'));
    put(find('waits-other'), table(tables[1], other, 'other'));
  }
}
