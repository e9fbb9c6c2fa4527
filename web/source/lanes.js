// The run as lanes: a row for each unit, a column for each step (or for each event, where steps are not known).

import { draw, find, put } from './elements.js';

const COLUMN = 21;
const ROW = 30;
const LEFT = 48;
const TOP = 20;
const MOST_COLUMNS = 260;

const SIGNS = { assign: '▸', exec: '•', transfer: '↓', drain: '↑', squash: '✕', retire: '✓', drop: '–', fault: '!' };

// The columns that are shown: all, or those around the one that is meant.
function windowOf(count, current) {
  if (count <= MOST_COLUMNS) return { first: 1, last: count };
  const first = Math.max(1, Math.min(current - (MOST_COLUMNS >> 1), count - MOST_COLUMNS + 1));
  return { first, last: first + MOST_COLUMNS - 1 };
}

function bar(life, from, to, shown) {
  const start = Math.max(from, shown.first);
  const end = Math.min(to, shown.last);
  if (start > end) return null;
  const x = LEFT + (start - shown.first) * COLUMN;
  const y = TOP + life.seat * ROW;
  const width = (end - start + 1) * COLUMN - 2;
  const most = Math.floor(width / 7.5);
  const name = life.task.length > most ? life.task.slice(0, Math.max(0, most)) : life.task;
  const said = `${life.task} on unit ${life.seat}: ${life.fate}`;
  return draw('g', { class: `life is-${life.fate}` }, draw('title', {}, said),
    draw('rect', { x, y: y + 2, width, height: ROW - 5, rx: 4 }),
    draw('text', { x: x + 4, y: y + 13, class: 'life-name' }, name));
}

function signsOf(life, columnOf, shown, choose) {
  return life.acts.filter(act => columnOf(act.event) >= shown.first && columnOf(act.event) <= shown.last).map(act => {
    const x = LEFT + (columnOf(act.event) - shown.first) * COLUMN + COLUMN / 2 - 1;
    const y = TOP + life.seat * ROW + ROW - 7;
    return draw('text', { x, y, class: `sign is-${act.kind} ${act.isRefused ? 'is-refused' : ''}`, 'text-anchor': 'middle', onclick: () => choose(act.event) },
      draw('title', {}, `event ${act.event}: ${act.kind}`), act.isRefused ? '×' : SIGNS[act.kind]);
  });
}

function ruler(shown, units) {
  const marks = [];
  for (let column = shown.first; column <= shown.last; column += 1)
    if (column % 5 === 0 || column === shown.first) {
      const x = LEFT + (column - shown.first) * COLUMN + COLUMN / 2 - 1;
      marks.push(draw('text', { x, y: 13, class: 'ruler', 'text-anchor': 'middle' }, String(column)));
    }
  for (let unit = 0; unit < units; unit += 1) marks.push(draw('text', { x: 4, y: TOP + unit * ROW + 19, class: 'lane-name' }, `unit ${unit}`));
  return marks;
}

function cursor(column, shown, units) {
  if (column < shown.first || column > shown.last) return null;
  return draw('rect', { x: LEFT + (column - shown.first) * COLUMN - 1, y: 2, width: COLUMN, height: TOP + units * ROW, class: 'cursor' });
}

const MOST_LIVES = 80;

// The lanes in words: for each unit its tasks, from which column to which, and what became of them.
function describeLanes(lives, columnOf, count, units) {
  const few = lives.slice(0, MOST_LIVES);
  const ofUnit = seat => few.filter(it => it.seat === seat).map(it => `${it.task} from ${columnOf(it.from)} to ${columnOf(it.to ?? count)}, ${it.fate}`).join('; ');
  const said = Array.from({ length: units }, (_, seat) => `Unit ${seat}: ${ofUnit(seat) || 'nothing'}.`).join(' ');
  const more = lives.length > few.length ? ` And ${lives.length - few.length} tasks more.` : '';
  return `Lanes. ${said}${more} The list of events says what each did.`;
}

// Draws the lanes of a history. `columnOf` is the step of an event, or its number.
function drawLanes({ states, lives }, columnOf, current, choose, zoom) {
  const count = states.length - 1;
  const { units } = states[0];
  const columns = count ? columnOf(count) : 0;
  const shown = windowOf(columns, current ? columnOf(current) : 0);
  const width = LEFT + Math.max(4, shown.last - shown.first + 1) * COLUMN + 8;
  const height = TOP + units * ROW + 6;
  const bars = lives.map(life => bar(life, columnOf(life.from), columnOf(life.to ?? count), shown));
  const signs = lives.flatMap(life => signsOf(life, columnOf, shown, choose));
  const parts = [current ? cursor(columnOf(current), shown, units) : null, ...bars, ...signs, ...ruler(shown, units)];
  const label = describeLanes(lives, columnOf, count, units);
  return draw('svg', { width: width * zoom, height: height * zoom, viewBox: `0 0 ${width} ${height}`, role: 'img', 'aria-label': label }, parts);
}

const LEAST_ZOOM = 0.75;
const ZOOM_STEP = 1.25;
const SEEN_AROUND = 60;

// How far a place must scroll so that a stretch of it is seen.
function scrolled(from, length, start, end, margin) {
  const isSeen = start - margin >= from && end + margin <= from + length;
  return isSeen ? from : Math.max(0, (start + end - length) / 2);
}

export class Lanes {
  // `choose` is called with an event that is clicked.
  constructor(choose) {
    this.choose = choose;
    this.place = find('lanes');
    this.zoom = 1;
    find('lanes-smaller').addEventListener('click', () => this.zoomBy(1 / ZOOM_STEP));
    find('lanes-larger').addEventListener('click', () => this.zoomBy(ZOOM_STEP));
    find('lanes-fit').addEventListener('click', () => this.fit());
    this.place.addEventListener('wheel', event => this.wheel(event), { passive: false });
    this.place.addEventListener('pointerdown', event => this.grab(event));
  }

  // The wheel with Ctrl, and two fingers, make the lanes larger or smaller.
  wheel(event) {
    if (!event.ctrlKey) return;
    event.preventDefault();
    this.zoomBy(event.deltaY < 0 ? 1.1 : 1 / 1.1);
  }

  // A mouse that is held moves the lanes; a click on a sign is still a click.
  grab({ button, pointerType, clientX, clientY }) {
    if (button !== 0 || pointerType === 'touch') return;
    const { place } = this;
    const { scrollLeft, scrollTop } = place;
    const end = new AbortController();
    const move = event => {
      place.classList.add('is-dragged');
      place.scrollLeft = scrollLeft - (event.clientX - clientX);
      place.scrollTop = scrollTop - (event.clientY - clientY);
    };
    const release = () => {
      place.classList.remove('is-dragged');
      end.abort();
    };
    addEventListener('pointermove', move, { signal: end.signal });
    for (const name of ['pointerup', 'pointercancel']) addEventListener(name, release, { signal: end.signal });
  }

  // As large as shows all of the run in the width.
  fit() {
    if (!this.shown) return;
    const width = Number(this.place.firstElementChild.viewBox.baseVal.width);
    this.zoomBy(this.place.clientWidth / width / this.zoom);
  }

  // In the layout of a lecture the lanes shrink a little where they take more than a fifth of the screen.
  zoomFor(units) {
    if (!document.body.classList.contains('is-lecture')) return this.zoom;
    const height = TOP + units * ROW + 6;
    return this.zoom * Math.max(LEAST_ZOOM, Math.min(1, innerHeight / 5 / height));
  }

  // Larger or smaller by a factor; null: as at first.
  zoomBy(factor) {
    this.zoom = factor === null ? 1 : Math.max(0.2, Math.min(4, this.zoom * factor));
    if (this.shown) this.show(...this.shown);
  }

  // Draws the lanes, and scrolls to what happens: the column of an event, and the row of the unit that acts.
  show(history, columnOf, event, actor) {
    this.shown = [history, columnOf, event, actor];
    const { units } = history.states[0];
    const zoom = this.zoomFor(units);
    put(this.place, drawLanes(history, columnOf, event, this.choose, zoom));
    const shown = windowOf(columnOf(history.states.length - 1), event ? columnOf(event) : 0);
    const x = (LEFT + ((event ? columnOf(event) : 1) - shown.first) * COLUMN) * zoom;
    const y = (TOP + (actor ?? 0) * ROW) * zoom;
    const { place } = this;
    place.scrollLeft = scrolled(place.scrollLeft, place.clientWidth, x, x + COLUMN * zoom, SEEN_AROUND);
    place.scrollTop = scrolled(place.scrollTop, place.clientHeight, y, y + ROW * zoom, 0);
  }
}
