// The ring of units as a picture: each unit with its task, its line and its registers, and the register that moves.

import { draw } from './elements.js';
import { kindOf, registersOf, saidOf } from './registers.js';

const FEW = 9;

export function isMany(units) {
  return units > FEW;
}

// How large a ring is drawn: the whole, a unit, what is left around, how many registers of a unit at most and how large.
// Ten and more units are drawn larger, with larger words, since the whole is shown smaller; in a lecture without registers.
// There up to four are drawn larger, too, to be read from the last row.
function planOf(units, isLecture) {
  if (isLecture && units <= 4) return { whole: units === 1 ? 240 : 360, size: 48, around: 72, dots: 7, dot: 11, letters: 9, kind: 'is-few' };
  if (!isMany(units)) return { whole: 360, size: units <= 6 ? 42 : 33, around: 62, dots: 7, dot: 9, letters: units <= 6 ? 9 : 5 };
  return isLecture ? { whole: 480, size: 34, around: 58, dots: 0, dot: 0, letters: 6, kind: 'is-many' } : { whole: 640, size: 40, around: 66, dots: 4, dot: 12, letters: 6, kind: 'is-many' };
}

function spotOf(seat, units, { whole, around }) {
  const angle = (2 * Math.PI * seat) / units - Math.PI / 2;
  const radius = units === 1 ? 0 : whole / 2 - around;
  return { x: whole / 2 + radius * Math.cos(angle), y: whole / 2 + radius * Math.sin(angle), angle };
}

function write(x, y, text, kind) {
  return draw('text', { x, y, class: kind, 'text-anchor': 'middle' }, text);
}

function arrowHead() {
  const path = draw('path', { d: 'M0 0L8 4L0 8z', class: 'arrow-head' });
  return draw('defs', {}, draw('marker', { id: 'arrow', viewBox: '0 0 8 8', refX: 7, refY: 4, markerWidth: 6, markerHeight: 6, orient: 'auto' }, path));
}

function moveOf(moved, units, plan) {
  const { size } = plan;
  const one = spotOf(moved.from, units, plan);
  const other = spotOf(moved.to, units, plan);
  const length = Math.hypot(other.x - one.x, other.y - one.y) || 1;
  const [across, down] = [((other.x - one.x) / length) * size, ((other.y - one.y) / length) * size];
  const line = draw('line', { x1: one.x + across, y1: one.y + down, x2: other.x - across, y2: other.y - down, class: 'moved', 'marker-end': 'url(#arrow)' });
  const middle = plan.whole / 2;
  const inside = plan.kind === 'is-few' ? 1 : 0.42;
  const x = (one.x + other.x) / 2 + (middle - (one.x + other.x) / 2) * inside;
  const y = (one.y + other.y) / 2 + (middle - (one.y + other.y) / 2) * inside;
  return [line, write(x, y + 4, `$${moved.register} = ${moved.word}`, 'moved-word')];
}

function shortened(name, most) {
  return name.length > most ? `${name.slice(0, most - 1)}…` : name;
}

function under(unit) {
  if (unit.fate) return unit.fate;
  return unit.hasStopped ? 'stopped' : `line ${unit.line ?? '?'}`;
}

// The registers of a unit, and the one that it waits for.
function registersShown(unit, tasks, reason) {
  const create = tasks.get(unit.task)?.create ?? [];
  const waited = reason?.kind === 'waits' ? reason.register : null;
  return { create, waited, numbers: registersOf(unit, create, waited) };
}

// What the ring leaves out, in words; nothing where it shows all.
export function leftOut(state, reasons, tasks, isLecture) {
  const { dots } = planOf(state.units, isLecture);
  if (!dots) return 'Of ten and more units the registers are left out here.';
  const isShort = state.queue.some((unit, at) => registersShown(unit, tasks, reasons[at]).numbers.length > dots);
  return isShort ? `At most ${dots} registers of a unit are drawn, the one it waits for among them; the list of units below has all.` : '';
}

// The registers of a unit as dots on its rim, on the side of the ring's middle, from left to right or from top to bottom.
function dotsOf(unit, tasks, reason, { x, y, angle }, { size, dots, dot: radius }) {
  const { create, waited, numbers } = registersShown(unit, tasks, reason);
  const first = numbers.includes(waited) ? [waited, ...numbers.filter(it => it !== waited)] : numbers;
  const drawn = first.slice(0, dots).sort((one, other) => one - other);
  const isBackwards = Math.sin(angle) < -0.01 || (Math.sin(angle) < 0.01 && Math.cos(angle) > 0);
  const apart = (isBackwards ? -2 : 2) * Math.asin((radius + 1) / (size + 3));
  return drawn.map((number, at) => {
    const around = angle + Math.PI + (at - (drawn.length - 1) / 2) * apart;
    const place = { cx: x + Math.cos(around) * (size + 3), cy: y + Math.sin(around) * (size + 3) };
    return draw('g', { class: `dot ${kindOf(unit, number, number === waited)}` },
      draw('title', {}, saidOf(unit, number, create.includes(number), number === waited)),
      draw('circle', { ...place, r: radius }),
      write(place.cx, place.cy + 0.4 * radius, number === 32 ? 'hi' : number === 33 ? 'lo' : String(number), 'dot-number'));
  });
}

function cross(x, y, half) {
  return draw('path', { class: 'cross', d: `M${x - half} ${y - half}l${2 * half} ${2 * half}m0 ${-2 * half}l${-2 * half} ${2 * half}` });
}

function drawSeat(seat, state, reasons, plan, tasks) {
  const spot = spotOf(seat, state.units, plan);
  const { size, letters } = plan;
  const { x, y, angle } = spot;
  const position = state.queue.findIndex(it => it.seat === seat);
  const unit = state.queue[position] ?? state.left.find(it => it.seat === seat && it.fate !== 'retired');
  const kinds = ['seat'];
  if (!unit) kinds.push('is-free');
  if (unit?.fate) kinds.push('is-lost');
  if (position === 0) kinds.push('is-head');
  if (state.actor === seat) kinds.push('is-actor');
  if (reasons[position]) kinds.push(`is-${reasons[position].kind}`);
  const out = size + (plan.kind ? 16 : 14);
  const parts = [draw('circle', { cx: x, cy: y, r: size, class: kinds.join(' ') })];
  if (state.units > 1) parts.push(write(x + Math.cos(angle) * out, y + Math.sin(angle) * out + 4, String(seat), 'seat-number'));
  if (!unit) parts.push(write(x, y + 4, 'free', 'seat-line'));
  else parts.push(write(x, y - 1, shortened(unit.task, letters), 'seat-task'), write(x, y + (plan.kind === 'is-few' ? 17 : 14), under(unit), 'seat-line'));
  if (unit?.fate) parts.push(cross(x, y, size * 0.7));
  else if (unit) parts.push(...dotsOf(unit, tasks, reasons[position], spot, plan));
  return draw('g', {}, parts);
}

function describeUnit(unit, position, reason, tasks) {
  const { create, waited, numbers } = registersShown(unit, tasks, reason);
  const registers = numbers.map(it => saidOf(unit, it, create.includes(it), it === waited)).join('; ');
  const head = position === 0 ? ', the head' : '';
  return `Unit ${unit.seat}${head}: ${unit.task}, ${under(unit)}${reason ? `, ${reason.sentence}` : ''}.${registers ? ` Registers: ${registers}.` : ''}`;
}

// The ring in words.
function describe(state, reasons, tasks) {
  const units = state.queue.map((unit, position) => describeUnit(unit, position, reasons[position], tasks));
  const lost = state.left.filter(it => it.fate !== 'retired').map(it => `Unit ${it.seat}: ${it.task} is ${it.fate}.`);
  const moved = state.moved ? [`$${state.moved.register} = ${state.moved.word} goes from unit ${state.moved.from} to unit ${state.moved.to}.`] : [];
  const free = state.units - state.queue.length;
  return [...units, ...lost, ...moved, free ? `${free === 1 ? '1 unit is' : `${free} units are`} free.` : 'No unit is free.'].join(' ');
}

// Draws the ring of a state; `tasks` has the create masks.
export function drawRing(state, reasons, tasks, isLecture) {
  const plan = planOf(state.units, isLecture);
  const { whole, around } = plan;
  const middle = whole / 2;
  const ring = draw('circle', { cx: middle, cy: middle, r: state.units === 1 ? 0 : middle - around, class: 'ring-line' });
  const seats = Array.from({ length: state.units }, (_, seat) => drawSeat(seat, state, reasons, plan, tasks));
  const words = state.standing !== 'running' ? [state.standing] : state.units > 1 && state.queue.length ? ['thick ring:', 'the head'] : [];
  const inside = words.map((word, at) => write(middle, (state.units === 1 ? middle + plan.size + 44 : middle - 4) + 20 * at, word, 'ring-word'));
  const moved = state.moved ? moveOf(state.moved, state.units, plan) : inside;
  return draw('svg', { viewBox: `0 0 ${whole} ${whole}`, class: plan.kind ?? null, role: 'img', 'aria-label': `The ring. ${describe(state, reasons, tasks)}` },
    arrowHead(), ring, seats, moved);
}
