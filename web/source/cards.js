// The units as cards: task, next instruction, why it waits, and its registers.

import { make } from './elements.js';
import { registerName } from './asking.js';
import { kindOf, registersOf, statesOf, wordOf } from './registers.js';
import { exitText } from './sentences.js';

function chip(unit, register, isOwed, isWaited) {
  const word = wordOf(unit, register);
  const words = word === null ? registerName(register) : `${registerName(register)} = ${word}`;
  return make('li', { class: `chip ${kindOf(unit, register, isWaited)}`, title: word === null ? null : `0x${word.toString(16)}` },
    make('b', {}, words), ` ${statesOf(unit, register, isOwed, isWaited).join(', ')}`);
}

function instruction(unit, lines) {
  if (unit.hasStopped) return make('p', { class: 'next' }, `stopped; leads to ${exitText(unit.exit)}`);
  const text = (lines[unit.line - 1] ?? '').replace(/#.*/, '').trim();
  return make('p', { class: 'next' }, make('span', { class: 'quiet' }, `${unit.line ?? '?'}  `), make('code', {}, text));
}

function card(unit, position, { tasks, lines, reasons, actor }) {
  const reason = reasons[position];
  const create = tasks.get(unit.task)?.create ?? [];
  const isWaited = register => register === reason.register && reason.kind === 'waits';
  const registers = registersOf(unit, create, reason.register);
  const chips = registers.map(it => chip(unit, it, create.includes(it), isWaited(it)));
  const name = `Unit ${unit.seat}${position === 0 ? ', head' : ''}`;
  return make('li', { class: `card ${position === 0 ? 'is-head' : ''} ${actor === unit.seat ? 'is-actor' : ''}` },
    make('h4', {},
      make('span', { class: 'seat-badge' }, String(unit.seat)), ` ${unit.task} `,
      make('span', { class: 'quiet' }, position === 0 ? 'head' : `position ${position}`),
      make('span', { class: 'unseen' }, name)),
    instruction(unit, lines),
    make('p', { class: `reason is-${reason.kind}` }, reason.sentence),
    make('ul', { class: 'chips', 'aria-label': `Registers of ${name}` }, chips));
}

function lostCard(unit) {
  return make('li', { class: 'card is-lost' },
    make('h4', {}, make('span', { class: 'seat-badge' }, String(unit.seat)), ` ${unit.task} `, make('span', {}, unit.fate)),
    make('p', {}, `${unit.executed === 1 ? '1 instruction was' : `${unit.executed} instructions were`} executed in vain.`));
}

// The cards of all units that have a task, the head first, then those that have just lost theirs.
export function makeCards(state, tasks, lines, reasons) {
  const context = { tasks, lines, reasons, actor: state.actor };
  const lost = state.left.filter(it => it.fate !== 'retired');
  return [...state.queue.map((unit, position) => card(unit, position, context)), ...lost.map(lostCard)];
}
