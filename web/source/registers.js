// How a register stands with a unit: arrived, written, sent, still to send, waited for.

import { registerName } from './asking.js';

// The word that a unit has of a register, or null.
export function wordOf(unit, register) {
  return unit.sent[register] ?? unit.written[register] ?? unit.arrived[register] ?? null;
}

export function statesOf(unit, register, isOwed, isWaited) {
  const said = [];
  if (register in unit.arrived) said.push('arrived');
  if (register in unit.written) said.push('written');
  if (register in unit.sent) said.push('sent');
  else if (isOwed) said.push('to send');
  if (isWaited) said.push('waited for');
  return said;
}

// The last of these, as a class of the style.
export function kindOf(unit, register, isWaited) {
  if (isWaited) return 'is-waited';
  if (register in unit.sent) return 'is-sent';
  if (register in unit.written) return 'is-written';
  return register in unit.arrived ? 'is-arrived' : 'is-owed';
}

// The registers that matter to a unit: those of its create mask, and those that it wrote, got or waits for.
export function registersOf(unit, create, waited) {
  const numbers = [...create, ...Object.keys(unit.written), ...Object.keys(unit.arrived), ...waited === null ? [] : [waited]];
  return [...new Set(numbers.map(Number))].sort((one, other) => one - other);
}

// A register in words.
export function saidOf(unit, register, isOwed, isWaited) {
  const word = wordOf(unit, register);
  const name = word === null ? registerName(register) : `${registerName(register)} = ${word}`;
  return `${name}: ${statesOf(unit, register, isOwed, isWaited).join(', ')}`;
}
