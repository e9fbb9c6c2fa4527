// What the sequential program does, instruction by instruction, and the events of a run with wrong marks told by it.
//
// No machine of the page runs a program with wrong marks. But `demonstrate` stops at the first event that shows harm: up to
// there each task that the sequential program reaches does what it does there. And that is asked of the machine: a copy of
// the text in which one task has all the code runs on one unit.

import { registerName } from './asking.js';
import { effectsOf, instructionAt, lineText, listed } from './sentences.js';

const ALL_REGISTERS = Array.from({ length: 31 }, (_, at) => `$${at + 1}`).concat('$hi', '$lo').join();
const IS_TASK = /^\s*\.task\b/;

function withoutComment(line) {
  return line.replace(/#.*/, '');
}

// The text with one task, of the same lines: without marks and releases.
function asOneTask(program, first) {
  const lines = program.split('\n').map(withoutComment);
  const declaration = lines.findIndex(it => IS_TASK.test(it));
  const bare = lines.map(it => IS_TASK.test(it) ? '' : it.replace(/\s*!(?:f|s|st|sn)\b/g, '').replace(/\brelease\b.*/, 'nop'));
  bare[declaration] = `.task ${first} create=${ALL_REGISTERS} targets=-`;
  return bare.join('\n');
}

// The instructions of the sequential program in their order, at most so many: line, index and changes of each. Empty where the
// machine does not run it as one task.
export function sequenceOf(jobs, program, first, most) {
  const { text } = jobs.run(asOneTask(program, first), { units: 1, budget: most + 1, predict: 'first' }, 'json');
  if (!text.startsWith('{')) return [];
  const events = text.trimEnd().split('\n').map(it => JSON.parse(it)).filter(it => it.kind === 'exec' && it.answer === 'ok');
  return events.map(({ changes }) => ({ ...changes.find(it => it.change === 'executed'), changes }));
}

function marksOf(lines, number) {
  return withoutComment(lines[number - 1] ?? '').match(/!(?:f|st|sn|s)\b/g) ?? [];
}

// Whether the task ends after an instruction of the sequence.
function isStop(sequence, at, lines) {
  const marks = marksOf(lines, sequence[at].line);
  const next = sequence[at + 1];
  const isInLine = next && next.line === sequence[at].line && next.index === sequence[at].index + 1;
  if (isInLine || !marks.length) return false;
  const isTaken = next !== undefined && next.index !== sequence[at].index + 1;
  return marks.includes('!s') || marks.includes(isTaken ? '!st' : '!sn');
}

// Where in the sequence the task begins that comes after the one that begins at a place.
function endOf(sequence, from, lines) {
  let at = from;
  while (at < sequence.length && !isStop(sequence, at, lines)) at += 1;
  return at + 1;
}

// The line of the first instruction of a task.
function firstLine(task, lines) {
  const label = lines.findIndex(it => new RegExp(`^\\s*(?:[\\w.$]+:\\s*)*${task.replace(/[$.]/g, '\\$&')}:`).test(withoutComment(it)));
  if (label < 0) return null;
  const at = lines.findIndex((_, number) => number >= label && /^[a-z]/.test(instructionAt(lines, number + 1)));
  return at < 0 ? null : at + 1;
}

// A unit while the events are told: its task, where in the sequence it stands (null: on a wrong path), what it has.
function unitOf(task, at) {
  return { task, from: at, at, has: {}, sent: {} };
}

function executed(unit, lines, sequence) {
  const entry = unit.at === null ? undefined : sequence[unit.at];
  if (!entry) return 'executes an instruction of a task that was guessed wrong';
  unit.at += 1;
  const marks = marksOf(lines, entry.line);
  for (const { change, register, word } of entry.changes) {
    if (change !== 'wrote') continue;
    unit.has[register] = word;
    if (marks.includes('!f')) unit.sent[register] = word;
  }
  const effects = effectsOf(entry.changes);
  return `executes ${lineText(lines, entry.line)}${effects.length ? `: it ${listed(effects)}` : ''}`;
}

function valueText(word) {
  return word === undefined ? '' : ` = ${word}`;
}

class Telling {
  constructor(program, sequence) {
    this.lines = program.split('\n');
    this.sequence = sequence;
    this.queue = [];
    this.next = 0; // where in the sequence the task after the last that retired begins
  }

  who(position) {
    return position === 0 ? `The head, ${this.queue[0].task},` : `${this.queue[position].task} at position ${position}`;
  }

  assign(task) {
    const before = this.queue.at(-1);
    const at = !before ? this.next : before.from === null ? null : endOf(this.sequence, before.from, this.lines);
    const isReached = at !== null && this.sequence[at]?.line === firstLine(task, this.lines);
    this.queue.push(unitOf(task, isReached ? at : null));
    return `A free unit takes task ${task}${this.queue.length === 1 ? ' and is the head' : `, at position ${this.queue.length - 1}`}`;
  }

  exec(position) {
    return `${this.who(position)} ${executed(this.queue[position], this.lines, this.sequence)}`;
  }

  transfer(position, register) {
    const word = this.queue[position - 1].sent[register];
    Object.assign(this.queue[position].has, { [register]: word });
    return `${this.who(position)} takes ${registerName(register)}${valueText(word)} from the unit before it`;
  }

  drain(position, register) {
    const unit = this.queue[position];
    unit.sent[register] = unit.has[register];
    return `${this.who(position)} has stopped and sends ${registerName(register)}${valueText(unit.has[register])}`;
  }

  squash(position) {
    const said = `${this.who(position)} squashes what comes after it`;
    this.queue.length = position + 1;
    return said;
  }

  drop(position) {
    const said = `${this.who(position)} and all after it give up`;
    this.queue.length = position;
    return said;
  }

  retire() {
    const left = this.queue.shift();
    this.next = left.from === null ? 0 : endOf(this.sequence, left.from, this.lines);
    return `The head, ${left.task}, retires${this.queue.length ? `, and ${this.queue[0].task} is the head` : ''}`;
  }

  fault() {
    return `${this.who(0)} leads to none of its targets, and the run ends`;
  }

  tell(line) {
    const [kind, word, register] = line.split(' ');
    return kind === 'assign' ? this.assign(word) : this[kind](Number(word ?? 0), Number((register ?? '').slice(1)));
  }
}

// Each event of a demonstration as a sentence.
export function tellEvents(program, events, sequence) {
  const telling = new Telling(program, sequence);
  return events.map(line => `${telling.tell(line)}.`);
}
