// What the machine's answers are in words.

import { registerName } from './asking.js';

// Each refusal of an event, by its name.
const REFUSALS = {
  Ended: 'the run has ended',
  NoUnit: 'no unit is free',
  NoSuch: 'there is no such unit, register or task to do this with',
  NotATarget: 'this task cannot come next here: it is no target of the youngest task, or does not begin where that task ended',
  Stopped: 'the task has stopped',
  Waiting: 'the instruction reads a register that has no value yet: this unit has not written it, and it has not arrived',
  NotHead: 'only the head loads, stores, puts out or halts',
  NotStopped: 'the task has not stopped yet',
  AlreadyThere: 'the register is there already, or was sent already',
  NotYet: 'the unit before has not sent this register yet, or it has not arrived there',
  NoMismatch: 'the next task is the right one',
  Unfinished: 'the head has still to send a register of its create mask',
  Mismatch: 'the next unit runs a task that does not begin where the head ended',
  NotListed: 'the task ended at a place that is not one of its targets',
  IsListed: 'the task ended at one of its targets',
  Full: 'the machine has taken 1,000,000 events',
};

export function refusalSentence(name) {
  return REFUSALS[name] ?? '';
}

export function hexadecimal(address) {
  return `0x${address.toString(16).padStart(8, '0')}`;
}

export function exitText(exit) {
  return exit.line === null || exit.line === undefined ? hexadecimal(exit.address) : `line ${exit.line}`;
}

// Words one after another: `a`, `a and b`, `a, b and c`.
export function listed(words) {
  return words.length < 2 ? words.join('') : `${words.slice(0, -1).join(', ')} and ${words.at(-1)}`;
}

// The instruction of a line, without its label, its marks and its comment.
export function instructionAt(lines, number) {
  const text = (lines[number - 1] ?? '').replace(/#.*/, '').replace(/^\s*(?:[\w.$]+:\s*)*/, '');
  return text.replace(/\s*!\w+/g, '').replace(/\s+/g, ' ').trim();
}

// A line with its instruction: `line 7 (addiu $8, $8, 1)`.
export function lineText(lines, number) {
  const instruction = instructionAt(lines, number);
  return instruction ? `line ${number} (${instruction})` : `line ${number}`;
}

// What an instruction did, each change as a phrase after `it`.
const EFFECTS = {
  loaded: it => `loads ${it.word} from ${hexadecimal(it.address)}`,
  stored: it => `stores ${it.word} at ${hexadecimal(it.address)}`,
  wrote: (it, sent) => `writes ${it.word} to ${registerName(it.register)}${sent.has(it.register) ? ' and sends it' : ''}`,
  sent: (it, _, written) => written.has(it.register) ? null : `sends ${registerName(it.register)} = ${it.word}`,
  put_out: it => `prints ${it.word}`,
};

function registersIn(changes, kind) {
  return new Set(changes.filter(it => it.change === kind).map(it => it.register));
}

// The effects of an instruction, as phrases.
export function effectsOf(changes) {
  const sent = registersIn(changes, 'sent');
  const written = registersIn(changes, 'wrote');
  return changes.map(it => EFFECTS[it.change]?.(it, sent, written) ?? null).filter(it => it !== null);
}

// Where an instruction leads, if that is not the next line.
function waysOn(event) {
  const executed = event.changes.find(it => it.change === 'executed');
  return event.changes.flatMap(it => {
    if (it.change === 'stopped_at') return [`ends its task, after which ${exitText(it)} comes`];
    if (it.change === 'moved_to' && it.index !== executed.index + 1) return [`continues at line ${it.line ?? it.index}`];
    if (it.change === 'ended') return [it.standing === 'halted' ? 'halts, and the run ends' : `ends the run: ${it.standing}`];
    return [];
  });
}

function takesText(changes) {
  const taken = changes.filter(it => it.change === 'took').map(it => registerName(it.register));
  return taken.length ? `; it takes ${listed(taken)}` : '';
}

function beganText(state, { actor, changes, task }) {
  const began = changes.find(it => it.change === 'began');
  const head = began?.position === 0 ? ` ${actor} is the head${takesText(changes)}.` : '';
  return `${actor} takes task ${task}, which begins at line ${began?.line}.${head}`;
}

function executedText(state, { actor, event, changes, lines }) {
  const { line, index } = changes.find(it => it.change === 'executed');
  const said = [...effectsOf(changes), ...waysOn(event)];
  return `${actor} executes ${line ? lineText(lines, line) : `instruction ${index}`}${said.length ? `: it ${listed(said)}` : ''}.`;
}

function arrivedText(state, { actor, changes }) {
  const { register, word } = changes.find(it => it.change === 'arrived');
  return `${actor} takes ${registerName(register)} = ${word} from unit ${state.moved.from}.`;
}

function drainedText(state, { actor, changes }) {
  const { register, word } = changes.find(it => it.change === 'drained');
  return `${actor}, whose task has stopped, sends ${registerName(register)} = ${word}.`;
}

function lostText(state) {
  return listed(state.left.map(it => `${it.task} (unit ${it.seat})`));
}

function retiredText(state, { actor, changes }) {
  const retired = changes.find(it => it.change === 'retired');
  const head = state.queue[0];
  const next = head ? `Unit ${head.seat} is the head now${takesText(changes)}.` : `No unit is the head now: a task that begins at ${exitText(retired)} comes next.`;
  return `${actor} retires ${retired.task}. ${next}`;
}

const SENTENCES = {
  assign: beganText,
  exec: executedText,
  transfer: arrivedText,
  drain: drainedText,
  squash: (state, { actor }) => `${actor} squashes what comes after it: ${lostText(state)}.`,
  drop: (state, { actor }) => `${actor} and all after it give up their tasks: ${lostText(state)}.`,
  retire: retiredText,
  fault: (state, { actor }) => `The run ends: ${actor.toLowerCase()} leads to a place where none of its targets begins.`,
};

// Which number a refusal has, its name, and the register that it names.
export function refusalName({ code, name, register }) {
  return [code, name, ...register === undefined || register === null ? [] : [registerName(register)]].join(' ');
}

// What an event did, in a sentence or two. Units are called by their seat on the ring; `lines` are those of the program.
export function eventSentence(state, lines) {
  const { event } = state;
  if (!event) return 'Before the first event: all units are free.';
  if (event.answer === 'refused') return `Refused, and nothing changes: ${refusalSentence(event.name)} (${refusalName(event)}).`;
  return SENTENCES[event.kind](state, { actor: `Unit ${state.actor}`, event, task: event.task, changes: event.changes, lines });
}

// What a squash means: who was wrong, and what is lost.
export function squashSentence(state) {
  const lost = state.left.filter(it => it.fate === 'squashed');
  if (!lost.length) return null;
  const stopped = state.queue.at(-1);
  const wasted = lost.reduce((sum, unit) => sum + unit.executed, 0);
  const vain = wasted === 1 ? '1 instruction was' : `${wasted} instructions were`;
  const reached = wasted ? '; nothing of that has reached the output or memory' : '';
  return `${lost[0].task} was guessed as the task after ${stopped.task}, but ${exitText(stopped.exit)} comes. ${vain} executed in vain${reached}.`;
}

// How a run ended, from its last line.
export function endSentence(end) {
  switch (end?.end) {
    case 'halted': return 'has halted';
    case 'trapped': return `has trapped: ${end.name}`;
    case 'unlisted': return `has ended as unlisted at ${hexadecimal(end.address)}: no target of the head's task is there`;
    default: return 'continues';
  }
}
