// What the page asks of the machine beside the run: why a unit does not execute, what is in memory. Each answer is the
// module's.

import { refusalSentence } from './sentences.js';

function scriptText(lines) {
  return lines.map(line => `${line}\n`).join('');
}

// What the machine answers to one more event after a script: allowed, or refused with number, name and register.
export function answerTo(jobs, program, units, script, line) {
  const { text } = jobs.replay(program, scriptText([...script, line]), units, 'answers');
  const said = new RegExp(`^${script.length + 1} (ok|refused (\\d+) (\\w+)(?: \\$(\\d+))?)$`, 'm').exec(text);
  if (!said) return { isAllowed: false, code: null, name: null, register: null, text };
  if (said[1] === 'ok') return { isAllowed: true, code: null, name: null, register: null };
  return { isAllowed: false, code: Number(said[2]), name: said[3], register: said[4] === undefined ? null : Number(said[4]) };
}

// The registers of the head and the words of memory after a script.
export function endAfter(jobs, program, units, script) {
  const { text } = jobs.replay(program, scriptText(script), units, 'json');
  return JSON.parse(text.trimEnd().split('\n').at(-1));
}

function headReason(answer) {
  if (answer.isAllowed) return { kind: 'ready', sentence: 'can retire', register: null };
  if (answer.name === 'Unfinished') return { kind: 'owes', sentence: `has still to send $${answer.register}`, register: answer.register };
  if (answer.name === 'Mismatch') return { kind: 'wrong', sentence: 'the task in the next unit is the wrong one: a squash is due', register: null };
  return { kind: 'waits', sentence: `cannot retire: ${refusalSentence(answer.name)}`, register: null };
}

function transferReason(answer, register, position) {
  if (answer.isAllowed) return `waits for $${register}, which it can take now`;
  return position === 0 ? `waits for $${register}` : `waits for $${register}: the unit before it does not have it to send yet`;
}

// Why the unit at a position does not go on, or that it can. `ask` answers to one more event.
export function reasonOf(ask, unit, position, isOver) {
  if (isOver) return { kind: 'over', sentence: 'the run has ended', register: null };
  if (unit.hasStopped && position === 0) return headReason(ask('retire'));
  if (unit.hasStopped) return { kind: 'done', sentence: 'has stopped, and waits for its turn to retire', register: null };
  const answer = ask(`exec ${position}`);
  if (answer.isAllowed) return { kind: 'ready', sentence: 'can execute', register: null };
  if (answer.name === 'Waiting') {
    const { register } = answer;
    return { kind: 'waits', sentence: transferReason(ask(`transfer ${position} $${register}`), register, position), register };
  }
  if (answer.name === 'NotHead')
    return { kind: 'waits', sentence: 'waits to become the head: only the head loads, stores, puts out or halts', register: null };
  return { kind: 'waits', sentence: refusalSentence(answer.name) || 'cannot go on', register: null };
}

// The create masks and targets of a program's tasks, from its canonical text.
export function tasksOf(jobs, program) {
  const tasks = new Map();
  const { status, text } = jobs.print(program);
  if (status !== 0) return tasks;
  for (const [, name, create, targets] of text.matchAll(/^\.task (\S+) create=(\S+) targets=(\S+)$/gm))
    tasks.set(name, {
      create: create === '-' ? [] : create.split(',').map(it => numberOf(it)),
      targets: targets === '-' ? [] : targets.split(','),
    });
  return tasks;
}

// The number of the line that declares a task; null where none does.
export function declarationOf(task, program) {
  const at = program.split('\n').findIndex(it => it.trim().split(/\s+/, 2).join(' ') === `.task ${task}`);
  return at < 0 ? null : at + 1;
}

// The number of a register as it stands in a text.
export function numberOf(register) {
  if (register === '$hi') return 32;
  if (register === '$lo') return 33;
  return Number(register.slice(1));
}

export function registerName(number) {
  return number === 32 ? '$hi' : number === 33 ? '$lo' : `$${number}`;
}

// A sentence of the machine in which registers have their names.
export function withNames(sentence) {
  return sentence.replace(/\$(\d+)/g, (_, number) => registerName(Number(number)));
}
