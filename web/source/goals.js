// Whether a goal of an exercise is reached: the module judges texts, runs and scripts.

import { makeReplay } from './runner.js';

// A script plays alike on any number of units that suffices.
const MOST_UNITS = 16;

function linesOf(text) {
  return text.trimEnd().split('\n');
}

// The instructions of a program without marks, task lines, releases and places.
function bareInstructions(jobs, program) {
  const { status, text } = jobs.print(program);
  if (status !== 0) return null;
  const lines = linesOf(text).filter(it => !/^(\.task|\.start|\.text|release|sll \$0,\$0,0)\b/.test(it) && !it.endsWith(':'));
  return lines.map(it => it.replace(/ !\w+/g, '').replace(/,?@\d+$/, '')).join('\n');
}

function summaryOf(work, units) {
  return work.jobs.run(work.text, { units, budget: 20000, predict: 'first' }, 'summary').text;
}

function stepsIn(summary) {
  const said = /^steps (\d+),/m.exec(summary);
  return said ? Number(said[1]) : null;
}

function squashedIn(summary) {
  const row = /^ +\d+ +\d+ +(\d+) .*\(all\)$/m.exec(summary);
  return row ? Number(row[1]) : null;
}

function playedOf(work) {
  const run = makeReplay(work.jobs, work.text, work.script, MOST_UNITS);
  return run.history?.states ?? null;
}

// A number as it is typed: `2`, or `0x2`.
function numberIn(word) {
  return /^\s*(0x[0-9a-f]+|\d+)\s*$/i.test(word) ? Number(word) : null;
}

const CHECKS = {
  right: work => work.jobs.check(work.text).status === 0,
  same: work => {
    const now = bareInstructions(work.jobs, work.text);
    return now !== null && now === bareInstructions(work.jobs, work.start);
  },
  prints: (work, goal) => {
    const { status, text } = work.jobs.seq(work.text);
    return status === 0 && linesOf(text).slice(0, -1).join() === goal.words.join();
  },
  steps: (work, goal) => {
    const count = stepsIn(summaryOf(work, goal.units));
    return count !== null && count <= goal.most;
  },
  unsquashed: (work, goal) => squashedIn(summaryOf(work, goal.units)) === 0,
  answer: (work, goal) => {
    const field = work.fields.find(it => it.name === goal.name);
    return numberIn(work.answers[goal.name] ?? '') === field.expected;
  },
  wasted: (work, goal) => {
    const isMeant = unit => unit.task === goal.task && unit.fate === 'squashed' && unit.executed >= goal.least;
    return (playedOf(work) ?? []).some(state => state.left.some(isMeant));
  },
  ended: work => playedOf(work)?.at(-1).standing === 'halted',
  'put-out': (work, goal) => playedOf(work)?.at(-1).output.join() === goal.words.join(),
};

// Whether work reaches a goal. Work is the text, the script by hand, the answers, and what the exercise began with.
export function isReached(goal, work) {
  return CHECKS[goal.kind](work, goal) === true;
}

// How far work is from a goal that counts, in words; nothing for other goals.
export function standingOf(goal, work) {
  const count = goal.kind === 'steps' ? stepsIn(summaryOf(work, goal.units)) : null;
  return count === null ? '' : ` Now: ${count}.`;
}
