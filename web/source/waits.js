// The table of waits of a run in steps, read from what the machine writes: in how many steps which task waited where,
// and for what.

import { make, plural } from './elements.js';
import { declarationOf, withNames } from './asking.js';

const WAIT_HEADING = /^ *waits /;
const WAIT_ROW = /^ *(\d+) {2}([^\s,]+), (stopped|line (\d+)|[^:]*): (.*)$/;
const WAIT_SUM = /^ *(\d+) {2}\((.*)\)$/;
const MOST_ROWS = 30;

// What a reason is a wait for, as a class of the style.
function kindOfWait(reason) {
  if (/not sent yet by/.test(reason)) return 'unsent';
  return /on its way from/.test(reason) ? 'sent' : 'head';
}

function readRow([, count, task, where, line, reason]) {
  return { count: Number(count), task, where, line: line ? Number(line) : null, reason: withNames(reason), kind: kindOfWait(reason) };
}

// Rows that read alike are one: a task can stop in several ways.
function added(rows, row) {
  const same = rows.find(it => it.task === row.task && it.where === row.where && it.reason === row.reason);
  if (same) same.count += row.count;
  else rows.push(row);
  return rows;
}

// The rows and the sums of a table; null for another text.
export function readWaits(text) {
  const [heading, ...lines] = text.trimEnd().split('\n');
  if (!WAIT_HEADING.test(heading)) return null;
  const rows = lines.map(it => WAIT_ROW.exec(it)).filter(Boolean).map(readRow).reduce(added, []);
  rows.sort((one, other) => other.count - one.count);
  const sums = lines.map(it => WAIT_SUM.exec(it)).filter(Boolean).map(it => ({ count: Number(it[1]), name: it[2] }));
  return { rows, sums };
}

// The table of waits of a run in steps with these settings; null where the program does not run.
export function waitsOf(jobs, program, settings) {
  return readWaits(jobs.run(program, settings, 'waits').text);
}

// The line of a row in the program text: where the task waits, or, where it has stopped, the line that declares it.
function lineOf(row, program) {
  return row.line ?? declarationOf(row.task, program);
}

function waitRow(row, most, program, name, choose) {
  const line = lineOf(row, program);
  const place = `${row.task}, ${row.where}`;
  const bar = make('span', { class: 'bar', style: `width: ${Math.max(2, Math.round((100 * row.count) / most))}%` });
  const button = make('button', { class: 'place', 'data-key': `wait-${name}-${place}-${row.reason}`, 'aria-label': `${place}: show line ${line}` }, place);
  return make('tr', { class: `wait is-${row.kind}`, onclick: line && (() => choose(line)) },
    make('td', {}, String(row.count)), make('td', { class: 'share', 'aria-hidden': 'true' }, bar),
    make('td', {}, line ? button : place), make('td', {}, row.reason));
}

function sumRow({ count, name }) {
  return make('tr', { class: 'sum' }, make('td', {}, String(count)), make('td', { class: 'share', 'aria-hidden': 'true' }), make('td', { colspan: 2 }, name));
}

function moreRow(rows) {
  if (!rows.length) return null;
  const count = rows.reduce((total, it) => total + it.count, 0);
  return sumRow({ count, name: `${plural(rows.length, 'more row')}` });
}

// A table of waits. `choose` is called with the line of a row that is clicked; `name` tells two tables apart; `most` is
// the count of the longest bar.
export function waitsTable(waits, { caption, program, name, most, choose }) {
  if (!waits) return make('p', { class: 'quiet' }, 'A program that does not run has no waits.');
  if (!waits.rows.length) return make('p', {}, `${caption}: none. Each unit that has a task does something in every step.`);
  const head = ['steps', '', 'task and place', 'why'].map(it => make(it ? 'th' : 'td', it ? { scope: 'col' } : { class: 'share', 'aria-hidden': 'true' }, it));
  return make('table', { class: 'waits' }, make('caption', {}, caption), make('tr', {}, head),
    waits.rows.slice(0, MOST_ROWS).map(it => waitRow(it, most ?? waits.rows[0].count, program, name, choose)),
    moreRow(waits.rows.slice(MOST_ROWS)), waits.sums.map(sumRow));
}
