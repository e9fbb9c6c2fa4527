// A run in steps with the settings of the page.

import { tasksOf } from './asking.js';
import { historyOf, readLines, scriptLine } from './history.js';
import { find, plural } from './elements.js';
import { endSentence } from './sentences.js';
import { waitsOf } from './waits.js';

// The settings of the form, each within its range.
export function readSettings() {
  const within = (id, low, high, other) => Math.max(low, Math.min(high, Math.round(Number(find(id).value)) || other));
  const list = find('predict-list').value.replace(/\s/g, '');
  const isList = /^(\d|1[0-5])(,(\d|1[0-5])){0,63}$/.test(list);
  const chosen = find('predict').value;
  find('predict-list').hidden = chosen !== 'list';
  find('predict-list').setAttribute('aria-invalid', String(chosen === 'list' && !isList));
  return { units: within('units', 1, 16, 4), budget: within('budget', 1, 5000, 600), predict: chosen === 'list' ? (isList ? list : 'first') : chosen };
}

export function writeSettings({ units, budget, predict }) {
  if (units) find('units').value = units;
  if (budget) find('budget').value = budget;
  if (!predict) return;
  const isNamed = predict === 'first' || predict === 'last';
  find('predict').value = isNamed ? predict : 'list';
  if (!isNamed) find('predict-list').value = predict;
}

// How a run ended, from its report: the last line, and what retired.
function endingOf(report, end) {
  if (report.trimEnd().endsWith('out of budget')) return 'has used up its events: it would go on';
  const [, tasks, retired, all] = /^retired (\d+) c (\d+) h (\d+)$/m.exec(report) ?? [];
  if (tasks === undefined) return endSentence(end);
  const heads = all === retired ? '' : `; ${all} with those of the head`;
  return `${endSentence(end)}. ${plural(Number(tasks), 'task')} retired, with ${plural(Number(retired), 'instruction')}${heads}`;
}

// The step of each event, from 1 on, with 0 for the start; null where the events have none.
function stepsOf(events) {
  return events.every(it => it.step !== undefined) ? [0, ...events.map(it => it.step)] : null;
}

// What a text that does not run is told.
export function whyNoRun(text) {
  const last = text.trimEnd().split('\n').at(-1) ?? '';
  const findings = /^refused (\d+)$/.exec(last);
  if (findings) return `No run: the marks are wrong (${findings[1] === '1' ? '1 finding' : `${findings[1]} findings`}). The findings say where.`;
  return `No run: ${last}.`;
}

// Runs the program, and answers what the stage shows, or the reason why there is no run.
export function makeRun(jobs, program, settings) {
  const { text } = jobs.run(program, settings, 'json');
  const told = readLines(text);
  if (!told) return { reason: whyNoRun(text) };
  return {
    program,
    units: settings.units,
    script: told.events.map(scriptLine),
    history: historyOf(told.events, settings.units),
    ending: endingOf(jobs.run(program, settings, 'report').text, told.end),
    tasks: tasksOf(jobs, program),
    waits: waitsOf(jobs, program, settings),
    steps: stepsOf(told.events),
  };
}

// Replays a script by hand, and answers what the stage shows, or why it cannot be played: a fault of the script, or
// the reason why the program does not run.
export function makeReplay(jobs, program, script, units) {
  const { text } = jobs.replay(program, script.map(line => `${line}\n`).join(''), units, 'json');
  const told = readLines(text);
  if (!told && text.startsWith('script refused')) return { scriptFault: `The script cannot be read: ${text.trim().replace('script refused: ', '')}.` };
  if (!told) return { reason: whyNoRun(text) };
  return { program, units, script, history: historyOf(told.events, units), ending: endSentence(told.end), tasks: tasksOf(jobs, program), steps: null };
}
