// A run in which a wrong mark does harm: a button beside the findings asks for it, and `demonstrate` looks for one.

import { announce, find, make, plural, put } from './elements.js';
import { declarationOf, withNames } from './asking.js';
import { instructionAt } from './sentences.js';
import { sequenceOf, tellEvents } from './sequence.js';

// Where the program looks if nothing else is said.
const EVERYWHERE = { units: 16, events: 10000 };
const LOOKING = { units: null, events: [], sentence: 'Looking for a run …' };

// What `demonstrate` writes: on how many units, which events, and what they show. Where it shows no run there is a
// sentence alone.
function readDemonstration(text) {
  const lines = text.trimEnd().split('\n');
  const heading = /^on (\d+) units?:$/.exec(lines[0]);
  if (!heading) return { units: null, events: [], sentence: lines.join('; ') };
  return { units: Number(heading[1]), events: lines.slice(1, -1), sentence: lines.at(-1) };
}

// The line that a sentence names; where it names a task alone, the line that declares it.
function lineNamed(sentence, program) {
  const [, line, task] = /^(?:(?:line (\d+)|[^:]*): )?task (\S+) /.exec(sentence) ?? [];
  return line ? Number(line) : declarationOf(task, program);
}

const READS = /^line (\d+): task (\S+) reads (\d+) in (\$\d+); the sequential program has (\d+)(.*)$/;
const HOLDS = /^task (\S+) has (\d+) in (\$\d+); the sequential program has (\d+)(.*)$/;

// What goes wrong, told by line, instruction and value.
function harmText(sentence, program) {
  const reads = READS.exec(sentence);
  const holds = HOLDS.exec(sentence);
  if (reads) {
    const [, line, task, word, register, right, origin] = reads;
    return `Line ${line} (${instructionAt(program.split('\n'), line)}) of task ${task} reads ${register}: ${word}, where the sequential program has ${right}${origin}.`;
  }
  if (holds) return `Task ${holds[1]} begins with ${holds[3]}: ${holds[2]}, where the sequential program has ${holds[4]}${holds[5]}.`;
  return `${sentence[0].toUpperCase()}${sentence.slice(1)}.`;
}

function eventRows(sentences) {
  return sentences.map(([line, sentence], at) => make('li', { class: `event ${at === sentences.length - 1 ? 'is-harmful' : ''}` },
    make('span', { class: 'event-number' }, String(at + 1)), make('code', {}, line), make('span', {}, sentence)));
}

// The events with their sentences; the last is told by the harm that it does, if that names an instruction.
function toldOf(jobs, program, { events, sentence }) {
  if (!events.length) return [];
  const sequence = sequenceOf(jobs, program, events[0].split(' ')[1], events.length);
  const told = tellEvents(program, events, sequence).map((said, at) => [events[at], withNames(said)]);
  if (READS.test(sentence) && events.at(-1).startsWith('exec')) told.at(-1)[1] = withNames(harmText(sentence, program));
  return told;
}

export class Demonstration {
  constructor(jobs, editor, patience) {
    this.jobs = jobs;
    this.patience = patience;
    this.editor = editor;
    this.program = null; // the text of which something is shown
    find('demonstrate').addEventListener('click', () => this.look());
    find('demonstration-close').addEventListener('click', () => {
      this.close();
      find('demonstrate').focus();
    });
  }

  // Offers a run of a text, if its marks are wrong. What is shown of another text goes.
  offer(program, isWrong) {
    find('demonstrate').hidden = !isWrong;
    if (!isWrong || program !== this.program) this.close();
  }

  // Looks for a run, after the browser has drawn that it does: it can take a moment.
  async look() {
    const program = this.editor.text;
    this.program = program;
    this.show(LOOKING, []);
    announce(LOOKING.sentence);
    await new Promise(done => setTimeout(done, 30));
    this.patience.do('look', () => this.found(program));
  }

  found(program) {
    if (this.program !== program) return;
    const shown = readDemonstration(this.jobs.demonstrate(program, EVERYWHERE).text);
    this.show(shown, toldOf(this.jobs, program, shown));
    this.editor.mark(lineNamed(shown.sentence, program));
    this.scroll();
    announce(`${find('demonstration-units').textContent} ${find('harm').textContent}`.trim());
  }

  show({ units, events, sentence }, told) {
    const isRun = units !== null;
    find('demonstration').hidden = false;
    find('demonstration-units').textContent = isRun ? `On ${plural(units, 'unit')}, ${plural(events.length, 'event')}.` : '';
    find('demonstration-units').hidden = find('demonstration-events').hidden = !isRun;
    put(find('demonstration-events').firstElementChild, eventRows(told));
    find('harm').textContent = isRun ? withNames(harmText(sentence, this.program)) : withNames(sentence);
    find('harm').className = isRun ? 'harm' : '';
  }

  // The last events and the conclusion are seen.
  scroll() {
    const list = find('demonstration-events');
    list.scrollTop = list.scrollHeight;
    find('harm').scrollIntoView({ block: 'nearest' });
  }

  close() {
    if (this.program !== null) this.editor.mark(null);
    this.program = null;
    find('demonstration').hidden = true;
  }
}
