// The machine at one position of its history: ring, cards, lanes, list of events, output and memory.

import { find, make, plural, put, say } from './elements.js';
import { answerTo, endAfter, reasonOf, registerName } from './asking.js';
import { makeCards } from './cards.js';
import { Lanes } from './lanes.js';
import { drawRing, isMany, leftOut } from './ring.js';
import { eventSentence, hexadecimal, squashSentence } from './sentences.js';
import { waitsTable } from './waits.js';


function memoryText(words) {
  if (!words.length) return 'as at the start';
  return words.map(it => `${hexadecimal(it.address)}: ${it.word}`).join('\n');
}

export class Stage {
  // `moved` is called with the state that is shown, after each move; `pointed` with a line of the program.
  constructor(jobs, patience, moved, pointed) {
    this.jobs = jobs;
    this.patience = patience;
    this.moved = moved;
    this.pointed = pointed;
    this.playing = null;
    this.run = null;
    this.lanes = new Lanes(event => this.go(event));
    find('slider').addEventListener('input', event => this.go(Number(event.target.value)));
    const buttons = {
      'to-start': () => 0,
      'step-back': () => this.stepFrom(-1),
      back: () => this.position - 1,
      forward: () => this.position + 1,
      'step-forward': () => this.stepFrom(1),
      'to-end': () => this.last,
    };
    for (const [id, target] of Object.entries(buttons)) find(id).addEventListener('click', () => this.go(target()));
    find('play').addEventListener('click', () => this.togglePlay());
    find('speed').addEventListener('change', () => this.playing && this.play());
  }

  get last() {
    return this.run ? this.run.history.states.length - 1 : 0;
  }

  get state() {
    return this.run.history.states[this.position];
  }

  // Takes a run: program, units, script, history, ending, tasks, and its waits and the steps of its events, if they are known.
  load(run, position) {
    this.stop();
    this.run = run;
    this.lines = run.program.split('\n');
    find('no-run').hidden = true;
    find('stage-body').hidden = false;
    find('slider').max = this.last;
    this.showWaits();
    this.showEvents();
    this.go(position);
  }

  // Says why there is no run.
  clear(sentence) {
    this.stop();
    this.run = null;
    say(find('no-run'), sentence);
    find('no-run').hidden = false;
    find('stage-body').hidden = true;
    this.moved(null);
  }

  columnOf(event) {
    return this.run.steps ? this.run.steps[event] : event;
  }

  go(position) {
    if (!this.run) return;
    this.position = Math.max(0, Math.min(this.last, Math.round(position)));
    this.showTold();
    this.patience.do('move', () => this.showAsked());
  }

  // What the machine told needs no answer.
  showTold() {
    this.showWhere();
    this.showSentence();
    this.showLanes();
    this.markEvent();
  }

  // What it is asked at each event can take a while where the text is long.
  showAsked() {
    if (!this.run) return;
    const script = this.run.script.slice(0, this.position);
    const ask = line => answerTo(this.jobs, this.run.program, this.run.units, script, line);
    const isOver = this.state.standing !== 'running';
    const reasons = this.state.queue.map((unit, at) => reasonOf(ask, unit, at, isOver));
    this.showRing(reasons);
    put(find('cards'), makeCards(this.state, this.run.tasks, this.lines, reasons));
    this.showFacts(script);
    this.moved(this.state, ask);
  }

  // Each event is read out once, also if it reads as the one before.
  say(sentence) {
    const event = `${this.position} ${sentence}`;
    if (event === this.said) return;
    this.said = event;
    find('event-sentence').textContent = sentence;
  }

  showSentence() {
    this.say(eventSentence(this.state, this.lines));
    const squash = squashSentence(this.state);
    find('squash').hidden = squash === null;
    find('squash').textContent = squash ?? '';
  }

  showRing(reasons) {
    const isLecture = document.body.classList.contains('is-lecture');
    put(find('ring'), drawRing(this.state, reasons, this.run.tasks, isLecture));
    find('ring-row').classList.toggle('is-many', isMany(this.run.units));
    find('ring-left-out').textContent = leftOut(this.state, reasons, this.run.tasks, isLecture);
  }

  showWhere() {
    const slider = find('slider');
    const step = this.run.steps ? `, step ${this.columnOf(this.position)} of ${this.columnOf(this.last)}` : '';
    slider.value = this.position;
    slider.setAttribute('aria-valuetext', `event ${this.position} of ${this.last}${step}`);
    find('where').textContent = `event ${this.position} of ${this.last}${step}`;
    find('step-back').hidden = find('step-forward').hidden = !this.run.steps;
    for (const id of ['to-start', 'back', 'step-back']) find(id).disabled = this.position === 0;
    for (const id of ['to-end', 'forward', 'step-forward']) find(id).disabled = this.position === this.last;
  }

  showFacts(script) {
    const after = endAfter(this.jobs, this.run.program, this.run.units, script);
    find('output').textContent = this.state.output.length ? this.state.output.join(' ') : 'nothing yet';
    find('memory').textContent = memoryText(after.memory ?? []);
    this.showRegisters(after.registers ?? []);
    find('standing').textContent = this.position === this.last ? this.run.ending : 'continues';
  }

  // The registers of the head; where no unit is the head, those that the tasks left which have retired.
  showRegisters(ofHead) {
    const hasHead = this.state.queue.length > 0;
    const committed = Object.entries(this.state.committed).map(([register, word]) => ({ register: Number(register), word }));
    const shown = hasHead ? ofHead : committed.filter(it => it.word !== 0);
    find('registers-title').textContent = hasHead ? 'Registers of the head' : 'Registers (no unit is the head: as committed)';
    const told = shown.map(it => make('span', {}, `${registerName(it.register)} = ${it.word}`));
    put(find('registers'), told.length ? told.flatMap((it, at) => at ? ['  ', it] : [it]) : 'all 0');
  }

  showLanes() {
    find('lanes-title').textContent = this.run.steps ? 'Lanes: one column for each step' : 'Lanes: one column for each event';
    this.lanes.show(this.run.history, event => this.columnOf(event), this.position, this.state.actor);
  }

  // The waits of a run in steps; a schedule by hand has none.
  showWaits() {
    find('run-waits').hidden = !this.run.waits;
    if (!this.run.waits) return;
    const caption = `All waits of the run on ${plural(this.run.units, 'unit')}`;
    put(find('waits-run'), waitsTable(this.run.waits, { caption, program: this.run.program, name: 'run', choose: this.pointed }));
  }

  showEvents() {
    const rows = this.run.history.states.slice(1).map((state, at) => this.eventRow(state, at + 1));
    put(find('events'), rows);
  }

  eventRow(state, number) {
    const kinds = `event is-${state.event.kind} ${state.event.answer === 'refused' ? 'is-refused' : ''}`;
    const step = this.run.steps ? make('span', { class: 'event-step' }, `step ${this.columnOf(number)}`) : null;
    return make('li', {}, make('button', { class: kinds, 'data-key': `event-${number}`, onclick: () => this.go(number) },
      make('span', { class: 'event-number' }, String(number)), step,
      make('code', {}, this.run.script[number - 1]), make('span', {}, eventSentence(state, this.lines))));
  }

  markEvent() {
    find('events').querySelector('[aria-current]')?.removeAttribute('aria-current');
    const row = find('events').children[this.position - 1]?.firstChild;
    if (!row) return;
    row.setAttribute('aria-current', 'step');
    const list = find('events');
    const isAbove = row.offsetTop < list.scrollTop;
    const isBelow = row.offsetTop + row.offsetHeight > list.scrollTop + list.clientHeight;
    if (isAbove || isBelow) list.scrollTop = row.offsetTop - list.clientHeight / 2;
  }

  // The last event of the step before or after the one that is shown.
  stepFrom(direction) {
    const { steps } = this.run;
    if (!steps) return this.position + direction;
    const step = this.position ? steps[this.position] : 0;
    if (direction > 0) return steps.lastIndexOf(Math.min(step + 1, steps[this.last]));
    return step <= 1 ? 0 : Math.max(0, steps.lastIndexOf(step - 1));
  }

  togglePlay() {
    if (this.playing) return this.stop();
    if (this.position === this.last) this.go(0);
    this.play();
  }

  // Goes on event by event, so that each is told.
  play() {
    clearInterval(this.playing);
    this.playing = setInterval(() => {
      this.go(this.position + 1);
      if (this.position === this.last) this.stop();
    }, Number(find('speed').value));
    find('play').textContent = 'Pause';
    find('event-sentence').setAttribute('aria-live', 'off');
  }

  stop() {
    clearInterval(this.playing);
    this.playing = null;
    find('play').textContent = 'Play';
    find('event-sentence').setAttribute('aria-live', 'polite');
  }

  // The arrows.
  key(event) {
    const steps = event.shiftKey ? direction => this.stepFrom(direction) : direction => this.position + direction;
    const targets = { ArrowRight: () => steps(1), ArrowLeft: () => steps(-1) };
    if (!this.run || !targets[event.key]) return;
    event.preventDefault();
    this.go(targets[event.key]());
  }
}

// The line that an event is about: the one that was executed, or else where the unit stands that acted.
export function lineOfEvent(state) {
  if (!state?.event) return null;
  const executed = state.event.changes.find(it => it.change === 'executed');
  return executed?.line ?? state.queue.find(it => it.seat === state.actor)?.line ?? null;
}

// The lines at which units are, each with the seats there, and the seat of the head.
export function seatsByLine(state) {
  const units = new Map();
  for (const unit of state?.queue ?? []) {
    const line = unit.hasStopped ? unit.last : unit.line;
    if (line) units.set(line, [...units.get(line) ?? [], unit.seat]);
  }
  return { units, head: state?.queue[0]?.seat ?? null };
}
