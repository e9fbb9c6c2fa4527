// The exercises: what is to be done, what is reached, and the work on each, which goes into the link.

import { announce, copy, find, make, plural, put } from './elements.js';
import { EXERCISES } from './embedded.js';
import { isReached, standingOf } from './goals.js';
import { readProgress, writeProgress } from './progress.js';

function goalRow(goal, isReachedNow, standing) {
  return make('li', { class: `${isReachedNow ? 'is-reached' : 'is-open'} ${goal.isFurther ? 'is-further' : ''}` },
    make('span', { 'aria-hidden': 'true' }, isReachedNow ? '✓ ' : '○ '), goal.text, standing,
    make('span', { class: 'unseen' }, isReachedNow ? ' Reached.' : ' Open.'));
}

// Work is the text, the script by hand and the answers; `isOwn` where it was done in this browser.
function newWork(exercise) {
  return { text: exercise.program, script: [], answers: {}, isTouched: false, isOwn: false };
}

export class Exercises {
  // `opened` is called with an exercise and the work on it, `chosen` with the number of one that is chosen.
  constructor(jobs, opened, chosen) {
    this.jobs = jobs;
    this.opened = opened;
    this.chosen = chosen;
    this.number = null;
    this.own = null; // one's own work, while a link shows other work
    this.works = EXERCISES.map(newWork);
    const choice = find('exercise-choice');
    EXERCISES.forEach((it, at) => choice.append(make('option', { value: at + 1 }, `${at + 1}. ${it.title}`)));
    choice.addEventListener('change', () => this.chosen(Number(choice.value) || null));
    find('exercise-again').addEventListener('click', () => this.startAgain());
    find('exercise-link').addEventListener('click', event => copy(location.href, event.target));
    find('exercise-next').addEventListener('click', () => this.chosen(this.number + 1));
    find('student-name').addEventListener('input', () => this.named());
    this.markChoices();
  }

  get exercise() {
    return this.number ? EXERCISES[this.number - 1] : null;
  }

  get work() {
    return this.works[this.number - 1];
  }

  open(number) {
    this.number = number && EXERCISES[number - 1] ? number : null;
    find('exercise-choice').value = this.number ?? '';
    find('exercise').hidden = this.number === null;
    if (this.number) this.showText();
    this.opened(this.exercise, this.number ? this.work : null);
  }

  startAgain() {
    this.works[this.number - 1] = { ...newWork(this.exercise), isOwn: true };
    this.open(this.number);
    this.keep();
  }

  showText() {
    const { exercise } = this;
    find('exercise-title').textContent = `Exercise ${this.number} of ${EXERCISES.length}: ${exercise.title}`;
    put(find('exercise-text'), exercise.text.map(it => make('p', {}, it)));
    put(find('exercise-fields'), (exercise.fields ?? []).map(it => this.field(it)));
    put(find('exercise-hints'), exercise.hints.map((it, at) => this.hint(it, at)));
    find('kept-note').hidden = !this.work.isKept;
    find('exercise-next').hidden = this.number === EXERCISES.length;
  }

  // Once a hint is asked for, the findings say what to write, too.
  hint(text, at) {
    const details = make('details', {}, make('summary', {}, `Hint ${at + 1} of ${this.exercise.hints.length}`), make('p', {}, text));
    details.addEventListener('toggle', () => {
      if (!details.open || this.work.hasHint) return;
      this.work.hasHint = true;
      this.hinted();
    });
    return details;
  }

  // Whether the findings may say what to write: in no exercise, or after a hint.
  get mayHelp() {
    return this.number === null || this.work.hasHint === true;
  }

  // How many goals are open, without those that go further; null in no exercise.
  get openGoals() {
    if (!this.number) return null;
    const reached = this.reachedOf(this.number);
    return this.exercise.goals.filter((goal, at) => !goal.isFurther && !reached[at]).length;
  }

  field({ name, label }) {
    const value = this.work.answers[name] ?? '';
    const input = make('input', { type: 'text', inputmode: 'numeric', size: 8, value, oninput: () => this.answer(name, input.value) });
    return make('label', {}, `${label} `, input);
  }

  answer(name, value) {
    this.work.answers[name] = value;
    this.work.isTouched = this.work.isOwn = true;
    this.keep();
    this.answered?.();
  }

  // Takes the text and the script as they now are, and checks the goals.
  take(text, script) {
    if (!this.number) return;
    const { work } = this;
    const isChanged = text !== work.text || script.join() !== work.script.join();
    if (isChanged) work.isTouched = work.isOwn = true;
    Object.assign(work, { text, script });
    if (isChanged) this.keep();
    this.check();
  }

  get name() {
    return find('student-name').value.trim();
  }

  named() {
    this.isNameOwn = true;
    this.keep();
    this.answered?.();
  }

  // Keeps the work that was done in this browser. What a link brought is kept only once it is changed here.
  keep() {
    const before = readProgress();
    const own = this.works.map((work, at) => [at + 1, work]).filter(([, work]) => work.isOwn);
    const works = { ...before.works, ...Object.fromEntries(own.map(([number, { text, script, answers, isTouched }]) => [number, { text, script, answers, isTouched }])) };
    writeProgress({ name: this.isNameOwn ? this.name : before.name, works });
    find('kept-note').hidden = true;
  }

  // Takes what this browser kept, over what is here.
  takeKept() {
    const { name, works } = readProgress();
    if (name) find('student-name').value = name;
    this.isNameOwn = name !== '';
    this.works = this.works.map((work, at) => works[at + 1] ? { ...newWork(EXERCISES[at]), ...works[at + 1], isOwn: true, isKept: works[at + 1].isTouched } : work);
    this.markChoices();
  }

  // Whether all words that the exercise asks for are found. Before that, the page does not show them.
  get hasAnswered() {
    const asked = this.number ? this.exercise.goals.filter(it => it.kind === 'answer') : [];
    return asked.every(it => isReached(it, this.judged(this.number)));
  }

  // The work on an exercise with what its goals ask.
  judged(number) {
    const exercise = EXERCISES[number - 1];
    return { ...this.works[number - 1], jobs: this.jobs, start: exercise.program, fields: exercise.fields };
  }

  reachedOf(number) {
    const work = this.judged(number);
    return EXERCISES[number - 1].goals.map(goal => isReached(goal, work));
  }

  check() {
    const reached = this.reachedOf(this.number);
    this.showGoals(this.exercise.goals.map((goal, at) => goalRow(goal, reached[at], standingOf(goal, this.judged(this.number)))));
    const isSolved = this.exercise.goals.every((goal, at) => goal.isFurther || reached[at]);
    find('solved').hidden = !isSolved;
    if (isSolved && !this.work.wasSolved) announce(`Exercise ${this.number} is solved.`);
    this.work.wasSolved = isSolved;
    this.markChoices();
  }

  // Only the goals that change are written, so that a screen reader reads these alone.
  showGoals(rows) {
    const place = find('goals');
    if (place.children.length !== rows.length) return put(place, rows);
    rows.forEach((row, at) => place.children[at].outerHTML === row.outerHTML || place.children[at].replaceWith(row));
    return undefined;
  }

  // Says in the list of exercises which are solved, by checking all that were worked on.
  markChoices() {
    const solved = this.works.map((work, at) => work.isTouched && (this.number === at + 1 ? work.wasSolved : this.isSolved(at + 1)));
    EXERCISES.forEach((it, at) => { find('exercise-choice').options[at + 1].textContent = `${solved[at] ? '✓ ' : ''}${at + 1}. ${it.title}`; });
    find('exercise-count').textContent = `${solved.filter(Boolean).length} of ${plural(EXERCISES.length, 'exercise')} solved`;
  }

  isSolved(number) {
    const reached = this.reachedOf(number);
    return EXERCISES[number - 1].goals.every((goal, at) => goal.isFurther || reached[at]);
  }

  // What goes into the link of an exercise: the work on each that was touched.
  toLink() {
    if (!this.number) return {};
    const words = this.works.some(it => it.isTouched) && this.name ? { name: this.name } : {};
    this.works.forEach((work, at) => {
      if (!work.isTouched) return;
      if (work.text !== EXERCISES[at].program) words[`text${at + 1}`] = work.text;
      if (work.script.length) words[`script${at + 1}`] = work.script.join('\n');
      for (const [name, value] of Object.entries(work.answers)) if (value) words[`answer${at + 1}.${name}`] = value;
    });
    return words;
  }

  // Takes the work that a link holds, all of it. A link that holds none leaves one's own.
  fromLink(words, isDamaged) {
    const held = Object.entries(words).map(([word, value]) => [/^(text|script|answer)(\d)(?:\.(\w+))?$/.exec(word), value]).filter(([word]) => word && this.works[word[2] - 1]);
    if (!held.length && !words.name && !isDamaged) return this.takeOwn();
    this.own ??= { works: this.works, name: this.name };
    this.works = EXERCISES.map(newWork);
    find('student-name').value = words.name ?? '';
    this.isNameOwn = false;
    for (const [[, kind, number, name], value] of held) {
      const work = this.works[number - 1];
      work.isTouched = true;
      if (kind === 'text') work.text = value;
      if (kind === 'script') work.script = value.split('\n');
      if (kind === 'answer') work.answers[name] = value;
    }
    this.markChoices();
  }

  takeOwn() {
    if (this.own) {
      this.works = this.own.works;
      find('student-name').value = this.own.name;
      this.own = null;
    }
    this.takeKept();
  }
}
