// The page: what happens when the text, the settings, the position or the view changes.

import { Compare } from './compare.js';
import { Demonstration } from './demonstration.js';
import { Editor, showFindings, verdictOf } from './editor.js';
import { copy, download, find, make, say } from './elements.js';
import { EXAMPLES, EXERCISES, moduleBytes } from './embedded.js';
import { Exercises } from './exercises.js';
import { Files } from './files.js';
import { hasWrongMarks, readFindings } from './findings.js';
import { Hand } from './hand.js';
import { Jobs } from './jobs.js';
import { Keys } from './keys.js';
import { Lecture } from './lecture.js';
import { readLink, writeLink } from './link.js';
import { startModule } from './module.js';
import { Patience } from './patience.js';
import { savePng, saveSvg } from './picture.js';
import { Proposal } from './proposal.js';
import { makeReplay, makeRun, readSettings, writeSettings } from './runner.js';
import { lineOfEvent, seatsByLine, Stage } from './stage.js';
import { Tabs } from './tabs.js';

// Longer addresses are cut by mail and by forms.
const MOST_LINK = 60000;

class Page {
  constructor(jobs, module) {
    this.jobs = jobs;
    this.patience = new Patience(jobs, module);
    this.kept = null;
    this.editor = new Editor(() => this.textChanged());
    this.proposal = new Proposal(jobs, this.editor);
    this.demonstration = new Demonstration(jobs, this.editor, this.patience);
    this.stage = new Stage(jobs, this.patience, (state, ask) => this.moved(state, ask), line => this.editor.point(line));
    this.hand = new Hand(() => this.patience.do('view', () => this.playHand(Infinity)));
    this.compare = new Compare(jobs, () => this.otherText(), line => this.editor.point(line));
    this.lecture = new Lecture(() => this.viewChanged());
    this.tabs = new Tabs(['run', 'hand', 'compare'], () => this.viewChanged());
    this.exercises = new Exercises(jobs, (exercise, work) => this.exerciseOpened(exercise, work), number => this.chooseExercise(number));
    this.files = new Files(text => this.openText(text));
    this.exercises.answered = () => this.answered();
    this.exercises.hinted = () => this.showFindings();
    const isTyped = target => target === this.editor.area ? this.editor.isTyping : target.matches?.('textarea, input:not([type="range"])');
    this.keys = new Keys(this.keyActions(), event => this.tabs.view !== 'compare' && this.stage.key(event), isTyped);
    this.listen();
  }

  listen() {
    for (const id of ['units', 'predict', 'predict-list', 'budget']) find(id).addEventListener('change', () => this.settingsChanged());
    find('example-choice').addEventListener('change', event => this.chooseExample(event.target.value));
    find('link-fault-close').addEventListener('click', () => this.sayLinkFault(null));
    find('by-hand-from-here').addEventListener('click', () => this.goOnByHand());
    find('keep').addEventListener('click', () => this.keepText());
    find('save-text').addEventListener('click', () => download('program.s', this.editor.text));
    find('save-svg').addEventListener('click', saveSvg);
    find('save-png').addEventListener('click', savePng);
    find('copy-link').addEventListener('click', event => copy(location.href, event.target));
    find('compare-choice').addEventListener('change', () => this.patience.do('view', () => this.showCompare()));
    find('script-choice').addEventListener('change', event => this.openScript(event.target));
  }

  // What each key does that is no arrow.
  keyActions() {
    const view = name => () => {
      this.tabs.choose(name);
      this.viewChanged();
    };
    const zoom = factor => () => this.stage.run && this.stage.lanes.zoomBy(factor);
    return {
      l: () => this.lecture.toggle(),
      p: () => this.stage.run && this.tabs.view !== 'compare' && this.stage.togglePlay(),
      e: () => this.editor.area.focus(),
      w: () => find('demonstrate').hidden || find('demonstrate').click(),
      1: view('run'),
      2: view('hand'),
      3: view('compare'),
      Home: () => this.stage.go(0),
      End: () => this.stage.go(this.stage.last),
      s: () => this.stage.run && this.tabs.view !== 'compare' && saveSvg(),
      '+': zoom(1.25),
      '-': zoom(0.8),
      0: zoom(null),
      '?': () => this.keys.show(),
      Escape: () => this.escape(),
    };
  }

  // Leaves a text, with what was shown in it; or else closes what lies over the rest.
  escape() {
    const wasShown = this.editor.hideBubble();
    const isInText = document.activeElement === this.editor.area;
    this.editor.isTyping = false;
    if (wasShown && !isInText) return;
    if (!isInText && !find('demonstration').hidden) find('demonstration-close').click();
    else document.activeElement?.blur();
  }

  // What is chosen gets an entry of its own in the browser's history: Back leads to the text as it was. An example can be
  // undone in the text, too.
  chooseExample(name) {
    this.enterHistory();
    this.openExample(name, text => this.editor.replace(text));
  }

  chooseExercise(number) {
    this.enterHistory();
    this.exercises.open(number);
    if (number === null) this.saveLink();
  }

  // A text from a file takes the place of the program; in an exercise it is the work on that.
  openText(text) {
    this.enterHistory();
    if (!this.exercises.number) {
      this.hand.load([]);
      this.leaveExample();
    }
    this.editor.replace(text);
    this.textChanged();
  }

  // The text is none of the examples.
  leaveExample() {
    this.example = null;
    find('example-choice').value = '';
    this.listScripts();
  }

  openExample(name, put = text => this.editor.load(text)) {
    this.example = name;
    find('example-choice').value = name;
    this.exercises.open(null);
    put(EXAMPLES[name].text);
    this.hand.load([]);
    this.listScripts();
    this.wantedPosition = 0;
    this.textChanged();
  }

  listScripts() {
    const scripts = Object.keys(EXAMPLES[this.example]?.scripts ?? {});
    find('script-choice').replaceChildren(make('option', { value: '' }, 'choose'), ...scripts.map(it => make('option', { value: it }, it)));
    find('script-choice').parentElement.hidden = scripts.length === 0 || this.exercises.number !== null;
  }

  openScript(choice) {
    const script = EXAMPLES[this.example]?.scripts[choice.value];
    choice.value = '';
    if (script) this.hand.take(script.trimEnd().split('\n'));
  }

  exerciseOpened(exercise, work) {
    this.listScripts();
    document.body.classList.toggle('has-exercise', exercise !== null);
    find('proposal-section').hidden = exercise !== null;
    this.editor.mayApply = exercise === null;
    this.offerDemonstration();
    if (!exercise) return this.saveLink();
    find('example-choice').value = '';
    writeSettings({ units: exercise.units, predict: 'first' });
    this.editor.load(work.text);
    this.hand.load(work.script);
    this.tabs.choose(exercise.view);
    this.wantedPosition = 0;
    this.textChanged();
  }

  textChanged() {
    this.patience.do('text', () => this.judge());
  }

  judge() {
    const findings = readFindings(this.jobs.explain(this.editor.text).text);
    const verdict = verdictOf(findings);
    say(find('verdict'), verdict.sentence);
    if (!this.patience.isRunning) say(find('judging'), '');
    find('verdict').className = `is-${verdict.kind}`;
    this.editor.show({ findings });
    this.proposal.show(this.editor.text);
    this.listOthers();
    this.viewChanged();
    this.exercises.take(this.editor.text, this.hand.script);
    this.showFindings();
    this.offerDemonstration();
  }

  showFindings() {
    this.editor.mayHelp = this.exercises.mayHelp;
    showFindings(find('findings'), this.editor.findings, this.editor, this.exercises.openGoals);
  }

  answered() {
    this.patience.do('view', () => this.showAnswered());
  }

  showAnswered() {
    if (this.exercises.number) this.exercises.check();
    this.showFindings();
    this.offerDemonstration();
    this.saveLink();
  }

  // Wrong marks are offered a run in which they do harm; in an exercise only after one has found what it shows.
  offerDemonstration() {
    this.demonstration.offer(this.editor.text, hasWrongMarks(this.editor.findings) && this.exercises.hasAnswered);
  }

  settingsChanged() {
    writeSettings(readSettings());
    this.viewChanged();
  }

  viewChanged() {
    this.patience.do('view', () => this.showView());
  }

  showView() {
    find('stage').hidden = this.tabs.view === 'compare';
    document.body.dataset.view = this.tabs.view;
    find('stage').classList.toggle('is-hand', this.tabs.view === 'hand');
    find('hand-panel').hidden = this.tabs.view !== 'hand';
    find('run-settings').hidden = this.tabs.view === 'hand';
    find('by-hand-from-here').hidden = true;
    if (this.tabs.view === 'run') this.playRun();
    if (this.tabs.view === 'hand') this.playHand(Infinity);
    if (this.tabs.view === 'compare') this.showCompare();
    this.saveLink();
  }

  playRun() {
    const settings = readSettings();
    const run = makeRun(this.jobs, this.editor.text, settings);
    find('by-hand-from-here').hidden = run.reason !== undefined;
    if (run.reason) return this.stage.clear(run.reason);
    const at = this.wantedPosition ?? this.runPosition ?? 0;
    this.wantedPosition = null;
    this.stage.load(run, at);
  }

  playHand(position) {
    const { units } = readSettings();
    const run = makeReplay(this.jobs, this.editor.text, this.hand.script, units);
    if (run.reason) this.stage.clear(run.reason);
    else this.stage.load(run.scriptFault ? makeReplay(this.jobs, this.editor.text, [], units) : run, position);
    if (run.scriptFault) this.hand.sayFault(run.scriptFault);
    this.exercises.take(this.editor.text, this.hand.script);
    this.showFindings();
    this.saveLink();
  }

  goOnByHand() {
    if (!this.stage.run) return;
    this.hand.load(this.stage.run.script.slice(0, this.stage.position));
    this.tabs.choose('hand');
    this.viewChanged();
  }

  moved(state, ask) {
    document.body.classList.toggle('has-run', state !== null);
    if (state && this.tabs.view === 'run') this.runPosition = this.stage.position; // where it goes on after another view
    this.editor.show(seatsByLine(state));
    if (!this.editor.hasFocus) this.editor.follow(lineOfEvent(state));
    if (state && this.tabs.view === 'hand') this.hand.show(state, ask, this.stage.position, this.stage.run.tasks);
    this.saveLink();
  }

  keepText() {
    this.kept = this.editor.text;
    this.listOthers();
    find('compare-choice').value = 'kept';
    this.viewChanged();
  }

  listOthers() {
    const choice = find('compare-choice');
    const before = choice.value || 'proposed';
    const kept = this.kept === null ? [] : [['kept', 'the text that you kept']];
    const examples = Object.keys(EXAMPLES).map(it => [`example ${it}`, `example ${it}`]);
    const others = [['proposed', 'the proposed marks'], ...kept, ...examples];
    choice.replaceChildren(...others.map(([value, name]) => make('option', { value }, name)));
    choice.value = before;
  }

  otherText() {
    const choice = find('compare-choice').value;
    if (choice === 'kept') return this.kept;
    if (choice === 'proposed') return this.proposal.proposed ?? this.editor.text;
    return EXAMPLES[choice.replace('example ', '')].text;
  }

  showCompare() {
    this.compare.show(this.editor.text, readSettings());
    this.saveLink();
  }

  linkState() {
    const { number } = this.exercises;
    const isExample = EXAMPLES[this.example]?.text === this.editor.text;
    return {
      exercise: number,
      example: number ? null : this.example,
      text: number || isExample ? null : this.editor.text,
      script: number ? null : this.hand.text.trimEnd(),
      ...this.viewToLink(),
      ...readSettings(),
      at: this.tabs.view === 'run' && this.stage.run ? this.stage.position : null,
      with: this.tabs.view === 'compare' ? find('compare-choice').value : null,
      kept: this.tabs.view === 'compare' && find('compare-choice').value === 'kept' ? this.kept : null,
      ...this.exercises.toLink(),
    };
  }

  // The lecture layout of the run is a view of its own.
  viewToLink() {
    const { view } = this.tabs;
    if (!this.lecture.isOn) return { view };
    return view === 'run' ? { view: 'lecture' } : { view, layout: 'lecture' };
  }

  // Texts are packed in the background: what is done before the newest is dropped.
  saveLink() {
    clearTimeout(this.saving);
    if (!this.isOpen) return;
    const saving = setTimeout(async () => {
      await this.entered;
      const hash = await writeLink(this.linkState());
      if (saving === this.saving) this.takeHash(hash);
    }, 250);
    this.saving = saving;
  }

  stopSaving() {
    clearTimeout(this.saving);
    this.saving = null;
  }

  // Puts the state into the address, unless it is too long for one.
  takeHash(hash) {
    const isLong = hash.length > MOST_LINK;
    for (const id of ['copy-link', 'exercise-link']) {
      find(id).disabled = isLong;
      find(id).title = isLong ? 'This text is too long for a link: save it as a file' : '';
    }
    if (isLong) return;
    this.written = hash;
    history.replaceState(null, '', hash);
  }

  // Leaves the state as it is now in the browser's history, and begins another entry.
  enterHistory() {
    if (!this.isOpen) return;
    this.stopSaving();
    const state = this.linkState();
    this.entered = Promise.resolve(this.entered).then(async () => {
      this.takeHash(await writeLink(state));
      history.pushState(null, '', location.hash);
      this.written = location.hash;
    });
  }

  sayLinkFault(fault) {
    find('link-fault').hidden = fault === null;
    find('link-fault-text').textContent = fault ?? '';
  }

  // What a link asks for that is not there.
  missingOf(state) {
    if (state.example && !(state.example in EXAMPLES)) return `There is no example ${state.example} in this page.`;
    if (state.exercise && !EXERCISES[state.exercise - 1]) return `There is no exercise ${state.exercise} in this page.`;
    return null;
  }

  // Opens what a link says: an exercise with the work on it, an example, or a text.
  async openLink(hash) {
    const { state, fault } = await readLink(hash);
    this.isOpen = false;
    this.stopSaving();
    this.sayLinkFault(fault ?? this.missingOf(state));
    this.exercises.fromLink(state, fault !== null);
    this.kept = state.kept ?? null;
    this.lecture.set(state.view === 'lecture' || state.layout === 'lecture');
    this.tabs.choose(state.view ?? 'run');
    if (state.exercise) this.exercises.open(Number(state.exercise));
    else this.openExample(state.example in EXAMPLES ? state.example : Object.keys(EXAMPLES)[0]);
    if (state.exercise && state.view) this.tabs.choose(state.view);
    writeSettings({ units: Number(state.units), budget: Number(state.budget), predict: state.predict });
    if (state.text) this.editor.load(state.text);
    if (state.text && !state.example && !state.exercise) this.leaveExample();
    if (state.script) this.hand.load(state.script.split('\n'));
    this.wantedPosition = Number(state.at) || 0;
    this.textChanged();
    if (state.with) this.chooseOther(state.with);
    this.written = hash;
    this.isOpen = true;
    if (!fault) this.saveLink();
  }

  chooseOther(name) {
    find('compare-choice').value = name;
    this.patience.do('view', () => this.showCompare());
  }
}

function fillExamples() {
  for (const [name, { title }] of Object.entries(EXAMPLES)) find('example-choice').append(make('option', { value: name }, title ? `${name}: ${title}` : name));
}

function sayNoModule(error) {
  find('loading').hidden = false;
  const needs = 'It needs WebAssembly with a memory of 64 bits, which Chromium and Chrome have from 133 on, and Firefox from 134 on.';
  find('loading').textContent = `This browser cannot run the module. ${needs} (${error})`;
  find('loading').className = 'is-error';
}

async function open() {
  try {
    const bytes = await moduleBytes();
    const jobs = new Jobs(await startModule(bytes));
    globalThis.multiscalar = jobs; // for web/compare, and for the console
    fillExamples();
    const page = new Page(jobs, bytes);
    await page.openLink(location.hash);
    addEventListener('hashchange', () => { if (location.hash !== page.written) page.openLink(location.hash); });
    find('loading').hidden = true;
    find('content').hidden = false;
    page.settingsChanged();
    document.documentElement.dataset.ready = 'yes';
  } catch (error) {
    console.error(error);
    sayNoModule(error);
  }
}

open();
