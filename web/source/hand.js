// A schedule by hand: the events that the machine allows now, to click; those that it refuses, with the reason.

import { copy, download, find, make, put, say } from './elements.js';
import { registerName } from './asking.js';
import { refusalName, refusalSentence } from './sentences.js';

// Refusals that teach nothing: the event makes no sense where the unit stands.
const POINTLESS = ['NoSuch', 'AlreadyThere', 'NotStopped', 'Stopped', 'NoMismatch', 'Ended', 'IsListed'];
const MOST_TASKS = 24;

function transfersOf(unit, position, masks) {
  if (position === 0) return [];
  const missing = masks.filter(it => !(it in unit.arrived));
  return missing.map(it => ({ line: `transfer ${position} $${it}`, says: `unit ${unit.seat} takes ${registerName(it)} from the unit before` }));
}

function eventsAtStop(unit, position, create) {
  const owed = create.filter(it => !(it in unit.sent));
  const drains = owed.map(it => ({ line: `drain ${position} $${it}`, says: `unit ${unit.seat} sends ${registerName(it)}` }));
  const squash = { line: `squash ${position}`, says: `unit ${unit.seat} squashes the units after it` };
  if (position > 0) return [...drains, squash];
  return [...drains, squash, { line: 'retire', says: `unit ${unit.seat} retires ${unit.task}` }, { line: 'fault', says: 'the run ends as unlisted' }];
}

function eventsOfUnit(unit, position, tasks, masks) {
  const execute = { line: `exec ${position}`, says: `unit ${unit.seat} executes line ${unit.line ?? '?'}` };
  const own = unit.hasStopped ? eventsAtStop(unit, position, tasks.get(unit.task)?.create ?? []) : [execute];
  const head = position === 0 ? ', head' : '';
  return { title: `Unit ${unit.seat}, position ${position}${head}: ${unit.task}`, events: [...own, ...transfersOf(unit, position, masks)] };
}

// All events that could come next, in groups.
function groupsOf(state, tasks) {
  const masks = [...new Set([...tasks.values()].flatMap(it => it.create))].sort((one, other) => one - other);
  const youngest = state.queue.at(-1);
  const seat = (state.head + state.queue.length) % state.units;
  const assigns = [...tasks.keys()].slice(0, MOST_TASKS).map(name => ({ line: `assign ${name}`, says: `unit ${seat} takes task ${name}` }));
  const drops = state.queue.slice(1).map((unit, at) => ({ line: `drop ${at + 1}`, says: `unit ${unit.seat} and all after it give up` }));
  const units = state.queue.map((unit, position) => eventsOfUnit(unit, position, tasks, masks));
  const next = youngest ? `A next task after ${youngest.task}` : 'A first task';
  return [...units, { title: next, events: assigns }, { title: 'Give up', events: drops }];
}

function refusalText({ line, says, answer }) {
  return `${line} is refused (${says}): ${refusalSentence(answer.name)} (${refusalName(answer)}).`;
}

export class Hand {
  // `changed` is called with the new script.
  constructor(changed) {
    this.changed = changed;
    this.script = [];
    find('script').addEventListener('input', () => this.take(find('script').value.split('\n').filter(it => it !== '')));
    find('undo').addEventListener('click', () => this.take(this.script.slice(0, -1)));
    find('restart').addEventListener('click', () => this.take([]));
    find('copy-script').addEventListener('click', event => copy(this.text, event.target));
    find('save-script').addEventListener('click', () => download('script.events', this.text));
  }

  get text() {
    return this.script.map(line => `${line}\n`).join('');
  }

  take(script) {
    this.load(script);
    this.changed(script);
  }

  load(script) {
    this.script = script;
    if (find('script').value.trimEnd() !== this.text.trimEnd()) find('script').value = this.text;
    find('undo').disabled = find('restart').disabled = script.length === 0;
    say(find('refusal'), '');
  }

  // Says why a script cannot be read, and opens it to be mended.
  sayFault(sentence) {
    say(find('refusal'), sentence);
    find('script-details').open = true;
  }

  // Shows what can be done in a state; `ask` answers to one more event there.
  show(state, ask, position, tasks) {
    const groups = groupsOf(state, tasks).map(group => ({ ...group, events: group.events.map(it => ({ ...it, answer: ask(it.line) })) }));
    const allowed = groups.map(it => ({ ...it, events: it.events.filter(event => event.answer.isAllowed) })).filter(it => it.events.length);
    const refused = groups.flatMap(it => it.events).filter(it => !it.answer.isAllowed && !POINTLESS.includes(it.answer.name));
    const over = state.standing === 'running' ? 'Nothing is allowed.' : 'The run has ended. Take events back, or start again.';
    const hadFocus = find('allowed').contains(document.activeElement) || document.activeElement === find('undo');
    put(find('allowed'), allowed.length ? allowed.map(group => this.group(group, position)) : make('p', {}, over));
    find('refused-title').parentElement.hidden = refused.length === 0;
    find('refused-title').textContent = `Not allowed now (${refused.length}): click one to see why`;
    put(find('refused'), refused.map(it => this.refusedButton(it)));
    find('hand-panel').scrollTop = 0; // where it scrolls, what is allowed is seen
    if (hadFocus && !find('allowed').contains(document.activeElement)) this.keepFocus();
  }

  // Where the last event is allowed or taken back, the focus stays among the events.
  keepFocus() {
    const stays = [find('undo'), find('allowed').querySelector('button')].find(it => it && !it.disabled);
    stays?.focus({ preventScroll: true });
  }

  group(group, position) {
    const choose = line => this.take([...this.script.slice(0, position), line]);
    const buttons = group.events.map(it => make('button', { 'data-key': `hand-${it.line}`, onclick: () => choose(it.line) },
      make('code', {}, it.line), make('small', {}, it.says)));
    return make('fieldset', { class: 'hand-group' }, make('legend', {}, group.title), buttons);
  }

  refusedButton(event) {
    const why = () => {
      say(find('refusal'), refusalText(event));
      find('refusal').scrollIntoView({ block: 'nearest' });
    };
    return make('button', { class: 'is-refused', 'data-key': `hand-${event.line}`, onclick: why },
      make('code', {}, event.line), make('small', {}, `${event.answer.code} ${event.answer.name}`));
  }
}
