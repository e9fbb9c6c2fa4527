// The keys of the page: one list, which `?` shows. Whatever has the focus, the arrows step through the events, except in a text.

import { find, make, put } from './elements.js';

const LIST = [
  ['→  ←', 'one event forward or back; with Shift, one step'],
  ['Home  End', 'to the start or the end of the run'],
  ['P', 'play, or pause'],
  ['L', 'the layout for a lecture, or back'],
  ['1  2  3', 'the views: Run, By hand, Compare'],
  ['W', 'show a run that goes wrong, where marks are wrong'],
  ['+  −  0', 'lanes larger, smaller, or as at first'],
  ['S', 'save the picture of this moment (SVG)'],
  ['E', 'into the program text'],
  ['Escape', 'out of a text, so that the keys go to the run; or closes a finding, a run that goes wrong, or this list'],
  ['Tab', 'to the next control; Enter or the space bar presses it, ↓ opens a list'],
  ['?', 'this list'],
];

const IS_TEXT = 'textarea, input:not([type="range"]):not([type="file"]):not([type="checkbox"])';
const KNOWS_OPEN = CSS.supports('selector(:open)');

export class Keys {
  // `actions` has what a key does that is no arrow; `arrow` takes the arrows; `isTyped` says whether a text takes them itself.
  constructor(actions, arrow, isTyped) {
    this.actions = actions;
    this.arrow = arrow;
    this.isTyped = isTyped;
    this.open = null; // where the browser does not tell it: the list of choices that is open
    put(find('keys-list'), LIST.map(([key, says]) => [make('dt', {}, make('kbd', {}, key)), make('dd', {}, says)]).flat());
    find('keys-button').addEventListener('click', () => this.show());
    find('keys-close').addEventListener('click', () => find('keys').close());
    document.addEventListener('keydown', event => this.key(event), true);
    for (const name of ['change', 'focusout']) document.addEventListener(name, () => { this.open = null; });
    document.addEventListener('pointerdown', event => { this.open = event.target.closest?.('select') ?? null; });
  }

  show() {
    if (!find('keys').open) find('keys').showModal();
  }

  key(event) {
    if (event.ctrlKey || event.altKey || event.metaKey || find('keys').open) return;
    const { target, key } = event;
    const isText = target.matches?.(IS_TEXT);
    if (key === 'Escape') return this.actions.Escape(event);
    if (target.matches?.('select') && this.isForList(event)) return undefined;
    if (key === 'ArrowLeft' || key === 'ArrowRight') return !this.isTyped(target) && this.arrow(event);
    if (isText) return;
    const action = this.actions[key.length === 1 ? key.toLowerCase() : key];
    if (!action || (key === 'Home' || key === 'End') && target.matches?.('[role=region]')) return;
    event.preventDefault();
    action(event);
  }

  // A list of choices that is open takes its keys itself. On a closed one Enter, the space bar, up and down open it; the
  // keys of the page are those of the page, and change nothing of what is chosen.
  isForList(event) {
    const { target, key } = event;
    if (KNOWS_OPEN ? target.matches(':open') : this.open === target) {
      if (key === 'Enter' || key === 'Tab') this.open = null;
      return true;
    }
    if (key === 'Enter' || key === ' ') this.open = target;
    if (key !== 'ArrowUp' && key !== 'ArrowDown') return false;
    event.preventDefault();
    try {
      target.showPicker();
      this.open = target;
    } catch {
      // A browser that cannot open it leaves it closed.
    }
    return true;
  }
}
