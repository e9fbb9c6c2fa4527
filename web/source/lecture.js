// The layout for a lecture: program, ring and lanes on one screen, and the sentence large.

import { find } from './elements.js';

export class Lecture {
  // `changed` is called when the layout changes.
  constructor(changed) {
    this.changed = changed;
    find('lecture').addEventListener('click', () => this.toggle());
  }

  get isOn() {
    return document.body.classList.contains('is-lecture');
  }

  set(isOn) {
    document.body.classList.toggle('is-lecture', isOn);
    find('lecture').setAttribute('aria-pressed', String(isOn));
  }

  toggle() {
    this.set(!this.isOn);
    this.changed();
  }
}
