// The marks that `annotate` proposes, as a difference, each to be taken or left.

import { find, make, put } from './elements.js';
import { changedLines, stretchOf, withLine } from './difference.js';

// A line without its indentation and its comment, of which no mark is part.
function core(line) {
  return line.replace(/\s*#.*/, '').trim();
}

function changeRow(change, take, leave) {
  const { start, removed, added, end } = stretchOf(core(change.before), core(change.after));
  const said = `Line ${change.line}: ${removed ? `without ${removed.trim()}` : ''}${removed && added ? ', ' : ''}${added ? `with ${added.trim()}` : ''}`;
  return make('li', { class: 'change' },
    make('div', { class: 'change-lines' },
      make('div', { class: 'is-removed' }, `${change.line} − `, start, make('del', {}, removed), end),
      make('div', { class: 'is-added' }, `${change.line} + `, start, make('ins', {}, added), end)),
    make('div', { class: 'change-buttons' },
      make('button', { 'data-key': `take-${change.line}`, 'aria-label': `Take the change of ${said}`, onclick: take }, 'Take'),
      make('button', { 'data-key': `leave-${change.line}`, 'aria-label': `Leave the change of ${said}`, onclick: leave }, 'Leave')));
}

export class Proposal {
  constructor(jobs, editor) {
    this.jobs = jobs;
    this.editor = editor;
    this.left = new Set();
    find('take-all').addEventListener('click', () => this.takeAll());
  }

  // Asks for the proposal to a text, and shows what of it was not left.
  show(text) {
    const { status, text: proposed } = this.jobs.annotate(text, 'marks');
    this.proposed = status === 0 ? proposed : null;
    const changes = this.proposed === null ? [] : changedLines(text, this.proposed);
    this.open = changes.filter(it => !this.left.has(`${it.before}\n${it.after}`));
    find('take-all').hidden = this.open.length === 0;
    put(find('proposal'), this.open.length ? this.open.map(it => this.row(it)) : make('li', { class: 'quiet' }, this.emptySentence(changes)));
  }

  emptySentence(changes) {
    if (this.proposed === null) return 'A text that is refused gets no proposal.';
    return changes.length ? 'You left all that is proposed.' : 'Nothing to change: create masks and forward bits are as proposed.';
  }

  row(change) {
    const leave = () => {
      this.left.add(`${change.before}\n${change.after}`);
      this.show(this.editor.text);
    };
    return changeRow(change, () => this.editor.retype(withLine(this.editor.text, change.line, change.after)), leave);
  }

  takeAll() {
    this.editor.retype(this.open.reduce((text, it) => withLine(text, it.line, it.after), this.editor.text));
  }
}
