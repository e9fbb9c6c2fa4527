// The program text: a text area over a copy of it in which findings and places are marked.

import { announce, find, make, plural, put, say } from './elements.js';
import { applyEdits, nameOf } from './findings.js';
import { LONG } from './jobs.js';

// Of a text with more lines only those around what is seen are painted.
const MOST_PAINTED = 1200;
const PAINTED_AROUND = 150;
const PAUSE = 900;

function rangesOf(finding, kind) {
  return finding.place ? [{ ...finding.place, kind, number: finding.number }] : [];
}

function noteRanges(chosen) {
  if (!chosen) return [];
  const places = [...chosen.notes.map(it => it.place), ...chosen.path].filter(it => it !== null);
  return places.map(place => ({ ...place, kind: 'path' }));
}

function stretchesOf(line, ranges) {
  const cuts = new Set([0, line.length]);
  const inside = ranges.map(it => {
    const from = Math.min(it.column - 1, line.length);
    const to = it.endColumn === null ? line.length : Math.min(Math.max(it.endColumn - 1, from), line.length);
    cuts.add(from).add(to);
    return { ...it, from, to };
  });
  const points = [...cuts].sort((one, other) => one - other);
  return points.slice(1).map((to, at) => {
    const from = points[at];
    const over = inside.filter(it => it.from <= from && it.to >= to && it.to > it.from);
    return { text: line.slice(from, to), kinds: over.map(it => `mark-${it.kind}`).join(' ') };
  });
}

function markedLine(line, ranges, kinds) {
  const parts = stretchesOf(line, ranges).map(it => it.kinds ? make('span', { class: it.kinds }, it.text) : it.text);
  if (ranges.some(it => it.endColumn !== null && it.endColumn <= it.column)) parts.push(make('span', { class: 'mark-error' }, ' '));
  return make('span', { class: ['line', ...kinds].join(' ') }, parts, '\n');
}

const MOST_BADGES = 3;

// A line's number, and the units that are at it: the head first, and only so many.
function gutterLine(number, units, head) {
  const seats = [...units].sort((one, other) => (other === head) - (one === head));
  const shown = seats.length > MOST_BADGES ? seats.slice(0, MOST_BADGES - 1) : seats;
  const badges = shown.map(seat => make('span', { class: `seat-badge ${seat === head ? 'is-head' : ''}` }, String(seat)));
  const more = seats.length > shown.length ? make('span', { class: 'seat-badge', title: `units ${seats.join(', ')}` }, `+${seats.length - shown.length}`) : null;
  return make('div', { class: 'gutter-line' }, badges, more, make('span', {}, String(number)));
}

export class Editor {
  constructor(changed) {
    this.area = find('program');
    this.findings = [];
    this.chosen = null;
    this.units = new Map();
    this.head = null;
    this.mayApply = true; // not in an exercise: there one changes the text oneself
    this.mayHelp = true; // not in an exercise before a hint is asked for: findings then say what is wrong alone
    this.pointed = null; // a line that a table or a sentence names
    this.isTyping = false; // whether the arrow keys move in the text; after a click they step the run until one types
    this.first = 0; // how many lines stand before the first that is painted
    let waiting;
    this.area.addEventListener('input', () => {
      this.hideBubble();
      this.pointed = null;
      this.isTyping = true;
      this.paint();
      clearTimeout(waiting);
      const isLong = this.text.length > LONG;
      say(find('judging'), isLong ? 'A long text: it is judged once you pause.' : '');
      waiting = setTimeout(changed, isLong ? PAUSE : 120);
    });
    find('editor').addEventListener('scroll', () => this.scrolled());
    this.area.addEventListener('focus', () => { this.isTyping = true; });
    this.area.addEventListener('click', () => this.clicked());
    this.area.addEventListener('keydown', event => this.key(event));
  }

  clicked() {
    this.isTyping = this.area.selectionStart !== this.area.selectionEnd;
    this.showAtCaret();
  }

  key({ key }) {
    if (!['Escape', 'ArrowLeft', 'ArrowRight', 'Shift', 'Control', 'Alt', 'Meta'].includes(key)) this.isTyping = true;
  }

  get hasFocus() {
    return this.isTyping && document.activeElement === this.area;
  }

  get text() {
    return this.area.value;
  }

  load(text) {
    this.area.value = text.replaceAll('\r\n', '\n');
    this.chosen = null;
    this.pointed = null;
    this.hideBubble();
  }

  // Puts another text in the place of the old one as typed, so that the browser can undo it. What had the focus keeps it, so
  // that keys go on to the run.
  retype(text) {
    const held = document.activeElement;
    this.area.focus({ preventScroll: true });
    this.area.setSelectionRange(0, this.area.value.length);
    if (!document.execCommand('insertText', false, text)) {
      this.area.value = text;
      this.area.dispatchEvent(new Event('input'));
    }
    this.isTyping = false;
    if (held === this.area) return;
    this.area.blur();
    held?.focus({ preventScroll: true });
  }

  // Takes another text, which the browser can undo.
  replace(text) {
    this.chosen = null;
    this.pointed = null;
    this.hideBubble();
    this.retype(text.replaceAll('\r\n', '\n'));
  }

  get rowHeight() {
    return parseFloat(getComputedStyle(this.area).lineHeight);
  }

  // Where a line begins, from the top of the text.
  topOf(number) {
    return parseFloat(getComputedStyle(this.area).paddingTop) + (number - 1) * this.rowHeight;
  }

  // The element of a line, if it is painted.
  lineAt(number) {
    return find('marked').children[number - 1 - this.first] ?? null;
  }

  scrollToLine(number) {
    const place = find('editor');
    place.scrollTop = this.topOf(number) - (place.clientHeight - this.rowHeight) / 2;
    this.scrolled();
  }

  // Scrolls to a line, if it is not seen.
  follow(number) {
    if (!number) return;
    const place = find('editor');
    const top = this.topOf(number);
    const margin = Math.min(2 * this.rowHeight, place.clientHeight / 4);
    const isSeen = top - margin >= place.scrollTop && top + this.rowHeight + margin <= place.scrollTop + place.clientHeight;
    if (!isSeen) this.scrollToLine(number);
  }

  // Marks a line, and scrolls to it; null marks none. Answers the line, if there is one.
  mark(number) {
    this.pointed = number;
    this.paint();
    if (!number) return null;
    this.scrollToLine(number);
    return this.lineAt(number);
  }

  // Marks a line, and reads it out.
  point(number) {
    const line = this.mark(number);
    if (line) announce(`Line ${number}: ${line.textContent.trim()}`);
  }

  kindsOf(number) {
    return [this.units.has(number) && 'is-here', this.pointed === number && 'is-pointed'].filter(Boolean);
  }

  show({ findings = this.findings, units = this.units, head = this.head }) {
    this.findings = findings;
    this.units = units;
    this.head = head;
    if (this.chosen) this.chosen = findings.find(it => it.code === this.chosen.code && it.sentence === this.chosen.sentence) ?? null;
    this.paint();
  }

  // The lines that are painted: all, or those around what is seen.
  windowOf(count) {
    if (count <= MOST_PAINTED) return { first: 0, last: count };
    const place = find('editor');
    const first = Math.floor(place.scrollTop / this.rowHeight) - PAINTED_AROUND;
    const last = first + 2 * PAINTED_AROUND + Math.ceil(place.clientHeight / this.rowHeight);
    return { first: Math.max(0, Math.min(first, count - 1)), last: Math.min(count, Math.max(last, 1)) };
  }

  paint() {
    const lines = this.text.split('\n');
    const { first, last } = this.windowOf(lines.length);
    const ranges = [...noteRanges(this.chosen), ...this.findings.flatMap(it => rangesOf(it, it.level === 'warning' ? 'warning' : 'error'))];
    const seats = number => this.units.get(number) ?? [];
    const numbers = Array.from({ length: last - first }, (_, at) => first + at + 1);
    this.first = first;
    this.count = lines.length;
    put(find('marked'), numbers.map(it => markedLine(lines[it - 1], ranges.filter(range => range.line === it), this.kindsOf(it))));
    put(find('gutter'), numbers.map(it => gutterLine(it, seats(it), this.head)));
    this.fill(lines, first, last);
  }

  // Leaves room for the lines that are not painted.
  fill(lines, first, last) {
    const isWhole = lines.length <= MOST_PAINTED;
    for (const id of ['marked', 'gutter']) {
      find(id).style.paddingTop = isWhole ? '' : `${this.topOf(first + 1)}px`;
      find(id).style.paddingBottom = isWhole ? '' : `calc(4rem + ${(lines.length - last) * this.rowHeight}px)`;
    }
    find('marked').style.minWidth = isWhole ? '' : `${lines.reduce((most, it) => Math.max(most, it.length), 0) + 8}ch`;
  }

  scrolled() {
    if (!(this.count > MOST_PAINTED)) return;
    const { first, last } = this.windowOf(this.count);
    const isFar = Math.abs(first - this.first) > PAINTED_AROUND / 2 || last - this.first > find('marked').children.length + PAINTED_AROUND / 2;
    if (isFar) this.paint();
  }

  choose(finding) {
    this.chosen = finding;
    this.paint();
    this.showBubble();
  }

  showAtCaret() {
    const before = this.text.slice(0, this.area.selectionStart).split('\n');
    const finding = this.findings.find(it => it.place?.line === before.length);
    if (finding) this.choose(finding);
    else this.hideBubble();
  }

  // Answers whether there was one.
  hideBubble() {
    const wasShown = !find('bubble').hidden;
    find('bubble').hidden = true;
    return wasShown;
  }

  showBubble() {
    const bubble = find('bubble');
    const { chosen } = this;
    if (!chosen?.place) return;
    const close = make('button', { class: 'close', 'aria-label': 'Close', onclick: () => this.hideBubble() }, '×');
    put(bubble, findingBody(chosen, this), close);
    bubble.hidden = false;
    this.scrolled();
    bubble.style.left = `${find('editor').scrollLeft + 8}px`;
    bubble.style.width = `${Math.min(540, find('editor').clientWidth - find('gutter').offsetWidth - 16)}px`;
    const place = find('editor');
    const after = line => this.topOf(line + 1);
    // Below the lines that it names, if it is seen there; else below its own.
    const last = after(Math.max(chosen.place.line, ...noteRanges(chosen).map(it => it.line)));
    const below = last + bubble.offsetHeight + 12 <= place.scrollTop + place.clientHeight ? last : after(chosen.place.line);
    bubble.style.top = `${below + 4}px`;
    if (below > place.scrollTop + place.clientHeight || below < place.scrollTop) this.scrollToLine(chosen.place.line);
    place.scrollTop = Math.max(place.scrollTop, below + bubble.offsetHeight + 12 - place.clientHeight);
  }

  applyFix(finding) {
    this.retype(applyEdits(this.text, finding.edits));
    this.hideBubble();
  }
}

// A finding in words: the sentence, its notes, the help, and a button where the help is exact and may be applied.
function findingBody(finding, editor) {
  const where = finding.place ? `Line ${finding.place.line}: ` : '';
  const notes = finding.notes.map(it => make('p', { class: 'note' }, it.place ? `Line ${it.place.line}: ${it.sentence}` : it.sentence));
  const path = finding.path.length > 1 ? make('p', { class: 'note' }, `Path: ${finding.path.map(it => it.line).join(' → ')}`) : null;
  const apply = () => editor.applyFix(finding);
  const button = editor.mayApply && finding.edits.length ? make('button', { class: 'apply', 'data-key': `apply-${finding.number}`, onclick: apply }, 'Do so') : null;
  const help = editor.mayHelp && finding.help ? make('p', { class: 'help' }, finding.help, ' ', button) : button;
  return make('div', {},
    make('p', {}, make('b', {}, where), finding.sentence, ' ', make('span', { class: 'quiet' }, nameOf(finding.code))),
    notes, path, help);
}

// What is said of a text without findings; in an exercise, how many goals are open.
function praise(openGoals) {
  if (openGoals === null) return { kind: 'is-fine', sentence: 'The marks are right on every path. Nothing is found that costs speed.' };
  if (!openGoals) return { kind: 'is-fine', sentence: 'The marks are right on every path.' };
  return { kind: 'is-note', sentence: `The marks are right on every path, but ${openGoals === 1 ? 'a goal is' : `${openGoals} goals are`} still open.` };
}

// The list of all findings below the text.
export function showFindings(place, findings, editor, openGoals) {
  if (!findings.length) {
    const { kind, sentence } = praise(openGoals);
    put(place, make('li', { class: kind }, sentence));
    return;
  }
  const showButton = it => make('button', {
    class: 'show',
    'data-key': `show-${it.number}`,
    'aria-label': `Show finding ${it.number + 1} in the text`,
    onclick: () => editor.choose(it),
  }, 'Show');
  put(place, findings.map(it => make('li', { class: `is-${it.level}` }, findingBody(it, editor), it.place ? showButton(it) : null)));
}

// One line on what was found.
export function verdictOf(findings) {
  const errors = findings.filter(it => it.level === 'error').length;
  const warnings = findings.filter(it => it.level === 'warning').length;
  if (errors) return { kind: 'error', sentence: `${plural(errors, 'error')}` };
  if (warnings) return { kind: 'warning', sentence: `right, with ${plural(warnings, 'warning')}` };
  return { kind: 'fine', sentence: 'the marks are right' };
}
