// A program from a file: chosen, or dropped on the page.

import { find, say } from './elements.js';

const MOST_BYTES = 4_000_000;

export class Files {
  // `opened` is called with the text of a file and its name.
  constructor(opened) {
    this.opened = opened;
    find('open-file').addEventListener('click', () => find('file').click());
    find('file').addEventListener('change', () => this.take(find('file').files[0]));
    addEventListener('dragover', event => this.over(event));
    addEventListener('dragleave', event => event.relatedTarget === null && this.mark(false));
    addEventListener('drop', event => this.drop(event));
  }

  mark(isOver) {
    document.body.classList.toggle('is-drop', isOver);
  }

  over(event) {
    if (!event.dataTransfer?.types.includes('Files')) return;
    event.preventDefault();
    this.mark(true);
  }

  drop(event) {
    this.mark(false);
    const [file] = event.dataTransfer?.files ?? [];
    if (!file) return;
    event.preventDefault();
    this.take(file);
  }

  async take(file) {
    if (!file) return;
    find('file').value = '';
    if (file.size > MOST_BYTES) return this.tell(`${file.name} is too large for a program: it has ${file.size} bytes.`);
    const text = await file.text();
    if (text.includes('\0')) return this.tell(`${file.name} is no text.`);
    this.tell('');
    this.opened(text, file.name);
  }

  tell(sentence) {
    say(find('file-fault'), sentence);
  }
}
