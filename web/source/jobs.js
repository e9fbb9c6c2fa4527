// The jobs of the program, as the module does them: texts in, a status and a text out. The certificate is always the
// least one, which the module makes.

const ANNOTATE = ['text', 'cert', 'keep', 'marks'];
const RUN = ['report', 'script', 'summary', 'svg', 'trace', 'json', 'script with values', 'waits'];
const REPLAY = ['answers', 'summary', 'svg', 'trace', 'json'];
const CURVE = ['table', 'svg'];
const LEAST = true;

const encoder = new TextEncoder();
const decoder = new TextDecoder();

function code(names, name) {
  const at = names.indexOf(name);
  if (at < 0) throw new Error(`there is no ${name}`);
  return at;
}

// The words for a prediction: `first`, `last`, or positions separated by commas.
function prediction(words) {
  if (words === 'first') return [0, new Uint32Array(0)];
  if (words === 'last') return [1, new Uint32Array(0)];
  return [2, Uint32Array.from(words.split(',').map(Number))];
}

// Texts with more letters than this are long: the page asks a worker about them (patience.js).
export const LONG = 60000;
const MOST_KEPT = 64 << 20;
const MOST_TEXTS = 5;

// An answer about a long text that is not there yet.
export class Missing extends Error {
  constructor(key, name, coded) {
    super(`the answer of ${name} is not there yet`);
    Object.assign(this, { key, name, coded });
  }
}

function isLetters(word) {
  return typeof word === 'string';
}

export class Jobs {
  constructor(call) {
    this.call = call;
    this.isPatient = false; // whether what is asked of a long text may be answered later
    this.kept = new Map();
    this.size = 0;
    this.texts = [];
    this.count = 0;
  }

  // Asks the module. Words are numbers, truths, lists of numbers and texts.
  ask(name, words) {
    const coded = words.map(it => isLetters(it) ? encoder.encode(it) : it);
    if (!this.isPatient || !words.some(it => isLetters(it) && it.length > LONG)) return this.read(this.call(name, coded));
    const key = `${name} ${words.map(it => ArrayBuffer.isView(it) ? it.join() : this.nameOf(it)).join('\0')}`;
    const kept = this.kept.get(key);
    if (!kept) throw new Missing(key, name, coded);
    return kept;
  }

  // A long text in a key is named by a number.
  nameOf(word) {
    if (!isLetters(word) || word.length <= LONG) return word;
    let at = this.texts.findIndex(it => it.text === word);
    if (at < 0) {
      this.count += 1;
      this.texts = [...this.texts.slice(-MOST_TEXTS), { text: word, number: this.count }];
      at = this.texts.length - 1;
    }
    return `text ${this.texts[at].number}`;
  }

  read({ status, bytes }) {
    return { status, text: decoder.decode(bytes), bytes };
  }

  // Keeps an answer about a long text; the oldest go where there are too many.
  keep(key, answer) {
    this.kept.set(key, this.read(answer));
    this.size += answer.bytes.length;
    for (const [old, { bytes }] of this.kept) {
      if (this.size <= MOST_KEPT || old === key) return;
      this.kept.delete(old);
      this.size -= bytes.length;
    }
  }

  seq(program, budget = 100000) {
    return this.ask('seq', [budget, program]);
  }

  print(program) {
    return this.ask('print', [program]);
  }

  annotate(program, emit) {
    return this.ask('annotate', [code(ANNOTATE, emit), program]);
  }

  check(program) {
    return this.ask('check', [LEAST, program, '']);
  }

  explain(program, format = 'sarif') {
    return this.ask('explain', [code(['text', 'sarif', 'json'], format), true, false, 'program.s', program, '', '']);
  }

  run(program, { units, budget, predict }, emit) {
    const words = [LEAST, units, budget, ...prediction(predict), code(RUN, emit), program, ''];
    return this.ask('run_steps', words);
  }

  replay(program, script, units, emit) {
    const texts = [program, '', script];
    return this.ask('replay', [LEAST, units, code(REPLAY, emit), ...texts]);
  }

  curve(program, { units, budget, predict }, emit = 'table') {
    const words = [LEAST, units, budget, ...prediction(predict), code(CURVE, emit), program, ''];
    return this.ask('curve', words);
  }

  // Looks for a run that shows what a wrong mark does: on 2 units, on 3, and so on up to so many, in runs of so many events.
  demonstrate(program, { units, events }) {
    return this.ask('demonstrate', [units, events, program]);
  }
}
