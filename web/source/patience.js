// Long texts are judged in a worker, so that the page does not stand still. What the page does with a text is one action, which
// asks the module as if its answers were there. Where one is not, the action stops, the worker makes that answer, and the action
// is done anew. So an action may be done several times; of one kind only the newest is done.

import { find, say } from './elements.js';
import { WORKER } from './embedded.js';
import { Missing } from './jobs.js';

// The kinds of actions, in the order in which they are done where several wait.
const KINDS = ['text', 'view', 'move', 'look'];

class Worked {
  constructor(module) {
    this.module = module;
    this.open = new Map();
    this.number = 0;
    this.start();
  }

  start() {
    const address = URL.createObjectURL(new Blob([WORKER], { type: 'text/javascript' }));
    this.worker = new Worker(address);
    URL.revokeObjectURL(address);
    this.worker.onmessage = ({ data }) => this.take(data);
    this.worker.onerror = () => {
      this.isBroken = true;
      this.drop('the worker does not run');
    };
    this.worker.postMessage({ module: this.module });
  }

  take({ number, error, ...answer }) {
    const { done, failed } = this.open.get(number) ?? {};
    this.open.delete(number);
    if (error) failed?.(new Error(error));
    else done?.(answer);
  }

  drop(why) {
    for (const { failed } of this.open.values()) failed(new Error(why));
    this.open.clear();
  }

  ask(name, words) {
    this.number += 1;
    this.worker.postMessage({ number: this.number, name, words });
    return new Promise((done, failed) => this.open.set(this.number, { done, failed }));
  }

  // Gives up what it does: nobody wants the answer any more.
  restart() {
    this.worker.terminate();
    this.drop('not wanted');
    this.start();
  }
}

export class Patience {
  constructor(jobs, module) {
    this.jobs = jobs;
    this.module = module;
    this.waiting = new Map();
    this.isInside = false;
    this.isRunning = false;
    this.worked = null;
  }

  // Does an action: at once where all answers are there or quickly made, else when they are.
  do(kind, action) {
    if (this.isInside) return action();
    if (!this.isRunning && this.isDone(action)) return undefined;
    this.waiting.set(kind, action);
    if (this.isRunning && kind === 'text') this.worked?.restart();
    if (!this.isRunning) this.run();
    return undefined;
  }

  // Does an action as far as answers are there; answers whether it came to its end.
  isDone(action) {
    this.isInside = true;
    this.jobs.isPatient = true;
    try {
      action();
      return true;
    } catch (error) {
      if (!(error instanceof Missing)) throw error;
      this.missing = error;
      return false;
    } finally {
      this.isInside = false;
      this.jobs.isPatient = false;
    }
  }

  async run() {
    this.isRunning = true;
    this.tell('A long text: asking in the background …');
    try {
      while (this.waiting.size) await this.next();
    } finally {
      this.isRunning = false;
      this.tell('');
    }
  }

  async next() {
    const kind = KINDS.find(it => this.waiting.has(it));
    const action = this.waiting.get(kind);
    let isDone = true;
    try {
      isDone = this.isDone(action);
    } finally {
      if (isDone && this.waiting.get(kind) === action) this.waiting.delete(kind);
    }
    if (!isDone) await this.fetch(this.missing);
  }

  async fetch(missing) {
    try {
      this.worked ??= new Worked(this.module);
      if (this.worked.isBroken) throw new Error('the worker does not run');
      const answer = await this.worked.ask(missing.name, missing.coded);
      this.jobs.keep(missing.key, answer);
    } catch (error) {
      if (error.message === 'not wanted') return;
      // Without a worker the page waits itself.
      this.jobs.keep(missing.key, this.jobs.call(missing.name, missing.coded));
    }
  }

  tell(sentence) {
    say(find('judging'), sentence);
    document.documentElement.dataset.judging = sentence ? 'yes' : 'no';
  }
}
