// The worker: the module once more, for texts that take long. It gets calls, and answers each in its turn.

import { startModule } from './module.js';

let started = null;

self.onmessage = async ({ data: { module, number, name, words } }) => {
  if (module) {
    started = startModule(module);
    return;
  }
  try {
    const call = await started;
    const { status, bytes } = call(name, words);
    self.postMessage({ number, status, bytes });
  } catch (error) {
    self.postMessage({ number, error: String(error) });
  }
};
