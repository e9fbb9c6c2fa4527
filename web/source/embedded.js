// What the bundle puts into the page: the module, packed, the examples, and the exercises.

const PACKED_MODULE = '/* the module */';

// The script of the worker.
export const WORKER = '/* the worker */';

// Each example has a text, a title, and scripts of events.
export const EXAMPLES = {/* the examples */};

// The bytes of the module.
export async function moduleBytes() {
  const packed = Uint8Array.from(atob(PACKED_MODULE), it => it.charCodeAt(0));
  const unpacked = new Blob([packed]).stream().pipeThrough(new DecompressionStream('gzip'));
  return new Response(unpacked).arrayBuffer();
}

const EXERCISE_TEXTS = [/* the exercises */];

// Each exercise has a text, hints, a program to begin with, and goals that the page checks (exercises.json).
export const EXERCISES = EXERCISE_TEXTS.map(it => ({ ...it, program: it.program.map(line => `${line}\n`).join('') }));
