// Calls of the WebAssembly module. Words go in: numbers, truths, texts as bytes, lists of numbers. A status and the
// bytes of an answer come out. Nothing is kept between calls but the module's heap.

const IS_SHORT = 256;
const FIRST_ROOM = 65536;
const MOST_MEMORY = 1 << 29;

class Blocks {
  constructor(exported) {
    this.exported = exported;
    this.taken = [];
  }

  take(length) {
    const address = this.exported.malloc(BigInt(length || 1));
    if (!address) throw new Error('the module has no memory left');
    this.taken.push(address);
    return address;
  }

  copyIn(list) {
    const address = this.take(list.byteLength);
    const bytes = new Uint8Array(list.buffer, list.byteOffset, list.byteLength);
    new Uint8Array(this.exported.memory.buffer, Number(address), list.byteLength).set(bytes);
    return address;
  }

  giveBack() {
    for (const address of this.taken.reverse()) this.exported.free(address);
  }
}

function passed(blocks, words) {
  const values = [];
  for (const word of words) {
    if (ArrayBuffer.isView(word)) values.push(blocks.copyIn(word), BigInt(word.length));
    else values.push(Number(word));
  }
  return values;
}

function callWithRoom(exported, name, values, blocks, room) {
  const length = blocks.take(8);
  const out = blocks.take(room);
  const status = exported[`multiscalar_c_${name}`](...values, out, BigInt(room), length);
  const written = Number(new DataView(exported.memory.buffer).getBigUint64(Number(length), true));
  if (status === IS_SHORT) return callWithRoom(exported, name, values, blocks, written);
  const bytes = new Uint8Array(exported.memory.buffer, Number(out), status < IS_SHORT ? written : 0);
  return { status, bytes: bytes.slice() };
}

function callOnce(exported, name, words) {
  const blocks = new Blocks(exported);
  const answer = callWithRoom(exported, name, passed(blocks, words), blocks, FIRST_ROOM);
  blocks.giveBack();
  return answer;
}

// Compiles the module, and answers the function that makes a call. After a trap, and when much memory was taken,
// the next call gets a new instance.
export async function startModule(bytes) {
  const compiled = await WebAssembly.compile(bytes);
  let instance = await WebAssembly.instantiate(compiled, {});
  return (name, words) => {
    const used = instance ?? new WebAssembly.Instance(compiled, {});
    instance = null;
    const answer = callOnce(used.exports, name, words);
    if (used.exports.memory.buffer.byteLength < MOST_MEMORY) instance = used;
    return answer;
  };
}
