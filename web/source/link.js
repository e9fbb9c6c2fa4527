// The state of the page in its link, so that one can hand it in: texts are compressed and written in base64. A link that holds
// work begins with a seal, `v=1-` and a checksum of all the rest, so that one sees if it was cut or damaged on its way.
// web/mark.py reads these links, too.

const LINK_VERSION = '1';

async function through(stream, bytes) {
  return new Uint8Array(await new Response(new Blob([bytes]).stream().pipeThrough(stream)).arrayBuffer());
}

function binaryText(bytes) {
  let text = '';
  for (let at = 0; at < bytes.length; at += 8192) text += String.fromCharCode(...bytes.subarray(at, at + 8192));
  return text;
}

// A text as letters, digits, `-` and `_`.
export async function packText(text) {
  const bytes = await through(new CompressionStream('deflate-raw'), new TextEncoder().encode(text));
  return btoa(binaryText(bytes)).replaceAll('+', '-').replaceAll('/', '_').replace(/=+$/, '');
}

export async function unpackText(packed) {
  const bytes = Uint8Array.from(atob(packed.replaceAll('-', '+').replaceAll('_', '/')), it => it.charCodeAt(0));
  return new TextDecoder('utf-8', { fatal: true }).decode(await through(new DecompressionStream('deflate-raw'), bytes));
}

// Whether a word of the link holds a text: the program, a script, a kept text, the work on an exercise.
function isText(name) {
  return /^(text|script|kept)\d?$/.test(name);
}

// Whether a word of the link is work that one hands in.
function isWork(name) {
  return isText(name) || /^answer\d\./.test(name) || name === 'name';
}

function checksum(text) {
  let sum = -1;
  for (const byte of new TextEncoder().encode(text)) {
    sum ^= byte;
    for (let bit = 0; bit < 8; bit += 1) sum = (sum >>> 1) ^ (sum & 1 ? 0xedb88320 : 0);
  }
  return ((sum ^ -1) >>> 0).toString(16).padStart(8, '0');
}

// The seal of the words of a link, which have names and values.
function sealOf(words) {
  const lines = words.map(([name, value]) => `${name}=${value}\n`).sort();
  return `${LINK_VERSION}-${checksum(lines.join(''))}`;
}

const DAMAGED = 'This link is cut or damaged, so it does not show all of the work that it was made for. Ask for the link again, or copy it as a whole.';

// What is wrong with a link, from its words; null if nothing is.
function faultOf(seal, words) {
  if (seal === null) return words.some(([name]) => isWork(name)) ? 'This link has no seal: an earlier version of this page made it, or its beginning is cut off. Look whether its work is whole.' : null;
  const [version] = seal.split('-');
  if (/^\d+$/.test(version) && version !== LINK_VERSION && seal.includes('-')) return `This link is of version ${version}, and this page reads version ${LINK_VERSION}: it may not show all of the work. Open it with the page that it was made with.`;
  return seal === sealOf(words) ? null : DAMAGED;
}

// Reads a link: its state, without the texts that cannot be read, and what is wrong with it, or null.
export async function readLink(hash) {
  const all = [...new URLSearchParams(hash.replace(/^#/, ''))];
  const words = all.filter(([name]) => name !== 'v');
  const state = Object.fromEntries(words);
  let fault = faultOf(all.find(([name]) => name === 'v')?.[1] ?? null, words);
  for (const name of Object.keys(state).filter(isText)) {
    try {
      state[name] = await unpackText(state[name]);
    } catch {
      delete state[name];
      fault = DAMAGED;
    }
  }
  return { state, fault };
}

// Writes a state: what is empty is left out.
export async function writeLink(state) {
  const words = [];
  for (const [name, value] of Object.entries(state)) {
    if (value === null || value === undefined || value === '') continue;
    words.push([name, isText(name) ? await packText(value) : String(value)]);
  }
  const seal = words.some(([name]) => isWork(name)) ? [['v', sealOf(words)]] : [];
  return `#${new URLSearchParams([...seal, ...words])}`;
}
