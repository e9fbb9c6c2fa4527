// Elements of the page, made from a name, attributes and children.

const PICTURE = 'http://www.w3.org/2000/svg';

export function find(id) {
  return document.getElementById(id);
}

function fill(element, attributes, children) {
  for (const [name, value] of Object.entries(attributes)) {
    if (value === null || value === undefined || value === false) continue;
    if (name.startsWith('on')) element.addEventListener(name.slice(2), value);
    else element.setAttribute(name, value === true ? '' : value);
  }
  element.append(...children.flat().filter(child => child !== null && child !== undefined));
  return element;
}

// An element of HTML. Attributes that begin with `on` are listeners.
export function make(name, attributes = {}, ...children) {
  return fill(document.createElement(name), attributes, children);
}

// An element of a picture.
export function draw(name, attributes = {}, ...children) {
  return fill(document.createElementNS(PICTURE, name), attributes, children);
}

// Puts new children in the place of the old ones. A control that had the focus gets it back by its data-key; if it is no
// longer there, the one that stands where it stood gets it.
export function put(place, ...children) {
  const controls = () => [...place.querySelectorAll('[data-key]')];
  const held = place.contains(document.activeElement) ? document.activeElement : null;
  const key = held?.dataset.key;
  const at = key === undefined ? -1 : controls().indexOf(held);
  place.replaceChildren(...children.flat().filter(child => child !== null && child !== undefined));
  if (key === undefined) return;
  const now = controls();
  (now.find(it => it.dataset.key === key) ?? now[Math.min(at, now.length - 1)])?.focus({ preventScroll: true });
}

export function plural(count, word) {
  return `${count} ${word}${count === 1 ? '' : 's'}`;
}

// Writes a sentence that a screen reader reads out; the same one is not written again.
export function say(place, sentence) {
  if (place.textContent !== sentence) place.textContent = sentence;
}

// Says something once to a screen reader.
export function announce(sentence) {
  find('announcement').textContent = sentence;
}

// Hands bytes out as a file.
export function handOut(name, blob) {
  const address = URL.createObjectURL(blob);
  make('a', { href: address, download: name }).click();
  setTimeout(() => URL.revokeObjectURL(address), 1000);
}

// Hands a text out as a file.
export function download(name, text) {
  handOut(name, new Blob([text], { type: 'text/plain' }));
}

// Copies a text, and says on the button that it did.
export async function copy(text, button) {
  const before = button.textContent;
  try {
    await navigator.clipboard.writeText(text);
    button.textContent = 'Copied';
  } catch {
    button.textContent = 'Not allowed to copy';
  }
  setTimeout(() => { button.textContent = before; }, 1500);
}
