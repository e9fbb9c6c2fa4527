// Pictures for slides: the sentence, the ring and the lanes of one moment as one SVG, or as a PNG at twice the size.

import { draw, find, handOut } from './elements.js';

// What of the page's style goes with each element.
const STYLES = ['fill', 'stroke', 'stroke-width', 'stroke-dasharray', 'stroke-linejoin', 'paint-order', 'opacity', 'font-family', 'font-size', 'font-weight', 'text-anchor'];
const GAP = 16;
const LINE = 26;
const RING = 420;
const SCALE = 2;

// A copy of a picture that needs no style sheet.
function copyOf(picture) {
  const copy = picture.cloneNode(true);
  const parts = [...copy.querySelectorAll('*')];
  [...picture.querySelectorAll('*')].forEach((it, at) => {
    const style = getComputedStyle(it);
    for (const name of STYLES) parts[at].setAttribute(name, style.getPropertyValue(name));
    parts[at].removeAttribute('class');
  });
  return copy;
}

function placed(picture, x, y, width, height) {
  const copy = copyOf(picture);
  for (const [name, value] of Object.entries({ x, y, width, height })) copy.setAttribute(name, value);
  return copy;
}

// The sentence in lines of at most so many letters.
function wrappedLines(sentence, most) {
  return sentence.split(' ').reduce((lines, word) => {
    const last = lines.at(-1);
    return last && last.length + word.length < most ? [...lines.slice(0, -1), `${last} ${word}`] : [...lines, word];
  }, []);
}

// The picture of what the page shows now.
function pictureOf() {
  const style = getComputedStyle(find('stage'));
  const ring = find('ring').querySelector('svg');
  const lanes = find('lanes').querySelector('svg');
  const [, , wide, high] = lanes.getAttribute('viewBox').split(' ').map(Number);
  const width = Math.max(wide, RING, 640) + 2 * GAP;
  const lines = wrappedLines(find('event-sentence').textContent, Math.floor(width / 10.5));
  const below = GAP + lines.length * LINE;
  const height = below + RING + high + 2 * GAP;
  const text = lines.map((line, at) => draw('text', { x: GAP, y: GAP + 16 + at * LINE, fill: style.color, 'font-family': 'system-ui, sans-serif', 'font-size': 18, 'font-weight': 600 }, line));
  return draw('svg', { xmlns: 'http://www.w3.org/2000/svg', width, height, viewBox: `0 0 ${width} ${height}` },
    draw('title', {}, find('event-sentence').textContent),
    draw('rect', { width, height, fill: style.backgroundColor }), text,
    placed(ring, (width - RING) / 2, below, RING, RING), placed(lanes, GAP, below + RING + GAP / 2, wide, high));
}

function textOf(picture) {
  return new XMLSerializer().serializeToString(picture);
}

export function saveSvg() {
  handOut('multiscalar.svg', new Blob([textOf(pictureOf())], { type: 'image/svg+xml' }));
}

// Draws the picture at twice its size.
export async function savePng() {
  const picture = pictureOf();
  const image = new Image();
  image.src = `data:image/svg+xml;charset=utf-8,${encodeURIComponent(textOf(picture))}`;
  await image.decode();
  const canvas = document.createElement('canvas');
  canvas.width = SCALE * Number(picture.getAttribute('width'));
  canvas.height = SCALE * Number(picture.getAttribute('height'));
  canvas.getContext('2d').drawImage(image, 0, 0, canvas.width, canvas.height);
  const blob = await new Promise(done => canvas.toBlob(done, 'image/png'));
  handOut('multiscalar.png', blob);
}
