// Differences of two texts, line by line. A proposal of `annotate` has the lines of the text, with other marks.

function commonStart(one, other) {
  let at = 0;
  while (at < one.length && at < other.length && one[at] === other[at]) at += 1;
  return at;
}

function commonEnd(one, other, start) {
  let count = 0;
  const most = Math.min(one.length, other.length) - start;
  while (count < most && one[one.length - 1 - count] === other[other.length - 1 - count]) count += 1;
  return count;
}

// A stretch that is put in or taken out begins with `$` or a blank rather than that it ends with one.
function shiftedStart(before, after, start) {
  const longer = before.length > after.length ? before : after;
  const length = Math.abs(before.length - after.length);
  const isOneStretch = commonEnd(before, after, start) === Math.min(before.length, after.length) - start;
  const canShift = isOneStretch && length > 0 && /[$ ]/.test(longer[start - 1] ?? '') && longer[start - 1] === longer[start + length - 1];
  return canShift ? start - 1 : start;
}

// What differs between two lines: what both begin with, what is taken out, what is put in, what both end with.
export function stretchOf(before, after) {
  const start = shiftedStart(before, after, commonStart(before, after));
  const end = commonEnd(before, after, start);
  return {
    start: before.slice(0, start),
    removed: before.slice(start, before.length - end),
    added: after.slice(start, after.length - end),
    end: before.slice(before.length - end),
  };
}

// The lines of a proposal that differ from the text's own. Both have the same number of lines.
export function changedLines(text, proposal) {
  const before = text.split('\n');
  const after = proposal.split('\n');
  if (before.length !== after.length) return [];
  return before.flatMap((line, at) => line === after[at] ? [] : [{ line: at + 1, before: line, after: after[at] }]);
}

// The text with one line put in the place of another.
export function withLine(text, number, line) {
  const lines = text.split('\n');
  lines[number - 1] = line;
  return lines.join('\n');
}

function longestCommon(before, after) {
  const table = Array.from({ length: before.length + 1 }, () => new Uint16Array(after.length + 1));
  for (let row = before.length - 1; row >= 0; row -= 1)
    for (let column = after.length - 1; column >= 0; column -= 1)
      table[row][column] = before[row] === after[column]
        ? table[row + 1][column + 1] + 1
        : Math.max(table[row + 1][column], table[row][column + 1]);
  return table;
}

const MOST_LINES = 1500;

// The lines of two texts side by side: kept, taken out or put in.
export function alignLines(one, other) {
  const before = one.trimEnd().split('\n').slice(0, MOST_LINES);
  const after = other.trimEnd().split('\n').slice(0, MOST_LINES);
  const table = longestCommon(before, after);
  const rows = [];
  let row = 0;
  let column = 0;
  while (row < before.length || column < after.length) {
    if (row < before.length && column < after.length && before[row] === after[column]) {
      rows.push({ kind: 'kept', text: before[row] });
      row += 1;
      column += 1;
    } else if (row < before.length && (column >= after.length || table[row + 1][column] >= table[row][column + 1])) {
      rows.push({ kind: 'removed', text: before[row] });
      row += 1;
    } else {
      rows.push({ kind: 'added', text: after[column] });
      column += 1;
    }
  }
  return rows;
}
