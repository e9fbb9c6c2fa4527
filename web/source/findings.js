// The findings of `explain`, read from its log (SARIF). A finding may lack a place, notes, a path, a help or edits.

// A question needs no period after it.
function tidy(sentence) {
  return sentence.replace(/([?!])\.$/, '$1');
}

function placeOf(location) {
  const region = location?.physicalLocation?.region;
  if (!region?.startLine) return null;
  return {
    line: region.startLine,
    column: region.startColumn ?? 1,
    endLine: region.endLine ?? region.startLine,
    endColumn: region.endColumn ?? null,
  };
}

function fileOf(location) {
  return location?.physicalLocation?.artifactLocation?.uri;
}

function isSamePlace(one, other) {
  return one !== null && other !== null && one.line === other.line && one.column === other.column && one.endColumn === other.endColumn;
}

function editsOf(result) {
  const edits = [];
  for (const change of result.fixes?.[0]?.artifactChanges ?? [])
    for (const replacement of change.replacements ?? []) {
      const place = placeOf({ physicalLocation: { region: replacement.deletedRegion } });
      if (place) edits.push({ place, text: replacement.insertedContent?.text ?? '' });
    }
  return edits;
}

function pathOf(result) {
  const steps = result.codeFlows?.[0]?.threadFlows?.[0]?.locations ?? [];
  return steps.map(step => placeOf(step.location)).filter(place => place !== null);
}

// The place of a related location; a line of C is in another file, and none of the text's.
function placeHere(location, result) {
  return fileOf(location) === fileOf(result.locations?.[0]) ? placeOf(location) : null;
}

// Notes are the related places; the last one at the finding's own place is the help, if the sentence has none below it.
function notesAndHelp(result, place, below) {
  const notes = (result.relatedLocations ?? []).map(it => ({ place: placeHere(it, result), sentence: tidy(it.message?.text ?? '') }));
  const said = below.filter(line => line.startsWith('help: ')).map(line => line.slice(6));
  if (said.length) return { notes, help: said.join(' ') };
  const described = result.fixes?.[0]?.description?.text === undefined ? null : tidy(result.fixes[0].description.text);
  const last = notes.at(-1);
  if (last && (last.sentence === described || isSamePlace(last.place, place) || (!place && !last.place)))
    return { notes: notes.slice(0, -1), help: last.sentence };
  return { notes, help: described };
}

function findingOf(result, number) {
  const [sentence, ...below] = (result.message?.text ?? '').split('\n');
  const place = placeOf(result.locations?.[0]);
  return {
    number,
    code: result.ruleId ?? '',
    level: result.level ?? 'error',
    sentence,
    place,
    path: pathOf(result),
    edits: editsOf(result),
    ...notesAndHelp(result, place, below),
  };
}

// All findings of a log, in its order.
export function readFindings(log) {
  try {
    return (JSON.parse(log).runs?.[0]?.results ?? []).map(findingOf);
  } catch {
    return [];
  }
}

function positionOf(starts, line, column) {
  return starts[Math.min(line, starts.length) - 1] + column - 1;
}

// The text with all edits of a finding made together.
export function applyEdits(text, edits) {
  const lines = text.split('\n');
  const starts = [0];
  for (const line of lines) starts.push(starts.at(-1) + line.length + 1);
  const stretches = edits.map(({ place, text: inserted }) => ({
    from: positionOf(starts, place.line, place.column),
    to: place.endColumn === null ? starts[place.endLine] - 1 : positionOf(starts, place.endLine, place.endColumn),
    inserted,
  }));
  stretches.sort((one, other) => other.from - one.from);
  return stretches.reduce((made, it) => made.slice(0, it.from) + it.inserted + made.slice(it.to), text);
}

// Whether there is a wrong mark among the findings.
export function hasWrongMarks(findings) {
  return findings.some(it => /^rule\d/.test(it.code));
}

// What a finding is called: a rule of the checker, a fault of the text, or a warning.
export function nameOf(code) {
  const rule = /^rule(\d+)$/.exec(code);
  if (rule) return `rule ${rule[1]}`;
  return code.replace(/^warning-/, 'warning ').replace(/^refused-/, 'refused ').replaceAll('-', ' ');
}
