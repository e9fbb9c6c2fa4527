// The work on the exercises, as this browser keeps it. Where a browser keeps nothing for pages from files, or none at all,
// the link still has it.

const PLACE = 'multiscalar-page';
const KEPT_VERSION = 1;

// What was kept: a name, and the work on exercises by their numbers.
export function readProgress() {
  try {
    const kept = JSON.parse(localStorage.getItem(PLACE));
    return kept?.version === KEPT_VERSION ? kept : { name: '', works: {} };
  } catch {
    return { name: '', works: {} };
  }
}

export function writeProgress({ name, works }) {
  try {
    localStorage.setItem(PLACE, JSON.stringify({ version: KEPT_VERSION, name, works }));
  } catch {
    // It is kept in the link alone.
  }
}
