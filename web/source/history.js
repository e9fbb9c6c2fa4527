// What a machine looks like before and after each event, read from the lines of JSON that `run` and `replay` write.
// Nothing is executed here: each change is one that the machine told.

// The events of the lines, and the line on the end.
export function readLines(text) {
  if (!text.startsWith('{')) return null;
  const told = text.trimEnd().split('\n').map(line => JSON.parse(line));
  return { events: told.filter(it => 'event' in it), end: told.at(-1) };
}

// An event as a line of a script.
export function scriptLine(event) {
  const words = [event.kind];
  if (event.kind === 'assign') words.push(event.task);
  if (event.position !== undefined) words.push(event.position);
  if (event.register !== undefined && ['transfer', 'drain'].includes(event.kind)) words.push(`$${event.register}`);
  return words.join(' ');
}

function withUnit(state, position, news) {
  state.queue[position] = { ...state.queue[position], ...news };
}

const NO_UNIT = { life: null, task: '', line: null, hasStopped: false, exit: null, arrived: {}, written: {}, sent: {}, executed: 0 };

const CHANGES = {
  began(state, change, event, lives) {
    const seat = (state.head + change.position) % state.units;
    const life = { number: lives.length, task: change.task, seat, from: event.event, to: null, fate: 'unfinished', acts: [] };
    lives.push(life);
    state.queue[change.position] = { ...NO_UNIT, life, seat, task: change.task, line: change.line };
    state.taker = change.position;
  },
  executed(state, change) {
    withUnit(state, change.position, { executed: state.queue[change.position].executed + 1, last: change.line });
  },
  wrote(state, change, event) {
    withUnit(state, event.position, { written: { ...state.queue[event.position].written, [change.register]: change.word } });
  },
  sent(state, change, event) {
    withUnit(state, event.position, { sent: { ...state.queue[event.position].sent, [change.register]: change.word } });
  },
  drained(state, change) {
    withUnit(state, change.position, { sent: { ...state.queue[change.position].sent, [change.register]: change.word } });
  },
  became_head(state) {
    state.taker = 0;
  },
  took(state, change) {
    const unit = state.queue[state.taker];
    withUnit(state, state.taker, { arrived: { ...unit.arrived, [change.register]: change.word } });
  },
  arrived(state, change) {
    const unit = state.queue[change.position];
    withUnit(state, change.position, { arrived: { ...unit.arrived, [change.register]: change.word } });
    state.moved = { from: state.queue[change.position - 1].seat, to: unit.seat, register: change.register, word: change.word };
  },
  moved_to(state, change, event) {
    withUnit(state, event.position, { line: change.line ?? null });
  },
  stopped_at(state, change, event) {
    withUnit(state, event.position, { hasStopped: true, line: null, exit: { line: change.line ?? null, address: change.address } });
  },
  put_out(state, change) {
    state.output = [...state.output, change.word];
  },
  stored(state, change) {
    state.stored = change;
  },
  squashed(state, change, event) {
    lose(state, change, event, 'squashed');
  },
  dropped(state, change, event) {
    lose(state, change, event, 'dropped');
  },
  retired(state, change, event) {
    const unit = state.queue[0];
    end(unit.life, event, 'retired');
    state.committed = { ...state.committed, ...unit.sent };
    state.left = [{ ...unit, fate: 'retired' }];
    state.queue = state.queue.slice(1);
    state.head = (state.head + 1) % state.units;
    state.retired += 1;
  },
  ended(state, change) {
    state.standing = change.standing;
  },
};

function end(life, event, fate) {
  life.to = event.event;
  life.fate = fate;
}

function lose(state, change, event, fate) {
  const unit = state.before.queue[change.position];
  end(unit.life, event, fate);
  state.left = [...state.left, { ...unit, fate }];
  state.queue = state.queue.slice(0, change.position);
}

// The seat on the ring of the unit that acts: the free unit for an assign, the head for a retire.
function seatOf(state, event) {
  const position = event.kind === 'assign' ? state.queue.length : event.position ?? 0;
  return (state.head + position) % state.units;
}

// What a state says of its own event alone: a register that moved, a word that was stored, units that lost their tasks.
const QUIET = { moved: null, stored: null, left: [], taker: null };

function stateAfter(before, event, lives) {
  const state = { ...before, ...QUIET, queue: [...before.queue], before, event };
  state.actor = seatOf(before, event);
  for (const change of event.changes) CHANGES[change.change]?.(state, change, event, lives);
  state.before = null;
  return state;
}

function noteAct(state, before, event) {
  const position = event.kind === 'assign' ? before.queue.length : event.position ?? 0;
  const life = (state.queue[position]?.life?.seat === state.actor ? state.queue[position] : before.queue[position])?.life;
  life?.acts.push({ event: event.event, kind: event.kind, isRefused: event.answer === 'refused' });
}

// The states of a machine of so many units: the first is before all events, and one is after each.
export function historyOf(events, units) {
  const lives = [];
  const first = { ...QUIET, units, queue: [], head: 0, committed: {}, output: [], retired: 0, standing: 'running', event: null, actor: null };
  const states = [first];
  for (const event of events) {
    const before = states.at(-1);
    const isRefused = event.answer === 'refused';
    const state = isRefused ? { ...before, ...QUIET, event, actor: seatOf(before, event) } : stateAfter(before, event, lives);
    noteAct(state, before, event);
    states.push(state);
  }
  return { states, lives };
}
