// States: the opening one, and what each step changes. A state is a key frame and at most 63 steps behind it, forwards
// as backwards. A line of memory is never changed in place, so frames share it.
const frameDistance = 64, zeroLine = new Uint8Array(64);
const bytesOf = text => Uint8Array.from(text.match(/../g) || [], digits => parseInt(digits, 16));

function openingCore(registers, core) {
  const made = {
    registers: registers.slice(), state: (run.states || [])[core] || 'run',
    base: null, begun: 0, doom: null, lost: null,
    reads: new Map(), writes: new Map(), loads: new Set(), stored: new Map(),
    pending: (run.pending || {})[core] || [],
  };
  const open = (run.open || {})[core];
  return open ? openedBefore(made, open) : made;
}

// Whether a store of some core is pending anywhere on this page.
const isBuffered = Boolean(run.pending) || run.steps.some(([, , , more]) => more && more.s);

// A transaction that was begun before the first step of this page.
function openedBefore(core, open) {
  core.base = open.b;
  for (const line of open.r || []) core.reads.set(line, 0);
  for (const line of open.w || []) core.writes.set(line, 0);
  eachPair(open.t, (address, digits) => bytesOf(digits).forEach((byte, i) => core.stored.set(address + i, byte)));
  if (open.d) {
    core.doom = { step: 0, line: open.d[0], isWrite: open.d[1], by: open.d[2] };
    core.lost = { reads: new Map(), writes: new Map(), loads: new Set(), stored: new Map() };
  }
  return core;
}

const opening = () => ({
  memory: new Map(Object.entries(run.bytes).map(([line, digits]) => [parseInt(line, 16), bytesOf(digits)])),
  cores: run.opening.map(openingCore),
});

const copyOf = state => ({
  memory: new Map(state.memory),
  cores: state.cores.map(core => ({
    ...core, registers: core.registers.slice(), reads: new Map(core.reads), writes: new Map(core.writes),
    loads: new Set(core.loads), stored: new Map(core.stored),
  })),
});

const isOpen = core => core.state.startsWith('tx');
const isDoomed = core => core.state === 'condemned';
const isStopped = core => core.state.startsWith('stop');

function close(core) {
  core.reads = new Map();
  core.writes = new Map();
  core.loads = new Set();
  core.stored = new Map();
}


// A store touches one line or two: each is copied once.
function store(state, address, digits) {
  const bytes = bytesOf(digits);
  for (let at = 0; at < bytes.length;) {
    const line = (address + at) >>> 6, offset = (address + at) & 63, count = Math.min(64 - offset, bytes.length - at);
    const now = (state.memory.get(line) || zeroLine).slice();
    now.set(bytes.subarray(at, at + count), offset);
    state.memory.set(line, now);
    at += count;
  }
}

// A core's transaction is doomed: its registers are those before its XBEGIN, its sets and private bytes are gone.
function doom(victim, step, by, line, isWrite) {
  victim.state = 'condemned';
  victim.lost = { reads: victim.reads, writes: victim.writes, loads: victim.loads, stored: victim.stored };
  victim.doom = { step, line, isWrite, by };
  victim.registers = victim.base.slice();
  close(victim);
}

function noteLoad(core, address, count) {
  for (let i = 0; i < count; i++) core.loads.add(address + i);
}

const isAbort = kind => kind === 'a' || kind === 'e';

// What a step does to a state.
function apply(state, step) {
  const [number, kind, registers, more = {}] = run.steps[step - 1], core = state.cores[number];
  if (kind === 'b' && !isOpen(core)) {
    Object.assign(core, { base: core.registers.slice(), begun: step, doom: null, lost: null });
    close(core);
  }
  if (isAbort(kind)) {
    Object.assign(core, { base: null, doom: null, lost: null });
    close(core);
  }
  eachPair(registers, (register, value) => { core.registers[register] = value; });
  if (more.q) core.state = more.q;
  for (const line of more.r || []) core.reads.set(line, step);
  for (const line of more.w || []) core.writes.set(line, step);
  if (kind === 'i') eachPair(more.l, (address, count) => noteLoad(core, address, count));
  eachPair(more.t, (address, digits) => bytesOf(digits).forEach((byte, i) => core.stored.set(address + i, byte)));
  eachPair(more.m, (address, digits) => store(state, address, digits));
  if (kind === 'd') core.pending = core.pending.slice(1);
  if (more.s) core.pending = [...core.pending, more.s];
  if (kind === 'c') {
    core.base = null;
    close(core);
  }
  for (const [victim, line, isWrite] of more.d || []) doom(state.cores[victim], step, number, line, isWrite);
}

// The newest store of a core that is pending at an address, or nothing.
const pendingAt = (core, address) => (core.pending || []).findLast(
  ([first, count]) => address >= first && address < first + count);

// A byte of memory, or as a core sees it: its private bytes lie over its pending stores, and these over memory.
function byteAt(state, address, core) {
  if (core && core.stored.has(address)) return core.stored.get(address);
  const store = core && pendingAt(core, address);
  if (store) return store[2] >>> 8 * (address - store[0]) & 255;
  return (state.memory.get(address >>> 6) || zeroLine)[address & 63];
}

// A little-endian number in memory, or as a core sees it.
function wordAt(state, address, core, count = 4) {
  let value = 0;
  for (let i = count - 1; i >= 0; i--) value = value * 256 + byteAt(state, address + i, core);
  return value;
}
const offsets = [0, 1, 2, 3];
const hasPrivate = (core, address) => offsets.some(i => core.stored.has(address + i));
// Whether a core alone sees this of a word.
const hasStored = (core, address) =>
  hasPrivate(core, address) || offsets.some(i => pendingAt(core, address + i));
