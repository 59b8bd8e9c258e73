// What a step did, in words.
let isHexShown = false;
// Where the page stands, the state there, and the one before.
const view = { step: 0, state: null, before: null, future: 'dim' };

function numberText(value) {
  if (isHexShown) return hex(value);
  if (value < 1e6) return String(value);
  return value > 0xfff00000 ? String(value - 4294967296) : '0x' + value.toString(16);
}

// Bits of the status in EAX (SDM volume 1, "RTM Abort Status Definition").
const statusBits = [
  [1, 'XABORT'], [4, 'a conflict'], [8, 'no room, or too deep'], [16, 'a breakpoint'], [32, 'nested'],
  [2, 'a retry may succeed'],
];

function statusText(status) {
  const set = statusBits.filter(([bit]) => status & bit).map(([, text]) => text);
  if (status & 1) set[0] += ` with 0x${(status >>> 24).toString(16)}`;
  return set.length ? set.join(', ') : 'no reason is told';
}

const storedText = digits => digits.length <= 8
  ? numberText(bytesOf(digits).reduceRight((value, byte) => value * 256 + byte, 0)) : `${digits.length / 2} bytes`;

// The registers that a step changed, but for those that its instruction always changes.
function registerChanges(core, text) {
  const isStackUse = /^(push|pop|call|ret|leave)/.test(text), changes = [];
  const old = view.before.cores[core].registers, now = view.state.cores[core].registers;
  for (let register = 0; register < EIP; register++) {
    if (now[register] === old[register] || register === ESP && isStackUse) continue;
    changes.push(`${registerNames[register]} becomes ${numberText(now[register])}`);
  }
  return changes;
}

function flowOf(core, step, text) {
  const registers = view.state.cores[core].registers;
  if (/^(j|loop|call|ret)/.test(text)) {
    const isNext = registers[EIP] === following.get(addresses[step]);
    return [isNext ? 'does not jump' : `goes on at ${place(registers[EIP])}`];
  }
  return /^(cmp|test|xtest|bt )/.test(text) ? [`zero flag ${registers[FLAGS] & 64 ? 'set' : 'clear'}`] : [];
}

// What a step loaded, stored and changed.
function actions(step) {
  const [core, kind, , more = {}] = run.steps[step - 1], did = [], sees = view.before.cores[core];
  eachPair(more.l, (address, count) =>
    did.push(`loads ${spot(address)} = ${numberText(wordAt(view.before, address, sees, count))}`));
  eachPair(more.t || more.m, (address, digits) => did.push(`stores ${storedText(digits)} to ${spot(address)}`));
  if (more.s) did.push(`stores ${numberText(more.s[2])} to ${spot(more.s[0])}`);
  if (kind !== 'p' && kind !== 'i') return did.join(', ');
  const text = printed(addresses[step]);
  return [...did, ...registerChanges(core, text), ...flowOf(core, step, text)].join(', ');
}

const joined = (lines, set) => lines
  ? `; ${lines.map(lineText).join(', ')} join${lines.length > 1 ? '' : 's'} its ${set} set` : '';

// "a", "a and b", "a, b and c", as badges.
const badges = cores => cores.flatMap((core, index) => index
  ? [index === cores.length - 1 ? ' and ' : ', ', badge(core)] : [badge(core)]);

const outsideWords = {
  interrupt: 'an interrupt came in place of its next step',
  eviction: 'the processor gave up a line of its sets in place of its next step',
  snoop: 'an access from outside of the program took a line of its sets in place of its next step',
};

function beginWords(core, step) {
  if (isOpen(view.before.cores[core])) return [' nests another transaction: ', code(step), '.'];
  const fallback = fallbackOf(addresses[step]);
  const then = fallback === null ? '' : ` Should it abort, it goes on at ${place(fallback)} with the registers of now.`;
  return [' begins a transaction: ', code(step), '. From here on what it stores is private.', then];
}

function insideWords(core, step) {
  const did = actions(step), more = moreOf(step);
  const stores = more.t ? ' (the store is private until it commits)' : '';
  const sets = joined(more.r, 'read') + joined(more.w, 'write');
  return [' inside its transaction: ', code(step), did ? `: ${did}${stores}` : '', sets, '.'];
}

function commitWords(core, step) {
  const count = view.before.cores[core].stored.size, isInner = isOpen(view.state.cores[core]);
  if (isInner) return [' ends an inner transaction: ', code(step), '.'];
  const bytes = count === 1 ? 'Its 1 stored byte reaches' : `Its ${count} stored bytes reach`;
  const came = count ? `. ${bytes} memory at once, in this one step.` : '. It had stored nothing.';
  return [' commits: ', code(step), came];
}

function abortWords(core, step) {
  const registers = view.state.cores[core].registers, status = registers[EAX], from = outsideWords[moreOf(step).e];
  const back = 'Its stores are gone, its registers are those before its XBEGIN, and it goes on at';
  return [from ? ` aborts: ${from}. ` : ' aborts. ',
    `${back} ${place(registers[EIP])} with EAX = ${hex(status)}: ${statusText(status)}.`];
}

function plainWords(core, step) {
  const did = actions(step), half = view.before.cores[core].state === 'mid' ? ' second half of ' : ' ';
  const pends = moreOf(step).s ? ' (the store is pending: no other core sees it yet)' : '';
  return [half, code(step), did ? `: ${did}${pends}.` : '.'];
}

function drainWords(core) {
  const [address, , value] = view.before.cores[core].pending[0];
  return [' drains: its oldest pending store reaches memory, ', `${numberText(value)} to ${spot(address)}.`];
}

const wordsOf = {
  b: beginWords, i: insideWords, c: commitWords, a: abortWords, e: abortWords, p: plainWords, d: drainWords,
  l: (core, step) => [' first half of ', code(step), `: ${actions(step)}. Another core may step before it stores.`],
  s: (core, step) => [' stops: ', code(step), `, ${stopText(view.state.cores[core])}.`],
  z: () => [' has stopped; nothing happens.'],
};

const code = step => element('code', '', written(addresses[step]));
const stopText = core => core.state.replace(/^stop(ped)?[: ]/, '');

// Who is doomed by this step, by line and kind of access.
function doomGroups(step) {
  const groups = new Map();
  for (const [victim, line, isWrite] of moreOf(step).d || []) {
    const core = view.before.cores[victim];
    const had = [core.reads.has(line) && 'read', core.writes.has(line) && 'written'].filter(Boolean).join(' and ');
    const key = [line, isWrite, had].join();
    if (!groups.has(key)) groups.set(key, { line, isWrite, had, victims: [] });
    groups.get(key).victims.push(victim);
  }
  return [...groups.values()];
}

function doomLine(by, { line, isWrite, had, victims }) {
  const many = victims.length > 1;
  return element('span', 'doomline', '\u2717 ', badge(by), ` ${isWrite ? 'writes' : 'reads'} ${lineText(line)}, which `,
    `the open transaction${many ? 's' : ''} of `, ...badges(victims), ` ${many ? 'have' : 'has'} ${had}: `,
    ...badges(victims), many ? ' are doomed.' : ' is doomed.');
}

// The sentence of a step.
function sentence(step) {
  const count = `${stepCount} step${stepCount === 1 ? ' follows' : 's follow'}`;
  if (!step) {
    const begins = firstStep ? `Behind step ${firstStep} of the run` : 'The beginning';
    return [`${begins}: ${coreCount} core${coreCount > 1 ? 's' : ''}, ${count}.`];
  }
  const [core, kind] = run.steps[step - 1];
  const said = [element('span', 'hidden', `Step ${numberOf(step)}. `), badge(core), ...wordsOf[kind](core, step)];
  for (const group of doomGroups(step)) said.push(doomLine(core, group));
  if (reasonOf(step)) said.push(element('span', 'why', reasonOf(step)));
  return said.filter(isKid);
}
