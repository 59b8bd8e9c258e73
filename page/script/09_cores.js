// The cores: state, registers and what an abort puts back, pending stores, sets and private stores.
const isFew = coreCount <= 4;
const shortHex = value => hex(value).replace(/^0+(?=.)/, '');

// Leading zeros are dim.
function digits(value) {
  const text = hex(value), zeros = /^0*(?=.)/.exec(text)[0];
  return [zeros && element('span', 'zeros', zeros), text.slice(zeros.length)];
}

function statePill(core) {
  if (isOpen(core)) {
    const depth = Number(core.state.replace(/\D/g, '')) || 1;
    return element('span', 'pill inside',
      `in a transaction${depth > 1 ? ', depth ' + depth : ''}, since step ${numberOf(core.begun)}`);
  }
  if (isDoomed(core)) return element('span', 'pill doomed', `\u2717 doomed at step ${numberOf(core.doom.step)}`);
  if (isStopped(core)) return element('span', 'pill stopped', 'stopped: ' + stopText(core));
  return element('span', 'pill', core.state === 'mid' ? 'between two halves' : 'outside');
}

const flagsText = flags => flagBits.filter(([, bit]) => flags & bit).map(([name]) => name).join(' ') || 'all clear';

// What an abort puts back into a register, or an empty text.
function putBack(core, register) {
  if (!isOpen(core) || !core.base) return '';
  if (register === EAX) return 'the status';
  if (register === EIP) {
    const fallback = fallbackOf(core.base[EIP]);
    return fallback === null ? '' : place(fallback);
  }
  if (core.base[register] === core.registers[register]) return '';
  return register === FLAGS ? flagsText(core.base[FLAGS]) : shortHex(core.base[register]);
}

function registerValue(core, register) {
  const value = core.registers[register];
  if (register !== FLAGS) {
    const made = element('dd', '', ...digits(value));
    made.dataset.value = hex(value);
    return titled(made, `${value}${register === EIP ? ' ' + nameNear(value) : ''}`);
  }
  const flags = flagBits.map(([name, bit]) => element('b', value & bit ? 'on' : '', name));
  const made = element('dd', 'flags', ...flags, element('span', 'hidden', `flags ${hex(value, 3)}`));
  made.dataset.value = hex(value, 3);
  return titled(made, hex(value, 3));
}

function registerRow(core, old, register, back) {
  const isChanged = core.registers[register] !== old.registers[register];
  return element('div', isChanged ? 'changed' : '', element('dt', '', registerNames[register]),
    registerValue(core, register),
    isChanged && register < EIP && element('span', 'was', 'was ' + shortHex(old.registers[register])),
    back && titled(element('span', 'back', isFew ? '\u21a9 ' + back : '\u21a9'), 'an abort puts back: ' + back));
}

function lineChip([line, since], className, isLost) {
  const name = lineName(line), form = isLost ? 'lost' : since === view.step ? 'new' : '';
  const chip = element('span', `chip ${className} ${form}`, line.toString(16) + (name ? ' ' + name : ''));
  const range = `addresses ${hex(line * 64)} to ${hex(line * 64 + 63)}`;
  return titled(chip, `line ${line.toString(16)}, ${range}, since step ${numberOf(since)}`);
}

function lineChips(set, className, isLost) {
  if (!set.size) return [element('span', 'quiet', '\u2013')];
  const chips = [...set].sort((a, b) => a[0] - b[0]).slice(0, 24).map(entry => lineChip(entry, className, isLost));
  return set.size > 24 ? [...chips, element('span', 'quiet', `and ${set.size - 24} more`)] : chips;
}

// The bytes that an open transaction has stored, by doublewords.
function privateChips(core, isLost) {
  const words = [...new Set([...core.stored.keys()].map(address => address - address % 4))].sort((a, b) => a - b);
  if (!words.length) return [element('span', 'quiet', '\u2013')];
  const chips = words.slice(0, 12).map(address => element('span', 'chip written' + (isLost ? ' lost' : ''),
    `${spot(address)} = ${numberText(wordAt(view.state, address, core))}`));
  return words.length > 12 ? [...chips, element('span', 'quiet', `and ${words.length - 12} more`)] : chips;
}

// All that is seen of a core's sets.
function setKey(core) {
  const from = isDoomed(core) ? core.lost : core, isNew = ([, since]) => since === view.step;
  const lines = [from.reads, from.writes].map(set => [...set].map(one => one.join(isNew(one) ? '*' : '-')).join());
  const words = [...from.stored].map(([address, byte]) => `${address}=${byte}`).join();
  return [core.state, isHexShown, ...lines, words, words && memoryKey(from)].join('|');
}

// The bytes of memory beside those that a core has stored, with which they make words.
const memoryKey = from =>
  [...from.stored.keys()].map(address => wordAt(view.state, address - address % 4, from)).join();

function setList(core) {
  const isLost = isDoomed(core), from = isLost ? core.lost : core, [mostReads, mostWrites] = run.limits;
  const list = element('dl', 'sets',
    element('dt', '', isLost ? 'had read' : `reads ${core.reads.size}/${mostReads}`),
    element('dd', '', ...lineChips(from.reads, '', isLost)),
    element('dt', '', isLost ? 'had written' : `writes ${core.writes.size}/${mostWrites}`),
    element('dd', '', ...lineChips(from.writes, 'written', isLost)));
  if (isFew || !isLost && core.stored.size) {
    list.append(element('dt', '', isLost ? 'had stored' : 'private'), element('dd', '', ...privateChips(from, isLost)));
  }
  return list;
}

function nextLine(core) {
  if (isStopped(core)) return element('p', 'next', 'no further step');
  if (isDoomed(core)) return element('p', 'next', element('small', '', 'next: '), 'the abort it is owed');
  const at = core.registers[EIP];
  return element('p', 'next', element('small', '', 'next: '), written(at), element('small', '', '  ' + nameNear(at)));
}

// The stores that are pending, the oldest first, as the state lines of `run` have them.
function pendingLine([address, count, value]) {
  const line = element('p', 'pending', `pending ${hex(address)} ${hex(value, 2 * count)}`);
  return titled(line, `${numberText(value)} to ${spot(address)}: no other core sees it yet`);
}

const pendingLines = core =>
  core.pending.map((store, index) => [[index, isHexShown, ...store].join(), () => pendingLine(store)]);

const setText = set => [...set.keys()].sort((a, b) => a - b).map(line => line.toString(16)).join(' ') || '-';

// The cards, each with its boxes: they stay, and what they hold changes.
const cards = [];

function coreCard(number) {
  const state = element('span', 'state'), next = element('div'), registers = element('dl', 'registers');
  const pending = element('div'), sets = element('div'), body = element('div', 'body', registers, sets);
  const head = element('h3', '', badge(number), 'core ' + number, state);
  return { card: element('article', '', head, next, pending, body), state, next, pending, registers, sets };
}

function showRegisters(box, core, old) {
  refill(box, registerNames.map((name, register) => {
    const back = putBack(core, register), values = [core.registers[register], old.registers[register]];
    return [[name, ...values, back].join('|'), () => registerRow(core, old, register, back)];
  }));
}

function showCore(core, number) {
  const didStep = view.step && run.steps[view.step - 1][0] === number, old = view.before.cores[number];
  const { card, state, next, pending, registers, sets } = cards[number];
  setClass(card, `card core ${colourOf(number)} ${didStep ? 'did' : ''}`);
  refill(state, [[[core.state, core.begun, core.doom && core.doom.step].join(), () => statePill(core)]]);
  refill(next, [[[core.state, core.registers[EIP]].join(), () => nextLine(core)]]);
  refill(pending, pendingLines(core));
  showRegisters(registers, core, old);
  refill(sets, isFew || isOpen(core) || isDoomed(core) ? [[setKey(core), () => setList(core)]] : []);
  const reads = setText(core.reads), writes = setText(core.writes);
  Object.assign(card.dataset, { core: number, state: core.state, reads, writes });
}

function showCores() {
  if (!cards.length) {
    byId('cores').classList.toggle('few', isFew);
    cards.push(...view.state.cores.map((_, number) => coreCard(number)));
    byId('cores').append(...cards.map(({ card }) => card));
  }
  view.state.cores.forEach(showCore);
}
