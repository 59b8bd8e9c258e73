// Variables, with what a core alone sees of them, and the lines in sets, word by word.
function variable([name, address]) {
  const value = wordAt(view.state, address), old = wordAt(view.before, address);
  const own = view.state.cores.flatMap((core, number) => hasStored(core, address)
    ? [' ', badge(number), ' sees ' + numberText(wordAt(view.state, address, core))] : []);
  const made = element('li', 'variable', element('span', 'name', name),
    element('span', 'value' + (value !== old ? ' changed' : ''), numberText(value)),
    value !== old && element('span', 'quiet', 'was ' + numberText(old)),
    own.length > 0 && element('span', 'own', ...own.slice(1)));
  Object.assign(made.dataset, { at: address, value: hex(value) });
  return titled(made, `${hex(address)}, line ${(address >>> 6).toString(16)}; in memory ${hex(value)}`);
}

// All that is seen of a variable.
function variableKey([, address], index) {
  const own = view.state.cores.map(core => hasStored(core, address) ? wordAt(view.state, address, core) : '');
  return [index, wordAt(view.state, address), wordAt(view.before, address), isHexShown, ...own].join();
}

function showVariables() {
  byId('vars').hidden = !run.show.length;
  refill(byId('variables'), run.show.map((one, index) => [variableKey(one, index), () => variable(one)]));
}

// The parts of a core that the lines show: of one that this step doomed, what it has lost.
function partsShown(core) {
  if (!isDoomed(core)) return core;
  return core.doom.step === view.step ? core.lost : null;
}

const READ = 1, WRITTEN = 2;

// Which cores have which lines in a set; lines that this step touched stand there too.
function lineUses(more) {
  const uses = new Map();
  view.state.cores.forEach((core, number) => {
    const parts = partsShown(core);
    if (!parts) return;
    for (const [set, bit] of [[parts.reads, READ], [parts.writes, WRITTEN]]) {
      for (const line of set.keys()) {
        if (!uses.has(line)) uses.set(line, new Map());
        uses.get(line).set(number, (uses.get(line).get(number) || 0) | bit);
      }
    }
  });
  for (const list of [more.l, more.t, more.m, more.s && more.s.slice(0, 2)]) {
    eachPair(list, address => {
      if (!uses.has(address >>> 6) && !isInCode(address)) uses.set(address >>> 6, new Map());
    });
  }
  return uses;
}

// The addresses of the words that a list of stores wrote to.
function wordsWritten(list) {
  const words = new Set();
  eachPair(list, (address, digits) => {
    for (let i = 0; i < digits.length / 2; i++) words.add(address + i - (address + i) % 4);
  });
  return words;
}

const useText = ['', 'read', 'written', 'read and written'];

function lineHead(line, cores) {
  const head = element('p', '', element('b', 'mono', 'line ' + line.toString(16)),
    element('span', 'mono quiet', hex(line * 64)), element('span', 'name', lineName(line)));
  for (const [number, bits] of [...cores].sort((a, b) => a[0] - b[0])) {
    const letters = (bits & READ ? 'R' : '') + (bits & WRITTEN ? 'W' : '');
    const form = `${bits & WRITTEN ? 'written' : ''} ${isDoomed(view.state.cores[number]) ? 'lost' : ''}`;
    head.append(element('span', `chip ${colourOf(number)} ${form}`, badge(number), ' ' + letters,
      element('span', 'hidden', ' ' + useText[bits])));
  }
  if (!cores.size) head.append(element('span', 'quiet', 'in no set; touched by this step'));
  return head;
}

// The first label at each doubleword of data.
const wordNames = new Map();
for (const [address, name] of labels) {
  const word = address - address % 4;
  if (!isInCode(address) && !wordNames.has(word)) wordNames.set(word, name + (address > word ? '+' : ''));
}

// A word: memory's value, the cores that loaded it, and what those that stored to it see.
function wordAsSeen(address, writtenWords) {
  const value = wordAt(view.state, address), readers = [], own = [];
  const isChanged = writtenWords.has(address) || value !== wordAt(view.before, address);
  view.state.cores.forEach((core, number) => {
    const parts = partsShown(core);
    if (!parts) return;
    if (offsets.some(i => parts.loads.has(address + i))) readers.push(number);
    if (!hasStored(parts, address)) return;
    own.push([number, wordAt(view.state, address, parts), hasPrivate(parts, address) ? 'private to' : 'pending of']);
  });
  return { address, value, isChanged, readers, own };
}

function privateWord([core, value, whose]) {
  const seen = element('span', `private ${colourOf(core)}`, hex(value));
  seen.dataset.core = core;
  return titled(seen, `${whose} core ${core}`);
}

function wordCell({ address, value, isChanged, readers, own }) {
  const name = wordNames.get(address) || '';
  const isEmpty = !value && !isChanged && !own.length && !readers.length && !name;
  const cell = element('div', `word ${isChanged ? 'changed' : ''} ${isEmpty ? 'empty' : ''}`,
    element('span', 'at', name || '+' + (address & 63).toString(16)), element('span', 'value', hex(value)),
    ...own.map(privateWord), element('span', 'readers', ...readers.map(core => element('i', colourOf(core)))));
  cell.dataset.at = address;
  return titled(cell, `${hex(address)} ${place(address)}`);
}

function showWords(box, line, writtenWords) {
  refill(box, offsetsOfWords.map(offset => {
    const word = wordAsSeen(line * 64 + offset, writtenWords);
    return [[word.address, word.value, word.isChanged, word.readers, word.own].join('|'), () => wordCell(word)];
  }));
}

const offsetsOfWords = Array.from({ length: 16 }, (_, index) => index * 4);

function doomingLine(by, [victim, , isWrite]) {
  return element('p', 'doomline', '\u2717 ', badge(by), ` ${isWrite ? 'writes' : 'reads'} this line \u2192 `,
    badge(victim), ' is doomed');
}

// A line's box holds its head, whom this step doomed by it, and its words.
function showLine(box, line, cores, hits, writtenWords) {
  const by = view.step ? run.steps[view.step - 1][0] : 0;
  const isLost = [...cores.keys()].map(number => isDoomed(view.state.cores[number]));
  setClass(box, `line ${hits.length ? 'hit' : ''}`);
  const now = refill(box, [
    [['head', ...cores, ...isLost].join(), () => lineHead(line, cores)],
    ...hits.map(hit => [['hit', by, ...hit].join(), () => doomingLine(by, hit)]),
    ['words', () => element('div', 'words')],
  ]);
  showWords(now.get('words'), line, writtenWords);
}

const mostLines = 10;
const legendOfLines = 'A stripe below a word: loaded by the core of that colour. A filled value: stored, private until '
  + `XEND${isBuffered ? ', or pending' : ''}. R, W: in the read set, in the write set.`;

function showLines() {
  const more = view.step ? moreOf(view.step) : {}, uses = lineUses(more), writtenWords = wordsWritten(more.m);
  const hitsOf = line => (more.d || []).filter(hit => hit[1] === line), isHit = line => Number(hitsOf(line).length > 0);
  const lines = [...uses.keys()].sort((a, b) => isHit(b) - isHit(a) || a - b);
  const shown = lines.slice(0, mostLines), items = shown.map(line => ['line ' + line, () => element('div')]);
  if (lines.length > mostLines) {
    const others = lines.slice(mostLines, 60).map(line => line.toString(16)).join(' ');
    const text = `and ${lines.length - mostLines} more lines: ${others}`;
    items.push([text, () => element('p', 'quiet', text)]);
  }
  items.push(lines.length ? ['legend', () => element('p', 'legend', legendOfLines)]
    : ['none', () => element('p', 'quiet', 'No line is in a read set or write set, and this step touched no memory.')]);
  const now = refill(byId('set-body'), items);
  for (const line of shown) showLine(now.get('line ' + line), line, uses.get(line), hitsOf(line), writtenWords);
}
