// Names of addresses and of lines, and the text of instructions.
const instructions = new Map(run.at.map(([address, row, text]) => [address, { row, text }]));
const labels = run.labels.slice().sort((a, b) => a[0] - b[0]);
const isInCode = address => address >= run.code[0] && address < run.code[1];
const isSource = run.kind === 'source';
const stackBytes = 4096;

// The core in whose stack an address lies, as its ESP stood at the beginning, or -1.
const stackOf = address => run.opening.findIndex(
  registers => registers[ESP] > stackBytes && address < registers[ESP] && address >= registers[ESP] - stackBytes);
const lowestStack = run.opening[coreCount - 1][ESP] - stackBytes;
const stacksAreUnnamed = !labels.some(([address]) => address >= lowestStack && !isInCode(address));

// The label at or before an address, and the distance from it.
function nameNear(address) {
  const stack = stackOf(address);
  if (stack >= 0 && stacksAreUnnamed) return 'stack of core ' + stack;
  let low = 0, high = labels.length;
  while (low < high) {
    const middle = (low + high) >> 1;
    if (labels[middle][0] <= address) low = middle + 1; else high = middle;
  }
  let index = low - 1;
  if (index < 0 || isInCode(address) !== isInCode(labels[index][0])) return '';
  while (index && labels[index - 1][0] === labels[index][0]) index--;
  const distance = address - labels[index][0];
  return distance ? `${labels[index][1]}+0x${distance.toString(16)}` : labels[index][1];
}

const lineNames = new Map();

// The labels on a line of 64 bytes, or what lies before it.
function lineName(line) {
  if (!lineNames.has(line)) lineNames.set(line, makeLineName(line));
  return lineNames.get(line);
}

function makeLineName(line) {
  const on = labels.filter(([address]) => address >>> 6 === line && !isInCode(address));
  if (!on.length) return nameNear(line * 64);
  let joined = '';
  for (const [, name] of on) {
    const short = name.length > 32 ? name.slice(0, 30) + '..' : name;
    if (joined && joined.length + short.length > 44) return joined + ' ..';
    joined += (joined && ' ') + short;
  }
  return joined;
}

function lineText(line) {
  const name = lineName(line);
  return `line ${line.toString(16)}${name ? ` (${name})` : ''}`;
}

// An instruction as its author wrote it, or as it is printed.
function written(address) {
  const instruction = instructions.get(address);
  if (!instruction) return '?';
  if (!isSource) return instruction.text;
  const line = run.text[instruction.row];
  const code = line.replace(/;[^'"]*$/, '').replace(/^\s*[\w.]+\s*:/, '').trim().replace(/\s+/g, ' ');
  return code || instruction.text;
}

const printed = address => (instructions.get(address) || { text: '' }).text;

// Where an XBEGIN at this address falls back to, or null.
function fallbackOf(address) {
  const found = /xbegin (?:short )?0x([0-9a-f]+)/.exec(printed(address));
  return found ? parseInt(found[1], 16) : null;
}

const place = address => nameNear(address) || hex(address);
const spot = address => stackOf(address) >= 0 && stacksAreUnnamed ? '[' + hex(address) + ']' : place(address);

// The instruction behind each.
const following = new Map();
{
  const all = [...instructions.keys()].sort((a, b) => a - b);
  all.forEach((address, index) => following.set(address, all[index + 1]));
}
