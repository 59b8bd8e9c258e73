// The program, with each core's next instruction.
const rows = [];
const rowAddress = new Map(run.at.map(([address, row]) => [row, address]));
// The numbers of the lines of an executable's sources, by their rows.
const lineNumbers = new Map((run.sources || []).flatMap(
  ([first, count]) => Array.from({ length: count }, (_, index) => [first + index, index + 1])));
// A label, an instruction and a comment.
const sourceParts = /^(\s*(?:[\w.]+:|[^\s;]+:(?=$)))?((?:[^;'"]|'[^']*'|"[^"]*")*)(;.*)?$/s;

function sourceText(line) {
  const text = element('span', 'text'), parts = sourceParts.exec(line);
  if (!parts) return element('span', 'text', line);
  if (parts[1]) text.append(element('span', 'label', parts[1]));
  const [, space, instruction] = /^(\s*)(.*?)$/s.exec(parts[2] || '');
  text.append(space, element('span', 'instruction', instruction));
  if (parts[3]) text.append(element('span', 'comment', parts[3]));
  return text;
}

function lineOfSource(line) {
  const [, space, code] = /^(\s*)(.*)$/s.exec(line);
  return element('span', 'text', space, element('span', 'instruction', code));
}

// A line of a listing: a label, or an address and an instruction; a gap is an empty line.
function listedText(line, row) {
  if (lineNumbers.has(row)) return lineOfSource(line);
  if (rowAddress.has(row)) return element('span', 'text', '  ', element('span', 'instruction', line.slice(10)));
  return element('span', 'text', element('span', 'label', line || '\u22ee'));
}

function rowNumber(line, row) {
  if (isSource) return String(row + 1);
  if (lineNumbers.has(row)) return String(lineNumbers.get(row));
  return rowAddress.has(row) ? line.slice(0, 8).replace(/^0+(?=.{3})/, '') : '';
}

function buildProgram() {
  byId('source').replaceChildren(...run.text.map((line, index) => {
    const marks = element('span', 'marks'), text = isSource ? sourceText(line) : listedText(line, index);
    const row = element('div', 'row', marks, element('span', 'number', rowNumber(line, index)), text);
    rows.push({ row, marks });
    return row;
  }));
}

let marked = new Map();
const nothing = { marks: [], classes: 'row' };

// What is to stand beside a row: its marks, and its classes.
function wantRow(wanted, address) {
  const instruction = instructions.get(address);
  if (!instruction) return null;
  const found = rows[instruction.row];
  if (!wanted.has(found)) wanted.set(found, { marks: [], classes: 'row' });
  return found;
}

function addMark(wanted, address, key, make) {
  const found = wantRow(wanted, address);
  if (found) wanted.get(found).marks.push([key, make]);
}

function addClass(wanted, address, classes) {
  const found = wantRow(wanted, address);
  if (found) wanted.get(found).classes += ' ' + classes;
  return found;
}

function fallbackMark(number) {
  const mark = titled(badge(number, 'back'), `core ${number} falls back to here`);
  mark.prepend('\u21a9');
  return mark;
}

function nextMark(core, number) {
  const mark = badge(number, isDoomed(core) ? 'doomed' : isStopped(core) ? 'off' : '');
  if (isDoomed(core)) mark.prepend('\u2717');
  return mark;
}

function wantMarks(wanted) {
  view.state.cores.forEach((core, number) => {
    const fallback = core.base && fallbackOf(core.base[EIP]);
    if (core.base && fallback !== null) addMark(wanted, fallback, 'back ' + number, () => fallbackMark(number));
  });
  view.state.cores.forEach((core, number) => {
    const key = `next ${number} ${isDoomed(core)} ${isStopped(core)}`;
    addMark(wanted, core.registers[EIP], key, () => nextMark(core, number));
  });
}

// Brings a child of a box into sight, where it is not.
function seek(box, child) {
  if (!child) return;
  const top = child.offsetTop, isSeen = top >= box.scrollTop + 20 && top <= box.scrollTop + box.clientHeight - 60;
  if (!isSeen) box.scrollTop = top - box.clientHeight / 2;
}

function showRow({ row, marks }, wanted) {
  setClass(row, wanted.classes);
  refill(marks, wanted.marks);
}

// Gives the row that is to be seen.
function showProgram() {
  const wanted = new Map();
  wantMarks(wanted);
  let target = wanted.keys().next().value;
  if (view.step) {
    const [number, kind] = run.steps[view.step - 1], colour = colourOf(number);
    const next = addClass(wanted, view.state.cores[number].registers[EIP], 'at ' + colour);
    const did = isAbort(kind) || kind === 'd' ? null : addClass(wanted, addresses[view.step], 'did ' + colour);
    target = did || next || target;
  }
  for (const found of marked.keys()) if (!wanted.has(found)) showRow(found, nothing);
  for (const [found, one] of wanted) showRow(found, one);
  marked = wanted;
  return target && target.row;
}
