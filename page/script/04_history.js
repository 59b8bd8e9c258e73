// One pass over all steps as the page opens: key frames, transactions, events, and the values of variables over time.
const frames = [], transactions = [], events = [], dooms = [];
const addresses = new Uint32Array(stepCount + 1); // of the instruction that a step ran
const values = run.show.map(() => []), transactionsOf = run.opening.map(() => []);

function noteValues(state, step) {
  run.show.forEach(([, address], index) => {
    const value = wordAt(state, address), list = values[index];
    if (!list.length || value !== list[list.length - 1][1]) list.push([step, value]);
  });
}

function begin(open, core, step) {
  open[core] = { core, first: step, last: stepCount, fate: 'open', doomed: 0 };
  transactions.push(open[core]);
}

function end(open, core, step, kind) {
  const ended = open[core];
  if (!ended) return;
  const fates = { c: 'committed', e: 'outside', a: ended.doomed || ended.isDoomedBefore ? 'conflict' : 'aborted' };
  Object.assign(ended, { last: step, fate: fates[kind] });
  open[core] = null;
}

function noteStep(state, step, open) {
  const [core, kind, , more = {}] = run.steps[step - 1];
  addresses[step] = state.cores[core].registers[EIP];
  apply(state, step);
  if (kind === 'b' && !open[core]) begin(open, core, step);
  for (const [victim, line, isWrite] of more.d || []) {
    dooms.push({ step, by: core, victim, line, isWrite });
    if (open[victim]) open[victim].doomed = step;
  }
  if (kind === 'c' || isAbort(kind)) end(open, core, step, kind);
  if (isAbort(kind) || kind === 'c' || kind === 's' || more.d) events.push({ step, core, kind, dooms: more.d });
  if (more.m) noteValues(state, step);
}

{
  const state = opening(), open = [];
  state.cores.forEach((core, number) => {
    if (!core.base) return;
    begin(open, number, 0);
    open[number].isDoomedBefore = isDoomed(core);
  });
  noteValues(state, 0);
  frames.push(copyOf(state));
  for (let step = 1; step <= stepCount; step++) {
    noteStep(state, step, open);
    if (step % frameDistance === 0) frames.push(copyOf(state));
  }
  for (const transaction of transactions) transactionsOf[transaction.core].push(transaction);
}

function stateAt(step) {
  const index = Math.floor(step / frameDistance), state = copyOf(frames[index]);
  for (let next = index * frameDistance + 1; next <= step; next++) apply(state, next);
  return state;
}

const notes = new Map();
for (const [step, text] of run.notes) notes.set(step, notes.has(step) ? notes.get(step) + '\n' + text : text);

// The steps that are events, in their order.
let marks = [];
function gatherMarks() {
  const all = new Set(events.map(event => event.step));
  for (const step of notes.keys()) if (step <= stepCount) all.add(step);
  marks = [...all].sort((a, b) => a - b);
}

const reasonOf = step => run.why[step] || '';
// The first word of a reason, by which aborts are counted.
const causeOf = step => reasonOf(step).replace(/[: ].*$/s, '') || 'other';
const kindOf = step => run.steps[step - 1][1];
const moreOf = step => run.steps[step - 1][3] || {};
