// Events: aborts by cause, conflicts, commits, stops and notes; each is a jump.
let eventKinds = [];
const mostEvents = 24;

function abortKinds() {
  const counts = new Map();
  for (const { step, kind } of events) {
    if (isAbort(kind)) counts.set(causeOf(step), (counts.get(causeOf(step)) || 0) + 1);
  }
  if (counts.size < 2) return [];
  return [...counts].map(([cause, count]) => ({
    value: 'abort-' + cause, name: `aborts: ${cause}`, count,
    has: event => isAbort(event.kind) && causeOf(event.step) === cause,
  }));
}

function buildEvents() {
  const count = test => events.filter(test).length;
  const kind = (value, name, has, number) => ({ value, name, has, count: number === undefined ? count(has) : number });
  eventKinds = [
    kind('all', 'all events', () => true, marks.length),
    kind('aborts', 'aborts', event => isAbort(event.kind)), ...abortKinds(),
    kind('conflicts', 'conflicts', event => event.dooms, dooms.length),
    kind('commits', 'commits', event => event.kind === 'c'), kind('stops', 'stops', event => event.kind === 's'),
    kind('notes', 'notes', () => false, notes.size),
  ];
  const old = byId('which').value;
  byId('which').replaceChildren(...eventKinds.filter(one => one.count).map(one => {
    const option = element('option', '', `${one.name} (${one.count})`);
    option.value = one.value;
    return option;
  }));
  if (old) byId('which').value = old;
}

function eventsShown() {
  const kind = eventKinds.find(one => one.value === byId('which').value) || eventKinds[0];
  const found = new Map(events.filter(kind.has).map(event => [event.step, event]));
  if (kind.value === 'all' || kind.value === 'notes') {
    for (const step of notes.keys()) {
      if (found.has(step) || step > stepCount) continue;
      found.set(step, { step, kind: 'note', core: step ? run.steps[step - 1][0] : 0 });
    }
  }
  const list = [...found.values()].sort((a, b) => a.step - b.step);
  return view.future === 'hide' ? list.filter(event => event.step <= view.step) : list;
}

function eventHead({ step, kind }) {
  if (isAbort(kind)) return [element('span', 'cross', '\u2717 aborted '), reasonOf(step)];
  if (kind === 'c') return ['\u2713 committed'];
  if (kind === 's') return ['\u25a0 stopped ' + reasonOf(step)];
  return kind === 'note' ? [] : [written(addresses[step])];
}

function eventButton(event) {
  const text = element('span', '', ...eventHead(event));
  for (const [victim, line, isWrite] of event.dooms || []) {
    const did = `${isWrite ? 'writes' : 'reads'} ${lineText(line)}`;
    text.append(element('span', 'cross', ` \u2192 ${did}: core ${victim} doomed`));
  }
  if (notes.has(event.step)) text.append(element('span', '', ` \u25bc ${notes.get(event.step)}`));
  const number = element('span', 'step', element('span', 'hidden', 'step '), String(numberOf(event.step)));
  const button = element('button', '', number, badge(event.core), text);
  button.type = 'button';
  button.dataset.step = event.step;
  return button;
}

function markCurrent(button, step) {
  const isHere = step === view.step;
  if (isHere === button.hasAttribute('aria-current')) return;
  if (isHere) button.setAttribute('aria-current', 'step'); else button.removeAttribute('aria-current');
}

// The events around this step. Gives the one that is to be seen.
function showEvents() {
  const list = eventsShown(), box = byId('list'), hadFocus = box.contains(document.activeElement);
  const found = list.findIndex(event => event.step >= view.step), index = found < 0 ? list.length : found;
  const from = inRange(index - 8, 0, Math.max(0, list.length - mostEvents)), part = list.slice(from, from + mostEvents);
  const now = refill(box, part.map(event => [eventKey(event), () => element('li', '', eventButton(event))]));
  const buttons = [...now.values()].map(item => item.firstChild);
  buttons.forEach((button, at) => markCurrent(button, part[at].step));
  const mark = buttons[inRange(index - from, 0, Math.max(0, part.length - 1))];
  if (mark && hadFocus) mark.focus({ preventScroll: true });
  byId('more').textContent = list.length > part.length
    ? `${from + 1} to ${from + part.length} of ${list.length}, around this step` : list.length ? '' : 'none';
  return mark && mark.parentNode;
}

const eventKey = ({ step, kind }) => [step, kind, notes.get(step)].join();

function seekEvent() {
  seek(byId('list'), showEvents());
}
