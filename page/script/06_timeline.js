// The timeline: a row a core. Solid cells are steps inside, a pale bar the transaction while others step, hatched from
// the step that doomed it.
const rowHeight = coreCount <= 2 ? 56 : coreCount === 3 ? 50 : coreCount <= 5 ? 42 : 33;
const scale = { labels: 74, top: 26, lane: 25, cell: 0, first: 0, shown: 0, width: 0 };
const barHeight = Math.round(rowHeight * .6), laneCount = Math.min(values.length, 4);
const leftOf = step => scale.labels + (step - 1 - scale.first) * scale.cell;
const middleOf = core => scale.top + core * rowHeight + rowHeight / 2;
let zoom = 0, arrows = [];

const isWhole = () => scale.shown >= stepCount;
const inRange = (number, low, high) => Math.max(low, Math.min(high, number));

function layout() {
  scale.width = Math.max(260, byId('time').clientWidth - 26);
  scale.labels = scale.width < 560 ? 56 : 82;
  const room = scale.width - scale.labels - 4, fit = room / Math.max(stepCount, 1);
  const usual = fit >= 13 ? Math.min(fit, 138) : 17;
  scale.cell = inRange(usual * 1.5 ** zoom, 2, 150);
  scale.shown = Math.max(1, Math.floor(room / scale.cell));
  scale.first = isWhole() ? 0 : inRange(scale.first, 0, stepCount - scale.shown);
}

const definitions = () => drawn('defs', {},
  drawn('pattern', { id: 'hatch', width: 7, height: 7, patternUnits: 'userSpaceOnUse', patternTransform: 'rotate(45)' },
    drawn('rect', { class: 'hatch-base', width: 7, height: 7 }), drawn('path', { class: 'hatch-line', d: 'M1.5 0V7' })),
  drawn('marker', { id: 'tip', viewBox: '0 0 8 8', refX: 7, refY: 4, markerWidth: 11, markerHeight: 11,
    markerUnits: 'userSpaceOnUse', orient: 'auto' }, drawn('path', { class: 'tip', d: 'M0 0L8 4L0 8z' })));

function ticks(first, last) {
  const every = [1, 2, 5, 10, 20, 50, 100, 200, 500, 1000].find(count => count * scale.cell >= 38) || 2000, made = [];
  for (let number = Math.ceil(numberOf(first) / every) * every; number <= numberOf(last); number += every) {
    const x = leftOf(number - firstStep) + scale.cell / 2;
    made.push(drawn('text', { class: 'tick', x, y: 13 }, String(number)));
  }
  return made;
}

function coreLabel(core) {
  const width = scale.labels - 12, y = middleOf(core), text = scale.labels < 60 ? 'c' + core : 'core ' + core;
  return [
    drawn('path', { class: 'grid', d: `M${scale.labels} ${y}H${scale.width}` }),
    drawn('g', { class: colourOf(core) },
      drawn('rect', { class: 'in', x: 0, y: y - 10, width, height: 20, rx: 5 }),
      drawn('text', { class: 'on mid lab', x: width / 2, y: y + 4.5 }, text)),
  ];
}

const fateText = {
  committed: 'committed', conflict: 'aborted by a conflict', aborted: 'aborted',
  outside: 'aborted from outside', open: 'not ended',
};

// The bar of a transaction, which waits while others step.
function transactionBar(transaction, first, last) {
  const { core, doomed, fate } = transaction, gap = gapOfCells();
  const y = middleOf(core) - barHeight / 2, radius = scale.cell > 8 ? 5 : 1;
  const from = transaction.first < first ? scale.labels - 6 : leftOf(transaction.first) + gap;
  const to = transaction.last > last ? scale.width : leftOf(transaction.last) + scale.cell - gap;
  const turn = doomed ? Math.max(leftOf(doomed) + scale.cell / 2, from) : to;
  const form = fate === 'open' && !doomed ? ' open' : fate === 'aborted' || fate === 'outside' ? ' other' : '';
  const steps = `steps ${numberOf(transaction.first)} to ${numberOf(transaction.last)}`;
  const bar = drawn('g', { class: colourOf(core) }, drawn('title', {}, `core ${core}, ${steps}: ${fateText[fate]}`));
  if (turn > from) {
    bar.append(drawn('rect', { class: 'wait' + form, x: from, y, width: turn - from, height: barHeight, rx: radius }));
  }
  if (doomed) {
    const width = Math.max(1, to - turn);
    bar.append(drawn('rect', { class: 'doomed', x: turn, y, width, height: barHeight, rx: Math.min(radius, 3) }));
  }
  return bar;
}

const gapOfCells = () => scale.cell > 8 ? 1.5 : scale.cell > 4 ? .5 : 0;
const beginnings = { p: '', l: 'first half: ', i: 'inside: ', b: 'begins: ', c: 'commits: ', s: 'stops: ' };

function cellTitle(step) {
  const [core, kind] = run.steps[step - 1];
  const alone = { a: 'aborts', e: 'aborts', z: 'has stopped', d: 'its oldest pending store reaches memory' }[kind];
  const did = alone || beginnings[kind] + written(addresses[step]);
  return `step ${numberOf(step)}: core ${core}, ${did}${reasonOf(step) ? ': ' + reasonOf(step) : ''}`;
}

const isConflict = step => kindOf(step) === 'a' && /^conflict/.test(reasonOf(step));

function cellClass(step) {
  const kind = kindOf(step);
  if ('bic'.includes(kind)) return 'in';
  if (kind === 'e') return 'abort-outside';
  if (kind === 'a') return isConflict(step) ? 'abort' : 'abort-other';
  return kind === 's' ? 'stop' : 'out';
}

const fitting = (text, width) => text.length * 7.3 + 8 <= width
  ? text : text.replace(/^lock /, '').split(' ')[0].slice(0, Math.floor(width / 7.6));
const isLong = () => scale.cell >= 46;

function stopLabel(step) {
  if (!isLong()) return scale.cell >= 15 ? '\u25a0' : '';
  return (moreOf(step).q || 'stop').replace(/^stop(ped)?[: ]/, '').slice(0, 9);
}

// What stands on a cell, where there is room.
function cellLabel(step) {
  const kind = kindOf(step), width = scale.cell;
  if (kind === 'e') return width >= 74 ? '\u2717 ' + moreOf(step).e : width >= 11 ? '\u2717' : '';
  if (kind === 'a') return isLong() ? '\u2717 abort' : width >= 11 ? '\u2717' : '';
  if (kind === 'c') return width >= 66 ? '\u2713 commit' : width >= 11 ? '\u2713' : '';
  if (kind === 's') return stopLabel(step);
  if (kind === 'd') return isLong() ? '\u2193 drain' : width >= 11 ? '\u2193' : '';
  if (isLong() && kind !== 'z') return fitting(written(addresses[step]), width);
  return kind === 'b' && width >= 15 ? '(' : '';
}

const labelClass = kind => 'bic'.includes(kind) ? 'on'
  : kind === 'a' ? 'abort-text' : kind === 'e' ? 'outside-text' : kind === 's' ? 'stop-text' : '';

function cellHeight(kind) {
  if ('bicae'.includes(kind)) return barHeight;
  return isLong() ? barHeight * .72 : Math.min(barHeight * .55, 12);
}

function stepCell(step) {
  const [core, kind] = run.steps[step - 1], y = middleOf(core), height = cellHeight(kind), gap = gapOfCells();
  const cell = drawn('g', { class: colourOf(core) }, drawn('title', {}, cellTitle(step)));
  if (kind !== 'z') {
    const width = Math.max(.8, scale.cell - 2 * gap), x = leftOf(step) + gap;
    const rx = scale.cell > 8 ? 4 : 0;
    cell.append(drawn('rect', { class: cellClass(step), x, y: y - height / 2, width, height, rx }));
  }
  const text = cellLabel(step), x = leftOf(step) + scale.cell / 2;
  if (text) cell.append(drawn('text', { class: 'mid ' + labelClass(kind), x, y: y + 4.5 }, text));
  return cell;
}

// An arrow leads from the doomer to the victim.
function arrow(doomed) {
  const { step, by, victim, line, isWrite } = doomed, isDown = victim > by, turn = isDown ? 1 : -1;
  const x = leftOf(step) + scale.cell / 2;
  const from = middleOf(by) + turn * barHeight / 2, to = middleOf(victim) - turn * (barHeight / 2 + 1);
  const did = `core ${by} ${isWrite ? 'writes' : 'reads'} ${lineText(line)}`;
  const title = `step ${numberOf(step)}: ${did}: core ${victim} is doomed`;
  return drawn('g', {}, drawn('title', {}, title), drawn('path', { class: 'halo', d: `M${x} ${from}V${to}` }),
    drawn('circle', { class: 'origin', cx: x, cy: from, r: 4 }),
    drawn('path', { class: 'arrow', d: `M${x} ${from}V${to}` }));
}

// The line's name beside an arrow, where no other stands.
function arrowLabel({ step, by, victim, line }, used) {
  const text = `line ${line.toString(16)} ${lineName(line)}`.slice(0, 26), wide = text.length * 7.1 + 14;
  const x = leftOf(step) + scale.cell / 2;
  const y = middleOf(victim) + (victim > by ? -1 : 1) * rowHeight / 2 + 4;
  const isTaken = used.some(other => Math.abs(other.y - y) < 12 && x - wide < other.x && other.x - wide < x);
  if (scale.cell < 12 || isTaken) return null;
  used.push({ x, y });
  const isLeft = x - wide > scale.labels, anchor = isLeft ? 'end' : 'start';
  return drawn('text', { class: 'arrow-label', x: isLeft ? x - 8 : x + 8, y, 'text-anchor': anchor }, text);
}

function drawArrows(first, last) {
  const used = [], span = doomed => Math.abs(doomed.victim - doomed.by);
  const here = dooms.filter(({ step }) => step >= first && step <= last).sort((a, b) => span(b) - span(a));
  arrows = here.map(doomed => {
    const made = arrow(doomed), label = arrowLabel(doomed, used);
    if (label) made.append(label);
    return { step: doomed.step, made, shown: '' };
  });
}

// A variable's values over time, each change in the colour of the core that made it.
function laneSegment(index, [from, value], to, y) {
  const name = run.show[index][0], text = numberText(value), last = scale.first + scale.shown;
  const left = Math.max(leftOf(from), scale.labels);
  const right = Math.min(leftOf(to) + scale.cell, leftOf(last) + scale.cell);
  const width = Math.max(1, right - left - 1), height = scale.lane - 6;
  const segment = drawn('g', {},
    drawn('title', {}, `${name} = ${text} (${hex(value)}), steps ${numberOf(from)} to ${numberOf(to)}`),
    drawn('rect', { class: 'segment', x: left, y: y + 1, width, height, rx: 3 }));
  if (from && leftOf(from) >= scale.labels) {
    segment.append(drawn('g', { class: colourOf(run.steps[from - 1][0]) },
      drawn('rect', { class: 'in', x: left, y: y + 1, width: Math.min(5, width), height, rx: 2 })));
  }
  if (width > text.length * 7.3 + 9) segment.append(drawn('text', { x: left + 8, y: y + 15 }, text));
  return segment;
}

function lane(index, first, last) {
  const y = scale.top + coreCount * rowHeight + 4 + index * scale.lane, list = values[index], name = run.show[index][0];
  const short = name.slice(0, Math.floor((scale.labels - 6) / 7.3));
  const made = [drawn('text', { class: 'lab', x: 0, y: y + 15 }, short, drawn('title', {}, name))];
  list.forEach((entry, at) => {
    const to = at + 1 < list.length ? list[at + 1][0] - 1 : stepCount;
    if (to >= first && entry[0] <= last) made.push(laneSegment(index, entry, to, y));
  });
  return made;
}

function noteMark(step) {
  const x = leftOf(step) + scale.cell / 2 - 6;
  return drawn('path', { class: 'note-mark', d: `M${x} 17h12l-6 8z` }, drawn('title', {}, 'note: ' + notes.get(step)));
}

const cursorParts = height => [
  drawn('rect', { class: 'future', id: 'later', y: scale.top - 6, height: height - scale.top + 6 }),
  ...arrows.map(one => one.made),
  drawn('rect', { class: 'cursor', id: 'cursor', y: 17, height: height - 19, rx: 4 }),
  drawn('rect', { class: 'flag', id: 'flag', y: 0, height: 18, rx: 4 }),
  drawn('text', { class: 'flag-text', id: 'flag-text', y: 13 }),
];

function drawTimeline() {
  const height = scale.top + coreCount * rowHeight + laneCount * scale.lane + 10;
  const first = scale.first + 1, last = Math.min(stepCount, scale.first + scale.shown), parts = [definitions()];
  parts.push(...ticks(first, last));
  for (let core = 0; core < coreCount; core++) parts.push(...coreLabel(core));
  for (const list of transactionsOf) {
    for (const one of list) if (one.last >= first && one.first <= last) parts.push(transactionBar(one, first, last));
  }
  for (let step = first; step <= last; step++) parts.push(stepCell(step));
  drawArrows(first, last);
  for (let index = 0; index < laneCount; index++) parts.push(...lane(index, first, last));
  for (const step of notes.keys()) if (step >= first && step <= last) parts.push(noteMark(step));
  parts.push(...cursorParts(height));
  byId('timeline').setAttribute('viewBox', `0 0 ${scale.width} ${height}`);
  byId('timeline').setAttribute('height', height);
  byId('timeline').replaceChildren(...parts);
  drawOverview();
  moveCursor();
}

function setAll(made, attributes) {
  for (const name in attributes) made.setAttribute(name, attributes[name]);
}

// The cursor, its flag, and the veil over what comes next.
function moveCursor() {
  const { step, future } = view;
  if (!byId('cursor')) return;
  const x = step ? leftOf(step) : scale.labels - 3, width = step ? Math.max(scale.cell, 2) : 3;
  const text = String(numberOf(step)), flag = text.length * 8 + 12;
  const middle = inRange(x + width / 2, flag / 2, scale.width - flag / 2);
  setAll(byId('cursor'), { x, width });
  setAll(byId('flag'), { x: middle - flag / 2, width: flag });
  setAll(byId('flag-text'), { x: middle });
  byId('flag-text').textContent = text;
  const opacity = { dim: .62, show: 0, hide: 1 }[future];
  setAll(byId('later'), { x: x + width, width: Math.max(0, scale.width - x - width + 9), 'fill-opacity': opacity });
  for (const one of arrows) {
    const wanted = one.step > step ? 'later-' + future : '';
    if (wanted !== one.shown) one.made.setAttribute('class', one.shown = wanted);
  }
  const last = numberOf(Math.min(stepCount, scale.first + scale.shown));
  const shown = `steps ${numberOf(scale.first + 1)} to ${last}`;
  byId('timeline').setAttribute('aria-label', `Timeline of ${coreCount} cores, ${shown} `
    + `of ${numberOf(stepCount)}; the cursor is at step ${text}. The events are listed below.`);
}
