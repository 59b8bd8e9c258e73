// Moving through the run: buttons, keys, slider, play, the address.

function showStage() {
  const { step } = view, note = notes.get(step) || '';
  byId('told').className = 'told ' + (step ? colourOf(run.steps[step - 1][0]) : '');
  byId('count').replaceChildren(String(numberOf(step)), element('small', '', `of ${numberOf(stepCount)} steps`));
  byId('say').replaceChildren(...sentence(step));
  byId('note').hidden = !note;
  byId('note').textContent = note;
  if (document.activeElement !== byId('my-note')) byId('my-note').value = note;
  byId('slide').value = step;
  byId('slide').setAttribute('aria-valuetext', `step ${numberOf(step)} of ${numberOf(stepCount)}`);
  if (document.activeElement !== byId('go')) byId('go').value = numberOf(step);
  for (const id of ['to-begin', 'event-back', 'step-back']) byId(id).disabled = step === 0;
  for (const id of ['step-on', 'event-on', 'to-end']) byId(id).disabled = step === stepCount;
}

// The timeline moves on before the cursor reaches its edge.
function followCursor() {
  const { step } = view, last = stepCount - scale.shown, edge = Math.max(1, Math.floor(scale.shown * .12));
  const isEarly = step < scale.first + edge && scale.first > 0;
  const isLate = step > scale.first + scale.shown - edge && scale.first < last;
  if (isWhole() || !isEarly && !isLate) {
    moveCursor();
    drawOverview();
    return;
  }
  scale.first = inRange(Math.round(step - scale.shown * (isEarly ? .7 : .3)), 0, last);
  drawTimeline();
}

function show() {
  const { step } = view;
  view.before = stateAt(Math.max(0, step - 1));
  view.state = stateAt(step);
  showStage();
  followCursor();
  const row = showProgram();
  showCores();
  showVariables();
  showLines();
  const event = showEvents();
  // What is read of the layout is read behind all that changes it.
  seek(byId('source'), row);
  seek(byId('list'), event);
  document.documentElement.dataset.step = step;
}

let asked = 0, addressed = 0;

// Goes to a step; however often it is called, the page is made once a frame.
function go(step, isQuiet) {
  const target = inRange(Math.round(step) || 0, 0, stepCount);
  if (target === view.step && view.state) return;
  view.step = target;
  if (!isQuiet) tellAddress();
  if (asked) return;
  asked = requestAnimationFrame(() => {
    asked = 0;
    show();
  });
}

const fromHash = () => new URLSearchParams(location.hash.slice(1));

function tellAddress() {
  clearTimeout(addressed);
  addressed = setTimeout(() => {
    const words = fromHash();
    words.set('step', numberOf(view.step));
    try {
      history.replaceState(null, '', '#' + words.toString().replace(/%2C/g, ','));
    } catch (refused) { /* a frame without an address of its own */ }
  }, 150);
}

const eventFrom = direction => direction > 0
  ? marks.find(step => step > view.step) ?? stepCount : marks.findLast(step => step < view.step) ?? 0;

let timer = 0;
function play(isOn) {
  clearInterval(timer);
  timer = 0;
  if (isOn && view.step >= stepCount) go(0);
  if (isOn) timer = setInterval(() => view.step >= stepCount ? play(false) : go(view.step + 1), +byId('speed').value);
  byId('play').lastElementChild.textContent = timer ? 'Pause' : 'Play';
  byId('say').setAttribute('aria-live', timer ? 'off' : 'polite'); // a reader would fall behind
}

const moves = {
  ArrowLeft: () => view.step - 1, ArrowRight: () => view.step + 1,
  ArrowUp: () => eventFrom(-1), ArrowDown: () => eventFrom(1),
  Home: () => 0, End: () => stepCount, PageUp: () => view.step - scale.shown, PageDown: () => view.step + scale.shown,
};

function isTaken(key, target) {
  if (target.matches('textarea, select, input[type=number]')) return true;
  return target.id === 'source' && /^(ArrowUp|ArrowDown|Page)/.test(key);
}

document.addEventListener('keydown', event => {
  const { key, target } = event;
  if (event.ctrlKey || event.metaKey || event.altKey || isTaken(key, target)) return;
  if (key === ' ') {
    if (target.matches('button')) return;
    play(!timer);
  } else if (moves[key]) {
    play(false);
    go(moves[key]());
  } else {
    return;
  }
  event.preventDefault();
});

const on = (id, event, call) => byId(id).addEventListener(event, call);
const onClick = (id, move) => on(id, 'click', () => {
  play(false);
  go(move());
});
onClick('to-begin', moves.Home);
onClick('event-back', moves.ArrowUp);
onClick('step-back', moves.ArrowLeft);
onClick('step-on', moves.ArrowRight);
onClick('event-on', moves.ArrowDown);
onClick('to-end', moves.End);
on('play', 'click', () => play(!timer));
on('speed', 'change', () => timer && play(true));
on('slide', 'input', event => {
  play(false);
  go(+event.target.value);
});
on('go', 'change', event => go(+event.target.value - firstStep));
on('which', 'change', seekEvent);
on('list', 'click', event => {
  const button = event.target.closest('button');
  if (!button) return;
  play(false);
  go(+button.dataset.step);
});

// A list that was chosen from by hand gives the arrow keys back.
let isByHand = false;
addEventListener('pointerdown', () => { isByHand = true; }, true);
addEventListener('keydown', () => { isByHand = false; }, true);
addEventListener('change', event => { if (isByHand && event.target.matches('select')) event.target.blur(); });

function center() {
  scale.first = isWhole() ? 0 : inRange(view.step - Math.round(scale.shown / 2), 0, stepCount - scale.shown);
  drawTimeline();
}

function zoomBy(change) {
  if (change > 0 || scale.cell > 2) zoom += change;
  layout();
  center();
}
on('zoom-in', 'click', () => zoomBy(1));
on('zoom-out', 'click', () => zoomBy(-1));

// A click or a drag goes to the step under the pointer.
function scrub(id, stepOf) {
  const follow = event => {
    const box = byId(id).getBoundingClientRect();
    play(false);
    go(stepOf((event.clientX - box.left) / box.width));
  };
  on(id, 'pointerdown', follow);
  on(id, 'pointermove', event => { if (event.buttons & 1) follow(event); });
}
scrub('timeline', part => Math.floor((part * scale.width - scale.labels) / scale.cell) + 1 + scale.first);
scrub('overview', part => part * stepCount + 1);
