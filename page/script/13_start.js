// What is chosen for the whole page, captions, the address, and the beginning.
on('future', 'change', event => {
  view.future = event.target.value;
  moveCursor();
  drawOverview();
  seekEvent();
});
on('base', 'click', () => {
  isHexShown = !isHexShown;
  byId('base').setAttribute('aria-pressed', isHexShown);
  drawTimeline();
  show();
});

function setTheme(name) {
  document.documentElement.dataset.theme = name;
  byId('theme').textContent = name === 'dark' ? 'Light' : 'Dark';
  if (view.state) drawOverview();
}
on('theme', 'click', () => setTheme(document.documentElement.dataset.theme === 'dark' ? 'light' : 'dark'));
const darkScheme = matchMedia('(prefers-color-scheme: dark)');
const themeAsked = () => /^(dark|light)$/.test(fromHash().get('theme') || '') ? fromHash().get('theme') : null;
setTheme(themeAsked() || (darkScheme.matches ? 'dark' : 'light'));
darkScheme.addEventListener('change', event => setTheme(event.matches ? 'dark' : 'light'));

on('link', 'click', async () => {
  const words = fromHash();
  words.set('step', numberOf(view.step));
  const hash = '#' + words.toString().replace(/%2C/g, ',');
  try {
    await navigator.clipboard.writeText(location.href.replace(/#.*$/, '') + hash);
    byId('link').textContent = 'Copied';
  } catch (refused) {
    location.hash = hash;
    byId('link').textContent = 'In the address bar';
  }
  setTimeout(() => { byId('link').textContent = 'Copy link to this step'; }, 1500);
});

// The options that would write the captions into the page.
function tellOptions() {
  const quoted = text => `'${text.replace(/'/g, "'\\''")}'`;
  byId('options').value = [...notes].sort((a, b) => a[0] - b[0])
    .map(([step, text]) => `--note ${quoted(numberOf(step) + ':' + text)}`).join(' ');
}
on('my-note', 'input', event => {
  const text = event.target.value;
  if (text) notes.set(view.step, text); else notes.delete(view.step);
  gatherMarks();
  buildEvents();
  seekEvent();
  tellOptions();
  byId('note').hidden = !text;
  byId('note').textContent = text;
  drawTimeline();
});

const parts = ['time', 'code', 'cores', 'vars', 'sets', 'events'];

function followAddress() {
  const words = fromHash(), wanted = words.get('parts'), future = words.get('future') || '';
  const isWanted = part => !wanted || wanted.split(',').includes(part);
  for (const part of parts) byId(part).classList.toggle('gone', !isWanted(part));
  document.documentElement.classList.toggle('framed', Boolean(wanted));
  document.documentElement.classList.toggle('nocode', !isWanted('code'));
  if (/^(dim|show|hide)$/.test(future)) byId('future').value = view.future = future;
  if (themeAsked() && view.state) setTheme(themeAsked());
  if (words.has('step') || !view.state) go(+(words.get('step') || firstStep) - firstStep, true);
}
addEventListener('hashchange', followAddress);

let resized = 0;
new ResizeObserver(() => {
  if (Math.abs(byId('time').clientWidth - 26 - scale.width) <= 1) return;
  cancelAnimationFrame(resized);
  resized = requestAnimationFrame(() => {
    layout();
    center();
  });
}).observe(byId('time'));

// ---- the legend
const key = (kids, text) => element('span', 'k0',
  drawn('svg', { viewBox: '0 0 34 16', width: 34, class: 'lines', 'aria-hidden': 'true' }, ...kids), text);
const keyBox = (className, x = 1, width = 32) => drawn('rect', { class: className, x, y: 2, width, height: 12, rx: 3 });
const keyText = (className, text) => drawn('text', { class: className + ' mid', x: 17, y: 12.5 }, text);

function buildLegend() {
  const has = test => events.some(test);
  byId('legend').append(
    key([keyBox('in')], 'step inside'), key([keyBox('wait')], 'transaction waits'),
    key([keyBox('wait', 1, 16), keyBox('doomed', 16, 17)], 'doomed'),
    key([keyBox('abort', 9, 16), keyText('abort-text', '\u2717')], 'abort by conflict'),
    key([keyBox('abort-other', 9, 16), keyText('abort-text', '\u2717')], 'other abort'));
  if (has(event => event.kind === 'e')) {
    const drawing = [keyBox('abort-outside', 9, 16), keyText('outside-text', '\u2717')];
    byId('legend').append(key(drawing, 'abort from outside'));
  }
  byId('legend').append(
    key([keyBox('in', 9, 16), keyText('on', '\u2713')], 'commit'),
    key([drawn('rect', { class: 'out', x: 1, y: 4, width: 32, height: 8, rx: 2 })], 'step outside'),
    key([drawn('path', { class: 'arrow', d: 'M4 8H32' })], 'who dooms whom, by which line'));
}

// Three columns where there is room for them.
const threeColumns = matchMedia('(min-width: 1560px)');
function settle() {
  byId(threeColumns.matches ? 'right' : 'left').append(byId('events'));
  byId(threeColumns.matches ? 'right' : 'mid').append(byId('sets'));
}
threeColumns.addEventListener('change', settle);

function tellRun() {
  byId('title').textContent = run.title;
  byId('command').textContent = run.command;
  byId('slide').max = stepCount;
  byId('go').min = firstStep;
  byId('go').max = numberOf(stepCount);
  byId('code-hint').append(element('span', 'badge back', '\u21a9n'), ' falls back to here');
  byId('about').textContent = `Format ${run.format}; ${stepCount} steps of ${coreCount} cores, ${transactions.length} `
    + `transactions, ${dooms.length} conflicts. Nothing is loaded from elsewhere.`;
  byId('source').style.setProperty('--marks', coreCount <= 2 ? '4.6em' : coreCount <= 4 ? '6.2em' : '7.4em');
  document.documentElement.classList.toggle('noted', notes.size > 0);
}

settle();
tellRun();
gatherMarks();
buildLegend();
buildProgram();
buildEvents();
tellOptions();
layout();
followAddress();
cancelAnimationFrame(asked);
asked = 0;
view.before = view.state = stateAt(view.step);
center();
show();
document.documentElement.dataset.took = Math.round(performance.now() - begun);
document.documentElement.dataset.ready = Math.round(performance.now());
