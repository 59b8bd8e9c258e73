// The run's data, and elements of the page. What comes from the run becomes a text node: none of it is parsed as HTML.
const begun = performance.now();
const run = JSON.parse(document.getElementById('run').textContent);
const stepCount = run.steps.length, coreCount = run.cores, firstStep = run.from || 0;
const registerNames = ['eax', 'ecx', 'edx', 'ebx', 'esp', 'ebp', 'esi', 'edi', 'eip', 'flags'];
const EAX = 0, ESP = 4, EIP = 8, FLAGS = 9;
const flagBits = [['C', 1], ['P', 4], ['A', 16], ['Z', 64], ['S', 128], ['O', 2048]];

const byId = id => document.getElementById(id);
const hex = (value, places = 8) => (value >>> 0).toString(16).padStart(places, '0');
// The number of a step of this page in the run, of which it may be a part.
const numberOf = step => firstStep + step;

const isKid = kid => kid !== null && kid !== undefined && kid !== false && kid !== '';

function element(tag, className, ...kids) {
  const made = document.createElement(tag);
  if (className) made.className = className;
  made.append(...kids.filter(isKid));
  return made;
}

function drawn(tag, attributes, ...kids) {
  const made = document.createElementNS('http://www.w3.org/2000/svg', tag);
  for (const name in attributes) made.setAttribute(name, attributes[name]);
  made.append(...kids.filter(isKid));
  return made;
}

function titled(made, title) {
  made.title = title;
  return made;
}

// What stands in a box, by keys that say all that is seen of it: a child whose key stays is left as it is, so that the
// browser lays out what changed alone. Gives the children by their keys.
const standing = new WeakMap();

function refill(box, items) {
  const old = standing.get(box) || new Map(), now = new Map();
  for (const [key, make] of items) now.set(key, old.get(key) || make());
  for (const [key, child] of old) if (!now.has(key)) child.remove();
  let at = box.firstChild;
  for (const child of now.values()) {
    if (child === at) at = at.nextSibling; else box.insertBefore(child, at);
  }
  standing.set(box, now);
  return now;
}

function setClass(made, className) {
  if (made.className !== className) made.className = className;
}

// Colours repeat after eight cores; the number stands beside each.
const colourOf = core => 'k' + core % 8;
const badge = (core, more = '') =>
  element('span', `badge ${colourOf(core)} ${more}`, element('span', 'hidden', 'core '), String(core));

// Pairs stand one after another in the lists of the data.
function eachPair(list, call) {
  for (let i = 0; list && i < list.length; i += 2) call(list[i], list[i + 1]);
}
