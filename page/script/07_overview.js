// The whole run in one strip, where the timeline shows a part of it.
let ground = null;
const stripOf = step => (step - 1) / stepCount * scale.width;

function colours() {
  const style = getComputedStyle(document.documentElement), probe = element('i');
  document.body.append(probe);
  const cores = run.opening.map((_, core) => {
    probe.className = colourOf(core);
    return getComputedStyle(probe).getPropertyValue('--k');
  });
  probe.remove();
  return { cores, named: name => style.getPropertyValue('--' + name).trim() };
}

const stripRow = coreCount > 8 ? 3 : coreCount > 4 ? 6 : 9;

// What does not change while the page stands as wide: it is painted once.
function paintGround(height, ratio, key) {
  const canvas = document.createElement('canvas'), { cores, named } = colours();
  canvas.width = scale.width * ratio;
  canvas.height = height * ratio;
  const pen = canvas.getContext('2d');
  pen.scale(ratio, ratio);
  pen.fillStyle = named('paper');
  pen.fillRect(0, 0, scale.width, height);
  for (const { core, first, last, fate } of transactions) {
    pen.fillStyle = cores[core];
    pen.globalAlpha = fate === 'committed' ? 1 : .35;
    pen.fillRect(stripOf(first), core * stripRow + .5, Math.max(1, stripOf(last + 1) - stripOf(first)), stripRow - 1);
  }
  pen.globalAlpha = .75;
  pen.fillStyle = named('bad');
  for (const { step } of dooms) pen.fillRect(stripOf(step), coreCount * stripRow + 2, 1, 6);
  return { canvas, key, paper: named('paper'), ink: named('ink') };
}

function drawOverview() {
  const canvas = byId('overview');
  canvas.hidden = isWhole();
  if (isWhole()) return;
  const ratio = window.devicePixelRatio || 1, height = coreCount * stripRow + 8;
  const key = [scale.width, ratio, document.documentElement.dataset.theme].join();
  if (!ground || ground.key !== key) {
    ground = paintGround(height, ratio, key);
    canvas.width = scale.width * ratio;
    canvas.height = height * ratio;
    canvas.style.height = height + 'px';
  }
  const pen = canvas.getContext('2d');
  pen.setTransform(1, 0, 0, 1, 0, 0);
  pen.drawImage(ground.canvas, 0, 0);
  pen.scale(ratio, ratio);
  if (view.future === 'hide') {
    pen.fillStyle = ground.paper;
    pen.fillRect(stripOf(view.step + 1), 0, scale.width, height);
  }
  pen.strokeStyle = pen.fillStyle = ground.ink;
  pen.lineWidth = 2;
  pen.strokeRect(stripOf(scale.first + 1), 1, Math.max(4, scale.shown / stepCount * scale.width), height - 2);
  pen.fillRect(stripOf(view.step || 1) - 1, 0, 2.5, height);
}
