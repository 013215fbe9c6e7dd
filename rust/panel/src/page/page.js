// Joins the picture and the sentences, and shows the windows of a long run. Without it the page is complete but for these windows.
'use strict';
(() => {
  const run = document.getElementById('run');
  if (!run) return;

  // A frame and its sentence are lit together; the sentence of a frame in the picture also stands right below it.
  let lit = [];
  const light = element => {
    const found = element && element.closest && element.closest('a.frame, .frames li');
    if (!found) return;
    const k = found.id.slice(1);
    for (const one of lit) one.classList.remove('on');
    lit = [document.getElementById('f' + k), document.getElementById('s' + k)].filter(one => one);
    for (const one of lit) one.classList.add('on');
    const title = found.querySelector('title'), now = found.closest('.window').querySelector('.now');
    if (title) {
      now.textContent = title.textContent;
      now.classList.add('told');
    }
  };
  for (const now of run.querySelectorAll('.now')) now.hidden = false;
  run.addEventListener('pointerover', event => light(event.target));
  run.addEventListener('focusin', event => light(event.target));

  // Arrow keys go from frame to frame in the picture.
  const steps = run.querySelector('.steps');
  run.addEventListener('keydown', event => {
    const by = { ArrowLeft: -1, ArrowRight: 1 }[event.key];
    const frame = by && event.target.closest('a.frame');
    if (!frame) return;
    const k = Number(frame.id.slice(1)) + by;
    if (steps) go(k);
    const next = document.getElementById('f' + k);
    if (next) { event.preventDefault(); next.focus(); }
  });
  if (!steps) return;

  // The windows: those on the page are shown where they are, the others are drawn from their lists into one more.
  const count = Number(steps.dataset.frames), size = Number(steps.dataset.window), last = Math.ceil(count / size) - 1;
  const block = id => document.getElementById(id).textContent.slice(1, -1);
  const shapes = new Map(block('shapes').split('\n').map(line => line.split('\t')));
  const phrases = block('phrases').split('\n');
  const lists = block('windows').trimEnd().split('\n\n');
  const fill = (letter, line) => {
    const given = line.split('\t').slice(1);
    return shapes.get(letter).replace(/\$(\d)/g, (_, k) => given[k]);
  };
  const lines = k => lists[k].replace(/[\uE000-\uF8FF]/g, c => phrases[c.charCodeAt(0) - 0xE000]).split('\n');
  const draw = k => lines(k).map(line => fill(line[0], line)).join('');
  const sentences = k => lines(k).filter(line => line[0] === 'f').map(line => fill('s', line) + '\n').join('');
  const other = document.getElementById('other');
  const [number, slider] = steps.querySelectorAll('input');
  const said = steps.querySelector('output');
  const button = name => steps.querySelector(`[data-step=${name}]`);
  let at = -1;

  const show = k => {
    k = Math.max(0, Math.min(last, k));
    if (k === at) return;
    at = k;
    const own = document.getElementById('w' + k);
    for (const one of run.querySelectorAll('.window')) one.classList.toggle('off', one !== (own || other));
    other.hidden = !!own;
    other.querySelector('.drawn').innerHTML = own ? '' : draw(k);
    other.querySelector('ol').innerHTML = own ? '' : sentences(k);
    const to = Math.min(count, (k + 1) * size) - 1;
    const name = `Frames ${k * size} to ${to}`;
    if (!own) {
      other.querySelector('h3').textContent = name;
      other.querySelector('svg.lanes > title').textContent = name + ' of the run';
      other.querySelector('ol').start = k * size;
    }
    number.value = k * size;
    slider.value = k;
    slider.setAttribute('aria-valuetext', name);
    said.textContent = `${name} of ${count}`;
    button('first').disabled = button('back').disabled = k === 0;
    button('last').disabled = button('forward').disabled = k === last;
  };
  // The window with a frame, and that frame lit.
  const go = frame => {
    if (!(frame >= 0 && frame < count)) return;
    show(Math.floor(frame / size));
    light(document.getElementById('f' + frame));
    number.value = frame;
  };
  steps.addEventListener('click', event => {
    const { step, frame } = event.target.dataset;
    if (step) show({ first: 0, back: at - 1, forward: at + 1, last }[step]);
    if (frame) go(Number(frame));
  });
  steps.addEventListener('submit', event => event.preventDefault());
  number.addEventListener('change', () => go(Math.floor(Number(number.value))));
  slider.addEventListener('input', () => show(Number(slider.value)));
  // A link to a frame shows its window first.
  const follow = () => {
    const link = /^#[fs](\d+)$/.exec(location.hash);
    if (!link) return;
    go(Number(link[1]));
    const target = document.getElementById(location.hash.slice(1));
    if (target) target.scrollIntoView({ block: 'center' });
  };
  addEventListener('hashchange', follow);
  steps.hidden = false;
  show(0);
  follow();
})();
