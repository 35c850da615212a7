// Page of the playground. With `?story=NAME` it plays a story at once, to its end.

import { compile } from '../src/index.js';
import { STORIES } from './stories.js';
import { World } from './world.js';

const $ = id => document.getElementById(id);
const modules = {};
for (const part of ['hub', 'client']) modules[part] = await compile(new URL(`../dist/wlb_${part}32.wasm`, import.meta.url));

const PAUSE = 1100;
const names = new Map(); // tab -> name of a lock that was typed into its field
let world = await World.create(modules), steps = [], timer = null;

// ---- actions

function deliverAll() {
  while (world.deliverNext());
}

async function act(run) {
  await run();
  if ($('auto').checked && !steps.length) deliverAll();
  draw();
}

async function reset() {
  clearTimeout(timer);
  timer = null;
  steps = [];
  names.clear();
  world = await World.create(modules);
  draw();
}

/** Plays the next step of the story. Returns whether there was one. */
async function step() {
  if (!steps.length) return false;
  const count = STORIES[$('story').value].steps.length, [text, run, isHeld] = steps.shift();
  $('caption').replaceChildren(element('b', { textContent: `${count - steps.length} of ${count}` }), text);
  await run(world);
  if (!isHeld) deliverAll();
  draw();
  return true;
}

async function begin() {
  await reset();
  steps = [...STORIES[$('story').value].steps];
}

async function play() {
  await begin();
  const next = async () => { if (await step()) timer = setTimeout(next, PAUSE); };
  await next();
}

// ---- drawing

function element(name, words = {}, ...children) {
  const made = Object.assign(document.createElement(name), words);
  made.append(...children);
  return made;
}

function button(text, run) {
  return element('button', { type: 'button', textContent: text, onclick: () => act(run) });
}

const nameOf = number => (number ? `tab ${number}` : 'broker');

function drawTab(number, { origin, locks, isAlive, said }) {
  const list = element('ul', { className: 'locks' });
  for (const [command, { name, mode, isHeld }] of locks) {
    const text = `${isHeld ? 'holds' : 'waits for'} ${name}${mode === 'shared' ? ' (shared)' : ''}`;
    const end = button(isHeld ? 'release' : 'abort', () => world.end(number, command));
    list.append(element('li', { className: isHeld ? 'held' : 'waits' }, text, ' ', end));
  }
  if (!locks.size) list.append(element('li', { className: 'none', textContent: 'no locks' }));
  const head = element('header', {}, element('h3', { textContent: `Tab ${number}` }), element('span', { className: 'origin', textContent: origin }));
  const card = element('article', { className: isAlive ? 'tab' : 'tab dead' }, head);
  if (!isAlive) {
    head.append(' dead');
    return card;
  }
  head.append(button('Send again', () => world.resend(number)), button('Kill', () => world.kill(number)));
  const name = element('input', { type: 'text', value: names.get(number) ?? 'db', ariaLabel: 'name of the lock' });
  name.oninput = () => names.set(number, name.value);
  const ask = (text, mode, isProbe) => button(text, () => world.request(number, name.value, mode, isProbe));
  const form = element('form', { onsubmit: () => false }, name, ask('Ask', 'exclusive'), ask('Shared', 'shared'), ask('If available', 'exclusive', true));
  card.append(list, form);
  if (said) card.append(element('div', { className: 'origin', textContent: said }));
  return card;
}

function drawWire() {
  const rows = world.wire.map(({ id, from, to, label }) => element('li', {},
    element('span', { textContent: `${nameOf(from)} → ${nameOf(to)}: ${label}` }),
    button('deliver', () => world.deliver(id)), button('twice', () => world.deliver(id, true)), button('drop', () => world.drop(id))));
  document.querySelector('#wire ol').replaceChildren(...(rows.length ? rows : [element('li', { className: 'none', textContent: 'nothing' })]));
}

// The columns of the chart share its width, within these limits.
const NARROWEST = 92, WIDEST = 180, ROW = 26, TOP = 4, HEADS = 24;

function svg(name, words, text = '') {
  const made = document.createElementNS('http://www.w3.org/2000/svg', name);
  for (const [key, value] of Object.entries(words)) made.setAttribute(key, value);
  made.textContent = text;
  return made;
}

/** Lines and texts of an event at the height `y`. `x` returns the place of a tab or of the broker. */
function partsOf(event, y, x, column, width) {
  if (event.kind === 'note') {
    const line = svg('line', { class: 'event', x1: 0, x2: width, y1: y - 4, y2: y - 4 });
    return [line, svg('text', { class: 'note', x: x(event.at), y }, event.text)];
  }
  const [from, to] = [x(event.from), x(event.to)], side = Math.sign(to - from);
  const kind = event.kind === 'lost' ? 'lost' : event.to ? 'down' : 'up';
  const end = event.kind === 'lost' ? (from + to) / 2 : to - 3 * side;
  const parts = [svg('line', { class: kind, x1: from, x2: end, y1: y, y2: y })];
  if (event.kind === 'message') {
    const back = end - 6 * side;
    parts.push(svg('path', { class: kind, fill: 'none', d: `M${back},${y - 4} L${end},${y} L${back},${y + 4}` }));
  }
  // The label stands beside the tab, where no other line goes.
  const label = event.label.endsWith('granted') ? 'label grant' : 'label';
  return [...parts, svg('text', { class: label, x: x(event.from || event.to) - column / 2, y: y - 5 }, event.label)];
}

function drawChart() {
  const actors = [0, ...world.tabs.keys()], [heads, chart] = document.querySelectorAll('#chart svg');
  const column = Math.min(WIDEST, Math.max(NARROWEST, Math.floor(chart.parentElement.clientWidth / actors.length)));
  const width = column * actors.length, height = TOP + ROW * (world.events.length + 1);
  const x = number => column * (actors.indexOf(number) + 0.5);
  heads.replaceChildren(...actors.map(actor => svg('text', { class: 'actor', x: x(actor), y: 16 }, nameOf(actor))));
  chart.replaceChildren(
    ...actors.map(actor => svg('line', { class: 'life', x1: x(actor), x2: x(actor), y1: 0, y2: height })),
    ...world.events.flatMap((event, index) => partsOf(event, TOP + ROW * (index + 0.8), x, column, width)),
  );
  for (const [part, high] of [[heads, HEADS], [chart, height]]) {
    part.setAttribute('width', width);
    part.setAttribute('height', high);
  }
  chart.parentElement.scrollTop = chart.parentElement.scrollHeight;
}

function draw() {
  $('tabs').replaceChildren(...[...world.tabs].map(([number, tab]) => drawTab(number, tab)));
  $('generation').textContent = `broker of generation ${world.generation}`;
  drawWire();
  drawChart();
}

// ---- the bar

for (const [name, { title }] of Object.entries(STORIES)) $('story').append(element('option', { value: name, textContent: title }));
$('play').onclick = play;
$('step').onclick = async () => {
  clearTimeout(timer);
  if (!steps.length) await begin();
  await step();
};
$('story').onchange = reset;
$('auto').onchange = () => act(() => {});
$('open-a').onclick = () => act(() => world.open('https://a.test/'));
$('open-b').onclick = () => act(() => world.open('https://b.test/'));
$('restart').onclick = () => act(() => world.restart());
$('clear').onclick = reset;
addEventListener('resize', drawChart);
draw();

const wanted = new URLSearchParams(location.search).get('story');
if (wanted in STORIES) {
  $('story').value = wanted;
  await begin();
  while (await step());
  document.title = `wlb playground: ${STORIES[wanted].title}`;
}
