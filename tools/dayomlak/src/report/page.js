'use strict';
// Shows a run firing by firing. Every state is the engine's and stands in the data; nothing is fired here.

const byId = (id) => document.getElementById(id);
// What is shown, and its last position. A refused firing has a position of its own, the last, and the state that it found.
let data;
let last;
// More rows than anybody reads would make every step slow.
const MOST_ROWS = 300;
const MOST_NAMES = 20;

// What a page does that only shows; in the studio more can fire.
const deeds = {
  isOpen: () => false,
  // One more firing, behind the last position.
  fireNext: () => undefined,
  // All that is left, which is then played.
  playRest: () => undefined,
  press: (id) => choose(id),
  chip: (number, name) => [`${number} `, ...breakable(name)],
  // When a position is shown.
  shown: () => undefined,
};

function takeData(found) {
  data = found;
  last = data.firings.length + (data.refused ? 1 : 0);
  byId('slider').max = last;
  keepRoom('tokens', mostTokens());
  keepRoom('cells', data.cells.length);
  byId('held-sample').hidden = data.held.length === 0;
  if (svg) placeSpots();
}

/* The state at a position. */

// The last change up to a position; undefined before the first.
function changeAt(changes, position) {
  let found;
  for (const change of changes) {
    if (change[0] <= position) found = change;
  }
  return found;
}

// A token or a cell with its state and value, and whether the firing of this position changed it.
function itemAt(item, number, position) {
  const change = changeAt(item.changes, position);
  if (!change) return null;
  const [since, state, value] = change;
  return { ...item, number, state, value, fresh: since === position && position > 0 };
}

function itemsAt(items, position) {
  return items.map((item, number) => itemAt(item, number, position)).filter(Boolean);
}

function stateAt(position) {
  const refused = position > data.firings.length;
  const operands = refused ? data.refused.operands : [];
  const tokens = itemsAt(data.tokens, position)
    .map((token) => ({ ...token, operand: operands.includes(token.number) }));
  return {
    position,
    firing: firingAt(position),
    refused,
    tokens: tokens.filter((token) => token.state !== 'spent'),
    all: tokens,
    spent: tokens.filter((token) => token.state === 'spent').length,
    cells: itemsAt(data.cells, position),
    enabled: standAt(data.enabled, position),
    held: standAt(data.held, position),
    next: refused ? data.refused : firingAt(position + 1),
  };
}

// What can fire next, in the order of picks, or what the bound holds back. A refused firing changes nothing.
function standAt(activities, position) {
  const at = Math.min(position, data.firings.length);
  return activities.filter(({ since, until }) => since <= at && at < until);
}

function firingAt(position) {
  if (position > data.firings.length) return data.refused;
  return data.firings[position - 1];
}

const plural = (count, noun) => `${count} ${noun}${count === 1 ? '' : 's'}`;

// Scrolls a frame, and not the page, until an element in it is in sight.
function keepInSight(frame, element) {
  if (!element) return;
  const outer = frame.getBoundingClientRect();
  const box = element.getBoundingClientRect();
  const margin = 35;
  if (box.left < outer.left + margin || box.right > outer.right - margin) {
    frame.scrollLeft += (box.left + box.right - outer.left - outer.right) / 2;
  }
  if (box.top < outer.top + margin || box.bottom > outer.bottom - margin) {
    frame.scrollTop += (box.top + box.bottom - outer.top - outer.bottom) / 2;
  }
}

/* The firing in words. */

function showFiring(state) {
  const { firing, position } = state;
  const what = byId('what');
  what.className = state.refused ? 'refused' : '';
  what.replaceChildren(...firingWords(state));
  byId('tag').textContent = firing ? firing.tag : '';
  byId('slider').value = position;
  byId('slider').setAttribute('aria-valuetext', what.textContent);
}

// The number and the name stand out.
function firingWords({ firing, position, refused }) {
  // A page of a saved state has firings behind it.
  const done = data.before + data.firings.length;
  const number = data.before + position;
  if (refused) {
    const words = breakable(` is ${firing.words}. This is the state that it found.`);
    return [strong(`Firing ${number}: ${firing.name}`), ...words];
  }
  if (firing) return [strong(`Firing ${number} of ${done}: ${firing.name}`), ...breakable(`, ${firing.words}`)];
  if (data.tokens.length === 0) return [nothing()];
  if (data.carriedOn) return [`The saved state, after ${plural(data.before, 'firing')}, before the next`];
  if (last === 0) return ['The inputs: nothing is fired'];
  return [`The inputs, before the first of ${plural(done, 'firing')}`];
}

function nothing() {
  const refused = byId('answer').classList.contains('refused');
  return refused ? 'Refused before any firing: there is no token.' : 'There is no token: nothing fires.';
}

function strong(words) {
  const element = document.createElement('strong');
  element.append(...breakable(words));
  return element;
}

// Words whose names may be broken between two calls, and a long one nowhere else.
function breakable(words) {
  return String(words).split(/(?<=\/)/).flatMap((part) => [part, document.createElement('wbr')]);
}

/* Tables. */

function row(values, numbers) {
  const tr = document.createElement('tr');
  values.forEach((value, column) => {
    const td = tr.insertCell();
    td.append(...breakable(value));
    if (numbers.includes(column)) td.className = 'number';
  });
  return tr;
}

// Fills a table, and says how many rows it does not show.
function fillTable(id, items, rowOf) {
  const rows = items.slice(0, MOST_ROWS).map(rowOf);
  if (items.length > MOST_ROWS) {
    const more = row([`and ${items.length - MOST_ROWS} more, not shown here`], []);
    more.cells[0].colSpan = 4;
    more.className = 'more';
    rows.push(more);
  }
  byId(id).classList.toggle('empty', items.length === 0);
  byId(id).tBodies[0].replaceChildren(...rows);
  keepInSight(byId(id).parentElement, byId(id).querySelector('.fresh, .operand'));
}

function tokenRow(token) {
  const deferred = token.state === 'deferred';
  const value = deferred ? '' : token.value;
  const state = deferred ? `deferred on ${cellName(token.value)}` : token.state;
  const tr = row([token.number, token.name, value, state], [0, 2]);
  tr.dataset.record = `${token.key} ${token.value} ${token.state}`;
  tr.classList.toggle('fresh', token.fresh);
  tr.classList.toggle('operand', token.operand);
  return tr;
}

function cellRow(cell, reads) {
  const value = cell.state === 'present' ? cell.value : '';
  const tr = row([cell.name.replace(/^cell /, ''), cell.state, value, some(reads.map(readWords)).join(', ')], [0, 2]);
  tr.dataset.record = `cell ${cell.cell} ${cell.state} ${cell.value}`;
  tr.classList.toggle('fresh', cell.fresh);
  return tr;
}

// What a cell is called: an element of an array, or a cell by its number.
function cellName(number) {
  const known = data.cells.find(({ cell }) => cell === number);
  return known ? known.name : `cell ${number}`;
}

// A deferred token, and the FETCH that sent it when it arrived.
function readWords(token) {
  const [arrival] = token.changes[0];
  // Who sent what a saved state has is not known.
  return arrival === 0 ? token.name : `${data.firings[arrival - 1].name} → ${token.name}`;
}

// The first words, and how many more there are.
function some(words) {
  if (words.length <= MOST_NAMES) return words;
  return [...words.slice(0, MOST_NAMES), `and ${words.length - MOST_NAMES} more`];
}

// The enabled activities by their numbers; the one that fires next stands out. Behind them stand those that are held back.
function showEnabled({ enabled, held, next }) {
  const chips = enabled.slice(0, MOST_ROWS).map(({ name }, number) => {
    const item = document.createElement('li');
    item.append(...deeds.chip(number, name));
    item.classList.toggle('next', Boolean(next) && next.name === name);
    return item;
  });
  if (enabled.length > MOST_ROWS) {
    const more = document.createElement('li');
    more.append(`and ${enabled.length - MOST_ROWS} more`);
    chips.push(more);
  }
  const backs = held.slice(0, MOST_ROWS).map(({ name, by }) => {
    const item = document.createElement('li');
    item.append(...breakable(`${name} held ${by}`));
    item.classList.add('held');
    return item;
  });
  const free = enabled.length === 0
    ? 'Nothing can fire'
    : `${enabled.length} can fire, numbered as picks count them`;
  byId('enabled-count').textContent = held.length === 0 ? free : `${free}; the bound holds ${held.length} back`;
  const hadFocus = byId('enabled').contains(document.activeElement);
  byId('enabled').replaceChildren(...chips, ...backs);
  // Who fires by keys goes on from there.
  if (hadFocus) (byId('enabled').querySelector('button') || byId('graph')).focus();
  keepInSight(byId('enabled').parentElement, byId('enabled').querySelector('.next'));
}

// The instruction whose tokens are shown, the spent ones too, by its id in the picture; null for all that are not spent.
let chosen = null;

function choose(id) {
  chosen = id === chosen ? null : id;
  byId('all-tokens').hidden = chosen === null;
  show(position);
}

// What is written last in an instruction is its name; a load is called as its cell.
function nameOf(id) {
  const texts = byId(id) ? [...byId(id).querySelectorAll('text')].reverse() : drawn(id);
  return texts.length > 0 ? texts[0].textContent : id;
}

function showTables({ tokens, all, spent, cells }) {
  const deferred = tokens.filter((token) => token.state === 'deferred');
  const live = tokens.length - deferred.length;
  byId('counts').textContent =
    `${plural(tokens.length + spent, 'token')}: ${live} live, ${deferred.length} deferred, ${spent} spent`;
  byId('tokens-of').textContent = chosen ? `Tokens of ${nameOf(chosen)}` : 'Tokens';
  fillTable('tokens', chosen ? all.filter(({ at }) => at === chosen) : tokens, tokenRow);
  const present = cells.filter((cell) => cell.state === 'present').length;
  byId('cell-counts').textContent = cells.length === 0
    ? 'All are absent'
    : `${present} present, ${cells.length - present} waiting; all others are absent`;
  const readsOf = (cell) => deferred.filter((token) => token.value === cell.cell);
  fillTable('cells', cells, (cell) => cellRow(cell, readsOf(cell)));
}

// The most tokens that are live or deferred at any position.
function mostTokens() {
  const arrived = new Array(last + 1).fill(0);
  data.tokens.forEach(({ changes }) => {
    arrived[changes[0][0]] += 1;
    const [end, state] = changes[changes.length - 1];
    if (state === 'spent') arrived[end] -= 1;
  });
  let now = 0;
  return Math.max(...arrived.map((more) => { now += more; return now; }));
}

// Keeps the room that a table will need, as far as it may grow, so that nothing jumps while the slider moves.
function keepRoom(id, rows) {
  const frame = byId(id).parentElement;
  const height = rows === 0 ? 0 : 1.75 * (rows + 1);
  frame.style.minHeight = `min(${height}rem, ${getComputedStyle(frame).maxHeight})`;
}

/* The picture. */

const graph = byId('graph');
let svg = null;
let labels = [];
let badges = null;
// Where the tokens of each arc are shown.
const spots = new Map();

function takePicture() {
  svg = graph.querySelector('svg');
  spots.clear();
  if (!svg) return;
  labels = [...svg.querySelectorAll('.edge text')].map((text) => text.getBBox());
  badges = svg.querySelector('.graph').appendChild(svgElement('g', {}));
  // Graphviz's own tips say nothing to a reader.
  svg.querySelectorAll('title').forEach((title) => title.remove());
  nameLoads();
  svg.querySelectorAll('.node[id^="instruction-"]').forEach((node) => {
    node.addEventListener('click', (event) => deeds.press(node.id, event));
  });
  placeSpots();
  fit(SMALLEST);
}

// Each arc has its spot from the start, whatever way the slider goes.
function placeSpots() {
  new Set(data.tokens.map((token) => token.arc)).forEach(spot);
}

function svgElement(name, attributes) {
  const element = document.createElementNS(svg.namespaceURI, name);
  Object.entries(attributes).forEach(([key, value]) => element.setAttribute(key, value));
  return element;
}

const HEADINGS = ['cell', 'loaded'];

// The rows of the table of loads have no ids of their own: each has a cell or an element, and a value.
function nameLoads() {
  const texts = [...svg.querySelectorAll('#loads text')].filter(({ textContent }) => !HEADINGS.includes(textContent));
  texts.forEach((text, number) => {
    const id = `load-${Math.floor(number / 2)}`;
    text.classList.add(id);
    text.addEventListener('click', (event) => deeds.press(id, event));
  });
}

// What is drawn by an id: an instruction, an arc, or the texts of a load.
function drawn(id) {
  const element = id && byId(id);
  if (element) return [element];
  return id ? [...svg.getElementsByClassName(id)] : [];
}

function mark(name, ids) {
  svg.querySelectorAll(`.${name}`).forEach((element) => element.classList.remove(name));
  ids.flatMap(drawn).forEach((element) => element.classList.add(name));
}

function showPicture(state) {
  const { firing, refused, tokens } = state;
  const here = firing ? [firing.at] : [];
  mark('enabled', state.enabled.map(({ at }) => at));
  mark('held', state.held.map(({ at }) => at));
  mark('fires', refused ? [] : here);
  mark('refuses', refused ? [...here, firing.arc] : [data.fault]);
  mark('chosen', chosen ? [chosen] : []);
  mark('sends', tokens.filter((token) => token.fresh).map((token) => token.arc));
  showBadges(tokens);
  if (firing) keepInSight(graph, drawn(firing.arc)[0] || drawn(firing.at)[0]);
}

function showBadges(tokens) {
  const groups = new Map();
  tokens.forEach((token) => {
    const arc = drawn(token.arc).length > 0 ? token.arc : token.at;
    groups.set(arc, [...(groups.get(arc) || []), token]);
  });
  badges.replaceChildren(...[...groups].map(([arc, group]) => badge(spot(arc), group)));
}

// Where the tokens of an arc are shown: near its middle; at a load, beside its row; else on the instruction itself.
function spot(id) {
  if (!spots.has(id)) spots.set(id, newSpot(id));
  return spots.get(id);
}

function newSpot(id) {
  const elements = drawn(id);
  if (elements.length === 0) return { x: 0, y: 0 };
  const path = elements[0].querySelector('path');
  if (path && elements[0].classList.contains('edge')) return spotOnArc(path);
  const box = elements[elements.length - 1].getBBox();
  const beside = elements.length > 1 ? 16 : 0;
  return { x: box.x + box.width + beside, y: box.y + box.height / 2 };
}

// As near to the middle as labels, and the tokens of arcs that cross, leave room; else beside it.
function spotOnArc(path) {
  const length = path.getTotalLength();
  const points = [0.5, 0.4, 0.6, 0.3, 0.7, 0.2, 0.8].map((part) => path.getPointAtLength(length * part));
  const beside = [10, -10].flatMap((aside) => points.map(({ x, y }) => ({ x: x + aside, y })));
  return [...points, ...beside].find(isFree) || points[0];
}

const HALF_BADGE = 7;

function isFree({ x, y }) {
  const far = (spot) => Math.hypot(spot.x - x, spot.y - y) > 2 * HALF_BADGE;
  const beside = (box) => x + HALF_BADGE < box.x || x - HALF_BADGE > box.x + box.width ||
    y + HALF_BADGE < box.y || y - HALF_BADGE > box.y + box.height;
  return labels.every(beside) && [...spots.values()].every(far);
}

// One token shows its value, several their number; the tip names them.
function badge({ x, y }, group) {
  const [token] = group;
  const deferred = token.state === 'deferred';
  const single = deferred ? '?' : String(token.value);
  const words = group.length > 1 ? `×${group.length}` : single;
  const width = Math.max(13, 7 + 5.4 * words.length);
  const element = svgElement('g', { class: 'token', transform: `translate(${x} ${y})` });
  element.classList.toggle('deferred', group.every(({ state }) => state === 'deferred'));
  element.classList.toggle('fresh', group.some(({ fresh }) => fresh));
  element.classList.toggle('operand', group.some(({ operand }) => operand));
  const tip = svgElement('title', {});
  tip.textContent = tipOf(group);
  const text = svgElement('text', { y: 3 });
  text.textContent = words;
  element.append(tip, svgElement('rect', { x: -width / 2, y: -6.5, width, height: 13, rx: 6.5 }), text);
  return element;
}

function tipOf(group) {
  const words = ({ name, value, state }) =>
    state === 'deferred' ? `${name} waits for ${cellName(value)}` : `${name} = ${value}`;
  return some(group.map(words)).join('\n');
}

// Letters drawn smaller than this are hard to read.
const SMALLEST = 0.75;
// Pixels of a point, the unit of the picture.
const POINT = 4 / 3;
let zoom = 1;

function setZoom(value) {
  zoom = Math.min(4, Math.max(0.1, value));
  const { width, height } = svg.viewBox.baseVal;
  svg.setAttribute('width', width * zoom * POINT);
  svg.setAttribute('height', height * zoom * POINT);
}

// As large as the frame allows.
function fit(smallest) {
  const { width, height } = svg.viewBox.baseVal;
  const across = (graph.clientWidth - 4) / (width * POINT);
  const down = parseFloat(getComputedStyle(graph).maxHeight) / (height * POINT);
  setZoom(Math.max(smallest, Math.min(across, down, 1.2)));
}

/* The curves. */

function showStep(state) {
  byId('step').replaceChildren(...breakable(stepWords(state.firing, state.refused)));
  document.querySelectorAll('figure').forEach((figure) => markColumn(figure, columnOf(figure, state)));
}

const isByFiring = (figure) => figure.dataset.by === 'firing';

// The columns of a curve: its firings, and before them the inputs, or its ideal steps.
const columns = (figure) => (isByFiring(figure) ? data.firings.length + 1 : data.steps.length);

// The column of a position; null where it is in none.
function columnOf(figure, { firing, position }) {
  if (isByFiring(figure)) return Math.min(position, data.firings.length);
  return firing && firing.step !== null ? firing.step - data.firstStep : null;
}

function stepWords(firing, refused) {
  if (!firing || data.carriedOn) return '';
  const record = data.steps[firing.step - data.firstStep];
  if (refused && !record) return 'The refused firing is in no whole step.';
  if (firing.step === null) return 'The profile was refused before it came to this activity.';
  if (!record) return 'This activity fires in the step that was not finished.';
  if (firing.step === 0) return `${firing.name} loads a cell, before step 1.`;
  return `${firing.name} fires in step ${firing.step}: ${plural(record[0], 'firing')}, ` +
    `${plural(record[1], 'token')} after it, ${record[2]} of them waiting.`;
}

function markColumn(figure, column) {
  figure.querySelectorAll('.mark, .ahead').forEach((old) => old.remove());
  if (column === null || column >= columns(figure)) return;
  cover(figure, 'mark', column, 1);
  // The curve of a run grows along with it.
  const ahead = columns(figure) - column - 1;
  if (isByFiring(figure) && ahead > 0) cover(figure, 'ahead', column + 1, ahead);
}

// Covers some columns of a curve.
function cover(figure, name, column, count) {
  const [left, right, top, bottom] = ['left', 'right', 'top', 'bottom'].map((side) => Number(figure.dataset[side]));
  const width = (right - left) / columns(figure);
  const chart = figure.querySelector('svg');
  const rect = document.createElementNS(chart.namespaceURI, 'rect');
  const place = { class: name, x: left + width * column, y: top, width: width * count, height: bottom - top };
  Object.entries(place).forEach(([key, value]) => rect.setAttribute(key, value));
  chart.append(rect);
}

// Goes to the firing that was clicked on, or to the first one of the step, if this run has one.
function goToColumn(event) {
  const figure = event.target.closest('figure');
  if (!figure) return;
  const [left, right] = ['left', 'right'].map((side) => Number(figure.dataset[side]));
  const chart = figure.querySelector('svg');
  const box = chart.getBoundingClientRect();
  const x = (event.clientX - box.left) * chart.viewBox.baseVal.width / box.width;
  const column = Math.floor((x - left) / (right - left) * columns(figure));
  const found = isByFiring(figure) ? column : data.firings.findIndex(({ step }) => step === column + data.firstStep) + 1;
  if (found > 0 || isByFiring(figure)) go(found);
}

/* The slider. */

let position = 0;

function show(wanted) {
  position = Math.min(last, Math.max(0, Math.round(wanted) || 0));
  const state = stateAt(position);
  showFiring(state);
  showEnabled(state);
  showTables(state);
  if (svg) showPicture(state);
  showStep(state);
  ['first', 'previous'].forEach((id) => { byId(id).disabled = position === 0; });
  byId('next').disabled = position === last && !deeds.isOpen();
  byId('last').disabled = position === last;
  byId('play').disabled = last === 0 && !deeds.isOpen();
  deeds.shown();
  if (position === last) stop();
}

// Where a user goes stands in the address, so that it can be passed on.
function go(wanted) {
  show(wanted);
  history.replaceState(null, '', `#firing=${data.before + position}`);
}

function forth() {
  if (position < last) go(position + 1);
  else deeds.fireNext();
}

function fromAddress() {
  const match = /^#firing=(\d+)$/.exec(location.hash);
  // A refused run opens where it was refused.
  const start = data.refused ? last : 0;
  show(match ? Number(match[1]) - data.before : start);
}

let timer = null;

function stop() {
  clearInterval(timer);
  timer = null;
  byId('play').textContent = 'Play';
  byId('firing').setAttribute('aria-live', 'polite');
}

function play() {
  if (timer !== null) return stop();
  if (position === last && deeds.isOpen()) return deeds.playRest();
  if (position === last) show(0);
  byId('play').textContent = 'Pause';
  // Nobody can listen to firings at this pace.
  byId('firing').setAttribute('aria-live', 'off');
  timer = setInterval(() => go(position + 1), Number(byId('speed').value));
  return undefined;
}

const KEYS = {
  ArrowLeft: () => go(position - 1),
  ArrowRight: forth,
  Home: () => go(0),
  End: () => go(last),
};

// The slider, the list of speeds and a text have keys of their own.
function key(event) {
  const own = event.target.closest('input, select, textarea');
  if (own || event.ctrlKey || event.altKey || event.metaKey) return;
  if (event.key === ' ' && !event.target.closest('button, summary')) {
    event.preventDefault();
    play();
  }
  if (!(event.key in KEYS)) return;
  event.preventDefault();
  KEYS[event.key]();
}

// On paper all is open; then what was folded folds again.
let folded = [];

function unfold() {
  folded = [...document.querySelectorAll('details:not([open])')];
  folded.forEach((details) => { details.open = true; });
}

function fold() {
  folded.forEach((details) => { details.open = false; });
}

function onClick(actions) {
  Object.entries(actions).forEach(([id, action]) => byId(id).addEventListener('click', action));
}

function start() {
  byId('slider').addEventListener('input', (event) => go(Number(event.target.value)));
  onClick({
    first: () => go(0),
    previous: () => go(position - 1),
    next: forth,
    last: () => go(last),
    play,
    'all-tokens': () => choose(null),
    smaller: () => svg && setZoom(zoom / 1.25),
    larger: () => svg && setZoom(zoom * 1.25),
    fit: () => svg && fit(0),
  });
  byId('charts').addEventListener('click', goToColumn);
  window.addEventListener('beforeprint', unfold);
  window.addEventListener('afterprint', fold);
  byId('speed').addEventListener('change', () => { if (timer !== null) { stop(); play(); } });
  document.addEventListener('keydown', key);
  window.addEventListener('hashchange', fromAddress);
  takeData(JSON.parse(byId('data').textContent));
  takePicture();
  fromAddress();
}

start();
