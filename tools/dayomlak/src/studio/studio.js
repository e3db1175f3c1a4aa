
/* Firing: each is asked of the program, which has the engine make it. */

const TYPE = 'application/x-dayomlak';
// A check waits until nothing is typed for so long; the file is looked at so often. In milliseconds.
const PAUSE = 250;
const LOOK = 700;

const studio = {
  // What the file had when it was last read or written here: its fingerprint, and its text.
  known: '',
  saved: null,
  // The text that is shown, the picks of its firings with a refused one, and those that stand in the text.
  text: null,
  picks: [],
  typed: '',
  kind: '',
  drawing: '',
  // The picks that another order has taken the place of.
  before: null,
};

// Requests go one after the other, each with what the one before has left.
let turn = Promise.resolve();

function inTurn(job) {
  turn = turn.then(job).catch((error) => console.error(error));
  return turn;
}

// Asks the program; null where it does not answer.
async function ask(route, words, text = '') {
  const request = { method: 'POST', headers: { 'Content-Type': TYPE }, body: `${words}\n${text}` };
  const response = await fetch(route, request).catch(() => null);
  if (!response) {
    say('The studio has ended: what is typed here is not saved', 'error');
    return null;
  }
  const body = await response.text();
  const isJson = response.headers.get('Content-Type').startsWith('application/json');
  const answer = isJson ? JSON.parse(body) : { error: body.trim() };
  if (answer.error) say(answer.error, 'error');
  return { ...answer, status: response.status };
}

function say(words, kind = '') {
  byId('saved').textContent = words;
  byId('saved').className = kind;
}

const isStale = () => editor.value !== studio.text;
const isEdited = () => editor.value !== studio.saved;
// How many firings the position that is shown stands behind.
const firedHere = () => Math.min(position, data.firings.length);

// Fires picks and shows what comes of it; false where there is no run.
async function run(text, picks, rest) {
  const answer = await ask('run', `${picks} ${rest}`, text);
  if (!answer || !answer.findings) return false;
  if (editor.value === text) takeFindings(answer.findings);
  if (!answer.run) return false;
  if (answer.run.drawing !== studio.drawing) await draw(answer.run.drawing, text);
  studio.text = text;
  studio.typed = answer.typed.join();
  takeRun(answer.run);
  return true;
}

async function draw(drawing, text) {
  const answer = await ask('picture', '', text);
  const picture = new DOMParser().parseFromString((answer && answer.picture) || '', 'text/html').body;
  graph.replaceChildren(...picture.childNodes);
  studio.drawing = answer && answer.picture ? drawing : '';
  chosen = null;
  svg = null;
}

function takeRun(run) {
  studio.picks = run.picks;
  studio.kind = run.kind;
  byId('answer').textContent = run.answer;
  byId('answer').className = run.kind;
  byId('why').hidden = run.refusal === '';
  ['refusal', 'profile', 'left', 'listing'].forEach((id) => { byId(id).textContent = run[id]; });
  const isEnded = ['completed', 'hung'].includes(run.kind);
  byId('results').textContent = isEnded ? some(run.left.split('\n')).join(' · ') : '';
  byId('facts').replaceChildren(...run.facts.map(fact));
  byId('charts').replaceChildren(...new DOMParser().parseFromString(run.curves, 'text/html').body.childNodes);
  if (run.verdict) byId('verdict').textContent = run.verdict;
  takeData(run.data);
  if (!svg) takePicture();
  position = Math.min(position, last);
}

function fact([name, words]) {
  const [row, dt, dd] = ['div', 'dt', 'dd'].map((tag) => document.createElement(tag));
  [dt.textContent, dd.textContent] = [name, words];
  row.append(dt, dd);
  return row;
}

const list = (picks) => picks.join() || '-';

// Fires more from the position that is shown, and goes to the end.
function fireFrom(picks, rest) {
  return inTurn(async () => {
    if (isStale()) return;
    byId('verdict').textContent = '';
    if (!await run(studio.text, list(picks()), rest)) return;
    go(last);
    if (studio.kind === 'refused') keepInSight(byId('frame'), byId('lines').querySelector('mark.error'));
  });
}

function fire(name) {
  const next = data.firings[firedHere()];
  // What fires next in this run leaves the rest of it as it is.
  if (next && next.name === name && !isStale()) return go(firedHere() + 1);
  return fireFrom(() => {
    const number = standAt(data.enabled, position).findIndex((activity) => activity.name === name);
    return [...studio.picks.slice(0, firedHere()), ...(number < 0 ? [] : [number])];
  }, 'stop');
}

function fireNumber(number) {
  const activity = standAt(data.enabled, position)[number];
  if (activity) fire(activity.name);
}

const fireRest = () => fireFrom(() => studio.picks.slice(0, firedHere()), 'oldest');

// The rest at random; at the end of a run all of it.
function another() {
  const seed = crypto.getRandomValues(new Uint16Array(1))[0];
  return fireFrom(() => {
    studio.before = studio.picks;
    byId('before').hidden = false;
    const isEnd = position === last && studio.kind !== 'open';
    return isEnd ? [] : studio.picks.slice(0, firedHere());
  }, `random:${seed}`);
}

function orderBefore() {
  return fireFrom(() => {
    const picks = studio.before;
    studio.before = studio.picks;
    return picks;
  }, 'stop');
}

/* Checking while somebody types. */

let pause = null;
let looking = null;

function edited() {
  follow();
  showSaved();
  clearTimeout(pause);
  pause = setTimeout(() => inTurn(check), PAUSE);
}

// What was fired stays as far as it goes by the same names; where the text has another order than before, that is taken.
async function check() {
  const text = editor.value;
  const [names, typed, picks] = [data.firings.map(({ name }) => name), studio.typed, studio.picks];
  const first = studio.text === null ? 'typed' : list(picks);
  const isRun = await run(text, first, 'stop');
  document.body.classList.toggle('stale', !isRun);
  if (!isRun) return showButtons();
  const same = data.firings.findIndex(({ name }, number) => name !== names[number]);
  if (first !== 'typed' && studio.typed !== typed) await run(text, 'typed', 'stop');
  else if (first !== 'typed' && same >= 0) await run(text, list(picks.slice(0, same)), 'stop');
  byId('verdict').textContent = '';
  studio.before = null;
  byId('before').hidden = true;
  return show(position);
}

/* What is there to press. */

function showButtons() {
  const isIdle = isStale() || document.body.classList.contains('stale');
  byId('rest').disabled = isIdle || !canFire();
  byId('another').disabled = isIdle || data.tokens.length === 0;
  byId('before').disabled = isIdle;
  byId('save').disabled = !byId('versions').hidden;
  document.querySelectorAll('#enabled button').forEach((button) => { button.disabled = isIdle; });
}

const canFire = () => position < data.firings.length || studio.kind === 'open';

function chip(number, name) {
  const button = document.createElement('button');
  button.type = 'button';
  button.append(`${number} `, ...breakable(name));
  button.addEventListener('click', () => fire(name));
  return [button];
}

function press(id, event) {
  const activity = standAt(data.enabled, position).find(({ at }) => at === id);
  if (activity && !event.shiftKey) fire(activity.name);
  else choose(id);
}

function studioKey(event) {
  if (event.key === 's' && (event.ctrlKey || event.metaKey)) {
    event.preventDefault();
    save();
  }
  if (event.key === 'Escape' && event.target === editor) graph.focus();
  const own = event.target.closest('input, select, textarea');
  if (own || event.ctrlKey || event.altKey || event.metaKey) return;
  if (/^[0-9]$/.test(event.key)) fireNumber(Number(event.key));
}

function startStudio() {
  Object.assign(deeds, {
    isOpen: () => studio.kind === 'open' && !isStale(),
    fireNext: () => fireNumber(0),
    playRest: () => {
      const from = position;
      return fireRest().then(() => { show(from); play(); });
    },
    press,
    chip,
    shown: showButtons,
  });
  onClick({ rest: fireRest, another, before: orderBefore, save, swap, settle });
  editor.addEventListener('input', edited);
  document.addEventListener('keydown', studioKey);
  window.addEventListener('beforeunload', (event) => { if (isEdited()) event.preventDefault(); });
  inTurn(look);
  looking = setInterval(() => inTurn(look), LOOK);
}

startStudio();
