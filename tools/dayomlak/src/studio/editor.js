
/* The text, with what is found in it at its lines. */

const editor = byId('editor');
// As the program found them; their places follow what is typed until the next check.
let findings = [];
let typed = '';
// Of two that begin at one place the first is marked.
const KINDS = ['error', 'warning', 'also'];

const bySeverity = (a, b) => KINDS.indexOf(a.severity) - KINDS.indexOf(b.severity);

// A line of the text, with the findings that mark a part of it, and what they say behind it.
function lineOf(text, start, marks) {
  const line = document.createElement('div');
  const end = start + text.length;
  const here = marks.filter(({ from }) => from >= start && from <= end);
  let at = start;
  here.sort((a, b) => a.from - b.from || bySeverity(a, b)).forEach(({ from, to, severity }) => {
    if (from < at) return;
    const part = document.createElement('mark');
    part.className = severity;
    part.append(text.slice(from - start, Math.max(from + 1, Math.min(to, end)) - start));
    line.append(text.slice(at - start, from - start), part);
    at = Math.max(from, Math.min(to, end));
  });
  line.append(text.slice(at - start));
  const said = here.filter(({ words }) => words).sort(bySeverity);
  if (said.length > 0) line.append(notesOf(said));
  line.classList.add(...said.map(({ severity }) => severity));
  return line;
}

function notesOf(said) {
  const notes = document.createElement('span');
  notes.className = 'notes';
  notes.append(...said.map(({ words, severity }) => {
    const note = document.createElement('span');
    note.className = `note ${severity}`;
    note.textContent = words;
    return note;
  }));
  return notes;
}

function marksOf({ severity, message, at, also }) {
  const marks = [];
  if (at) marks.push({ ...at, severity, words: at.says ? `${message}: ${at.says}` : message });
  if (also) marks.push({ ...also, severity: 'also', words: also.says });
  return marks;
}

// The same text lies behind the one that is typed, with marks in it.
function paint() {
  typed = editor.value;
  const marks = findings.flatMap(marksOf);
  let start = 0;
  byId('lines').replaceChildren(...typed.split('\n').map((text) => {
    const line = lineOf(text, start, marks);
    start += text.length + 1;
    return line;
  }));
}

// Moves what stands behind the place that was typed at.
function follow() {
  const more = editor.value.length - typed.length;
  const from = editor.selectionStart - Math.max(more, 0);
  const moved = (mark) => mark && { ...mark, ...(mark.from >= from ? { from: mark.from + more, to: mark.to + more } : {}) };
  findings = findings.map((finding) => ({ ...finding, at: moved(finding.at), also: moved(finding.also) }));
  paint();
}

const lineNumber = (at) => editor.value.slice(0, at).split('\n').length;

function takeFindings(found) {
  findings = found;
  paint();
  const errors = found.filter(({ severity }) => severity === 'error').length;
  const warnings = found.length - errors;
  const words = [errors && plural(errors, 'error'), warnings && plural(warnings, 'warning')].filter(Boolean);
  byId('found').textContent = words.length > 0 ? `${words.join(', ')}:` : 'Nothing wrong is found.';
  byId('found').className = errors > 0 ? 'error' : '';
  byId('findings').replaceChildren(...found.map(findingItem));
}

// A finding in words. To press it goes to its place.
function findingItem(finding) {
  const item = document.createElement('li');
  const { severity, message, at, notes } = finding;
  const place = document.createElement(at ? 'button' : 'span');
  place.className = severity;
  place.textContent = at ? `Line ${lineNumber(at.from)}: ${message}` : message;
  if (at) place.addEventListener('click', () => goToText(findings[findings.indexOf(finding)] || finding));
  item.append(place);
  [at && at.says, ...notes].filter(Boolean).forEach((words) => {
    const note = document.createElement('div');
    note.textContent = words;
    item.append(note);
  });
  return item;
}

function goToText({ at }) {
  editor.focus();
  editor.setSelectionRange(at.from, at.to);
  const line = byId('lines').children[lineNumber(at.from) - 1];
  keepInSight(byId('frame'), line.querySelector('mark') || line);
}

// Puts another text in the place of the one that stands there; Ctrl-Z brings that back.
function putText(text) {
  const { activeElement } = document;
  const [from, to] = [editor.selectionStart, editor.selectionEnd];
  editor.focus({ preventScroll: true });
  editor.select();
  // What is inserted otherwise cannot be taken back.
  if (!document.execCommand('insertText', false, text) || editor.value !== text) editor.value = text;
  editor.setSelectionRange(Math.min(from, text.length), Math.min(to, text.length));
  if (activeElement !== editor) editor.blur();
  if (activeElement !== document.body) activeElement.focus({ preventScroll: true });
  follow();
}
