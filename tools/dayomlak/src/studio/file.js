
/* The file. */

function showSaved() {
  if (byId('versions').hidden) say(isEdited() ? 'Not saved' : 'Saved');
  document.title = `${isEdited() ? '* ' : ''}${document.querySelector('h1').textContent}: studio`;
}

function save() {
  return inTurn(async () => {
    if (!byId('versions').hidden) return;
    const isWanted = byId('with-order').checked;
    if (isWanted && isStale()) await check();
    const [text, isOrdered] = [editor.value, isWanted && !isStale()];
    const order = isOrdered ? `${list(studio.picks)} stop` : 'without';
    const answer = await ask('save', `${studio.known} ${order}`, text);
    if (!answer || !answer.known) return;
    if (answer.status === 409) offer(answer);
    else written(answer, text);
    if (answer.status === 200 && isWanted && !isOrdered) {
      say('Saved without the order, since the text has errors', 'warning');
    }
  });
}

function written({ known, text }, sent) {
  studio.known = known;
  studio.saved = text;
  if (text !== sent && editor.value === sent) {
    putText(text);
    inTurn(check);
  }
  showSaved();
}

// Looks whether another program has written the file.
async function look() {
  const answer = await ask('file', studio.known);
  if (!answer || !answer.known || answer.known === studio.known || !byId('versions').hidden) return;
  const mine = editor.value;
  const isFirst = studio.saved === null && studio.known === '';
  if (answer.text === null) {
    [studio.known, studio.saved] = [answer.known, isFirst ? '' : null];
    say(isFirst ? 'There is no file yet: Save makes it' : 'The file is gone: Save writes it again', 'warning');
    if (isFirst) inTurn(check);
  } else if (isFirst || !isEdited() || answer.text === mine) {
    [studio.known, studio.saved] = [answer.known, answer.text];
    if (answer.text !== mine) putText(answer.text);
    showSaved();
    if (!isFirst) say('Taken over from the file, which another program has changed', 'warning');
    inTurn(check);
  } else offer(answer);
}

// Both versions, of which none is lost: the one that is not in the text stands beside it until the user has chosen.
function offer({ known, text }) {
  if (text === null) return;
  [studio.known, studio.saved] = [known, text];
  byId('other').textContent = text;
  offerWords(true);
  byId('versions').hidden = false;
  showButtons();
  say('Two versions', 'warning');
}

function offerWords(isFiles) {
  byId('versions-words').textContent = isFiles
    ? 'Another program has changed the file. Below is what it has now; what you typed is in the text. Save waits for your choice.'
    : 'The text is now the file\'s. Below is what you had typed.';
  byId('swap').textContent = isFiles ? 'Take the file\'s text' : 'Bring back what I typed';
  byId('settle').textContent = isFiles ? 'Keep what I typed' : 'Keep the file\'s text';
  byId('versions').dataset.is = isFiles ? 'file' : 'typed';
}

function swap() {
  const mine = editor.value;
  putText(byId('other').textContent);
  byId('other').textContent = mine;
  offerWords(byId('versions').dataset.is === 'typed');
  inTurn(check);
}

function settle() {
  byId('versions').hidden = true;
  showButtons();
  showSaved();
  editor.focus();
}
