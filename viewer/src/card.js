// The card of the present turn.

function drawCard() {
  const turn = film.turns[machine.at], card = $('#card');
  if (!turn) {
    card.innerHTML = startText();
    const go = card.querySelector('#gostale');
    if (go) go.addEventListener('click', () => toStale(1));
    return;
  }
  before.moveTo(machine.at - 1);
  card.innerHTML = turnText(turn);
  const other = card.querySelector('#showother');
  if (other) other.addEventListener('click', () => chooseItem(turn.item));
  for (const button of card.querySelectorAll('[data-turn]')) {
    button.addEventListener('click', () => goTo(Number(button.dataset.turn)));
  }
  const details = card.querySelector('details');
  if (details) details.addEventListener('toggle', () => { ui.details = details.open; });
}

// what a reader has to know before the first turn
function startText() {
  const used = film.items.filter(item => item.granted + item.issued > 0).length;
  const {leaves, buses, items, sizes, stale} = film;
  return `<div class="when"><b>Start</b><span class="soft">${film.turns.length} turns follow</span></div>
    <p class="answer">${leaves.length} ${plural(leaves.length, 'processor')} (<b>harts</b>), each on a <b>leaf</b>
    with a memory of its own, joined by ${buses.length} ${plural(buses.length, 'bus', 'buses')}.</p>
    <p class="more">Data have no home here: <b>items</b> of ${sizes.bytes} bytes move to the leaves that use them.
    Of ${items.length} ${plural(items.length, 'item')}, ${used} ${used === 1 ? 'moves' : 'move'} in this run;
    the picture shows one of them. A <b>directory</b> between two buses keeps what waits to go up or down.</p>
    <p class="more">Each turn lets one hart try an instruction, or one bus move one thing.
    <kbd>→</kbd> goes on, <kbd>←</kbd> back, <kbd>?</kbd> tells all keys and signs.</p>`
    + (stale.length ? `<p class="more">In turn ${stale[0].turn} hart ${stale[0].hart} loads a value that another hart
    has already overwritten. The page shows why, and why one order of one memory still explains it.
    <button id="gostale">Go to turn ${stale[0].turn}</button></p>` : '');
}

function turnText(turn) {
  const [sentence, more] = answerWords(turn, before), what = turn.answer[0];
  const paragraphs = [`<div class="when"><b>Turn ${turn.number}</b>`
    + `<span class="soft">of ${film.turns.length}</span>`
    + `<span class="badge ${what}" title="${ANSWER_WORDS[what]}">${what}</span></div>`];
  paragraphs.push(`<div class="tries">${escapeText(turnWords(turn))}${triedText(turn)}</div>`);
  paragraphs.push(`<div class="answer">${escapeText(sentence)}</div>`);
  if (more) paragraphs.push(`<div class="more">${escapeText(more)}</div>`);
  if (turn.item >= 0 && turn.item !== ui.item) {
    const [shown, about] = [itemName(ui.item), itemName(turn.item)].map(escapeText);
    paragraphs.push(`<div class="more">The picture shows ${shown}. `
      + `<button id="showother">Show ${about}</button></div>`);
  }
  if (turn.op && turn.op.stale) {
    paragraphs.push(staleText(turn.op));
  } else if (turn.op) {
    paragraphs.push(`<div class="more">Its place in the one order is its key, `
      + `<span class="mono">${turn.op.key}</span>.</div>`);
  }
  paragraphs.push(`<div class="raw mono" title="the line of the trace">${escapeText(turn.text)}</div>`,
    changesText(turn));
  return paragraphs.join('');
}

// what a stale load is, with ways to the turns that explain it
function staleText(op) {
  const [happened, how, why] = staleWords(op).map(escapeText), loses = losesCopy(op);
  const ways = [[op.stale.turn, 'the store']];
  if (loses) ways.push([loses.number, `leaf ${op.hart} lose its copy`]);
  const buttons = ways.map(([turn, what]) => `<button data-turn="${turn}">${what} (turn ${turn})</button>`);
  return `<div class="stale"><b>${happened}</b><br>${how}<br>${why}<br>See ${buttons.join(' ')}</div>`;
}

const ANSWER_WORDS = {
  retired: 'an instruction was completed',
  granted: 'a bus moved something',
  issued: 'a hart has to wait, and its leaf asks',
  waiting: 'a hart still waits',
  halted: 'a hart has ended',
  empty: 'nothing to do',
  busy: 'not possible now: nothing changed',
};

// the instruction that a hart tries: that at its pc before the turn
function triedText(turn) {
  if (turn.kind !== 'h' || before.halt(turn.hart)) return '';
  const pc = before.pc(turn.hart);
  return `: <code title="at ${hex(pc)}">${escapeText(instructionAt(pc))}</code>`
    + ` <span class="soft mono">at&nbsp;${escapeText(addressName(pc))}</span>`;
}

// the parts that the turn changed, as the film has them
function changesText(turn) {
  const lines = [];
  for (let k = 0; k < turn.changes.length; k += 3) {
    const [key, old, now] = [film.keys[turn.changes[k]], turn.changes[k + 1] || '–', turn.changes[k + 2] || '–'];
    lines.push(`<div class="mono"><b>${key}</b>: ${escapeText(old)} → ${escapeText(now)}</div>`);
  }
  if (!lines.length) return '';
  return `<details${ui.details ? ' open' : ''}>`
    + `<summary>${lines.length} ${plural(lines.length, 'part')} of the machine changed</summary>`
    + `<div>${lines.join('')}</div></details>`;
}
