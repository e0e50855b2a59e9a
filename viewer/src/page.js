// The page: the film that is open, what is chosen, and drawing all of it.

let film, machine, before, startMachine;
const ui = {item: 0, position: 0, sequence: [], shown: 'acts', follow: false, speed: 2, tab: 'order',
  place: {leaf: 0}, hart: 0, bus: 0, onlyMemory: true, onlyItem: false, active: [], byMoves: [], details: false,
    runs: null, traffic: null, playing: 0};
const $ = selector => document.querySelector(selector);

function open(text) {
  film = parseFilm(text);
  machine = new Machine(film); before = new Machine(film); startMachine = new Machine(film);
  const last = new Machine(film);
  last.moveTo(film.turns.length - 1);
  ui.traffic = last.traffic();
  ui.active = film.items.filter(x => x.granted + x.issued > 0)
    .sort((x, y) => (y.writable - x.writable) || y.granted + y.issued - x.granted - x.issued).map(x => x.number);
  ui.byMoves = film.items.map(x => x.number)
    .sort((x, y) => (film.items[y].granted - film.items[x].granted) || x - y);
  ui.item = film.stale.length ? film.stale[0].item : ui.active.length ? ui.active[0] : 0;
  ui.hart = 0; ui.bus = 0; ui.place = {leaf: 0};
  checkEnd(last);
  ui.shown = ui.active.length && film.turns.filter(turn => !turn.idle).length > 200 ? 'moves' : 'acts';
  fillChoices();
  readHash();
  layOut();
  chooseItem(ui.item, true);
  $('#stale').classList.toggle('hidden', film.stale.length === 0);
  $('#stale').textContent = `${film.stale.length} stale ${plural(film.stale.length, 'load')} ›`;
  document.title = `ddm run: ${film.turns.length} turns, ${film.leaves.length}`
    + ` ${plural(film.leaves.length, 'hart')}`;
  document.body.classList.remove('empty');
  $('#drop').classList.add('hidden');
}

// what the page shows in the end is the report that the film has
function checkEnd(last) {
  const mine = last.report(), wrong = mine.findIndex((line, n) => line !== film.report[n]);
  const foot = $('#verdict');
  foot.className = wrong < 0 && mine.length === film.report.length ? 'ok' : 'bad';
  foot.textContent = foot.className === 'ok' ? 'in the end this page has what the report says'
    : 'this page differs from the report: ' + film.report[wrong];
}

// the turns that are stepped through
function setSequence() {
  const moving = new Set(ui.active);
  const shows = {all: () => true, acts: turn => !turn.idle, item: turn => !turn.idle
    && turn.items.includes(ui.item),
    moves: turn => !turn.idle
      && (turn.kind !== 'h' || turn.answer[0] !== 'retired' || turn.items.some(x => moving.has(x)))}[ui.shown];
  ui.sequence = film.turns.filter(shows).map(turn => turn.number);
  ui.position = placeOf(machine.at);
  $('#slider').max = ui.sequence.length;
}

function fillChoices() {
  const list = $('#itemlist');
  list.replaceChildren();
  const active = new Set(ui.active);
  const order = ui.active.concat(film.items.map(x => x.number).filter(x => !active.has(x)));
  for (const x of order.slice(0, 2000)) list.append(el('option', {value: itemText(x)}));
  const options = (select, count, word) => {
    select.replaceChildren();
    for (let n = 0; n < count; n++) select.append(el('option', {value: n}, word + ' ' + n));
  };
  options($('#hart'), film.leaves.length, 'hart');
  options($('#bus'), film.buses.length, 'bus');
}

function itemText(x) {
  const name = itemName(x);
  return (name.startsWith('item ') ? '' : name + ' · ') + `item ${x} · ${film.items[x].address.toString(16)}`;
}

// an item by its number, an address in it, or a name
function findItem(text) {
  const t = text.trim();
  let m;
  if (names.size) {
    for (const [address, name] of names) {
      if (name === t.split(' ')[0] && itemAt(film, address) >= 0) return itemAt(film, address);
    }
  }
  if ((m = /(?:^|[· ])item (\d+)/.exec(t)) && film.items[Number(m[1])]) return Number(m[1]);
  if ((m = /(?:0x)?([0-9a-fA-F]{3,8})$/.exec(t))) {
    const x = itemAt(film, parseInt(m[1], 16));
    if (x >= 0) return x;
  }
  if (/^\d+$/.test(t) && film.items[Number(t)]) return Number(t);
  return -1;
}

// ---- going to a turn

function chooseItem(x, force) {
  if (x < 0 || (!force && x === ui.item)) return;
  ui.item = x;
  ui.runs = stateRuns();
  if (ui.shown === 'item') setSequence();
  const input = $('#item');
  if (document.activeElement !== input) input.value = itemText(x);
  draw();
}

function choosePlace(at) {
  ui.place = at;
  if (at.leaf !== undefined) {
    ui.hart = at.leaf;
    $('#hart').value = at.leaf;
  } else { ui.bus = at.bus; $('#bus').value = at.bus; }
  ui.tab = 'place';
  draw();
}

let told = '';
function say(text) { $('#live').textContent = text; told = text; }

function draw() {
  drawPicture();
  drawCard();
  drawPane();
  drawLanes();
  const slider = $('#slider'), turn = film.turns[machine.at];
  slider.value = ui.position;
  slider.setAttribute('aria-valuetext', turn ? `turn ${turn.number}` : 'start');
  if (document.activeElement !== $('#goto')) $('#goto').value = turn ? turn.number : 'start';
  $('#of').textContent = `of ${film.turns.length}`;
  if (!ui.playing && turn) {
    before.moveTo(machine.at - 1);
    say(`Turn ${turn.number}. ${turnWords(turn)}. ${answerWords(turn, before)[0]}`);
  }
  $('#lanetitle').textContent = itemName(ui.item) + ' over time';
  writeHash();
}
