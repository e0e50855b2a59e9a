// What each key does.

function setTheme(theme) {
  document.documentElement.dataset.theme = theme;
}

function nextTheme() {
  const dark = document.documentElement.dataset.theme ? document.documentElement.dataset.theme === 'dark'
    : matchMedia('(prefers-color-scheme: dark)').matches;
  setTheme(dark ? 'light' : 'dark');
  draw();
}

function treeOnly() {
  document.body.classList.toggle('plain');
  layOut();
  draw();
}

function higherLanes() {
  const tall = document.body.classList.toggle('tall');
  $('#tall').setAttribute('aria-pressed', String(tall));
  drawLanes();
}

function typeTurn() {
  $('#goto').focus();
  $('#goto').select();
}

const isBusy = turn => turn.answer[0] === 'busy';

const KEYS = {
  ArrowRight: () => step(1),
  ArrowLeft: () => step(-1),
  PageDown: () => step(10),
  PageUp: () => step(-10),
  Home: () => goTo(-1),
  End: () => goTo(film.turns.length - 1),
  ' ': () => play(!ui.playing),
  '.': () => goTo(machine.at + 1),
  ',': () => goTo(machine.at - 1),
  g: typeTurn,
  i: () => jump(1, ofItem),
  I: () => jump(-1, ofItem),
  h: () => jump(1, ofHart),
  H: () => jump(-1, ofHart),
  b: () => jump(1, ofBus),
  B: () => jump(-1, ofBus),
  s: () => toStale(1),
  S: () => toStale(-1),
  x: () => jump(1, isBusy),
  X: () => jump(-1, isBusy),
  ']': () => nextItem(1),
  '[': () => nextItem(-1),
  f: () => $('#follow').click(),
  t: nextTheme,
  p: treeOnly,
  l: higherLanes,
  '+': () => zoom(1),
  '-': () => zoom(-1),
  '?': () => $('#help').showModal(),
  1: () => setTab('order'),
  2: () => setTab('place'),
  3: () => setTab('program'),
  4: () => setTab('items'),
  5: () => setTab('traffic'),
};

function nextItem(by) {
  const all = ui.active.length ? ui.active : [ui.item], k = all.indexOf(ui.item);
  chooseItem(all[(k + by + all.length) % all.length]);
}

function setTab(tab) {
  ui.tab = tab;
  draw();
}

function zoom(by) {
  const g = laneGeometry(), fit = g.w / Math.max(1, g.total);
  const now = lanes.zoom === 0 ? fit : lanes.zoom, next = by > 0 ? now * 1.6 : now / 1.6;
  lanes.zoom = next <= fit * 1.01 ? 0 : Math.min(next, 40);
  drawLanes();
}
