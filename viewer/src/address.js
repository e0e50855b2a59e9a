// The address of the page, which says what is shown: #turn=837&item=00011120&names=11110:data,11120:flag

let hashTimer = 0;
function writeHash() {
  clearTimeout(hashTimer);
  hashTimer = setTimeout(() => {
    const parts = [`turn=${machine.at < 0 ? 'start' : machine.at}`, `item=${hex(film.items[ui.item].address)}`,
      `tab=${ui.tab}`, `show=${ui.shown}`];
    if (names.size) {
      parts.push('names=' + [...names].map(([a, n]) => a.toString(16) + ':' + encodeURIComponent(n)).join(','));
    }
    try {
      history.replaceState(null, '', '#' + parts.join('&'));
    } catch (e) { /* not every browser lets a file do so */ }
  }, 400);
}

function readHash() {
  const given = new URLSearchParams(location.hash.slice(1));
  if (given.has('names')) for (const pair of given.get('names').split(',')) {
    const k = pair.indexOf(':');
    if (k > 0) names.set(parseInt(pair.slice(0, k), 16), pair.slice(k + 1));
  }
  if (given.has('theme')) setTheme(given.get('theme'));
  if (given.has('tab') && PANES[given.get('tab')]) ui.tab = given.get('tab');
  if (given.has('item')) { const x = findItem(given.get('item')); if (x >= 0) ui.item = x; }
  if (given.has('turn')) {
    const n = parseInt(given.get('turn'), 10);
    machine.moveTo(isNaN(n) ? -1 : Math.max(-1, Math.min(n, film.turns.length - 1)));
  }
  if (['all', 'acts', 'moves', 'item'].includes(given.get('show'))) ui.shown = given.get('show');
  if (given.has('plain')) document.body.classList.add('plain');
  if (given.has('follow')) ui.follow = true;
  if (given.has('zoom')) lanes.zoom = Number(given.get('zoom')) || 0;
  $('#shown').value = ui.shown; $('#follow').checked = ui.follow;
  setSequence();
  fillChoices();
}
