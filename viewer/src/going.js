// Going to a turn, and playing.

// the place of the last turn of the sequence that isn't after this one
function placeOf(turn) {
  let low = 0, high = ui.sequence.length;
  while (low < high) {
    const mid = (low + high) >> 1;
    if (ui.sequence[mid] <= turn) low = mid + 1;
    else high = mid;
  }
  return low;
}

function goTo(turn, quick) {
  const to = Math.max(-1, Math.min(film.turns.length - 1, turn));
  const one = to === machine.at + 1 || placeOf(to) === ui.position + 1;
  machine.moveTo(to);
  ui.position = placeOf(to);
  const now = film.turns[to];
  if (now) {
    if (now.kind === 'h') ui.hart = now.hart; else ui.bus = now.bus;
    if (ui.follow && now.item >= 0 && now.item !== ui.item) { chooseItem(now.item, true); return; }
    if (ui.follow && ui.tab === 'place') ui.place = now.kind === 'h' ? {leaf: now.hart} : {bus: now.bus};
  }
  draw();
  if (one && !quick) animateMoves(ui.playing ? Math.min(700, 800 / ui.speed) : 650);
}

function step(by) {
  const p = Math.max(0, Math.min(ui.sequence.length, ui.position + by));
  goTo(p === 0 ? -1 : ui.sequence[p - 1]);
}

// the next turn that isn't idle and of which this holds
function jump(by, holds) {
  for (let n = machine.at + by; n >= 0 && n < film.turns.length; n += by) {
    if (!film.turns[n].idle && holds(film.turns[n])) {
      goTo(n);
      return true;
    }
  }
  say(by > 0 ? 'There is none after this turn.' : 'There is none before this turn.');
  return false;
}

// the next stale load, and its item
function toStale(by) {
  if (jump(by, turn => turn.op && turn.op.stale)) chooseItem(film.turns[machine.at].item);
}

const ofItem = turn => turn.items.includes(ui.item);
const ofHart = turn => turn.kind === 'h' && turn.hart === Number($('#hart').value);
const ofBus = turn => turn.kind !== 'h' && turn.bus === Number($('#bus').value);

function play(on) {
  clearTimeout(ui.playing);
  ui.playing = 0;
  $('#play').textContent = on ? '❙❙ Pause' : '▶ Play';
  $('#play').setAttribute('aria-pressed', String(on));
  if (!on) return;
  if (ui.position >= ui.sequence.length) goTo(-1, true);
  const next = () => {
    if (ui.position >= ui.sequence.length) { play(false); return; }
    step(1);
    ui.playing = setTimeout(next, 1000 / ui.speed);
  };
  ui.playing = setTimeout(next, 150);
}
