// The states of the chosen item over time, for the lanes.

// for each leaf and each bus the places (of ui.sequence) from which on the item is there so: [[place, state],
// ..]
function stateRuns() {
  const item = ui.item, places = film.turns.length;
  const walk = new Machine(film);
  const leafState = leaf => { const e = walk.entry(leaf, item); return e ? e.state : '-'; };
  const busState = bus => {
    const d = walk.dir(bus, item);
    const down = walk.value('down ' + bus) === '' ? [] : walk.downList(bus).filter(e => e.item === item);
    if (down.some(e => e.kind === 'erase')) return 'erase';
    if (down.length) return down[0].kind;
    return d.note || d.answering ? 'note' : '-';
  };
  const runs = {leaf: film.leaves.map(({leaf}) => [[-1, leafState(leaf)]]),
    bus: film.buses.map(({bus}) => [[-1, busState(bus)]])};
  const about = film.keys.map(key => {
    const w = key.split(' ');
    if (w[0] === 'entry') return Number(w[2]) === item ? ['leaf', Number(w[1])] : null;
    if (w[0] === 'buffer') return ['leaf', Number(w[1])];
    if (w[0] === 'dir') return Number(w[2]) === item ? ['bus', Number(w[1])] : null;
    if (w[0] === 'down') return ['bus', Number(w[1])];
    return null;
  });
  for (let n = 0; n < places; n++) {
    const c = film.turns[n].changes;
    if (!c.length) continue;
    walk.moveTo(n);
    for (let k = 0; k < c.length; k += 3) {
      const at = about[c[k]];
      if (!at) continue;
      const run = runs[at[0]][at[1]], state = at[0] === 'leaf' ? leafState(at[1]) : busState(at[1]);
      if (run[run.length - 1][1] !== state) run.push([n, state]);
    }
  }
  return runs;
}
