// The page tests itself where its address ends in #test.

// Forward to the end and back to the start each part is as before; the last state is the report's; in some turns
// all that is drawn
// says what the state says.
function runTests() {
  const failed = [], check = (what, ok) => { if (!ok && failed.length < 20) failed.push(what); };
  const m = new Machine(film), first = m.report().join('\n');
  m.moveTo(film.turns.length - 1);
  check('the last state is the report’s', m.report().join('\n') === film.report.join('\n'));
  m.moveTo(-1);
  check('back at the start', m.report().join('\n') === first);
  const steps = Math.max(1, Math.floor(film.turns.length / 60));
  for (let n = -1; n < film.turns.length; n += n < 40 ? 1 : steps) {
    goTo(n, true);
    film.leaves.forEach(({leaf}) => {
      const e = machine.entry(leaf, ui.item), drawn = document.querySelector(`.box[data-leaf="${leaf}"] .tile`);
      check(`turn ${n}, leaf ${leaf}`, drawn && drawn.dataset.state === (e ? e.state : '-'));
    });
    check(`turn ${n}, card`, document.querySelector('#card').textContent.includes(n < 0 ? 'Start' : 'Turn ' + n));
    if (n >= 0) { before.moveTo(n - 1); check(`turn ${n}, words`, !/undefined|NaN/.test(document.body.innerText)); }
  }
  for (const tab of Object.keys(PANES)) {
    ui.tab = tab;
    for (const n of [-1, 0, film.turns.length >> 1, film.turns.length - 1]) {
      goTo(n, true);
      check(`${tab} at turn ${n}`, document.querySelector('#pane').textContent !== ''
        && !/undefined|NaN/.test(document.querySelector('#pane').textContent));
    }
  }
  for (const item of ui.active.slice(0, 5)) chooseItem(item);
  ui.tab = 'order';
  goTo(-1, true);
  document.title = failed.length ? 'FAIL ' + failed[0] : 'PASS ' + film.turns.length + ' turns';
  document.body.dataset.test = failed.length ? failed.join('; ') : 'pass';
}
