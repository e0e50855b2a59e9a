// Keys, clicks and files.

function listen() {
  // a list that is chosen from by pointer gives the keys back
  let byPointer = false;
  document.addEventListener('pointerdown', () => { byPointer = true; }, true);
  document.addEventListener('keydown', () => { byPointer = false; }, true);
  document.querySelectorAll('select')
    .forEach(select => select.addEventListener('change', () => { if (byPointer) select.blur(); }));
  document.addEventListener('keydown', event => {
    if (!film || event.ctrlKey || event.metaKey || event.altKey || document.querySelector('dialog[open]')) return;
    const on = event.target;
    if (on.matches('input[type="text"], input[type="search"], textarea, select')) {
      if (event.key === 'Escape') on.blur();
      return;
    }
    if ((event.key === ' ' || event.key === 'Enter')
      && on.matches('button, input[type="checkbox"], .box, summary')) {
      if (on.matches('.box')) { event.preventDefault(); on.click(); }
      return;
    }
    // scrolls
    if (on.closest('#pane') && ['PageUp', 'PageDown', 'Home', 'End', ' '].includes(event.key)) return;
    const act = KEYS[event.key];
    if (act) {
      event.preventDefault();
      if (event.key !== ' ' && ui.playing && event.key.length > 1) play(false);
      act();
    }
  });
  const click = (id, act) => $(id).addEventListener('click', act);
  click('#first', () => goTo(-1)); click('#last', () => goTo(film.turns.length - 1));
  click('#back', () => { play(false); step(-1); }); click('#next', () => { play(false); step(1); });
  click('#play', () => play(!ui.playing));
  for (const [id, holds] of [['item', ofItem], ['hart', ofHart], ['bus', ofBus]]) {
    click(`#${id}back`, () => jump(-1, holds));
    click(`#${id}next`, () => jump(1, holds));
  }
  click('#stale', KEYS.s);
  click('#theme', nextTheme);
  click('#ask', () => $('#help').showModal());
  click('#plain', KEYS.p);
  click('#tall', KEYS.l);
  click('#zoomin', () => zoom(1));
  click('#zoomout', () => zoom(-1));
  click('#zoomall', () => { lanes.zoom = 0; drawLanes(); });
  click('#names', () => { $('#nametext').value = [...names].map(([a, n]) => hex(a) + ' ' + n)
    .join('\n'); $('#namebox').showModal(); });
  click('#namesdone', () => { takeNames($('#nametext').value); $('#namebox').close(); });
  click('#reportnow', () =>
    { $('#reporttext').value = machine.report().join('\n') + '\n'; $('#reportbox').showModal(); });
  $('#elf').addEventListener('change', async () => {
    try {
      $('#nametext').value = elfNames(await $('#elf').files[0].arrayBuffer()).join('\n') || 'no symbols there';
    } catch (error) { $('#nametext').value = String(error.message); }
  });
  document.querySelectorAll('dialog [data-close]')
    .forEach(b => b.addEventListener('click', () => b.closest('dialog').close()));
  $('#slider').addEventListener('input',
    event => { play(false); const p = Number(event.target.value); goTo(p === 0 ? -1 : ui.sequence[p - 1], true); });
  $('#goto').addEventListener('change',
    event => { const n = parseInt(event.target.value, 10); goTo(isNaN(n) ? -1 : n); event.target.blur(); });
  $('#speed').addEventListener('change', event => { ui.speed = Number(event.target.value); });
  $('#shown').addEventListener('change', event => { ui.shown = event.target.value; setSequence(); draw(); });
  $('#follow').addEventListener('change',
    event => {
      ui.follow = event.target.checked;
      const now = film.turns[machine.at];
      if (ui.follow && now && now.item >= 0) chooseItem(now.item);
    });
  const input = $('#item');
  input.addEventListener('focus', () => input.select());
  input.addEventListener('change',
    () => {
      const x = findItem(input.value);
      if (x < 0) {
        say('No such item.');
        input.value = itemText(ui.item);
      } else { input.blur(); chooseItem(x, true); }
    });
  document.querySelectorAll('#tabs [role="tab"]')
    .forEach(tab => tab.addEventListener('click', () => setTab(tab.dataset.tab)));
  $('#stage').addEventListener('click', event => {
    const mini = event.target.closest('[data-item]');
    if (mini) { chooseItem(Number(mini.dataset.item)); return; }
    const box = event.target.closest('.box');
    if (box) {
      choosePlace(box.dataset.leaf !== undefined ? {leaf: Number(box.dataset.leaf)}
        : {bus: Number(box.dataset.bus)});
    }
  });
  $('#pane').addEventListener('click',
    event => { const row = event.target.closest('tr[data-item]'); if (row) chooseItem(Number(row.dataset.item)); });
  const canvas = $('#lanecanvas'), tip = $('#tip');
  let dragging = false;
  const seek = event => { const k = laneTurnAt(event); if (k >= 0) goTo(ui.sequence[k], true); };
  canvas.addEventListener('pointerdown',
    event => { dragging = true; canvas.setPointerCapture(event.pointerId); play(false); seek(event); });
  canvas.addEventListener('pointermove', event => {
    if (dragging) { seek(event); return; }
    const k = laneTurnAt(event);
    if (k < 0) { tip.classList.add('hidden'); return; }
    tip.textContent = film.turns[ui.sequence[k]].text;
    tip.classList.remove('hidden');
    tip.style.left = Math.min(event.clientX + 14, innerWidth - tip.offsetWidth - 8) + 'px';
    tip.style.top = event.clientY - tip.offsetHeight - 10 + 'px';
  });
  canvas.addEventListener('pointerup', () => { dragging = false; });
  canvas.addEventListener('pointerleave', () => tip.classList.add('hidden'));
  canvas.addEventListener('wheel',
    event => {
      if (event.ctrlKey || event.shiftKey) { event.preventDefault(); zoom(event.deltaY < 0 ? 1 : -1); }
    }, {passive: false});
  let resizing = 0;
  new ResizeObserver(() => {
    if (!film) return;
    cancelAnimationFrame(resizing);
    resizing = requestAnimationFrame(() => { layOut(); draw(); });
  }).observe($('#tree'));
  matchMedia('(prefers-color-scheme: dark)').addEventListener('change', () => film && draw());
  const take = async file => {
    try { open(await file.text()); } catch (error) { $('#dropsays').textContent = String(error.message); }
  };
  $('#filmfile').addEventListener('change', event => take(event.target.files[0]));
  document.addEventListener('dragover', event => event.preventDefault());
  document.addEventListener('drop',
    event => { event.preventDefault(); if (event.dataTransfer.files[0]) take(event.dataTransfer.files[0]); });
}
