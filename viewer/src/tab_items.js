// Tab 4: all items, with the state of each at each leaf.

function drawItems(pane) {
  const leaves = film.leaves.length, most = Math.max(30, Math.min(200, Math.floor(4000 / leaves)));
  const shown = ui.byMoves.slice(0, most), rest = ui.byMoves.length - shown.length;
  show(pane, '<p class="soft">Those that moved most come first. A star is the current copy.</p>'
    + `<table class="matrix${leaves > 16 ? ' many' : ''}"><tr><th>item</th><th>address</th>`
    + `<th>at leaf ${leaves > 1 ? '0 to ' + (leaves - 1) : 0}</th></tr>${shown.map(itemRow).join('')}</table>`
    + (rest ? `<p class="soft">And ${rest} more.</p>` : ''));
}

function itemRow(x) {
  const copy = machine.current(x);
  const tiles = film.leaves.map(({leaf}) => {
    const entry = machine.entry(leaf, x);
    return tile(entry && entry.state, copy.leaf === leaf ? 'current' : '', 'leaf ' + leaf);
  });
  const list = copy.list === 'down' ? 'in the down list' : 'parked';
  const away = copy.bus === undefined ? '' : ` <span class="soft">★ ${list} at bus ${copy.bus}</span>`;
  return `<tr class="go${x === ui.item ? ' chosen' : ''}" data-item="${x}"><td>${escapeText(itemName(x))}</td>`
    + `<td class="mono">${hex(film.items[x].address)}</td><td>${tiles.join('')}${away}</td></tr>`;
}
