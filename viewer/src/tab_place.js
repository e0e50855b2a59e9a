// Tab 2: one leaf or one directory, with all that is there.

function drawPlace(pane) {
  const {leaf, bus} = ui.place;
  show(pane, leaf !== undefined ? leafText(leaf) : busText(bus));
}

function entryRow(item, state, where, words) {
  return `<tr class="go${item === ui.item ? ' chosen' : ''}" data-item="${item}">`
    + `<td>${escapeText(itemName(item))}</td><td>${tile(state)}</td><td class="soft">${where}</td>`
    + `<td class="mono">${words.join(' ')}</td></tr>`;
}

function leafText(leaf) {
  const halt = machine.halt(leaf), turn = film.turns[machine.at], fresh = new Set();
  if (turn) for (let k = 0; k < turn.changes.length; k += 3) fresh.add(film.keys[turn.changes[k]]);
  let html = `<h2>Leaf ${leaf}, hart ${leaf}</h2>`
    + `<p>${halt ? 'Halted: ' + escapeText(halt) : 'Running'}; next at `
    + `<span class="mono">${machine.value('pc ' + leaf)}</span>: `
    + `<code>${escapeText(instructionAt(machine.pc(leaf)))}</code>; ${machine.done(leaf)} instructions`
    + ` complete.</p>`;
  const slot = machine.slot(leaf);
  const reserved = machine.value('reserved ' + leaf);
  const replies = machine.copies('leafreplies ' + leaf, 'data');
  html += `<p>Slot: ${slot ? chip({...slot, words: []}) : '<span class="soft">empty</span>'}${reserved !== ''
    ? `; reserves ${escapeText(itemName(Number(reserved)))}` : ''}; replies: ${replies.length
    ? replies.map(r => chip(r)).join(' ')
    : '<span class="soft">none</span>'}; moment <span class="mono">${machine.value('time '
    + film.leaves[leaf].bus)}</span> of bus ${film.leaves[leaf].bus}</p>`;
  html += '<h2>Attraction memory</h2><table><tr><th>item</th><th>state</th><th></th><th>words</th></tr>';
  for (const [item] of machine.list('buffer ' + leaf)) {
    const e = machine.entry(leaf, Number(item));
    html += entryRow(Number(item), e.state, 'buffer ' + e.place, e.words);
  }
  const own = film.items.map(({number}) => number).filter(x => machine.value(`entry ${leaf} ${x}`) !== '');
  own.sort((x, y) => (moves(y) - moves(x)) || x - y);
  for (const x of own.slice(0, 300)) {
    const e = machine.entry(leaf, x);
    html += entryRow(x, e.state, 'way ' + e.way, e.words);
  }
  html += '</table><h2>Registers</h2><div class="regs">';
  for (let r = 1; r < 32; r++) {
    html += `<span class="${fresh.has(`reg ${leaf} ${r}`) ? 'new' : ''}"><span class="soft">${ABI[r]}</span> `
      + `<span class="mono" title="x${r}">${machine.register(leaf, r)}</span></span>`;
  }
  const out = machine.output(leaf);
  html += `</div><p>Output: <span class="mono">${out || '-'}</span></p>`;
  return html;
}

const moves = x => film.items[x].granted + film.items[x].issued > 0 ? 1 : 0;

function busText(bus) {
  const list = (name, entries, room) =>
    `<p>${name} <span class="soft">${entries.length}/${room}</span>: ${entries.length
      ? entries.map(e => chip(e) + (e.stamp ? ` <span class="soft mono">at ${e.stamp}</span>` : '')
      + (e.words.length ? ` <span class="mono">${e.words.join(' ')}</span>` : '')).join('<br>')
      : '<span class="soft">empty</span>'}</p>`;
  const s = film.sizes;
  let html = `<h2>${cap(parentName(bus))}, over bus ${bus}</h2><p>The bus is at moment `
    + `<span class="mono">${machine.value('time ' + bus)}</span>${bus
    ? ': what it took over from the buses above, and its own grants' : ': its grants'}.</p>`;
  html += list('Down list', machine.downList(bus), s.down);
  if (bus) {
    html += list('Requests', machine.requests(bus), s.requests)
      + list('Replies', machine.copies('replies ' + bus, 'data'), s.replies)
      + list(`Parked (${machine.value('kept ' + bus) || 0} places kept)`,
      machine.copies('parked ' + bus, 'parked'), s.parking);
  }
  html += `<h2>Items</h2><table><tr><th>item</th><th>holds</th><th>under way</th></tr>`;
  const known = film.items.map(({number}) => number)
    .filter(x => { const v = machine.value(`dir ${bus} ${x}`); return v !== '' && (bus !== 0 || v !== 'E'); });
  known.sort((x, y) => (moves(y) - moves(x)) || x - y);
  for (const x of known.slice(0, 300)) {
    const d = machine.dir(bus, x);
    html += `<tr class="go${x === ui.item ? ' chosen' : ''}" data-item="${x}">`
      + `<td>${escapeText(itemName(x))}</td><td>${tile(d.hold)}</td>`
      + `<td>${noteWords(bus, d) || '<span class="soft">nothing</span>'}</td></tr>`;
  }
  return html + '</table>';
}
