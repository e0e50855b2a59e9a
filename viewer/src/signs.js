// Signs in boxes and tables: the tile of a state, the chip of an entry, lists of them, notes.

function tile(state, classes, title) {
  const none = !state || state === '-';
  return `<span class="tile ${none ? 'none' : state} ${classes || ''}" data-state="${none ? '-' : state}"${title
    ? ` title="${escapeText(title)}"` : ''}>${none ? '–' : state}</span>`;
}

function chip(entry, fresh, short, why) {
  const mine = entry.item === ui.item, kind = entry.kind;
  const label = kind === 'parked' ? itemName(entry.item) : short
    ? {read: 'rd', data: 'da', erase: 'er', exclusive: 'ex', inject: 'in'}[kind]
    : `${kind} ${itemName(entry.item).replace(/^item /, '')}`;
  const title = `${kind} ${itemName(entry.item)}${entry.words.length ? ': ' + entry.words.join(' ')
    : ''}${entry.stamp ? ', told at moment ' + entry.stamp : ''}`;
  return `<span class="chip ${kind}${mine ? ' me' : ''}${fresh ? ' fresh' : ''}${why ? ' why'
    : ''}" title="${escapeText(title)}">${escapeText(label)}</span>`;
}

// whether the present turn put an entry at this list's end
function isFresh(key) {
  const turn = film.turns[machine.at];
  if (!turn) return false;
  for (let k = 0; k < turn.changes.length; k += 3) {
    if (film.keys[turn.changes[k]] === key) return turn.changes[k + 2].length > turn.changes[k + 1].length;
  }
  return false;
}

function chips(entries, key, most, short) {
  const fresh = isFresh(key);
  const shown = entries.slice(0, entries.length > most ? most - 1 : most)
    .map((e, n) => chip(e, fresh && n === entries.length - 1, short, isWhyStale(e, key)));
  if (entries.length > shown.length) {
    const rest = entries.slice(shown.length);
    const mine = rest.find(e => e.item === ui.item);
    shown.push(mine ? chip(mine, false, short)
      + `<span class="soft" style="font-size:.75em">+${rest.length - 1}</span>`
      : `<span class="soft" style="font-size:.75em">+${rest.length} more</span>`);
  }
  return shown.join('');
}

function listBox(caption, entries, key, room, classes, most, short) {
  const full = room > 0 && entries.length >= room;
  return `<div class="list ${classes}${full ? ' full' : ''}"><div class="cap"><span>${caption}</span>`
    + `<span>${entries.length || full ? `${entries.length}/${room}` : ''}</span></div>`
    + `<div class="stack">${chips(entries, key, most, short)}</div></div>`;
}

function noteWords(bus, d) {
  const say = [];
  if (d.note === 'local') say.push(`<span class="tag">local</span> for ${childName(bus, d.child)}`);
  if (d.note === 'upread') say.push(`<span class="tag">up-read</span> for ${childName(bus, d.child)}`);
  if (d.note === 'uperase') say.push(`<span class="tag">up-erase</span> of ${childName(bus, d.child)}`);
  if (d.joined.length) say.push('joined: ' + d.joined.map(c => childName(bus, c)).join(', '));
  if (d.answering) say.push('<span class="tag">answering</span>');
  return say.join(' · ');
}
