// What is in the box of a directory and of a leaf.

function fillDir(bus, mode, px) {
  const d = machine.dir(bus, ui.item), top = bus === 0, s = film.sizes;
  const down = machine.downList(bus);
  const requests = machine.requests(bus);
  const replies = machine.copies('replies ' + bus, 'data');
  const parked = machine.copies('parked ' + bus, 'parked');
  const copy = machine.current(ui.item), star = copy.bus === bus;
  if (mode === 'small' && px < 34) {
    const dots = [...down, ...requests, ...replies, ...parked].filter(e => e.item === ui.item)
      .map(e => `<i class="dot ${e.kind}" title="${e.kind}"></i>`).join('');
    return tile(d.hold, star ? 'current' : '', 'holds ' + d.hold)
      + `<div class="dots">${d.note || d.answering
      ? '<i class="dot note" title="' + (d.note || 'answering') + '"></i>' : ''}${dots}</div>`;
  }
  if (mode === 'small') {
    const mine = list => list.filter(e => e.item === ui.item)
      .map(e => e.kind === 'parked' ? '<span class="chip parked me">pk</span>' : chip(e, false, true)).join('');
    const others = down.length + requests.length + replies.length + parked.length;
    const signs = mine(down) + mine(requests) + mine(replies) + mine(parked);
    return tile(d.hold, star ? 'current' : '', 'holds ' + d.hold)
      + `<div class="marks">${d.note ? '<b title="' + d.note + '">●</b>' : ''}${d.answering
      ? '<b title="answering">◆</b>' : ''}${signs}</div><div class="nr">${top ? 'top' : bus}${others
      ? ' · ' + others : ''}</div>`;
  }
  const name = top ? 'the top' : (mode === 'big' ? 'directory ' : 'dir ') + bus;
  const holds = top ? '' : tile(d.hold, star ? 'current' : '', 'what this directory holds of the item');
  const note = noteWords(bus, d);
  if (mode === 'mid') {
    const way = (sign, entries, key) => entries.length
      ? `<span class="sign">${sign}</span>${chips(entries, key, 2, true)}` : '';
    const ways = way('▼', down, 'down ' + bus) + way('▲', requests, 'requests ' + bus)
      + way('▲', replies, 'replies ' + bus) + way('▣', parked, 'parked ' + bus);
    return `<div class="head"><b>${name}</b><span class="fill"></span>${holds}</div>`
      + `<div class="note">${note}</div><div class="ways">${ways}</div>`;
  }
  const head = `<div class="head"><b>${name}</b>${top ? '<span>holds every item</span>' : holds}`
    + `<span class="note">${note}</span></div>`;
  if (top) {
    return head + `<div class="sends">${down.length ? '<span class="soft">▼</span>' + chips(down, 'down 0', 3)
      : ''}</div>`;
  }
  const room = 4;
  const kept = Number(machine.value('kept ' + bus)) || 0;
  const asks = listBox('▲ requests', requests, 'requests ' + bus, s.requests, '', parked.length || kept ? 1
    : room, false);
  const park = parked.length || kept
    ? listBox('parked' + (kept ? `, ${kept} kept` : ''), parked, 'parked ' + bus, s.parking, '', 2, false) : '';
  return head + '<div class="lists">' + listBox('▼ down', down, 'down ' + bus, s.down, 'downward', room, false)
    + (park ? `<div style="display:grid;gap:.2em;min-height:0">${asks}${park}</div>` : asks)
    + listBox('▲ replies', replies, 'replies ' + bus, s.replies, '', room, false) + '</div>';
}

function wordTexts(words, old, most) {
  return words.slice(0, most)
    .map((w, n) => `<span class="mono${old && old[n] !== w ? ' new' : ''}">${w}</span>`).join(' ')
    + (words.length > most ? ' …' : '');
}

// the entry before the present turn
function entryBefore(leaf, item) {
  const turn = film.turns[machine.at];
  if (!turn || turn.changes.length === 0) return undefined;
  for (let k = 0; k < turn.changes.length; k += 3) {
    if (film.keys[turn.changes[k]] === `entry ${leaf} ${item}`) {
      const w = turn.changes[k + 1].split(' ');
      return w[0] ? {state: w[0], words: w.slice(2)} : null;
    }
  }
  return undefined;
}

function fillLeaf(leaf, mode, wide) {
  const e = machine.entry(leaf, ui.item), copy = machine.current(ui.item), star = copy.leaf === leaf;
  const slot = machine.slot(leaf);
  const replies = machine.copies('leafreplies ' + leaf, 'data');
  const halt = machine.halt(leaf);
  const title = e ? STATE_WORDS[e.state] : 'nothing';
  const slotChip = slot ? chip({...slot, words: []}, isFresh('slot ' + leaf), mode !== 'big') : '';
  if (mode === 'small') {
    const sign = slot ? (slot.item === ui.item ? chip({...slot, words: []}, false, true) : '·') : replies.length
      ? (replies.some(r => r.item === ui.item) ? '▲' : '·') : halt ? '■' : '';
    return tile(e && e.state, star ? 'current' : '', title)
      + `<div class="marks">${sign}</div><div class="nr">${leaf}</div>`;
  }
  const before = entryBefore(leaf, ui.item);
  const old = before && before.words.length ? before.words : before === null || before ? [] : null;
  const replyChips = replies.length ? chips(replies, 'leafreplies ' + leaf, 2, mode !== 'big') : '';
  const sends = (slot || replies.length ? '<span>▲</span>' : '') + slotChip + replyChips;
  const words = e && e.words.length ? wordTexts(e.words, old, mode === 'big' ? wide > 17 ? 4 : 2 : 1) : '';
  const where = !e || wide < 15 ? '' : e.way >= 0 ? 'way ' + e.way : 'buffer ' + e.place;
  const reserved = machine.value('reserved ' + leaf);
  const flag = reserved === '' ? ''
    : `<span title="reserves ${escapeText(itemName(Number(reserved)))}">⚑${mode === 'big' && wide > 19
    ? ' ' + escapeText(itemName(Number(reserved))) : ''}</span>`;
  const head = mode === 'big'
    ? `<div class="head"><b>leaf ${leaf}</b><span>${where}</span>${flag}<span class="fill"></span>${sends}</div>`
    : `<div class="sends">${sends}</div><div class="head"><b>leaf ${leaf}</b>${flag}</div>`;
  const minis = ui.active.filter(x => x !== ui.item)
    .slice(0, mode === 'big' ? Math.max(1, Math.floor(wide / 5.2)) : Math.max(1, Math.floor(wide / 2))).map(x => {
    const other = machine.entry(leaf, x);
    return `<span class="mini" data-item="${x}" title="${escapeText(itemName(x))}: choose`
      + ` it">${tile(other && other.state)}${mode === 'big' ? escapeText(itemName(x)) : ''}</span>`;
  }).join('');
  const pc = machine.pc(leaf);
  const waits = halt ? undefined
    : ui.active.find(x => { const other = machine.entry(leaf, x); return other && other.words.length === 0
    || other && other.state === 'W'; });
  const state = halt ? `<b>${escapeText(halt)}</b>` : waits !== undefined && wide < 21
    ? `<b>waits for ${escapeText(itemName(waits))}</b>`
    : `<b>hart ${leaf}${waits === undefined ? ''
    : ` waits for ${escapeText(itemName(waits))}`}</b> ${escapeText(instructionAt(pc))}`;
  const shortState = halt ? `<b>${escapeText(halt)}</b>`
    : escapeText(instructionAt(pc).split(' ')[0]) + (waits === undefined ? '' : ' <b>waits</b>');
  return head + `<div class="row">${tile(e && e.state, 'big ' + (star ? 'current' : ''), title)}`
    + `<div class="words">${words}${mode === 'big'
    ? `<div class="says">${STATES_SHORT[e ? e.state : '-']}</div>` : ''}</div></div>`
    + `<div class="minis">${minis}</div><div class="instr mono">${mode === 'big' ? state : shortState}</div>`;
}
