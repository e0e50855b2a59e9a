// Tab 1: instructions as they were completed, and in the one order, with lines between the two.

// ---- the witness: operations as they were completed, and in the one order, with lines between the two

function effectWords(op) {
  const [what, address, a, b] = op.effect;
  const at = address && what !== 'put' ? addressName(parseInt(address, 16)) : '';
  switch (what) {
    case 'plain': return instructionAt(op.pc);
    case 'put': return `put ${address}`;
    case 'load': return `load ${at} = ${shortWord(a)}`;
    case 'lr': return `lr ${at} = ${shortWord(a)}`;
    case 'scfail': return `sc ${at} failed`;
    default: return `${{store: 'store', scok: 'sc', amo: 'amo'}[what]} ${at}: ${shortWord(a)} → ${shortWord(b)}`;
  }
}

function drawOrder(pane) {
  if (pane.dataset.tab !== 'order') {
    pane.innerHTML = `<div id="order"><div id="orderhead"><label>`
      + `<input type="checkbox" id="onlymemory"> memory only</label><label>`
      + `<input type="checkbox" id="onlyitem"> chosen item only</label>`
      + `<span class="soft" id="ordercount"></span></div><div id="orderbody"></div></div>`;
    pane.dataset.tab = 'order'; pane.shown = null;
    for (const [id, name] of [['onlymemory', 'onlyMemory'], ['onlyitem', 'onlyItem']]) {
      const box = pane.querySelector('#' + id);
      box.checked = ui[name];
      box.addEventListener('change', () => { ui[name] = box.checked; drawOrder(pane); });
    }
  }
  const body = pane.querySelector('#orderbody');
  const em = parseFloat(getComputedStyle(pane).fontSize), rowHeight = 1.75 * em, head = 1.3 * em;
  const width = body.clientWidth, rows = Math.max(3, Math.floor((body.clientHeight - head) / rowHeight));
  const count = machine.at < 0 ? 0 : film.opsUpTo[machine.at];
  const fits = op => (!ui.onlyMemory || op.item >= 0) && (!ui.onlyItem || op.item === ui.item);
  const time = [];
  for (let k = 0; k < count; k++) if (fits(film.ops[k])) time.push(film.ops[k]);
  const order = time.slice().sort((a, b) => a.rank - b.rank);
  pane.querySelector('#ordercount').textContent = `${time.length} of ${count} completed instructions`;
  body.replaceChildren();
  if (!time.length) {
    body.append(el('p', {class: 'soft'}, 'No instruction of this kind is complete yet.'));
    return;
  }
  const newest = time[time.length - 1];
  const placeInOrder = order.indexOf(newest);
  const timeFirst = Math.max(0, time.length - rows);
  const orderFirst = Math.max(0, Math.min(order.length - rows, placeInOrder - Math.floor(rows / 2)));
  const timeWidth = 3.9 * em, gutter = Math.min(5 * em, width * .16), orderLeft = timeWidth + gutter;
  const caption = (left, text) => {
    const e = el('div', {class: 'caption'}, text);
    e.style.left = left + 'px';
    body.append(e);
  };
  caption(0, 'by turn'); caption(orderLeft, 'in the one order (by key)');
  const y = row => head + row * rowHeight;
  const links = svg('svg', {width, height: body.clientHeight, 'aria-hidden': 'true'});
  links.style.clipPath = `inset(${head}px -9px 0 -9px)`;
  body.append(links);
  const inTime = new Map(time.map((op, k) => [op, k])), inOrder = new Map(order.map((op, k) => [op, k]));
  const shown = new Set([...time.slice(timeFirst, timeFirst + rows),
    ...order.slice(orderFirst, orderFirst + rows)]);
  for (const op of shown) {
    const a = inTime.get(op) - timeFirst, b = inOrder.get(op) - orderFirst;
    const clamp = n => Math.max(-1.2, Math.min(rows + .2, n));
    const y1 = y(clamp(a) + .5), y2 = y(clamp(b) + .5), x1 = timeWidth, x2 = orderLeft - 3;
    links.append(svg('path',
      {class: 'link' + (op.stale ? ' late' : '') + (op === newest ? ' newest' : ''),
        d: `M ${x1} ${y1} C ${x1 + gutter * .5} ${y1}, ${x2 - gutter * .5} ${y2}, ${x2} ${y2}`}));
  }
  time.slice(timeFirst, timeFirst + rows).forEach((op, k) => {
    const e = el('button', {class: 'opt'
      + (op !== newest ? '' : op.turn === machine.at ? ' newest' : ' recent'), title: 'go to turn ' + op.turn,
      onclick: () => goTo(op.turn)}, String(op.turn));
    Object.assign(e.style, {left: 0, top: y(k) + 'px', width: timeWidth - 4 + 'px', height: rowHeight - 3 + 'px'});
    body.append(e);
  });
  order.slice(orderFirst, orderFirst + rows).forEach((op, k) => {
    const e = el('button', {class: 'opo' + (op.item === ui.item ? ' mine' : '')
      + (op !== newest ? '' : op.turn === machine.at ? ' newest' : ' recent') + (op.stale ? ' stale' : ''),
      title: op.line + '\nturn ' + op.turn, onclick: () => goTo(op.turn)},
      el('span', {class: 'who'}, `hart ${op.hart}`), el('span', {class: 'what'}, effectWords(op)), op.stale
        ? el('span', {class: 'flag'}, 'stale') : null,
      el('span', {class: 'key mono'}, op.key));
    Object.assign(e.style, {left: orderLeft + 'px', top: y(k) + 'px', width: width - orderLeft + 'px',
      height: rowHeight - 3 + 'px'});
    body.append(e);
  });
}
