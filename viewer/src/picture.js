// The picture of the tree: boxes that differ are filled anew; the way of what a bus granted is drawn.

function drawPicture() {
  const turn = film.turns[machine.at];
  for (const b of picture.boxes) {
    const now = turn && (turn.kind === 'h' ? b.about.leaf === turn.hart : b.about.bus === turn.bus && false);
    const html = b.fill();
    if (html !== b.shown) { b.box.innerHTML = html; b.shown = html; }
    b.box.classList.toggle('now', !!now);
    b.box.classList.toggle('chosen', b.about.leaf !== undefined ? ui.place.leaf === b.about.leaf
      : ui.place.bus === b.about.bus);
    const e = b.about.leaf !== undefined ? machine.entry(b.about.leaf, ui.item) : null;
    b.box.setAttribute('aria-label', b.about.leaf !== undefined
      ? `leaf ${b.about.leaf}, ${itemName(ui.item)}: ${e ? STATE_WORDS[e.state] : 'nothing'}`
      : `${parentName(b.about.bus)}, bus ${b.about.bus}`);
  }
  film.buses.forEach(({bus}) => {
    const on = turn && turn.kind !== 'h' && turn.bus === bus;
    picture.bar[bus].line.setAttribute('class', 'bar'
      + (on && turn.answer[0] === 'granted' ? ' now' : on && turn.answer[0] === 'busy' ? ' busy' : on ? ' now'
      : ''));
    const label = picture.labels[bus];
    if (label) {
      label.innerHTML = `<b>bus ${bus}</b>${picture.mode === 'small' ? ''
        : ' moment'} ${machine.value('time ' + bus)}${picture.mode === 'big' ? behind(bus) : ''}`;
      keepInside(label);
    }
  });
  const {address} = film.items[ui.item];
  $('#caption').innerHTML = `<b>${escapeText(itemName(ui.item))}</b> `
    + `<span class="mono">${address.toString(16)}</span><br>★ its current copy`;
  drawMoves(turn);
}

// a label that would reach out at the right goes to the left
function keepInside(label) {
  label.style.marginLeft = 0;
  const over = label.offsetLeft + label.offsetWidth - picture.width;
  if (over > 0) label.style.marginLeft = -over + 'px';
}

// how many grants of the bus above this bus hasn't heard of
function behind(bus) {
  if (bus === 0) return '';
  const above = film.buses[bus].parent, last = text => Number(text.split('.').pop());
  const n = last(machine.value('time ' + above)) - last(machine.value('time ' + bus).replace(/\.\d+$/, ''));
  return n > 0 ? `<span title="grants of bus ${above} that this bus hasn’t heard of">, ${n} behind bus`
    + ` ${above}</span>` : '';
}

// the way of what a bus granted, from where it was taken to where it went
function drawMoves(turn) {
  const moves = document.querySelector('#moves');
  moves.replaceChildren();
  picture.paths = [];
  if (!turn || turn.kind === 'h' || turn.answer[0] !== 'granted') return;
  const a = turn.answer, kind = a[1], bus = turn.bus, bar = picture.bar[bus];
  const kidAt = child => {
    const kid = film.buses[bus].kids[child];
    return kid.leaf !== undefined ? picture.leaf[kid.leaf] : picture.dir[kid.bus];
  };
  const parent = picture.dir[bus];
  const source = a[a.indexOf('from') + 1], to = a.indexOf('to'), taker = a[to + 1];
  const start = source === 'child' ? [kidAt(turn.child).x, kidAt(turn.child).top] : [parent.x, parent.bottom];
  const ends = taker === 'child' ? [Number(a[to + 2])].map(c => [kidAt(c).x, kidAt(c).top])
    : taker === 'all' || taker === 'readers' ? takers(turn).map(c => [kidAt(c).x, kidAt(c).top])
    : taker === 'gone' ? [] : [[parent.x, parent.bottom]];
  if (source === 'parent' && taker === 'parking') return;
  const draw = (from, end) => {
    const d = end ? `M ${from[0]} ${from[1]} L ${from[0]} ${bar.y} L ${end[0]} ${bar.y} L ${end[0]} ${end[1]}`
      : `M ${from[0]} ${from[1]} L ${from[0]} ${bar.y}`;
    moves.append(svg('path', {class: 'halo', d}));
    const path = svg('path', {class: kind, d});
    moves.append(path);
    if (end) {
      const tip = end[1] > bar.y ? 1 : -1, w = Math.max(5, picture.em * .42);
      moves.append(svg('polygon',
        {class: kind, points: `${end[0]},${end[1]} ${end[0] - w},${end[1] - tip * w * 1.7} ${end[0]
          + w},${end[1] - tip * w * 1.7}`}));
      path.setAttribute('d', `M ${from[0]} ${from[1]} L ${from[0]} ${bar.y} L ${end[0]} ${bar.y} L ${end[0]}`
        + ` ${end[1] - tip * w * 1.6}`);
    }
    picture.paths.push({path, kind});
  };
  if (ends.length === 0) draw(start, null); else ends.forEach(end => draw(start, end));
}

// tokens go along the ways, once
let tokens = 0;
function animateMoves(duration) {
  const moves = document.querySelector('#moves'), mine = ++tokens;
  if (!picture.paths || matchMedia('(prefers-reduced-motion: reduce)').matches) return;
  const all = picture.paths.map(({path, kind}) => {
    const g = svg('g', {class: 'token ' + kind});
    g.append(svg('circle', {r: Math.max(7, picture.em * .55)}));
    moves.append(g);
    return {g, path, length: path.getTotalLength()};
  });
  if (!all.length) return;
  const begin = performance.now();
  const step = now => {
    if (mine !== tokens) return;
    const part = Math.min(1, (now - begin) / duration);
    const eased = part < .5 ? 2 * part * part : 1 - (2 - 2 * part) ** 2 / 2;
    for (const {g, path, length} of all) {
      const p = path.getPointAtLength(eased * length);
      g.setAttribute('transform', `translate(${p.x},${p.y})`);
    }
    if (part < 1) requestAnimationFrame(step); else all.forEach(({g}) => g.remove());
  };
  step(begin);
}
