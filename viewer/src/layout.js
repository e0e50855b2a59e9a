// Where the boxes of leaves and directories are, and the wires between them.
// A box is big, mid or small, by the width that a leaf has.

const picture = {boxes: [], labels: [], width: 0, height: 0};

function layOut() {
  sizeLanes();
  const room = document.querySelector('#tree'), stage = document.querySelector('#stage');
  const W = room.clientWidth, H = room.clientHeight, leaves = film.leaves.length;
  const per = (W - 16) / leaves;
  const mode = per >= 150 ? 'big' : per >= 62 ? 'mid' : 'small';
  const rows = {big: {top: 3.6, dir: 7.7, leaf: 8.2, gap: 1.9}, mid: {top: 3.6, dir: 6.2, leaf: 9.2, gap: 1.7},
    small: {top: 3.6, dir: 4.8, leaf: 3.7, gap: 1.6}}[mode];
  const units = rows.top + (film.depth - 1) * rows.dir + rows.leaf + film.depth * 2 * rows.gap + .8;
  // px of one em that a leaf's text allows
  const widest = {big: per / 11.5, mid: per / 5.4, small: per / 1.72}[mode];
  const em = Math.max(10, Math.min(H / units, {big: 26, mid: 20, small: 16}[mode], mode === 'small' ? 16
    : Math.max(widest, 10)));
  const leafEm = Math.max(8, Math.min(em, widest));
  stage.style.fontSize = em + 'px';
  const leafHeight = mode === 'small' ? rows.leaf * leafEm : rows.leaf * em;
  const boxes = rows.top * em + (film.depth - 1) * rows.dir * em + leafHeight, gaps = 2 * film.depth;
  const height = Math.max(H, boxes + gaps * rows.gap * em + .8 * em);
  const gap = Math.min((height - boxes - .8 * em) / gaps, 3.6 * em);
  let y = Math.max(.4 * em, (height - boxes - gaps * gap) / 2);
  const levels = [];      // y of the directories over each level, of its bus
  for (let level = 0; level < film.depth; level++) {
    const h = (level === 0 ? rows.top : rows.dir) * em;
    levels.push({dir: y, dirHeight: h, bus: y + h + gap});
    y += h + 2 * gap;
  }
  const leafTop = y;
  stage.style.width = W + 'px';
  stage.style.height = height + 'px';
  // leaves are side by side; a directory is over the middle of its own
  const x0 = 8, middle = {leaf: leaves === 0 ? [] : film.leaves.map((_, n) => x0 + per * (n + .5)), bus: []};
  const span = [];
  for (let bus = film.buses.length - 1; bus >= 0; bus--) {
    const kids = film.buses[bus].kids;
    const firsts = kids.map(kid => kid.leaf !== undefined
      ? [middle.leaf[kid.leaf] - per / 2, middle.leaf[kid.leaf] + per / 2] : span[kid.bus]);
    span[bus] = [firsts[0][0], firsts[firsts.length - 1][1]];
    middle.bus[bus] = (span[bus][0] + span[bus][1]) / 2;
  }
  Object.assign(picture, {mode, em, per, levels, leafTop, leafHeight, middle, span, width: W, height, boxes: [],
    labels: [], seen: []});
  stage.querySelectorAll('.box, .buslabel').forEach(e => e.remove());
  const wires = stage.querySelector('#wires');
  wires.replaceChildren();
  wires.setAttribute('width', W); wires.setAttribute('height', height);
  const moves = stage.querySelector('#moves');
  moves.setAttribute('width', W); moves.setAttribute('height', height);
  picture.dir = []; picture.leaf = []; picture.bar = [];
  for (const {bus, level, kids} of film.buses) {
    const {dir, dirHeight, bus: barY} = levels[level];
    const share = span[bus][1] - span[bus][0] - Math.min(10, per * .12);
    const width = level === 0 ? Math.min(26 * em, W - 16) : Math.min(share, 28 * em);
    const dirMode = level === 0 || width >= 17 * em ? 'big' : width >= 7.2 * em ? 'mid' : 'small';
    picture.dir[bus] = {x: middle.bus[bus], top: dir, bottom: dir + dirHeight, width, mode: dirMode};
    const at = kids.map(kid => kid.leaf !== undefined ? middle.leaf[kid.leaf] : middle.bus[kid.bus]);
    const reach = Math.min(1.3 * em, share * .36);
    const [left, right] = [Math.min(at[0], middle.bus[bus]) - (kids.length === 1 ? reach : 0),
      Math.max(at[at.length - 1], middle.bus[bus]) + (kids.length === 1 ? reach : 0)];
    wires.append(svg('line',
      {class: 'wire', x1: middle.bus[bus], y1: dir + dirHeight, x2: middle.bus[bus], y2: barY}));
    kids.forEach((kid, n) =>
      wires.append(svg('line',
        {class: 'wire', x1: at[n], y1: barY, x2: at[n], y2: kid.leaf !== undefined ? leafTop
          : levels[level + 1].dir})));
    const bar = svg('line', {class: 'bar', x1: left, y1: barY, x2: right, y2: barY});
    wires.append(bar);
    picture.bar[bus] = {y: barY, left, right, line: bar};
    if (dirMode !== 'small' || film.buses.length < 12) {
      const label = el('div', {class: 'buslabel'});
      label.style.left = (kids.length === 1 ? middle.bus[bus] + .5 * em : left + .3 * em) + 'px';
      label.style.top = barY - 1.55 * em + 'px';
      stage.append(label);
      picture.labels[bus] = label;
    }
    const box = el('div', {class: `box dir ${dirMode}`, tabindex: 0, role: 'button', 'data-bus': bus});
    place(box, middle.bus[bus] - width / 2, dir, width, dirHeight);
    if (dirMode === 'small') box.style.fontSize = Math.min(em, width / (width < 34 ? 1.75 : 2.6)) + 'px';
    stage.append(box);
    picture.boxes.push({box, fill: () => fillDir(bus, dirMode, width), shown: null, about: {bus}});
  }
  film.leaves.forEach((_, leaf) => {
    const width = Math.min(per - Math.max(2, Math.min(14, per * .09)), 25 * em);
    picture.leaf[leaf] = {x: middle.leaf[leaf], top: leafTop, bottom: leafTop + leafHeight, width, mode};
    const box = el('div', {class: `box leaf ${mode}`, tabindex: 0, role: 'button', 'data-leaf': leaf});
    place(box, middle.leaf[leaf] - width / 2, leafTop, width, leafHeight);
    box.style.fontSize = leafEm + 'px';
    stage.append(box);
    picture.boxes.push({box, fill: () => fillLeaf(leaf, mode, width / leafEm), shown: null, about: {leaf}});
  });
}

function place(box, left, top, width, height) {
  Object.assign(box.style, {left: left + 'px', top: top + 'px', width: width + 'px', height: height + 'px'});
}
