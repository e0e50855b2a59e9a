// Paints the lanes, and the strip behind the slider.

function paintLanes(c, g, colors, ratio) {
  const {label, lane, px} = g, first = lanes.first, last = Math.min(g.total, first + g.visible + 1);
  c.scale(ratio, ratio);
  c.font = `${Math.max(9, Math.min(13, lane - 2))}px system-ui, sans-serif`;
  c.textBaseline = 'middle';
  const seq = ui.sequence;
  const x = place => label + (place - first) * px;
  // the place of the first shown turn that isn't before this one
  const placeOf = turn => {
    let low = 0, high = seq.length;
    while (low < high) {
      const mid = (low + high) >> 1;
      if (seq[mid] < turn) low = mid + 1;
      else high = mid;
    } return low;
  };
  const row = (index, name, runs, paint) => {
    const y = index * lane + AXIS;
    c.fillStyle = index % 2 ? colors.panel : colors.faint;
    c.globalAlpha = .6; c.fillRect(label, y, g.w, lane); c.globalAlpha = 1;
    if (lane >= 9 || index % 3 === 0) {
      c.fillStyle = colors.soft;
      c.textAlign = 'right';
      c.fillText(name, label - 6, y + lane / 2);
    }
    for (let n = 0; n < runs.length; n++) {
      const from = runs[n][0] < 0 ? 0 : placeOf(runs[n][0]);
      const to = n + 1 < runs.length ? placeOf(runs[n + 1][0]) : g.total;
      if (runs[n][1] === '-' || to <= first || from >= last) continue;
      const x1 = Math.max(label, x(from)), x2 = Math.min(label + g.w, Math.max(x(to), x(from) + 1));
      if (x2 > x1) paint(runs[n][1], x1, y, x2 - x1);
    }
  };
  const pad = lane >= 14 ? 3 : 1;
  const leafPaint = (state, x1, y, w) => {
    const h = lane - 2 * pad, t = y + pad;
    if (state === 'S' || state === 'W') {
      c.fillStyle = colors.blue;
      c.globalAlpha = .62;
      c.fillRect(x1, t, w, h);
      c.globalAlpha = 1;
    }
    if (state === 'E') {
      c.fillStyle = colors.orange;
      c.globalAlpha = .8;
      c.fillRect(x1, t, w, h);
      c.globalAlpha = 1;
    }
    if (state === 'W' || state === 'B' || state === 'R') {
      c.fillStyle = state === 'R' ? colors.blue : colors.orange;
      const edge = Math.max(1.5, h * .18);
      for (let k = 0; k < w; k += 5) {
        c.fillRect(x1 + k, t, Math.min(3, w - k), edge);
        c.fillRect(x1 + k, t + h - edge, Math.min(3, w - k), edge);
      }
    }
    const room = 'RWB'.includes(state) ? px / 2 + 7 : 0;      // for the mark of the turn that asked
    if (w > 14 + room && lane >= 12) {
      c.fillStyle = colors.ink;
      c.textAlign = 'left';
      c.fillText(state, x1 + 3 + room, y + lane / 2);
    }
  };
  const busPaint = (state, x1, y, w) => {
    const h = Math.max(2, lane * .36), t = y + (lane - h) / 2;
    c.fillStyle = {erase: colors.red, note: colors.line, read: colors.blue, data: colors.blue,
      exclusive: colors.orange, inject: colors.pink}[state] || colors.line;
    c.fillRect(x1, t, w, h);
  };
  film.leaves.forEach(({leaf}) => row(leaf, 'hart ' + leaf, ui.runs.leaf[leaf], leafPaint));
  film.buses.forEach(({bus}) => row(film.leaves.length + bus, 'bus ' + bus, ui.runs.bus[bus], busPaint));
  // marks: those of other items first
  const wide = px >= 3;
  for (let pass = 0; pass < 2; pass++) {
    for (let k = first; k < last; k++) {
      const turn = film.turns[seq[k]], mine = turn.items.includes(ui.item);
      if (mine !== (pass === 1) || turn.idle) continue;
      const index = turn.kind === 'h' ? turn.hart : film.leaves.length + turn.bus;
      const y = index * lane + AXIS;
      const mid = y + lane / 2;
      const cx = x(k) + px / 2;
      const a = turn.answer, r = Math.max(1.6, Math.min(lane * .27, px * .42));
      if (turn.kind === 'h') {
        if (!mine) {
          c.fillStyle = colors.soft;
          c.globalAlpha = .45;
          c.fillRect(cx - .5, y + lane - Math.max(2, lane * .22), 1, Math.max(2, lane * .2));
          c.globalAlpha = 1;
          continue;
        }
        c.lineWidth = 1.4; c.strokeStyle = colors.ink; c.fillStyle = colors.ink;
        if (a[0] === 'retired') {
          const stores = EFFECTS_THAT_STORE.has(a[1]);
          if (turn.op && turn.op.stale) {
            c.fillStyle = colors.red;
            c.beginPath();
            c.moveTo(cx, mid - r * 1.7);
            c.lineTo(cx + r * 1.7, mid);
            c.lineTo(cx, mid + r * 1.7);
            c.lineTo(cx - r * 1.7, mid);
            c.closePath();
            c.fill();
            c.strokeStyle = colors.panel;
            c.stroke();
          }
          else if (!wide) c.fillRect(cx - .75, y + 2, 1.5, lane - 4);
          else if (stores) c.fillRect(cx - r, mid - r, 2 * r, 2 * r);
          else { c.beginPath(); c.arc(cx, mid, r, 0, 7); c.fillStyle = colors.panel; c.fill(); c.stroke(); }
        } else if (a[0] === 'issued') { c.beginPath();
        c.moveTo(cx - r, mid + r);
        c.lineTo(cx + r, mid + r);
        c.lineTo(cx, mid - r);
        c.closePath();
        c.fill();
        }
        else if (a[0] === 'busy') cross(c, cx, mid, r, colors.red);
      } else if (a[0] === 'granted') {
        c.fillStyle = mine ? {read: colors.blue, data: colors.blue, erase: colors.red, exclusive: colors.orange,
          inject: colors.pink, out: colors.grey}[a[1]] : colors.soft;
        c.globalAlpha = mine ? 1 : .4;
        const w = Math.max(1.5, Math.min(px * .8, 9)), h = mine ? lane - 2 : lane * .5;
        if (mine && a[1] === 'read' && w > 3) {
          c.strokeStyle = colors.blue;
          c.lineWidth = 1.6;
          c.fillStyle = colors.panel;
          c.fillRect(cx - w / 2, y + 1, w, h);
          c.strokeRect(cx - w / 2, y + 1, w, h);
        }
        else c.fillRect(cx - w / 2, mid - h / 2, w, h);
        c.globalAlpha = 1;
      } else if (a[0] === 'busy') { c.globalAlpha = mine ? 1 : .35;
      cross(c, cx, mid, r, colors.red);
      c.globalAlpha = 1;
      }
    }
  }
  c.font = '10px system-ui, sans-serif'; c.fillStyle = colors.soft; c.textAlign = 'center';
  const every = Math.max(1, Math.ceil(64 / px / 5) * 5);
  for (let k = Math.ceil(first / every) * every; k < last; k += every) {
    const cx = x(k) + px / 2;
    if (cx < label + 12 || cx > label + g.w - 14) continue;
    c.fillText(String(film.turns[seq[k]].number), cx, AXIS / 2); c.fillRect(cx - .5, AXIS - 2, 1, 2);
  }
}

function cross(c, x, y, r, color) {
  c.strokeStyle = color; c.lineWidth = 1.5;
  c.beginPath();
  c.moveTo(x - r, y - r);
  c.lineTo(x + r, y + r);
  c.moveTo(x + r, y - r);
  c.lineTo(x - r, y + r);
  c.stroke();
}

// under the slider: where the item is concerned, and where loads are stale
function drawDensity(colors) {
  const canvas = document.querySelector('#density');
  const ratio = devicePixelRatio || 1;
  const w = canvas.clientWidth;
  const h = canvas.clientHeight;
  canvas.width = w * ratio; canvas.height = h * ratio;
  const c = canvas.getContext('2d');
  c.scale(ratio, ratio);
  const total = ui.sequence.length;
  lanes.density = true;
  if (!total) return;
  const step = w / (total + 1);
  c.fillStyle = colors.blue;
  ui.sequence.forEach((n, k) => {
    const turn = film.turns[n];
    if (turn.idle || !turn.items.includes(ui.item)) return;
    c.globalAlpha = .75; c.fillRect((k + 1) * step - .5, h * .25, Math.max(1, step * .7), h * .5);
  });
  c.globalAlpha = 1; c.fillStyle = colors.red;
  ui.sequence.forEach((n, k) => {
    const {op} = film.turns[n];
    if (op && op.stale) c.fillRect((k + 1) * step - 1.5, 0, 3, h);
  });
  const g = laneGeometry();
  if (lanes.zoom && g.width > 0) {
    c.strokeStyle = colors.ink;
    c.globalAlpha = .5;
    c.lineWidth = 1.5;
    c.strokeRect((lanes.first + 1) * step, 1, Math.max(4, g.visible * step), h - 2);
    c.globalAlpha = 1;
  }
}

function laneTurnAt(event) {
  const g = laneGeometry(), r = g.canvas.getBoundingClientRect();
  const k = lanes.first + Math.floor((event.clientX - r.left - g.label) / g.px);
  return k < 0 || k >= g.total || event.clientX - r.left < g.label ? -1 : k;
}
