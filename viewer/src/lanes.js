// The lanes: turns go from left to right, a lane for each hart and each bus.

const lanes = {zoom: 0, first: 0};
const AXIS = 13;        // px of the row of numbers above the lanes

function laneColors() {
  const style = getComputedStyle(document.documentElement), colors = {};
  for (const name of ['ink', 'soft', 'line', 'faint', 'panel', 'blue', 'orange', 'red', 'pink', 'grey', 'mark']) {
    colors[name] = style.getPropertyValue('--' + name).trim();
  }
  return colors;
}

function laneGeometry() {
  const canvas = document.querySelector('#lanecanvas'), box = document.querySelector('#lanebox');
  const count = film.leaves.length + film.buses.length, label = 58;
  const width = box.clientWidth;
  const most = Math.round(innerHeight * (document.body.classList.contains('tall') ? .52 : .23));
  const lane = Math.max(count > 40 ? 5 : 8, Math.min(22, Math.floor((most - AXIS - 4) / count)));
  const total = ui.sequence.length, w = width - label - 6;
  const fit = w / Math.max(1, total), px = lanes.zoom === 0 ? fit : Math.max(fit, lanes.zoom);
  const visible = Math.min(total, Math.ceil(w / px));
  return {canvas, box, count, label, width, lane, total, w, px, visible};
}

// the lanes take their height before the tree takes the rest
function sizeLanes() {
  const g = laneGeometry();
  g.canvas.style.height = g.count * g.lane + AXIS + 2 + 'px';
}

function laneFirst(g) {
  if (g.visible >= g.total) return 0;
  const at = ui.position - 1;
  let first = lanes.first;
  if (at < first + g.visible * .15 || at > first + g.visible * .8) first = Math.round(at - g.visible * .45);
  return Math.max(0, Math.min(g.total - g.visible, first));
}

// What is the same from turn to turn is painted once and kept; the line of the present turn is put over it.
function drawLanes() {
  const g = laneGeometry(), {canvas, label, lane, px} = g;
  if (g.width === 0) { lanes.density = null; drawDensity(laneColors()); return; }      // the lanes are hidden
  lanes.first = laneFirst(g);
  const ratio = devicePixelRatio || 1, height = g.count * lane + AXIS + 2;
  const colors = laneColors();
  const same = [ui.item, ui.shown, g.total, px, lanes.first, g.width, lane, ratio, colors.ink].join();
  if (lanes.same !== same || lanes.film !== film) {
    lanes.kept = document.createElement('canvas');
    lanes.kept.width = Math.round(g.width * ratio); lanes.kept.height = Math.round(height * ratio);
    paintLanes(lanes.kept.getContext('2d'), g, colors, ratio);
    lanes.same = same; lanes.film = film; lanes.density = null;
  }
  canvas.style.height = height + 'px';
  canvas.width = lanes.kept.width; canvas.height = lanes.kept.height;
  const c = canvas.getContext('2d');
  c.drawImage(lanes.kept, 0, 0);
  c.scale(ratio, ratio);
  if (ui.position > 0) {
    const cx = label + (ui.position - 1 - lanes.first) * px + px / 2;
    const text = String(film.turns[machine.at].number);
    c.font = 'bold 11px system-ui, sans-serif'; c.textAlign = 'center'; c.textBaseline = 'middle';
    const half = c.measureText(text).width / 2 + 4, mid = Math.max(label + half, Math.min(label + g.w - half, cx));
    c.fillStyle = colors.ink; c.fillRect(cx - 1, AXIS - 1, 2, height); c.fillRect(mid - half, 0, 2 * half, AXIS);
    c.fillStyle = colors.panel; c.fillText(text, mid, AXIS / 2 + .5);
  }
  const turn = film.turns[machine.at];
  if (turn && height > g.box.clientHeight) {
    const y = (turn.kind === 'h' ? turn.hart : film.leaves.length + turn.bus) * lane + AXIS;
    if (y < g.box.scrollTop || y + lane > g.box.scrollTop + g.box.clientHeight) {
      g.box.scrollTop = Math.max(0, y - g.box.clientHeight / 2);
    }
  }
  if (!lanes.density) drawDensity(colors);
}
