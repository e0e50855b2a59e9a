// Tab 5: what each bus has granted, so far and in the whole run.

const granted = traffic => KINDS.reduce((sum, kind) => sum + traffic[kind], 0);
const trafficWords = traffic =>
  KINDS.filter(kind => traffic[kind]).map(kind => `${kind} ${traffic[kind]}`).join(', ') || 'nothing';

function drawTraffic(pane) {
  const now = machine.traffic(), all = ui.traffic, most = Math.max(1, ...all.map(granted));
  const legend = KINDS.map(kind => `<span class="sw"><i class="${kind}"></i> ${kind}</span>`).join('');
  const bars = now.map((traffic, bus) => `<b>bus ${bus}</b>`
    + `<div class="track" role="img" aria-label="bus ${bus}: ${trafficWords(traffic)}">`
    + barText(all[bus], most, 'all') + barText(traffic, most, 'now') + '</div>'
    + `<span title="${trafficWords(traffic)}">${granted(traffic)} <span class="soft">of ${granted(all[bus])}</span></span>`);
  const rows = now.map((traffic, bus) => `<tr><td>${bus}</td>`
    + KINDS.map(kind => `<td>${traffic[kind]}<span class="soft">/${all[bus][kind]}</span></td>`).join('') + '</tr>');
  show(pane, '<p class="soft">What each bus has granted so far; pale, in the whole run.</p>'
    + `<p class="kinds">${legend}</p><div class="bars">${bars.join('')}</div>`
    + `<table><tr><th>bus</th>${KINDS.map(kind => `<th>${kind}</th>`).join('')}</tr>${rows.join('')}</table>`);
}

// a bar with a piece for each kind
function barText(traffic, most, name) {
  const pieces = KINDS.filter(kind => traffic[kind])
    .map(kind => `<i class="${kind}" style="flex:${traffic[kind]}" title="${kind} ${traffic[kind]}"></i>`);
  return `<div class="${name}" style="width:${100 * granted(traffic) / most}%">${pieces.join('')}</div>`;
}
