// The tabs at the side.

const PANES = {order: drawOrder, place: drawPlace, program: drawProgram, items: drawItems, traffic: drawTraffic};

function drawPane() {
  const pane = document.querySelector('#pane');
  document.querySelectorAll('#tabs [role="tab"]')
    .forEach(tab => tab.setAttribute('aria-selected', String(tab.dataset.tab === ui.tab)));
  PANES[ui.tab](pane);
}

// put in only where it differs, so that what is scrolled stays
function show(pane, html) {
  if (pane.dataset.tab !== ui.tab || pane.shown !== html) {
    const top = pane.dataset.tab === ui.tab ? pane.scrollTop : 0;
    pane.innerHTML = html;
    pane.shown = html;
    pane.dataset.tab = ui.tab;
    pane.scrollTop = top;
  }
}
