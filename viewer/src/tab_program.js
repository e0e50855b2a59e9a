// Tab 3: the program round the next instruction of a hart.

const BEFORE_PC = 14, BEHIND_PC = 20;      // how many instructions are shown

// of a turn of a hart, what it tries; else the next instruction of the chosen hart
function drawProgram(pane) {
  const turn = film.turns[machine.at], tries = turn && turn.kind === 'h', hart = tries ? turn.hart : ui.hart;
  before.moveTo(machine.at - 1);
  const pc = tries ? before.pc(hart) : machine.pc(hart), next = nextHarts(), rows = [];
  for (let address = pc - 4 * BEFORE_PC; address <= pc + 4 * BEHIND_PC; address += 4) {
    const word = address < 0 ? null : codeWord(address);
    if (word !== null) rows.push(instructionRow(address, word, address === pc, next.get(address) || []));
  }
  show(pane, `<h2>Hart ${hart}: ${tries ? 'what this turn tries' : 'its next instruction'}</h2>`
    + '<table class="listing"><tr><th>address</th><th>instruction</th><th>next here</th></tr>'
    + `${rows.join('')}</table><p class="soft">Words of the image, spelled by this page.</p>`);
  const here = pane.querySelector('.here');
  if (here) here.scrollIntoView({block: 'nearest'});
}

// for each address the running harts that go on there
function nextHarts() {
  const harts = new Map();
  for (const {leaf} of film.leaves) {
    if (machine.halt(leaf)) continue;
    const at = machine.pc(leaf);
    harts.set(at, (harts.get(at) || []).concat(leaf));
  }
  return harts;
}

function instructionRow(address, word, isHere, harts) {
  const name = nameOf(address), label = name ? `<b>${escapeText(name)}:</b> ` : '';
  const who = harts.length ? `${plural(harts.length, 'hart')} ${numberWords(harts)}` : '';
  return `<tr class="${isHere ? 'here' : ''}"><td class="mono">${hex(address)}</td>`
    + `<td class="mono">${label}${escapeText(disassemble(word | 0, address))}</td><td>${who}</td></tr>`;
}
