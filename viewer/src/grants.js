// What a bus granted, in a sentence: by its kind, where it came from and where it went; and what a stale load is.

function grantWords(turn, name) {
  const a = turn.answer, from = a.indexOf('from'), to = a.indexOf('to');
  const source = a[from + 1] === 'child' ? childName(turn.bus, turn.child) : a[from + 1];
  const taker = a[to + 1] === 'child' ? childName(turn.bus, Number(a[to + 2])) : a[to + 1];
  const down = source === 'parent', up = parentName(turn.bus), takes = GRANTS[a[1]];
  return takes({bus: turn.bus, name, from: down ? up : source, to: taker, down, up, readers: readersOf(turn)});
}

const GRANTS = {
  read({bus, name, from, to, down, up}) {
    const asks = down ? `A read of ${name} came down to bus ${bus}` : `${cap(from)} asks for ${name}`;
    if (to === 'joined') {
      return `The read of ${from} joins one of ${name} that is under way: one answer will serve both.`;
    }
    if (to === 'parent') return `${asks}, and the read goes up to ${up}.`;
    if (to === 'parking') return `${asks}: the copy that is parked at bus ${bus} answers it.`;
    return `${asks}: ${to} has it, and is to answer.`;
  },
  data({name, from, to, down, up, readers}) {
    if (to === 'parent') return `The reply of ${from} goes up to ${up}.`;
    const takers = to === 'readers' ? readers : to;
    return down ? `${cap(name)} comes down to ${takers}.` : `${cap(from)} gives ${name} to ${takers}.`;
  },
  erase({bus, name, from, down}) {
    return down ? `The erase of ${name} has come down to bus ${bus}: all copies there are told to end.`
      : `${cap(from)} is to be the only one with ${name}: all other copies on bus ${bus} are told to end.`;
  },
  exclusive: ({name, to}) => `${cap(to)} is told that it has the only copy of ${name}.`,
  out({bus, name, from, to}) {
    return to === 'gone' ? `The shared copy of ${name} in ${from} is dropped: there is another on bus ${bus}.`
      : `The shared copy of ${name} leaves ${from}, and is parked at bus ${bus}.`;
  },
  inject({bus, name, from, to, down, readers}) {
    const comes = down ? `A last copy of ${name} came down` : `The last copy of ${name} leaves ${from}`;
    if (to === 'parking') return `${comes}: nobody has room, so it is parked at bus ${bus}.`;
    return to === 'readers' ? `${comes}: ${readers} waited for it.` : `${comes}, and ${to} takes it.`;
  },
};

// the children of the bus of which the turn changed something, but for the one that it was taken from
function takers(turn) {
  const found = new Set();
  for (const {what, numbers: [number]} of changesOf(turn)) {
    const child = film.buses[turn.bus].kids.findIndex(kid =>
      kid.leaf !== undefined ? (what === 'entry' || what === 'buffer') && kid.leaf === number
        : what === 'down' && kid.bus === number);
    if (child >= 0) found.add(child);
  }
  if (turn.answer[turn.answer.indexOf('from') + 1] === 'child') found.delete(turn.child);
  return [...found].sort((x, y) => x - y);
}

const readersOf = turn => together(takers(turn).map(child => film.buses[turn.bus].kids[child]));

// ---- a stale load

// the down lists between the top and a leaf in which an erase of the item waits
function erasesAbove(leaf, item) {
  const found = [];
  for (let bus = film.leaves[leaf].bus; bus !== null; bus = film.buses[bus].parent) {
    if (machine.downList(bus).some(entry => entry.kind === 'erase' && entry.item === item)) found.push({bus});
  }
  return found;
}

// whether an entry of a list is why the present turn's load is stale
function isWhyStale(entry, key) {
  const turn = film.turns[machine.at];
  return Boolean(turn && turn.op && turn.op.stale) && entry.kind === 'erase' && entry.item === turn.item
    && erasesAbove(turn.op.hart, turn.item).some(({bus}) => key === 'down ' + bus);
}

// the first turn after an operation in which its leaf loses its copy of the item, or none
function losesCopy(op) {
  const key = `entry ${op.hart} ${op.item}`;
  return film.turns.find(turn => turn.number > op.turn && turn.changes.some((part, k) =>
    k % 3 === 0 && film.keys[part] === key && turn.changes[k + 2] === ''));
}

// [what happened, how it could, why it is legal]
function staleWords(op) {
  const store = op.stale, ago = op.turn - store.turn, waits = erasesAbove(op.hart, op.item);
  const how = waits.length
    ? `Before that store, every other copy was sent an erase (an invalidate). The one for leaf ${op.hart}`
      + ` still waits in the down list of ${together(waits)}, ringed in the picture`
    : `Leaf ${op.hart} hasn’t heard of that store yet`;
  return [
    `An old value: hart ${store.hart} stored ${shortWord(store.effect[3])} here in turn ${store.turn}, ${ago}`
      + ` ${plural(ago, 'turn')} ago.`,
    `${how}. So leaf ${op.hart} reads its own copy.`,
    `This is legal: in the one order of all instructions this load comes before that store, since its key`
      + ` ${op.key} is less than ${store.key}. Under “Order” its line crosses others.`,
  ];
}
