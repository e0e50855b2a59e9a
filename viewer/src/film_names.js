// What a film has names for: buses, leaves and items, and the items that each turn is about.

// buses breadth first, leaves from left to right, as the head's numbers of children say
function shapeTree(film) {
  film.buses = film.children.map((count, bus) => ({bus, level: 0, parent: null, kids: []}));
  film.leaves = [];
  let next = 1, level = [0];
  for (let depth = 0; depth < film.depth; depth++) {
    const below = [];
    for (const bus of level) {
      for (let child = 0; child < film.children[bus]; child++) {
        if (depth === film.depth - 1) {
          film.buses[bus].kids.push({leaf: film.leaves.length});
          film.leaves.push({leaf: film.leaves.length, bus, child});
        } else {
          film.buses[bus].kids.push({bus: next});
          Object.assign(film.buses[next], {level: depth + 1, parent: bus, child});
          below.push(next++);
        }
      }
    }
    level = below;
  }
}

// the item of an address, by its place in the table
function itemAt(film, address) {
  let low = 0, high = film.items.length - 1;
  while (low <= high) {
    const mid = (low + high) >> 1, first = film.items[mid].address;
    if (address < first) high = mid - 1;
    else if (address >= first + film.sizes.bytes) low = mid + 1;
    else return mid;
  }
  return -1;
}

// the item that a turn's answer names, and those whose parts it changed
function nameItems(film) {
  const itemOfKey = film.keys.map(key => {
    const w = key.split(' ');
    return w[0] === 'entry' || w[0] === 'dir' ? Number(w[2]) : w[0] === 'copy' ? Number(w[1]) : -1;
  });
  film.items.forEach(item => { item.granted = 0; item.issued = 0; item.used = 0; });
  for (const turn of film.turns) {
    const a = turn.answer;
    if (a[0] === 'issued' || a[0] === 'granted') turn.item = Number(a[2]);
    else if (a[0] === 'waiting') turn.item = Number(a[1]);
    else if (a[0] === 'busy' && a[1] === 'item') turn.item = Number(a[3]);
    else if (a[0] === 'busy' && a[1] === 'room') turn.item = Number(a[2]);
    else if (a[0] === 'retired' && a.length > 2 && a[1] !== 'put') turn.item = itemAt(film, parseInt(a[2], 16));
    const concerns = new Set();
    if (turn.item >= 0) concerns.add(turn.item);
    for (let k = 0; k < turn.changes.length; k += 3) {
      const x = itemOfKey[turn.changes[k]];
      if (x >= 0) concerns.add(x);
    }
    turn.items = [...concerns];
    turn.idle = turn.changes.length === 0 && (a[0] === 'waiting' || a[0] === 'empty' || a[0] === 'halted');
    if (turn.item >= 0) {
      const item = film.items[turn.item];
      if (a[0] === 'granted') item.granted++;
      else if (a[0] === 'issued') item.issued++;
      else if (a[0] === 'retired') item.used++;
    }
  }
}
