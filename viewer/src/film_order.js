// The one order: each completed instruction with its line of the report, and the loads that are stale.

// each completed instruction, with its line of the report, whose order is the witness
function findOperations(film) {
  const lines = new Map();
  film.witness = [];
  for (const line of film.report) {
    if (!line.startsWith('op ')) continue;
    const w = line.split(' ');
    const op = {line, hart: Number(w[1]), key: w[2], pc: parseInt(w[3], 16), effect: w.slice(4),
      rank: film.witness.length, turn: -1, stale: null};
    op.item = op.effect.length > 1 && op.effect[0] !== 'put' ? itemAt(film, parseInt(op.effect[1], 16)) : -1;
    lines.set(op.hart + ' ' + op.key.slice(op.key.lastIndexOf('.') + 1), op);
    film.witness.push(op);
  }
  const done = film.leaves.map(() => 0);
  film.ops = [];            // in order of completion
  film.opsUpTo = [];        // how many are complete after each turn
  for (const turn of film.turns) {
    if (turn.answer[0] === 'retired') {
      const op = lines.get(turn.hart + ' ' + done[turn.hart]++);
      if (!op) throw new Error('no line of the report for turn ' + turn.number);
      op.turn = turn.number;
      turn.op = op;
      film.ops.push(op);
    }
    film.opsUpTo.push(film.ops.length);
  }
  // a load is stale where a store to its word was completed before it, and comes after it in the witness
  const stores = new Map();
  film.stale = [];
  for (const op of film.ops) {
    const [what, address] = op.effect;
    if (what === 'load' || what === 'lr') {
      for (const store of stores.get(address) || []) {
        if (store.rank > op.rank && (!op.stale || store.rank < op.stale.rank)) op.stale = store;
      }
      if (op.stale) film.stale.push(op);
    } else if (EFFECTS_THAT_STORE.has(what)) {
      if (!stores.has(address)) stores.set(address, []);
      stores.get(address).push(op);
    }
  }
}
