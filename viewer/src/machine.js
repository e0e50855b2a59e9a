// The machine after a turn, as the film tells it.

// All parts as they are after turn `at`; -1 is the start. A move puts in what each turn on the way changed, or
// what was before.
class Machine {
  constructor(film) { this.film = film; this.reset(); }

  reset() {
    this.values = this.film.start.slice();
    this.at = -1;
  }

  moveTo(turn) {
    const turns = this.film.turns, at = Math.max(-1, Math.min(turn, turns.length - 1));
    while (this.at < at) {
      const c = turns[++this.at].changes;
      for (let k = 0; k < c.length; k += 3) this.values[c[k]] = c[k + 2];
    }
    while (this.at > at) {
      const c = turns[this.at--].changes;
      for (let k = c.length - 3; k >= 0; k -= 3) this.values[c[k]] = c[k + 1];
    }
  }

  value(key) {
    const n = this.film.places.get(key);
    return n === undefined ? '' : this.values[n] || '';
  }

  list(key) {
    const value = this.value(key);
    return value === '' ? [] : value.slice(2).split(' | ').map(entry => entry.split(' '));
  }

  // what a leaf has of an item: {state, way, place, words}, or null
  entry(leaf, item) {
    const value = this.value('entry ' + leaf + ' ' + item);
    if (value !== '') {
      const w = value.split(' ');
      return {state: w[0], way: Number(w[1]), place: -1, words: w.slice(2)};
    }
    const buffer = this.value('buffer ' + leaf);
    if (buffer === '') return null;
    const entries = this.list('buffer ' + leaf);
    const place = entries.findIndex(e => Number(e[0]) === item);
    return place < 0 ? null : {state: entries[place][1], way: -1, place, words: entries[place].slice(2)};
  }

  // what a directory keeps of an item: {hold, note, child, joined, answering}
  dir(bus, item) {
    const w = this.value('dir ' + bus + ' ' + item).split(' ').filter(word => word !== '');
    const is = {hold: '-', note: '', child: -1, joined: [], answering: false};
    if (w[0] === 'S' || w[0] === 'E') is.hold = w.shift();
    if (w[w.length - 1] === 'answering') { is.answering = true; w.pop(); }
    if (w.length) { is.note = w[0]; is.child = Number(w[1]); is.joined = w.slice(2).map(Number); }
    return is;
  }

  // there is no stamp in the top's list
  downList(bus) {
    return this.list('down ' + bus)
      .map(w => ({kind: w[0], item: Number(w[1]), stamp: bus === 0 ? ''
      : w[2], words: w.slice(bus === 0 ? 2 : 3)}));
  }
  requests(bus) { return this.list('requests ' + bus).map(w => ({kind: w[0], item: Number(w[1]), words: []})); }
  copies(key, kind) { return this.list(key).map(w => ({kind, item: Number(w[0]), words: w.slice(1)})); }

  slot(leaf) {
    const w = this.value('slot ' + leaf).split(' ');
    return w[0] === '' ? null : {kind: w[0], item: Number(w[1])};
  }

  // where the current copy of an item is: {leaf} or {bus, list}, and its words
  current(item) {
    const w = this.value('copy ' + item).split(' ');
    const number = Number(w[1]);
    if (w[0] === 'leaf') {
      const e = this.entry(number, item);
      return {leaf: number, entry: e, words: e ? e.words : []};
    }
    const key = (w[2] === 'down' ? 'down ' : 'parked ') + number;
    const entries = w[2] === 'down' ? this.downList(number) : this.copies(key, 'parked');
    let place = -1;
    entries.forEach((e, k) => {
      if (e.item === item && ['data', 'inject', 'parked'].includes(e.kind)) place = k;
    });
    return {bus: number, list: w[2], place, words: place < 0 ? [] : entries[place].words};
  }

  register(hart, r) { return r === 0 ? '00000000' : this.value('reg ' + hart + ' ' + r) || '00000000'; }
  pc(hart) { return parseInt(this.value('pc ' + hart), 16); }
  halt(hart) { return this.value('halt ' + hart); }

  // how many turns each of these numbers came to
  counts() {
    const counts = {turns: this.at + 1, retired: 0, granted: 0, busy: 0};
    for (let n = 0; n <= this.at; n++) {
      const what = this.film.turns[n].answer[0];
      if (what in counts) counts[what]++;
    }
    return counts;
  }

  traffic() {
    const traffic = this.film.buses.map(() => ({read: 0, data: 0, erase: 0, exclusive: 0, out: 0, inject: 0}));
    for (let n = 0; n <= this.at; n++) {
      const t = this.film.turns[n];
      if (t.answer[0] === 'granted') traffic[t.bus][t.answer[1]]++;
    }
    return traffic;
  }

  // the bytes that a hart has put out, in two digits each
  output(hart) {
    let text = '';
    for (let n = 0; n <= this.at; n++) {
      const t = this.film.turns[n];
      if (t.kind === 'h' && t.hart === hart && t.answer[1] === 'put') text += t.answer[2];
    }
    return text;
  }

  done(hart) {
    let n = 0;
    for (let k = 0; k < this.film.ops.length && this.film.ops[k].turn <= this.at; k++) {
      if (this.film.ops[k].hart === hart) n++;
    }
    return n;
  }

  // the report of the run cut here, as `ddm run` prints it
  report() {
    const film = this.film, c = this.counts(), out = ['ddm 1'];
    out.push(`turns ${c.turns} retired ${c.retired} granted ${c.granted} busy ${c.busy}`);
    for (const {leaf} of film.leaves) {
      out.push(`hart ${leaf} ${this.halt(leaf)
        || 'running'} pc ${this.value('pc ' + leaf)} done ${this.done(leaf)}`);
      let regs = 'regs ' + leaf;
      for (let r = 1; r < 32; r++) regs += ' ' + this.register(leaf, r);
      out.push(regs, `out ${leaf} ${this.output(leaf) || '-'}`);
    }
    this.traffic().forEach((t, bus) => out.push(`bus ${bus} ` + KINDS.map(kind => `${kind} ${t[kind]}`).join(' ')));
    for (const item of film.items) {
      const copy = this.current(item.number);
      const where = copy.bus !== undefined ? `bus ${copy.bus} ${copy.list} ${copy.place}`
        : copy.entry && copy.entry.way >= 0 ? `leaf ${copy.leaf} way ${copy.entry.way}`
        : `leaf ${copy.leaf} buffer ${copy.entry ? copy.entry.place : '?'}`;
      const states = film.leaves.map(({leaf}) => this.entry(leaf, item.number));
      const letters = states.map(entry => entry ? entry.state : '-').join('');
      out.push(`item ${item.number} ${hex(item.address)} ${copy.words.join(' ')} ${where} ${letters}`);
    }
    for (const op of film.witness) if (op.turn <= this.at) out.push(op.line);
    out.push('end');
    return out;
  }
}

const hex = n => n.toString(16).padStart(8, '0');
