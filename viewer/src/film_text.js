// Reads a film: its head, the parts at the start, each turn with the parts that it changed, and the report.
// A part is a key of two or three words and a value. No rule of the machine is known here.

const THREE_WORDS = new Set(['reg', 'entry', 'dir']);   // parts whose key has two numbers
const EFFECTS_THAT_STORE = new Set(['store', 'scok', 'amo']);
const KINDS = ['read', 'data', 'erase', 'exclusive', 'out', 'inject'];

function parseFilm(text) {
  const lines = text.split('\n');
  let at = lines.findIndex(line => line.startsWith('film '));
  if (at < 0) throw new Error('this is no film: no line begins with “film”');
  const film = {children: [], items: [], turns: [], keys: [], places: new Map(), start: [], report: [], sizes: {}};
  const place = key => {
    let n = film.places.get(key);
    if (n === undefined) { n = film.keys.length; film.places.set(key, n); film.keys.push(key); }
    return n;
  };
  const split = line => {
    let end = line.indexOf(' ');
    const head = end < 0 ? line : line.slice(0, end);
    for (let more = THREE_WORDS.has(head) ? 2 : 1; more > 0; more--) {
      end = line.indexOf(' ', end + 1);
      if (end < 0) return [line, ''];
    }
    return [line.slice(0, end), line.slice(end + 1)];
  };
  const values = [];    // of all parts, as they are
  let turn = null;
  for (; at < lines.length; at++) {
    const line = lines[at];
    if (line === '') continue;
    if (line.startsWith('t ')) {
      turn = parseTurn(line);
      film.turns.push(turn);
    } else if (line.startsWith('tree ')) {
      const [depth, ...children] = line.split(' ').slice(1).map(Number);
      film.depth = depth;
      film.children = children;
    } else if (line.startsWith('sizes ')) {
      const names = ['ways', 'sets', 'buffer', 'parking', 'down', 'requests', 'replies', 'bytes'];
      line.split(' ').slice(1).forEach((n, k) => { film.sizes[names[k]] = Number(n); });
    } else if (line.startsWith('item ')) {
      const words = line.split(' ');
      film.items.push({number: film.items.length, address: parseInt(words[2], 16), writable: words[3] === 'w'});
    } else if (line.startsWith('ddm ')) {
      for (; at < lines.length && lines[at] !== 'end'; at++) film.report.push(lines[at]);
      film.report.push('end');
      break;
    } else if (!line.startsWith('film ')) {
      const [key, value] = split(line);
      const n = place(key);
      if (turn) turn.changes.push(n, values[n] || '', value); else film.start[n] = value;
      values[n] = value;
    }
  }
  if (film.report.length === 0) throw new Error('the film is cut: it has no report');
  shapeTree(film);
  nameItems(film);
  findOperations(film);
  return film;
}

// `t N` and the turn, as a schedule has it, and the answer
function parseTurn(line) {
  const w = line.split(' ');
  const turn = {text: line, number: Number(w[1]), changes: [], item: -1, op: null};
  let answer = 5;
  if (w[2] === 'h') {
    turn.kind = 'h'; turn.hart = Number(w[3]); turn.victim = Number(w[4]);
  } else {
    turn.kind = w[4]; turn.bus = Number(w[3]);
    if (turn.kind !== 'd') { turn.child = Number(w[5]); answer = 6; }
    if (turn.kind === 'l') { turn.choice = Number(w[6]); answer = 7; }
  }
  turn.schedule = w.slice(2, answer).join(' ');
  turn.answer = w.slice(answer);
  return turn;
}
