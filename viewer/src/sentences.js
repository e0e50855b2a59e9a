// What a turn tries and what came of it, in sentences: by the words of its answer.

const STATE_WORDS = {
  S: 'a shared copy',
  E: 'exclusive, the only copy but for those that an erase is still on its way to',
  R: 'no copy yet; it waits for one, to read',
  W: 'a shared copy; it waits to be the only one, to write',
  B: 'no copy yet; it waits for one, to write',
  '-': 'nothing',
};

const STATES_SHORT = {
  S: 'shared: may read',
  E: 'exclusive: may write',
  R: 'waits for a copy, to read',
  W: 'shared; waits to be the only one',
  B: 'waits for a copy, to write',
  '-': 'no copy',
};

const HALT_WORDS = {
  exit: code => `has ended, with ${code}`,
  illegal: word => `has stopped: ${word} is no instruction`,
  break: () => 'has stopped at a breakpoint',
  call: number => `has stopped: there is no service ${number}`,
  badtarget: address => `has stopped: a jump to ${address}, which is no multiple of 4`,
  nofetch: address => `has stopped: there is no instruction at ${address}`,
  misaligned: address => `has stopped: ${address} isn’t a multiple of the access’s size`,
  noload: address => `has stopped: it loads from ${address}, where nothing is`,
  nostore: address => `has stopped: it stores to ${address}, which can’t be written`,
};

const plural = (n, one, many) => n === 1 ? one : many || one + 's';
const cap = text => text[0].toUpperCase() + text.slice(1);

// ---- names of places

const kidName = kid => kid.leaf !== undefined ? 'leaf ' + kid.leaf : parentName(kid.bus);

// a child of a bus: a leaf, or the directory over another bus
function childName(bus, child) {
  const kid = film.buses[bus].kids[child];
  return kid ? kidName(kid) : 'child ' + child;
}

function parentName(bus) {
  return bus === 0 ? 'the top' : 'directory ' + bus;
}

// numbers as a person says them: `0 to 3 and 7`
function numberWords(numbers) {
  const runs = [];
  for (const n of numbers) {
    const last = runs[runs.length - 1];
    if (last && last[1] === n - 1) last[1] = n; else runs.push([n, n]);
  }
  const words = runs.flatMap(([x, y]) => x === y ? [x] : y === x + 1 ? [x, y] : [`${x} to ${y}`]);
  return (words.length > 1 ? words.slice(0, -1).join(', ') + ' and ' : '') + words[words.length - 1];
}

// some leaves or directories, as `leaves 0 to 3` or `directories 2 and 5`
function together(kids) {
  const leaves = kids.filter(kid => kid.leaf !== undefined).map(kid => kid.leaf);
  const buses = kids.filter(kid => kid.bus !== undefined).map(kid => kid.bus);
  const say = [];
  if (leaves.length) say.push(plural(leaves.length, 'leaf', 'leaves') + ' ' + numberWords(leaves));
  if (buses.length === 1) say.push(parentName(buses[0]));
  if (buses.length > 1) say.push('directories ' + numberWords(buses));
  return say.join(' and ');
}

// ---- a turn

function turnWords(turn) {
  switch (turn.kind) {
    case 'h': return `Hart ${turn.hart} tries its next instruction`;
    case 'd': return `Bus ${turn.bus} takes what comes first in the down list of ${parentName(turn.bus)}`;
    case 'q': return `Bus ${turn.bus} takes the first request of ${childName(turn.bus, turn.child)}`;
    case 'r': return `Bus ${turn.bus} takes the first reply of ${childName(turn.bus, turn.child)}`;
    default: return `Bus ${turn.bus} lets a copy leave ${childName(turn.bus, turn.child)}`;
  }
}

// [the sentence, more of it]; `before` is the machine before the turn
function answerWords(turn, before) {
  const a = turn.answer, name = turn.item >= 0 ? itemName(turn.item) : '', hart = 'Hart ' + turn.hart;
  switch (a[0]) {
    case 'retired': return retiredWords(turn, before);
    case 'issued':
      return a[1] === 'read'
        ? [`${hart} has to wait: its leaf asks for a copy of ${name}.`, changeWords(turn)]
        : [`${hart} has to wait: its leaf asks to be the only one with ${name}.`, changeWords(turn)];
    case 'waiting': return [`${hart} still waits for ${name}.`, has(turn, before)];
    case 'halted': {
      const say = HALT_WORDS[a[1]], words = say ? say(a[2]) : a.slice(1).join(' ');
      return [`${hart} ${words}${turn.changes.length ? '.' : ', in a turn before.'}`, ''];
    }
    case 'empty': return ['There is nothing to take.', ''];
    case 'busy': return busyWords(turn, name);
    default: return [grantWords(turn, name), changeWords(turn)];
  }
}

function retiredWords(turn, before) {
  const [, what, address, one, two] = turn.answer, hart = 'Hart ' + turn.hart;
  const at = address === undefined ? '' : addressName(parseInt(address, 16)), now = has(turn, before);
  const stores = () => `${hart} stores ${shortWord(two)} to ${at}, over ${shortWord(one)}`;
  switch (what) {
    case 'plain': return [`${hart} completes it. It needs no memory.`, ''];
    case 'put': return [`${hart} puts out the byte ${address}${printable(address)}.`, ''];
    case 'load': return [`${hart} loads ${shortWord(one)} from ${at}.`, now];
    case 'lr': return [`${hart} loads ${shortWord(one)} from ${at}, and reserves the item.`, now];
    case 'store': return [`${stores()}.`, now];
    case 'scok': return [`${stores()}: it still has its reservation.`, now];
    case 'scfail': return [`${hart} doesn’t store to ${at}: it has no reservation of the item.`, ''];
    default: return [`${hart} changes ${at} from ${shortWord(one)} to ${shortWord(two)}, at once.`, now];
  }
}

// the state in which the leaf of a hart has the item of its turn
function has(turn, before) {
  const entry = before.entry(turn.hart, turn.item);
  return entry ? `Leaf ${turn.hart} has it in ${entry.state}: ${STATE_WORDS[entry.state]}.` : '';
}

function printable(byte) {
  const n = parseInt(byte, 16);
  return n > 32 && n < 127 ? ` (${String.fromCharCode(n)})` : '';
}

// ---- why a turn changed nothing

const PENDING_WORDS = {
  local: child => `a read of ${child} is being answered there`,
  upread: child => `a read of ${child} was sent up from there`,
  uperase: child => `${child} is ending all other copies`,
  answering: (child, bus) => `${parentName(bus)} is asked for it from above`,
  down: (child, bus) => `something about it is in the down list of ${parentName(bus)}`,
};

const LIST_WORDS = {
  down: number => `the down list of ${parentName(number)} is`,
  requests: number => `the requests of ${parentName(number)} are`,
  replies: number => `the replies of ${parentName(number)} are`,
  leafreplies: number => `the replies of leaf ${number} are`,
};

function busyWords(turn, name) {
  const a = turn.answer;
  switch (a[1]) {
    case 'item': {
      const bus = Number(a[2]), child = a[5] === undefined ? '' : childName(bus, Number(a[5]));
      return [`Not now: ${name} is under way on bus ${bus}.`, `On that bus ${PENDING_WORDS[a[4]](child, bus)}.`];
    }
    case 'queue':
      return [`Not now: ${LIST_WORDS[a[2]](Number(a[3]))} full.`, 'Something has to go on from there first.'];
    case 'buffer':
      return [`Not now: the buffer of leaf ${a[2]} is full, so no way can be freed.`,
        'A copy has to leave it first.'];
    case 'parking': return [`Not now: nothing more can be parked at bus ${a[2]}.`, ''];
    default: return [`Not now: there is no room for ${name}.`, ''];
  }
}
