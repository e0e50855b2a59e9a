// What a turn changed, in sentences: from the parts that the film tells of it.

const STATES_NOW = {
  S: 'has a shared copy now',
  E: 'has the exclusive copy now',
  R: 'waits for a copy now, to read',
  W: 'has a shared copy and waits to be the only one, to write',
  B: 'waits for a copy now, to write',
  '': 'has no copy any more',
};

// the parts that a turn changed: {what, numbers, before, after}, by the words and numbers of their keys
function changesOf(turn) {
  const changes = [];
  for (let k = 0; k < turn.changes.length; k += 3) {
    const [what, ...numbers] = film.keys[turn.changes[k]].split(' ');
    changes.push({what, numbers: numbers.map(Number), before: turn.changes[k + 1], after: turn.changes[k + 2]});
  }
  return changes;
}

const entriesOf = value => value.split('| ').slice(1).map(entry => entry.trim());

// the entry that came to the end of a list, or null
function addedTo({before, after}) {
  const old = entriesOf(before), now = entriesOf(after);
  return now.length > old.length ? now[now.length - 1].split(' ') : null;
}

// all of it in sentences: first what leaves have of the item now, then what waits where
function changeWords(turn) {
  const changes = changesOf(turn);
  return [...leafWords(turn, changes), ...waitingWords(changes)].map(words => cap(words) + '.').join(' ');
}

function leafWords(turn, changes) {
  const buffered = new Map(changes.filter(c => c.what === 'buffer').map(c => [c.numbers[0], addedTo(c)]));
  const leavesIn = new Map();
  for (const {what, numbers: [leaf, item], before, after} of changes) {
    const state = after.split(' ')[0];
    if (what !== 'entry' || item !== turn.item || state === before.split(' ')[0]) continue;
    const added = buffered.get(leaf);
    if (state === '' && added && Number(added[0]) === item) continue;
    leavesIn.set(state, (leavesIn.get(state) || []).concat({leaf}));
  }
  const words = [...leavesIn].map(([state, kids]) => {
    const now = STATES_NOW[state];
    return `${together(kids)} ${kids.length > 1
      ? now.replace(/^has/, 'have').replace(/^waits/, 'wait').replace('and waits', 'and wait') : now}`;
  });
  for (const [leaf, entry] of buffered) {
    if (entry) words.push(`${itemName(Number(entry[0]))} goes to the buffer of leaf ${leaf}`);
  }
  return words;
}

// what came to a list: the same thing in several lists is told once
function waitingWords(changes) {
  const places = new Map();
  for (const change of changes) {
    const [number] = change.numbers, entry = change.what === 'slot' ? change.after.split(' ') : addedTo(change);
    if (!entry || entry[0] === '') continue;
    const say = WAITS[change.what];
    if (!say) continue;
    const [thing, list, kid] = say(entry, number);
    const found = places.get(thing + '|' + list) || {thing, list, kids: []};
    found.kids.push(kid);
    places.set(thing + '|' + list, found);
  }
  return [...places.values()].map(({thing, list, kids}) => {
    const many = kids.length > 1 && !list.endsWith('s') && !list.startsWith('is');
    return `${thing} ${list}${many ? 's' : ''} of ${together(kids)}`;
  });
}

const asked = ([kind, item]) => `${/^[aeiou]/.test(kind) ? 'an' : 'a'} ${kind} of ${itemName(Number(item))}`;
const down = ([kind, item]) => kind === 'data' ? `data of ${itemName(Number(item))}` : asked([kind, item]);
const copied = ([item]) => `a copy of ${itemName(Number(item))}`;

// for each list: what came, where it is, and whose list it is
const WAITS = {
  slot: (entry, leaf) => [asked(entry), 'waits in the slot', {leaf}],
  leafreplies: (entry, leaf) => [copied(entry), 'waits in the replies', {leaf}],
  down: (entry, bus) => [down(entry), 'waits in the down list', {bus}],
  requests: (entry, bus) => [asked(entry), 'waits in the requests', {bus}],
  replies: (entry, bus) => [copied(entry), 'waits in the replies', {bus}],
  parked: (entry, bus) => [copied(entry), 'is parked in the room', {bus}],
};
