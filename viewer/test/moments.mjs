// Each film is stepped through with the arrow key. At its stored moments the page has the states, words, lists and
// lines that
// the report and the checkpoint of the run cut there have.
import {filmNames, momentsOf, pageOf} from './pages.mjs';

export async function testMoments(tab, check) {
  for (const name of filmNames()) {
    await tab.open(pageOf(name) + '#turn=start&show=all');
    const leaves = await tab.run('film.leaves.length'), buses = await tab.run('film.buses.length');
    let now = 0;
    for (const moment of momentsOf(name)) {
      for (; now < moment.turns; now++) await tab.key('ArrowRight');
      const say = (what, ok) => check(`${name} after ${moment.turns} turns: ${what}`, ok);
      say('the number of the turn', (await tab.text('#card .when b')) === (now ? 'Turn ' + (now - 1) : 'Start'));
      say('the report', await tab.run(`ddmPage.machine().report().join('\\n') + '\\n'`) === moment.report);
      await testParts(tab, moment, say);
      await testItems(tab, moment, say);
      await testOrder(tab, moment, say);
      for (let leaf = 0; leaf < leaves; leaf++) await testLeaf(tab, leaf, moment, say);
      for (let bus = 0; bus < buses; bus++) await testBus(tab, bus, moment, say);
    }
    await tab.key('Home');
    await tab.key('End');
    check(`${name}: at the end it has what the report says`, (await tab.text('#verdict')).startsWith('in the end'));
    check(`${name}: errors ${tab.errors()}`, tab.errors().length === 0);
    await tab.open(pageOf(name) + '#test');
    const title = await tab.run('document.title');
    check(`${name}: its own test: ${title}`, title.startsWith('PASS'));
  }
}

// every part that the page keeps
async function testParts(tab, moment, say) {
  const kept = await tab.run(`film.keys.map((key, n) => [key, (machine.values[n] || '').trim()])`);
  const parts = new Map(kept.filter(([key, value]) => value !== '' && !/^(reg|pc|halt|copy) /.test(key)));
  const wrong = [...new Set([...parts.keys(), ...moment.parts.keys()])].filter(key =>
    parts.get(key) !== moment.parts.get(key));
  say(`parts ${wrong.map(key => `${key}: ${parts.get(key)}, not ${moment.parts.get(key)}`)}`, wrong.length === 0);
}

const linesOf = (moment, word) => moment.report.split('\n').filter(line => line.startsWith(word + ' '));

// the states of all items at all leaves, in the table and in the picture
async function testItems(tab, moment, say) {
  const letters = linesOf(moment, 'item').map(line => line.split(' ').pop());
  await tab.key('4');
  const rows = await tab.run(`[...document.querySelectorAll('#pane tr[data-item]')].map(row =>
    [Number(row.dataset.item), [...row.querySelectorAll('.tile')].map(tile => tile.dataset.state).join('')])`);
  say('all items are in the table', rows.length === letters.length);
  for (const [item, states] of rows) say(`item ${item} is drawn ${states}`, states === letters[item]);
  const tiles = await tab.run(`[...document.querySelectorAll('.box.leaf')].map(box =>`
    + ` box.querySelector('.tile').dataset.state).join('')`);
  say(`the picture has ${tiles}`, tiles === letters[await tab.run('ddmPage.ui.item')]);
}

// the lines of instructions that are drawn are lines of the report, in its order
async function testOrder(tab, moment, say) {
  await tab.key('1');
  const drawn = await tab.run(`[...document.querySelectorAll('.opo')].map(op => op.title.split('\\n')[0])`);
  const places = drawn.map(line => linesOf(moment, 'op').indexOf(line));
  say(`the order that is drawn: ${places}`,
    places.every((place, k) => place >= 0 && (k === 0 || place > places[k - 1])));
}

const entriesOf = (moment, key) => (moment.parts.get(key) || '').split('| ').slice(1)
  .map(entry => entry.trim().split(' '));
const chipsIn = tab => tab.run(
  `[...document.querySelectorAll('#pane p .chip')].map(chip => chip.title.replace(/ item /, '`
    + ` ').replace(/[:,].*/, ''))`);

// what waits in a leaf, and the words of what it has
async function testLeaf(tab, leaf, moment, say) {
  await tab.run(`choosePlace({leaf: ${leaf}})`);
  const slot = moment.parts.get('slot ' + leaf);
  const waits = [...(slot ? [slot] : []),
    ...entriesOf(moment, 'leafreplies ' + leaf).map(([item]) => 'data ' + item)];
  const chips = await chipsIn(tab);
  say(`leaf ${leaf} is drawn with ${chips}, not ${waits}`, chips.join() === waits.join());
  const rows = await tab.run(`[...document.querySelectorAll('#pane tr[data-item]')].map(row =>
    row.dataset.item + ' ' + row.querySelector('.tile').dataset.state + ' '
      + row.querySelector('td.mono').textContent)`);
  const own = [...moment.parts].filter(([key]) => key.startsWith(`entry ${leaf} `))
    .map(([key, value]) => [key.split(' ')[2], value.split(' ')])
    .map(([item, [state, , ...words]]) => `${item} ${state} ${words.join(' ')}`);
  own.push(...entriesOf(moment, 'buffer ' + leaf)
    .map(([item, state, ...words]) => `${item} ${state} ${words.join(' ')}`));
  say(`leaf ${leaf} has ${rows}, not ${own}`, rows.sort().join() === own.sort().join());
}

// what waits in the lists of a directory
async function testBus(tab, bus, moment, say) {
  await tab.run(`choosePlace({bus: ${bus}})`);
  const listed = (list, word) => entriesOf(moment, `${list} ${bus}`)
    .map(([one, two]) => word ? `${word} ${one}` : `${one} ${two}`);
  const waits = [...listed('down'), ...listed('requests'), ...listed('replies', 'data'),
    ...listed('parked', 'parked')];
  const chips = await chipsIn(tab);
  say(`bus ${bus} is drawn with ${chips}, not ${waits}`, chips.join() === waits.join());
}
