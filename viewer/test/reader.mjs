// What a reader does with a page: keys alone, bookmarks, names, clicks, other films.
import {fileOf, filmFile, pageOf, template} from './pages.mjs';

const at = tab => tab.run('ddmPage.machine().at');

export async function testReader(tab, check) {
  const page = pageOf('row10_flag');
  await tab.open(page);
  await testKeys(tab, check);
  await testItemsAndNames(tab, check);
  await testBookmarks(tab, check, page);
  await testClicks(tab, check);
  await testKeyboardAlone(tab, check, page);
  check(`errors: ${tab.errors()}`, tab.errors().length === 0);
  const loads = tab.loads().filter(url => !url.startsWith(page) && !url.startsWith('about:'));
  check(`nothing is loaded from elsewhere: ${loads}`, loads.length === 0);
  await testOtherFilms(tab, check);
}

async function testKeys(tab, check) {
  await tab.key('Home');
  const sequence = await tab.run('ddmPage.ui.sequence');
  const goes = async (key, turn) => {
    await tab.key(key);
    check(`key ${key} goes to ${turn}`, await at(tab) === turn);
  };
  await goes('ArrowRight', sequence[0]);
  await goes('PageDown', sequence[10]);
  await goes('ArrowLeft', sequence[9]);
  await goes('.', sequence[9] + 1);
  await goes(',', sequence[9]);
  await goes('End', 45);
  await goes('Home', -1);
  await goes('s', 22);
  check('the stale load’s item is shown', await tab.run('ddmPage.ui.item') === 2);
  const card = await tab.text('#card');
  check('the card says what is old', /An old value: hart 0 stored 4 here in turn 21, 1 turn ago/.test(card));
  check('the card says why', /still waits in the down list of directory 2, ringed in the picture\. So leaf 3 reads its own copy/.test(card));
  check('the erase that waits is ringed', await tab.run(`document.querySelectorAll('.chip.erase.why').length`) === 1);
  const ways = await tab.run(`[...document.querySelectorAll('#card [data-turn]')].map(way => way.dataset.turn)`);
  check(`the store and the loss of the copy are a click away: ${ways}`, ways.join() === '21,26');
  const order = await tab.run(`[...document.querySelectorAll('.opo')].map(op => op.title.split('\\n')[1])`);
  check(`the load is before the store: ${order}`, order.join() === 'turn 4,turn 22,turn 14,turn 21');
  const first = {i: 'turn.items.includes(ui.item)', h: `turn.kind === 'h' && turn.hart === 0`,
    b: `turn.kind !== 'h' && turn.bus === 0`};
  for (const [key, holds] of Object.entries(first)) {
    await tab.run(`goTo(-1); $('#hart').value = 0; $('#bus').value = 0`);
    await goes(key, await tab.run(`film.turns.find(turn => !turn.idle && (${holds})).number`));
  }
  await tab.key('g');
  await tab.type('18');
  await goes('Enter', 18);
  await tab.key('Home');
  await tab.key(' ');
  await tab.wait(1700);
  await tab.key(' ');
  check('play goes on', await tab.run('ddmPage.ui.position') >= 2 && !(await tab.run('ddmPage.ui.playing')));
  const tabs = [['1', 'completed instructions'], ['2', 'moment'], ['3', 'Words of the image'],
    ['4', 'current copy'], ['5', 'What each bus has granted']];
  for (const [key, words] of tabs) {
    await tab.key(key);
    check(`tab ${key}`, (await tab.text('#pane')).includes(words));
  }
  await tab.key('?');
  check('help', await tab.run(`document.querySelector('#help').open`));
  await tab.run(`document.querySelector('#help').close()`);
}

async function testItemsAndNames(tab, check) {
  for (const [text, item] of [['3', 3], ['0002001c', 3], ['20000', 2]]) {
    await tab.run(`$('#item').focus(); $('#item').select()`);
    await tab.type(text);
    await tab.key('Enter');
    await tab.run(`$('#item').blur()`);
    check(`item by “${text}”`, await tab.run('ddmPage.ui.item') === item);
  }
  await tab.run(`$('#names').click(); $('#nametext').value = '00020000 D data\\n00020010 B flag\\n';`
    + ` $('#namesdone').click()`);
  check('names', (await tab.text('#caption')).includes('data'));
  await tab.run(`$('#names').click()`);
  await tab.choose('#elf', fileOf('symbols.elf', elfWithSymbols()));
  check('symbols of an ELF file', await tab.run(`$('#nametext').value`) === '00020000 data\n00020010 flag');
  await tab.run(`$('#namebox').close()`);
}

// a moment is in the address, and comes back from it
async function testBookmarks(tab, check, page) {
  await tab.run(`goTo(22); setTab('place'); chooseItem(3)`);
  await tab.wait(700);
  const hash = await tab.run('decodeURIComponent(location.hash)');
  check(`the address: ${hash}`, hash.startsWith('#turn=22&item=00020010&tab=place')
    && hash.includes('names=20000:data,20010:flag'));
  await tab.open(page + hash);
  const shown = await tab.run(`[machine.at, ui.item, ui.tab, itemName(3)].join()`);
  check(`a bookmark opens its moment: ${shown}`, shown === '22,3,place,flag');
}

async function testClicks(tab, check) {
  await tab.click('.box[data-leaf="1"]');
  check('a click on a leaf', /Leaf 1, hart 1/.test(await tab.text('#pane')));
  await tab.click('.box[data-bus="2"]');
  check('a click on a directory', /Directory 2, over bus 2/.test(await tab.text('#pane')));
  check('with what waits there', /erase/.test(await tab.text('#pane')));
  await tab.run('goTo(0)');
  await tab.click('#lanecanvas');
  check('a click on the lanes', await at(tab) > 0);
  await tab.run(`$('#reportnow').click()`);
  check('the report here', (await tab.run(`$('#reporttext').value`)).startsWith('ddm 1\nturns '));
  await tab.run(`$('#reportbox').close()`);
}

// with the tabulator every control can be reached; each has a name
async function testKeyboardAlone(tab, check, page) {
  await tab.open(page + '#turn=22');
  const seen = new Set();
  for (let k = 0; k < 70; k++) {
    await tab.key('Tab');
    seen.add(await tab.run(`(e => e.id || e.dataset.tab || (e.matches('.box') ? 'box' :`
      + ` e.className))(document.activeElement)`));
  }
  const wanted = ['item', 'follow', 'names', 'stale', 'help', 'theme', 'play', 'goto', 'slider', 'box', 'order',
    'traffic'];
  const missing = wanted.filter(id => !seen.has(id === 'help' ? 'ask' : id));
  check(`reached by keyboard, but for ${missing}`, missing.length === 0);
  await tab.run(`document.querySelector('.box[data-leaf="3"]').focus()`);
  await tab.key('Enter');
  check('Enter on a box', /Leaf 3, hart 3/.test(await tab.text('#pane')));
  await tab.run(`document.activeElement.blur(); setTab('order')`);
  await tab.key('ArrowRight');
  check('what a screen reader is told', /^Turn 23\. /.test(await tab.text('#live')));
  const {nodes} = await tab.send('Accessibility.getFullAXTree');
  const roles = ['button', 'textbox', 'searchbox', 'slider', 'combobox', 'checkbox', 'tab', 'link'];
  const nameless = nodes.filter(node => !node.ignored && roles.includes(node.role?.value)
    && !node.name?.value?.trim());
  check(`controls without a name: ${nameless.map(node => node.role.value)}`, nameless.length === 0);
}

// the page alone asks for a film; one that is cut or spoiled is told of
async function testOtherFilms(tab, check) {
  await tab.open('file://' + template);
  check('no film', /This page has no film/.test(await tab.text('#drop')));
  await tab.choose('#filmfile', filmFile('joined_reads'));
  check('a film that is chosen',
    await tab.run(`$('#drop').classList.contains('hidden') && film.turns.length === 22`));
  await tab.open(pageOf('row05_a_read'));
  const told = change => tab.run(`(() => { try { open((${change})($('#film').textContent)); return`
    + ` $('#verdict').className; }
    catch (error) { return 'refused: ' + error.message; } })()`);
  check('a film that is cut', (await told(`text => text.slice(0, text.indexOf('ddm 1'))`)).startsWith('refused'));
  check('another value', await told(`text => text.replace('entry 0 1 S 1 00000005', 'entry 0 1 S 1`
    + ` 00000006')`) === 'bad');
}

// an ELF file with two symbols
function elfWithSymbols() {
  const bytes = Buffer.alloc(400), strings = Buffer.from('\0data\0flag\0');
  const section = (n, type, offset, size, link) =>
    [[4, type], [16, offset], [20, size],
      [24, link]].forEach(([at, value]) => bytes.writeUInt32LE(value, 280 + 40 * n + at));
  bytes.write('\x7fELF\x01\x01\x01', 0, 'latin1');
  [[280, 32]].forEach(([value, at]) => bytes.writeUInt32LE(value, at));
  [[2, 16], [243, 18], [52, 40], [40, 46], [3, 48]].forEach(([value, at]) => bytes.writeUInt16LE(value, at));
  strings.copy(bytes, 60);
  [[1, 0x20000], [6, 0x20010]].forEach(([name, value], k) => {
    const at = 116 + 16 * k;
    bytes.writeUInt32LE(name, at);
    bytes.writeUInt32LE(value, at + 4);
    bytes.writeUInt8(1, at + 12);
    bytes.writeUInt16LE(2, at + 14);
  });
  section(1, 2, 100, 48, 2);
  section(2, 3, 60, strings.length, 0);
  return bytes;
}
