// How a page looks: it fits, in dark and light, on a window of 1366 by 768, and its signs are told apart without
// colour.
import {pageOf} from './pages.mjs';

const WINDOWS = [[1366, 768], [1440, 900], [1920, 1080], [800, 1200]];
const SHOWN = [['row10_flag', 'turn=22'], ['row10_flag', 'turn=start'], ['joined_reads', 'turn=9'],
  ['jam', 'turn=71'], ['row13_parking', 'turn=10']];

// pictures are put into a folder, if one is named
export async function testLooks(tab, check, folder) {
  for (const [width, height] of WINDOWS) {
    await tab.size(width, height);
    for (const [name, hash] of SHOWN) {
      const theme = width === 1440 ? 'dark' : 'light';
      await tab.open(`${pageOf(name)}#${hash}&theme=${theme}`);
      const where = `${name} ${hash} in ${width}x${height}`;
      const out = await tab.run(STICKS_OUT);
      check(`${where}: sticks out: ${out}`, out.length === 0);
      if (folder) await tab.shot(`${folder}/${name}_${hash.replace('=', '')}_${width}.png`);
    }
  }
  await tab.size(1366, 768);
  await tab.open(pageOf('row10_flag') + '#turn=22');
  await tab.sight('achromatopsia');
  if (folder) await tab.shot(`${folder}/no_colour.png`);
  await tab.sight('none');
  const poor = await tab.run(POOR_CONTRAST);
  check(`contrast below 4.5: ${poor}`, poor.length === 0);
  const wordless = await tab.run(`[...document.querySelectorAll('.tile, .chip')].filter(e => e.textContent.trim()`
    + ` === '').length`);
  check('each state and entry has a letter or a word, besides its colour', wordless === 0);
}

// boxes that reach out of the picture, or whose content reaches out of them
const STICKS_OUT = `(() => {
  const room = document.querySelector('#tree').getBoundingClientRect(), out = [];
  for (const box of document.querySelectorAll('.box')) {
    const at = box.getBoundingClientRect(), low = innerWidth > 1020 && at.bottom > room.bottom + 2;
    if (at.right > room.right + 1 || at.left < room.left - 1 || low) out.push(box.textContent.slice(0, 20));
    if (box.scrollHeight > box.clientHeight + 3 && !box.classList.contains('small')) {
      out.push('in ' + box.textContent.slice(0, 20));
    }
  }
  const card = document.querySelector('#card').getBoundingClientRect();
  if (innerWidth > 1020 && card.bottom > innerHeight * .8) out.push('the card');
  return out;
})()`;

// pairs of colours that text is in
const POOR_CONTRAST = `(() => {
  const probe = document.body.appendChild(document.createElement('span'));
  const light = name => {
    probe.style.color = 'var(--' + name + ')';
    const [r, g, b] = getComputedStyle(probe).color.match(/[0-9.]+/g).slice(0, 3)
      .map(n => n / 255).map(n => n <= .03928 ? n / 12.92 : ((n + .055) / 1.055) ** 2.4);
    return .2126 * r + .7152 * g + .0722 * b;
  };
  const pairs = ['ink bg', 'ink panel', 'ink faint', 'soft bg', 'soft panel', 'soft faint', 'blue-ink blue',
    'orange-ink orange',
    'red-ink red', 'pink-ink pink', 'grey-ink grey', 'mark-ink mark', 'panel green', 'red panel'];
  const poor = [];
  for (const theme of ['light', 'dark']) {
    document.documentElement.dataset.theme = theme;
    for (const pair of pairs) {
      const [low, high] = pair.split(' ').map(light).sort((x, y) => x - y);
      if ((high + .05) / (low + .05) < 4.5) poor.push(theme + ' ' + pair);
    }
  }
  probe.remove();
  return poor;
})()`;
