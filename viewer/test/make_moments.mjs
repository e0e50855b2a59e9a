// Writes tests/films/NAME/moments of each film: make_moments.mjs DDM
// After some turns (each quarter of them, and where lists are longest) it has the report of `ddm run` on the turns so
// far, and from the checkpoint of `ddm save` all that a report hasn't: slots, lists, notes, times, entries with words.
import {execFileSync} from 'node:child_process';
import {readFileSync, writeFileSync} from 'node:fs';
import {join} from 'node:path';
import {partsOf} from './checkpoint.mjs';
import {fileOf, filmFile, filmNames, films} from './pages.mjs';

const [ddm] = process.argv.slice(2);

// the levels of the buses by number, from the line `tree DEPTH CHILDREN..` of a film
function levelsOf(film) {
  const [depth, ...children] = /^tree (.*)$/m.exec(film)[1].split(' ').map(Number);
  const levels = [];
  for (let level = 0, width = 1; level < depth; level++) {
    const first = levels.length;
    for (let k = 0; k < width; k++) levels.push(level);
    width = children.slice(first, first + width).reduce((sum, n) => sum + n, 0);
  }
  return levels;
}

for (const name of filmNames()) {
  const at = file => join(films, name, file), levels = levelsOf(readFileSync(filmFile(name), 'utf8'));
  const turns = readFileSync(at('schedule'), 'latin1').split('\n').filter(line => line && line !== 'end');
  const run = (word, count) => {
    const schedule = fileOf('schedule', turns.slice(0, count).map(turn => turn + '\n').join('') + 'end\n');
    return execFileSync(ddm, [word, at('image'), at('tree'), schedule], {maxBuffer: 1 << 28});
  };
  const partsAfter = count => [...partsOf(run('save', count), bus => levels[bus]).parts];
  const counts = [1, 2, 3, 4].map(quarter => Math.round(turns.length * quarter / 4));
  counts.push(longestLists(turns.length, partsAfter));
  const moments = [...new Set(counts)].sort((x, y) => x - y).map(count => {
    const lines = partsAfter(count).filter(([key, value]) => value !== '' && !/^(reg|pc|halt) /.test(key));
    return `after ${count}\n${run('run', count)}${lines.map(([key, value]) => `${key} =${value}\n`).join('')}`;
  });
  writeFileSync(at('moments'), moments.join(''));
}

// after how many turns the longest lists are there for the first time, so that the order of a list is tried
function longestLists(most, partsAfter) {
  let longest = 0, found = 0;
  for (let count = 0; count <= most; count++) {
    const length = Math.max(...partsAfter(count).map(([, value]) => value.split(' | ').length));
    if (length > longest) [longest, found] = [length, count];
  }
  return found;
}
