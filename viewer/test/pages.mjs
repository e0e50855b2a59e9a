// The stored films, and pages of them in a folder of their own.
import {mkdtempSync, readFileSync, readdirSync, rmSync, writeFileSync} from 'node:fs';
import {tmpdir} from 'node:os';
import {dirname, join, resolve} from 'node:path';
import {fileURLToPath} from 'node:url';

const viewer = resolve(dirname(fileURLToPath(import.meta.url)), '..');
export const template = join(viewer, 'page.html');
export const films = resolve(viewer, '../tests/films');
export const filmNames = () => readdirSync(films).sort();
export const filmFile = name => join(films, name, 'film');

const folder = mkdtempSync(join(tmpdir(), 'pages-'));
process.on('exit', () => rmSync(folder, {recursive: true, force: true}));

// the address of the page of a stored film
export function pageOf(name) {
  const path = join(folder, name + '.html');
  writeFileSync(path, readFileSync(template, 'utf8')
    .replace('@FILM@\n', () => readFileSync(filmFile(name), 'utf8')));
  return 'file://' + path;
}

export function fileOf(name, content) {
  const path = join(folder, name);
  writeFileSync(path, content);
  return path;
}

// The moments of a film: after so many turns the report, and the parts that a report hasn't, as key and value.
export function momentsOf(name) {
  const moments = [];
  let moment, inReport = false;
  for (const line of readFileSync(join(films, name, 'moments'), 'utf8').split('\n')) {
    if (line.startsWith('after ')) {
      moment = {turns: Number(line.slice(6)), report: '', parts: new Map()};
      moments.push(moment);
      inReport = true;
    } else if (inReport) {
      moment.report += line + '\n';
      inReport = line !== 'end';
    } else if (line !== '') {
      const [key, value] = line.split(' = ');
      moment.parts.set(key, value);
    }
  }
  return moments;
}
