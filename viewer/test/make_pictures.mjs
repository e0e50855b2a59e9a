// Makes the pictures of the documentation from the page of stored films: make_pictures.mjs FOLDER
import {withTab} from './browser.mjs';
import {pageOf} from './pages.mjs';

const PICTURES = [
  ['stale_load', 'row10_flag', 'turn=22&item=20000&names=20000:data,20010:flag&tab=order&theme=light'],
  ['two_stores', 'row07_two_stores', 'turn=11&item=20000&names=20000:word&theme=light'],
];

const [folder] = process.argv.slice(2);
await withTab(async tab => {
  await tab.size(1366, 768);
  for (const [name, film, hash] of PICTURES) {
    await tab.open(`${pageOf(film)}#${hash}`);
    await tab.shot(`${folder}/${name}.png`);
  }
});
