// All tests of the page: all.mjs [FOLDER], with a folder for pictures. The last line says how many passed and
// failed.
import {withTab} from './browser.mjs';
import {testLooks} from './looks.mjs';
import {testMoments} from './moments.mjs';
import {testReader} from './reader.mjs';

let passed = 0, failed = 0;
const check = (what, ok) => {
  if (ok) { passed++; return; }
  failed++;
  if (failed <= 20) console.log('FAIL ' + what);
};

await withTab(async tab => {
  await tab.size(1366, 768);
  await testMoments(tab, check);
  await testReader(tab, check);
  await testLooks(tab, check, process.argv[2]);
});
console.log(`the page: ${passed} passed, ${failed} failed`);
process.exitCode = failed ? 1 : 0;
