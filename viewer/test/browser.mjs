// Drives a page in Debian's chromium, without a window, over the pipe of the DevTools protocol. No library is
// needed.
import {spawn} from 'node:child_process';
import {mkdtempSync, rmSync, writeFileSync} from 'node:fs';
import {tmpdir} from 'node:os';
import {join} from 'node:path';

const NUMBERED = {
  ArrowRight: 39, ArrowLeft: 37, Home: 36, End: 35, PageDown: 34, PageUp: 33, Enter: 13, Escape: 27, Tab: 9,
};
const wait = ms => new Promise(done => setTimeout(done, ms));

// calls `use` with a tab, and then ends the browser
export async function withTab(use) {
  const profile = mkdtempSync(join(tmpdir(), 'profile-'));
  const flags = ['--headless=new', '--no-sandbox', '--disable-gpu', '--remote-debugging-pipe', '--hide-scrollbars'];
  const browser = spawn('chromium', [...flags, `--user-data-dir=${profile}`, 'about:blank'],
    {stdio: ['ignore', 'ignore', 'ignore', 'pipe', 'pipe']});
  const ended = new Promise(done => browser.once('exit', done));
  const pipe = connection(browser);
  try {
    return await use(await tabOf(pipe));
  } finally {
    pipe.attach(undefined);
    await Promise.race([pipe.send('Browser.close').catch(() => {}), wait(3000)]);
    await Promise.race([ended, wait(3000)]);
    browser.kill('SIGKILL');
    rmSync(profile, {recursive: true, force: true, maxRetries: 20, retryDelay: 100});
  }
}

// messages end in a zero byte; an answer has the number of its question
function connection(browser) {
  const waiting = new Map(), heard = [];
  let rest = '', next = 1, session;
  browser.stdio[4].on('data', data => {
    const messages = (rest + data).split('\0');
    rest = messages.pop();
    for (const message of messages.map(text => JSON.parse(text))) {
      if (!message.id) { heard.push(message); continue; }
      const [done, failed] = waiting.get(message.id);
      waiting.delete(message.id);
      if (message.error) failed(new Error(JSON.stringify(message.error))); else done(message.result);
    }
  });
  const send = (method, params = {}) => new Promise((done, failed) => {
    const id = next++;
    waiting.set(id, [done, failed]);
    browser.stdio[3].write(JSON.stringify({id, method, params, ...(session && {sessionId: session})}) + '\0');
  });
  return {send, heard, attach: id => { session = id; }};
}

async function tabOf({send, heard, attach}) {
  const {targetInfos} = await send('Target.getTargets');
  const {targetId} = targetInfos.find(target => target.type === 'page');
  attach((await send('Target.attachToTarget', {targetId, flatten: true})).sessionId);
  for (const part of ['Page', 'Runtime', 'Log', 'Network']) await send(part + '.enable');
  const tab = {
    send,
    wait,
    async open(url) {
      await send('Page.navigate', {url: 'about:blank'});
      heard.length = 0;
      await send('Page.navigate', {url});
      for (let k = 0; k < 400 && !heard.some(message => message.method === 'Page.loadEventFired'); k++) {
        await wait(25);
      }
      await tab.run('new Promise(done => requestAnimationFrame(() => requestAnimationFrame(done)))');
    },
    // what an expression is in the page
    async run(expression) {
      const {result, exceptionDetails} =
        await send('Runtime.evaluate', {expression, awaitPromise: true, returnByValue: true});
      if (exceptionDetails) throw new Error(exceptionDetails.exception?.description || exceptionDetails.text);
      return result.value;
    },
    text: selector => tab.run(`document.querySelector('${selector}').textContent`),
    async key(key, shift) {
      const text = key.length === 1 ? key : key === 'Enter' ? '\r' : undefined;
      const code = NUMBERED[key] || key.toUpperCase().charCodeAt(0);
      const base = {key, code: key, windowsVirtualKeyCode: code, modifiers: shift ? 8 : 0};
      await send('Input.dispatchKeyEvent', {type: text ? 'keyDown' : 'rawKeyDown', text, ...base});
      await send('Input.dispatchKeyEvent', {type: 'keyUp', ...base});
    },
    async type(text) { for (const c of text) await tab.key(c); },
    async click(selector) {
      const [x, y] = await tab.run(`(() => { const r = document.querySelector('${selector}').getBoundingClientRect();
        return [r.x + r.width / 2, r.y + Math.min(12, r.height / 2)]; })()`);
      for (const type of ['mousePressed', 'mouseReleased']) {
        await send('Input.dispatchMouseEvent', {type, x, y, button: 'left', clickCount: 1});
      }
    },
    async choose(selector, file) {
      const {root} = await send('DOM.getDocument');
      const {nodeId} = await send('DOM.querySelector', {nodeId: root.nodeId, selector});
      await send('DOM.setFileInputFiles', {nodeId, files: [file]});
      await wait(400);
    },
    size: (width, height) =>
      send('Emulation.setDeviceMetricsOverride', {width, height, deviceScaleFactor: 1, mobile: false}),
    sight: type => send('Emulation.setEmulatedVisionDeficiency', {type}),
    async shot(file) { writeFileSync(file, Buffer.from((await send('Page.captureScreenshot')).data, 'base64')); },
    errors: () => heard
      .filter(({method, params}) => method === 'Runtime.exceptionThrown'
        || (method === 'Log.entryAdded' && params.entry.level === 'error'))
      .map(({params}) => JSON.stringify(params).slice(0, 300)),
    loads: () => heard.filter(({method}) => method === 'Network.requestWillBeSent')
      .map(({params}) => params.request.url),
  };
  return tab;
}
