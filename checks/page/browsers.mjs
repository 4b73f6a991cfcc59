// Drives a browser without a screen, each by its own protocol over a pipe or a socket: Chromium by DevTools, Firefox by
// Marionette. Both have the same methods.
import { spawn } from 'node:child_process';
import fs from 'node:fs';
import net from 'node:net';
import os from 'node:os';
import path from 'node:path';

const sleep = ms => new Promise(done => setTimeout(done, ms));
// On a busy machine each wait may be so many times as long.
const SLOW = Number(process.env.SLOW) || 1;
// Control is 2 and Alt 1 in the numbers of DevTools.
const CODES = { Tab: 9, Enter: 13, Escape: 27, ' ': 32, End: 35, Home: 36, ArrowLeft: 37, ArrowUp: 38, ArrowRight: 39,
  ArrowDown: 40, Backspace: 8 };
const KEYS = { Tab: '\uE004', Enter: '\uE007', Escape: '\uE00C', ' ': ' ', End: '\uE010', Home: '\uE011',
  ArrowLeft: '\uE012', ArrowUp: '\uE013', ArrowRight: '\uE014', ArrowDown: '\uE015', Backspace: '\uE003',
  Alt: '\uE00A', Control: '\uE009' };

class Browser {
  constructor(name, command, words, pipes) {
    this.name = name;
    this.folder = fs.mkdtempSync(path.join(os.tmpdir(), `page-${name}-`));
    this.process = spawn(command, words(this.folder), { detached: true, stdio: pipes });
    this.problems = [];
  }
  async close() {
    try { process.kill(-this.process.pid); } catch { /* it has ended */ }
    await sleep(400);
    try {
      fs.rmSync(this.folder, { recursive: true, force: true, maxRetries: 9, retryDelay: 300 });
    } catch { /* it is in use still */ }
  }
  /** Waits until an expression holds. */
  async until(expression, ms = 20000) {
    const begun = Date.now();
    while (Date.now() - begun < ms * SLOW) {
      if (await this.evaluate(`Boolean(${expression})`).catch(() => false)) return;
      await sleep(40);
    }
    throw new Error(`${this.name}: not within ${ms * SLOW} ms: ${expression}`);
  }
  /** Clicks in the middle of the first element of a selector, as a pointer does. */
  async click(selector) {
    const at = await this.evaluate(`(() => { const it = document.querySelector(${JSON.stringify(selector)});
      if (!it) return null; it.scrollIntoView({ block: 'nearest', inline: 'nearest' });
      const r = it.getBoundingClientRect(); return [r.x + r.width / 2, r.y + r.height / 2]; })()`);
    if (!at) throw new Error(`${this.name}: there is no ${selector}`);
    await this.press(at[0], at[1]);
    await sleep(60);
  }
}

export class Chromium extends Browser {
  static command = 'chromium';
  static async open() {
    const it = new Chromium('chromium', 'chromium', folder => ['--headless', '--no-sandbox', '--disable-gpu',
      '--no-first-run', '--hide-scrollbars', '--disable-dev-shm-usage', `--user-data-dir=${folder}`,
      '--remote-debugging-pipe', 'about:blank'], ['ignore', 'ignore', 'ignore', 'pipe', 'pipe']);
    it.last = 0;
    it.waits = new Map();
    let parts = [];
    it.process.stdio[4].on('data', part => {
      parts.push(part);
      if (!part.includes(0)) return;
      let rest = Buffer.concat(parts);
      for (let end = rest.indexOf(0); end >= 0; end = rest.indexOf(0)) {
        it.heard(JSON.parse(rest.subarray(0, end).toString()));
        rest = rest.subarray(end + 1);
      }
      parts = [rest];
    });
    const { targetInfos } = await it.send('Target.getTargets');
    const { targetId } = targetInfos.find(target => target.type === 'page');
    it.session = (await it.send('Target.attachToTarget', { targetId, flatten: true })).sessionId;
    for (const domain of ['Runtime', 'Page', 'Log']) await it.send(`${domain}.enable`);
    await it.resize(1280, 720);
    return it;
  }
  heard(message) {
    const it = this.waits.get(message.id);
    this.waits.delete(message.id);
    if (it) it(message);
    if (message.method === 'Runtime.exceptionThrown' || message.method === 'Log.entryAdded')
      this.problems.push(JSON.stringify(message.params).slice(0, 500));
  }
  send(method, params = {}) {
    return new Promise((done, fails) => {
      const id = ++this.last;
      this.waits.set(id, ({ error, result }) => error ? fails(new Error(`${method}: ${error.message}`)) : done(result));
      this.process.stdio[3].write(JSON.stringify({ id, method, params, sessionId: this.session }) + '\0');
    });
  }
  async go(url) {
    await this.send('Page.navigate', { url });
  }
  async evaluate(expression) {
    const { result, exceptionDetails: trouble } =
      await this.send('Runtime.evaluate', { expression, awaitPromise: true, returnByValue: true, userGesture: true });
    if (trouble) throw new Error(trouble.exception?.description || trouble.text);
    return result.value;
  }
  async resize(width, height) {
    await this.send('Emulation.setDeviceMetricsOverride', { width, height, deviceScaleFactor: 1, mobile: false });
  }
  async press(x, y) {
    for (const type of ['mouseMoved', 'mousePressed', 'mouseReleased']) {
      const button = type === 'mouseMoved' ? 'none' : 'left';
      await this.send('Input.dispatchMouseEvent', { type, x, y, button, clickCount: 1 });
    }
  }
  async key(key, held = '') {
    const modifiers = { '': 0, Alt: 1, Control: 2, Shift: 8 }[held];
    const it = { key, code: key === ' ' ? 'Space' : key, modifiers, windowsVirtualKeyCode: CODES[key] || 0 };
    if (key === 'Enter') it.text = '\r';
    await this.send('Input.dispatchKeyEvent', { type: 'keyDown', ...it });
    await this.send('Input.dispatchKeyEvent', { type: 'keyUp', ...it });
    await sleep(40);
  }
  async undo() {
    await this.send('Input.dispatchKeyEvent', { type: 'keyDown', key: 'z', code: 'KeyZ', modifiers: 2,
      windowsVirtualKeyCode: 90, commands: ['undo'] });
    await sleep(60);
  }
  async type(text) {
    for (const c of text) {
      await this.send('Input.dispatchKeyEvent', { type: 'keyDown', key: c, text: c, unmodifiedText: c });
      await this.send('Input.dispatchKeyEvent', { type: 'keyUp', key: c });
    }
    await sleep(40);
  }
  async dark(is) {
    const features = is ? [{ name: 'prefers-color-scheme', value: 'dark' }] : [];
    await this.send('Emulation.setEmulatedMedia', { features });
    await sleep(200);
  }
  async shot(file) {
    const { data } = await this.send('Page.captureScreenshot', { format: 'png' });
    fs.writeFileSync(file, Buffer.from(data, 'base64'));
  }
}

export class Firefox extends Browser {
  static command = 'firefox-esr';
  static async open() {
    const port = 20000 + process.pid % 20000;
    const it = new Firefox('firefox', 'firefox-esr', folder => {
      const prefs = { 'marionette.port': port, 'browser.shell.checkDefaultBrowser': false,
        'datareporting.policy.firstRunURL': '' };
      fs.writeFileSync(path.join(folder, 'user.js'), Object.entries(prefs)
        .map(([name, value]) => `user_pref(${JSON.stringify(name)}, ${JSON.stringify(value)});\n`).join(''));
      return ['--headless', '--marionette', '--remote-allow-system-access', '--no-remote', '--profile', folder];
    }, ['ignore', 'ignore', 'ignore']);
    it.socket = await it.reached(port);
    it.last = 0;
    it.waits = new Map();
    // Before each message is its length and a colon; its parts are put together once all are there.
    let parts = [], had = 0, wanted = 0;
    it.socket.on('data', part => {
      parts.push(part);
      had += part.length;
      while (had && had >= wanted) {
        const rest = Buffer.concat(parts), colon = rest.indexOf(58);
        parts = [rest];
        if (colon < 0) return;
        wanted = colon + 1 + Number(rest.subarray(0, colon).toString());
        if (had < wanted) return;
        it.heard(JSON.parse(rest.subarray(colon + 1, wanted).toString()));
        parts = [rest.subarray(wanted)];
        had -= wanted;
        wanted = 0;
      }
    });
    await it.send('WebDriver:NewSession', { capabilities: { alwaysMatch: { unhandledPromptBehavior: 'accept' } } });
    await it.send('WebDriver:SetTimeouts', { script: 600000 });
    await it.resize(1280, 720);
    return it;
  }
  async reached(port) {
    for (let i = 0; i < 300; i++) {
      const socket = await new Promise(done => {
        const it = net.connect(port, '127.0.0.1', () => done(it));
        it.on('error', () => done(null));
      });
      if (socket) return socket;
      await sleep(100);
    }
    throw new Error('firefox: it does not begin');
  }
  heard(message) {
    if (!Array.isArray(message)) return;
    const [, id, error, result] = message, it = this.waits.get(id);
    this.waits.delete(id);
    if (it) it(error, result);
  }
  send(name, params = {}) {
    return new Promise((done, fails) => {
      const id = ++this.last, text = JSON.stringify([0, id, name, params]);
      this.waits.set(id, (error, result) => error ? fails(new Error(`${name}: ${error.message}`)) : done(result));
      this.socket.write(`${Buffer.byteLength(text)}:${text}`);
    });
  }
  async go(url) {
    await this.send('WebDriver:Navigate', { url });
  }
  async evaluate(expression) {
    const script = `const done = arguments[arguments.length - 1];
      (async () => await (${expression}))().then(value => done({ value }), error => done({ error: String(error) }));`;
    const { value } = await this.send('WebDriver:ExecuteAsyncScript', { script, args: [] });
    if (value?.error) throw new Error(value.error);
    return value?.value;
  }
  async resize(width, height) {
    await this.send('WebDriver:SetWindowRect', { width, height: height + 85 });
  }
  async act(actions) {
    await this.send('WebDriver:PerformActions', { actions });
  }
  async press(x, y) {
    await this.act([{ type: 'pointer', id: 'mouse', parameters: { pointerType: 'mouse' }, actions: [
      { type: 'pointerMove', x: Math.round(x), y: Math.round(y), duration: 0 },
      { type: 'pointerDown', button: 0 }, { type: 'pointerUp', button: 0 }] }]);
  }
  async key(key, held = '') {
    const stroke = value => [{ type: 'keyDown', value }, { type: 'keyUp', value }], value = KEYS[key] || key;
    const actions = stroke(value);
    if (held) {
      actions.unshift({ type: 'keyDown', value: KEYS[held] });
      actions.push({ type: 'keyUp', value: KEYS[held] });
    }
    await this.act([{ type: 'key', id: 'keys', actions }]);
    await sleep(40);
  }
  async undo() {
    await this.key('z', 'Control');
    await sleep(60);
  }
  async type(text) {
    const actions = [...text].flatMap(value => [{ type: 'keyDown', value }, { type: 'keyUp', value }]);
    await this.act([{ type: 'key', id: 'keys', actions }]);
    await sleep(40);
  }
  /** The look is a setting of the browser's own (0 is dark), which its own scripts alone can change. */
  async dark(is) {
    const script = `Services.prefs.setIntPref('layout.css.prefers-color-scheme.content-override', ${is ? 0 : 2});`;
    await this.send('Marionette:SetContext', { value: 'chrome' });
    await this.send('WebDriver:ExecuteScript', { script, args: [] });
    await this.send('Marionette:SetContext', { value: 'content' });
    await sleep(200);
  }
  async shot(file) {
    const { value } = await this.send('WebDriver:TakeScreenshot', { full: false });
    fs.writeFileSync(file, Buffer.from(value, 'base64'));
  }
}
export { sleep };
