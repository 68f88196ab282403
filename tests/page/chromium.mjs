// Chromium without a window, driven by its debugging protocol over a pipe.
import { spawn } from 'node:child_process';
import { mkdtempSync, rmSync, writeFileSync } from 'node:fs';
import { tmpdir } from 'node:os';
import { join } from 'node:path';

const OPTIONS = ['--headless=new', '--no-sandbox', '--disable-gpu', '--hide-scrollbars', '--no-first-run', '--disable-background-networking', '--remote-debugging-pipe', 'about:blank'];
export const wait = ms => new Promise(done => { setTimeout(done, ms); });

// A browser has so many seconds to start, and is started once more if it does not.
export function within(seconds, promise) {
  let timer;
  const late = new Promise((_, fail) => { timer = setTimeout(() => fail(new Error(`not within ${seconds} s`)), 1000 * seconds); });
  return Promise.race([promise, late]).finally(() => clearTimeout(timer));
}
export const twice = start => start().catch(error => {
  console.error(`once more: ${error.message}`);
  return start();
});

export class Chromium {
  name = 'Chromium';
  folder = mkdtempSync(join(tmpdir(), 'jabulghi-chromium-'));
  requests = [];
  errors = [];
  #waiting = new Map();
  #last = 0;

  static start(name) {
    return twice(async () => {
      const made = new Chromium();
      await within(30, made.#open(name)).catch(error => { made.#kill(); throw error; });
      return made;
    });
  }

  async #open(name) {
    this.browser = spawn(name, [...OPTIONS, `--user-data-dir=${join(this.folder, 'profile')}`], { stdio: ['ignore', 'ignore', 'ignore', 'pipe', 'pipe'] });
    this.#listen(this.browser.stdio[4]);
    const { targetId } = await this.#send('Target.createTarget', { url: 'about:blank' });
    ({ sessionId: this.session } = await this.#send('Target.attachToTarget', { targetId, flatten: true }));
    for (const part of ['Page', 'Runtime', 'Network', 'Log']) await this.call(`${part}.enable`);
    await this.#send('Browser.setDownloadBehavior', { behavior: 'allow', downloadPath: this.downloads = this.folder });
  }

  // Messages end with a NUL.
  #listen(pipe) {
    let rest = '';
    pipe.setEncoding('utf8').on('data', data => {
      const messages = (rest + data).split('\0');
      rest = messages.pop();
      for (const message of messages) this.#hear(JSON.parse(message));
    });
  }

  #hear({ id, result, error, method, params }) {
    this.#waiting.get(id)?.[error === undefined ? 0 : 1](result ?? new Error(error?.message));
    if (method === 'Network.requestWillBeSent') this.requests.push(params.request.url);
    if (method === 'Runtime.exceptionThrown') this.errors.push(params.exceptionDetails.exception?.description ?? params.exceptionDetails.text);
    if (method === 'Runtime.consoleAPICalled') this.errors.push(`console: ${params.args.map(({ value }) => value).join(' ')}`);
    if (method === 'Log.entryAdded') this.errors.push(`${params.entry.level}: ${params.entry.text}`);
  }

  #send(method, params = {}, sessionId = undefined) {
    const id = ++this.#last;
    this.browser.stdio[3].write(`${JSON.stringify({ id, method, params, sessionId })}\0`);
    return new Promise((...ends) => { this.#waiting.set(id, ends); });
  }
  call(method, params) { return this.#send(method, params, this.session); }

  async value(expression) {
    const { result, exceptionDetails } = await this.call('Runtime.evaluate', { expression, awaitPromise: true, returnByValue: true, userGesture: true });
    if (exceptionDetails !== undefined) throw new Error(`${expression}: ${exceptionDetails.exception?.description}`);
    return result.value;
  }

  async open(page) {
    await this.call('Page.navigate', { url: 'about:blank' });
    await this.call('Page.navigate', { url: `file://${page}` });
  }

  async openFiles(selector, files) {
    const { root: { nodeId: from } } = await this.call('DOM.getDocument'), { nodeId } = await this.call('DOM.querySelector', { nodeId: from, selector });
    await this.call('DOM.setFileInputFiles', { nodeId, files });
  }

  async until(expression, seconds = 120) {
    for (const end = Date.now() + 1000 * seconds; Date.now() < end; await wait(25)) if (await this.value(expression)) return;
    throw new Error(`not within ${seconds} s: ${expression}`);
  }

  // A screen of this size, light or dark; a telephone has a touch screen.
  async look(width, height, dark, touch = false) {
    await this.call('Emulation.setDeviceMetricsOverride', { width, height, deviceScaleFactor: 1, mobile: touch });
    await this.call('Emulation.setTouchEmulationEnabled', { enabled: touch, maxTouchPoints: 5 });
    await this.call('Emulation.setEmulatedMedia', { features: [{ name: 'prefers-color-scheme', value: dark ? 'dark' : 'light' }] });
  }

  // ---- What a person does

  // The middle of an element in the window, scrolled there.
  async placeOf(selector) {
    return this.value(`(() => { const it = document.querySelector(${JSON.stringify(selector)}); it.scrollIntoView({ block: 'nearest' }); const box = it.getBoundingClientRect();
      return [box.left + box.width / 2, box.top + box.height / 2]; })()`);
  }

  async click(selector) {
    const [x, y] = await this.placeOf(selector), mouse = { x, y, button: 'left', clickCount: 1 };
    for (const type of ['mousePressed', 'mouseReleased']) await this.call('Input.dispatchMouseEvent', { type, ...mouse });
  }

  async tap(selector) {
    const [x, y] = await this.placeOf(selector);
    await this.call('Input.dispatchTouchEvent', { type: 'touchStart', touchPoints: [{ x, y }] });
    await this.call('Input.dispatchTouchEvent', { type: 'touchEnd', touchPoints: [] });
  }

  // Fingers along ways of so many steps, each a list of points.
  async touch(...steps) {
    for (const [j, points] of steps.entries()) await this.call('Input.dispatchTouchEvent', { type: j === 0 ? 'touchStart' : 'touchMove', touchPoints: points.map(([x, y], id) => ({ x, y, id })) });
    await this.call('Input.dispatchTouchEvent', { type: 'touchEnd', touchPoints: [] });
  }

  async drag(from, to) {
    const at = ([x, y], type) => this.call('Input.dispatchMouseEvent', { type, x, y, button: 'left', buttons: 1, clickCount: 1 });
    await at(from, 'mousePressed');
    for (const part of [0.3, 0.6, 1]) await at([from[0] + (to[0] - from[0]) * part, from[1] + (to[1] - from[1]) * part], 'mouseMoved');
    await at(to, 'mouseReleased');
  }

  wheel([x, y], deltaY) { return this.call('Input.dispatchMouseEvent', { type: 'mouseWheel', x, y, deltaX: 0, deltaY }); }

  // A key by its name. A browser without a window binds no keys to editing, so the command of one is given with it.
  async key(key, { control = false, shift = false } = {}) {
    const modifiers = (control ? 2 : 0) + (shift ? 8 : 0), commands = control ? [{ a: 'selectAll', c: 'copy', v: 'paste' }[key]].filter(Boolean) : [];
    const codes = { Enter: 13, Tab: 9, ' ': 32, ArrowLeft: 37, ArrowUp: 38, ArrowRight: 39, ArrowDown: 40 }, windowsVirtualKeyCode = codes[key] ?? key.toUpperCase().charCodeAt(0);
    const text = key === 'Enter' ? '\r' : key.length === 1 && modifiers === 0 ? key : undefined;
    await this.call('Input.dispatchKeyEvent', { type: text === undefined ? 'rawKeyDown' : 'keyDown', key, text, modifiers, commands, windowsVirtualKeyCode });
    await this.call('Input.dispatchKeyEvent', { type: 'keyUp', key, modifiers, windowsVirtualKeyCode });
  }

  type(text) { return this.call('Input.insertText', { text }); }

  // Files or folders by their paths, over a place of the window.
  async drop([x, y], files) {
    const data = { items: [], files, dragOperationsMask: 1 };
    for (const type of ['dragEnter', 'dragOver', 'drop']) await this.call('Input.dispatchDragEvent', { type, x, y, data });
  }

  async print(file, [width, height]) {
    const { data } = await this.call('Page.printToPDF', { paperWidth: width, paperHeight: height });
    writeFileSync(file, Buffer.from(data, 'base64'));
  }

  async picture(file, { whole = true, most = Infinity, scale = 1 } = {}) {
    const [width, height] = await this.value('[document.documentElement.scrollWidth, document.documentElement.scrollHeight]');
    const clip = { x: 0, y: 0, width, height: Math.min(height, most), scale };
    const { data } = await this.call('Page.captureScreenshot', whole ? { captureBeyondViewport: true, clip } : {});
    writeFileSync(file, Buffer.from(data, 'base64'));
    return width;
  }

  async end() {
    const ended = new Promise(done => { this.browser.on('exit', done); });
    await this.#send('Browser.close').catch(() => {});
    await Promise.race([ended, wait(5000)]);
    this.#kill();
  }

  #kill() {
    this.browser.kill('SIGKILL');
    rmSync(this.folder, { recursive: true, force: true, maxRetries: 5, retryDelay: 200 });
  }
}
