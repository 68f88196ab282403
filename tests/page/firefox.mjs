// Firefox without a window, driven by WebDriver BiDi over a WebSocket (node --experimental-websocket); the same calls as Chromium has.
import { spawn } from 'node:child_process';
import { mkdirSync, mkdtempSync, readFileSync, rmSync, writeFileSync } from 'node:fs';
import { tmpdir } from 'node:os';
import { basename, join } from 'node:path';
import { twice, wait, within } from './chromium.mjs';

const KEYS = { Enter: '\uE006', Tab: '\uE004', ArrowLeft: '\uE012', ArrowUp: '\uE013', ArrowRight: '\uE014', ArrowDown: '\uE015', Control: '\uE009', Shift: '\uE008' };

export class Firefox {
  name = 'Firefox';
  folder = mkdtempSync(join(tmpdir(), 'jabulghi-firefox-'));
  errors = [];
  requests = [];
  #waiting = new Map();
  #last = 0;

  // Whether the screen is touched, and dark, is chosen at the start.
  static start(touch = false, dark = false) {
    return twice(async () => {
      const made = new Firefox();
      await made.#open(touch, dark).catch(error => { made.#kill(); throw error; });
      return made;
    });
  }

  async #open(touch, dark) {
    const profile = join(this.folder, 'profile'), downloads = join(this.folder, 'downloads');
    mkdirSync(profile);
    mkdirSync(downloads);
    const wanted = { 'ui.primaryPointerCapabilities': touch ? 1 : 6, 'ui.allPointerCapabilities': touch ? 1 : 6, 'dom.w3c_touch_events.enabled': touch ? 1 : 0,
      'layout.css.prefers-color-scheme.content-override': dark ? 0 : 1, 'browser.download.folderList': 2,
      'browser.download.dir': downloads, 'browser.download.always_ask_before_handling_new_types': false };
    writeFileSync(join(profile, 'user.js'), Object.entries(wanted).map(([name, value]) => `user_pref(${JSON.stringify(name)}, ${JSON.stringify(value)});\n`).join(''));
    this.browser = spawn('firefox-esr', ['--headless', '--no-remote', '--profile', profile, '--remote-debugging-port', '0', 'about:blank'], { stdio: ['ignore', 'ignore', 'pipe'] });
    this.downloads = downloads;
    await this.#connect(await within(60, this.#address()));
    await this.call('session.new', { capabilities: {} });
    await this.call('session.subscribe', { events: ['log.entryAdded', 'network.beforeRequestSent'] });
    ({ context: this.context } = await this.call('browsingContext.create', { type: 'tab' })); // the first tab takes keys, but a button does nothing by them
  }

  #address() {
    let heard = '';
    return new Promise((done, fail) => {
      this.browser.stderr.on('data', data => {
        const found = /ws:\/\/\S+/.exec(heard += data);
        if (found !== null) done(found[0]);
      });
      this.browser.on('exit', () => fail(new Error(heard)));
    });
  }

  async #connect(address) {
    this.socket = new WebSocket(`${address}/session`);
    await within(30, new Promise((done, fail) => { Object.assign(this.socket, { onopen: done, onerror: fail }); }));
    this.socket.onmessage = ({ data }) => {
      const { id, type, method, params, result, message } = JSON.parse(data);
      this.#waiting.get(id)?.[type === 'error' ? 1 : 0](type === 'error' ? new Error(message) : result);
      if (method === 'log.entryAdded') this.errors.push(params.text);
      if (method === 'network.beforeRequestSent') this.requests.push(params.request.url);
    };
  }

  call(method, params) {
    return new Promise((...ends) => {
      this.#waiting.set(++this.#last, ends);
      this.socket.send(JSON.stringify({ id: this.#last, method, params }));
    });
  }

  open(page) { return this.call('browsingContext.navigate', { context: this.context, url: `file://${page}`, wait: 'complete' }); }

  async value(expression) {
    const given = { expression: `(async () => JSON.stringify(await (${expression})))()`, target: { context: this.context }, awaitPromise: true, userActivation: true };
    const { result, exceptionDetails } = await this.call('script.evaluate', given);
    if (exceptionDetails !== undefined) throw new Error(`${expression}: ${exceptionDetails.text}`);
    return result.value === undefined ? undefined : JSON.parse(result.value);
  }

  async until(expression, seconds = 120) {
    for (const end = Date.now() + 1000 * seconds; Date.now() < end; await wait(25)) if (await this.value(expression)) return;
    throw new Error(`not within ${seconds} s: ${expression}`);
  }

  look(width, height) { return this.call('browsingContext.setViewport', { context: this.context, viewport: { width, height }, devicePixelRatio: 1 }); }

  async picture(file, { whole = true } = {}) {
    const { data } = await this.call('browsingContext.captureScreenshot', { context: this.context, origin: whole ? 'document' : 'viewport' });
    writeFileSync(file, Buffer.from(data, 'base64'));
    return this.value('document.documentElement.scrollWidth');
  }

  async print(file, [width, height]) {
    const { data } = await this.call('browsingContext.print', { context: this.context, page: { width: 2.54 * width, height: 2.54 * height } });
    writeFileSync(file, Buffer.from(data, 'base64'));
  }

  // ---- What a person does

  #act(...actions) { return this.call('input.performActions', { context: this.context, actions }); }

  #point(pointerType, id, ...steps) { return { type: 'pointer', id, parameters: { pointerType }, actions: steps }; }

  async click(selector, pointerType = 'mouse') {
    const [x, y] = (await this.placeOf(selector)).map(Math.round);
    await this.#act(this.#point(pointerType, `${pointerType}0`, { type: 'pointerMove', x, y }, { type: 'pointerDown', button: 0 }, { type: 'pointerUp', button: 0 }));
  }

  tap(selector) { return this.click(selector, 'touch'); }

  placeOf(selector) {
    return this.value(`(() => { const it = document.querySelector(${JSON.stringify(selector)}); it.scrollIntoView({ block: 'nearest' }); const box = it.getBoundingClientRect();
      return [box.left + box.width / 2, box.top + box.height / 2]; })()`);
  }

  // Fingers along ways of so many steps, each a list of points.
  touch(...steps) {
    const move = ([x, y]) => ({ type: 'pointerMove', x: Math.round(x), y: Math.round(y), duration: 0 });
    return this.#act(...steps[0].map((_, finger) => this.#point('touch', `finger${finger}`, move(steps[0][finger]), { type: 'pointerDown', button: 0 },
      ...steps.slice(1).map(points => move(points[finger])), { type: 'pointerUp', button: 0 })));
  }

  drag(from, to) {
    const move = ([x, y]) => ({ type: 'pointerMove', x: Math.round(x), y: Math.round(y), duration: 30 });
    const middle = [(from[0] + to[0]) / 2, (from[1] + to[1]) / 2];
    return this.#act(this.#point('mouse', 'mouse0', move(from), { type: 'pointerDown', button: 0 }, move(middle), move(to), { type: 'pointerUp', button: 0 }));
  }

  wheel([x, y], deltaY) { return this.#act({ type: 'wheel', id: 'wheel0', actions: [{ type: 'scroll', x: Math.round(x), y: Math.round(y), deltaX: 0, deltaY }] }); }

  async key(key, { control = false, shift = false } = {}) {
    const value = KEYS[key] ?? key, held = [control && KEYS.Control, shift && KEYS.Shift].filter(Boolean);
    await this.#act({ type: 'key', id: 'keys', actions: [...held.map(one => ({ type: 'keyDown', value: one })), { type: 'keyDown', value }, { type: 'keyUp', value },
      ...held.map(one => ({ type: 'keyUp', value: one }))] });
  }

  type(text) { return this.#act({ type: 'key', id: 'keys', actions: [...text].flatMap(value => [{ type: 'keyDown', value }, { type: 'keyUp', value }]) }); }

  // Firefox lets no driver drag files: they are dropped by an event with the same files, without their folders.
  async drop(place, files) {
    const given = files.map(file => [basename(file), readFileSync(file, 'utf8')]);
    await this.value(`(() => { const given = new DataTransfer(); for (const [name, text] of ${JSON.stringify(given)}) given.items.add(new File([text], name));
      document.elementFromPoint(...${JSON.stringify(place)}).dispatchEvent(new DragEvent('drop', { bubbles: true, cancelable: true, dataTransfer: given })); })()`);
  }

  async openFiles(selector, files) {
    const { nodes: [element] } = await this.call('browsingContext.locateNodes', { context: this.context, locator: { type: 'css', value: selector } });
    await this.call('input.setFiles', { context: this.context, element: { sharedId: element.sharedId }, files });
  }

  async end() {
    await Promise.race([this.call('browser.close', {}).catch(() => {}), wait(3000)]);
    this.#kill();
  }

  #kill() {
    this.browser?.removeAllListeners('exit');
    this.browser?.kill('SIGKILL');
    rmSync(this.folder, { recursive: true, force: true, maxRetries: 5, retryDelay: 200 });
  }
}
