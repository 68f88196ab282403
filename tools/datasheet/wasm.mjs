// Times of the library in WebAssembly (docs/WEB.md), in node and in Chromium: node wasm.mjs FOLDER, which has jabulghi.wasm and jabulghi.js. Prints
// "where TAB what TAB nanoseconds", the least of some short runs, all in turns.
import { createServer } from 'node:http';
import { readFileSync } from 'node:fs';
import { join, resolve } from 'node:path';
import { Chromium } from '../../tests/page/chromium.mjs';

const folder = resolve(process.argv[2]);

// Runs in either. A run takes some milliseconds, because a browser's clock is coarse. The exports are given places in their memory; the module copies what it is given.
function times(jabulghi) {
  const { exports, start } = jabulghi, TURNS = 30, record = jabulghi.seed(3770694558, 3532774216, 2901327257, 4093209576, 2137023497, 2889436789), long = new Int16Array(4096);
  const { jabulghi_block: block, jabulghi_pair: pair } = exports, accepted = code => { if (code !== 0) throw new Error(`refused: ${code}`); };
  const repeat = (times, act) => () => { for (let j = 0; j < times; j++) act(); };
  const contestants = [
    ['block of 4096, a sample, by jabulghi.js', 100 * 4096, repeat(100, () => record.block(long))],
    ['pair, by jabulghi.js', 10000, repeat(10000, () => record.pair())],
    ['block of 4096, a sample', 100 * 4096, repeat(100, () => accepted(block(start, start + 64, 4096)))],
    ['block of 64, a sample', 4000 * 64, repeat(4000, () => accepted(block(start, start + 64, 64)))],
    ['pair', 50000, repeat(50000, () => accepted(pair(start, start + 64)))],
  ].map(([name, count, run]) => ({ name, count, run, least: Infinity }));
  for (let turn = 0; turn < TURNS; turn++) {
    for (const each of contestants) {
      new Uint8Array(exports.memory.buffer, start, 40).set(record.bytes); // the module writes there
      const from = performance.now();
      each.run();
      each.least = Math.min(each.least, (performance.now() - from) * 1e6 / each.count);
    }
  }
  return contestants.map(({ name, least }) => [name, least]);
}

async function inNode() {
  const { load } = await import(join(folder, 'jabulghi.js'));
  return times(await load(readFileSync(join(folder, 'jabulghi.wasm'))));
}

// The files over http, since a page of file:// imports no module. Such headers give a page the finer clock.
async function inChromium() {
  const kinds = { js: 'text/javascript', wasm: 'application/wasm' };
  const server = createServer(({ url }, answer) => {
    const name = url.slice(1), kind = kinds[name.split('.')[1]] ?? 'text/html';
    answer.writeHead(200, { 'Content-Type': kind, 'Cross-Origin-Opener-Policy': 'same-origin', 'Cross-Origin-Embedder-Policy': 'require-corp' });
    answer.end(name === '' ? '<!doctype html>' : /^(jabulghi|constants)\.(js|wasm)$/.test(name) ? readFileSync(join(folder, name)) : '');
  }).listen(0, '127.0.0.1');
  await new Promise(done => { server.on('listening', done); });
  const browser = await Chromium.start('chromium');
  try {
    await browser.call('Page.navigate', { url: `http://127.0.0.1:${server.address().port}/` });
    await browser.until('crossOriginIsolated && document.readyState === "complete"');
    return await browser.value(`(async () => { const { load } = await import('/jabulghi.js'); return (${times})(await load(await (await fetch('/jabulghi.wasm')).arrayBuffer())); })()`);
  } finally {
    await browser.end();
    server.close();
  }
}

for (const [where, found] of [['node', await inNode()], ['Chromium', await inChromium()]]) {
  for (const [name, least] of found) console.log(`${where}\t${name}\t${least.toFixed(3)}`);
}
