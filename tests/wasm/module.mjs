// The module of JavaScript over jabulghi.wasm: node module.mjs FOLDER COMMAND, the folder that tools/wasm made and the command of this machine, beside which
// samples, texts and sentences are held.
import assert from 'node:assert/strict';
import { spawnSync } from 'node:child_process';
import { readFileSync } from 'node:fs';
import { resolve } from 'node:path';

const [folder, command] = process.argv.slice(2), root = new URL('../../', import.meta.url);
const { CODES, load, Refusal } = await import(resolve(folder, 'jabulghi.js'));
const jabulghi = await load(readFileSync(resolve(folder, 'jabulghi.wasm')));
const GOOD = [3770694558, 3532774216, 2901327257, 4093209576, 2137023497, 2889436789], FAR = 18446744073708051615n, MOST = 2n ** 64n - 1n;
const example = name => readFileSync(new URL(`examples/${name}`, root));
const met = new Set(), heard = new Set();

// What the command prints for these words and this input.
function run(words, input = '') {
  const { status, stdout, stderr } = spawnSync(command, words, { input, maxBuffer: 1 << 26, timeout: 20000 });
  return { status, stdout, stderr: stderr.toString() };
}

// The refusal that is thrown; no byte of what is kept and lent changes.
function refused(code, call, ...arrays) {
  const before = arrays.map(array => Buffer.from(array.buffer).toString('hex'));
  let thrown;
  try { call(); } catch (error) { thrown = error; }
  assert(thrown instanceof Refusal && thrown instanceof Error && thrown.name === 'Refusal', `${call}: ${thrown}`);
  assert.equal(thrown.code, code, `${call}`);
  assert.deepEqual(arrays.map(array => Buffer.from(array.buffer).toString('hex')), before, `${call} changed an array`);
  assert.equal(thrown.message, `${thrown.line > 0 ? `line ${thrown.line}: ` : ''}${thrown.sentence} (${code})`);
  met.add(code);
  return thrown;
}

// Exports are the header's calls and the judge's, the sentences, and the memory with what takes and gives back parts of it.
function names() {
  const text = ['include/jabulghi.h', 'bindings/judge.h'].map(name => readFileSync(new URL(name, root), 'utf8')).join('\n');
  const declared = [...text.matchAll(/^(?:uint32_t|int|void|const char|jabulghi_case) \*?(jabulghi_\w+)\(/gm)].map(([, name]) => name);
  assert.deepEqual(Object.keys(jabulghi.exports).sort(), [...declared, 'jabulghi_sentence', 'malloc', 'free', 'memory'].sort());
}

// A million samples of each width after a long skip, and the ways to the same samples.
function samples() {
  for (const [bits, name, Kind] of [['16', '', Int16Array], ['18', '18', Int32Array]]) {
    const { stdout } = run(['noise', '--raw', '--bits', bits, '-n', '1000000', '--seeds', GOOD.join(), '--skip', `${FAR}`]), all = new Kind(1000000);
    const record = jabulghi.seed(...GOOD).skip(FAR);
    for (let at = 0, length = 2; at < all.length; at += length, length = Math.min(2 * length, 65536, all.length - at)) record[`block${name}`](all.subarray(at, at + length));
    assert(Buffer.from(all.buffer).equals(stdout) && stdout.length === all.byteLength, `${bits} bits`);
    assert.equal(record.count, FAR + 500000n);
    const again = jabulghi.seed(...GOOD).skip(FAR), first = all.subarray(0, 6);
    assert.deepEqual(again[`look${name}`](6), first.slice());
    assert.deepEqual(again[`pair${name}`](), first.slice(0, 2));
    const kept = again.bytes.slice();
    assert.deepEqual(again.ask(2)[`take${name}`](4), first.slice(2));
    again.bytes.set(kept);
    assert.deepEqual(again[`block${name}`](4), first.slice(2));
    const within = new Kind(8).fill(7);
    assert.deepEqual(again[`look${name}`](within.subarray(1, 5)), within.subarray(1, 5));
    assert.deepEqual([within[0], within[5]], [7, 7]);
  }
  assert.deepEqual([...jabulghi.sample(0, 0), ...jabulghi.sample(2n ** 48n - 1n, 65535)], [0, 16879, 0, 0]);
  assert.deepEqual([...jabulghi.sample18(0, 49152)], [-67517, 0]);
}

function requests() {
  const record = jabulghi.seed(...GOOD), six = new Int16Array(6).fill(7), wide = new Int32Array(6).fill(7), all = [record.bytes, six, wide];
  assert.deepEqual([record.registers, record.count, record.open, record.asked], [GOOD, 0n, false, 0]);
  refused(CODES.NO_REQUEST, () => record.take(six), ...all);
  refused(CODES.NO_REQUEST, () => record.take18(wide), ...all);
  refused(CODES.NO_REQUEST, () => record.giveUp(), ...all);
  refused(CODES.WRONG_REQUEST, () => record.ask(1000001), ...all);
  assert.deepEqual([record.ask(2).open, record.asked, record.count], [true, 2, 0n]);
  for (const call of [() => record.pair(), () => record.pair18(), () => record.block(six), () => record.block18(wide), () => record.skip(0), () => record.ask(1)]) {
    refused(CODES.REQUEST_OPEN, call, ...all);
  }
  refused(CODES.WRONG_REQUEST, () => record.take(six), ...all);
  refused(CODES.WRONG_REQUEST, () => record.take18(wide), ...all);
  assert.deepEqual([record.giveUp().open, record.count], [false, 0n]);
  for (const [call, array] of [['block', six], ['look', six], ['block18', wide], ['look18', wide]]) refused(CODES.ODD_LENGTH, () => record[call](array.subarray(1)), ...all);
  record.skip(MOST - 2n);
  for (const [call, array] of [['block', six], ['look', six], ['block18', wide], ['look18', wide], ['skip', 3], ['ask', 3]]) refused(CODES.COUNT_FULL, () => record[call](array), ...all);
  for (const [code, place] of [[CODES.UNFIT_STREAM_B, 3], [CODES.UNFIT_STREAM_A, 0]]) {
    new Uint32Array(record.bytes.buffer)[place] = 1;
    for (const call of [() => record.pair(), () => record.block(six), () => record.look18(wide), () => record.skip(1), () => record.ask(1), () => record.giveUp(), () => record.take(six)]) {
      refused(code, call, ...all);
    }
  }
  assert.match(refused(CODES.UNFIT_STREAM_A, () => jabulghi.seed(1, 8, 16, 1, 8, 16)).message, /^a register of stream a below its minimum \(11\)$/);
  refused(CODES.UNFIT_STREAM_B, () => jabulghi.seed(2, 8, 16, 1, 8, 16));
  assert.equal(refused(CODES.K_TOO_LARGE, () => jabulghi.sample(2 ** 48, 65536)).message, 'k of 2^48 or more (2)');
  refused(CODES.K_TOO_LARGE, () => jabulghi.sample18(MOST, 0));
  refused(CODES.V_TOO_LARGE, () => jabulghi.sample(0, 65536));
}

function windowsAndMarks() {
  const window = jabulghi.window(3).push(100).pushAll(new Int16Array([5, -6, 7, -32768, 32767]));
  assert.deepEqual([window.size, window.held, window.sum, window.squares], [3, 3, 6, 2147418162]);
  assert.equal(window.pushAll(new Int16Array()).sum, 6);
  assert.deepEqual([window.make(4096).held, window.sum], [0, 0]);
  refused(CODES.UNFIT_WINDOW, () => jabulghi.window(0));
  refused(CODES.UNFIT_WINDOW, () => jabulghi.window(4097));
  new Uint32Array(window.bytes.buffer)[1] = 4097;
  assert.throws(() => window.push(1), { code: CODES.UNFIT_WINDOW });
  assert(window.bytes.every(byte => byte === 0), 'an unfit window becomes zeros');

  const marks = jabulghi.marks(), record = jabulghi.seed(...GOOD), kept = marks.save(record, 'D7').bytes.slice(), first = record.block(100), all = [marks.bytes, record.bytes];
  assert.deepEqual(marks.return(record, 'D7') && record.block(100), first);
  for (const name of ['', 'ABCDEFGHIJKLM', 'D-7', 'Höhle']) {
    for (const call of [() => marks.save(record, name), () => marks.return(record, name), () => marks.drop(name)]) refused(CODES.BAD_NAME, call, ...all);
  }
  refused(CODES.NAME_NOT_HELD, () => marks.return(record, 'd7'), ...all);
  refused(CODES.NAME_NOT_HELD, () => marks.drop('d7'), ...all);
  record.ask(1);
  refused(CODES.REQUEST_OPEN, () => marks.save(record, 'D7'), ...all);
  record.giveUp();
  for (let j = 1; j < 16; j++) marks.save(record, `S${j}`);
  refused(CODES.MARKS_FULL, () => marks.save(record, 'T'), ...all);
  // Each mark stands where the header's struct has it: used, length, name, record.
  for (let j = 0; j < 16; j++) {
    const word = j === 0 ? 'D7' : `S${j}`, part = (at, size) => Buffer.from(marks.bytes.buffer, at, size);
    assert.deepEqual([part(4 * j, 4).readUInt32LE(), part(64 + 4 * j, 4).readUInt32LE()], [1, word.length]);
    assert.equal(part(128 + 12 * j, 12).toString(), word.padEnd(12, '\0'));
    assert.deepEqual([...part(320 + 40 * j, 40)], [...(j === 0 ? jabulghi.seed(...GOOD) : record).bytes], `the record of ${word}`);
  }
  for (let j = 1; j < 16; j++) marks.drop(`S${j}`);
  assert.deepEqual(marks.bytes, kept);
}

// Length 0, and texts of no byte.
function nothing() {
  const record = jabulghi.seed(...GOOD), before = record.bytes.slice();
  for (const call of ['block', 'block18', 'look', 'look18']) assert.equal(record[call](0).length, 0);
  assert.equal(record.ask(0).take(0).length + record.ask(0).take18(new Int32Array()).length, 0);
  assert.deepEqual(record.skip(0).bytes, before);
  assert.equal(refused(CODES.WRONG_PLACE, () => jabulghi.list('')).line, 1);
  assert.equal(refused(CODES.NO_LEG, () => jabulghi.legs('')).line, 1);
  assert.equal(refused(CODES.NO_FORM, () => jabulghi.misclosure(new Uint8Array())).line, 1);
  assert.equal(refused(CODES.NO_FORM, () => jabulghi.intervals('')).line, 1);
}

// Examples and broken texts: lines, misses and sentences are those of the command.
function beside(word, text) {
  const call = word === 'misses' ? (`${text}`.startsWith('FROM TO LOW HIGH STEP\n') ? 'intervals' : 'misclosure') : word, { status, stdout, stderr } = run([word], text);
  if (status === 0) {
    for (const given of [`${text}`, new Uint8Array(Buffer.from(`--${text}`)).subarray(2)]) {
      const answer = jabulghi[call](given), { east, north } = answer;
      assert.equal(typeof answer === 'string' ? answer : `EAST ${[east].flat().join(' ')}\nNORTH ${[north].flat().join(' ')}\n`, `${stdout}`, word);
    }
  } else {
    const [, line = '0', sentence, code] = stderr.match(/^standard input(?::(\d+))?: (.*) \((\d+)\)\n$/), thrown = refused(Number(code), () => jabulghi[call](text));
    assert.deepEqual([thrown.line, thrown.sentence], [Number(line), sentence]);
    heard.add(sentence);
  }
}

function texts() {
  const SEEDS = '(seeds (a 2 8 16) (b 2 8 16))\n', SIGMA = '(sigma 4 10)\n', SHOT = '(shot A1 A2 12345 4500)\n', DATA = '*data normal from to tape compass clino\n';
  const HEADER = 'FROM TO MM STEP\n', BETWEEN = 'FROM TO LOW HIGH STEP\n', shot = `${SEEDS}${SIGMA}(shot A1 A2`;
  const jobs = [example('traverse.job'), example('loop.job'), `${SEEDS}${SIGMA}`, `${shot} 1000001 65536)\n`, `${shot} 1000000 65536)\n`, `${SEEDS}(sigma 4 1001)\n`, `${shot}  1 2)\n`,
    `(seeds (a 2 8 16) (b 2 8 4294967296))\n${SIGMA}`, `(seeds (a 1 8 16) (b 1 8 16))\n${SIGMA}`, `(seeds (a 2 8 16) (b 2 7 16))\n${SIGMA}`, `${shot} 1 2)`, `${SEEDS.trim()}\r\n`,
    `${SEEDS}${SHOT}`, SEEDS, '', SEEDS + SIGMA + SHOT.repeat(500), SEEDS + SIGMA + SHOT.repeat(501), `(${'\n'.repeat(60001)}`, '(Höhle\n'];
  const surveys = [example('loop.svx'), example('streamway.svx'), example('dotted.svx'), DATA, `${DATA}A B 1 0 -3\n`, `; c\n${DATA}A B 1.2345 0 0\n`, `${DATA.trim()}\r\n`, `${DATA}A B 1 0 0\r\n`,
    `${DATA}A B 1 0 0`, '; c\n', DATA + 'A B 9 9 0\n'.repeat(1000), DATA + 'ABCDEFGHIJKL B 9 9 0\n'.repeat(100000)];
  const listings = [jabulghi.list(example('loop.job')), example('tape-book.listing'), HEADER, BETWEEN, `${HEADER}A1 A2 5 5\nEND 2\n`, `${HEADER.trim()}\r\nEND 0\r\n`, `${HEADER}END 0`,
    `${HEADER}END 0\n`,
    `${HEADER}A1 A2 1008243 5\nEND 1\n`, `${BETWEEN}A1 A2 5 4 5\nEND 1\n`, `${HEADER}A1 A2 5 5\na2 A3 5 5\nEND 2\n`, HEADER + 'A A 1 1\n'.repeat(501), `${BETWEEN}A B 10 20 0\nEND 1\n`];
  for (const [word, all] of [['list', jobs], ['legs', surveys], ['misses', listings]]) for (const text of all) beside(word, text);
  const { sums } = jabulghi.misclosure(`${HEADER}A1 A2 1 32768\nEND 1\n`);
  assert.deepEqual(sums, new BigInt64Array([0n, -1073741824n]));
}

// A play is the miss of the job with the seeds that its record has there.
function plays() {
  const job = `${example('loop.job')}`, shots = job.match(/^\(shot/gm).length, [seeds, ...rest] = job.split('\n'), first = 2n ** 50n, misses = jabulghi.play(job, 5, first);
  for (let j = 0; j < 5; j++) {
    const [a0, a1, a2, b0, b1, b2] = jabulghi.seed(...seeds.match(/\d+/g).map(Number)).skip((first + BigInt(j)) * BigInt(shots)).registers;
    const { east, north } = jabulghi.misclosure(jabulghi.list([`(seeds (a ${a0} ${a1} ${a2}) (b ${b0} ${b1} ${b2}))`, ...rest].join('\n')));
    assert.deepEqual([...misses.subarray(2 * j, 2 * j + 2)], [east, north]);
  }
  assert.deepEqual(jabulghi.play(job, 1).join(), jabulghi.play(job, 2, 0).subarray(0, 2).join());
  assert.equal(jabulghi.play(job, 0).length, 0);
  assert.equal(refused(CODES.COUNT_FULL, () => jabulghi.play(job, 1, MOST)).line, 0);
  assert.equal(refused(CODES.OTHER_STATION, () => jabulghi.play(job.replace(/(\(shot \w+ )\w+/, '$1ELSEWHERE'), 1)).line, 4);
  for (const wrong of [() => jabulghi.play(job), () => jabulghi.play(job, '1'), () => jabulghi.play(5, 1)]) assert.throws(wrong, TypeError);
  for (const wrong of [() => jabulghi.play(job, -1), () => jabulghi.play(job, 1, 2n ** 64n), () => jabulghi.play(job, 2 ** 32)]) assert.throws(wrong, RangeError);
}

// Arguments of a wrong type or beyond what C's type holds are exceptions, no refusals, and change nothing.
function badArguments() {
  const record = jabulghi.seed(...GOOD), window = jabulghi.window(3), marks = jabulghi.marks(), before = record.bytes.slice();
  const wrong = {
    TypeError: [() => jabulghi.seed(), () => jabulghi.seed('2', 8, 16, 2, 8, 16), () => jabulghi.seed(2, 8, 16, 2, 8), () => jabulghi.sample('1', 0), () => jabulghi.sample(0),
      () => jabulghi.sample(0, null),
      () => record.block(), () => record.block('8'), () => record.block(8n), () => record.block([7, 7]), () => record.block(null), () => record.block(new Int32Array(2)),
      () => record.block(new Uint16Array(2)),
      () => record.block18(new Int16Array(2)), () => record.look18(new Float64Array(2)), () => record.take(new DataView(new ArrayBuffer(4))), () => record.skip('1'), () => record.skip(),
      () => record.ask({}),
      () => jabulghi.list(), () => jabulghi.list(5), () => jabulghi.legs(null), () => jabulghi.misclosure(new Uint16Array(2)), () => jabulghi.intervals(['x']), () => jabulghi.window('3'),
      () => window.push('1'), () => window.pushAll([1]), () => window.pushAll(new Int32Array(2)), () => marks.save({}, 'D7'), () => marks.save(record), () => marks.return(record, 7),
      () => marks.drop()],
    RangeError: [() => jabulghi.seed(-2, 8, 16, 2, 8, 16), () => jabulghi.seed(2 ** 32, 8, 16, 2, 8, 16), () => jabulghi.seed(2.5, 8, 16, 2, 8, 16), () => jabulghi.seed(NaN, 8, 16, 2, 8, 16),
      () => jabulghi.sample(-1, 0), () => jabulghi.sample(2n ** 64n, 0), () => jabulghi.sample(0, -1), () => jabulghi.sample18(0, 2 ** 32), () => record.block(-2), () => record.block(2.5),
      () => record.block(Infinity),
      () => record.block(2 ** 32), () => record.block18(2 ** 30), () => record.skip(-1), () => record.skip(-1n), () => record.skip(2 ** 53), () => record.skip(2n ** 64n),
      () => record.skip(0.5), () => record.ask(-1),
      () => record.ask(2 ** 32), () => jabulghi.window(-1), () => jabulghi.window(1.5), () => window.push(32768), () => window.push(-32769), () => window.push(0.5)],
  };
  for (const name in wrong) for (const call of wrong[name]) assert.throws(call, { name }, `${call}`);
  assert.deepEqual([record.bytes, window.held, marks.bytes], [before, 0, new Uint8Array(960)]);
  assert.equal(jabulghi.seed(...GOOD.map(BigInt)).block(2)[0], 1877);
}

for (const part of [names, samples, requests, windowsAndMarks, nothing, texts, plays, badArguments]) part();
// A listing longer than its buffer alone is not met: the module makes room for every listing.
assert.deepEqual(Object.values(CODES).filter(code => code !== CODES.OK && !met.has(code)), [CODES.LISTING_TOO_LONG]);
console.log(`jabulghi.js: 10^6 samples of each width as here, ${met.size} refusals, ${heard.size} sentences as the command's`);
