// check and tolerance of web/check.js beside the command: on the examples and on made surveys (500, or the third argument) texts, JSON, pictures, what is said on
// standard error and the exit status are the same, byte for byte; files, messages, misuse, stops and steps. Arguments: target/wasm32, the command, how many.
import assert from 'node:assert/strict';
import { spawnSync } from 'node:child_process';
import { mkdtempSync, readFileSync, rmSync, writeFileSync } from 'node:fs';
import { tmpdir } from 'node:os';
import { join, resolve } from 'node:path';
import { madeOf } from './made.mjs';

const folder = resolve(process.argv[2]), command = resolve(process.argv[3]), made = Number(process.argv[4] ?? 500), first = 1000 * Number(process.env.JABULGHI_SEED ?? 1);
const { loadJudge } = await import(join(folder, 'check.js')), { load } = await import(join(folder, 'jabulghi.js'));
const wasm = readFileSync(join(folder, 'jabulghi.wasm')), judge = await loadJudge(wasm), jabulghi = await load(wasm);
const examples = resolve('examples'), room = mkdtempSync(join(tmpdir(), 'judge-'));
const SEEDS = '3770694558,3532774216,2901327257,4093209576,2137023497,2889436789';

// What the command prints of a file in this folder, with options as check.js takes them, and one flag.
function printed(name, file, options, ...flags) {
  const words = Object.entries(options).flatMap(([option, value]) => [`--${option}`, String(value)]);
  const { stdout, stderr, status } = spawnSync(command, [name, ...words, ...flags, file], { encoding: 'utf8', maxBuffer: 2 ** 28 });
  return { stdout, stderr, status };
}

// The first line in which two texts differ.
function same(what, theirs, ours) {
  if (theirs === ours) return;
  const a = theirs.split('\n'), b = ours.split('\n'), at = a.findIndex((line, j) => line !== b[j]);
  assert.fail(`${what}, line ${at + 1}:\n  the command: ${a[at]}\n  check.js:    ${b[at]}`);
}

// One case beside the command; the status.
async function beside(name, files, options) {
  const what = `${name} ${files[0].name} ${JSON.stringify(options)}`, svg = join(room, 'plan.svg'), text = printed(name, files[0].name, options);
  const json = printed(name, files[0].name, options, '--json', '--svg', svg), verdict = await judge[name](files, options);
  assert.deepEqual([text.status, json.status], [verdict.status, verdict.status], what);
  same(`${what}: text`, text.stdout, verdict.text);
  same(`${what}: JSON`, json.stdout, verdict.jsonText);
  same(`${what}: standard error`, text.stderr, verdict.said);
  if (verdict.json !== null) same(`${what}: SVG`, readFileSync(svg, 'utf8'), verdict.svg);
  return verdict;
}

async function examplesBeside() {
  process.chdir(examples);
  for (const name of ['cave.svx', 'streamway.svx', 'dotted.svx', 'loop.svx', 'loop.job', 'traverse.job', 'tape-book.listing']) {
    const files = [{ name, bytes: new Uint8Array(readFileSync(name)) }];
    await beside('check', files, { seeds: SEEDS });
    await beside('tolerance', files, { seeds: SEEDS, sigma: 'tape=10mm,compass=1deg,clino=1deg,station=50mm', runs: 2000 });
  }
}

async function madeBeside() {
  const counts = { check: {}, tolerance: {} };
  process.chdir(room);
  for (let j = 0; j < made; j++) {
    const { files, check, tolerance } = madeOf(first + j);
    for (const { name, bytes } of files) writeFileSync(name, bytes);
    for (const [name, options] of [['check', check], ['tolerance', tolerance]]) {
      const { status } = await beside(name, files, options);
      counts[name][status] = (counts[name][status] ?? 0) + 1;
    }
    for (const { name } of files) rmSync(name);
  }
  return counts;
}

// Files by path and by the last part of their names; messages name them, and the map says which was meant.
async function files() {
  const inner = 'a b 10 0 0\nb c 10 120 0\nc a x 240 0\n', outer = '*begin top\n*include "Part/Inner"\n*end top\n';
  const beside = await judge.check([{ name: 'top.svx', bytes: outer }, { name: 'inner.SVX', bytes: inner }]);
  assert.deepEqual([beside.status, beside.json, beside.text], [2, null, '']);
  assert.deepEqual(beside.files, { 'Part/Inner.svx': 'inner.SVX' });
  assert.deepEqual(beside.troubles, [{ file: 'Part/Inner.svx', line: 3, option: '', text: 'tape is no number (x)' }]);
  const whole = [{ name: 'other.svx', bytes: 'x' }, { name: 'dir/Part/Inner.svx', bytes: inner.replace('x', '10.5') }, { name: 'dir/top.svx', bytes: outer }];
  const found = await judge.check(whole, { main: 'dir/top.svx', seeds: SEEDS });
  assert.deepEqual([found.status, found.troubles, found.json.loops[0].file], [found.json.sound ? 0 : 1, [], 'dir/Part/Inner.svx']);
  const missing = await judge.check([{ name: 'top.svx', bytes: outer }]);
  assert.deepEqual(missing.troubles.map(({ file, line }) => [file, line]), [['top.svx', 2]]);
  const empty = await judge.check([{ name: 'empty.svx', bytes: '' }]);
  assert.equal(empty.status, printed('check', '/dev/null', {}).status);
}

async function messages() {
  const ring = [{ name: 'ring.svx', bytes: 'a b 10 0 0\nb c 10 120 0\nc a 10.02 240 0\na d 3 5 0\n' }];
  const wrong = [[{ sigma: 'foo' }, '--sigma'], [{ plays: 99 }, '--plays'], [{ plays: 'many' }, '--plays'], [{ seeds: '1,2' }, '--seeds'], [{ trip: '1mm' }, '--trip'], [{ first: -1 }, '--first']];
  for (const [options, option] of wrong) {
    const { status, troubles } = await judge.check(ring, options);
    assert.deepEqual([status, troubles.length, troubles[0].option, troubles[0].file], [2, 1, option, ''], JSON.stringify(options));
  }
  const { troubles } = await judge.tolerance([{ name: 'two.svx', bytes: 'a b 10 0 0\nb c 10 120 0\nc a 10 240 0\nb d 10 60 0\nd c 10 180 0\n' }], { sigma: '4mm,1deg' });
  assert.equal(troubles.length, 1);
  assert.match(troubles[0].text, /^several loops; choose one by --loop N\n {2}--loop 1: /);
}

// Steps: a verdict after 100 plays, then of all; the same as at once; stops; loops and misses.
async function steps() {
  process.chdir(examples);
  const files = [{ name: 'cave.svx', bytes: readFileSync('cave.svx', 'utf8') }], options = { seeds: SEEDS.split(',').map(Number), plays: 300 }, cave = await judge.read(files, options);
  assert.deepEqual([cave.status, cave.plays, cave.least, cave.done], [0, 300, 100, 0]);
  assert.throws(() => cave.verdict(), RangeError);
  cave.play(100);
  same('100 plays', printed('check', 'cave.svx', { seeds: SEEDS, plays: 100 }, '--json').stdout, cave.verdict().jsonText);
  cave.play(1000);
  same('300 plays', printed('check', 'cave.svx', { seeds: SEEDS, plays: 300 }, '--json').stdout, cave.verdict().jsonText);
  same('all loops', printed('check', 'cave.svx', { seeds: SEEDS, plays: 300 }, '--loops').stdout, (await judge.check(files, { ...options, loops: true })).text);
  const told = [], stopped = await jabulghi.check(files, { ...options, plays: 100000, progress: (done, all) => { told.push([done, all]); return told.length < 2; } });
  assert.deepEqual([told.length, told[1][1], stopped.json.plays], [2, 100000, told[1][0]]);
  const { legs } = cave.plan(), { misses, miss, spread } = cave.loop(1, 200), loop = cave.verdict().json.loops[0];
  assert.equal(legs.length, 86);
  assert.equal(legs.filter(leg => leg.loops.includes(1)).length, loop.legs);
  assert(Math.abs(miss[0] - loop.east_mm) < 0.001 && Math.abs(miss[1] - loop.north_mm) < 0.001);
  const east = misses.filter((_, j) => j % 2 === 0), variance = east.reduce((sum, one) => sum + one * one, 0) / east.length;
  assert(variance > 0.6 * spread[0] && variance < 1.6 * spread[0], `${variance} of ${spread[0]}`);
  assert.throws(() => cave.loop(4, 10), RangeError);
  const runs = await jabulghi.tolerance([{ name: 'loop.job', bytes: readFileSync('loop.job') }], { runs: 10 });
  assert.deepEqual([...runs.misses], [...jabulghi.play(readFileSync('loop.job', 'utf8'), 10)]);
}

async function misuse() {
  for (const wrong of [undefined, [], 'text', [{ name: 'a' }], [{ bytes: 'a' }], [{ name: 1, bytes: 'a' }], [{ name: 'a', bytes: [1] }]]) await assert.rejects(judge.check(wrong), TypeError);
  await assert.rejects(judge.check([{ name: 'a', bytes: '' }], { main: 'b' }), TypeError);
  const drawn = await Promise.all([1, 2].map(() => judge.check([{ name: 'ring.svx', bytes: 'a b 10 0 0\nb c 10 120 0\nc a 10.02 240 0\n' }], { plays: 100 })));
  assert.notDeepEqual(drawn[0].json.seeds, drawn[1].json.seeds);
}

try {
  for (const part of [files, messages, steps, misuse, examplesBeside]) await part();
  console.log('check.js: files, messages, steps and stops; the examples as the command prints them, to the last digit');
  const { check, tolerance } = await madeBeside();
  assert(made < 500 || ([0, 1, 2].every(status => check[status] > 20) && tolerance[0] > 50 && tolerance[1] > 50), JSON.stringify({ check, tolerance }));
  const caves = `${check[0]} sound or without a loop, ${check[1]} not sound, ${check[2]} refused`, loops = `${tolerance[0]} loops played, ${tolerance[1] + (tolerance[2] ?? 0)} refused`;
  console.log(`check.js: ${made} made surveys as the command: ${caves}; ${loops}`);
} finally {
  rmSync(room, { recursive: true, force: true });
}
