// The page's modules in node: node modules.mjs MODULES WASM COMMAND. The Worker's verdicts are the command's for the same seeds, and every sentence of it is shown.
import assert from 'node:assert/strict';
import { spawnSync } from 'node:child_process';
import { mkdtempSync, readFileSync, rmSync, writeFileSync } from 'node:fs';
import { tmpdir } from 'node:os';
import { join, resolve } from 'node:path';

const [modules, wasm, command] = process.argv.slice(2), root = new URL('../../', import.meta.url), module = name => import(resolve(modules, name));
const { loadJudge } = await module('check.js'), { load } = await module('jabulghi.js'), { checkCave, refusedError } = await module('worker.js'), { largeCave } = await module('large.js');
const { rootsOf, textOf } = await module('files.js'), { measureOf, optionsOf, playsOf, seedsOf } = await module('fields.js'), { partsOf } = await module('said.js');
const { loopRow, sortLoops, worstLoops } = await module('loops.js'), { pairName, placeLabels } = await module('labels.js'), { ellipseOf, statisticsOf, withinOf } = await module('draw.js');
const { placed, roundLength } = await module('places.js');
const { headline, levelOf } = await module('show.js'), judge = await loadJudge(readFileSync(wasm)), folder = mkdtempSync(join(tmpdir(), 'jabulghi-page-'));
const SEEDS = '3770694558,3532774216,2901327257,4093209576,2137023497,2889436789', bytes = text => new TextEncoder().encode(text);
const CAVE = readFileSync(new URL('examples/cave.svx', root), 'utf8'), BLUNDER = CAVE.replace('5\t6\t13.74\t115', '5\t6\t13.74\t151'), DATA = '*data normal from to tape compass clino\n';
const run = (...words) => spawnSync(command, words, { cwd: folder, encoding: 'utf8', maxBuffer: 1 << 28 }).stdout;

// The file that includes the others, by any way of writing it.
function files() {
  const of = given => rootsOf(Object.entries(given).map(([name, text]) => ({ name, bytes: bytes(text) }))).map(({ name }) => name);
  assert.deepEqual(of({ 'b.svx': '', 'a.svx': '*include b\n' }), ['a.svx']);
  assert.deepEqual(of({ 'x/B.SVX': '', 'x/c d.svx': '', 'x/a.svx': ' *INCLUDE "..\\x\\b"\n*include "c d"; both\n' }), ['x/a.svx']);
  assert.deepEqual(of({ 'one.svx': '', 'two.svx': '*include three.svx\n', 'three.svx': '' }), ['two.svx', 'one.svx'], 'that with the most files first');
  assert.deepEqual(of({ 'a.svx': '*include b', 'b.svx': '*include a' }), ['a.svx', 'b.svx'], 'a circle');
  assert.equal(textOf(Uint8Array.of(0x52, 0x69, 0x61, 0xf1, 0x6f)), 'Riaño');
  assert.equal(textOf(bytes('Riaño')), 'Riaño');
}

function fields() {
  const good = [['10', 'mm', '10mm'], ['1,5', 'cm', '1.5cm'], ['0.5 m', 'mm', '0.5m'], [' ,5 ', 'm', '0.5m'], ['3.', 'cm', '3cm'], ['2MM', 'm', '2mm'], ['', 'mm', undefined]];
  for (const [given, unit, made] of good) assert.equal(measureOf('tape', true, given, unit), made, given);
  for (const [given, made] of [['0,5', '0.5deg'], ['1°', '1deg'], ['2 degrees', '2deg'], ['.25 deg', '0.25deg']]) assert.equal(measureOf('compass', false, given, ''), made, given);
  for (const given of ['1,000.5', 'x', '-1', '1e3', '5 deg', '1.2.3']) assert.throws(() => measureOf('tape', true, given, 'mm'), { name: 'Wrong', field: 'tape' }, given);
  assert.throws(() => measureOf('compass', false, '5 mm', ''), { name: 'Wrong' });
  assert.deepEqual(['1000', '10,000', '1 000 000', '10.000', 'many'].map(playsOf), ['1000', '10000', '1000000', '10000', 'many']);
  assert.equal(seedsOf('(seeds (a 1 2 3) (b 4 5 6))'), '1,2,3,4,5,6');
  const given = { tape: '1', tapeUnit: 'cm', compass: '0,5', clino: '', station: '', stationUnit: 'mm', fix: '2', fixUnit: 'm', trip: '1', plays: '500', seeds: '' };
  assert.deepEqual(optionsOf(id => given[id]), { plays: '500', seeds: '', sigma: 'tape=1cm,compass=0.5deg,fix=2m', trip: '1deg' });
}

// Green only where the cave and every loop are sound.
function colours() {
  const good = { sound: true, too_well: false }, bad = { sound: false, too_well: false }, close = { sound: true, too_well: true };
  const cases = [[true, [good, good], false, 'good'], [true, [good, bad], false, 'doubt'], [true, [good, close], false, 'doubt'], [true, [good], true, 'doubt'],
    [false, [good], false, 'bad'], [null, [], false, 'none']];
  for (const [sound, loops, tooWell, level] of cases) assert.equal(levelOf({ sound, loops, too_well: tooWell }), level);
}

// Labels lie in the view, and none on another.
function labels() {
  assert.equal(pairName('cave.main.5', 'cave.main.6'), 'cave.main.5 – 6');
  assert.equal(pairName('a.1', 'b.1'), 'a.1 – b.1');
  assert.equal(pairName('averylongcave.averylongpassage.5', 'x.1'), 'averylongpassage.5 – x.1');
  const many = Array.from({ length: 30 }, (_, j) => ({ words: `label ${j}`, kind: 'name', x: 150 + j, y: 100 + j % 3, needed: true })), made = placeLabels(many, 300, 200);
  assert(made.length >= 8, `${made.length} of 30`);
  for (const [j, { words, x, y }] of made.entries()) {
    assert(x >= 0 && x + 7.6 * words.length <= 300 && y <= 200 && y >= 14);
    for (const other of made.slice(j + 1)) assert(Math.abs(other.y - y) >= 18 || Math.abs(other.x - x) >= 7.6 * Math.min(words.length, other.words.length), `${words} on ${other.words}`);
  }
}

// North is up and east is right, and large coordinates lose no digits.
function plan() {
  const { legs: [{ ends }], width, height } = placed([{ ends: [4500100.25, 200, 4500110.5, 230], loops: [] }]);
  assert.deepEqual([ends, width, height], [[0, 30, 10.25, 0], 10.25, 30]);
  assert.deepEqual([7, 3, 1.2, 0.9].map(roundLength), [5, 2, 1, 0.5]);
}

function pictures() {
  const plays = 4000, misses = new Float64Array(2 * plays), samples = jabulghi.seed(...SEEDS.split(',').map(Number)).block(2 * plays);
  samples.forEach((sample, j) => { misses[j] = sample / 2048 * (j % 2 === 0 ? 3 : 1); });
  const kept = statisticsOf(misses);
  assert(Math.abs(Math.sqrt(kept.longer) - 3) < 0.15 && Math.abs(Math.sqrt(kept.shorter) - 1) < 0.05 && Math.abs(Math.sin(kept.turn)) < 0.05);
  assert.deepEqual([withinOf({ distances: [1, 2, 3, 4] }, 0.5), withinOf({ distances: [1, 2, 3, 4] }, 0.95)], [2, 4]);
  assert.deepEqual([[1, 0.5], [6, 0], [0, 3], [0, 5]].map(miss => ellipseOf(kept, miss)), [0.5, 0.95, 0.999, undefined]);
}

// What the Worker tells: progress, a first verdict by 100 plays, and the last; each is the command's.
async function verdicts(name, text, options = {}) {
  writeFileSync(join(folder, name), text);
  const told = [], given = ['check', name, '--seeds', SEEDS, ...Object.entries(options).flatMap(([option, value]) => [`--${option}`, value])];
  await checkCave(judge, [{ name, bytes: bytes(text) }], { seeds: SEEDS, plays: 300, ...options }, message => told.push(message), () => false);
  const found = told.filter(({ kind }) => kind === 'verdict'), alone = found.length === 1;
  assert.deepEqual(found.map(({ done, last }) => [done, last]), alone ? [[0, true]] : [[100, false], [300, true]]);
  for (const { verdict, done } of found) {
    assert.equal(verdict.jsonText, run(...given, '--plays', done || 300, '--json'), name);
    assert.equal(verdict.text, run(...given, '--plays', done || 300), name);
  }
  assert(alone || told.filter(({ kind }) => kind === 'progress').at(-1).done === 300);
  return found.at(-1).verdict;
}

// Every line of the verdict's text stands in a part of the page, once; the rows are those of --loops.
function shown({ text, json }, name) {
  const parts = partsOf(text), said = [...parts.about, ...parts.verdict, ...parts.suspects.flat(), ...parts.suspectsSaid, ...parts.loops, ...parts.say, ...parts.seeds];
  const wanted = text.trimEnd().split('\n').filter(line => !/^(Look at| loop +legs| +\d+ +\d+ |--loops|and \d+ more)/.test(line)).map(line => line.trim().replace('; --sigma replaces them', ''));
  assert.deepEqual(said, wanted.map(line => (/^(Loops|The loop)/.test(line) ? line.replace(/:$/, '.') : line)), name);
  assert.doesNotMatch(headline(parts), /\. [A-Z]|undefined/, name);
  const rows = json.loops.map(loopRow), printed = run('check', name, '--seeds', SEEDS, '--plays', '300', '--loops').split('\n').filter(line => /^ +\d+ +\d+ /.test(line));
  const cells = printed.map(line => line.trim().split(/\s+/).map(Number)), made = rows.map(row => [row.number, row.legs, row.length, row.misses, row.percent].map(Number));
  assert.equal(made.length, cells.length, name);
  const units = [0, 0, 0.101, 0.0101, 0.0101]; // json has its numbers rounded, so that a last digit can differ by one
  made.forEach((row, j) => row.forEach((cell, k) => assert(Math.abs(cell - cells[j][k]) <= units[k], `${name}, loop ${j + 1}: ${cell}, ${cells[j][k]}`)));
  assert.deepEqual(sortLoops(rows, { key: 'length', up: false }).map(({ length }) => Number(length)), rows.map(({ length }) => Number(length)).sort((one, other) => other - one));
  assert.equal(worstLoops(rows, 1)[0], rows.length === 0 ? undefined : rows.reduce((worst, row) => (row.share < worst.share ? row : worst)).number);
}

// Stopped, it judges by the plays so far; an error that is refused is named.
async function ends() {
  const told = [];
  await checkCave(judge, [{ name: 'a.svx', bytes: bytes(BLUNDER) }], { seeds: SEEDS, plays: 100000 }, message => told.push(message), () => told.some(({ done }) => done > 150));
  assert(told.at(-1).last && told.at(-1).done > 150 && told.at(-1).done < 100000 && told.at(-1).verdict.json.plays === told.at(-1).done);
  assert.equal((await refusedError(judge, 'tape=10mm,compass=91deg,clino=99deg')).field, 'compass');
  const wrong = [];
  await checkCave(judge, [{ name: 'a.svx', bytes: bytes(BLUNDER) }], { plays: 300, sigma: 'tape=10mm,station=1000m' }, message => wrong.push(message), () => false);
  assert.deepEqual(wrong.map(({ kind, troubles: [{ field, option }] }) => [kind, field, option]), [['refused', 'station', '--sigma']]);
}

const jabulghi = await load(readFileSync(wasm)), large = largeCave(jabulghi);
files();
fields();
colours();
labels();
plan();
pictures();
const surveys = { 'cave.svx': CAVE, 'blunder.svx': BLUNDER, 'one.svx': `${DATA}a b 5 0 0\nb c 5 120 0\nc a 5.3 240 0\n`, 'none.svx': `${DATA}a b 5 0 0\n`,
  'exact.svx': `${DATA}a b 5 0 0\nb c 5 120 0\nc a 5 240 0\n`, 'large.svx': large };
for (const [name, text] of Object.entries(surveys)) shown(await verdicts(name, text), name);
await verdicts('cave.svx', CAVE, { sigma: 'tape=5mm,compass=0.2deg,clino=0.2deg,station=5mm', trip: '0.5deg' });
await ends();
rmSync(folder, { recursive: true });
console.log(`the page's Worker gives the command's verdicts of ${Object.keys(surveys).length} surveys, and the page has every sentence of them; files, fields, colours, labels, plan and pictures`);
