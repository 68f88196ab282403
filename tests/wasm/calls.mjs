// The cases of tests/calls.c, through the exports of jabulghi.wasm: prints tests/calls.expected.
import { again, call, record, room, shown, string, text } from './memory.mjs';

const MOST = 2n ** 64n - 1n, LISTING_ROOM = 20480;
const SEEDS = '(seeds (a 2 8 16) (b 2 8 16))\n', EXAMPLE = `${SEEDS}(sigma 4 10)\n(shot A1 A2 12345 4500)\n(shot A2 A3 9000 65530)\n`;
const DATA = '*data normal from to tape compass clino\n', HEADER = 'FROM TO MM STEP\n', BETWEEN = 'FROM TO LOW HIGH STEP\n';
const say = line => console.log(line);

const seed = (r, a0) => say(`seed ${call('seed', a0, 8, 16, 5, 60, 700, r)}:${shown(r)}`);
const skip = (r, n) => say(`skip ${n} ${call('skip', r, n)}: record${shown(r)}`);
const ask = (r, n) => say(`ask ${n} ${call('ask', r, n)}: record${shown(r)}`);
const giveUp = r => say(`give up ${call('give_up', r)}: record${shown(r)}`);

function sample(k, v) {
  const s = room(Int16Array, 2).fill(7);
  say(`sample ${call('sample', k, v, s)}: ${s[0]} ${s[1]}`);
}
function pair(r) {
  const s = room(Int16Array, 2).fill(7);
  say(`pair ${call('pair', r, s)}: ${s[0]} ${s[1]}, record${shown(r)}`);
}
function fill(name, r, length) {
  const s = room(Int16Array, 6).fill(7);
  say(`${name} ${call(name, r, s.subarray(0, length), length)}: ${s.join(' ')}, record${shown(r)}`);
}

function records() {
  const r = record(), unfit = record([2, 8, 16, 2, 8, 15], MOST, 0, 0), bothUnfit = record([2, 7, 16, 2, 8, 15], 7n, 0, 0);
  seed(r, 1), seed(r, 2);
  sample(1n, 49152), sample(1n << 40n, 24576), sample(1n << 48n, 65536), sample(0n, 65536);
  pair(r), pair(unfit);
  fill('look', r, 4), fill('block', r, 0), fill('block', r, 4), fill('look', r, 5), fill('look', unfit, 5), fill('block', r, 5), fill('block', unfit, 5);
  skip(r, 0n), skip(r, 1n), skip(r, 1000n), skip(r, MOST), skip(unfit, 0n), skip(unfit, MOST), skip(bothUnfit, 1n), skip(r, MOST - r.counts[0] - 2n);
  fill('look', r, 6), fill('look', r, 4), fill('block', r, 6), fill('block', r, 2), fill('block', r, 4);
  pair(r), pair(r);
  fill('block', r, 0), fill('block', r, 5), fill('block', r, 2);
  skip(r, 0n), skip(r, 1n);
}

function requests() {
  const r = record(), unfit = record([2, 8, 16, 2, 8, 15], 0n, 9, 2), elsewhere = record([2, 8, 16, 2, 8, 16], 0n, 7, 2000000), full = record();
  seed(r, 2);
  fill('take', r, 0), giveUp(r), ask(r, 1000001), ask(r, 2), ask(r, 1), pair(r), fill('block', r, 3), skip(r, 0n), fill('look', r, 4);
  fill('take', r, 5), fill('take', r, 2), fill('take', r, 4), fill('block', r, 2), ask(r, 0), giveUp(r), ask(r, 0), fill('take', r, 0);
  ask(unfit, 1), fill('take', unfit, 4), giveUp(unfit);
  fill('take', elsewhere, 6), fill('look', elsewhere, 2), giveUp(elsewhere);
  elsewhere[9] = 5;
  fill('block', elsewhere, 2), ask(elsewhere, 1);
  full.set(r), full.counts[0] = MOST - 1n;
  ask(full, 2), ask(full, 1);
  full.counts[0] = MOST;
  fill('take', full, 2), giveUp(full);
}

function marks() {
  const used = room(Uint32Array, 16).fill(0), lengths = room(Uint32Array, 16).fill(0), names = room(Uint8Array, 192).fill(0), records = room(BigUint64Array, 80).fill(0n);
  const r = record(), a = record([2, 7, 16, 2, 8, 15], 7n, 1, 0), b = record([2, 8, 16, 2, 8, 15], 7n, 1, 0), first = room(Int16Array, 4), second = room(Int16Array, 4);
  const held = () => Array.from(used, (is, j) => (is ? ` ${j} ${string(names.subarray(12 * j, 12 * j + 12)).replace(/\0.*/s, '')} ${records[5 * j + 3]};` : '')).join('');
  const quiet = (name, key, ...more) => call(`marks_${name}_members`, used, lengths, names, records, ...more, text(key), key.length);
  const save = (from, key) => say(`save ${key} ${quiet('save', key, from)}:${held()}`);
  const back = (to, key) => say(`return ${key} ${quiet('return', key, to)}: count ${to.counts[0]}`);
  const drop = key => say(`drop ${key} ${quiet('drop', key)}:${held()}`);
  call('seed', 2, 8, 16, 5, 60, 700, r);
  save(r, 'D7');
  call('block', r, first, 4);
  save(r, 'ABCDEFGHIJKL'), back(r, 'D7');
  call('block', r, second, 4);
  say(`the same samples: ${first.join() === second.join() ? 'yes' : 'no'}`);
  save(r, ''), save(r, 'ABCDEFGHIJKLM'), save(r, 'D-7'), back(r, 'E1'), back(r, 'E 1'), drop('E1'), drop(''), save(a, ''), back(b, '');
  call('ask', r, 1);
  save(r, ''), back(r, 'D7');
  call('give_up', r);
  for (let j = 0; j < 9; j++) quiet('save', `S${j}`, r);
  for (let j = 9; j > 4; j--) quiet('save', `T${j}`, r);
  save(r, 'T2');
  call('skip', r, 5n);
  save(r, 'D7'), drop('S0'), save(r, 'T2'), back(r, 'T9');
}

function listed(job, size, listing) {
  const line = room(Uint32Array, 1).fill(7), written = room(Uint32Array, 1).fill(7), code = call('list', job, job.length, listing.subarray(0, size), size, line, written);
  return [code, line[0], written[0]];
}
function list(job, size = LISTING_ROOM) {
  again();
  const listing = room(Uint8Array, LISTING_ROOM).fill(0x2d), [code, line, written] = listed(text(job), size, listing);
  say(`list ${code}: line ${line}, length ${written}, listing '${string(listing.subarray(0, written + 3))}'`);
}
function listShots(shots) {
  again();
  const job = `${SEEDS}(sigma 0 0)\n${Array.from({ length: shots }, (_, j) => `(shot A B ${j} ${j})\n`).join('')}`;
  const [code, line, written] = listed(text(job), LISTING_ROOM, room(Uint8Array, LISTING_ROOM));
  say(`${shots} shots ${code}: line ${line}, length ${written}`);
}
function jobs() {
  list(EXAMPLE), list(EXAMPLE, 51), list(`${SEEDS}(sigma 4 10)\n`, 24), list(`${SEEDS}(sigma 4 10)`), list(`${SEEDS}(sigma 4 1001)\n`), list(SEEDS + SEEDS), list(SEEDS);
  list('(seeds (a 1 8 16) (b 2 8 16))\n(sigma 4 10)\n');
  listShots(500), listShots(501);
  list('\n'.repeat(60000)), list('\n'.repeat(60001));
}

function windows() {
  again();
  const w = { size: Uint32Array, held: Uint32Array, place: Uint32Array, places: Int16Array, sum: BigInt64Array, squares: BigInt64Array };
  for (const name in w) w[name] = room(w[name], name === 'places' ? 4096 : 1);
  const samples = room(Int16Array, 5), limit = 1n << 42n;
  samples.set([5, -6, 7, -32768, 32767]);
  const pushed = (name, code) => {
    const others = w.places.subarray(4, 4095).filter(x => x !== 0).length, first = w.places.subarray(0, 4).join(' ');
    say(`${name} ${code}: N ${w.size}, held ${w.held}, place ${w.place}, sums ${w.sum} ${w.squares}, places ${first} .. ${w.places[4095]}, ${others} others`);
  };
  const make = n => pushed('make', call('window_make_members', ...Object.values(w), n));
  const push = sample => pushed('push', call('window_push_members', ...Object.values(w), sample));
  const pushAll = length => pushed('push all', call('window_push_all_members', ...Object.values(w), samples.subarray(0, length), length));
  const marked = () => { for (const name in w) new Uint8Array(w[name].buffer, w[name].byteOffset, w[name].byteLength).fill(7); };
  const full = (held, place, sum) => {
    for (const name in w) w[name].fill(w[name] instanceof BigInt64Array ? 0n : 0);
    w.size[0] = 3, w.held[0] = held, w.place[0] = place, w.sum[0] = sum, w.squares[0] = 21n, w.places.set([1, 2, 4]), w.places[4095] = 9;
  };
  marked(), make(0), marked(), make(4097), marked(), make(4096);
  pushAll(5), make(3), push(100), pushAll(0), pushAll(1), pushAll(5), push(-1);
  full(3, 1, 7n), push(8), full(4, 1, 7n), push(8), full(3, 3, 7n), pushAll(0);
  full(3, 1, limit), push(3), push(3), push(3), full(3, 1, -limit - 1n), push(3), full(3, 1, limit - 1n), pushAll(4);
}

function legs(survey, size = 26) {
  const shots = room(Uint8Array, 64).fill(0x2d), line = room(Uint32Array, 1).fill(7), written = room(Uint32Array, 1).fill(7), t = text(survey);
  const code = call('legs', t, t.length, shots.subarray(0, size), size, line, written);
  say(`legs ${code}: line ${line}, length ${written}, shots '${string(shots.subarray(0, written[0] + 3))}'`);
}
function missed(name, listing, length) {
  const sums = room(BigInt64Array, length).fill(7n), mm = room(BigInt64Array, length).fill(7n), line = room(Uint32Array, 1).fill(7), t = text(listing);
  return { code: call(name, t, t.length, sums, mm, line), sums, mm, line };
}
function miss(listing) {
  const { code, sums, mm, line } = missed('misclosure', listing, 2);
  say(`misclosure ${code}: line ${line}, east ${sums[0]}, north ${sums[1]}, in mm ${mm[0]} and ${mm[1]}`);
}
function interval(listing) {
  const { code, sums, mm, line } = missed('intervals', listing, 4);
  say(`intervals ${code}: line ${line}, sums ${sums.join(' ')}, in mm ${mm.join(' ')}`);
}
function surveys() {
  again();
  const leg = `; c\n${DATA}A B 1000 360 0`;
  legs(`${leg}\n`), legs(`${leg}\n`, 20), legs(leg), legs(`; c\n${DATA}A B 1000.001 360 0\n`), legs('; c\n');
  const rows = ['A1 A2 12356 4527\nA2 A3 9011 8\nEND 2', 'A1 A2 12356 40000\nA2 A1 12356 7232\nEND 2', 'A1 A2 1 32768\nEND 1', 'END 0', 'A1 A2 5 5\nEND 2', 'A1 A2 5 5', 'END 0\nEND 0'];
  for (const row of [...rows, 'A1 A2 5 5\na2 A3 5 5\nEND 2', 'A1 A2 5 5\na2 A3 1008243 5\nEND 2']) miss(`${HEADER}${row}\n`);
  miss(`${BETWEEN}END 0\n`);
  interval(`${BETWEEN}A1 A2 10 20 0\nA2 A3 3 5 16384\nA3 A4 7 9 32768\nA4 A1 1 2 49152\nEND 4\n`);
  for (const row of ['END 0', 'A1 A2 5 1008243 5\nEND 1', 'A1 A2 5 5 5\na2 A3 5 4 5\nEND 2', 'A1 A2 5 5 5\na2 A3 4 5 5\nEND 2']) interval(`${BETWEEN}${row}\n`);
  interval(`${BETWEEN}${HEADER}END 0\n`), interval(`${HEADER}END 0\n`);
}

// What tests/calls.c has not: plays, for their memory and their stack.
function plays() {
  again();
  const loop = text(`${SEEDS}(sigma 4 10)\n${'(shot A A 1000 5)\n'.repeat(500)}`), misses = room(BigInt64Array, 8).fill(7n), line = room(Uint32Array, 1).fill(7);
  call('play', loop, loop.length, 5n, misses, 4, line);
  if (line[0] !== 0 || misses.includes(7n)) say(`play: line ${line}, ${misses.join(' ')}`);
  misses.fill(7n), call('play', loop, loop.length, MOST, misses, 4, line);
}

records(), requests(), marks(), jobs(), windows(), surveys(), plays();
