// The cases of tests/calls18.c, through the exports of jabulghi.wasm: prints tests/calls18.expected.
import { call, record, room } from './memory.mjs';

function sample(k, v) {
  const s = room(Int32Array, 2).fill(7);
  console.log(`sample ${call('sample18', k, v, s)}: ${s[0]} ${s[1]}`);
}

const r = record();
const show = (name, code, s) => console.log(`${name} ${code}: ${s.join(' ')}, count ${r.counts[0]}, open ${r[8]}, asked ${r[9]}`);

function fill(name, length) {
  const s = room(Int32Array, 6).fill(7);
  show(name, call(`${name}18`, r, s.subarray(0, length), length), s);
}

sample(0n, 0);
sample(0n, 49152);
sample(1n << 48n, 0);
sample(0n, 65536);
call('seed', 2, 8, 16, 2, 8, 16, r);
const two = room(Int32Array, 6).fill(7);
show('pair', call('pair18', r, two.subarray(0, 2)), two);
fill('look', 4);
fill('block', 4);
fill('block', 3);
fill('take', 4);
call('ask', r, 2);
fill('block', 4);
fill('take', 3);
fill('look', 3);
fill('take', 4);
r[0] = 1;
fill('block', 4);
