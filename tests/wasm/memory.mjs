// The exports of jabulghi.wasm as C has them: what a call is lent stands in their memory, marked all around. Holds after every call that the library wrote
// nowhere else, after a refused one that it wrote nothing but what its line in the header says, and that it took no more stack than the header says.
import assert from 'node:assert/strict';
import { readFileSync } from 'node:fs';

const MARK = 0xa5, STACK = 262144, ROOM = 4 * 65536; // the stack has the memory's first bytes
// The calls that leave every byte as it was where they are refused. The others then write zeros, or a line and a length.
const STILL = /^(block|look|take|skip|ask|give_up|marks_)/;

// The header's table of stack sizes.
const most = {};
for (const [, size, names] of readFileSync(new URL('../../include/jabulghi.h', import.meta.url), 'utf8').matchAll(/^ \*   ([\d,]+) bytes: (.*?)(?: \*\/)?$/gm)) {
  for (const name of names.split(', ')) most[name.replace('jabulghi_', '')] = Number(size.replace(',', ''));
}

const { instance, module } = await WebAssembly.instantiate(readFileSync(process.argv[2]));
const { memory, ...calls } = instance.exports, start = memory.buffer.byteLength;
assert.deepEqual(WebAssembly.Module.imports(module), [], 'no import');
memory.grow(ROOM / 65536);
const bytes = new Uint8Array(memory.buffer), tables = bytes.slice(STACK, start);
let end = start;

// Room for an array of this kind, marked margins around it.
export function room(Kind, length) {
  const at = Math.ceil((end + 16) / 8) * 8;
  end = at + Kind.BYTES_PER_ELEMENT * length + 16;
  assert(end < start + ROOM);
  bytes.fill(MARK, at - 16, end);
  return new Kind(memory.buffer, at, length);
}

// Calls jabulghi_NAME; typed arrays of the memory stand for pointers to them.
export function call(name, ...values) {
  const before = bytes.slice(start), lent = values.filter(ArrayBuffer.isView);
  bytes.fill(MARK, 0, STACK);
  const code = calls[`jabulghi_${name}`](...values.map(value => (ArrayBuffer.isView(value) ? value.byteOffset : value)));
  if (code === 0 || !STILL.test(name)) { // what may have been written is as it was, for the comparison
    for (const { byteOffset, byteLength } of lent) before.set(bytes.subarray(byteOffset, byteOffset + byteLength), byteOffset - start);
  }
  assert(Buffer.compare(before, bytes.subarray(start)) === 0, `${name} wrote where it must not`);
  assert(Buffer.compare(tables, bytes.subarray(STACK, start)) === 0, `${name} wrote to the library's tables`);
  const deepest = bytes.subarray(0, STACK).findIndex(byte => byte !== MARK), taken = deepest < 0 ? 0 : STACK - deepest, limit = most[name.replace('_members', '')];
  assert(taken <= limit, `${name} takes ${taken} bytes of stack, and the header says ${limit}`);
  return code;
}

// A record of C: words[0..5] are the registers, words[8] is open and words[9] asked.
export function record(registers = [7, 7, 7, 7, 7, 7], count = 7n, open = 7, asked = 7) {
  const words = room(Uint32Array, 10), counts = new BigUint64Array(memory.buffer, words.byteOffset + 24, 1);
  words.set(registers), counts[0] = count, words[8] = open, words[9] = asked;
  return Object.assign(words, { counts });
}

export function shown(r) {
  const note = r[8] || r[9] ? `, open ${r[8]}, asked ${r[9]}` : '';
  return ` ${r.subarray(0, 6).join(' ')}, count ${r.counts[0]}${note}`;
}

// A text's bytes in the memory.
export function text(string) {
  const encoded = Buffer.from(string), at = room(Uint8Array, encoded.length);
  at.set(encoded);
  return at;
}
export const string = array => Buffer.from(array).toString();

// Forgets what was lent, so that its room is used again.
export const again = () => { end = start; };
