// The library in JavaScript, for browsers and node: hand in the bytes of jabulghi.wasm.
//
//     const jabulghi = await load(await (await fetch('jabulghi.wasm')).arrayBuffer()); // in node: await load(fs.readFileSync('jabulghi.wasm'))
//     const record = jabulghi.seed(3770694558, 3532774216, 2901327257, 4093209576, 2137023497, 2889436789);
//     const samples = record.block(new Int16Array(1000)); // each s is s / 2048 standard deviations
//
// Each call does what jabulghi.h says of it. A refusal is thrown, and leaves every array as it was. Numbers of 64 bits are given as numbers or, from 2^53
// on, as BigInt. Texts are strings or Uint8Array. For samples give the array that they are written to, or how many you want.
import { CODES, LISTING_ROOM, SUBJECTS, WORDS } from './constants.js';
import { Judge } from './check.js';
export { CODES };

export class Refusal extends Error {
  constructor(code, line, sentence) {
    super(`${line > 0 ? `line ${line}: ` : ''}${sentence} (${code})`);
    Object.assign(this, { name: 'Refusal', code, line, sentence });
  }
}

function whole(value, least, most) {
  if (typeof value !== 'number' && typeof value !== 'bigint') throw new TypeError(`a number is needed, not ${typeof value}`);
  if (typeof value === 'number' && !Number.isSafeInteger(value)) throw new RangeError(`${value} is not a whole number below 2^53`);
  if (value < least || value > most) throw new RangeError(`${value} is not between ${least} and ${most}`);
  return value;
}
const u32 = value => Number(whole(value, 0, 2 ** 32 - 1));
const u64 = value => BigInt(whole(value, 0, 2n ** 64n - 1n));

function ofKind(Kind, value) {
  if (!(value instanceof Kind)) throw new TypeError(`${Kind.name} is needed`);
  return value;
}
const room = (Kind, value) => (typeof value === 'number' ? new Kind(u32(value)) : ofKind(Kind, value));
const encode = text => (typeof text === 'string' ? new TextEncoder().encode(text) : ofKind(Uint8Array, text));
const decode = bytes => new TextDecoder().decode(bytes);
const bytesOf = array => new Uint8Array(array.buffer, array.byteOffset, array.byteLength);

// A call on copies of typed arrays, which stand above the library's own memory at multiples of 8. They are copied back, but for those in brackets.
function call({ exports, start }, name, ...values) {
  const lent = [], memory = exports.memory;
  let end = start;
  const passed = values.map(value => {
    const array = Array.isArray(value) ? value[0] : value, at = end;
    if (!ArrayBuffer.isView(array)) return value;
    lent.push([array, at, array === value]);
    end += Math.ceil(array.byteLength / 8) * 8;
    return at;
  });
  if (end > memory.buffer.byteLength) memory.grow(Math.ceil((end - memory.buffer.byteLength) / 65536));
  for (const [array, at] of lent) new Uint8Array(memory.buffer, at, array.byteLength).set(bytesOf(array));
  const code = exports[`jabulghi_${name}`](...passed);
  for (const [array, at, back] of lent) if (back) bytesOf(array).set(new Uint8Array(memory.buffer, at, array.byteLength));
  return code;
}

// A string of C in a memory.
export function stringAt(memory, at) {
  const bytes = new Uint8Array(memory.buffer, at);
  return decode(bytes.slice(0, bytes.indexOf(0)));
}

// The command's sentence for a refusal of a text, "refused" where it has none.
export function sentenceOf(library, subject, code, line, text) {
  const bytes = encode(text);
  return stringAt(library.exports.memory, call(library, 'sentence', SUBJECTS.indexOf(subject), code, line, [bytes], bytes.length));
}

// Throws a Refusal where a call returned another number than 0, with the header's words.
function check(code) { if (code !== CODES.OK) throw new Refusal(code, 0, WORDS[code]); }

// The same for a text: with the command's sentence, or the header's words where it has none.
function checkText(library, code, subject, line, text) {
  if (code === CODES.OK) return;
  const sentence = sentenceOf(library, subject, code, line, text);
  throw new Refusal(code, line, sentence === 'refused' ? WORDS[code] : sentence);
}

// A struct of C that the caller keeps. Its bytes can be saved, and put back by bytes.set(saved).
class Kept {
  #library;
  constructor(library, size) { this.#library = library, this.bytes = new Uint8Array(size); }
  call(name, ...values) { check(call(this.#library, name, ...values)); return this; }
  members(...places) { return places.slice(1).map((to, j) => this.bytes.subarray(places[j], to)); }
  u32(j) { return new Uint32Array(this.bytes.buffer)[j]; }
}

class Record extends Kept {
  constructor(library) { super(library, 40); }
  get registers() { return Array.from({ length: 6 }, (_, j) => this.u32(j)); }
  get count() { return new BigUint64Array(this.bytes.buffer)[3]; }
  get open() { return this.u32(8) !== 0; }
  get asked() { return this.u32(9); }
  #pair(name, samples) { this.call(name, this.bytes, samples); return samples; }
  #fill(name, samples) { this.call(name, this.bytes, samples, samples.length); return samples; }
  pair() { return this.#pair('pair', new Int16Array(2)); }
  pair18() { return this.#pair('pair18', new Int32Array(2)); }
  block(samples) { return this.#fill('block', room(Int16Array, samples)); }
  block18(samples) { return this.#fill('block18', room(Int32Array, samples)); }
  look(samples) { return this.#fill('look', room(Int16Array, samples)); }
  look18(samples) { return this.#fill('look18', room(Int32Array, samples)); }
  take(samples) { return this.#fill('take', room(Int16Array, samples)); }
  take18(samples) { return this.#fill('take18', room(Int32Array, samples)); }
  skip(pairs) { return this.call('skip', this.bytes, u64(pairs)); }
  ask(pairs) { return this.call('ask', this.bytes, u32(pairs)); }
  giveUp() { return this.call('give_up', this.bytes); }
}

// The drift over the latest samples. An unfit window (17) becomes zeros, as in C.
class Window extends Kept {
  constructor(library) { super(library, 8224); }
  get size() { return this.u32(0); }
  get held() { return this.u32(1); }
  get sum() { return Number(new BigInt64Array(this.bytes.buffer)[1026]); }
  get squares() { return Number(new BigInt64Array(this.bytes.buffer)[1027]); }
  #call(name, ...values) { return this.call(`window_${name}_members`, ...this.members(0, 4, 8, 12, 8204), ...this.members(8208, 8216, 8224), ...values); }
  make(size) { return this.#call('make', u32(size)); }
  push(sample) { return this.#call('push', Number(whole(sample, -32768, 32767))); }
  pushAll(samples) { return this.#call('push_all', [ofKind(Int16Array, samples)], samples.length); }
}

class Marks extends Kept {
  constructor(library) { super(library, 960); }
  #call(name, text, ...record) {
    const bytes = encode(text);
    return this.call(`marks_${name}_members`, ...this.members(0, 64, 128, 320, 960), ...record, [bytes], bytes.length);
  }
  save(record, name) { return this.#call('save', name, [ofKind(Record, record).bytes]); }
  return(record, name) { return this.#call('return', name, ofKind(Record, record).bytes); }
  drop(name) { return this.#call('drop', name); }
}

class Jabulghi {
  #judge;
  // The library's calls and its memory, of which it uses nothing beyond the first size.
  constructor(exports, judge) { this.exports = exports, this.start = exports.memory.buffer.byteLength, this.#judge = judge; }

  // Whether a cave is sound, and how one loop of a survey compares; check.js says more.
  check(files, options) { return this.#judge.check(files, options); }
  tolerance(files, options) { return this.#judge.tolerance(files, options); }

  seed(a0, a1, a2, b0, b1, b2) {
    const record = new Record(this);
    return record.call('seed', ...[a0, a1, a2, b0, b1, b2].map(u32), record.bytes);
  }
  window(size) { return new Window(this).make(size); }
  marks() { return new Marks(this); }

  #sample(name, k, v, samples) { check(call(this, name, u64(k), u32(v), samples)); return samples; }
  sample(k, v) { return this.#sample('sample', k, v, new Int16Array(2)); }
  sample18(k, v) { return this.#sample('sample18', k, v, new Int32Array(2)); }

  // A text from a text.
  #lines(name, subject, text, size) {
    const bytes = encode(text), lines = new Uint8Array(size(bytes.length)), line = new Uint32Array(1), length = new Uint32Array(1);
    checkText(this, call(this, name, [bytes], bytes.length, lines, lines.length, line, length), subject, line[0], bytes);
    return decode(lines.subarray(0, length[0]));
  }
  list(job) { return this.#lines('list', 'JOB', job, () => LISTING_ROOM); }
  legs(survey) { return this.#lines('legs', 'SURVEY', survey, length => 3 * length + 1); } // a leg of 10 bytes gives a shot line of at most 21

  // The sums of a listing at 2^30, as BigInt, and in millimetres.
  #miss(name, listing, length) {
    const bytes = encode(listing), sums = new BigInt64Array(length), mm = new BigInt64Array(length), line = new Uint32Array(1);
    checkText(this, call(this, name, [bytes], bytes.length, sums, mm, line), 'LISTING', line[0], bytes);
    return [sums, ...Array.from(mm, Number)];
  }
  misclosure(listing) {
    const [sums, east, north] = this.#miss('misclosure', listing, 2);
    return { east, north, sums };
  }
  intervals(listing) {
    const [sums, eastLow, eastHigh, northLow, northHigh] = this.#miss('intervals', listing, 4);
    return { east: [eastLow, eastHigh], north: [northLow, northHigh], sums };
  }

  // East and north of so many plays of a job's loop, one after another, in millimetres; each is below 2^31, as 500 shots are.
  play(job, runs, first = 0) {
    const bytes = encode(job), misses = new BigInt64Array(2 * u32(runs)), line = new Uint32Array(1);
    checkText(this, call(this, 'play', [bytes], bytes.length, u64(first), misses, Number(runs), line), 'JOB', line[0], bytes);
    return Int32Array.from(misses, Number);
  }
}

export async function load(bytes) {
  const module = await WebAssembly.compile(bytes);
  return new Jabulghi((await WebAssembly.instantiate(module)).exports, new Judge(module));
}
