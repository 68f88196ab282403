// `jabulghi check` and `jabulghi tolerance` in JavaScript: for a page, a Worker and node, without dependencies. Hand in the bytes of jabulghi.wasm.
//
//     const judge = await loadJudge(await (await fetch('jabulghi.wasm')).arrayBuffer());
//     const verdict = await judge.check([{ name: 'cave.svx', bytes }], { sigma: 'tape=10mm,compass=1deg' });
//     console.log(verdict.text, verdict.json.suspects);
//
// The files are the survey, first or named by `main`, and those that it includes; bytes are a Uint8Array or a string. Options are those of the command:
// sigma, plays, seeds (six numbers), trip, first; of tolerance sigma, runs, seeds, first, miss, loop. `progress(done, all)` is called between stretches of
// plays; the verdict is that of the plays so far where it returns false. A verdict has what the command prints: `text`, `json` (and `jsonText`), `svg`, and
// `status`, its exit status; what it says of the survey and the options is in `troubles` where it refuses them, else in `notes`.
// The noise is proved, the check is not.

const COMMANDS = { check: ['sigma', 'trip', 'seeds', 'plays', 'first'], tolerance: ['sigma', 'seeds', 'runs', 'first', 'miss', 'loop'] };
// The texts of bindings/judge.h, in its order.
const [SAID, MESSAGES, , FOUND, WORDS, JSON_TEXT, SVG, PLAN] = Array.from({ length: 8 }, (_, j) => j);

// Milliseconds of a stretch of plays.
const STRETCH = 50;

const encode = text => (typeof text === 'string' ? new TextEncoder().encode(text) : text);

// Six numbers that the library takes for seeds: those below 16 are drawn again.
function drawSeeds() {
  const numbers = new Uint32Array(6);
  do globalThis.crypto.getRandomValues(numbers);
  while (numbers.some(number => number < 16));
  return numbers;
}

// The options as the command's words, each ended by a NUL.
function wordsOf(command, options) {
  const given = COMMANDS[command].filter(name => options[name] !== undefined && options[name] !== '');
  return encode(given.map(name => `--${name}\0${Array.isArray(options[name]) || ArrayBuffer.isView(options[name]) ? Array.from(options[name]).join(',') : options[name]}\0`).join(''));
}

function inOrder(files, main) {
  if (!Array.isArray(files) || files.length === 0) throw new TypeError('files are a list of { name, bytes }, at least one');
  for (const { name, bytes } of files) {
    if (typeof name !== 'string' || (typeof bytes !== 'string' && !(bytes instanceof Uint8Array))) throw new TypeError('a file is { name, bytes }, a string and a Uint8Array or a string');
  }
  const first = main === undefined ? files[0] : files.find(({ name }) => name === main);
  if (first === undefined) throw new TypeError(`no file is named ${main}`);
  return [first, ...files.filter(file => file !== first)];
}

// A case that is read: it can be played on, and judged at any time. It has a memory of its own, which goes with it.
class Case {
  #exports;
  #at;
  #status;
  #loops;
  constructor(exports, command, files, options) {
    this.#exports = exports, this.#loops = options.loops === true;
    const words = wordsOf(command, options), name = this.#put(encode(`${command}\0`)), random = this.#put(new Uint8Array(drawSeeds().buffer));
    this.#at = exports.jabulghi_case_new(name, this.#put(words), words.length, random);
    exports.jabulghi_case_loose(this.#at);
    for (const file of inOrder(files, options.main)) {
      const bytes = encode(file.bytes);
      this.#have(exports.jabulghi_case_file(this.#at, this.#put(encode(`${file.name}\0`)), this.#put(bytes), bytes.length));
    }
    this.command = command, this.done = 0;
    this.#status = exports.jabulghi_case_begin(this.#at);
    this.plays = exports.jabulghi_case_plays(this.#at), this.least = Math.min(this.plays, exports.jabulghi_case_least(this.#at));
  }

  #have(place) {
    if (place === 0) throw new RangeError('out of memory');
    return place;
  }
  #put(bytes) {
    const at = this.#have(this.#exports.malloc(bytes.length + 8));
    new Uint8Array(this.#exports.memory.buffer).set(bytes, at);
    return at;
  }
  #text(which) {
    const at = this.#have(this.#exports.jabulghi_case_text(this.#at, which)), bytes = new Uint8Array(this.#exports.memory.buffer);
    return new TextDecoder().decode(bytes.subarray(at, bytes.indexOf(0, at)));
  }

  // The command's exit status: 2, or 1 for a tolerance, where the survey or the options are refused.
  get status() { return this.#status; }
  get taken() { return this.#status === 0; }
  get said() { return this.#text(SAID); }
  get #messages() { return JSON.parse(this.#text(MESSAGES)); }
  get troubles() { return this.taken ? [] : this.#messages; }
  get notes() { return this.taken ? this.#messages : []; }
  // Names of included files as messages have them, where you gave them another.
  get files() {
    const lines = this.#text(FOUND).split('\n');
    return Object.fromEntries(Array.from({ length: lines.length >> 1 }, (_, j) => [lines[2 * j], lines[2 * j + 1]]));
  }

  // Plays on, as far as there are plays.
  play(count) {
    const now = Math.min(count, this.plays - this.done), number = this.#exports.jabulghi_case_play(this.#at, this.done, now);
    if (number !== 0) throw new RangeError(`the plays are refused (${number})`);
    this.done += now;
    return this.done;
  }

  // The verdict of the plays so far.
  verdict() {
    const { status, said, troubles, notes, files } = this;
    if (!this.taken) return { status, json: null, jsonText: '', text: '', svg: '', troubles, notes, said, files };
    if (this.done < this.least) throw new RangeError(`a verdict takes at least ${this.least} plays`);
    const end = this.#exports.jabulghi_case_end(this.#at, this.done, this.#loops ? 1 : 0);
    if (end === 2) throw new RangeError('out of memory');
    const jsonText = this.#text(JSON_TEXT);
    return { status: end, json: JSON.parse(jsonText), jsonText, text: this.#text(WORDS), svg: this.#text(SVG), troubles, notes, said, files };
  }

  // Each leg of a cave with its ends, east and north in m, and its loops, counted from 1.
  plan() { return { legs: this.taken && this.command === 'check' ? JSON.parse(this.#text(PLAN)) : [] }; }

  // East and north of each play of a tolerance, in mm.
  misses() {
    const at = this.#put(new Uint8Array(8 * this.done));
    this.#exports.jabulghi_case_misses(this.#at, this.done, at);
    return new Int32Array(this.#exports.memory.buffer.slice(at, at + 8 * this.done));
  }

  // One loop of a cave in the first plays: its misses, its own miss, and the covariance that the plays are drawn from (east, both, north), in mm.
  loop(number, count) {
    const at = this.#put(new Uint8Array(16 * count)), own = this.#put(new Uint8Array(40));
    if (this.#exports.jabulghi_case_loop(this.#at, number, count, at, own) !== 0) throw new RangeError(`there is no loop ${number}`);
    const read = (from, length) => new Float64Array(this.#exports.memory.buffer.slice(from, from + 8 * length)), [east, north, ...spread] = read(own, 5);
    return { misses: read(at, 2 * count).map(metres => 1000 * metres), miss: [1000 * east, 1000 * north], spread: spread.map(square => 1e6 * square) };
  }
}

const nextTask = () => new Promise(done => setTimeout(done));

// Plays to the end, or until progress says no, and lets other tasks run between stretches.
async function playAll(one, progress) {
  for (let stretch = Math.max(one.least, 1); one.done < one.plays;) {
    const start = Date.now();
    one.play(stretch);
    stretch = Math.max(1, Math.min(2 * stretch, Math.round((stretch * STRETCH) / Math.max(1, Date.now() - start))));
    if (progress?.(one.done, one.plays) === false) return;
    await nextTask();
  }
}

export class Judge {
  #module;
  constructor(module) { this.#module = module; }

  async #begin(command, files, options) { return new Case((await WebAssembly.instantiate(this.#module)).exports, command, files, options); }

  // A cave that is read, to be played step by step.
  async read(files, options = {}) { return this.#begin('check', files, options); }

  async check(files, options = {}) {
    const one = await this.#begin('check', files, options);
    await playAll(one, options.progress);
    return one.verdict();
  }

  async tolerance(files, options = {}) {
    const one = await this.#begin('tolerance', files, options);
    await playAll(one, options.progress);
    return { ...one.verdict(), misses: one.taken ? one.misses() : new Int32Array(0) };
  }
}

export async function loadJudge(bytes) { return new Judge(bytes instanceof WebAssembly.Module ? bytes : await WebAssembly.compile(bytes)); }
