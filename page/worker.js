// Checks in a Worker, a few plays first; and the page's side of it.
import { loadJudge } from './check.js';

// Plays of the first verdict; plays of a loop that are drawn, at most and at least; and about how long it plays between two messages, and for a loop.
const EARLY = 100, MOST_DRAWN = 1000, LEAST_DRAWN = 200, STRETCH_MS = 80, LOOP_MS = 600;

// A survey that every error fits, to find the one that the command refuses among several.
const TINY = [{ name: 'tiny.svx', bytes: '*data normal from to tape compass clino\na b 5 0 0\nb c 5 120 0\nc a 5 240 0\n' }];

// Of errors that are refused, the name of the first that is refused alone.
export async function refusedError(judge, sigma) {
  for (const one of sigma.split(',')) {
    const { troubles } = await judge.read(TINY, { sigma: one });
    if (troubles.length > 0) return { field: one.split('=')[0], text: troubles[0].text };
  }
  return undefined;
}

async function refusal(judge, { troubles, files }, { sigma }) {
  const wrong = troubles.some(({ option }) => option === '--sigma') ? await refusedError(judge, sigma) : undefined;
  return { kind: 'refused', files, troubles: wrong === undefined ? troubles : [{ file: '', line: 0, text: wrong.text, option: '--sigma', field: wrong.field }] };
}

const breathe = () => new Promise(done => { setTimeout(done); }); // so that a message is heard

// Plays on to so many plays, or until it is stopped; tells progress.
async function playTo(cave, plays, tell, isStopped) {
  let stretch = 4;
  while (cave.done < plays && !(isStopped() && cave.done >= EARLY)) {
    const start = performance.now();
    cave.play(Math.min(stretch, plays - cave.done));
    cave.pace = stretch / Math.max(1, performance.now() - start); // plays in a millisecond
    stretch = Math.max(1, Math.min(4096, Math.round(STRETCH_MS * cave.pace)));
    tell({ kind: 'progress', done: cave.done, all: cave.plays });
    await breathe();
  }
}

function verdictOf(cave, last) {
  return { kind: 'verdict', verdict: { ...cave.verdict(), legs: cave.plan().legs }, done: cave.done, all: cave.plays, last };
}

// Reads a cave and tells what came of it: a refusal, or progress and verdicts, the first soon, by few plays. Gives the cave.
export async function checkCave(judge, files, options, tell, isStopped) {
  const cave = await judge.read(files, options);
  if (cave.status === 2) {
    tell(await refusal(judge, cave, options));
    return cave;
  }
  for (const plays of [EARLY, cave.plays].filter(count => count <= cave.plays)) {
    await playTo(cave, plays, tell, isStopped);
    const message = verdictOf(cave, plays === cave.plays || isStopped());
    message.last ||= message.verdict.json.loops.length === 0;
    tell(message);
    if (message.last) break;
  }
  return cave;
}

export function serve(scope) {
  let cave, stopped = false;
  const tell = message => scope.postMessage(message);
  const tasks = {
    check: async ({ wasm, files, options }) => { cave = await checkCave(await loadJudge(wasm), files, options, tell, () => stopped); },
    stop: () => { stopped = true; },
    loop: ({ number }) => tell({ kind: 'loop', number, ...cave.loop(number, Math.min(cave.done, MOST_DRAWN, Math.max(LEAST_DRAWN, Math.round(LOOP_MS * cave.pace)))) }),
  };
  scope.onmessage = ({ data }) => { Promise.resolve(data).then(given => tasks[given.task](given)).catch(error => tell({ kind: 'failed', text: String(error) })); };
}

// A Worker of this source that checks one cave after another, each in a Worker of its own.
export class Checker {
  #source;
  #wasm;
  #worker;
  constructor(source, wasm) { this.#source = source, this.#wasm = wasm; }

  check(files, options, hear) {
    this.end();
    const address = URL.createObjectURL(new Blob([this.#source], { type: 'text/javascript' }));
    this.#worker = new Worker(address);
    URL.revokeObjectURL(address);
    this.#worker.onmessage = ({ data }) => hear(data);
    this.#worker.onerror = event => hear({ kind: 'failed', text: event.message });
    this.#worker.postMessage({ task: 'check', wasm: this.#wasm, files, options });
  }

  stop() { this.#worker?.postMessage({ task: 'stop' }); }
  loop(number) { this.#worker?.postMessage({ task: 'loop', number }); }
  end() {
    this.#worker?.terminate();
    this.#worker = undefined;
  }
}
