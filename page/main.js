// The page: what is pasted, opened or dropped is checked, and what was found is shown.
import { EXAMPLES } from './examples.js';
import { optionsOf } from './fields.js';
import { bytesOf } from './files.js';
import { fileOf, given, takeFiles, writtenAt } from './given.js';
import { listenToFiles } from './incoming.js';
import { worstLoops } from './loops.js';
import { Plan } from './plan.js';
import { $, grey, nameLoop, showLoop, showLoops, showVerdict, showWords } from './show.js';
import { doing, noText } from './words.js';
import { Checker } from './worker.js';
import { clearWrong, FIELDS, tellWrong, trouble } from './wrong.js';

const wasm = Uint8Array.from(atob($('wasm').textContent.trim()), letter => letter.charCodeAt(0));
// The plan's box on paper, in pixels: style.css gives it 165 mm.
const PAPER = { width: 700, height: 620 };
let checker, plan, turn = 0, found = {}, order = { key: 'p', up: true };

// ---- What was found

function chooseSuspect(rank) {
  found.rank = rank;
  [...$('suspectRows').querySelectorAll('button')].forEach((button, j) => button.setAttribute('aria-pressed', String(j + 1 === rank)));
  plan.mark(found.indices[rank - 1]);
}

function chooseLoop(number) {
  found.chosen = number;
  plan.choose(number);
  for (const button of $('loopRows').querySelectorAll('button')) {
    button.setAttribute('aria-pressed', String(Number(button.dataset.loop) === number));
    button.closest('tr').classList.toggle('picked', Number(button.dataset.loop) === number);
  }
  nameLoop(found.rows[number - 1]);
  checker.loop(number);
}

function sortBy(key) {
  order = { key, up: order.key === key ? !order.up : true };
  showLoops(found, order, sortBy, chooseLoop);
  $('loopHead').querySelector(`[data-key="${key}"]`).focus();
}

const lineOf = ({ file, line }) => writtenAt(found.verdict.files[file] ?? file, line);

// What a person has chosen stays chosen while more plays come in.
function hearVerdict(message, seconds) {
  const before = found.turn === turn ? found : {}, { rank, loop, key } = document.activeElement.dataset;
  found = { verdict: message.verdict, turn };
  Object.assign(found, showVerdict(message, seconds, plan, { same: before.turn === turn, lineOf, chooseSuspect }));
  Object.assign(found, { chosen: before.chosen ?? worstLoops(found.rows, 1)[0], open: before.open });
  showLoops(found, order, sortBy, chooseLoop);
  $('seeds').placeholder = found.verdict.json.seeds.join(', ');
  grey(false);
  if (!$('suspects').hidden) chooseSuspect(Math.min(before.rank ?? 1, $('suspectRows').children.length));
  for (const [name, value] of Object.entries({ rank, loop, key })) if (value !== undefined) $('found').querySelector(`[data-${name}="${value}"]`)?.focus();
  if (found.chosen === undefined) return;
  plan.choose(found.chosen);
  nameLoop(found.rows[found.chosen - 1]);
  if (message.last) checker.loop(found.chosen);
}

// ---- Checking

function busy(is) {
  $('busy').hidden = !is;
  $('go').disabled = is;
  $('progress').removeAttribute('value');
  $('doing').textContent = doing(0, 0);
}

// A check is over.
function end() {
  busy(false);
  $('results').hidden = found.verdict === undefined;
  document.body.dataset.done = turn;
}

function endWrong(troubles, names) {
  end();
  tellWrong(troubles, names);
}

// What the Worker says of the cave that was given last.
function hear(message, start) {
  const hearing = {
    progress: ({ done, all }) => {
      $('progress').value = done / all;
      $('doing').textContent = doing(done, all);
    },
    verdict: ({ last }) => {
      hearVerdict(message, (performance.now() - start) / 1000);
      if (last) end();
    },
    refused: ({ troubles, files }) => endWrong(troubles, files),
    failed: ({ text }) => endWrong([trouble(text)]),
    loop: ({ number }) => { if (number === found.chosen) showLoop(found.rows[number - 1], message); },
  };
  hearing[message.kind](message);
}

// Where the results stand below the form, they come into view.
function comeIntoView() {
  const form = document.querySelector('.input').getBoundingClientRect(), results = $('results').getBoundingClientRect();
  if (results.top >= form.bottom - 1) $('results').scrollIntoView({ block: 'start' });
}

function startCheck(options, byHand) {
  const mine = turn, start = performance.now();
  $('results').hidden = false;
  $('found').hidden = found.verdict === undefined;
  busy(true);
  checker.check(given.files.filter(({ bytes }) => bytes.length > 0), { ...options, main: given.begin }, message => { if (mine === turn) hear(message, start); });
  if (byHand) comeIntoView();
}

function checkCave(byHand = true) {
  turn++;
  checker.end();
  clearWrong();
  grey(true);
  try {
    const options = optionsOf(id => $(id).value);
    if (fileOf(given.begin)?.bytes.length > 0) startCheck(options, byHand);
    else endWrong([trouble(noText)]);
  } catch (error) {
    if (error.name !== 'Wrong') throw error;
    endWrong([{ ...trouble(error.sentence), option: '--sigma', field: error.field }]);
  }
}

// ---- What goes out, and the rest of the controls

function save(text, as, type) {
  const address = URL.createObjectURL(new Blob([text], { type })), link = Object.assign(document.createElement('a'), { href: address, download: as });
  link.click();
  setTimeout(() => URL.revokeObjectURL(address), 60000);
}

function listenToResults() {
  $('json').addEventListener('click', () => save(found.verdict.jsonText, 'verdict.json', 'application/json'));
  $('svg').addEventListener('click', () => save(found.verdict.svg, 'plan.svg', 'image/svg+xml'));
  $('print').addEventListener('click', () => print());
  $('allLoops').addEventListener('click', () => { found.open = true; showLoops(found, order, sortBy, chooseLoop); });
  for (const [id, by] of [['closer', 1.4], ['farther', 1 / 1.4]]) $(id).addEventListener('click', () => plan.zoom(by));
  $('whole').addEventListener('click', () => plan.whole());
  addEventListener('beforeprint', () => plan.paper(PAPER));
  addEventListener('afterprint', () => plan.paper());
}

function listenToForm() {
  for (const id of [...FIELDS, 'tapeUnit', 'stationUnit', 'fixUnit']) $(id).addEventListener('input', () => grey(true));
  document.querySelector('.input').addEventListener('keydown', event => {
    if (event.key === 'Enter' && (event.ctrlKey || event.metaKey || event.target.matches('input'))) checkCave();
  });
  $('go').addEventListener('click', () => checkCave());
  $('stop').addEventListener('click', () => checker.stop());
  $('keep').addEventListener('click', () => { $('seeds').value = $('seeds').placeholder; });
}

function start() {
  showWords();
  checker = new Checker(`${$('engine').textContent}\nworker_js.serve(self);`, wasm);
  plan = new Plan($('plan'), ({ whole, metres, scale }) => {
    $('scale').style.width = `${metres / scale}px`;
    $('scale').textContent = metres >= 1000 ? `${metres / 1000} km` : `${metres} m`;
    $('whole').disabled = whole;
  });
  listenToFiles(wasm, checkCave);
  listenToResults();
  listenToForm();
  takeFiles([{ name: 'cave.svx', bytes: bytesOf(EXAMPLES['cave.svx']) }]);
  checkCave(false);
}
start();
