// Writes what was found into the page.
import { cloudOf, ellipseOf, histogramOf, statisticsOf, withinOf } from './draw.js';
import { loopRow, MOST_PRINTED, MOST_SHOWN, sortLoops, worstLoops } from './loops.js';
import { partsOf } from './said.js';
import { allLoops, cloudText, firstOf, histogramText, loopName, loopSaid, loopsMore, outside, place, PROVED, sortedBy, stopped, took, within, WORDS } from './words.js';

export const $ = id => document.getElementById(id);

export function make(kind, text = '', attributes = {}) {
  const made = Object.assign(document.createElement(kind), { textContent: text });
  for (const [name, value] of Object.entries(attributes)) made.setAttribute(name, value);
  return made;
}

export const sentences = (id, lines) => $(id).replaceChildren(...lines.map(line => make('p', line)));

// The words of the page where it asks for them, as text or as a label.
export function showWords() {
  document.title = WORDS.title;
  for (const place of document.querySelectorAll('[data-word]')) place.textContent = WORDS[place.dataset.word];
  for (const place of document.querySelectorAll('[data-label]')) place.setAttribute('aria-label', WORDS[place.dataset.label]);
  sentences('proved', PROVED);
}

// Green only where nothing is bad: neither the cave nor any loop, and nothing closes too well.
export function levelOf({ sound, loops, too_well: tooWell }) {
  if (sound === null) return 'none';
  if (!sound) return 'bad';
  return tooWell || loops.some(loop => !loop.sound || loop.too_well) ? 'doubt' : 'good';
}

// The legs of the plan, and after them suspects that are no leg, as points at their station; of each suspect its index.
function markedLegs(legs, suspects) {
  const all = [...legs], at = new Map(legs.flatMap(({ from, to, ends: [x1, y1, x2, y2] }) => [[from, [x1, y1]], [to, [x2, y2]]]));
  const indices = suspects.map(({ file, line, from, to }) => {
    const found = legs.findIndex(leg => leg.line === line && leg.file === file && leg.from === from && leg.to === to), point = at.get(from) ?? at.get(to);
    return found >= 0 || point === undefined ? found : all.push({ file, line, from, to, ends: [...point, ...point], loops: [], point: true }) - 1;
  });
  return { all, indices };
}

// So many suspects are printed on paper.
const MOST_SUSPECTS = 6;

// A row: where the leg stands, what would explain it, and its line of the survey.
function suspectRow([first, ...rest], rank, written, choose) {
  const [where, ...said] = first.split('  '), made = make('li'), button = make('button', '', { type: 'button', 'aria-pressed': 'false', 'data-rank': rank });
  const head = make('span', said.join(' '), { class: 'what' });
  head.prepend(make('b', `${rank} `));
  button.append(head, make('span', rest.join(' '), { class: 'sure' }), make('code', written === undefined ? where : `${where}  ${written}`));
  button.addEventListener('click', () => choose(rank));
  made.append(button);
  made.classList.toggle('beyond', rank > MOST_SUSPECTS);
  return made;
}

function showSuspects({ suspects, suspectsSaid }, verdict, lineOf, choose) {
  $('suspects').hidden = suspects.length === 0;
  $('suspectRows').replaceChildren(...suspects.map((row, j) => suspectRow(row, j + 1, lineOf(verdict.json.suspects[j]), choose)));
  sentences('suspectsSaid', suspects.length === 0 ? [] : suspectsSaid);
}

// The table of loops in the order that was chosen, all or the first of them; a head sorts, a row chooses.
export function showLoops({ rows, chosen, open }, order, sort, choose) {
  const heads = ['loopNumber', 'legs', 'length', 'misses', 'percent', 'p', 'judged'], printed = new Set(worstLoops(rows, MOST_PRINTED));
  $('loopHead').replaceChildren(...heads.map(key => {
    const head = make('th', '', { scope: 'col', 'aria-sort': order.key !== key ? 'none' : order.up ? 'ascending' : 'descending' });
    const button = make('button', WORDS[key], { type: 'button', title: sortedBy(WORDS[key]), 'data-key': key });
    button.addEventListener('click', () => sort(key));
    head.append(button);
    return head;
  }));
  $('loopRows').replaceChildren(...sortLoops(rows, order).map((row, j) => {
    const made = make('tr'), head = make('th', '', { scope: 'row' });
    const kinds = { bad: row.state === WORDS.isBad, beyond: !printed.has(row.number), folded: !open && j >= MOST_SHOWN, picked: row.number === chosen };
    for (const [name, is] of Object.entries(kinds)) made.classList.toggle(name, is);
    head.append(make('button', String(row.number), { type: 'button', 'aria-pressed': String(row.number === chosen), 'aria-label': loopName(row), 'data-loop': row.number }));
    made.append(head, ...[row.legs, row.length, row.misses, row.percent, row.p, row.state].map(cell => make('td', String(cell))));
    made.addEventListener('click', () => choose(row.number));
    return made;
  }));
  $('allLoops').hidden = open || rows.length <= MOST_SHOWN;
  $('allLoops').textContent = allLoops(rows.length);
  $('loopsMore').textContent = rows.length > MOST_PRINTED ? loopsMore(rows.length - MOST_PRINTED) : '';
}

function showNotes(notes) {
  $('notes').hidden = notes.length === 0;
  $('notesSaid').replaceChildren(...notes.map(({ file, line, text }) => make('li', `${file === '' ? '' : `${place(file, line)}: `}${text}`)));
}

// The command's two sentences of the whole cave, as one.
export const headline = ({ verdict: [share, conclusion = ''] }) => `${share} ${conclusion}`.trim().replace('. That is', '; that is');

// A verdict, with the plan; `same` where the cave was shown before. Gives the rows of the loops and the legs of the suspects.
export function showVerdict({ verdict, done, all, last }, seconds, plan, { same, lineOf, chooseSuspect }) {
  const { json } = verdict, parts = partsOf(verdict.text), rows = json.loops.map(loopRow);
  const { all: legs, indices } = markedLegs(verdict.legs, json.suspects.slice(0, parts.suspects.length));
  const loops = rows.map(({ number, state }) => ({ number, bad: state === WORDS.isBad }));
  const badLoops = json.sound && loops.some(({ bad }) => bad) ? parts.loops.slice(0, 1) : [], state = last ? (done < all && rows.length > 0 ? stopped(done, all) : '') : firstOf(done, all);
  $('verdict').textContent = headline(parts);
  $('verdict').className = levelOf(json);
  sentences('told', [...parts.verdict.slice(2), ...badLoops, state].filter(Boolean));
  sentences('about', parts.about);
  plan.draw(legs, indices, loops, same);
  showSuspects(parts, verdict, lineOf, chooseSuspect);
  $('loops').hidden = $('one').hidden = rows.length === 0;
  sentences('loopsSaid', parts.loops);
  $('say').hidden = parts.say.length === 0;
  sentences('saySaid', parts.say);
  showNotes(verdict.notes);
  $('seedsUsed').textContent = [...parts.seeds, ...(last ? [took(seconds)] : [])].join('; ');
  $('results').hidden = $('found').hidden = false;
  return { rows, indices };
}

function showPicture(id, svg, text) {
  $(id).innerHTML = svg;
  $(id).firstChild.setAttribute('aria-label', text);
}

// Which loop is drawn; its pictures come when its plays do.
export function nameLoop(row) {
  $('oneName').textContent = loopName(row);
  $('oneSaid').textContent = loopSaid(row);
  for (const id of ['cloud', 'histogram']) $(id).replaceChildren();
}

// One loop: its plays, in metres, and the survey's own miss.
export function showLoop(row, { misses, miss }) {
  const inMetres = Float64Array.from(misses, mm => mm / 1000), own = [...miss].map(mm => mm / 1000), kept = statisticsOf(inMetres), share = ellipseOf(kept, own);
  showPicture('cloud', cloudOf(inMetres, kept, own), cloudText(row.number, kept.plays, row.misses, share === undefined ? outside : within(100 * share)));
  showPicture('histogram', histogramOf(kept, own), histogramText(row.number, kept.plays, ...[0.5, 0.95].map(part => withinOf(kept, part).toPrecision(2)), row.misses));
}

// Results that are no longer those of the text and the settings: greyed, and nothing of them can be saved.
export function grey(old) {
  $('found').classList.toggle('old', old);
  for (const control of $('found').querySelectorAll('button')) control.disabled = old;
  $('oldResults').hidden = !old;
}
