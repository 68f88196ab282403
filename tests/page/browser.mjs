// The page as a person uses it, from file://: node --experimental-websocket browser.mjs chromium|firefox PAGE COMMAND PICTURES. On a wide screen and on a telephone it pastes, drops,
// types, sorts, zooms, prints and saves, with input as the browser gets it from a person. It asks nothing of a network and says nothing on the console.
import assert from 'node:assert/strict';
import { execFileSync, spawnSync } from 'node:child_process';
import { existsSync, mkdirSync, readdirSync, readFileSync, writeFileSync } from 'node:fs';
import { join, resolve } from 'node:path';
import { Chromium, wait } from './chromium.mjs';
import { Firefox } from './firefox.mjs';

const [which, pageGiven, commandGiven, picturesGiven] = process.argv.slice(2), [page, command, pictures] = [pageGiven, commandGiven, picturesGiven].map(path => resolve(path));
const SEEDS = '3770694558,3532774216,2901327257,4093209576,2137023497,2889436789', A4 = [8.27, 11.69], LETTER = [8.5, 11];
const CAVE = readFileSync(new URL('../../examples/cave.svx', import.meta.url), 'utf8'), BLUNDER = CAVE.replace('5\t6\t13.74\t115', '5\t6\t13.74\t151');
const SEVERAL = CAVE.replace('5\t6\t13.74\t115', '5\t6\t13.74\t155'); // several suspects, one of them an equate
let browser;

const value = expression => browser.value(expression);
const text = id => value(`document.getElementById('${id}').textContent`);
const checks = () => value('Number(document.body.dataset.done ?? 0)');

// Does something, and waits until the check that it starts is over.
async function after(action, seconds = 240) {
  const before = await checks();
  await action();
  await browser.until(`document.body.dataset.done > ${before}`, seconds);
}

async function open(width, height, dark = false, touch = false) {
  await browser.look(width, height, dark, touch);
  await browser.open(page);
  await browser.until('document.body?.dataset.done > 0');
}

// An empty field gets words, as they are typed.
async function fill(id, words) {
  await value(`(() => { const it = document.getElementById('${id}'); const more = it.closest('details'); if (more) more.open = true; it.focus(); it.select(); })()`);
  await browser.key('a', { control: true });
  if (words === '') await value(`(() => { const it = document.getElementById('${id}'); it.value = ''; it.dispatchEvent(new Event('input', { bubbles: true })); })()`);
  else await browser.type(words);
}

const choose = (id, to) => value(`(() => { const it = document.getElementById('${id}'); it.value = ${JSON.stringify(to)}; it.dispatchEvent(new Event('change', { bubbles: true }));
  it.dispatchEvent(new Event('input', { bubbles: true })); })()`);

// By the clipboard: copied from one box, pasted into the survey.
async function paste(words) {
  await value(`(() => { const box = document.createElement('textarea'); box.id = 'copied'; box.value = ${JSON.stringify(words)}; document.body.append(box); box.focus(); box.select(); })()`);
  await browser.key('c', { control: true });
  await value("(() => { document.getElementById('copied').remove(); document.getElementById('text').focus(); document.getElementById('text').select(); })()");
  await after(() => browser.key('v', { control: true }));
  assert.equal((await value("document.getElementById('text').value")).replace(/\n$/, ''), words.replace(/\n$/, ''), 'pasted');
}

// ---- What comes in

async function loaded() {
  assert.match(await text('verdict'), /^The cave as a whole: in [\d,]+ of 1,000 sound caves .*; that is no sign of a blunder\.$/);
  assert.equal(await value("document.getElementById('verdict').className"), 'good');
  assert.equal(await value("document.getElementById('suspects').hidden"), true);
}

const isBlunder = async () => {
  assert.match(await text('verdict'), /^The cave as a whole: in none of 1,000 .*there is a blunder, or these errors are too small\.$/);
  assert.equal(await value("document.getElementById('verdict').className"), 'bad');
  assert.match(await value("document.querySelector('#suspectRows li').textContent"), /cave\.main\.5 - cave\.main\.6, 13\.74 at 151.*5 6 13\.74 151 \+6$/);
};

// A cave in several files, in a folder of its own, with line ends of Windows.
function written() {
  const folder = join(browser.folder, 'mycave'), parts = BLUNDER.split(/(?=^\*begin main$)/m), main = parts[1].slice(0, parts[1].indexOf('*end main') + 10), rest = parts[1].slice(main.length);
  mkdirSync(join(folder, 'trips'), { recursive: true });
  const files = { 'all.svx': `; the whole cave\n*include cave\n`, 'cave.svx': `${parts[0]}*include "trips/Main.svx"\n${rest}`, 'trips/main.svx': main, 'notes.md': 'no survey\n' };
  for (const [name, words] of Object.entries(files)) writeFileSync(join(folder, name), words.replace(/\n/g, '\r\n'));
  return folder;
}

async function comesIn() {
  await paste(BLUNDER);
  await isBlunder();
  const folder = written(), place = [600, 400], files = ['cave.svx', 'trips/main.svx', 'all.svx'].map(name => join(folder, name));
  await after(() => browser.drop(place, files));
  await isBlunder();
  assert.match(await text('severalSaid'), /^3 files; the survey begins with all\.svx\.$/);
  assert.match(await text('about'), /^all\.svx: 86 legs/);
  assert.match(await value("document.querySelector('#suspectRows code').textContent"), /main\.svx:8 /i);
  await after(() => value("(document.getElementById('go').click(), 1)"));
  await isBlunder();
  if (browser.name === 'Chromium') {
    await after(() => browser.drop(place, [folder]));
    await isBlunder();
    assert.match(await text('severalSaid'), /^3 files; the survey begins with mycave\/all\.svx\.$/);
  }
  await after(() => browser.openFiles('#file', files.slice(0, 2)));
  await isBlunder();
  assert.match(await text('severalSaid'), /begins with cave\.svx\.$/);
  await choose('which', 'main.svx');
  assert.match(await value("document.getElementById('text').value"), /^\*begin main/);
  await after(() => browser.openFiles('#file', files.slice(0, 1)));
  assert.match(await text('said'), /Main\.svx/i, 'an include that is not there');
  await after(() => choose('example', 'job'));
  assert.match(await text('about'), /errors: .*the job/);
  await after(() => choose('example', 'blunder'));
  await isBlunder();
}

// ---- Fields

async function fields() {
  for (const [id, words, sentence] of [['tape', '1,5', ''], ['compass', '0,5', ''], ['station', '3 cm', ''], ['clino', '.5', '']]) {
    await fill(id, words);
    assert.equal(await text(`${id}Said`), sentence);
  }
  await choose('tapeUnit', 'cm');
  await after(() => browser.key('Enter'));
  assert.match(await text('about'), /errors: tape 15 mm, compass 0\.5 degrees, clino 0\.5 degrees, stations 30 mm \(from --sigma\)/);
  const wrong = [['tape', '1,000.5', /^Tape: ‘1,000\.5’ is no number/], ['compass', '5 mm', /^Compass: ‘5 mm’ is no number/], ['compass', '91', /compass=91deg/],
    ['station', 'wide', /no number/], ['plays', '10', /100/], ['seeds', '1,2,3', /seeds/i], ['trip', '95', /95deg/]];
  for (const [id, words, sentence] of wrong) {
    const before = await value(`document.getElementById('${id}').value`);
    await fill(id, words);
    await after(() => browser.click('#go'));
    assert.match(await text(`${id}Said`), sentence);
    assert.equal(await value(`document.getElementById('${id}').getAttribute('aria-invalid')`), 'true', id);
    assert(await value(`document.getElementById('${id}').getAttribute('aria-describedby').includes('${id}Said')`));
    assert.equal(await isOld(), true);
    await fill(id, before);
  }
  for (const id of ['tape', 'compass', 'clino', 'station']) await fill(id, '');
  await after(() => browser.click('#go'));
  assert.equal(await value("document.querySelectorAll('[aria-invalid]').length"), 0);
  assert.equal(await isOld(), false);
  return wrong.length;
}

const isOld = () => value("document.getElementById('found').classList.contains('old') && document.getElementById('json').disabled && !document.getElementById('oldResults').hidden");

// A survey that cannot be read: every trouble with its line, which is selected.
async function refused() {
  await fill('text', '*data normal from to tape compass clino\na b 5 90 0\nb c five 90 0\nc a 5 east 0\n');
  await after(() => browser.key('Enter', { control: true }));
  assert.match(await text('said'), /survey\.svx:3: .*survey\.svx:4: |blunder\.svx:3: .*blunder\.svx:4: /s);
  const chosen = () => value("(() => { const it = document.getElementById('text'); return it.value.slice(it.selectionStart, it.selectionEnd); })()");
  assert.equal(await chosen(), 'b c five 90 0');
  assert.equal(await value("document.getElementById('text').getAttribute('aria-invalid')"), 'true');
  await browser.click('#said button:nth-of-type(2)');
  assert.equal(await chosen(), 'c a 5 east 0');
  assert.equal(await isOld(), true);
  await paste('; nothing\n');
  assert.match(await text('verdict') + await text('said'), /no leg|No loop/i);
  await paste('*data normal from to tape compass clino\na b 5 90 0\nb c 5 90 0\n');
  assert.match(await text('verdict'), /^No loop: nothing can be checked\.$/);
  assert.equal(await value("document.getElementById('verdict').className"), 'none');
  assert.equal(await value("document.getElementById('loops').hidden && document.getElementById('one').hidden"), true);
  await paste(BLUNDER);
}

// ---- The plan and the tables

const view = () => value("document.querySelector('#plan svg').getAttribute('viewBox').split(' ').map(Number)");

async function plan() {
  const whole = await view(), [x, y] = await browser.placeOf('#plan');
  assert.match(await value("document.querySelector('#plan svg').getAttribute('aria-label')"), /^Plan of the cave: 86 legs, 3 loops, 1 of them bad; marked red: cave\.main\.5 – 6/);
  assert.match(await value("document.querySelector('#plan .names').textContent"), /1: cave\.main\.5 – 6/);
  await browser.wheel([x, y], -400);
  await browser.until(`document.querySelector('#plan svg').viewBox.baseVal.width < ${0.8 * whole[2]}`);
  const near = await view();
  await browser.drag([x, y], [x + 60, y + 30]);
  assert((await view())[0] < near[0], 'dragged');
  await value("document.getElementById('plan').focus()");
  const before = await view();
  await browser.key('ArrowRight');
  assert((await view())[0] > before[0], 'arrow');
  await browser.key('+');
  assert((await view())[2] < before[2], 'plus');
  await browser.key('-');
  assert(Math.abs((await view())[2] - before[2]) < 0.01, 'minus');
  await browser.key('0');
  assert.deepEqual(await view(), whole);
}

// Rows by keyboard: the leg is marked, and in the view.
async function suspects() {
  await paste(SEVERAL);
  assert.match(await value("document.querySelector('#suspectRows li:nth-child(2)').textContent"), /equate/);
  for (const rank of [2, 3, 1]) {
    await browser.placeOf(`#suspectRows li:nth-child(${rank}) button`);
    await value(`document.querySelector('#suspectRows li:nth-child(${rank}) button').focus()`);
    await browser.key('Enter');
    await browser.until(`document.querySelector('#suspectRows [aria-pressed=true]').dataset.rank === '${rank}'`, 5);
    await legIsSeen();
  }
  await paste(BLUNDER);
}

// The middle of the marked leg lies on the screen, and the plan is what is seen there.
async function legIsSeen() {
  const [seen, said] = await value(`(() => { const ring = document.querySelector('#plan .ring').getBoundingClientRect(), x = ring.left + ring.width / 2, y = ring.top + ring.height / 2;
    const top = document.elementFromPoint(x, y), inside = x > 0 && x < innerWidth && y > 0 && y < innerHeight;
    return [ring.width > 20 && inside && document.getElementById('plan').contains(top), [x, y, innerHeight, scrollY].join(' ')]; })()`);
  assert(seen, `the marked leg is not seen: ${said}`);
}

// The cells of a column of the loops, after what was done to them.
async function column(number, wanted) {
  const cells = `[...document.querySelectorAll('#loopRows tr')].map(row => row.children[${number}].textContent)`;
  await browser.until(`${cells}.join() === '${wanted}'`, 5).catch(async () => assert.equal((await value(cells)).join(), wanted));
}

const drawnLoop = name => browser.until(`document.getElementById('oneName').textContent.startsWith('${name}') && document.querySelector('#cloud svg, #one[hidden]') !== null`);

async function loops() {
  await column(0, '2,1,3');
  await column(6, 'bad,sound,sound');
  await browser.click('#loopHead [data-key=loopNumber]');
  await column(0, '1,2,3');
  await value("document.querySelector('#loopHead [data-key=legs]').focus()");
  await browser.key('Enter');
  await column(1, '28,30,32');
  await browser.key('Enter');
  await column(1, '32,30,28');
  assert.deepEqual(await value("[...document.querySelectorAll('#loopHead th')].map(head => head.getAttribute('aria-sort'))"), ['none', 'descending', 'none', 'none', 'none', 'none', 'none']);
  await browser.click('#loopRows [data-loop="3"]');
  await drawnLoop('Loop 3: 32 legs');
  assert.match(await value("document.querySelector('#cloud svg').getAttribute('aria-label')"), /^Loop 3: the misses of [\d,]+ plays as points.*own miss of 1\.16 m is within that of (50|95) %\.$/);
  assert.match(await value("document.querySelector('#histogram svg').getAttribute('aria-label')"), /^Loop 3: how far [\d,]+ plays miss: half by less than [\d.]+ m/);
  await browser.click('#loopRows [data-loop="2"]');
  await drawnLoop('Loop 2: 30 legs');
  assert.match(await value("document.querySelector('#cloud svg').getAttribute('aria-label')"), /outside all of them\.$/);
  assert.match(await text('saySaid'), /^Your loops fit \d+ mm a station/);
  await browser.click('#loopHead [data-key=p]');
}

// ---- What goes out

async function saved(id, name) {
  const file = join(browser.downloads, name);
  await browser.click(`#${id}`);
  for (let left = 400; !existsSync(file) && left > 0; left--) await wait(25);
  await wait(200);
  return readFileSync(file, 'utf8');
}

// The same seeds: what is saved is what the command writes, and the page has its words.
async function saves() {
  await fill('seeds', SEEDS);
  await fill('compass', '0,7');
  await after(() => browser.click('#go'));
  const file = join(browser.folder, 'survey.svx'), svg = join(browser.folder, 'its.svg'), asked = ['check', 'survey.svx', '--seeds', SEEDS, '--sigma', 'compass=0.7deg'];
  writeFileSync(file, BLUNDER);
  const run = (...more) => spawnSync(command, [...asked, ...more], { cwd: browser.folder, encoding: 'utf8' }).stdout;
  assert.equal(await saved('json', 'verdict.json'), run('--json', '--svg', svg));
  assert.equal(await saved('svg', 'plan.svg'), readFileSync(svg, 'utf8'));
  const shown = (await value("document.getElementById('results').textContent")).replace(/\s+/g, ' ');
  const lines = run().trimEnd().split('\n').map(line => line.replace('; --sigma replaces them', '').replace(/:$/, '')), sentences = lines.flatMap(line => line.trim().split(/\. (?=[A-Z])/));
  const missing = sentences.filter(line => !/^(Look at|loop +legs|\d+ +\d+ |--loops|and \d+ more|That is|The cave as|survey\.svx:\d)/.test(line) && !shown.includes(line.replace(/\.$/, '')));
  assert.deepEqual(missing, [], 'sentences of the command that the page has not');
  await fill('seeds', '');
  await fill('compass', '');
  await after(() => browser.click('#go'));
}

const words = file => execFileSync('pdftotext', ['-layout', file, '-'], { encoding: 'utf8' });

// Two pages: the verdict and the plan, then suspects and loops; no form.
async function prints(name, sizes = { A4, LETTER }) {
  for (const [size, paper] of Object.entries(sizes)) {
    const file = join(pictures, `${name}-${size}.pdf`);
    await browser.print(file, paper);
    const [one, two, ...rest] = words(file).split('\f').filter(part => part.trim() !== '');
    assert.equal(rest.length, 0, `${name}: ${rest.length + 2} pages of ${size}`);
    assert.match(one, /The cave as a whole[^]*in no loop/);
    assert.match(two ?? '', /Loops[^]*Verdict/);
    assert.doesNotMatch(`${one}${two}`, /Check the cave|Open files|Six seeds|Save/);
  }
}

// ---- A large cave

// By how much others on this machine slow it down.
function slowness() {
  const start = performance.now(), used = process.cpuUsage();
  while (process.cpuUsage(used).user < 300000);
  return Math.max(1, (performance.now() - start) / 300);
}

// The first verdict comes soon, by few plays; the page answers meanwhile; it can be stopped.
async function large() {
  await fill('plays', '20000');
  await value(`(() => { window.seen = { late: 0, last: performance.now() };
    const tick = now => { seen.late = Math.max(seen.late, now - seen.last); seen.last = now; requestAnimationFrame(tick); }; requestAnimationFrame(tick); })()`);
  const slow = slowness(), start = Date.now(), before = await checks();
  await choose('example', 'large');
  await browser.until("/First verdict, by 100 of 20,000 plays/.test(document.getElementById('told').textContent)");
  const seconds = (Date.now() - start) / 1000;
  assert.match(await text('about'), /3,080 legs, .* 100 loops/);
  assert(await value("document.getElementById('progress').value > 0 && !document.getElementById('busy').hidden"));
  await value("document.querySelector('#loopHead [data-key=misses]').scrollIntoView()");
  await browser.click('#loopHead [data-key=misses]');
  assert.equal(await value("document.querySelector('#loopHead [aria-sort=ascending]').textContent"), 'Misses, m');
  await browser.until("document.getElementById('progress').value > 0.02");
  await browser.click('#stop');
  await browser.until(`document.body.dataset.done > ${before}`);
  assert.match(await text('told'), /Stopped after [\d,]+ of 20,000 plays: the verdict is by those\./);
  const late = await value('seen.late');
  assert(seconds < 5 * slow, `the first verdict took ${seconds} s, on a machine that is ${slow} times slower than alone`);
  const rows = () => value("[...document.querySelectorAll('#loopRows tr')].filter(row => row.getClientRects().length > 0).length");
  assert.equal(await rows(), 12);
  await browser.click('#allLoops');
  assert.equal(await rows(), 100);
  await prints('large');
  await fill('plays', '1000');
  await browser.click('#loopHead [data-key=p]');
  return { seconds, late, slow };
}

// ---- Telephone, focus, names

// Nothing is wider than the screen, and no table than its place.
async function fits(width) {
  const wide = await value(`[...document.querySelectorAll('body *')].filter(it => it.getClientRects().length > 0 && !it.closest('textarea, #plan, svg, datalist, option'))
    .filter(it => it.getBoundingClientRect().right > ${width} + 0.5)
    .map(it => it.tagName + '#' + it.id + ' ' + it.getBoundingClientRect().right)`);
  assert.deepEqual(wide, [], `wider than ${width}`);
  assert(await value(`document.documentElement.scrollWidth <= ${width}`), 'the page scrolls sideways');
  const cut = await value(`[...document.querySelectorAll('td, th, button, label, p')].filter(it => it.clientWidth > 0 && it.scrollWidth > it.clientWidth + 1)
    .map(it => it.outerHTML.slice(0, 80))`);
  assert.deepEqual(cut, [], `cut at ${width}`);
}

async function telephone() {
  await after(() => choose('example', 'blunder'));
  await value('scrollTo(0, 0)');
  await fits(390);
  const low = await value(`[...document.querySelectorAll('button, select, input, summary')].filter(it => it.getClientRects().length > 0 && it.getBoundingClientRect().height < 44)
    .map(it => it.outerHTML.slice(0, 60))`);
  assert.deepEqual(low, [], 'lower than 44 pixels');
  await after(() => browser.tap('#go'));
  const top = await value("document.getElementById('verdict').getBoundingClientRect().top");
  assert(top >= 0 && top < 200, `the verdict is at ${top}`);
  await browser.picture(join(pictures, `${browser.name}-tapped.png`), { whole: false });
  await paste(SEVERAL);
  for (const rank of [1, 2, 3]) {
    await value(`document.querySelector('#suspectRows li:nth-child(${rank}) button').scrollIntoView({ block: 'end' })`);
    await browser.tap(`#suspectRows li:nth-child(${rank}) button`);
    await browser.until(`document.querySelector('#suspectRows [aria-pressed=true]')?.dataset.rank === '${rank}'`);
    await legIsSeen();
  }
  await browser.picture(join(pictures, `${browser.name}-row.png`), { whole: false });
  await pinches();
}

async function pinches() {
  const [x, y] = await browser.placeOf('#plan'), before = await view();
  await browser.touch([[x - 30, y], [x + 30, y]], [[x - 60, y], [x + 60, y]], [[x - 90, y], [x + 90, y]]);
  const near = await view();
  assert(near[2] < 0.6 * before[2], `pinched: ${before[2]} to ${near[2]}`);
  await browser.touch([[x, y]], [[x + 40, y]], [[x + 80, y]]);
  assert((await view())[0] < near[0], 'a finger drags');
  const whole = `document.querySelector('#plan svg').getAttribute('viewBox') === '${before.join(' ')}'`;
  await browser.tap('#whole');
  await browser.until(whole, 5).catch(() => browser.tap('#whole')); // a tap just after a drag may only end it
  await browser.until(whole, 20).catch(async () => assert.deepEqual(await view(), before));
}

// Every control that the keyboard reaches is seen whole, with its outline.
async function focus() {
  await value("(document.getElementById('more').open = true, scrollTo(0, 0), document.getElementById('open').focus())");
  const reached = new Set();
  for (let steps = 0; steps < 80; steps++) {
    await browser.key('Tab');
    const [name, hidden] = await value(`(() => { const it = document.activeElement; if (it === document.body) return ['', '']; const box = it.getBoundingClientRect(), style = getComputedStyle(it);
      const wide = parseFloat(style.outlineWidth) + parseFloat(style.outlineOffset), [x, y] = [box.left + box.width / 2, box.top + box.height / 2];
      const edges = [[box.left + 4, y], [box.right - 4, y], [x, box.top + 4], [x, box.bottom - 4]], name = it.id || Object.entries(it.dataset).flat().join('') || it.textContent.slice(0, 20);
      const covered = edges.filter(([x, y]) => { const top = document.elementFromPoint(x, y); return !(it.contains(top) || top?.contains(it)); }).length;
      const outside = box.left - wide < 0 || box.right + wide > innerWidth + 0.5 || box.top - wide < 0 || box.bottom + wide > innerHeight + 0.5;
      return [name, style.outlineStyle === 'none' ? 'no outline' : outside ? 'outside ' + [box.top, box.bottom, wide].join(' ') : covered > 0 ? 'covered' : '']; })()`);
    if (name === '' || reached.has(name)) break;
    reached.add(name);
    assert.equal(hidden, '', `the focus on ${name}`);
  }
  assert(['text', 'tape', 'seeds', 'go', 'plan', 'rank1', 'keyp', 'loop3', 'json'].every(name => reached.has(name)), [...reached].join());
  return reached.size;
}

// Controls, pictures and tables have names.
async function names() {
  const bare = await value(`[...document.querySelectorAll('button, input:not([hidden]), select, textarea, table, svg[role=img], progress, section, ol')].filter(it => it.getClientRects().length > 0)
    .filter(it => !(it.getAttribute('aria-label') || it.getAttribute('aria-labelledby') && document.getElementById(it.getAttribute('aria-labelledby'))?.textContent || it.labels?.length > 0
      || it.tagName === 'BUTTON' && it.textContent)).map(it => it.outerHTML.slice(0, 80))`);
  assert.deepEqual(bare, []);
  if (browser.name !== 'Chromium') return;
  const { nodes } = await browser.call('Accessibility.getFullAXTree'), kinds = ['button', 'textbox', 'combobox', 'image', 'progressbar', 'table', 'region'];
  assert.deepEqual(nodes.filter(({ ignored, role, name }) => !ignored && kinds.includes(role?.value) && !name?.value).map(({ role }) => role.value), []);
}

// ---- All of it

async function wide() {
  await open(1280, 900);
  await loaded();
  await comesIn();
  const wrong = await fields();
  await refused();
  await fits(1280);
  await plan();
  await suspects();
  await loops();
  await names();
  const reached = await focus();
  await saves();
  await prints('blunder');
  const { seconds, late, slow } = await large();
  return `${wrong} wrong fields, ${reached} controls reached by keyboard; 3,080 legs and 100 loops: first verdict after ${seconds.toFixed(1)} s, `
    + `no frame later than ${late.toFixed(0)} ms (${slow.toFixed(1)} times slower than alone)`;
}

async function looks(dark, touch) {
  const [width, height, kind] = touch ? [390, 844, 'telephone'] : [1280, 900, 'wide'];
  await open(width, height, dark, touch);
  await choose('plays', '200');
  for (const example of ['cave', 'blunder', 'large']) {
    await after(() => choose('example', example));
    await value('scrollTo(0, 0)');
    await drawnLoop('Loop');
    await fits(width);
    await browser.picture(join(pictures, `${browser.name}-${kind}-${example}${dark ? '-dark' : ''}.png`));
  }
}

// The picture of the README: what a caver sees of a cave with a blunder.
async function front() {
  await open(1280, 900);
  await after(() => choose('example', 'blunder'));
  await value('scrollTo(0, 0)');
  await drawnLoop('Loop 2');
  await browser.picture(join(pictures, 'page.png'), { most: 1180, scale: 0.75 });
}

const start = touch => (which === 'firefox' ? Firefox.start(touch) : Chromium.start('chromium'));
const clean = () => {
  assert.deepEqual([...new Set(browser.requests)].filter(url => !/^(file:|data:|blob:|about:)/.test(url)), []);
  assert.deepEqual(browser.errors, []);
};

async function all() {
  mkdirSync(pictures, { recursive: true });
  browser = await start(false);
  try {
    const said = await wide();
    for (const dark of browser.name === 'Chromium' ? [false, true] : [false]) await looks(dark, false);
    if (browser.name === 'Chromium') await front();
    clean();
    console.log(`the page in ${browser.name}, 1280 pixels: pasted, dropped, opened, refused, zoomed, sorted, saved as the command writes it, printed on two pages; ${said}`);
  } finally {
    await browser.end();
  }
  browser = await start(true);
  try {
    await open(390, 844, false, true);
    await telephone();
    for (const dark of browser.name === 'Chromium' ? [false, true] : [false]) await looks(dark, true);
    clean();
    console.log(`the page in ${browser.name}, 390 pixels: tapped, pinched, nothing cut, the verdict and each row's leg in view; ${readdirSync(pictures).length} pictures in ${pictures}`);
  } finally {
    await browser.end();
  }
}
await all();
process.exit();
