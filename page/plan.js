// The plan of a cave: drawn once in metres, north up; the view moves over it by wheel, drag, pinch, keys and buttons.
import { nameLabel, numberLabel, placeLabels } from './labels.js';
import { pathOf, placed, roundLength } from './places.js';
import { planText } from './words.js';

const SVG = 'http://www.w3.org/2000/svg', STEP = 1.4, CLOSEST = 400, SLIP = 4;

function drawn(kind, attributes) {
  const made = document.createElementNS(SVG, kind);
  for (const [name, value] of Object.entries(attributes)) made.setAttribute(name, value);
  return made;
}

export class Plan {
  #box;
  #svg;
  #cave = { legs: [], width: 1, height: 1 };
  #marks = { suspects: [], loops: [] };
  #view = { x: 0.5, y: 0.5, scale: 1 }; // the middle, and metres a pixel
  #whole = true;
  #paper; // the size of the box on paper, while it is printed
  #pointers = new Map();
  #changed;

  constructor(box, changed) {
    this.#box = box;
    this.#changed = changed;
    this.#svg = drawn('svg', { role: 'img', class: 'plan' });
    box.append(this.#svg);
    box.addEventListener('wheel', event => this.#wheel(event), { passive: false });
    box.addEventListener('keydown', event => this.#key(event));
    for (const kind of ['pointerdown', 'pointermove', 'pointerup', 'pointercancel']) box.addEventListener(kind, event => this.#pointer(event));
    new ResizeObserver(() => this.#fit()).observe(box);
  }

  // The legs of a cave, each with its ends and loops; suspects as indices of legs in their order; loops with their numbers and whether they are bad. The view stays where the cave is the same.
  draw(legs, suspects, loops, same) {
    this.#cave = placed(legs);
    const here = this.#cave.legs, bad = new Set(loops.filter(loop => loop.bad).map(({ number }) => number)), isBad = leg => leg.loops.some(number => bad.has(number));
    const groups = { alone: here.filter(leg => leg.loops.length === 0), sound: here.filter(leg => leg.loops.length > 0 && !isBad(leg)), bad: here.filter(isBad) };
    const label = planText(legs.filter(({ point }) => !point).length, loops.length, bad.size, suspects.map(index => legs[index]).filter(Boolean));
    this.#svg.setAttribute('aria-label', label);
    this.#svg.replaceChildren(...Object.entries(groups).map(([name, some]) => drawn('path', { class: name, d: pathOf(some) })), drawn('path', { class: 'chosen', d: '' }),
      ...suspects.slice(0, 5).filter(index => here[index]).map(index => drawn('path', { class: 'suspect', d: pathOf([here[index]]), 'data-leg': index })),
      drawn('path', { class: 'marked', d: '' }), drawn('circle', { class: 'ring', r: 0 }), drawn('g', { class: 'names' }));
    this.#marks = { suspects: suspects.slice(0, 5).filter(index => here[index]), loops: loops.map(loop => ({ ...loop, centre: this.#centre(loop) })) };
    this.#whole ||= !same;
    this.#fit();
  }

  whole() {
    this.#whole = true;
    this.#fit();
  }

  // Marks a leg, and moves the view where it is not seen.
  mark(index) {
    const leg = this.#cave.legs[index];
    this.#marks.marked = leg === undefined ? undefined : index;
    this.#svg.querySelector('.marked').setAttribute('d', leg === undefined ? '' : pathOf([leg]));
    if (leg === undefined) return this.#apply();
    const [x, y] = this.#middle(index), { width, height } = this.#size(), { scale } = this.#view;
    if (Math.abs(x - this.#view.x) > 0.45 * width * scale || Math.abs(y - this.#view.y) > 0.42 * height * scale) Object.assign(this.#view, { x, y });
    this.#apply();
  }

  // Draws one loop over the others.
  choose(number) {
    this.#marks.chosen = number;
    this.#svg.querySelector('.chosen').setAttribute('d', pathOf(this.#cave.legs.filter(leg => leg.loops.includes(number))));
    this.#apply();
  }

  zoom(by, x = this.#view.x, y = this.#view.y) {
    const most = this.#wholeScale(), before = this.#view.scale, scale = Math.min(most, Math.max(most / CLOSEST, before / by));
    this.#whole = scale === most;
    this.#view = { x: x + (this.#view.x - x) * scale / before, y: y + (this.#view.y - y) * scale / before, scale };
    if (this.#whole) this.#fit();
    else this.#apply();
  }

  pan(right, down) {
    this.#view.x += right * this.#view.scale;
    this.#view.y += down * this.#view.scale;
    this.#apply();
  }

  // For printing: all of the cave, in a box of this size.
  paper(size) {
    this.#paper = size;
    this.whole();
  }

  #size() { return this.#paper ?? { width: this.#box.clientWidth || 600, height: this.#box.clientHeight || 400 }; }

  #wholeScale() {
    const { width, height } = this.#size();
    return 1.16 * Math.max(this.#cave.width / width, this.#cave.height / height);
  }

  #fit() {
    if (this.#whole) this.#view = { x: this.#cave.width / 2, y: this.#cave.height / 2, scale: this.#wholeScale() };
    this.#apply();
  }

  #middle(index) {
    const [x1, y1, x2, y2] = this.#cave.legs[index].ends;
    return [(x1 + x2) / 2, (y1 + y2) / 2];
  }

  // Keeps the cave in the view, and writes it.
  #apply() {
    const { width, height } = this.#size(), view = this.#view, { scale } = view;
    view.x = Math.min(this.#cave.width, Math.max(0, view.x));
    view.y = Math.min(this.#cave.height, Math.max(0, view.y));
    this.#svg.setAttribute('viewBox', [view.x - width * scale / 2, view.y - height * scale / 2, width * scale, height * scale].map(value => value.toFixed(4)).join(' '));
    this.#box.style.touchAction = this.#whole ? 'pan-y' : 'none';
    this.#label(width, height);
    this.#changed({ whole: this.#whole, metres: roundLength(width * scale / 4), scale });
  }

  // Names of suspects and numbers of loops, as large on the screen at any scale, where they have room.
  #label(width, height) {
    const names = this.#svg.querySelector('.names'), { scale } = this.#view, ring = this.#svg.querySelector('.ring');
    if (names === null) return;
    const { suspects, loops, marked, chosen } = this.#marks, seen = (x, y) => [(x - this.#view.x) / scale + width / 2, (y - this.#view.y) / scale + height / 2];
    const first = marked === undefined ? suspects : [marked, ...suspects.filter(index => index !== marked)];
    const wanted = [...first.map(index => nameLabel(suspects.indexOf(index) + 1, this.#cave.legs[index], ...seen(...this.#middle(index)))),
      ...[...loops].sort((one, other) => (other.number === chosen) - (one.number === chosen) || other.bad - one.bad).map(loop => numberLabel(loop, ...seen(...loop.centre)))];
    names.setAttribute('font-size', (14 * scale).toFixed(4));
    names.replaceChildren(...placeLabels(wanted, width, height).map(({ words, kind, x, y }) => {
      const made = drawn('text', { class: kind, x: this.#view.x + (x - width / 2) * scale, y: this.#view.y + (y - height / 2) * scale, 'stroke-width': (4 * scale).toFixed(4) });
      made.textContent = words;
      return made;
    }));
    const [x, y] = marked === undefined ? [0, 0] : this.#middle(marked);
    for (const [name, value] of Object.entries({ cx: x, cy: y, r: marked === undefined ? 0 : 16 * scale })) ring.setAttribute(name, value);
  }

  #centre({ number }) {
    const legs = this.#cave.legs.filter(leg => leg.loops.includes(number)), sum = axis => legs.reduce((so, { ends }) => so + ends[axis] + ends[axis + 2], 0) / (2 * Math.max(1, legs.length));
    return [sum(0), sum(1)];
  }

  #at(event) {
    const box = this.#box.getBoundingClientRect(), { width, height } = this.#size(), { x, y, scale } = this.#view;
    return [x + (event.clientX - box.left - width / 2) * scale, y + (event.clientY - box.top - height / 2) * scale];
  }

  #wheel(event) {
    event.preventDefault();
    this.zoom(Math.exp(-event.deltaY * (event.deltaMode === 1 ? 33 : 1) * 0.0015), ...this.#at(event));
  }

  #key(event) {
    const { width, height } = this.#size();
    const moves = { '+': () => this.zoom(STEP), '=': () => this.zoom(STEP), '-': () => this.zoom(1 / STEP), '0': () => this.whole(), Home: () => this.whole(), ArrowLeft: () => this.pan(-width / 8, 0),
      ArrowRight: () => this.pan(width / 8, 0), ArrowUp: () => this.pan(0, -height / 8), ArrowDown: () => this.pan(0, height / 8) };
    if (event.ctrlKey || event.metaKey || event.altKey || moves[event.key] === undefined || event.target !== this.#box) return;
    event.preventDefault();
    moves[event.key]();
  }

  // One pointer drags, two pinch. A finger on the whole cave scrolls the page.
  #pointer(event) {
    if (event.type === 'pointerdown' && event.target.closest('button') === null && event.button === 0) this.#pointers.set(event.pointerId, event);
    const before = this.#pointers.get(event.pointerId);
    if (before === undefined) return;
    if (event.type === 'pointerup' || event.type === 'pointercancel') this.#pointers.delete(event.pointerId);
    else if (event.type === 'pointermove') this.#moved(before, event);
  }

  #moved(before, event) {
    const [right, down] = [event.clientX - before.clientX, event.clientY - before.clientY], other = [...this.#pointers.values()].find(({ pointerId }) => pointerId !== event.pointerId);
    if (other === undefined && Math.hypot(right, down) < SLIP) return;
    this.#pointers.set(event.pointerId, event);
    if (other === undefined && (!this.#whole || event.pointerType === 'mouse')) this.#drag(event, right, down);
    if (other === undefined) return;
    const apart = one => Math.hypot(one.clientX - other.clientX, one.clientY - other.clientY);
    this.zoom(apart(event) / Math.max(1, apart(before)), ...this.#at({ clientX: (event.clientX + other.clientX) / 2, clientY: (event.clientY + other.clientY) / 2 }));
    if (!this.#whole) this.pan(-right / 2, -down / 2);
  }

  #drag(event, right, down) {
    this.#box.setPointerCapture(event.pointerId);
    this.#whole = false;
    this.pan(-right, -down);
  }
}
