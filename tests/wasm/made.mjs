// Surveys for tests, from a seeded generator: caves with loops, units, calibrations, backsights, equates, fixed points and included files; some with blunders, some
// that no reader takes.

// Numbers from 0 to less than 1 (a linear congruential generator of 32 bits, mixed).
export function randomOf(seed) {
  let state = seed >>> 0;
  return () => {
    state = (Math.imul(state, 1664525) + 1013904223) >>> 0;
    const mixed = Math.imul(state ^ (state >>> 15), 2246822519) >>> 0;
    return ((mixed ^ (mixed >>> 13)) >>> 0) / 2 ** 32;
  };
}

const DEGREE = Math.PI / 180;

class Maker {
  constructor(seed) { this.random = randomOf(seed); }
  whole(below) { return Math.floor(this.random() * below); }
  one(of) { return of[this.whole(of.length)]; }
  chance(share) { return this.random() < share; }
  noise() { return this.random() + this.random() + this.random() - 1.5; }

  // How the book is kept: the lines before the legs, and how readings are written.
  style() {
    const feet = this.chance(0.15), percent = this.chance(0.1), backs = this.chance(0.15), head = [];
    if (this.chance(0.4)) head.push(`*sd tape ${this.one(['0.01', '0.05', '0.003'])} metres`, `*sd compass ${this.one(['0.5', '1', '2'])} degrees`);
    if (this.chance(0.3)) head.push(`*sd clino ${this.one(['0.5', '1'])} degrees`, '*sd position 0.05 metres');
    if (feet) head.push('*units tape feet');
    if (percent) head.push('*units clino percent');
    if (this.chance(0.2)) head.push(`*calibrate tape ${this.one(['0.1', '-0.05'])}`, `*calibrate declination ${this.one(['2.5', '-1.25'])}`);
    if (this.chance(0.2)) head.push('*date 2026.11.17');
    head.push(`*data normal from to tape compass clino${backs ? ' backcompass backclino' : ''}`);
    return { feet, percent, backs, head, decimals: this.one([[2, 0, 0], [2, 1, 1], [1, 0, 0], [3, 2, 2]]) };
  }

  leg(from, to, places, style, blunder) {
    const [x, y, z] = [0, 1, 2].map(k => places[to][k] - places[from][k] + 0.03 * this.noise()), plan = Math.hypot(x, y);
    let length = Math.hypot(plan, z) + 0.02 * this.noise(), bearing = Math.atan2(x, y) / DEGREE + this.noise(), slope = Math.atan2(z, plan) / DEGREE + this.noise();
    if (blunder === 1) length += this.one([10, -1, 1, 5]);
    if (blunder === 2) bearing += this.one([180, 10, 90]);
    const turn = degrees => ((degrees % 360) + 360) % 360, [tape, compass, clino] = style.decimals, angle = turn(bearing).toFixed(compass);
    const tilt = style.percent ? (100 * Math.tan(slope * DEGREE)).toFixed(1) : slope.toFixed(clino);
    const back = style.backs ? ` ${turn(bearing + 180 + 0.5 * this.noise()).toFixed(compass)} ${style.percent ? (-100 * Math.tan(slope * DEGREE)).toFixed(1) : (-slope).toFixed(clino)}` : '';
    return `s${from} s${to} ${Math.abs(style.feet ? length / 0.3048 : length).toFixed(tape)} ${Number(angle) >= 360 ? 0 : angle} ${tilt}${back}`;
  }

  // Stations one after another, with branches, and legs back to earlier ones.
  legs(style) {
    const places = [[0, 0, 0]], lines = [], count = 3 + this.whole(this.chance(0.2) ? 80 : 25), closing = this.one([0.05, 0.15, 0.3]), blunders = this.chance(0.4);
    for (let j = 0, last = 0; j < count; j++) {
      const from = this.chance(0.85) ? last : this.whole(places.length);
      if (places.length > 3 && (this.chance(closing) || j === count - 1)) {
        const to = this.whole(places.length - 2);
        if (to !== from) lines.push(this.leg(from, to, places, style, blunders && this.chance(0.3) ? 1 + this.whole(2) : 0));
        continue;
      }
      const far = 2 + 18 * this.random(), turn = 2 * Math.PI * this.random(), tilt = 0.6 * this.noise();
      places.push([places[from][0] + far * Math.cos(tilt) * Math.sin(turn), places[from][1] + far * Math.cos(tilt) * Math.cos(turn), places[from][2] + far * Math.sin(tilt)]);
      last = places.length - 1;
      lines.push(this.leg(from, last, places, style, 0));
      if (this.chance(0.05)) lines.push(`s${last} .. ${(3 * this.random()).toFixed(2)} ${this.whole(360)} -`);
    }
    return { lines, places };
  }

  // One byte is another one, a line is missing, or a word stands twice.
  spoilt(text) {
    const lines = text.split('\n'), at = this.whole(lines.length);
    if (this.chance(0.4)) lines[at] = lines[at].replace(/\S+/g, word => (this.chance(0.3) ? this.one(['x', '-', '1e5', '*data', '9999', 'ß', '"']) : word));
    else if (this.chance(0.5)) lines.splice(at, 1);
    else lines.splice(at, 0, this.one(['*end', '*begin a', '*include nowhere', '*units tape yards', 's1 s2', '*foo', '*fix s1 1 2 3']));
    return lines.join('\n');
  }

  // Files: the survey first, and what it includes.
  survey(name) {
    const style = this.style(), { lines, places } = this.legs(style), nested = this.chance(0.4), half = Math.floor(lines.length / 2), files = [];
    let body = [...style.head, ...lines].join('\n');
    if (this.chance(0.2)) {
      files.push({ name: `${name}-part.svx`, bytes: [...style.head, ...lines.slice(half)].join('\n') });
      body = [...style.head, ...lines.slice(0, half), `*include ${name}-part`].join('\n');
    }
    if (this.chance(0.15)) body += `\n*fix s0 0 0 0\n*fix s${places.length - 1} ${places[places.length - 1].map(metres => metres.toFixed(1)).join(' ')}`;
    if (this.chance(0.1)) body += `\n*equate s0 s${places.length}`;
    if (nested) body = `*begin cave ; made\n${body}\n*end cave`;
    if (this.chance(0.06)) body = this.spoilt(body);
    return [{ name: `${name}.svx`, bytes: `${body}${this.chance(0.95) ? '\n' : ''}` }, ...files];
  }

  // A ring of level shots, as a job.
  job(name) {
    const count = 3 + this.whole(12), seeds = Array.from({ length: 6 }, () => 16 + this.whole(2 ** 32 - 16));
    const shots = Array.from({ length: count }, (_, j) => {
      const turn = Math.round(65536 * (j / count) + (this.chance(0.1) ? 300 : 3) * this.noise() + 65536) % 65536;
      return `(shot A${j} A${(j + 1) % count} ${Math.round(10000 + 20 * this.noise() + (this.chance(0.05) ? 1000 : 0))} ${turn})`;
    });
    return [{ name: `${name}.job`, bytes: `(seeds (a ${seeds.slice(0, 3).join(' ')}) (b ${seeds.slice(3).join(' ')}))\n(sigma ${this.whole(20)} ${this.whole(60)})\n${shots.join('\n')}\n` }];
  }
}

// A made case: its files, and options for check and for tolerance.
export function madeOf(seed) {
  const maker = new Maker(seed), name = `made${seed}`, files = maker.chance(0.1) ? maker.job(name) : maker.survey(name);
  const seeds = Array.from({ length: 6 }, () => 16 + maker.whole(2 ** 32 - 16)).join(',');
  const check = { seeds, plays: 100 + maker.whole(50) }, tolerance = { seeds, runs: 1 + maker.whole(400) };
  tolerance.sigma = maker.one(['tape=10mm,compass=1deg', '4mm,0.5deg', 'tape=2cm,compass=0.5deg,clino=1deg,station=50mm']);
  if (maker.chance(0.5)) check.sigma = maker.one(['tape=10mm,compass=1deg,clino=1deg,station=50mm', 'tape=1cm', '4mm,0.5deg', 'compass=2deg,fix=3m', 'tape=10,compass=1', 'station=1.5 mm']);
  if (maker.chance(0.2)) check.trip = maker.one(['0.5deg', '1', '2deg']);
  if (maker.chance(0.1)) check.first = maker.one([1000, '18446744073709551615', '7']);
  if (maker.chance(0.5)) tolerance.loop = 1 + maker.whole(3);
  if (maker.chance(0.3)) tolerance.miss = maker.one(['-35,22', '500.5,0', '1,2,3']);
  return { name, files, check, tolerance };
}
