// Pictures of one loop: where its plays miss, and how far; in metres.
import { DRAWN } from './words.js';

const COLUMNS = 40, MOST_POINTS = 2000, SHARES = [0.5, 0.95, 0.999];

const f1 = value => value.toFixed(1);

// A panel: the place of its corners, and the values at its left, right, lower and upper edges.
const across = (p, x) => p.left + (x - p.x0) / (p.x1 - p.x0) * (p.right - p.left);
const down = (p, y) => p.bottom - (y - p.y0) / (p.y1 - p.y0) * (p.bottom - p.top);

// A round step of which about five make a range.
function roundStep(range) {
  const power = 10 ** Math.floor(Math.log10(range / 5)), ratio = range / 5 / power;
  return (ratio < 1.5 ? 1 : ratio < 3.5 ? 2 : ratio < 7.5 ? 5 : 10) * power;
}

const line = (x1, y1, x2, y2, kind) => `<line x1="${f1(x1)}" y1="${f1(y1)}" x2="${f1(x2)}" y2="${f1(y2)}" class="${kind}"/>`;
const ticks = (low, high) => {
  const step = roundStep(high - low), from = Math.ceil(low / step - 1e-6), till = Math.floor(high / step + 1e-6);
  return Array.from({ length: till - from + 1 }, (_, j) => Number(((from + j) * step).toPrecision(6)));
};

// The frame, its ticks below and on the left, and the names of both axes.
function axes(p, below, beside) {
  const under = ticks(p.x0, p.x1).map(x => `${line(across(p, x), p.bottom, across(p, x), p.bottom + 7, 'axis')}`
    + `<text x="${f1(across(p, x))}" y="${f1(p.bottom + 28)}" text-anchor="middle">${x}</text>`);
  const left = ticks(p.y0, p.y1).map(y => `${line(p.left - 7, down(p, y), p.left, down(p, y), 'axis')}`
    + `<text x="${f1(p.left - 11)}" y="${f1(down(p, y) + 7)}" text-anchor="end">${y}</text>`);
  return `<rect x="${f1(p.left)}" y="${f1(p.top)}" width="${f1(p.right - p.left)}" height="${f1(p.bottom - p.top)}" class="axis"/>${under.join('')}${left.join('')}`
    + `<text x="${f1((p.left + p.right) / 2)}" y="${f1(p.bottom + 58)}" text-anchor="middle">${below}</text><text x="${f1(p.left - 60)}" y="${f1(p.top - 16)}">${beside}</text>`;
}

// The distances of the plays, rising, and the ellipse of their misses: its axes' variances and its turn.
export function statisticsOf(misses) {
  const plays = misses.length / 2, sums = [0, 0, 0], distances = new Float64Array(plays);
  for (let j = 0; j < plays; j++) {
    const east = misses[2 * j], north = misses[2 * j + 1];
    [east * east, east * north, north * north].forEach((product, k) => { sums[k] += product / plays; });
    distances[j] = Math.hypot(east, north);
  }
  const [ee, en, nn] = sums, middle = (ee + nn) / 2, half = Math.hypot((ee - nn) / 2, en);
  return { plays, distances: distances.sort(), longer: middle + half, shorter: Math.max(0, middle - half), turn: Math.atan2(2 * en, ee - nn) / 2 };
}

// The distance within which a share of the plays miss.
export const withinOf = ({ distances }, share) => distances[Math.min(distances.length - 1, Math.ceil(share * distances.length) - 1)];

// The share of the smallest ellipse that holds a miss, or undefined.
export function ellipseOf({ longer, shorter, turn }, [east, north]) {
  const along = east * Math.cos(turn) + north * Math.sin(turn), aside = north * Math.cos(turn) - east * Math.sin(turn), tiny = 1e-18;
  const reach = along * along / Math.max(longer, tiny) + aside * aside / Math.max(shorter, tiny);
  return SHARES.find(share => reach <= -2 * Math.log(1 - share));
}

function columnsOf({ distances, plays }, end) {
  const columns = new Array(COLUMNS).fill(0);
  for (const distance of distances) if (distance < end) columns[Math.floor(distance / end * COLUMNS)] += 100 / plays;
  return columns;
}

// A name in the histogram, readable on any ground.
const name = (p, at, row, words, kind) => {
  const right = across(p, at) > (p.left + p.right) / 2;
  return `<text x="${f1(across(p, at) + (right ? -6 : 6))}" y="${f1(p.top + 24 + 24 * row)}" class="${kind}" ${right ? 'text-anchor="end"' : ''}>${words}</text>`;
};

// The quantiles and the survey's miss; one that is far off is named at the right edge.
function marks(kept, p, miss, farOff) {
  const shares = [DRAWN.half, DRAWN.most, DRAWN.all].map((words, j) => [withinOf(kept, SHARES[j]), words]), own = `${DRAWN.miss}: ${Number(miss.toPrecision(3))} m`;
  const lines = shares.map(([at]) => line(across(p, at), p.top, across(p, at), p.bottom, 'share')), names = shares.map(([at, words], row) => name(p, at, row, words, 'mark'));
  if (farOff) return `${lines.join('')}${names.join('')}${name(p, p.x1, 3, `${own} →`, 'mark miss')}`;
  return `${lines.join('')}${line(across(p, miss), p.top, across(p, miss), p.bottom, 'miss')}${names.join('')}${name(p, miss, 3, own, 'mark miss')}`;
}

const picture = (box, inside) => `<svg viewBox="${box}" role="img">${inside}</svg>`;

export function histogramOf(kept, own) {
  const miss = Math.hypot(...own), far = Math.max(1e-3, 1.3 * withinOf(kept, 0.999)), farOff = miss > 2 * far, end = farOff ? far : Math.max(far, 1.25 * miss);
  const columns = columnsOf(kept, end), p = { left: 76, right: 590, top: 50, bottom: 400, x0: 0, x1: end, y0: 0, y1: 1.1 * Math.max(1e-9, ...columns) };
  const bars = columns.map((column, j) => {
    const left = across(p, end * j / COLUMNS), right = across(p, end * (j + 1) / COLUMNS), upper = down(p, column);
    return `<rect x="${f1(left)}" y="${f1(upper)}" width="${f1(right - left - 0.5)}" height="${f1(p.bottom - upper)}" class="bar"/>`;
  });
  return picture('0 0 620 475', bars.join('') + marks(kept, p, miss, farOff) + axes(p, DRAWN.distance, DRAWN.share));
}

// Some of the plays, evenly chosen.
function points(misses, p) {
  const every = Math.ceil(misses.length / 2 / MOST_POINTS), made = [];
  for (let j = 0; j < misses.length / 2; j += every) {
    const [east, north] = [misses[2 * j], misses[2 * j + 1]];
    if (Math.abs(east) < p.x1 && Math.abs(north) < p.y1) made.push(`<circle cx="${f1(across(p, east))}" cy="${f1(down(p, north))}" r="2.2"/>`);
  }
  return `<g class="points">${made.join('')}</g>`;
}

const ellipses = ({ longer, shorter, turn }, p) => SHARES.map(share => {
  const size = Math.sqrt(-2 * Math.log(1 - share)) * (p.right - p.left) / (p.x1 - p.x0);
  return `<ellipse rx="${f1(size * Math.sqrt(longer))}" ry="${f1(size * Math.sqrt(shorter))}" `
    + `transform="translate(${f1(across(p, 0))} ${f1(down(p, 0))}) rotate(${(-turn * 180 / Math.PI).toFixed(2)})" class="share"/>`;
}).join('');

// The survey's miss is a cross; one that is far off is a line towards it.
export function cloudOf(misses, kept, [east, north]) {
  const miss = Math.max(Math.abs(east), Math.abs(north)), far = Math.max(1e-3, 4.2 * Math.sqrt(kept.longer)), farOff = miss > 2 * far, end = farOff ? far : Math.max(far, 1.15 * miss);
  const p = { left: 76, right: 426, top: 50, bottom: 400, x0: -end, x1: end, y0: -end, y1: end }, x = across(p, east), y = down(p, north), size = Math.hypot(east, north);
  const at = part => [across(p, end * (east / size) * part), down(p, end * (north / size) * part)];
  const cross = farOff ? line(...at(0.6), ...at(0.95), 'miss') : line(x - 11, y - 11, x + 11, y + 11, 'miss') + line(x - 11, y + 11, x + 11, y - 11, 'miss');
  return picture('-64 0 620 475', points(misses, p) + ellipses(kept, p) + cross + axes(p, DRAWN.east, DRAWN.north));
}
