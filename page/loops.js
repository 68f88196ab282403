// The rows of the table of loops.
import { WORDS } from './words.js';

// So many rows are shown before more are asked for, and the worst so many are printed on paper.
export const MOST_SHOWN = 12;
export const MOST_PRINTED = 24;

// Numbers as the command prints them: two digits of p, and none below 0.001.
export function loopRow(loop, index) {
  const far = Math.hypot(loop.east_mm, loop.north_mm) / 1000, { legs, length_m: length, p } = loop;
  return { number: index + 1, legs, length: length.toFixed(1), misses: far.toFixed(2), percent: (length > 0 ? 100 * far / length : 0).toFixed(2),
    east: (loop.east_mm / 1000).toFixed(2), north: (loop.north_mm / 1000).toFixed(2), p: p < 0.001 ? '<0.001' : String(Number(p.toPrecision(2))), share: p,
    state: !loop.sound ? WORDS.isBad : loop.too_well ? WORDS.tooWell : WORDS.isSound };
}

// What a column is sorted by.
const COLUMNS = { loopNumber: 'number', legs: 'legs', length: 'length', misses: 'misses', percent: 'percent', p: 'share' };
const valueBy = key => row => (key === 'judged' ? row.state : Number(row[COLUMNS[key]]));

// In the order of a column; rows that are alike stay in the order of their numbers.
export function sortLoops(rows, { key, up }) {
  const value = valueBy(key), compare = (one, other) => (value(one) < value(other) ? -1 : value(one) > value(other) ? 1 : 0);
  return [...rows].sort((one, other) => (up ? 1 : -1) * compare(one, other) || one.number - other.number);
}

// The loops that fit least, the worst first.
export const worstLoops = (rows, count) => sortLoops(rows, { key: 'p', up: true }).slice(0, count).map(({ number }) => number);
