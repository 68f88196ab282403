// Labels of a plan, placed so that none covers another; sizes are pixels of the screen.
const HIGH = 18, WIDE = 7.6, EDGE = 4;

// Stations whose names begin alike: the second one's last label is enough.
export function pairName(from, to) {
  const short = name => (name.length > 26 ? name.split('.').slice(-2).join('.') : name), last = to.split('.').at(-1);
  return `${short(from)} – ${from.slice(0, from.lastIndexOf('.') + 1) === to.slice(0, to.lastIndexOf('.') + 1) ? last : short(to)}`;
}

export const nameLabel = (rank, { from, to }, x, y) => ({ words: `${rank > 0 ? `${rank}: ` : ''}${pairName(from, to)}`, kind: 'name', x, y, needed: true });
export const numberLabel = ({ number, bad }, x, y) => ({ words: String(number), kind: bad ? 'number badLoop' : 'number', x, y, needed: false });

// Places to try around a point: beside it, the other side, below, above; then farther down.
function* tries({ words, x, y, needed }, width) {
  const wide = words.length * WIDE, inside = left => Math.max(EDGE, Math.min(width - wide - EDGE, left));
  if (!needed) {
    yield { left: x - wide / 2, top: y - HIGH / 2, wide };
    return;
  }
  for (let row = 0; row < 8; row++) {
    for (const down of row === 0 ? [0] : [row, -row]) {
      yield { left: x + 10, top: y - HIGH / 2 + down * HIGH, wide };
      yield { left: x - 10 - wide, top: y - HIGH / 2 + down * HIGH, wide };
      yield { left: inside(x - wide / 2), top: y - HIGH / 2 + down * HIGH, wide };
    }
  }
}

const overlap = (one, other) => one.left < other.left + other.wide && other.left < one.left + one.wide && Math.abs(one.top - other.top) < HIGH;

// Those labels of which the point is in the view and that have room, each with the place of its first letter's foot.
export function placeLabels(labels, width, height) {
  const taken = [], made = [];
  for (const label of labels) {
    if (!(label.x >= 0 && label.x <= width && label.y >= 0 && label.y <= height)) continue;
    const fits = place => place.left >= EDGE && place.left + place.wide <= width - EDGE && place.top >= EDGE && place.top + HIGH <= height - EDGE && !taken.some(other => overlap(place, other));
    const place = [...tries(label, width)].find(fits);
    if (place === undefined) continue;
    taken.push(place);
    made.push({ words: label.words, kind: label.kind, x: place.left, y: place.top + HIGH - 4 });
  }
  return made;
}
