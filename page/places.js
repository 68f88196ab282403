// Where the legs of a cave lie in a picture.

// A round length of which a screen shows about a fifth.
export function roundLength(most) {
  const power = 10 ** Math.floor(Math.log10(most));
  return most / power >= 5 ? 5 * power : most / power >= 2 ? 2 * power : power;
}

export const pathOf = legs => legs.map(({ ends: [x1, y1, x2, y2] }) => `M${x1.toFixed(2)} ${y1.toFixed(2)}L${x2.toFixed(2)} ${y2.toFixed(2)}`).join('');

// East and north in metres become right and down, from the cave's own corner on, so that large coordinates lose no digits.
export function placed(legs) {
  const sides = [0, 1].map(axis => legs.flatMap(({ ends }) => [ends[axis], ends[axis + 2]]));
  const [left, low] = sides.map(side => side.reduce((so, value) => Math.min(so, value), Infinity)), [right, high] = sides.map(side => side.reduce((so, value) => Math.max(so, value), -Infinity));
  const moved = legs.map(leg => ({ ...leg, ends: [leg.ends[0] - left, high - leg.ends[1], leg.ends[2] - left, high - leg.ends[3]] }));
  return { legs: moved, width: Math.max(right - left, 1), height: Math.max(high - low, 1) };
}
