// A made cave of 3,080 legs and 100 loops: winding passages between the points of a grid, read with noise of the library; one bearing is 100 degrees off.
const SIDE = 11, LEGS = 14, APART = 90, TAPE = 0.01, COMPASS = 0.5, STATION = 0.035, BLUNDER = 1234, SEEDS = [3770694558, 3532774216, 2901327257, 4093209576, 2137023497, 2889436789];
const HEAD = `*sd tape ${TAPE} metres\n*sd compass ${COMPASS} degrees\n*sd position 0.05 metres\n*data normal from to tape compass clino\n`;

// The passages, each from one point of the grid to the next: east and north in steps of the grid.
function passages() {
  const points = Array.from({ length: SIDE * SIDE }, (_, j) => [j % SIDE, Math.floor(j / SIDE)]);
  return points.flatMap(([x, y]) => [[1, 0], [0, 1]].map(([east, north]) => [x, y, x + east, y + north])).filter(([, , x, y]) => x < SIDE && y < SIDE);
}

// A leg between two places as it is read: both ends are missed by a little, then the tape and the compass.
function reading([fromX, fromY], [toX, toY], noise, off) {
  const [east, north] = [toX - fromX + 1.4 * STATION * noise(2), toY - fromY + 1.4 * STATION * noise(3)], bearing = Math.atan2(east, north) * 180 / Math.PI + COMPASS * noise(4) + off;
  return `${(Math.hypot(east, north) + TAPE * noise(5)).toFixed(2)} ${((bearing + 720) % 360).toFixed(1)} 0`;
}

export function largeCave(jabulghi) {
  const ways = passages(), samples = jabulghi.seed(...SEEDS).block(6 * LEGS * ways.length + 2 * SIDE * SIDE), noise = j => samples[j] / 2048, lines = [HEAD];
  const grid = (x, y) => [x, y].map((step, k) => APART * step + 12 * noise(samples.length - 2 - 2 * (x + SIDE * y) + k));
  ways.forEach(([x, y, toX, toY], way) => {
    const [from, to] = [grid(x, y), grid(toX, toY)], name = leg => (leg === 0 ? `j${x}.${y}` : leg === LEGS ? `j${toX}.${toY}` : `p${way}.${leg}`);
    const at = leg => [0, 1].map(k => from[k] + (to[k] - from[k]) * leg / LEGS + (leg % LEGS === 0 ? 0 : 1.2 * noise(6 * (LEGS * way + leg) + k)));
    for (let leg = 0; leg < LEGS; leg++) {
      const number = LEGS * way + leg;
      lines.push(`${name(leg)} ${name(leg + 1)} ${reading(at(leg), at(leg + 1), k => noise(6 * number + k), number === BLUNDER ? 100 : 0)}\n`);
    }
  });
  return lines.join('');
}
