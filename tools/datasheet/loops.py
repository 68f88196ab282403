"""The loops of the data sheet and their closed form, which is worked out here alone, from document 01 and the normal law.

  python3 tools/datasheet/loops.py FOLDER   writes the jobs FOLDER/loop-LEGS-SEEDS.job and prints "LEGS TAB SEEDS TAB variance east TAB north TAB covariance\""""
import math, sys

LEGS = (8, 40, 200)
SEEDS = {  # the first binary places of the fractions of pi and e
    'pi': (0x243F6A88, 0x85A308D3, 0x13198A2E, 0x03707344, 0xA4093822, 0x299F31D0),
    'e': (0xB7E15162, 0x8AED2A6A, 0xBF715880, 0x9CF4F3C7, 0x62E7160F, 0x38B4DA56),
}
SIGMA = (4, 91)  # of a distance in mm, of a bearing in steps: half a degree
TURN = 65536
UNITS = 2048
LARGEST = 16879


def loop(legs):
    """Stations on an oval, three times as long as wide and 30 degrees off east, 10 m of its length a leg; each leg as the nearest distance in mm and the nearest step."""
    at = []
    for j in range(legs):
        turn = 2 * math.pi * j / legs
        long, wide, tilt = 3 * math.cos(turn), math.sin(turn), math.radians(30)
        at.append((long * math.cos(tilt) - wide * math.sin(tilt), long * math.sin(tilt) + wide * math.cos(tilt)))
    ways = [(to[0] - of[0], to[1] - of[1]) for of, to in zip(at, at[1:] + at[:1])]
    scale = 10000 * legs / sum(math.hypot(*way) for way in ways)
    return [(round(scale * math.hypot(*way)), round(math.atan2(*way) / (2 * math.pi) * TURN) % TURN) for way in ways]


def job(legs, seeds):
    lines = ['(seeds (a {} {} {}) (b {} {} {}))'.format(*SEEDS[seeds]), '(sigma {} {})'.format(*SIGMA)]
    lines += [f'(shot S{j} S{(j + 1) % legs} {mm} {step})' for j, (mm, step) in enumerate(loop(legs))]
    return '\n'.join(lines) + '\n'


# ---- the closed form


def normal_at(s):
    """The probability that a normal number, rounded to units of 2^-11, is s."""
    return (math.erfc((abs(s) - 0.5) / UNITS / math.sqrt(2)) - math.erfc((abs(s) + 0.5) / UNITS / math.sqrt(2))) / 2


def noises(sigma):
    """Probabilities of the noise in whole mm or steps: sigma × |sample| / 2048 to the nearest, halves away from zero (document 01), the sample being a normal number
    that is rounded to units."""
    found: dict[int, float] = {}
    for s in range(LARGEST + 1):
        noise = (sigma * s + UNITS // 2) // UNITS
        for signed in (noise, -noise) if s else (noise,):
            found[signed] = found.get(signed, 0) + normal_at(s)
    return found


def mean(values, of):
    return math.fsum(p * of(value) for value, p in values.items())


# The moments of both noises: of the distance's powers, and of the cosine of 0 to 4 times the bearing's. Their odd moments are 0.
POWERS = [mean(noises(SIGMA[0]), lambda mm: mm**power) for power in range(5)]
COSINES = [mean(noises(SIGMA[1]), lambda step: math.cos(times * step * 2 * math.pi / TURN)) for times in range(5)]


def leg_moments(leg, towards):
    """E x, x^2, x^3, x^4 of a played leg's way x towards a direction: (distance + noise) × cos(bearing + noise - direction)."""
    mm, step = leg
    angle = step * 2 * math.pi / TURN - towards
    turned = [
        cosine * math.cos(times * angle) for times, cosine in enumerate(COSINES)
    ]  # E cos(times × (bearing + noise - direction))
    powers = [sum(math.comb(power, j) * mm ** (power - j) * POWERS[j] for j in range(power + 1)) for power in range(5)]
    return (
        powers[1] * turned[1],
        powers[2] * (1 + turned[2]) / 2,
        powers[3] * (3 * turned[1] + turned[3]) / 4,
        powers[4] * (3 + 4 * turned[2] + turned[4]) / 8,
    )


def cumulants(legs, towards):
    """The mean, variance, third and fourth cumulant of the loop's miss towards a direction: those of independent legs add up. East and north are rounded to whole mm,
    which adds a twelfth to the variance."""
    sums = [0, 1 / 12, 0, 0]
    for leg in loop(legs):
        m1, m2, m3, m4 = leg_moments(leg, towards)
        for j, each in enumerate(
            (
                m1,
                m2 - m1**2,
                m3 - 3 * m2 * m1 + 2 * m1**3,
                m4 - 4 * m3 * m1 - 3 * m2**2 + 12 * m2 * m1**2 - 6 * m1**4,
            )
        ):
            sums[j] += each
    return sums


def spread(legs):
    """Variances of east and north and their covariance, from the variances east, north and between."""
    east, north, between = (cumulants(legs, turn)[1] for turn in (math.pi / 2, 0, math.pi / 4))
    return east, north, between - (east + north) / 2


def ellipse(east, north, both):
    """Its longer and shorter half axis and the longer one's bearing, in degrees from 0 to 180."""
    root = math.hypot((east - north) / 2, both)
    return (
        math.sqrt((east + north) / 2 + root),
        math.sqrt((east + north) / 2 - root),
        math.degrees(math.atan2(2 * both, north - east) / 2) % 180,
    )


def beyond(longer, shorter, radius):
    """The probability of a Gaussian miss farther than a radius: over directions, by the rule of equal steps."""
    steps, total = 720, 0
    for j in range(steps):
        turn = math.pi * j / steps
        form = (math.cos(turn) / longer) ** 2 + (math.sin(turn) / shorter) ** 2
        total += math.exp(-radius * radius * form / 2) / form
    return total / steps / longer / shorter


def quantile(longer, shorter, share):
    """The distance that so large a share of misses lies within, by halving."""
    low, high = 0, 10 * longer
    for _ in range(60):
        middle = (low + high) / 2
        low, high = (middle, high) if 1 - beyond(longer, shorter, middle) < share else (low, middle)
    return high


def not_normal(legs, sigmas):
    """By what part the fourth cumulant moves the share beyond so many sigma from a Gaussian's, at most over all directions (Edgeworth's series)."""
    most = 0
    for degrees in range(0, 180, 5):
        _, variance, third, fourth = cumulants(legs, math.radians(degrees))
        t, skew, kurtosis = sigmas, third / variance**1.5, fourth / variance**2
        change = kurtosis / 24 * (t**3 - 3 * t) + skew**2 / 72 * (t**5 - 10 * t**3 + 15 * t)
        most = max(
            most, abs(change) * math.exp(-t * t / 2) / math.sqrt(2 * math.pi) / (math.erfc(t / math.sqrt(2)) / 2)
        )
    return most


def main(folder):
    for legs in LEGS:
        for seeds in SEEDS:
            with open(f'{folder}/loop-{legs}-{seeds}.job', 'w', encoding='utf-8') as file:
                file.write(job(legs, seeds))
            print(legs, seeds, *(f'{each:.6f}' for each in spread(legs)), sep='\t')


if __name__ == '__main__':
    main(*sys.argv[1:])
