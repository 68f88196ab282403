"""figures.py PART FOLDER: works out from what the programs counted (FOLDER/*.tsv) the numbers of one part of the data sheet and puts them into
docs/datasheet/numbers.json, where those of the other parts stay."""
import json, math, os, sys
import loops as closed

UNITS = 2048  # of a sample, in a standard deviation
LARGEST = 16879
INPUTS = 2**64
NUMBERS = 'docs/datasheet/numbers.json'
TAILS = [1, 2, 3, 4, 5, 6, 7, 7.5, 8, 8.2]
STEP = 32  # units of a step of the picture's curve


def normal_above(x):
    """The normal probability of more than x standard deviations."""
    return math.erfc(x / math.sqrt(2)) / 2


def normal_from(s):
    """The probability that a normal number, rounded to units, is s or more."""
    return normal_above((s - 0.5) / UNITS)


def normal_at(s):
    s = abs(s)
    return normal_from(s) - normal_from(s + 1)


def rows(path):
    with open(path, encoding='utf-8') as file:
        return [line.rstrip('\n').split('\t') for line in file]


# ---- exact: how many of the 2^64 inputs have a sample of s or more


def tail_counts(folder):
    tail = [0] * (LARGEST + 2)
    for s, count in rows(f'{folder}/exact.tsv'):
        tail[int(s)] = int(count)
    return tail


def short(tail, s):
    """By what part of the normal probability that of s or more falls short."""
    return 1 - tail[s] / INPUTS / normal_from(s)


def exact(folder):
    tail = tail_counts(folder)
    count = [INPUTS - 2 * tail[1]] + [tail[s] - tail[s + 1] for s in range(1, LARGEST + 1)]
    second, fourth = (2 * sum(count[s] * s**power for s in range(1, LARGEST + 1)) for power in (2, 4))
    off = [count[s] / INPUTS / normal_at(s) - 1 for s in range(6 * UNITS)]
    return {  # variance and kurtosis: how far from a normal number's 1 and 3
        'variance': (second - INPUTS * UNITS**2) / (INPUTS * UNITS**2),
        'kurtosis': (fourth * INPUTS - 3 * second**2) / second**2,
        'tails': [[x, tail[math.ceil(x * UNITS)], normal_from(math.ceil(x * UNITS))] for x in TAILS],
        'last': [LARGEST, tail[LARGEST]],
        'short': [
            [
                x,
                max(short(tail, s) for s in range(1, int(x * UNITS) + 1)),
                min(short(tail, s) for s in range(1, int(x * UNITS) + 1)),
            ]
            for x in (5, 6, 7, 7.5, 8)
        ],
        'off': off[:3],
        'off-rest': max(abs(each) for each in off[3 : 4 * UNITS]),
        'excess': sum((2 if s else 1) * off[s] ** 2 * normal_at(s) for s in range(6 * UNITS)),
        'ratio': [[(s - 0.5) / UNITS, tail[s] / INPUTS / normal_from(s)] for s in range(2 * STEP, LARGEST + 1, STEP)],
    }


# ---- errors, in units of the sample

PLACES = 6400  # of a unit, as errors.c counts


def beyond_of(counts):
    """The share of errors beyond a size, from the largest down. Place p has sizes from p, or from -p - 1, to one more."""
    beyond, above, total = [], 0, sum(counts.values())
    for place in range(max(max(counts), -min(counts) - 1), 3000, -1):
        above += counts.get(place, 0) + counts.get(-place - 1, 0)
        beyond.append([place / PLACES, above / total])
    return beyond[:100] + beyond[100::4]


def errors_of(folder, sweep, bits):
    lines = rows(f'{folder}/errors-{sweep}-{bits}.tsv')
    counts = {int(line[0]): int(line[1]) for line in lines if line[0] != 'worst'}
    return {
        'samples': sum(counts.values()),
        'beyond': beyond_of(counts),
        'worst': [[line[1], *map(int, line[2:5]), float(line[5])] for line in lines if line[0] == 'worst'],
    }


def errors(folder):
    return {bits: {sweep: errors_of(folder, sweep, bits) for sweep in 'vk'} for bits in ('16', '18')}


# ---- drawn samples and their tests, against a normal number that is rounded to units


def drawn_of(path):
    counts, products = {}, {}
    for row in rows(path):
        if len(row) == 2:
            counts[int(row[0])] = int(row[1])
        else:
            products[row[0]] = [float(each) for each in row[1:]]
    return counts, products


def moments(counts):
    n = sum(counts.values())
    mean = sum(value * count for value, count in counts.items()) / n / UNITS
    about = [sum((value / UNITS - mean) ** power * count for value, count in counts.items()) / n for power in range(5)]
    variance = about[2]
    return n, [mean, variance - 1, about[3] / variance**1.5, about[4] / variance**2 - 3]


def anderson_darling(counts, n):
    """The statistic for cells (Choulakian, Lockhart and Stephens 1994), a cell being a unit."""
    statistic = ahead = 0
    for s in range(-LARGEST, LARGEST + 1):
        ahead += counts.get(s, 0) - n * normal_at(s)
        low, high = normal_above(-(s + 0.5) / UNITS), normal_above((s + 0.5) / UNITS)
        statistic += ahead**2 * normal_at(s) / (low * high) / n
    return statistic


def anderson_darling_p(z):
    """The probability of a larger statistic (Marsaglia and Marsaglia 2004)."""
    if z < 2:
        p = (
            math.exp(-1.2337141 / z)
            / math.sqrt(z)
            * (2.00012 + (0.247105 - (0.0649821 - (0.0347962 - (0.011672 - 0.00168691 * z) * z) * z) * z) * z)
        )
    else:
        p = math.exp(
            -math.exp(1.0776 - (2.30695 - (0.43424 - (0.082433 - (0.008056 - 0.0003146 * z) * z) * z) * z) * z)
        )
    return 1 - p


def chi_squared(counts, n, width):
    """Over cells of so many units, the middle one about 0; cells where fewer than ten are expected are joined to one at each end."""
    reach = 0
    while (
        n * sum(normal_at(s) for s in range((reach + 1) * width - width // 2, (reach + 2) * width - width // 2)) >= 10
    ):
        reach += 1
    cells = [range(j * width - width // 2, j * width - width // 2 + width) for j in range(-reach, reach + 1)]
    pairs = [(sum(counts.get(s, 0) for s in cell), n * sum(normal_at(s) for s in cell)) for cell in cells]
    for sign, first in ((1, cells[-1].stop), (-1, 1 - cells[0].start)):
        pairs.append((sum(count for s, count in counts.items() if sign * s >= first), n * normal_from(first)))
    statistic = sum((found - expected) ** 2 / expected for found, expected in pairs)
    freedom = len(pairs) - 1
    third = 2 / (9 * freedom)  # Wilson and Hilferty 1931
    return statistic, freedom, normal_above(((statistic / freedom) ** (1 / 3) - 1 + third) / math.sqrt(third))


def tests_of(counts):
    n = sum(counts.values())
    a = anderson_darling(counts, n)
    return {
        'anderson-darling': [a, anderson_darling_p(a)],
        'cells': chi_squared(counts, n, 32),
        'units': chi_squared(counts, n, 1),
    }


def tests(folder):
    return {
        who: {seeds: tests_of(drawn_of(f'{folder}/tests-{who}-{seeds}.tsv')[0]) for seeds in ('pi', 'e')}
        for who in ('jabulghi', 'gsl-ziggurat', 'gsl-polar', 'boost')
    }


def drawn_with(folder, seeds):
    counts, products = drawn_of(f'{folder}/drawn-jabulghi-{seeds}.tsv')
    n, four = moments(counts)
    beyond = [sum(count for value, count in counts.items() if abs(value) >= math.ceil(x * UNITS)) for x in TAILS]
    return {
        'samples': n,
        'moments': four,
        'largest': max(abs(value) for value in counts),
        'tails': beyond,
        'zero': counts[0],
        'tests': tests_of(counts),
        'neighbours': [[name, plain / (n / 2), squares / (n / 2) / 2] for name, (plain, squares) in products.items()],
    }


def drawn(folder):
    return {seeds: drawn_with(folder, seeds) for seeds in ('pi', 'e')}


# ---- loops: plays beside the closed form

SHARES = (0.5, 0.9, 0.99, 0.999)  # of plays within a distance
SIGMAS = (1, 2, 3, 4, 5)


def of_spread(east, north, both):
    return [math.sqrt(east), math.sqrt(north), *closed.ellipse(east, north, both)]


def closed_loop(legs, plays):
    """Root mean squares east and north, half axes and direction of the ellipse; distances that shares of plays lie within; shares beyond multiples of the
    ellipse. Each with the standard error of so many plays."""
    figures = of_spread(*closed.spread(legs))
    longer, shorter = figures[2:4]
    turn = math.degrees(longer * shorter / (longer**2 - shorter**2) / math.sqrt(plays))
    within = [closed.quantile(longer, shorter, share) for share in SHARES]
    step = longer / 1000
    density = [
        (closed.beyond(longer, shorter, radius - step) - closed.beyond(longer, shorter, radius + step)) / (2 * step)
        for radius in within
    ]
    beyond = [math.exp(-t * t / 2) for t in SIGMAS]
    return {
        'metres': sum(mm for mm, _ in closed.loop(legs)) / 1000,
        'figures': figures,
        'within': within,
        'beyond': beyond,
        'not-normal': closed.not_normal(legs, 4),
        'errors': {
            'figures': [*(each / math.sqrt(2 * plays) for each in figures[:4]), turn],
            'within': [math.sqrt(share * (1 - share) / plays) / each for share, each in zip(SHARES, density)],
            'beyond': [math.sqrt(share * (1 - share) / plays) for share in beyond],
        },
    }


def within(counts, plays, share):
    """The distance that a share of plays lies within; those of one millimetre are taken to be spread evenly over it."""
    below = 0
    for mm in sorted(counts):
        if below + counts[mm] >= share * plays:
            return mm + (share * plays - below) / counts[mm]
        below += counts[mm]


def played(path):
    counts: dict[str, dict[int, int]] = {'distance': {}, 'ellipse': {}}
    points: dict[str, list] = {'first': [], 'far': []}
    for name, *numbers in rows(path):
        numbers = [int(each) for each in numbers]
        if name in counts:
            counts[name][numbers[0]] = numbers[1]
        elif name in points:
            points[name].append(numbers)
        else:
            plays, *sums = numbers
    east, north, *squares = (each / plays for each in sums)
    spread = squares[0] - east**2, squares[1] - north**2, squares[2] - east * north
    return plays, {
        'plays': plays,
        'figures': of_spread(*spread),
        'within': [within(counts['distance'], plays, share) for share in SHARES],
        'beyond': [sum(count for step, count in counts['ellipse'].items() if step >= 100 * t) / plays for t in SIGMAS],
        'points': points,
    }


def loops(folder):
    found = {}
    for legs in closed.LEGS:
        of = {seeds: played(f'{folder}/loops-{legs}-{seeds}.tsv') for seeds in closed.SEEDS}
        found[str(legs)] = {
            'closed': closed_loop(legs, of['pi'][0]),
            **{seeds: each for seeds, (_, each) in of.items()},
        }
        for seeds in closed.SEEDS:
            points = found[str(legs)][seeds].pop('points')
            if (legs, seeds) == (40, 'pi'):
                found['points'] = points
    return found


# ---- speed, memory and seeds

RUNS = (1, 2, 3, 4, 5)


def speed(folder):
    """For each name and unit the least time of each run."""
    runs = [[line for line in rows(f'{folder}/speed-{run}.tsv') if len(line) == 3] for run in RUNS]
    return [[*lines[0][:2], [float(line[2]) for line in lines]] for lines in zip(*runs)]


def wasm(folder):
    """For each engine and name the least time of each run, in nanoseconds; and the engines' versions."""
    runs = [rows(f'{folder}/wasm-{run}.tsv') for run in RUNS]
    with open(f'{folder}/engines.txt', encoding='utf-8') as file:
        engines = file.read().split('\n')[:2]
    return {
        'times': [[*lines[0][:2], [float(line[2]) for line in lines]] for lines in zip(*runs)],
        'engines': engines,
        'module': os.path.getsize('target/wasm32/jabulghi.wasm'),
    }


def memory(folder):
    """Of the archive and its code, and the stack of each call, in bytes. A call that is measured twice counts by the larger."""
    stack: dict[str, int] = {}
    for line in rows(f'{folder}/stack.txt'):
        name, taken = line[0].split()
        stack[name] = max(int(taken), stack.get(name, 0))
    return {
        'archive': os.path.getsize('target/staticlib/libjabulghi.a'),
        'code': sum(int(line[0]) for line in rows(f'{folder}/size.txt')[1:]),
        'stack': stack,
    }


def root_mean_square(values):
    return math.sqrt(sum(value * value for value in values) / len(values))


def seeds_of(lines):
    """The first mean squares; and how far mean squares are from 1 and products from 0, over pairs 1, 2 to 3, 4 to 7 and so on, and over all."""
    squares, products = [float(line[2]) for line in lines], [float(line[3]) for line in lines]

    def far(low, high):
        return [
            low,
            root_mean_square([each - 1 for each in squares[low - 1 : high - 1]]),
            root_mean_square(products[low - 1 : high - 1]),
        ]

    return {
        'squares': squares[:40],
        'far': [far(2**j, 2 ** (j + 1)) for j in range(12)],
        'all': far(1, len(lines) + 1),
    }


def seeds(folder):
    lines = rows(f'{folder}/seeds.tsv')
    return {
        **{kind: seeds_of([line for line in lines if line[1] == kind]) for kind in ('small', 'large', 'second')},
        'common': {
            stream: [[float(each) for each in line[2:]] for line in lines if line[:2] == ['common', stream]]
            for stream in 'ab'
        },
        'first': [[line[1], *map(float, line[2:])] for line in lines if line[0] == 'first'],
    }


def rounded(value):
    """Eight digits are enough for every number that is not whole."""
    if isinstance(value, float):
        return float(f'{value:.8g}')
    if isinstance(value, dict):
        return {key: rounded(each) for key, each in value.items()}
    return [rounded(each) for each in value] if isinstance(value, (list, tuple)) else value


def main(part, folder):
    numbers = {}
    if os.path.exists(NUMBERS):
        with open(NUMBERS, encoding='utf-8') as file:
            numbers = json.load(file)
    numbers[part] = rounded(globals()[part](folder))
    with open(NUMBERS, 'w', encoding='utf-8') as file:
        file.write(
            '{\n'
            + ',\n'.join(
                f'{json.dumps(key)}: {json.dumps(numbers[key], ensure_ascii=False)}' for key in sorted(numbers)
            )
            + '\n}\n'
        )


main(*sys.argv[1:])
