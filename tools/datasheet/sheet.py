"""Fills in the text of the data sheet, tools/datasheet/sheet.md, from docs/datasheet/numbers.json; what is proved of the distribution comes from the rows of specs/, the
processors from the tables of docs/PROCESSORS.md, the version from include/jabulghi.h.

  python3 tools/datasheet/sheet.py         writes docs/DATASHEET.md
  python3 tools/datasheet/sheet.py check   holds that docs/DATASHEET.md is what it would write"""
import difflib, json, math, os, re, statistics, sys

sys.path.append(os.path.join(os.path.dirname(os.path.abspath(__file__)), '..'))
import normal as normal_rows, tails as tail_rows
from loops import SIGMA, TURN

SHEET = 'docs/DATASHEET.md'
INPUTS = 2**64
UNITS = 2048
LARGEST = 16879
SEEDS = ('pi', 'e')
GSL = 'GSL `gsl_ran_gaussian_ziggurat` over `gsl_rng_taus`'
PEERS = {
    'jabulghi': '`jabulghi_block`',
    'gsl-ziggurat': 'GSL `gsl_ran_gaussian_ziggurat`',
    'gsl-polar': 'GSL `gsl_ran_gaussian`',
    'boost': 'Boost `normal_distribution`',
}

with open('docs/datasheet/numbers.json', encoding='utf-8') as numbers_file:
    numbers = json.load(numbers_file)


# ---- numbers in words


def scientific(x, digits=2):
    mantissa, power = f'{x:.{digits}e}'.split('e')
    return f'{mantissa} × 10^{int(power)}'


def plain(x):
    return f'{x:,}'


def places(x, digits):
    """With no sign before a zero."""
    return re.sub(r'^-(0\.0*)$', r'\1', f'{x:.{digits}f}')


def both(form, values):
    return ' and '.join(form.format(each) for each in values)


def normal_beyond(x):
    """The probability that a normal number is x standard deviations or more in size."""
    return math.erfc(x / math.sqrt(2))


# ---- what is proved


def proved(place):
    """The proved rows by size, at 11 fraction bits (place 0) or 13: least and most inputs, and how far they can be short of a normal number's and above, in 10^-8."""
    path, name, _ = tail_rows.LISTS[place]
    near = {size: (short, over) for size, short, over in normal_rows.stored(normal_rows.LISTS[place][0])}
    return {size: (low, high, *near[size]) for size, low, high in tail_rows.stored(path, name)}


def size_of(sigma, place=0):
    return math.ceil(sigma * 2 ** tail_rows.LISTS[place][2])


def between(row):
    return f'exactly {plain(row[0])}' if row[0] == row[1] else f'{plain(row[0])} to {plain(row[1])}'


def at_most(n):
    """n in 10^8, rounded up."""
    return '0' if n == 0 else f'{n / 100:.2f} in 10^6' if n < 10**4 else f'{math.ceil(n / 1000) / 1000:.3f} %'


def other_rows():
    """The proved rows that are not in the table of tails."""
    counted = {size_of(x) for x, _, _ in numbers['exact']['tails']}
    yield '| samples | of this size or more | inputs of 2^64, proved | short of a normal number\'s by at most | above by at most |'
    yield '|---|---:|---:|---:|---:|'
    for place, bits in enumerate((16, 18)):
        for size, row in proved(place).items():
            if place or size not in counted:
                sigma = size / 2 ** tail_rows.LISTS[place][2]
                size = f'{plain(size)} {"unit" if size == 1 else "units"}' + (
                    f', {float(f"{sigma:.4f}"):g} σ' if size > 1 else ''
                )
                yield f'| {bits} bits | {size} | {between(row)} | {at_most(row[2])} | {at_most(row[3])} |'


def variance(name):
    """The bounds of the variance, in σ², of specs/."""
    text = (tail_rows.CRATES / 'tails' / 'specs' / 'Variances.antt').read_text(encoding='utf-8')
    return ' to '.join(f'{int(n) / 100000:g}' for n in tail_rows.sought(rf'^{name} = \((\w+), (\w+)\)$', text).groups())


# ---- the distribution


def tails():
    drawn, rows = numbers['drawn'], proved(0)
    yield '| of this size or more | inputs of 2^64, proved | counted | short of a normal number\'s share, proved: at most | counted | of 10^10 drawn, seeds pi | seeds e | expected |'
    yield '|---:|---:|---:|---:|---:|---:|---:|---:|'
    for j, (x, count, normal) in enumerate(numbers['exact']['tails']):
        lack = 1 - count / INPUTS / normal
        lack = f'{lack * 1e6:.1f} in 10^6' if lack < 1e-4 else f'{lack * 100:.2f} %'
        found = ' | '.join(plain(drawn[seeds]['tails'][j]) for seeds in SEEDS)
        expected = 2 * count / INPUTS * drawn['pi']['samples']
        expected = (
            f'{expected:,.0f}' if expected >= 10 else f'{expected:.1g}' if expected >= 0.01 else scientific(expected, 0)
        )
        row = rows[size_of(x)]
        yield f'| {x} σ | {between(row)} | {plain(2 * count)} | {at_most(row[2])} | {lack} | {found} | {expected} |'


def moments():
    exact, drawn = numbers['exact'], numbers['drawn']
    n = drawn['pi']['samples']
    yield '| | counted | drawn, seeds pi | seeds e | standard error |'
    yield '|---|---:|---:|---:|---:|'
    rows = (
        ('mean, σ', '0', 0, 1),
        ('variance less 1, σ²', scientific(exact['variance'], 1), 1, 2),
        ('skew', '0', 2, 6),
        ('kurtosis less 3', scientific(exact['kurtosis'], 1), 3, 24),
    )
    for name, counted, place, factor in rows:
        found = ' | '.join(scientific(drawn[seeds]['moments'][place], 1) for seeds in SEEDS)
        yield f'| {name} | {counted} | {found} | {scientific(math.sqrt(factor / n), 1)} |'


def neighbours():
    drawn = numbers['drawn']
    unit = math.sqrt(2 / drawn['pi']['samples'])
    yield '| in standard errors, ' + scientific(
        unit, 1
    ) + ' | correlation, seeds pi | seeds e | of squares, seeds pi | seeds e |'
    yield '|---|---:|---:|---:|---:|'
    for one, other in zip(drawn['pi']['neighbours'], drawn['e']['neighbours']):
        found = ' | '.join(places(each[place] / unit, 1) for place in (1, 2) for each in (one, other))
        yield f'| {one[0]} | {found} |'


TESTS = {'anderson-darling': 'Anderson-Darling', 'cells': 'χ² of σ/64', 'units': 'χ² of units'}


def tests():
    yield '| | samples | seeds | Anderson-Darling | p | χ², cells of σ/64 | p | χ², cells of a unit | p |'
    yield '|---|---:|---|---:|---:|---:|---:|---:|---:|'
    lines = [(who, '10^9', seeds, numbers['tests'][who][seeds]) for who in PEERS for seeds in SEEDS]
    lines += [('jabulghi', '10^10', seeds, numbers['drawn'][seeds]['tests']) for seeds in SEEDS]
    for who, samples, seeds, part in lines:
        a, p = part['anderson-darling']
        cells = ' | '.join(
            f'{statistic:,.0f} of {freedom:,} | {chance:.3f}'
            for statistic, freedom, chance in (part['cells'], part['units'])
        )
        yield f'| {PEERS[who]} | {samples} | {seeds} | {a:.2f} | {p:.3f} | {cells} |'


def low_p():
    """Each p below 0.01, with that of the other seeds, and for ours that of the same stream drawn on to 10^10."""
    found = []
    for who, of in numbers['tests'].items():
        for seeds, part in of.items():
            for test in TESTS:
                if part[test][-1] < 0.01:
                    other = of['e' if seeds == 'pi' else 'pi'][test][-1]
                    on = (
                        f', drawn on to 10^10 {numbers["drawn"][seeds]["tests"][test][-1]:.3f}'
                        if who == 'jabulghi'
                        else ''
                    )
                    found.append(
                        f'{PEERS[who]} with seeds {seeds}, {TESTS[test]} (with the other seeds {other:.3f}{on})'
                    )
    return found


# ---- loops

KINDS = ('figures', 'within', 'beyond')


def off(loop, seeds):
    """How far each figure of the plays is from the closed form, in standard errors."""
    return [
        abs(found - true) / error
        for kind in KINDS
        for found, true, error in zip(loop[seeds][kind], loop['closed'][kind], loop['closed']['errors'][kind])
    ]


def each_loop():
    return [(legs, loop) for legs, loop in numbers['loops'].items() if legs != 'points']


def loops():
    yield '| loop | | rms east, mm | north | ellipse, mm | its bearing | half are within, mm | 90 % | 99 % | 99.9 % | beyond 3 σ | 4 σ | farthest off |'
    yield '|---|---|---:|---:|---:|---:|---:|---:|---:|---:|---:|---:|---:|'
    for legs, loop in each_loop():
        plays = loop['pi']['plays']
        for of, name in (('closed', 'closed form'), ('pi', 'seeds pi'), ('e', 'seeds e')):
            east, north, longer, shorter, bearing = loop[of]['figures']
            within, beyond = (
                ' | '.join(each)
                for each in (
                    [f'{mm:,.1f}' for mm in loop[of]['within']],
                    [f'{share * plays:,.0f}' for share in loop[of]['beyond'][2:4]],
                )
            )
            first = f'{legs} legs, {plain(round(loop["closed"]["metres"]))} m' if of == 'closed' else ''
            far = '' if of == 'closed' else f'{max(off(loop, of)):.1f}'
            yield f'| {first} | {name} | {east:,.1f} | {north:,.1f} | {longer:,.1f}, {shorter:,.1f} | {bearing:.2f}° | {within} | {beyond} | {far} |'


# ---- speed and size


def runs_of(name):
    return next(runs for each, _, runs in numbers['speed'] if each == name)


def time_of(name, digits):
    return f'{statistics.median(runs_of(name)):.{digits}f}'


def speeds():
    ziggurat = runs_of(GSL)
    yield '| | ns a sample | beside GSL\'s ziggurat | spread of five runs |'
    yield '|---|---:|---:|---:|'
    for name, unit, runs in numbers['speed']:
        if unit == 'ns a sample' and not re.search(r'of (2048|1024|512|256|128|32|8|4)$|plain C|C\+\+', name):
            ratios = sorted(time / other for time, other in zip(runs, ziggurat))
            name = name.replace('the same, rounded by a sum in place of `lrint`', 'the same, rounded by a sum')
            yield f'| {name} | {statistics.median(runs):.2f} | {statistics.median(ratios):.3f} | {ratios[0]:.3f} to {ratios[-1]:.3f} |'


def calls():
    listed = (
        ('`jabulghi_pair`', '`jabulghi_pair` {} ns', 0),
        ('`jabulghi_sample`', '`jabulghi_sample` {} ns', 0),
        ('`jabulghi_window_push` onto a window of 4096', 'a push onto a window {} ns', 1),
        ('`jabulghi_play`, a loop of 40 legs', 'a play of 40 legs {} µs', 2),
        ('`jabulghi_list`, a job of 500 shots', '`jabulghi_list` of 500 shots {} µs', 0),
        ('`jabulghi_skip` of 1023 pairs', '`jabulghi_skip` of 1023 pairs {} µs', 1),
        ('`jabulghi_skip` of 18446744073709551615 pairs', 'of 2^64 - 1 pairs {} µs', 0),
    )
    return ', '.join(form.format(time_of(name, digits)) for name, form, digits in listed)


def stacks():
    """The calls by the stack that they take, in groups; the calls of 18 bits take what those of 16 do, or less."""
    stack = {
        name: taken
        for name, taken in numbers['memory']['stack'].items()
        if not (name.endswith('18') and taken <= numbers['memory']['stack'][name[:-2]])
    }
    groups: dict[int, list[str]] = {}
    for name, taken in sorted(stack.items(), key=lambda each: (each[1], each[0])):
        groups.setdefault(taken, []).append(f'`{name}`')
    return '; '.join(f'{", ".join(names)} {plain(taken)}' for taken, names in groups.items())


def tables_of_processors():
    """The cells of the tables of docs/PROCESSORS.md by table, row and processor."""
    cells, names = {}, None
    with open('docs/PROCESSORS.md', encoding='utf-8') as file:
        for line in file:
            row = [cell.strip() for cell in line.strip('| \n').split('|')]
            if line.startswith(('| Instructions', '| Flash', '| Stack')):
                table, names = row[0].split(',')[0], row[1:]
            elif not line.startswith('|'):
                names = None
            elif names:
                cells.update({(table, row[0], name): cell for name, cell in zip(names, row[1:])})
    return cells


def processors():
    cells = tables_of_processors()
    names = ('thumbv6m', 'thumbv7em-hf', 'thumbv7em-dp', 'riscv32imc')
    wasm = {(where, name): statistics.median(runs) for where, name, runs in numbers['wasm']['times']}

    def row(title, desktop, table, name):
        small = (plain(int(cells[table, name, each])) if table else '' for each in names)
        return f'| {title} | ' + ' | '.join([*desktop, *small]) + ' |'

    def times(name, native, digits):
        return [native, *(f'{wasm[where, name]:,.{digits}f}' for where in ('node', 'Chromium'))]

    stacks = [
        next(row for table, row, _ in cells if table == 'Stack' and call in row.split())
        for call in ('pair', 'block', 'play')
    ]
    yield '| | x86-64, ns | node, ns | Chromium, ns | Cortex-M0+, instructions | M4F | M7 with doubles | RISC-V of 32 bits |'
    yield '|---|---:|---:|---:|---:|---:|---:|---:|'
    yield row('a pair', times('pair', time_of('`jabulghi_pair`', 0), 0), 'Instructions', 'pair')
    yield row(
        'a sample of a block of 64',
        times('block of 64, a sample', time_of('`jabulghi_block` of 64', 1), 1),
        'Instructions',
        'block of 64, a sample',
    )
    yield row(
        'a sample of a block of 4096',
        times('block of 4096, a sample', time_of('`jabulghi_block` of 4096', 1), 1),
        None,
        None,
    )
    yield row(
        'the same by jabulghi.js, which copies', times('block of 4096, a sample, by jabulghi.js', '', 1), None, None
    )
    yield row('a pair by jabulghi.js', times('pair, by jabulghi.js', '', 0), None, None)
    yield row('bytes of flash: seed and pair', ['', '', ''], 'Flash', 'seed pair')
    yield row('seed and block', ['', '', ''], 'Flash', 'seed block')
    yield row(
        'all calls',
        [plain(numbers['memory']['code']), plain(numbers['wasm']['module']), plain(numbers['wasm']['module'])],
        'Flash',
        'all calls',
    )
    for group in stacks:
        title = 'bytes of stack, at most: ' * (group == stacks[0]) + ', '.join(
            call for call in group.split() if not call.endswith('18')
        )
        yield row(title, [plain(int(cells['Stack', group, 'x86_64'])), '', ''], 'Stack', group)


# ---- errors and seeds


def worst():
    yield '| samples | swept | worst first sample, units | at k, v | worst second sample | at k, v | proved below |'
    yield '|---|---|---:|---|---:|---|---:|'
    for bits, limit in (('16', '33/64 = 0.5156'), ('18', '3/4')):
        for sweep, swept in (('v', 'every v, 187 k'), ('k', '2,000,000 k, 12 v')):
            found = ' | '.join(
                f'{error:.4f} | {k}, {v}' for _, k, v, _, error in numbers['errors'][bits][sweep]['worst']
            )
            yield f'| {bits} bits | {swept} | {found} | {limit} |'


def firsts():
    yield '| s0, s1, s2 of both streams | first four pairs, σ |'
    yield '|---|---|'
    for name, *samples in numbers['seeds']['first']:
        pairs = '; '.join(f'{places(x, 2)}, {places(y, 2)}' for x, y in zip(samples[::2], samples[1::2]))
        yield f'| {name} | {pairs} |'


# ---- the text


def of_distribution():
    exact, drawn, tested = (numbers[part] for part in ('exact', 'drawn', 'tests'))
    short = {x: most for x, most, _ in exact['short']}
    rows = {x: proved(0)[size_of(x)] for x in (6, 8)}
    zeros = drawn['pi']['samples'] * (1 - normal_beyond(0.5 / UNITS))
    count = len(tested) * len(SEEDS) * len(TESTS)
    return {
        'tails': tails,
        'other-rows': other_rows,
        'moments': moments,
        'neighbours': neighbours,
        'tests': tests,
        'worst': worst,
        'variance': variance('bounds'),
        'variance18': variance('bounds18'),
        **{f'inputs{x}': between(row) for x, row in rows.items()},
        **{f'least{x}': at_most(row[2]) for x, row in rows.items()},
        'above': at_most(max(row[3] for row in proved(0).values())),
        **{f'short{x}': f'{short[x] * 1e6:.{digits}f}' for x, digits in ((5, 1), (6, 1), (7, 0))},
        'short7.5': f'{short[7.5] * 100:.3f} %',
        'short8': f'{short[8] * 100:.1f} %',
        'nothing': scientific(normal_beyond((LARGEST + 0.5) / UNITS), 1),
        'zero': f'{exact["off"][0] * 100:.2f} %',
        'one': f'{-exact["off"][1] * 100:.2f} %',
        'rest': f'{exact["off-rest"] * 100:.4f} %',
        'zero-drawn': both('{:,}', [drawn[each]['zero'] for each in SEEDS]),
        'zero-normal': f'{zeros:,.0f} ± {math.sqrt(zeros):,.0f}',
        'largest': both('{:.2f}', [drawn[each]['largest'] / UNITS for each in SEEDS]),
        'excess': f'{exact["excess"] * 1e9:.0f}',
        'spread': f'{math.sqrt(2 * tested["jabulghi"]["pi"]["units"][1]):.0f}',
        'p-count': str(count),
        'p-expected': f'{count / 100:g}',
        'low-p': str(len(low_p())),
        'low-p-whose': '; '.join(low_p()),
        **{
            f'worst{bits}': f'{max(abs(row[-1]) for sweep in of.values() for row in sweep["worst"]):.3f}'
            for bits, of in numbers['errors'].items()
        },
        'compared': plain(sum(numbers['errors']['16'][sweep]['samples'] for sweep in 'vk')),
    }


def of_loops():
    every = [each for _, loop in each_loop() for seeds in SEEDS for each in off(loop, seeds)]
    closed, plays = numbers['loops']['8']['closed'], sum(
        loop[seeds]['plays'] for _, loop in each_loop() for seeds in SEEDS
    )

    def beyond(place):
        return round(
            sum(loop[seeds]['beyond'][place] * loop[seeds]['plays'] for _, loop in each_loop() for seeds in SEEDS)
        )

    def expected(place):
        share = closed['beyond'][place]
        return f'{share * plays:,.0f} ± {math.sqrt(share * (1 - share) * plays):,.0f}'

    return {
        'all-plays': plain(plays),
        **{f'beyond{place + 1}': plain(beyond(place)) for place in (2, 3)},
        **{f'expected{place + 1}': expected(place) for place in (2, 3)},
        'sigma': f'σ of {SIGMA[0]} mm and {SIGMA[1]} steps ({SIGMA[1] * 360 / TURN:.1f} degrees)',
        'loops': loops,
        'plays': plain(numbers['loops']['8']['pi']['plays']),
        'compared-loops': str(len(every)),
        'farthest': f'{math.ceil(max(every) * 10) / 10:.1f}',
        'not-normal': f'{max(loop["closed"]["not-normal"] for _, loop in each_loop()) * 100:.2f} %',
        'error4': f'{closed["errors"]["beyond"][3] / closed["beyond"][3] * 100:.1f} %',
    }


def of_speed_and_seeds():
    seeds = numbers['seeds']
    return {
        'speeds': speeds,
        'calls': calls(),
        'processors': processors,
        'stacks': stacks(),
        'firsts': firsts,
        'engines': ', '.join(tail_rows.sought(r'^\D*[\d.]+', engine).group() for engine in numbers['wasm']['engines']),
        'small-first': f'{seeds["small"]["squares"][0]:.1f}',
        'common-b': both('{:.3f}', [each[0] for each in seeds['common']['b']]),
        'common-a': both('{:.3f}', [each[1] for each in seeds['common']['a']]),
        'large': both('{:.2f}', [seeds[kind]['all'][1] * 64 for kind in ('large', 'second')]),
        'large-products': both('{:.2f}', [seeds[kind]['all'][2] * 64 * math.sqrt(2) for kind in ('large', 'second')]),
    }


def claims():
    """What the text says of the numbers in words; each has to hold."""
    every = [each for _, loop in each_loop() for seeds in SEEDS for each in off(loop, seeds)]
    squares, products = (
        [numbers['seeds'][kind]['all'][place] * factor for kind in ('large', 'second')]
        for place, factor in ((1, 64), (2, 64 * math.sqrt(2)))
    )
    return {
        'no loop closes too well: no figure is 4 standard errors from the closed form': max(every) < 4,
        'from 7 σ on the share is not above a normal number\'s': all(
            row[3] == 0 for size, row in proved(0).items() if size >= size_of(7)
        ),
        'seeds of 32 bits show in neither mean squares nor products': all(
            abs(each - 1) < 0.1 for each in squares + products
        ),
        'the standard error of the plays beyond 4 σ is larger than what their shape moves': all(
            loop['closed']['not-normal'] < loop['closed']['errors']['beyond'][3] / loop['closed']['beyond'][3]
            for _, loop in each_loop()
        ),
    }


def version():
    with open('include/jabulghi.h', encoding='utf-8') as file:
        return tail_rows.sought(r'^#define JABULGHI_VERSION "(.*)"$', file.read())[1]


def filled():
    """The text, with what stands for each {name} of it."""
    known = {'version': version(), **of_distribution(), **of_loops(), **of_speed_and_seeds()}

    def word(found):
        value = known[found.group(1)]
        return value if isinstance(value, str) else '\n'.join(value())

    with open('tools/datasheet/sheet.md', encoding='utf-8') as file:
        return re.sub(r'\{([\w.-]+)\}', word, file.read())


def main(check=None):
    for claim, holds in claims().items():
        if not holds:
            sys.exit(f'FAILED: the data sheet says that {claim}, which its numbers do not')
    if check is None:
        with open(SHEET, 'w', encoding='utf-8') as file:
            file.write(filled())
        return
    with open(SHEET, encoding='utf-8') as file:
        found = list(
            difflib.unified_diff(
                file.read().splitlines(),
                filled().splitlines(),
                SHEET,
                'what tools/datasheet/sheet.py would write',
                lineterm='',
                n=0,
            )
        )
    if found:
        sys.exit(
            '\n'.join(
                [*found[:20], f'FAILED: {SHEET} is not what its numbers say; run python3 tools/datasheet/sheet.py']
            )
        )
    print(f'{SHEET} is what docs/datasheet/numbers.json, specs/, docs/PROCESSORS.md and the header say')


if __name__ == '__main__':
    main(*sys.argv[1:])
