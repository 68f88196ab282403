"""Draws the pictures of the data sheet, docs/datasheet/*.png, from docs/datasheet/numbers.json. Needs Debian's python3-matplotlib."""
import json, math, statistics
import matplotlib

matplotlib.use('Agg')
import matplotlib.pyplot as plt
from PIL import Image
from sheet import GSL, proved

BLUE, RED, GREY, GREEN, ORANGE = '#1f5fa8', '#c0392b', '#777777', '#2a8c4a', '#d98200'
UNITS = 2048

with open('docs/datasheet/numbers.json', encoding='utf-8') as numbers_file:
    numbers = json.load(numbers_file)


def panels(height=4.8):
    plt.rcParams.update(
        {'font.size': 15, 'axes.grid': True, 'grid.alpha': 0.3, 'axes.titlesize': 15, 'legend.fontsize': 13}
    )
    return plt.subplots(1, 2, figsize=(12, height), constrained_layout=True)


def save(figure, name):
    """With few colours, so that the file is small."""
    path = f'docs/datasheet/{name}.png'
    figure.savefig(path, dpi=100)
    plt.close(figure)
    with Image.open(path) as picture:
        few = picture.convert('RGB').quantize(64)
    few.save(path, optimize=True)


def columns(table):
    return [list(column) for column in zip(*table)]


def draw_tail():
    """Left: the tail and the normal one. Right: what is missing of the normal one, and what so many drawn samples can tell."""
    figure, (left, right) = panels()
    exact, drawn = numbers['exact'], numbers['drawn']
    x = [j / 100 for j in range(901)]
    normal = [math.erfc(each / math.sqrt(2)) for each in x]
    last, count = exact['last']
    at, ratio = columns(
        [*exact['ratio'], [(last - 0.5) / UNITS, 2 * count / 2**64 / math.erfc((last - 0.5) / UNITS / math.sqrt(2))]]
    )
    sizes, rows = columns(sorted(proved(0).items()))
    places = [(size - 0.5) / UNITS for size in sizes]
    left.semilogy(x, normal, color=GREY, linewidth=7, alpha=0.45, label='normal')
    left.semilogy(
        at,
        [each * math.erfc(place / math.sqrt(2)) for each, place in zip(ratio, at)],
        color=BLUE,
        linewidth=2,
        label='all 2$^{64}$ inputs, counted',
    )
    left.semilogy(
        places, [high / 2**64 for _, high, *_ in rows], 'D', color=GREEN, markersize=7, label='all inputs, proved'
    )
    for seeds, colour, mark in (('pi', RED, 'x'), ('e', ORANGE, '+')):
        found = [
            (row[0], count / drawn[seeds]['samples'])
            for row, count in zip(exact['tails'], drawn[seeds]['tails'])
            if count
        ]
        left.semilogy(
            *columns(found),
            mark,
            color=colour,
            markersize=12,
            markeredgewidth=2,
            label=f'10$^{{10}}$ drawn, seeds {seeds}',
        )
    left.set(
        xlim=(0, 9),
        ylim=(1e-18, 3),
        xlabel='x, σ',
        ylabel='share of size x or more',
        title='The tail beside the normal one',
    )
    left.legend(loc='lower left')
    right.semilogy(at, [max(1 - each, 1e-9) for each in ratio], color=BLUE, linewidth=2)
    right.semilogy(places[2:], [short / 1e8 for _, _, short, _ in rows[2:]], 'D', color=GREEN, markersize=7)
    right.semilogy(x, [1 / math.sqrt(drawn['pi']['samples'] * share) for share in normal], '--', color=RED, linewidth=2)
    for place, height, colour, words in (
        (2.5, 3.5e-7, BLUE, 'all inputs, counted'),
        (2.6, 1.3e-5, GREEN, 'proved: at most'),
        (0.2, 3e-3, RED, 'what 10$^{10}$ drawn\ncan tell: their\nstandard error'),
    ):
        right.text(place, height, words, color=colour)
    right.set(
        xlim=(0, 9), ylim=(1e-7, 1), xlabel='x, σ', ylabel='part of the normal tail', title='How much of it is missing'
    )
    save(figure, 'tail')


def draw_loops():
    figure, (left, right) = panels()
    loops = numbers['loops']
    longer, shorter, bearing = loops['40']['closed']['figures'][2:]
    turn = math.radians(bearing)
    for kind, colour, size, name in (
        ('first', BLUE, 2, 'the first 1,000 plays'),
        ('far', RED, 4, 'of 10$^7$ all beyond 4.5 σ'),
    ):
        left.plot(
            *([each / 1000 for each in way] for way in columns(loops['points'][kind])),
            '.',
            color=colour,
            markersize=size,
            label=name,
        )
    for sigmas in (1, 2, 3, 4, 5):
        ways = [
            (sigmas * longer * math.cos(angle), sigmas * shorter * math.sin(angle))
            for angle in (2 * math.pi * j / 200 for j in range(201))
        ]
        east, north = columns(
            [(a * math.sin(turn) + b * math.cos(turn), a * math.cos(turn) - b * math.sin(turn)) for a, b in ways]
        )
        left.plot(
            [each / 1000 for each in east],
            [each / 1000 for each in north],
            color='black',
            linewidth=1.2,
            label='closed form, 1 to 5 σ' if sigmas == 1 else None,
        )
    left.set(
        xlim=(-2.8, 4.4),
        ylim=(-2.8, 2.8),
        aspect='equal',
        xlabel='east, m',
        ylabel='north, m',
        title='Where plays of 40 legs end',
    )
    left.legend(loc='upper right', markerscale=3, fontsize=12)
    shift = -0.2
    for legs, colour in (('8', BLUE), ('40', GREEN), ('200', ORANGE)):
        closed = loops[legs]['closed']
        for seeds, mark in (('pi', 'o'), ('e', 's')):
            ratio = [found / share for found, share in zip(loops[legs][seeds]['beyond'], closed['beyond'])]
            error = [each / share for each, share in zip(closed['errors']['beyond'], closed['beyond'])]
            right.errorbar(
                [t + shift for t in (1, 2, 3, 4, 5)],
                ratio,
                yerr=error,
                fmt=mark,
                color=colour,
                capsize=3,
                markersize=6,
                label=f'{legs} legs, seeds {seeds}',
            )
            shift += 0.08
    right.axhline(1, color=GREY, linewidth=1.5)
    right.set(
        xlim=(0.5, 5.5),
        ylim=(0.5, 1.6),
        xlabel='σ of the closed form, in all directions',
        ylabel='plays beyond, closed = 1',
        title='Do loops close too well?',
    )
    right.legend(loc='lower left', ncol=2, fontsize=12)
    save(figure, 'loops')


def least(name):
    return next((statistics.median(runs) for each, _, runs in numbers['speed'] if each == name), None)


def draw_speed():
    figure, (left, right) = panels()
    blocks = sorted(
        (int(name.split()[-1]), statistics.median(runs))
        for name, _, runs in numbers['speed']
        if name.startswith('`jabulghi_block` of')
    )
    left.loglog(*columns(blocks), 'o-', color=BLUE, base=2)
    left.text(12, 9.5, 'jabulghi_block', color=BLUE)
    for name, label, colour in (
        ('GSL `gsl_ran_gaussian` over `gsl_rng_taus`', 'GSL, polar', GREY),
        (GSL, 'GSL, ziggurat', RED),
        ('Boost `normal_distribution` over `taus88`', 'Boost', ORANGE),
        ('Rust `rand_distr::StandardNormal` over `SmallRng`, rounded by a sum', 'Rust rand_distr', GREEN),
    ):
        if least(name):
            left.axhline(least(name), color=colour, linestyle='--')
            left.text(
                *((2, least(name) * 0.97) if label == 'Boost' else (250, least(name) * 1.03)),
                label,
                color=colour,
                va='top' if label == 'Boost' else 'bottom',
            )
    left.set(xlabel='samples of a block', ylabel='ns a sample', title='Time of a sample', ylim=(2, 32))
    left.set_yticks([2, 4, 8, 16, 32], labels=[2, 4, 8, 16, 32])
    left.set_xticks([2, 8, 32, 128, 512, 2048], labels=[2, 8, 32, 128, 512, 2048])
    skips = sorted(
        (int(name.split()[-2]), statistics.median(runs))
        for name, _, runs in numbers['speed']
        if name.startswith('`jabulghi_skip`')
    )
    right.loglog([n + 1 for n, _ in skips], [time for _, time in skips], 'o-', color=BLUE, base=2)
    right.text(2**33, 7, 'jabulghi_skip', color=BLUE)
    pair = 2 * blocks[-1][1] / 1000
    right.loglog([4, 2**15], [4 * pair, 2**15 * pair], '--', color=RED, base=2)
    right.text(2**15, 40, 'drawing the pairs', color=RED)
    right.set(xlabel='pairs skipped', ylabel='µs a call', title='Time of a skip', ylim=(2**-2, 2**6))
    right.set_xticks([2.0**bits for bits in range(0, 65, 16)])
    right.set_yticks([0.25, 1, 4, 16, 64], labels=[0.25, 1, 4, 16, 64])
    save(figure, 'speed')


def draw_errors():
    """Each width by itself, where its worst errors are."""
    figure, both = panels(4)
    notes = {
        '16': (
            (31 / 64, 0.4848, 'left', 'proved: some\nbeyond 31/64', ORANGE),
            (33 / 64, 0.5152, 'right', 'proved: none\nbeyond 33/64', RED),
        ),
        '18': ((3 / 4, 0.482, 'left', 'proved: none\nbeyond 3/4', RED),),
    }
    for panel, (bits, lines) in zip(both, notes.items()):
        for sweep, line, name in (('v', '-', 'every v, 187 k'), ('k', ':', '2,000,000 k, 12 v')):
            panel.semilogy(
                *columns(numbers['errors'][bits][sweep]['beyond']), line, color=BLUE, linewidth=3, label=name
            )
        for limit, place, side, words, colour in lines:
            panel.axvline(limit, ymax=0.72, color=colour, linewidth=2)
            panel.text(place, 1e-6, words, color=colour, ha=side)
        panel.set(
            xlim=(0.48, 0.52),
            ylim=(1e-7, 1),
            xlabel=f'size of an error, units of 2$^{{-{11 if bits == "16" else 13}}}$ σ',
            ylabel='share of samples beyond',
            title=f'{bits} bits',
        )
        panel.legend(loc='upper right', framealpha=1)
    save(figure, 'errors')


def draw_seeds():
    figure, (left, right) = panels()
    seeds = numbers['seeds']
    for kind, colour, name in (('small', RED, 'small seeds'), ('large', BLUE, 'seeds of 32 bits')):
        left.plot(range(1, 41), seeds[kind]['squares'], '.-', color=colour, linewidth=1.5, label=name)
        low, squares, products = columns(seeds[kind]['far'])
        right.plot(low, [each * 64 for each in squares], 'o-', color=colour)
        right.plot(low, [each * 64 * math.sqrt(2) for each in products], 's--', color=colour)
    left.set(
        xlim=(0, 41), ylim=(0, 6), xlabel='pair since seeding', ylabel='mean square, σ$^2$', title='Size of the samples'
    )
    left.legend(loc='upper right')
    right.text(
        7, 90, 'small seeds: mean squares (line)\nand products with the next\nrecord\'s samples (dashes)', color=RED
    )
    right.text(2, 0.3, 'seeds of 32 bits: both are chance', color=BLUE)
    right.set_xscale('log', base=2)
    right.set_yscale('log')
    right.set_xticks([2**j for j in range(0, 12, 2)], labels=[2**j for j in range(0, 12, 2)])
    right.set_yticks([0.1, 1, 10, 100, 1000], labels=['0.1', '1', '10', '100', '1000'])
    right.set(
        ylim=(0.1, 1000),
        xlabel='pair since seeding, from here to twice as far',
        ylabel='distance, chance = 1',
        title='How soon seeds are forgotten',
    )
    save(figure, 'seeds')


for draw in (draw_tail, draw_loops, draw_speed, draw_errors, draw_seeds):
    draw()
