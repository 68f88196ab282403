"""Surveys for tests/surveys/beside_other: every rule of the reader by chance, and damage."""

LENGTH = ['metres', 'feet', 'yards', 'meters', 'metric', '2 metres', '0.1 feet', '.5 yards']
ANGLE = ['degrees', 'degs', 'grads', 'minutes', '2 degrees']
TOKENS = [
    '-',
    '.',
    '..',
    'up',
    'level',
    'd',
    '12,5',
    '10,',
    '1.5',
    '-3',
    '+4',
    'x',
    'a.b',
    '*begin',
    '*end',
    ';',
    'a..b',
    '\\1',
    'metres',
    'degrees',
    'tape',
    'compass',
    '',
    '361',
    '1e3',
    'newline',
    'N10E',
    'S',
    '\xe9',
    '"',
    'ignoreall',
    '*data',
    '*calibrate',
    '*foo',
    '0',
]


class Cave:
    def __init__(self, chance):
        self.chance, self.lines, self.last, self.depth = chance, [], 0, 0
        self.fields, self.style, self.form = (
            ['from', 'to', 'tape', 'compass', 'clino'],
            'normal',
            {'compass': 'number', 'clino': 'number'},
        )

    def add(self, text):
        blank = self.chance.choice([' ', ' ', '\t', '  '])
        self.lines.append(text.replace(' ', blank) + self.chance.choice(['', '', '', ' ; note', ' ']))

    def number(self, least, most):
        return f'{self.chance.uniform(least, most):.{self.chance.choice((0, 1, 2, 2, 3))}f}'

    def station(self):
        return str(self.chance.choice((self.last, self.last, self.chance.randint(0, self.last + 2))))

    def reading(self, field):
        chance = self.chance
        if field in ('tape', 'backtape'):
            return self.number(0, 40)
        if field in ('compass', 'backcompass'):
            if self.form['compass'] == 'quadrant':
                return chance.choice(['N', 's', 'E', 'N12.5E', 'S0W', 'n90w', 'S45e'])
            return self.number(0, 360)
        if field in ('clino', 'backclino'):
            return self.number(-80, 80) if chance.random() < 0.9 else '-'
        if 'depth' in field:
            return self.number(-20, 5)
        if 'count' in field:
            return self.number(0, 900)
        if field == 'direction':
            return chance.choice('FBfb')
        return self.number(-50, 50)

    def line_of(self, fields, start, end):
        words = []
        for field in fields:
            if field == 'ignoreall':
                words += ['some', 'words']
            elif field in ('from', 'to', 'station'):
                words.append(start if field == 'from' else end)
            else:
                words.append('x' if field == 'ignore' else self.reading(field))
        return ' '.join(words)

    def legs(self):
        chance = self.chance
        if 'station' in self.fields:
            return self.traverse()
        for _ in range(chance.randint(1, 4)):
            start = self.station()
            self.last += 1
            end = chance.choice(
                (str(self.last), str(self.last), self.station(), chance.choice(('-', '.', '..', '...')))
            )
            if end == start:
                end = str(self.last)
            text = self.line_of(self.fields, start, end)
            for _ in range(chance.choice((1, 1, 1, 1, 3))):
                self.add(text)

    def traverse(self):
        cut = self.fields.index('newline') if 'newline' in self.fields else len(self.fields)
        for j in range(self.chance.randint(2, 4)):
            self.last += 1
            if j and cut < len(self.fields):
                self.add(self.line_of(self.fields[cut + 1 :], '', ''))
            self.add(self.line_of(self.fields[:cut], '', str(self.last)))
        self.lines.append('')

    def data(self):
        chance = self.chance
        style = chance.choice(
            (
                'normal',
                'normal',
                'normal',
                'topofil',
                'diving',
                'cylpolar',
                'cartesian',
                'nosurvey',
                'passage',
                'default',
            )
        )
        if style in ('passage', 'default'):
            self.add(f'*data {style}' + (' station left right' if style == 'passage' else ''))
            self.style, self.fields = (
                ('passage', ['station'])
                if style == 'passage'
                else ('normal', ['from', 'to', 'tape', 'compass', 'clino'])
            )
            return
        if style == 'nosurvey':
            own: list[str] = []
            shared: list[str] = []
        elif style == 'cartesian':
            own, shared = ['dx', 'dy', 'dz'], []
        else:
            own, shared = (
                chance.choice((['tape'], ['tape', 'backtape'], ['backtape'], ['fromcount', 'tocount']))
                + chance.choice((['compass'], ['compass', 'backcompass'], ['backcompass'])),
                [],
            )
            if style in ('diving', 'cylpolar'):
                own = own + chance.choice((['fromdepth', 'todepth'], ['depthchange']))
            elif chance.random() < 0.8:
                own = own + chance.choice((['clino'], ['clino', 'backclino'], ['backclino']))
        own = own + ['ignore'] * (style != 'nosurvey' and chance.random() < 0.2)
        chance.shuffle(own)
        if chance.random() < 0.35:
            if style in ('diving', 'cylpolar') and chance.random() < 0.4:
                own, shared = [field for field in own if 'depth' not in field], ['depth']
            self.fields = (
                ['station']
                + shared
                + (['ignoreall'] if chance.random() < 0.2 else [])
                + (['newline'] + own if own else [])
            )
            if own and chance.random() < 0.3:
                self.fields.append('direction')
        else:
            self.fields = ['from', 'to'] + own
            chance.shuffle(self.fields)
            if chance.random() < 0.2:
                self.fields.append('ignoreall')
        self.style = style
        synonyms = {
            'tape': 'length',
            'compass': 'bearing',
            'clino': 'gradient',
            'dx': 'easting',
            'dy': 'northing',
            'dz': 'altitude',
            'backclino': 'backgradient',
        }
        self.add(
            f'*data {style} '
            + ' '.join(synonyms.get(field, field) if chance.random() < 0.3 else field for field in self.fields)
        )

    def setting(self):
        chance = self.chance
        kind = chance.randrange(14)
        if kind == 0:
            self.add(
                f'*calibrate {chance.choice(("tape", "tape backtape", "depth", "dx dy", "count"))} {self.number(-1, 1)}'
                + chance.choice(('', ' 1.02', ' metres', ' feet 0.99'))
            )
        elif kind == 1:
            self.add(
                f'*CALIBRATE {chance.choice(("compass", "clino", "backcompass backclino", "compass clino"))} {self.number(-3, 3)}'
                + chance.choice(('', ' 0.98', ' degrees', ' grads 1.01'))
            )
        elif kind == 2:
            self.add(f'*calibrate declination {self.number(-5, 5)}')
        elif kind == 3:
            self.add(f'*declination {self.number(-5, 5)} {chance.choice(("degrees", "grads"))}')
        elif kind == 4:
            self.add(
                f'*units {chance.choice(("tape", "tape backtape", "depth count", "dx dy dz"))} {chance.choice(LENGTH)}'
            )
        elif kind == 5:
            unit = chance.choice(ANGLE + ['quadrants'])
            self.form['compass'] = 'quadrant' if unit == 'quadrants' else 'number'
            self.add(f'*units compass backcompass {unit}')
        elif kind == 6:
            self.add(f'*units clino backclino {chance.choice(ANGLE + ["percent"])}')
        elif kind == 7:
            self.add(
                f'*sd {chance.choice(("tape", "length backtape", "depth", "position"))} {self.number(0, 1)} metres'
            )
        elif kind == 8:
            self.add(
                f'*sd {chance.choice(("compass", "clino", "backcompass backclino", "level plumb"))} {self.number(0, 2)} degrees'
            )
        elif kind == 9:
            self.add(f'*infer {chance.choice(("plumbs", "equates", "exports"))} {chance.choice(("on", "off"))}')
        elif kind == 10:
            self.add(f'*flags {chance.choice(("", "not "))}{chance.choice(("splay", "surface", "duplicate"))}')
        elif kind == 11:
            self.add(f'*case {chance.choice(("preserve", "toupper", "tolower"))}')
        elif kind == 12:
            self.add(
                chance.choice(
                    (
                        '*alias station - ..',
                        '*alias station -',
                        '*truncate 2',
                        '*truncate off',
                        '*set names _-/',
                        '*title "x"',
                        '*export 1',
                        '*entrance 1',
                        '*team "A B"',
                        '*date 2001',
                    )
                )
            )
        else:
            self.add(f'*{chance.choice(("units", "calibrate", "sd"))} default')
            self.form['compass'] = 'number' if 'units' in self.lines[-1] else self.form['compass']

    def joined(self):
        chance = self.chance
        if chance.random() < 0.7:
            self.add(f'*equate {" ".join(self.station() for _ in range(chance.randint(2, 3)))}')
        else:
            self.add(
                f'*fix {self.station()} {self.number(0, 100)} {self.number(0, 100)} {self.number(0, 100)}'
                + chance.choice(('', ' 1', ' 1 2', ' 1 2 3'))
            )

    def scope(self):
        chance, kept = self.chance, (self.fields, self.style, dict(self.form))
        label = chance.choice(('', 'in', 'In.ner', 'x_1', 'h\xf6hle' if chance.random() < 0.1 else 'y'))
        self.depth += 1
        self.add(f'*begin {label}'.rstrip())
        self.block(chance.randint(1, 6))
        self.add(f'* end {label}'.rstrip() if label else '*END')
        self.depth -= 1
        self.fields, self.style, self.form = kept
        if label:
            self.add(f'*equate {self.station()} {label}.1')

    def block(self, size):
        for _ in range(size):
            kind = self.chance.random()
            if kind < 0.45:
                self.legs()
            elif kind < 0.65:
                self.setting()
            elif kind < 0.8:
                self.data()
            elif kind < 0.92 or self.depth == 3:
                self.joined()
            else:
                self.scope()


def generated(chance):
    cave = Cave(chance)
    cave.add('0 1 10 0 0')
    cave.block(chance.randint(3, 25))
    return chance.choice(('\n', '\n', '\r\n', '\r')).join(cave.lines) + chance.choice(('', '\n'))


def damaged(text, chance):
    """Some words left out, doubled or put in."""
    words = text.split(' ')
    for _ in range(chance.randint(1, 4)):
        at = chance.randrange(len(words))
        words[at : at + chance.choice((0, 1, 1))] = [chance.choice(TOKENS)] * chance.choice((0, 1, 1, 2))
    return ' '.join(words)
