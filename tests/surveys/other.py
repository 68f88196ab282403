"""A reader of surveys once more, from Survex's manual and docs/survey.md alone: the other side of tests/surveys/beside_other.

read(path) gives legs, stations, equates, fixes, sights and the lines that are refused. Files are read as bytes and taken for Latin-1, which keeps every byte."""
import copy, math, os, re

QUANTITIES = {
    word: name
    for name, words in {
        'tape': 'tape length',
        'compass': 'compass bearing',
        'clino': 'clino gradient',
        'backtape': 'backtape backlength',
        'backcompass': 'backcompass backbearing',
        'backclino': 'backclino backgradient',
        'depth': 'depth',
        'count': 'count counter',
        'dx': 'dx easting',
        'dy': 'dy northing',
        'dz': 'dz altitude',
        'declination': 'declination',
        'walls': 'left right up ceiling down floor',
        'level': 'level',
        'plumb': 'plumb',
        'position': 'position',
    }.items()
    for word in words.split()
}
ANGLES = {'compass', 'clino', 'backcompass', 'backclino', 'declination', 'level', 'plumb'}
UNITS = {
    'metres': 1,
    'meters': 1,
    'metric': 1,
    'feet': 0.3048,
    'yards': 0.9144,
    'degrees': 1,
    'degs': 1,
    'grads': 0.9,
    'mils': 0.9,
    'minutes': 1 / 60,
    'quads': 1,
    'quadrants': 1,
    'percent': 0.01,
    'percentage': 0.01,
}
LENGTHS = {'metres', 'meters', 'metric', 'feet', 'yards'}
FIELDS = {
    word: name
    for name, words in {
        'from': 'from',
        'to': 'to',
        'station': 'station',
        'direction': 'direction',
        'tape': 'tape length',
        'compass': 'compass bearing',
        'clino': 'clino gradient',
        'backtape': 'backtape backlength',
        'backcompass': 'backcompass backbearing',
        'backclino': 'backclino backgradient',
        'fromdepth': 'fromdepth',
        'todepth': 'todepth',
        'depth': 'depth',
        'depthchange': 'depthchange',
        'fromcount': 'fromcount',
        'tocount': 'tocount',
        'count': 'count counter',
        'dx': 'dx easting',
        'dy': 'dy northing',
        'dz': 'dz altitude',
        'newline': 'newline',
        'ignore': 'ignore',
        'ignoreall': 'ignoreall',
    }.items()
    for word in words.split()
}
COMMON = {'from', 'to', 'station', 'direction', 'newline', 'ignore', 'ignoreall'}
NORMAL = COMMON | {'tape', 'backtape', 'fromcount', 'tocount', 'count', 'compass', 'backcompass', 'clino', 'backclino'}
DEPTH = {'fromdepth', 'todepth', 'depth', 'depthchange'}
STYLES = {
    'normal': NORMAL,
    'topofil': NORMAL,
    'diving': NORMAL | DEPTH,
    'cylpolar': NORMAL | DEPTH,
    'cartesian': COMMON | {'dx', 'dy', 'dz'},
    'nosurvey': COMMON,
}
SIGNS = {
    'blank': ' \t,\x1a',
    'comment': ';',
    'decimal': '.',
    'eol': '\n\r',
    'keyword': '*',
    'minus': '-',
    'names': '_-',
    'omit': '-',
    'plus': '+',
    'root': '\\',
    'separator': '.',
}


class Refused(Exception):
    pass


class Settings:
    def __init__(self):
        self.prefix: tuple[str, ...] = ()
        self.signs, self.case, self.truncate = dict(SIGNS), 'tolower', None
        self.flags, self.plumbs, self.equates = set(), False, False
        self.unit = {q: (1.0, 'number') for q in QUANTITIES.values()}
        self.calibration = {q: (0.0, 1.0) for q in QUANTITIES.values()}
        self.sd = {q: 0.25 if q in ('level', 'plumb') else 0.5 if q in ANGLES else 0.05 for q in QUANTITIES.values()}
        self.declination, self.style, self.order, self.system = (
            0.0,
            'normal',
            ['from', 'to', 'tape', 'compass', 'clino'],
            '',
        )


def turn(degrees):
    return (degrees + 180) % 360 - 180


def mean(one, other):
    """Of two values with their variances, by weights; None is a reading that was not taken."""
    if one is None or other is None:
        return other if one is None else one
    (a, u), (b, v) = one, other
    return ((a * v + b * u) / (u + v) if u + v else (a + b) / 2), (u * v / (u + v) if u + v else 0)


class Reader:
    def __init__(self):
        self.now, self.scopes, self.names, self.same = Settings(), [], {}, {}
        self.legs, self.equated, self.fixes, self.sights, self.bad = [], [], {}, [], []
        self.out, self.nowhere, self.open, self.run = '', False, [], None
        self.depths = [0]

    # ---- signs, words and numbers
    def has(self, sign, use):
        return sign in self.now.signs[use]

    def words(self, line):
        found, word, rest = [], '', 0
        for at, sign in enumerate(line):
            if self.has(sign, 'comment'):
                break
            if not self.has(sign, 'blank'):
                word += sign
            elif word:
                found.append((word, at))
                word = ''
            rest = at + 1
        return found + ([(word, rest)] if word else [])

    def number(self, word):
        sign = 1
        if word and (self.has(word[0], 'minus') or self.has(word[0], 'plus')):
            sign, word = (-1 if self.has(word[0], 'minus') else 1), word[1:]
        digits = ''.join('.' if self.has(s, 'decimal') else s for s in word)
        if not re.fullmatch(r'[0-9]+\.?[0-9]*|\.[0-9]+', digits):
            raise Refused
        return sign * float(digits)

    # ---- names
    def name(self, word):
        prefix = self.now.prefix
        if self.has(word[0], 'root'):
            prefix, word = self.root, word[1:]
            if word and self.has(word[0], 'separator'):
                word = word[1:]
        for label in re.split(
            '[' + re.escape(self.now.signs['separator']) + ']' if self.now.signs['separator'] else '(?!)', word
        ):
            if not label or not all(s.isascii() and s.isalnum() or s > '\x7f' or self.has(s, 'names') for s in label):
                raise Refused
            label = label[: self.now.truncate]
            changed = {'tolower': lower(label), 'toupper': upper(label), 'preserve': label}
            prefix += (changed[self.now.case],)
            self.names.setdefault(prefix, label)
            if sum(len(k) + 1 for k in prefix) - 1 > 1000:
                raise Refused
        return prefix

    def station(self, word):
        name = self.name(word)
        self.same.setdefault(name, name)
        return name

    def find(self, name):
        while self.same[name] != name:
            name = self.same[name]
        return name

    def full(self, name):
        return '.'.join(self.names[name[: j + 1]] for j in range(len(name)))

    # ---- files
    def read(self, path, text):
        self.open.append(path)
        root, depth, before = getattr(self, 'root', ()), len(self.scopes), self.now.prefix
        self.root, number = self.now.prefix, 0
        if text.startswith('\xef\xbb\xbf'):
            text = text[3:]
        while text:
            at = next((j for j, sign in enumerate(text) if self.has(sign, 'eol')), len(text))
            line, end = text[:at], text[at : at + 1]
            text = text[at + 1 :]
            if end and text and text[0] != end and self.has(text[0], 'eol'):
                text = text[1:]
            number += 1
            self.file, self.line, self.path = path, number, path
            try:
                self.take(line)
            except Refused:
                self.bad.append((path, number))
        self.file, self.line = path, number
        self.end_run()
        for opened in self.scopes[depth:]:
            self.bad.append((path, opened[2]))
        if len(self.scopes) > depth:
            self.now = self.scopes[depth][0]
            del self.scopes[depth:]
        self.now.prefix, self.root = before, root
        self.open.pop()

    def take(self, line):
        words = self.words(line)
        if not words:
            if all(self.has(sign, 'blank') for sign in line):
                self.end_run()
            return
        first = words[0][0]
        if not self.has(first[0], 'keyword'):
            return self.data(line, [w for w, _ in words])
        self.end_run()
        words = ([first[1:]] if len(first) > 1 else []) + [w for w, _ in words[1:]]
        if not words:
            raise Refused
        do = getattr(self, 'do_' + lower(words[0]), None)
        if do is None and lower(words[0]) not in 'copyright export instrument ref require title'.split():
            raise Refused
        if do:
            do(words[1:], line)

    # ---- commands
    def do_begin(self, words, line):
        inside = copy.copy(self.now)
        inside.signs, inside.flags, inside.unit = dict(self.now.signs), set(self.now.flags), dict(self.now.unit)
        inside.calibration, inside.sd = dict(self.now.calibration), dict(self.now.sd)
        self.scopes.append((self.now, words[0] if words else '', self.line))
        outside, self.now = self.now, inside
        if words:
            self.now.prefix = outside.prefix
            self.now.prefix = self.name(words[0])
        if words[1:]:
            raise Refused

    def do_end(self, words, line):
        if not self.scopes or self.scopes_of_file() == 0:
            raise Refused
        self.now, label, _ = self.scopes.pop()
        if words and (not label or self.name(words[0]) != self.name(label)):
            raise Refused
        if words[1:]:
            raise Refused

    def scopes_of_file(self):
        return len(self.scopes) - self.depths[-1]

    def do_prefix(self, words, line):
        if not words:
            raise Refused
        self.now.prefix = self.name(words[0])
        if words[1:]:
            raise Refused

    def do_case(self, words, line):
        if not words or lower(words[0]) not in ('tolower', 'toupper', 'preserve'):
            raise Refused
        self.now.case = lower(words[0])
        if words[1:]:
            raise Refused

    def do_truncate(self, words, line):
        if words and lower(words[0]) == 'off':
            self.now.truncate = None
        else:
            if not words or not re.fullmatch(r'[+]?[0-9]+', words[0]) or not 1 <= int(words[0]) <= 1000:
                raise Refused
            self.now.truncate = int(words[0])
        if words[1:]:
            raise Refused

    def do_alias(self, words, line):
        if [lower(w) for w in words[:2]] != ['station', '-'] or words[2:3] not in ([], ['..']) or words[3:]:
            raise Refused

    def do_infer(self, words, line):
        low = [lower(w) for w in words]
        if len(low) < 2 or low[0] not in ('plumbs', 'equates', 'exports') or low[1] not in ('on', 'off'):
            raise Refused
        if low[0] != 'exports':
            setattr(self.now, low[0], low[1] == 'on')
        if low[2:]:
            raise Refused

    def do_flags(self, words, line):
        on = True
        for word in map(lower, words):
            if word in ('splay', 'surface', 'duplicate'):
                (self.now.flags.add if on else self.now.flags.discard)(word)
                on = True
            elif word == 'not':
                on = False
            else:
                raise Refused
        if not on:
            raise Refused

    def do_set(self, words, line):
        if not words or lower(words[0]) not in SIGNS:
            raise Refused
        rest = line[line.lower().index('set') + 3 :]
        rest = rest[rest.lower().index(lower(words[0])) + len(words[0]) :]
        rest = rest.lstrip(self.now.signs['blank'])
        word = re.split('[' + re.escape(self.now.signs['blank']) + ']', rest)[0] if self.now.signs['blank'] else rest
        signs = re.sub(r'[xX]([0-9a-fA-F]{2})', lambda found: chr(int(found[1], 16)), word)
        if any(s.isascii() and s.isalnum() for s in signs):
            raise Refused
        self.now.signs[lower(words[0])] = signs

    def quantities(self, words):
        found = []
        while words and lower(words[0]) in QUANTITIES:
            found.append(QUANTITIES[lower(words.pop(0))])
        if not found:
            raise Refused
        return found

    def unit(self, words, quantities):
        unit = lower(words.pop(0)) if words else ''
        if unit not in UNITS:
            raise Refused
        for q in quantities:
            allowed = LENGTHS if q not in ANGLES else {'degrees', 'degs', 'grads', 'mils', 'minutes'}
            allowed = allowed | (
                {'percent', 'percentage'}
                if q in ('clino', 'backclino')
                else {'quads', 'quadrants'}
                if q in ('compass', 'backcompass', 'declination')
                else set()
            )
            if unit not in allowed:
                raise Refused
        return unit

    def do_units(self, words, line):
        if words and lower(words[0]) == 'default':
            self.now.unit = {q: (1, 'number') for q in self.now.unit}
            return
        quantities, factor = self.quantities(words), 1
        try:
            factor = self.number(words[0]) if words else 1
            words = words[1:]
        except Refused:
            pass
        if factor == 0:
            raise Refused
        unit = self.unit(words, quantities)
        if words:
            raise Refused
        for q in quantities:
            self.now.unit[q] = (
                factor * UNITS[unit],
                'percent' if unit.startswith('percent') else 'quadrant' if unit.startswith('quad') else 'number',
            )

    def do_calibrate(self, words, line):
        if words and lower(words[0]) == 'default':
            self.now.calibration, self.now.declination = {q: (0.0, 1.0) for q in self.now.calibration}, 0.0
            return
        quantities = self.quantities(words)
        if {'level', 'plumb', 'position'} & set(quantities) or len({q in ANGLES for q in quantities}) > 1 or not words:
            raise Refused
        zero, scale, unit = self.number(words.pop(0)), 1.0, None
        if words:
            try:
                scale = self.number(words[0])
                words.pop(0)
            except Refused:
                unit = self.unit(words, quantities)
                if words:
                    scale = self.number(words.pop(0))
        if scale == 0 or ('declination' in quantities and scale != 1) or words:
            raise Refused
        for q in quantities:
            size, form = self.now.unit[q]
            self.now.calibration[q] = (
                zero * UNITS[unit] / scale if unit else zero * size * (math.degrees(1) if form == 'percent' else 1)
            ), scale
            if q == 'declination':
                self.now.declination = -self.now.calibration[q][0]

    def do_sd(self, words, line):
        if words and lower(words[0]) == 'default':
            self.now.sd = Settings().sd
            return
        quantities = self.quantities(words)
        if not words:
            raise Refused
        sd = abs(self.number(words.pop(0)))
        unit = self.unit(words, quantities)
        if words:
            raise Refused
        for q in quantities:
            self.now.sd[q] = sd * UNITS[unit] * (math.degrees(1) if unit.startswith('percent') else 1)

    def do_declination(self, words, line):
        if words and lower(words[0]) == 'auto':
            self.now.declination = 0.0
            return
        if len(words) < 2:
            raise Refused
        value = self.number(words.pop(0))
        unit = self.unit(words, ['declination'])
        if words:
            raise Refused
        self.now.declination = value * UNITS[unit]

    def do_default(self, words, line):
        for word in map(lower, words):
            if word not in ('calibrate', 'data', 'units', 'all'):
                raise Refused
            if word in ('calibrate', 'all'):
                self.do_calibrate(['default'], '')
            if word in ('data', 'all'):
                self.do_data(['default'], '')
            if word in ('units', 'all'):
                self.do_units(['default'], '')

    def do_data(self, words, line):
        if not words:
            return
        style, fields = lower(words[0]), list[str]()
        if style == 'default':
            self.now.style, self.now.order = 'normal', ['from', 'to', 'tape', 'compass', 'clino']
        elif style in ('passage', 'ignore'):
            self.now.style = 'passage'
        elif style not in STYLES:
            raise Refused
        else:
            for word in words[1:]:
                field = FIELDS.get(lower(word))
                twice = field in fields and field not in ('ignore', 'ignoreall')
                if (
                    field not in STYLES[style]
                    or twice
                    or (fields and fields[-1] == 'ignoreall' and field != 'newline')
                    or len(fields) == 32
                ):
                    raise Refused
                fields.append(field)
            self.check(style, fields)
            self.now.style, self.now.order = {'topofil': 'normal'}.get(style, style), fields

    def check(self, style, fields):
        seen = set(fields)
        ends = seen & {'from', 'to'}
        whole = not ends and ('newline' in seen or style == 'nosurvey') if 'station' in seen else len(ends) == 2
        if 'newline' in fields:
            whole = whole and not {'station', 'depth', 'count'} & set(fields[fields.index('newline') :])
        if style == 'cartesian':
            whole = whole and {'dx', 'dy', 'dz'} <= seen
        elif style != 'nosurvey':
            whole = (
                whole
                and (seen & {'tape', 'backtape', 'count'} or {'fromcount', 'tocount'} <= seen)
                and seen & {'compass', 'backcompass'}
            )
            if style in ('diving', 'cylpolar'):
                whole = whole and (seen & {'depth', 'depthchange'} or {'fromdepth', 'todepth'} <= seen)
        if not whole:
            raise Refused

    def do_date(self, words, line):
        if not words or not re.fullmatch(r'[0-9.-]+', words[0]) or sum(c.isdigit() for c in words[0]) < 4 or words[1:]:
            raise Refused

    def do_team(self, words, line):
        pass

    def do_solve(self, words, line):
        if words:
            raise Refused

    def do_entrance(self, words, line):
        if not words:
            raise Refused
        self.station(words[0])
        if words[1:]:
            raise Refused

    def do_cs(self, words, line):
        if not words or (lower(words[0]) == 'out' and not words[1:]):
            raise Refused
        if lower(words[0]) == 'out':
            self.out = self.out or ' '.join(words[1:]).lower()
        else:
            self.now.system = ' '.join(words).lower()

    def do_fix(self, words, line):
        if not words:
            raise Refused
        station = self.station(words.pop(0))
        if words and lower(words[0]) == 'reference':
            words.pop(0)
        numbers = [self.number(w) for w in words[:9]]
        if words[9:] or len(numbers) not in (0, 3, 4, 5, 6, 9) or (not numbers and self.nowhere):
            raise Refused
        self.nowhere = self.nowhere or not numbers
        if self.now.system and self.now.system != self.out:
            return
        place, at = tuple((numbers + [0, 0, 0])[:3]), self.find(station)
        if at in self.fixes:
            if self.fixes[at] != place:
                raise Refused
        else:
            self.fixes[at] = place

    def equate(self, one, other):
        a, b = self.find(one), self.find(other)
        if one == other:
            return
        if a != b and a in self.fixes and b in self.fixes and self.fixes[a] != self.fixes[b]:
            raise Refused
        self.equated.append((one, other))
        order = list(self.same)
        first, second = sorted((a, b), key=order.index)
        if second in self.fixes and first != second:
            self.fixes.setdefault(first, self.fixes[second])
        self.same[second] = first

    def do_equate(self, words, line):
        first = None
        for word in words:
            station = self.station(word)
            if first is None:
                first = station
            else:
                self.equate(first, station)
        if len(words) < 2:
            raise Refused

    def do_include(self, words, line):
        found = re.search(r'include\s+"([^"]*)"?(.*)', line, re.I)
        name = found[1] if found else words[0] if words else ''
        if not name or len(self.open) == 100:
            raise Refused
        folder = os.path.dirname(self.path)
        for tried in (name, name.replace('\\', '/'), name.replace('\\', '/').lower()):
            for ending in ('', '.svx'):
                path = os.path.join(folder, tried + ending)
                if os.path.isfile(path):
                    if path in self.open:
                        raise Refused
                    if words[1:] if not found else self.words(found[2]):
                        raise Refused
                    here = self.file, self.line, self.path
                    self.depths.append(len(self.scopes))
                    with open(path, encoding='latin-1', newline='') as file:
                        self.read(path, file.read())
                    self.depths.pop()
                    self.file, self.line, self.path = here
                    return
        raise Refused

    # ---- data
    def end_run(self):
        run, self.run = self.run, None
        if run and run.get('leg') and not run.get('bad'):
            self.bad.append((self.file, run['line']))

    def data(self, line, words):
        style, order = self.now.style, self.now.order
        if style == 'passage':
            return
        shared, cut = 'station' in order, order.index('newline') if 'newline' in order else len(order)
        run = self.run
        if cut < len(order) and run and 'to' in run and not run.get('leg'):
            run.update(leg=True, line=self.line, readings={}, back=False, bad=True)
            self.fields(line, words, order[cut + 1 :], run)
            run['bad'] = False
            if not shared:
                self.run = None
                self.finish(run)
            return
        if not shared:
            run = {'line': self.line, 'readings': {}, 'back': False}
            self.run = run if cut < len(order) else None
            try:
                self.fields(line, words, order[:cut], run)
            except Refused:
                if self.run:
                    run.update(to=None, doomed=True)
                raise
            if cut == len(order):
                self.finish(run)
            return
        if run is None:
            run = self.run = {'readings': {}, 'back': False, 'shared': []}
        leg = run.get('leg')
        try:
            self.fields(line, words, order[:cut], run)
        except Refused:
            run.update(to=False, leg=False)
            run['from_'] = None
            raise
        done, run['leg'] = dict(run), False
        run['readings'], run['back'] = {}, False
        if done.get('from_', None) is not None and (leg or style == 'nosurvey'):
            if not done.get('bad'):
                self.finish(done)

    def fields(self, line, words, order, run):
        words = list(words)
        comma = self.comma(line)
        for j, field in enumerate(order):
            if field == 'ignoreall':
                if comma:
                    raise Refused
                return
            if not words:
                raise Refused
            self.field(field, words.pop(0), run)
        if words:
            raise Refused

    def comma(self, line):
        text = (
            re.split('[' + re.escape(self.now.signs['comment']) + ']', line)[0] if self.now.signs['comment'] else line
        )
        return self.has(',', 'blank') and re.search(r'(?:^|[ \t])[+-]?[0-9]+,[0-9]+(?=[ \t]|$)', text)

    def field(self, field, word, run):
        if field == 'ignore':
            return
        if field in ('from', 'to', 'station'):
            point = word == '-' or (len(word) <= 3 and all(self.has(s, 'separator') for s in word))
            name = 'splay' if point else None
            if field == 'station':
                run['from_'] = run.get('to')
                run['to'] = False
            elif field == 'to':
                run['to'] = False
            name = name or self.station(word)
            run['from_' if field == 'from' else 'to'] = name
        elif field == 'direction':
            if lower(word) not in ('f', 'b'):
                raise Refused
            run['back'] = lower(word) == 'b'
        elif field in ('depth', 'count'):
            run['shared'] = (run['shared'] + [(field, self.reading(field, word))])[-2:]
        else:
            run['readings'][field] = self.reading(field, word)

    def reading(self, field, word):
        q = field if field in QUANTITIES else 'depth' if 'depth' in field else 'count'
        (size, form), (zero, scale), variance = self.now.unit[q], self.now.calibration[q], self.now.sd[q] ** 2
        if (
            q in ('tape', 'backtape', 'compass', 'backcompass', 'clino', 'backclino')
            and len(word) == 1
            and self.has(word, 'omit')
        ):
            return None
        if q in ('clino', 'backclino'):
            for words, value in ((('level', 'h'), 0), (('up', 'u', '+v', 'v'), 90), (('down', 'd', '-v'), -90)):
                if lower(word) in words:
                    return ('plumb' if value else 'level', value, variance)
        number = self.quadrant(word) if form == 'quadrant' else self.number(word)
        value = math.degrees(math.atan(number * size)) if form == 'percent' else number * size
        if q in ('clino', 'backclino') and self.now.plumbs and abs(abs(number * size) - 90) < 1e-9:
            return 'plumb', math.copysign(90, number * size), variance
        return 'number', (value - zero) * scale, variance

    def quadrant(self, word):
        if lower(word) in ('n', 'e', 's', 'w'):
            return 90.0 * 'nesw'.index(lower(word))
        if not re.fullmatch('[nsNS].*[ewEW]', word):
            raise Refused
        value = self.number(word[1:-1])
        if not 0 <= value <= 90:
            raise Refused
        north, east = lower(word[0]) == 'n', lower(word[-1]) == 'e'
        return (value if east else -value) % 360 if north else 180 - value if east else 180 + value

    # ---- legs
    def finish(self, run):
        start, end = run.get('from_'), run.get('to')
        if start in (None, False) or end in (None, False) or run.get('doomed'):
            return
        style = self.now.style
        if style == 'nosurvey':
            if 'splay' not in (start, end):
                self.sights.append((start, end))
            return
        if start == end == 'splay':
            raise Refused
        if 'splay' in (start, end) or 'splay' in self.now.flags:
            return
        tape = run['readings'].get('tape')
        try:
            if start == end:
                raise Refused
            if self.now.equates and tape is not None and tape[0] == 'number' and self.raw_zero(run):
                return self.equate(start, end)
            vector, slope_by = self.vector(style, run)
        except Refused:
            self.bad.append((self.file, run['line']))
            return
        if run['back']:
            start, end = end, start
        leg = [
            self.file,
            run['line'],
            start,
            end,
            style,
            self.now.declination,
            [vector],
            slope_by,
            len(run['readings']),
        ]
        last = self.legs[-1] if self.legs else None
        if last and last[2:6] == leg[2:6] and last[7:9] == leg[7:9]:
            last[6].append(vector)
        else:
            self.legs.append(leg)

    def raw_zero(self, run):
        (size, _), (zero, scale) = self.now.unit['tape'], self.now.calibration['tape']
        return abs(run['readings']['tape'][1] / scale + zero) < 1e-12

    def vector(self, style, run):
        readings = dict(run['readings'])
        if len(run.get('shared', [])) == 2:
            kind = run['shared'][0][0]
            readings['from' + kind], readings['to' + kind] = run['shared'][0][1], run['shared'][1][1]
        value = lambda name: readings[name][1:] if readings.get(name) is not None else None
        if style == 'cartesian':
            return [value(q)[0] for q in ('dx', 'dy', 'dz')], 'height'
        fore, back = readings.get('clino'), readings.get('backclino')
        if fore is not None and back is not None and fore[0] != back[0]:
            raise Refused
        if readings.get('tocount') is not None and readings.get('fromcount') is not None:
            length, spread = value('tocount')[0] - value('fromcount')[0], value('tocount')[1]
        else:
            found = mean(value('tape'), value('backtape'))
            if found is None:
                raise Refused
            length, spread = found
        c, b = value('compass'), value('backcompass')
        if b is not None:
            b = (c[0] + turn(b[0] - 180 - c[0]) if c is not None else b[0] - 180), b[1]
        bearing = mean(c, b)
        one = fore or back
        by = 'height' if style != 'normal' else 'none' if one is None else one[0]
        if bearing is None and by != 'plumb':
            raise Refused
        angle = math.radians((bearing[0] if bearing else 0) + self.now.declination)
        if by == 'plumb':
            up = (fore[1] if fore else 0) - (back[1] if back else 0)
            return [0.0, 0.0, length if up > 0 else -length], by
        if style == 'normal':
            slope = mean(value('clino'), (-back[1], back[2]) if back else None)
            rise = math.radians(slope[0] if slope else 0)
            plan, up = length * math.cos(rise), length * math.sin(rise)
        else:
            change = value('depthchange')
            up = change[0] if change else value('todepth')[0] - value('fromdepth')[0]
            plan = length
            if style == 'diving':
                depth = change[1] if change else value('todepth')[1] + value('fromdepth')[1]
                plan = math.sqrt(max(0, length**2 - up**2))
                if abs(up) > abs(length) and spread + depth > 0:
                    up = 0 if length == 0 else (up * spread + math.copysign(1, up) * length * depth) / (spread + depth)
        return [plan * math.sin(angle), plan * math.cos(angle), up], by


def lower(word):
    return ''.join(chr(ord(s) + 32) if 'A' <= s <= 'Z' else s for s in word)


def upper(word):
    return ''.join(chr(ord(s) - 32) if 'a' <= s <= 'z' else s for s in word)


def read(path):
    reader = Reader()
    with open(path, encoding='latin-1', newline='') as file:
        reader.read(path, file.read())
    return reader
