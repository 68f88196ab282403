"""tests/list/beside.py COMMAND CALLS DUMP FOLDER [FILE..]: `jabulghi list` on surveys: those named, or the cases of tests/surveys and tests/level and generated ones.

Of each survey that is taken: the listing is what the calls of the library give for its job; --skip, --run and --from give the rows that the calls and a
return to a mark give; what --svx writes, read again with sigma 0, is the listing; its text is the survey's but for readings, its legs rise as they did.
The played caves stay in FOLDER, for cavern. JABULGHI_SEED=n gives others, JABULGHI_SURVEYS=n as many."""
import glob, os, random, re, subprocess, sys

HERE = os.path.dirname(os.path.abspath(__file__))
sys.path.insert(0, os.path.join(HERE, '..', 'surveys'))
from generate import generated  # noqa: E402

COMMAND, CALLS, DUMP, FOLDER = (os.path.abspath(word) for word in sys.argv[1:5])
SEEDS = '3770694558,3532774216,2901327257,4093209576,2137023497,2889436789'
LINE = re.compile(b'\r\n|\n|\r')
NUMBER = re.compile(rb'[NSns]?[-+]?\d*[.,#]?\d*[EWew]?$')
counts = {'taken': 0, 'refused': 0, 'legs': 0, 'svx': 0, 'not written': 0, 'from': 0}


def run(*words):
    return subprocess.run(words, capture_output=True, timeout=120)


def listed(path, *words):
    return run(COMMAND, 'list', path, *words)


def rows_of(text):
    return [row.split() for row in text.decode().split('\n') if len(row.split()) == 4 and row != 'FROM TO MM STEP']


def job_of(path, sigma):
    """The job of all legs: its shots are the listing's rows without noise."""
    still = listed(path, '--sigma', '0,0', '--seeds', SEEDS)
    n = SEEDS.split(',')
    lines = ['(seeds (a %s %s %s) (b %s %s %s))' % tuple(n), '(sigma %s %s)' % tuple(sigma.split(','))]
    lines += ['(shot %s %s %s %s)' % tuple(row) for row in rows_of(still.stdout)]
    with open('cave.job', 'w') as file:
        file.write('\n'.join(lines) + '\n')
    return rows_of(still.stdout)


def beside_calls(path, sigma, chance):
    """Rows beside those of the library's calls."""
    words = ('--sigma', sigma, '--seeds', SEEDS)
    shots = job_of(path, sigma)
    skip, turn = chance.randrange(1 << chance.randrange(1, 60)), chance.randrange(1 << 20)
    for options, pairs in (
        ((), 0),
        (('--skip', str(skip)), skip),
        (('--run', str(turn)), turn * len(shots)),
        (('--run', str(turn), '--skip', str(skip)), skip + turn * len(shots)),
    ):
        ours = listed(path, *words, *options)
        assert (
            ours.returncode == 0 and ours.stdout == run(CALLS, 'cave.job', str(pairs)).stdout
        ), f'{options}: not as the calls of the library'
    station = chance.choice(shots)[0]
    ours = listed(path, *words, '--from', station, '--skip', str(skip))
    assert (
        ours.stdout == run(CALLS, 'cave.job', str(skip), station).stdout
    ), f'--from {station}: not as after a return to a mark'
    whole = rows_of(listed(path, *words, '--skip', str(skip)).stdout)
    first = next(j for j, row in enumerate(whole) if row[0] == station)
    assert rows_of(ours.stdout) == whole[first:], f'--from {station}: other rows than the whole listing'
    counts['from'] += 1
    return shots


def is_reading(word):
    return NUMBER.match(word) is not None and any(48 <= byte < 58 for byte in word)


def same_text(source, written):
    """Whether lines differ in readings alone; files that are included stand between comments."""
    before, after = LINE.split(source), LINE.split(written)[1:]
    before[0] = before[0].removeprefix(b'\xef\xbb\xbf')
    if b'*include' in source.replace(b'* ', b'*').lower():
        return True
    assert len(before) == len(after), 'another number of lines'
    for old, new in zip(before, after):
        if old == new:
            continue
        old_words, new_words = re.split(rb'([\s,]+|;.*)', old), re.split(rb'([\s,]+|;.*)', new)
        assert len(old_words) == len(new_words), f'{old!r} became {new!r}'
        for one, other in zip(old_words, new_words):
            changed = one != other
            plumb = one.lower() in (
                b'n',
                b'e',
                b's',
                b'w',
                b'-',
                b'up',
                b'u',
                b'+v',
                b'v',
                b'down',
                b'd',
                b'-v',
            ) or one[:1] in (b'-', b'*')
            assert not changed or (is_reading(other) and (is_reading(one) or plumb)), f'{old!r} became {new!r}'
    return True


def legs_of(path):
    rows = [row.split('\t') for row in run(DUMP, path).stdout.decode('utf8', 'replace').split('\n')]
    return [
        (row[2], row[3], row[4], float(row[11]), float(row[12].split(' ')[0] or 0)) for row in rows if row[0] == 'leg'
    ]


def same_heights(path, written):
    """Names as they were, and each leg rises as it did (dived ones whose tape is too short excepted)."""
    for old, new in zip(legs_of(path), legs_of(written)):
        assert old[:3] == new[:3], f'{old!r} became {new!r}'
        assert abs(old[3] - new[3]) < 0.002 or old[2] == '1', f'{old} rises otherwise: {new}'


def as_survex(path, sigma, number, splits):
    """What --svx writes, read again with sigma 0, is the listing."""
    words = ('--sigma', sigma, '--seeds', SEEDS, '--skip', str(number))
    plain, svx = listed(path, *words), listed(path, *words, '--svx')
    if svx.returncode == 1 and (b'cannot be written' in svx.stderr or b'to itself' in svx.stderr):
        counts['not written'] += 1
        assert svx.stdout == b''
        return svx.stderr
    assert svx.returncode == 0, svx.stderr
    name = os.path.join(FOLDER, f'{number}-{os.path.basename(path)}')
    with open(name, 'wb') as file:
        file.write(svx.stdout)
    again = listed(name, '--sigma', '0,0', '--seeds', SEEDS)
    if any(int(row[2]) > 1000000 for row in rows_of(plain.stdout)):
        assert again.returncode == 1 and b'leg above 1000 m' in again.stderr, f'{name}: a leg above 1 km'
        return b''
    strict = run(COMMAND, 'legs', path).returncode == 0
    alike = (
        (lambda text: text.lower()) if strict else (lambda text: text)
    )  # Survex takes A1 for a1, the strict form does not
    assert again.returncode == 0 and alike(again.stdout) == alike(
        plain.stdout
    ), f'{name}: read again it is another listing'
    with open(path, 'rb') as file:
        same_text(file.read(), svx.stdout)
    same_heights(path, name)
    counts['svx'] += 1
    return b''


def compare(path, number, chance):
    sigma = chance.choice(('4,91', '0,0', '1000,1000', '50,0', '0,7', '3,20'))
    plain = listed(path, '--sigma', sigma, '--seeds', SEEDS)
    if plain.returncode != 0:
        svx = listed(path, '--sigma', sigma, '--seeds', SEEDS, '--svx')
        assert (plain.returncode, plain.stdout, svx.returncode, svx.stdout) == (
            1,
            b'',
            1,
            b'',
        ) and plain.stderr, plain.stderr
        counts['refused'] += 1
        return b''
    counts['taken'] += 1
    counts['legs'] += len(beside_calls(path, sigma, chance))
    return as_survex(path, sigma, number, chance)


def main():
    chance = random.Random(int(os.environ.get('JABULGHI_SEED', '1968')))
    named, said = sys.argv[5:], []
    all_cases = named or sorted(
        glob.glob(HERE + '/../surveys/cases/*.svx')
        + glob.glob(HERE + '/../level/cases/*.svx')
        + glob.glob(HERE + '/../../examples/*.svx')
    )
    generated_count = 0 if named else int(os.environ.get('JABULGHI_SURVEYS', '60'))
    for number in range(generated_count):
        path = os.path.join(FOLDER, 'source', f'made{number}.svx')
        os.makedirs(os.path.dirname(path), exist_ok=True)
        with open(path, 'wb') as file:
            file.write(generated(chance).encode('latin-1'))
        all_cases.append(path)
    for number, path in enumerate(all_cases):
        try:
            said.append(compare(path, number, chance))
        except AssertionError as why:
            sys.exit(f'FAILED: list: {path}: {why}')
    for line in said:
        sys.stderr.write(line.decode('utf8', 'replace'))
    print('list: ' + ', '.join(f'{n} {what}' for what, n in counts.items()))


main()
