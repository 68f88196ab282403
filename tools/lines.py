"""Holds every file of the repository to .editorconfig: UTF-8, line ends, the last line end, no blank at the end of a
line, no tab where blanks indent, and the length of lines."""
import fnmatch
import re
import subprocess
import sys

Rules = dict[str, str]


def expanded(pattern: str) -> list[str]:
    """A pattern without braces for each way to take one."""
    found = re.search(r'\{([^{}]*)\}', pattern)
    if found is None:
        return [pattern]
    return [
        one
        for word in found[1].split(',')
        for one in expanded(pattern[: found.start()] + word + pattern[found.end() :])
    ]


def sections() -> list[tuple[list[str], Rules]]:
    made: list[tuple[list[str], Rules]] = []
    with open('.editorconfig', encoding='utf-8') as file:
        for line in file:
            line = line.strip()
            if line.startswith('['):
                made.append((expanded(line[1:-1]), {}))
            elif '=' in line and not line.startswith('#') and made:
                key, value = line.split('=')
                made[-1][1][key.strip()] = value.strip()
    return made


def fits(path: str, pattern: str) -> bool:
    return fnmatch.fnmatchcase(path if '/' in pattern else path.split('/')[-1], pattern.replace('**', '*'))


def faults(path: str, rules: Rules):
    with open(path, 'rb') as file:
        content = file.read()
    if b'\0' in content:
        return
    try:
        text = content.decode()
    except UnicodeDecodeError:
        if rules.get('charset') == 'utf-8':
            yield 1, 'not UTF-8'
        return
    if rules.get('insert_final_newline') == 'true' and text and not text.endswith('\n'):
        yield text.count('\n') + 1, 'no line end at its end'
    most = rules.get('max_line_length', 'off')
    for number, line in enumerate(text.split('\n'), 1):
        if rules.get('end_of_line') == 'lf' and '\r' in line:
            yield number, 'a carriage return'
        if rules.get('trim_trailing_whitespace') == 'true' and line != line.rstrip():
            yield number, 'a blank at its end'
        if rules.get('indent_style') == 'space' and re.match(r' *\t', line):
            yield number, 'a tab'
        if most != 'off' and len(line) > int(most):
            yield number, f'{len(line)} columns, and {most} are the most'


def main() -> None:
    found = subprocess.run(
        ['git', 'ls-files', '-z', '-co', '--exclude-standard'], capture_output=True, text=True, check=True
    ).stdout.split('\0')
    all_sections = sections()
    wrong: list[str] = []
    count = 0
    for path in sorted(set(filter(None, found))):
        rules: Rules = {}
        for patterns, given in all_sections:
            if any(fits(path, pattern) for pattern in patterns):
                rules.update(given)
        try:
            wrong += [f'{path}:{number}: {what}' for number, what in faults(path, rules)]
        except FileNotFoundError:
            continue
        count += 1
    if wrong:
        sys.exit('\n'.join(wrong))
    print(f'lines: {count} files are as .editorconfig says')


main()
