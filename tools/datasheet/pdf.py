"""pdf.py SHEET.md FILE.pdf: the data sheet as pages of A4, by Chromium. Takes the Markdown that the sheet is written in: headings, paragraphs, lists, tables, pictures,
**bold**, `code` and links. The appendix starts a page; where pdftotext is installed (Debian's poppler-utils) it has to be page 3."""
import html, os, re, shutil, subprocess, sys, tempfile

STYLE = """
@page { size: A4; margin: 9mm 11mm }
body { font: 7.4pt/1.28 "Liberation Sans", Arial, sans-serif; margin: 0 }
h1 { font-size: 13pt; margin: 0 0 1.2mm } h1.appendix { break-before: page }
h2 { font-size: 9pt; margin: 2mm 0 0.8mm; break-after: avoid }
p, ul { margin: 0.8mm 0 } ul { padding-left: 4mm } img { width: 72%; display: block; margin: 0.6mm auto } img[src$="tail.png"] { width: 90% }
table { border-collapse: collapse; width: 100%; margin: 0.8mm 0; font-size: 6.6pt; line-height: 1.18; break-inside: avoid }
td, th { border-bottom: 0.2mm solid #ccc; padding: 0.25mm 1mm; text-align: left; vertical-align: top } th { border-bottom-color: #555; vertical-align: bottom }
sup { line-height: 0 } code { font: 0.92em "DejaVu Sans Mono", "Liberation Mono", monospace } a { color: inherit }
"""


def inline(text):
    """Code stays as it is; powers become raised numbers."""
    parts = re.split(r'`([^`]*)`', text)
    for j, part in enumerate(parts):
        part = html.escape(part, quote=False)
        if j % 2:
            parts[j] = f'<code>{part}</code>'
            continue
        part = re.sub(r'!\[([^]]*)\]\(([^)]*)\)', r'<img src="\2" alt="\1">', part)
        part = re.sub(r'\[([^]]*)\]\(([^)]*)\)', r'\1', part)
        part = re.sub(r'\*\*([^*]*)\*\*', r'<b>\1</b>', part)
        parts[j] = re.sub(r'\^(-?\d+)', r'<sup>\1</sup>', part).replace('<sup>-', '<sup>−')
    return ''.join(parts)


def table(lines):
    cells = [[cell.strip() for cell in line.strip().strip('|').split('|')] for line in lines]
    sides = ['right' if rule.endswith(':') else 'left' for rule in cells[1]]
    for j, row in enumerate(cells):
        if j != 1:
            kind = 'td' if j else 'th'
            yield '<tr>' + ''.join(
                f'<{kind} style="text-align:{side}">{inline(cell)}</{kind}>' for cell, side in zip(row, sides)
            ) + '</tr>'


def blocks(text):
    for block in re.split(r'\n\n+', re.sub(r'<!--.*?-->\n', '', text, flags=re.S).strip()):
        lines = block.split('\n')
        if lines[0].startswith('#'):
            level, _, title = lines[0].partition(' ')
            for_appendix = ' class="appendix"' if title == 'Appendix' else ''
            yield f'<h{len(level)}{for_appendix}>{inline(title)}</h{len(level)}>'
            lines = lines[1:]
        if lines and lines[0].startswith('|'):
            yield '<table>' + ''.join(table(lines)) + '</table>'
        elif lines and lines[0].startswith('- '):
            yield '<ul>' + ''.join(
                f'<li>{inline(item)}</li>' for item in re.split(r'\n- ', '\n' + '\n'.join(lines))[1:]
            ) + '</ul>'
        elif lines:
            yield f'<p>{inline(" ".join(lines))}</p>'


def pages_of(path):
    return subprocess.run(['pdftotext', '-layout', path, '-'], check=True, capture_output=True, text=True).stdout.split(
        '\f'
    )[:-1]


def main(sheet, path):
    with open(sheet, encoding='utf-8') as file:
        text = file.read()
    title = next(line[2:] for line in text.split('\n') if line.startswith('# '))
    folder = os.path.dirname(os.path.abspath(sheet))
    page = (
        f'<!doctype html><meta charset="utf-8"><base href="file://{folder}/"><title>{html.escape(title)}</title><style>{STYLE}</style>'
        + '\n'.join(blocks(text))
    )
    with tempfile.TemporaryDirectory() as room:
        with open(f'{room}/sheet.html', 'w', encoding='utf-8') as file:
            file.write(page)
        subprocess.run(
            [
                'chromium',
                '--headless',
                '--no-sandbox',
                '--disable-gpu',
                f'--user-data-dir={room}/profile',
                '--no-pdf-header-footer',
                f'--print-to-pdf={os.path.abspath(path)}',
                f'file://{room}/sheet.html',
            ],
            check=True,
            capture_output=True,
        )
    if shutil.which('pdftotext'):
        pages = pages_of(path)
        if [j for j, each in enumerate(pages, 1) if each.lstrip().startswith('Appendix')] != [3]:
            sys.exit(f'{path}: the appendix does not start on page 3 of {len(pages)}')
    print(f'{path}: {os.path.getsize(path):,} bytes')


main(*sys.argv[1:])
