"""Spells the names of this repository's definitions and lemmas as today's Rattle does: words in snake case (`wholeRoot` and `top-bit-below` become
`whole_root` and `top_bit_below`), types and modules in camel case. A lemma that would get the name of a definition gets `_lem`. The proof of the function f
is `f_spec`. Run once, at the top, right after /opt/rattle/port/port.py; docs/PORT.md says more.

usage: tools/respell.py [--list]      (--list prints the names, old and new, and writes nothing)
"""

import collections
import os
import re
import sys

OWN = set(os.listdir("crates"))
WORD = r"[\w'\-]+"
TOKEN = re.compile(r"(?<![\w'\-◌])[A-Za-z_][\w'\-]*(?![\w'\-◌])")
PAGES = ["README.md", "CONTRIBUTING.md", "tests/README.md"]


def sources(*endings):
    for folder, dirs, files in os.walk("crates"):
        dirs[:] = sorted(d for d in dirs if d != "out")
        for f in sorted(files):
            if f.endswith(endings):
                yield os.path.join(folder, f)


def pages():
    yield from (p for p in PAGES if os.path.exists(p))
    for folder, dirs, files in os.walk("docs"):
        dirs[:] = [d for d in dirs if d != "landings"]
        yield from (os.path.join(folder, f) for f in sorted(files) if f.endswith(".md") and f != "PORT.md")


def declared():
    """The names that the repository's .antt files declare, those of them that are fields of records, and those that any file takes from elsewhere."""
    ours, fields, elsewhere = set(), set(), set()
    for p in sources(".antt", ".rt"):
        with open(p, encoding="utf-8") as f:
            text = f.read()
        for path, names in re.findall(r"use ([\w.\-]+)\.\{([^}]*)\}", text):
            first = path.split(".")
            if first[0] != "Rattle" or first[1] not in OWN:
                elsewhere |= {n.strip() for one in names.split(",") for n in one.split(" as ")}
        if p.endswith(".antt"):
            record = None
            for line in text.split("\n"):
                indent = len(line) - len(line.lstrip())
                if record is not None and line.strip() and indent <= record:
                    record = None
                if re.match(r"\s*(?:pub )?record [A-Z]", line):
                    record = indent
                m = re.match(
                    r"\s*(?:(?:abbrev|unfoldable|pub|private) )*(" + WORD + r"(?: " + WORD + r")*) :(?: |$)", line
                )
                if m and not line.strip().startswith("let "):
                    names = {n for n in m.group(1).split() if n not in ("abbrev", "pub", "unfoldable")}
                    ours |= names
                    if record is not None:
                        fields |= names
    return ours, fields, elsewhere


def snake(name):
    def low(part):
        return (
            re.sub(r"([a-z0-9])([A-Z])", lambda m: m.group(1) + "_" + m.group(2).lower(), part)
            if part[:1].islower()
            else part
        )

    parts = name.split("-")
    out = low(parts[0])
    for before, part in zip(parts, parts[1:]):
        plain = before[:1].islower() and (part[:1].islower() or part[:1].isdigit())
        out += ("_" if plain else "-") + low(part)
    return out


def renamings():
    ours, fields, elsewhere = declared()
    by_new = collections.defaultdict(set)
    for n in ours:
        by_new[snake(n)].add(n)
    new = {}
    for n in ours:
        to = snake(n)
        if n in elsewhere:
            continue
        definition = any(re.search("[A-Z]", x) for x in by_new[to])
        if (
            not re.search("[A-Z]", n)
            and len(by_new[to]) > 1
            and (definition or "-" in n)
            or "-" in n
            and to in elsewhere
        ):
            to += "_lem"
        if to != n:
            new[n] = to
    taken = collections.Counter(list(new.values()) + [n for n in ours if n not in new])
    twice = sorted(n for n, k in taken.items() if k > 1)
    if twice:
        sys.exit(f"respell: names that fall together: {twice}")
    return new, fields


def spelled(text, new, fields, comment):
    """The text of a file. After a dot stands a field, or a name of a module that the file gives another name; what Rattle makes has names of its own."""
    modules = {m for m in re.findall(r"use Rattle[\w.]*\.(?!Tie|Lts|Goals|Given)\w+ as ([\w\-]+)", text)}
    lines = []

    def one(m):
        n = m.group(0)
        before = line[: m.start()]
        if before.endswith(".") and n not in fields:
            of = re.search(r"([\w\-]+)\.$", before)
            if not (of and of.group(1) in modules):
                return n
        return new.get(n, n)

    for line in text.split("\n"):
        at = line.find(comment)
        head, tail = (line, "") if at < 0 else (line[:at], line[at:])
        head = TOKEN.sub(one, head)
        lines.append(head + prose(tail, new))
    return "\n".join(lines)


def prose(text, new):
    """A comment or a page: names in camel case, and within backticks all names."""
    text = re.sub(r"`[^`\n]+`", lambda t: TOKEN.sub(lambda m: new.get(m.group(0), m.group(0)), t.group(0)), text)
    return TOKEN.sub(lambda m: new[m.group(0)] if m.group(0) in new and "-" not in m.group(0) else m.group(0), text)


def main():
    new, fields = renamings()
    if "--list" in sys.argv:
        for n in sorted(new):
            print(n, new[n])
        return
    for p in list(sources(".antt", ".rt", ".edit")) + list(pages()):
        with open(p, encoding="utf-8") as f:
            text = f.read()
        if p.endswith(".md"):
            out = prose(text, new)
        elif p.endswith(".edit"):
            out = spelled(text, new, fields, "\0")
        else:
            out = spelled(text, new, fields, "//" if p.endswith(".rt") else "--")
        folder, base = os.path.split(p)
        if base == "Proof.antt":
            of = os.path.basename(folder)
            for spec in (of.replace("_", "-") + "-spec", of.replace("_", "-") + "_spec"):
                out = re.sub(r"(?<![\w'\-])" + re.escape(spec) + r"(?![\w'\-])", of + "_spec", out)
        if out != text:
            with open(p, "w", encoding="utf-8") as f:
                f.write(out)


main()
