#!/usr/bin/env python3
"""Spells the definitions and lemmas that this repository declares in snake case, as the kit's own: bitsOf becomes bits_of, size-le becomes size_le.

usage: tools/respell.py [--check]     at the top of the repository, once, right after the kit's port.py

Types, facts, modules, and all names of src/ keep their spelling; so does what the kit makes in a proof, as c.before.loop-test. Turned are the names in
specs/ and proofs/, in the clauses of src/, in must-fail/*.edit, and in the code spans of the pages.
--check writes nothing and lists names that would fall together.
"""

import os
import re
import sys

WORD = re.compile(r'[^\s(){}.;,@"«»`|]+')
QUIET = re.compile(r'"(?:[^"\\\n]|\\.)*"|(?<![^\s(){}.;,@"«»])--[^\n]*|\{-.*?-\}', re.S)
DECLARED = re.compile(r'(?m)^ *(?:(?:pub|abbrev|unfoldable) )*([^\s(){}.;,@"«»]+)(?: (?:\{[^{}\n]*\}|\([^()\n]*\)))* : ?(.*)$')
CLAUSE = re.compile(r"(?:requires|ensures)\s*\*?\s*(?:\w+\s*)?\{|ghost\s*(?:\w+\s*:\s*)?\{")
GHOST_USE = re.compile(r"ghost\s+use\b[^;]*;")
# laws that would fall together with the definition that they are about
OTHERWISE = {n: n.replace("-", "_") + "_lem" for n in ("longest-buffer", "longest-list", "largest-instant", "code-number", "kind-number", "to-byte-end", "last-and-others")}


def files(*endings):
    for top in ("crates", "docs"):
        for folder, dirs, names in os.walk(top):
            dirs[:] = sorted(d for d in dirs if d != "out")
            yield from (os.path.join(folder, n) for n in sorted(names) if n.endswith(endings))
    yield from (n for n in ("README.md",) if n.endswith(endings))


def read(path):
    with open(path, encoding="utf-8") as f:
        return f.read()


def snake(name):
    asks = name.endswith("?")
    words = re.sub(r"(?<=[a-z0-9])([A-Z])", lambda m: "_" + m[1].lower(), name.rstrip("?")).replace("-", "_").replace("′", "'")
    return "is_" + words.removesuffix("_is") if asks else words


def declared():
    names = set()
    for path in files(".antt"):
        for name, kind in DECLARED.findall(QUIET.sub(" ", read(path))):
            if "/specs/" in path:
                names.add(name)
    return {n for n in names if n[0].islower() and snake(n) != n}


def turned(text, table, in_proof):
    def one(m):
        new = table.get(m[0])
        if new is None:
            return m[0]
        before = text[: m.start()]
        if in_proof and before.endswith(".") and not re.search(r"(?:Rattle|\blaws|\bspecs)[^\s(){};,]*\.$", before):
            if re.search(r"(?:\bc|\bs|\bw|\ba|\bb|\bd|\be|\bf|\bl|\br|\bx)(?:\.[^\s(){};,]*)?\.$", before) and m[0] not in FIELDS:
                return m[0]
        return new

    return WORD.sub(one, text)


def outside(pattern, text, inside, rest):
    out, at = [], 0
    for m in pattern.finditer(text):
        out += [rest(text[at : m.start()]), inside(m[0])]
        at = m.end()
    return "".join([*out, rest(text[at:])])


def closing(text, at):
    depth = 1
    while depth and at < len(text):
        depth += (text[at] == "{") - (text[at] == "}")
        at += 1
    return at


def spans(text, table):
    return re.sub(r"`[^`\n]+`", lambda m: turned(m[0], table, False), text)


def antt(text, table, in_proof):
    def quiet(t):
        return t if t[0] == '"' else WORD.sub(lambda m: table[m[0]] if m[0] in table and re.search(r"[-A-Z]", m[0]) and m[0] in CODE else m[0], t) if t.startswith("--") else t

    global CODE
    CODE = set(WORD.findall(QUIET.sub(" ", text)))
    return outside(QUIET, text, quiet, lambda t: turned(t, table, in_proof))


def rt(text, table):
    out, at = [], 0
    while True:
        m = min((m for m in (CLAUSE.search(text, at), GHOST_USE.search(text, at)) if m), key=lambda m: m.start(), default=None)
        if not m:
            return "".join([*out, spans(text[at:], table)])
        end = m.end() if m[0].endswith(";") else closing(text, m.end())
        out += [spans(text[at : m.start()], table), turned(text[m.start() : end], table, False)]
        at = end


FIELDS = set()


def fields():
    for path in files(".antt"):
        for block in re.findall(r"(?m)^ *(?:pub )?record [^\n]* where\n((?: +[^\n]*\n|\n)+)", QUIET.sub(" ", read(path))):
            FIELDS.update(re.findall(r'(?m)^ +(?:pub )?([^\s(){}.;,@"«»]+) :', block))


def main():
    check = "--check" in sys.argv
    table = {n: OTHERWISE.get(n, snake(n)) for n in declared()}
    fields()
    ends = {}
    for old, new in table.items():
        ends.setdefault(new, []).append(old)
    clash = [f"{new}: {olds}" for new, olds in ends.items() if len(olds) > 1]
    for path in files(".antt", ".rt"):
        text = read(path)
        words = set(WORD.findall(QUIET.sub(" ", text))) if path.endswith(".antt") else {w for t in CLAUSE.finditer(text) for w in WORD.findall(text[t.end() : closing(text, t.end())])}
        clash += [f"{path}: {w} would become {table[w]}, which stands there" for w in sorted(words & set(table)) if table[w] in words]
    if check:
        print("\n".join(clash))
        print(len(table), "names")
        return
    # port.py turns some names itself, and neither edits nor pages
    known = set(table.values())
    for path in files(".antt"):
        known.update(n for n, _ in DECLARED.findall(QUIET.sub(" ", read(path))) if "/specs/" in path)

    class Later(dict):
        def get(self, word, default=None):
            new = table.get(word, snake(word))
            return new if new in known and word[:1].islower() and new != word else default

    later = Later()
    for path in files(".antt", ".rt", ".edit", ".md"):
        old = read(path)
        if path.endswith(".antt"):
            new = antt(old, table, "/proofs/" in path)
        elif path.endswith(".rt"):
            new = rt(old, table)
        elif path.endswith(".md"):
            new = spans(old, later) if "CONTRACTS" not in path else turned(old, later, False)
        else:
            new = "\n".join(turned(line, later, False) if line.startswith(("old:", "new:")) else line for line in old.split("\n"))
        if new != old:
            with open(path, "w", encoding="utf-8") as f:
                f.write(new)


main()
