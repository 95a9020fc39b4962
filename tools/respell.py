#!/usr/bin/env python3
"""Turns this repository's own names to snake case, once, after the kit's port.py.

usage: python3 tools/respell.py [FOLDER]      the top of the repository (default: this folder)

Definitions, fields and lemmas of specs/ and proofs/ go by the table respell.tsv beside this script (old, a tab, new; a row with
`edits` behind it is for edits and pages alone: port.py has turned that name in the files). A lemma that would fall together
with its definition ends in _lem. The crate `core` becomes `plans`, since the library has a crate of
that name; paths that port.py took for the library's are put right on the way. Must-fail edits and the pages of docs/ turn too.
Functions of src/, exported names, strings, inputs and outputs keep their names. Run it once: a second run would turn names again.
"""
import os
import re
import sys

HERE = os.path.dirname(os.path.realpath(__file__))
WORD = re.compile(r"[^\s(){}.;,@\"«»\[\]]+")
SPAN = re.compile(r"`[^`\n]*`")
STRING = re.compile(r'"(?:[^"\\\n]|\\.)*"')


def table(edits):
    with open(os.path.join(HERE, "respell.tsv"), encoding="utf-8") as f:
        rows = [line.rstrip("\n").split("\t") for line in f if line.strip()]
    return {r[0]: r[1] for r in rows if edits or len(r) == 2}


def words(text, rows):
    return WORD.sub(lambda m: rows.get(m[0], m[0]), text)


def prose(text, rows):
    """In prose a code span turns, and of the rest only what no sentence has: a word with a capital inside it."""
    capitals = {a: b for a, b in rows.items() if re.search(r"[a-z0-9][A-Z]", a)}
    text = SPAN.sub(lambda m: words_in_span(m[0], rows), text)
    return re.sub(r"(?<![\w`-])[a-z][\w]*[A-Z]\w*(?![\w-])", lambda m: capitals.get(m[0], m[0]), text)


def words_in_span(text, rows):
    return re.sub(r"[\w'-]+", lambda m: rows.get(m[0], m[0]), text)


def code(text, rows, mark):
    """Code turns, a string does not, and a comment is prose."""
    out = []
    for line in text.split("\n"):
        at = comment(line, mark)
        body, tail = line[:at], line[at:]
        last = 0
        turned = ""
        for m in STRING.finditer(body):
            turned += words(body[last : m.start()], rows) + m[0]
            last = m.end()
        turned += words(body[last:], rows)
        out.append(turned + prose(tail, rows))
    return "\n".join(out)


def comment(line, mark):
    for m in re.finditer(re.escape(mark), line):
        before = line[: m.start()]
        if before.count('"') % 2 == 0 and (mark == "//" or not before or before[-1] in " \t"):
            return m.start()
    return len(line)


def modules(top):
    """The modules that crates/core has in specs/ and proofs/, and the files of src/ that declare types."""
    own = {"specs": set(), "proofs": set(), "declared": set()}
    for crate in ("core", "plans"):
        base = os.path.join(top, "crates", crate)
        for kind in ("specs", "proofs"):
            if os.path.isdir(os.path.join(base, kind)):
                own[kind] |= {f.removesuffix(".antt") for f in os.listdir(os.path.join(base, kind))}
        if os.path.isdir(os.path.join(base, "src")):
            own["declared"] |= {f.removesuffix(".rt") for f in os.listdir(os.path.join(base, "src"))}
    own["specs"].discard("Lib")
    return own


def paths(text, own):
    def one(m):
        kind, name, rest = m[2], m[3], m[4] or ""
        if kind == "specs" and name == "declared":
            mine = rest.lstrip(".").split(".")[0] in own["declared"]
        else:
            mine = name in own[kind]
        return f"Rattle.{'plans' if mine else 'std'}.{kind}.{name}{rest}"

    text = re.sub(r"Rattle\.(core|std)\.(specs|proofs)\.(\w+)((?:\.\w+)*)", one, text)
    text = re.sub(r"Rattle·core·proofs\.", "Rattle.plans.proofs.", text)
    return re.sub(r"\buse core::", "use plans::", text)


def edit(text, rows, own):
    """An edit has the older spelling still: paths, projections and guillemets turn as port.py turns them in a file."""
    out = []
    for line in text.split("\n"):
        if line.startswith(("old: ", "new: ")):
            line = line[:5] + paths(code(spelled(line[5:]), rows, "//"), own)
        out.append(line)
    return "\n".join(out)


def spelled(t):
    t = re.sub(r"Rattle·(\w+)·(specs|proofs)\.\2\.", r"Rattle.\1.\2.", t)
    t = re.sub(r"Rattle·(\w+)\.", r"Rattle.\1.", t)
    t = re.sub(r"«(\w+)»", r"\1", t)
    t = re.sub(r"(?<=[\w)]) \.(?=\w)", ".", t)
    t = re.sub(r"(?<=[\w)]) \((\w+(?:\.\w+)+)\)", r" \1", t)
    t = t.replace("getD", "get_or").replace("the-variants", "TheVariants")
    return t


def main():
    top = sys.argv[1] if len(sys.argv) > 1 else os.getcwd()
    rows, turned, own = table(False), table(True), modules(top)
    old = os.path.join(top, "crates", "core")
    if os.path.isdir(old):
        os.rename(old, os.path.join(top, "crates", "plans"))
    with open(os.path.join(top, "crates.txt"), encoding="utf-8") as f:
        listed = f.read()
    with open(os.path.join(top, "crates.txt"), "w", encoding="utf-8") as f:
        f.write(re.sub(r"\bcore\b", "plans", listed))
    count = 0
    for folder, dirs, files in os.walk(os.path.join(top, "crates")):
        dirs[:] = sorted(d for d in dirs if d != "out")
        for name in sorted(files):
            path = os.path.join(folder, name)
            if not name.endswith((".antt", ".rt", ".edit")):
                continue
            with open(path, encoding="utf-8") as f:
                text = f.read()
            if name.endswith(".edit"):
                new = edit(text, turned, own)
            else:
                new = code(paths(text, own), rows, "--" if name.endswith(".antt") else "//")
            if new != text:
                count += 1
                with open(path, "w", encoding="utf-8") as f:
                    f.write(new)
    pages = [os.path.join(top, "README.md")]
    pages += [os.path.join(top, "docs", f) for f in sorted(os.listdir(os.path.join(top, "docs"))) if f.endswith(".md") and f != "PORT.md"]
    for path in pages:
        with open(path, encoding="utf-8") as f:
            text = f.read()
        new = prose(text, turned)
        if new != text:
            count += 1
            with open(path, "w", encoding="utf-8") as f:
                f.write(new)
    print(f"respell: {count} files changed")


main()
