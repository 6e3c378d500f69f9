#!/usr/bin/env python3
"""Brings the names of this repository's own definitions and lemmas to the library's spelling.

usage: python3 tools/respell.py [--report]     at the top of the repository, once, after the library's own script

Types, facts and modules are in upper camel case, every other word in snake case: `Point-law` becomes `PointLaw` and `best-profit`
becomes `best_profit`. A name is respelled if a file of specs/ or proofs/ declares it (as a definition, lemma, record, field or
constructor), or binds it in a signature, a `let` or a `λ`. Names that the check makes (`loop-row-preserved`, `in_ok-point`) keep
their dash, and so do lemmas that are named after the functions on their left side. With --report nothing is written: the names and whatever would fall together are listed.
"""

import os
import re
import sys

NAME = r"[A-Za-z][A-Za-z0-9_']*(?:-[A-Za-z0-9_'#]+)+"
# A lemma named after the functions on its left side keeps the dash between them.
JOINED = {
    "bytes-of-words-of": "bytes_of-words_of",
    "words-of-bytes-of": "words_of-bytes_of",
    "byte-drop": "byte-drop",
    "word-at-drop": "word_at-drop",
    "length-appended": "length-appended",
    "length-body": "length-body",
    "length-bytes-of": "length-bytes_of",
    "length-encoded": "length-encoded",
    "map-map": "map-map",
    "standing-append": "standing-append",
    "standing-cons": "standing-cons",
    "take-appended": "take-appended",
    "total-append": "total-append",
    "total-cons": "total-cons",
    "getD-none": "get_or_none",
    "natAbs-neg": "nat_abs_neg",
    "natAbs-product": "nat_abs_product",
}


def respelled(name):
    if name in JOINED:
        return JOINED[name]
    if name[0].isupper():
        return "".join(part[:1].upper() + part[1:] for part in name.split("-"))
    return name.replace("-", "_")


def files(ending, *folders):
    for folder in folders:
        for where, dirs, names in os.walk(folder):
            dirs[:] = sorted(d for d in dirs if d not in ("out", "target", ".git"))
            for name in sorted(names):
                if name.endswith(ending):
                    yield os.path.join(where, name)


def read(path):
    with open(path, encoding="utf-8") as f:
        return f.read()


def pieces(text, comment):
    """The text cut into code (even places) and comments or strings (odd places)."""
    return re.split(r'(%s[^\n]*|"(?:\\.|[^"\\\n])*")' % comment, text)


def code(text, comment):
    return "\n".join(pieces(text, comment)[::2])


def declared(text):
    """The names with a dash that a file of antt declares or binds."""
    plain = code(text, "--")
    found = set()
    goals = set(re.findall(r"(?m)^(?:abbrev )?(?:pub )?(%s)\s*:\s*goal\." % NAME, plain))
    for line in plain.split("\n"):
        head = re.match(r"\s*(?:(?:pub|abbrev|unfoldable|record|data|ruleset)\s+)*(?:\|\s*)?(%s)\s*(?:[({].*)?:(?:\s|$)" % NAME, line)
        if head:
            found.add(head.group(1))
        head = re.match(r"\s*(?:pub )?(?:record|data|ruleset) (?:pub )?(%s)" % NAME, line)
        if head:
            found.add(head.group(1))
    # bound in a signature, a `let` or a `λ`
    for group in re.findall(r"[({]([^(){}:]*?)\s:\s", plain):
        found.update(n for n in group.split() if re.fullmatch(NAME, n))
    found.update(re.findall(r"\blet (%s)\b" % NAME, plain))
    for group in re.findall(r"λ ([^.]*)\.", plain):
        found.update(re.findall(NAME, group))
    for group in re.findall(r"\bas (%s)" % NAME, plain):
        found.add(group)
    return found - goals


def all_declared():
    names = {}
    for path in files(".antt", "crates"):
        for n in declared(read(path)):
            names.setdefault(n, set()).add(path)
    for path in files(".rt", "crates"):
        for n in re.findall(r"\bas (%s)" % NAME, "\n".join(l for l in read(path).split("\n") if l.startswith("ghost use"))):
            names.setdefault(n, set()).add(path)
    return names


def fields():
    """The names with a dash that a record of ours has as fields."""
    found = set()
    for path in files(".antt", "crates"):
        found.update(re.findall(r"(?m)^\s+pub (%s)\s*:" % NAME, code(read(path), "--")))
    return found


def turn(text, table, own_fields, comment):
    """Behind a dot only a field of ours or a module's item is turned: the check's own steps and fields stand there too."""

    def name(m):
        before = m.string[: m.start()]
        if before.endswith(".") and m.group(0) not in own_fields and not re.search(r"\b[A-Z]\w*\.$", before):
            return m.group(0)
        return table.get(m.group(0), m.group(0))

    parts = pieces(text, comment)
    for i in range(0, len(parts), 2):
        parts[i] = re.sub(r"(?<![\w'\-◌])%s(?![\w'\-◌])" % NAME, name, parts[i])
    return "".join(parts)


def held(text, table):
    """Where a record of specs/ would fall together with the type of src/ that it describes, that file calls the latter Held.."""
    for old, new in table.items():
        if old[0].isupper() and re.search(r"(?<![\w'\-])%s(?![\w'\-])" % old, text) and re.search(r"\.\{%s\}" % new, text):
            text = re.sub(r"(?<![\w'\-.])%s(?![\w'\-.])" % new, "Held" + new, text)
            text = text.replace(".{Held%s}" % new, ".{%s as Held%s}" % (new, new))
    return text


def main(argv):
    names = all_declared()
    table = {n: respelled(n) for n in names}
    if argv == ["--report"]:
        seen = {}
        for old, new in sorted(table.items()):
            seen.setdefault(new, []).append(old)
        for new, olds in seen.items():
            if len(olds) > 1:
                print("fall together:", new, olds)
        words = {}
        for path in files(".antt", "crates"):
            for w in set(re.findall(r"[A-Za-z][A-Za-z0-9_']*", code(read(path), "--"))):
                words.setdefault(w, set()).add(path)
        rust = {}
        for path in files(".rt", "crates"):
            for w in set(re.findall(r"[A-Za-z][A-Za-z0-9_']*", code(read(path), "//"))):
                rust.setdefault(w, set()).add(path)
        for old, new in sorted(table.items()):
            uses = {p for p in files(".antt", "crates") if old in re.findall(NAME, code(read(p), "--"))}
            both = uses & words.get(new, set())
            if both:
                print("antt has both:", old, new, sorted(both)[:4])
            uses = {p for p in files(".rt", "crates") if old in re.findall(NAME, code(read(p), "//"))}
            both = uses & rust.get(new, set())
            if both:
                print("rt has both:", old, new, sorted(both)[:4])
        print(len(table), "names")
        return 0
    own_fields = fields()
    for path in list(files(".antt", "crates")) + list(files(".rt", "crates")) + list(files(".edit", "crates")):
        old = read(path)
        new = turn(held(old, table), table, own_fields, "//" if path.endswith(".rt") else "\0" if path.endswith(".edit") else "--")
        if new != old:
            with open(path, "w", encoding="utf-8") as f:
                f.write(new)
    # In the pages, what stands between two backticks.
    for path in list(files(".md", "docs")) + [p for p in ("README.md",) if os.path.exists(p)]:
        old = read(path)
        new = re.sub(r"`[^`\n]+`", lambda m: table.get(m.group(0)[1:-1], None) and "`" + table[m.group(0)[1:-1]] + "`" or m.group(0), old)
        if new != old:
            with open(path, "w", encoding="utf-8") as f:
                f.write(new)
    print(len(table), "names respelled")
    return 0


if __name__ == "__main__":
    raise SystemExit(main(sys.argv[1:]))
