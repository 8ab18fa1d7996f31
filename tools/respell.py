#!/usr/bin/env python3
"""Spells the repository's own definitions, lemmas and fields of records in snake case, as `cellEnds` to `cell_ends` and `row-end` to `row_end`.

usage: respell.py [FOLDER]      once, in a checkout that the kit's port/port.py has turned; FOLDER is the top of the checkout

The names are those that specs/ and proofs/ declare. A name that a file imports from a library of the kit stays in that file, and so do functions of
src/, types, strings and exported names. Where a lemma or a field would fall together with a definition that stands in one file with it, the lemma
gets `_lem` and the field `_fits`.
In comments and pages a name with a capital inside turns everywhere, one with a dash only in a code span. Edits in must-fail/ turn as their file does.
"""

import collections
import glob
import os
import re
import sys

NAME = r'[^\s(){}.;,@"«»]+'
WORD = re.compile(r'[^\s(){}.;,@"«»\[\]]+')
PLAIN = re.compile(r"[A-Za-z][A-Za-z0-9_'₀₁₂₃₄-]*")
DECLARED = re.compile(r"(?m)^ *(?:(?:pub|abbrev|unfoldable|private) )*(" + NAME + r")(?: [({][^\n]*?)? :(?= |$)")
NAMED = re.compile(r"(?m)^ *(?:pub )?(?:data|record|module|ruleset) (?:pub )?(" + NAME + ")")
USE = re.compile(r"(?m)^\s*(?:ghost |pub )*use ([^\s;{]+)\.\{([^}]*)\}")
OWN = re.compile(r"Rattle\.(?!(?:std|core)\b)")


def snake(name):
    if name[:1].isupper():
        return name
    return re.sub(r"(?<=[a-z0-9])[A-Z]", lambda m: "_" + m[0].lower(), name).replace("-", "_")


def read(path):
    with open(path, encoding="utf-8") as f:
        return f.read()


def files(*patterns):
    return sorted(p for each in patterns for p in glob.glob(each, recursive=True) if "/out/" not in p)


def from_kit(text):
    """The names that a file imports from the kit."""
    names = set()
    for path, items in USE.findall(text):
        if not OWN.match(path):
            names |= {item.strip().split(" as ")[0] for item in items.split(",")}
    return names


def code(path, text):
    """The text without comments."""
    return re.sub(r"--[^\n]*" if path.endswith(".antt") else r"//[^\n]*", "", text)


def table():
    """The new spelling of each name, and that of a name behind a dot."""
    declared, fields = set(), set()
    for path in files("crates/*/specs/**/*.antt", "crates/*/proofs/**/*.antt"):
        if path.endswith("/Proof.antt"):
            continue
        text = read(path)
        declared |= set(DECLARED.findall(text)) | set(NAMED.findall(text))
        for block in re.findall(r"(?m)^(?:pub )?record [^\n]*\n((?:(?:  [^\n]*)?\n)+)", text):
            fields |= set(re.findall(r"(?m)^  (?:pub )?(" + NAME + ") :", block))
    declared = {n for n in declared if PLAIN.fullmatch(n)}
    turned = {n: snake(n) for n in declared if snake(n) != n}
    where = collections.defaultdict(set)
    for path in files("crates/**/*.antt", "crates/*/src/**/*.rt"):
        for word in set(WORD.findall(code(path, read(path)))):
            where[word].add(path)
    groups = collections.defaultdict(set)
    for n in declared:
        groups[snake(n)].add(n)
    plain = dict(turned)
    for new, group in groups.items():
        first = [n for n in group if re.search("[a-z0-9][A-Z]", n)]
        for n in group:
            if first and n not in first and any(where[n] & where[f] for f in first):
                turned[n] = new + ("_fits" if n in fields else "_lem")
                if n in fields:
                    plain[n] = turned[n]
    return turned, plain


def turn(text, turned, plain, stay):
    def one(m):
        word = m[0]
        if word in stay or word not in plain:
            return word
        return plain[word] if text[m.start() - 1 : m.start()] == "." else turned.get(word, plain[word])

    return WORD.sub(one, text)


def spans(text, turned, plain, stay):
    """A comment or a page: names with a capital inside everywhere, others in code spans."""
    text = re.sub(r"`[^`\n]+`", lambda m: turn(m[0].replace("`", ""), turned, plain, stay).join("``"), text)
    camel = {n: s for n, s in plain.items() if "-" not in n and n in turned and turned[n] == s}
    return re.sub(r"[A-Za-z][A-Za-z0-9_']*", lambda m: camel.get(m[0], m[0]) if m[0] not in stay else m[0], text)


def main():
    if len(sys.argv) > 1:
        os.chdir(sys.argv[1])
    turned, plain = table()
    for path in files("crates/**/*.antt", "crates/*/src/**/*.rt"):
        text = read(path)
        stay = from_kit(text)
        if path.endswith(".rt"):
            stay |= {n for n in plain if re.fullmatch("[a-z0-9_]+", n)}
        mark = r"(--[^\n]*)" if path.endswith(".antt") else r'(//[^\n]*|b?"(?:\\.|[^"\\])*")'
        parts = re.split(mark, text)
        for i, part in enumerate(parts):
            if i % 2 == 0:
                parts[i] = turn(part, turned, plain, stay)
            elif not part.startswith(('"', 'b"')):
                parts[i] = spans(part, turned, plain, stay)
        write(path, text, "".join(parts))
    for path in files("crates/*/must-fail/*.edit"):
        text = read(path)
        lines = [turn(l, turned, plain, set()) if re.match("(old|new):", l) else l for l in text.split("\n")]
        write(path, text, "\n".join(lines))
    for path in files("*.md", "docs/*.md", "crates/*/*.md"):
        text = read(path)
        write(path, text, spans(text, turned, plain, set()))


def write(path, old, new):
    if old != new:
        with open(path, "w", encoding="utf-8") as f:
            f.write(new)


if __name__ == "__main__":
    main()
