#!/usr/bin/env python3
"""Writes the names of definitions and lemmas in snake case, by names.tsv beside this script: old, a tab, new.

usage: python3 tools/spelling/respell.py          at the top of the repository, once, after the port of the language's own names

A name in camel case turns wherever it stands, but in a string. One with a dash is a word of English elsewhere, so it
turns in the code of .antt files alone (and in an edit's lines for such a file), not behind a dot, where the prover's own
names stand, but behind a module's. A name that is in snake case and gets `_lem`, because a definition takes its place,
turns by the same rule, and only where its file declares or imports it. It says how many names it turned, and changes
nothing a second time.
"""

import os
import re
import sys

HERE = os.path.dirname(os.path.abspath(__file__))
TOP = os.path.dirname(os.path.dirname(HERE))
WORD = r"[^\s(){}.;,@\"«»\[\]\\:`|]+"
STRING = r'"(?:[^"\\\n]|\\.)*"'
CAMEL = re.compile(r"(?<![\w'-])[a-z][A-Za-z0-9_']*(?![\w'-])")


def table():
    with open(os.path.join(HERE, "names.tsv"), encoding="utf8") as rows:
        return dict(row.rstrip("\n").split("\t") for row in rows)


NAMES = table()
CAMELS = {old: new for old, new in NAMES.items() if "-" not in old and re.search("[A-Z]", old)}
DASHED = {old: new for old, new in NAMES.items() if "-" in old}
SNAKES = {old: new for old, new in NAMES.items() if old not in CAMELS and old not in DASHED}
count = 0


def turned(new):
    global count
    count += 1
    return new


def is_behind_value(text, start):
    """Whether a word stands behind a dot that follows something other than a module's name."""
    if start == 0 or text[start - 1] != ".":
        return False
    head = re.search(r"[\w'-]+$", text[: start - 1])
    return not (head and head[0][0].isupper())


def own(text):
    """The names in snake case that a file declares or imports from a file of lemmas."""
    found = set()
    for old in SNAKES:
        word = re.escape(old)
        if re.search(rf"(?m)^\s*(?:pub )?{word}(?: \([^)]*\))* :", text) or re.search(rf"(?m)^use Rattle\.\w+\.proofs\.[A-Z]\w*\.\{{[^}}]*(?<![\w-]){word}(?![\w-])", text):
            found.add(old)
    return found


def code(text, names):
    """A file's code, without comments: dashed names, and those of `names`."""

    def word(m):
        old = m[0]
        new = DASHED.get(old) or (SNAKES.get(old) if old in names else None)
        return old if new is None or is_behind_value(m.string, m.start()) else turned(new)

    return re.sub(WORD, word, text)


def antt(text):
    names = own(text)
    parts = re.split(rf"({STRING}|--[^\n]*)", text)
    for i, part in enumerate(parts):
        if i % 2 == 0:
            parts[i] = code(part, names)
        elif part.startswith("--"):
            parts[i] = re.sub(r"`([^`]*)`", lambda m: "`" + code(m[1], names) + "`", part)
    return camels("".join(parts))


def camels(text):
    parts = re.split(rf"({STRING})", text)
    for i in range(0, len(parts), 2):
        parts[i] = CAMEL.sub(lambda m: turned(CAMELS[m[0]]) if m[0] in CAMELS else m[0], parts[i])
    return "".join(parts)


def edit(text):
    of_antt = re.search(r"(?m)^file: .*\.antt$", text)
    lines = text.split("\n")
    if of_antt:
        lines = [line[:5] + code(line[5:], set()) if re.match("(old|new): ", line) else line for line in lines]
    return camels("\n".join(lines))


def page(text):
    def span(m):
        inner = m[1]
        return "`" + (DASHED[inner] if inner in DASHED and inner != "non-null" else inner) + "`"

    return CAMEL.sub(lambda m: turned(CAMELS[m[0]]) if m[0] in CAMELS else m[0], re.sub(r"`([^`\n]+)`", span, text))


def turn(path, how):
    with open(path, encoding="utf8") as file:
        before = file.read()
    after = how(before)
    if after != before:
        with open(path, "w", encoding="utf8") as file:
            file.write(after)


def is_done():
    """Whether the names are turned already: no text but this script's work has a name that ends in `_lem`."""
    for folder, folders, files in os.walk(os.path.join(TOP, "crates")):
        folders[:] = [f for f in folders if f != "out"]
        for name in files:
            if name.endswith(".antt"):
                with open(os.path.join(folder, name), encoding="utf8") as file:
                    if not set(SNAKES.values()).isdisjoint(re.findall(WORD, file.read())):
                        return True
    return False


def main():
    if is_done():
        print("0 names turned")
        return
    for folder, folders, files in os.walk(TOP):
        folders[:] = sorted(f for f in folders if f not in (".git", "out", "target", "wip", "bindings", "__pycache__", "compare") and os.path.join(folder, f) != HERE)
        for name in sorted(files):
            path = os.path.join(folder, name)
            if os.path.islink(path):
                continue
            if name.endswith(".antt"):
                turn(path, antt)
            elif name.endswith(".rt"):
                turn(path, camels)
            elif name.endswith(".edit"):
                turn(path, edit)
            elif name.endswith(".md") and name != "PORT.md":
                turn(path, page)
            elif name.endswith(".py") and path != os.path.abspath(__file__):
                turn(path, page)
    print(f"{count} names turned")


if __name__ == "__main__":
    sys.exit(main())
