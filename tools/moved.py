#!/usr/bin/env python3
"""What a change moved, for a request's note: of each crate's definitions, promises, laws and proofs, how many stayed as
they were, moved, are new or gone.

    python3 tools/moved.py OLD [NEW] [--names]      # commits; without NEW the files as they are now

A definition is a declaration in specs/, a promise the head of a function that has a contract (its parameters, what it
requires and ensures), a law a statement in proofs/, with its proof apart, and a function's proof is its files. Comments,
imports and layout do not count. What went to another file under its own name, with the same text, stayed.
"""

import collections
import pathlib
import re
import subprocess
import sys

DECLARED = re.compile(r"^(?:(?:abbrev|unfoldable|pub|private|opaque)\s+)*([^\s(){}:=;]+)\s+:(?:\s|$)")
BLOCK = re.compile(r"^(?:(?:pub|private)\s+)*(?:record|data)\s+([^\s(){}:]+)")
PASSED_OVER = re.compile(r"\s*(?:--|use\b|(?:pub )?mod\b|infix[lr]?\b|$)")
FUNCTION = re.compile(r"(?m)^(?=[ \t]*(?:#\[(?:unsafe\()?no_mangle\)?\]\s*)?(?:pub(?:\(crate\))?[ \t]+)?(?:extern \"C\" )?fn\s|impl\b)")
SORTS = ["definitions", "promises", "laws", "proofs of laws", "proofs of functions"]


def git(*words):
    return subprocess.run(["git", *words], capture_output=True, text=True, check=True).stdout


def sources(commit):
    """Path and text of each file of the crates, in a commit or as it is now."""
    if commit:
        names = git("ls-tree", "-r", "--name-only", "-z", commit, "crates").split("\0")
    else:
        names = git("ls-files", "-z", "--cached", "--others", "--exclude-standard", "crates").split("\0")
    for name in names:
        if name.endswith((".rt", ".antt")):
            if commit:
                yield name, git("show", f"{commit}:{name}")
            elif pathlib.Path(name).exists():
                yield name, pathlib.Path(name).read_text(encoding="utf8")


def squeezed(lines):
    return " ".join(" ".join(lines).split())


def declarations(text):
    """Name, statement and whole of each declaration of an .antt file."""
    name, statement, body, block = None, [], [], None
    for line in [*text.split("\n"), "module end"]:
        if PASSED_OVER.match(line):
            continue
        margin, words = len(line) - len(line.lstrip()), line.strip()
        if block is not None and margin > block:
            statement.append(words)
            continue
        block = None
        opened = BLOCK.match(words) or DECLARED.match(words)
        if opened or words.startswith("module "):
            if name:
                yield name, squeezed(statement), squeezed(statement + body)
            name, statement, body = (opened.group(1) if opened else None), [words], []
            block = margin if BLOCK.match(words) else None
        elif name:
            # the statement goes on up to the first clause, which repeats the name
            clause = body or words.split()[0] == name or words.startswith("unfolding") or " = " in f" {words} "
            (body if clause else statement).append(words)


def promises(text):
    """Name and head of each function of an .rt file that has a contract."""
    owner = ""
    for part in FUNCTION.split(text):
        if kind := re.match(r"impl(?:<[^>]*>)?\s+(\w+)", part):
            owner = kind.group(1) + "::"
        else:
            if not part[:1].isspace():
                owner = ""
            name, body = re.search(r"\bfn\s+(\w+)", part), re.search(r"(?m)^\s*\{\s*$", part)
            if name and body and re.search(r"\b(?:requires|ensures)\b", part[: body.start()]):
                head = re.sub(r"//[^\n]*", "", part[: body.start()])
                yield owner + name.group(1), squeezed([head[head.index("fn ") :]])


def collected(commit):
    """For each sort: crate and name of each thing, with its text."""
    found = {sort: {} for sort in SORTS}
    for path, text in sources(commit):
        _, crate, where, *rest = path.split("/")
        module = "/".join(rest).rsplit(".", 1)[0]
        if where == "src":
            found["promises"].update({(crate, f"{module}::{name}"): head for name, head in promises(text)})
        elif where == "specs":
            found["definitions"].update({(crate, f"{module}.{name}"): whole for name, _, whole in declarations(text)})
        elif where == "proofs" and len(rest) == 1:
            for name, statement, whole in declarations(text):
                found["laws"][crate, f"{module}.{name}"] = statement
                found["proofs of laws"][crate, f"{module}.{name}"] = whole
        elif where == "proofs":
            lines = [line for line in text.split("\n") if not PASSED_OVER.match(line)]
            folder = module.rsplit("/", 1)[0]
            before = found["proofs of functions"].get((crate, folder), "")
            found["proofs of functions"][crate, folder] = f"{before} {squeezed(lines)}".strip()
    return found


def last(name):
    return re.split(r"[.:/]", name)[-1]


def compared(old, new, crate):
    """What happened to the things of one sort in a crate: a list of names for each fate."""
    elsewhere = collections.Counter((last(name), text) for (_, name), text in old.items())
    before = {name: text for (owner, name), text in old.items() if owner == crate}
    after = {name: text for (owner, name), text in new.items() if owner == crate}
    fates = collections.defaultdict(list)
    for name, text in sorted(after.items()):
        if name in before:
            fates["stayed" if before[name] == text else "moved"].append(name)
        else:
            fates["from another file" if elsewhere[last(name), text] else "new"].append(name)
    fates["gone"] = sorted(set(before) - set(after))
    return fates


def main():
    commits = [word for word in sys.argv[1:] if not word.startswith("--")]
    if not 1 <= len(commits) <= 2:
        sys.exit(__doc__)
    old, new = collected(commits[0]), collected(commits[1] if len(commits) > 1 else None)
    listed = []
    print("| crate | what | stayed | moved | new | gone |\n|---|---|---:|---:|---:|---:|")
    for crate in sorted({crate for side in (old, new) for things in side.values() for crate, _ in things}):
        for sort in SORTS:
            fates = compared(old[sort], new[sort], crate)
            changed = [fate for fate in ("moved", "new", "gone", "from another file") if fates[fate]]
            if changed:
                stayed = len(fates["stayed"]) + len(fates["from another file"])
                print(f"| {crate} | {sort} | {stayed} | {len(fates['moved'])} | {len(fates['new'])} | {len(fates['gone'])} |")
                listed += [f"- {crate}, {sort}, {fate}: " + ", ".join(f"`{name}`" for name in fates[fate]) for fate in changed]
    if "--names" in sys.argv and listed:
        print("\n" + "\n".join(listed))


if __name__ == "__main__":
    main()
