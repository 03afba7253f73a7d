#!/usr/bin/env python3
"""Names that are imported and not used, or imported twice, in the .rt and .antt files under crates/.

    python3 tools/unused_imports.py [--fix] [--modules] [CRATE..]

Lists them, a line for each, and ends with 1 if there are any; --fix takes them out of the files. The rules:

- `use M.{a, b as c}`, `ghost use M.{a}`, `use crate::x;` and `use crate::{x, y};` bring in names; `pub use` passes them on and counts as a use.
  A module brought in whole (`use M`, `use M as N`) is left alone, unless --modules is given.
- A name is used where it stands as a word of its own outside comments, texts and import lines: in code, in a pattern, in a
  contract, behind `unfolding`. Behind a dot it is a field, behind `::` another module's; behind two
  it is the end of a range, or what a struct takes its other fields from.
- An operator is used where its parts stand as words: `◌≡◌` where `≡` does, `if◌then◌else◌` where its three do. A `do` block
  uses `◌>>=◌` and `◌>>◌`.
- What a `ghost use` brings in can be used in contracts alone, between the braces of `requires` and `ensures` and of a struct's
  ghost members.
- Words that a must-fail edit puts into a file count as uses there: an edit may lead a proof along another way.

Whoever binds a variable of the same name hides an unused one from this list.
"""

import pathlib
import re
import sys

ROOT = pathlib.Path(__file__).resolve().parents[1]

# A name of antt is any run of other characters than these.
BREAKS = r"\s(){}.;,@\"«»"
ANTT_IMPORT = re.compile(r"^(?P<head>use (?P<module>[^\s{]+)\.\{)(?P<names>[^}]*)(?P<tail>\}\n)", re.M)
GHOST_IMPORT = re.compile(r"^(?P<head>ghost use (?P<module>[^\s{]+)\.\{)(?P<names>[^}]*)(?P<tail>\};\n)", re.M)
RUST_IMPORT = re.compile(r"^use (?P<module>(?:\w+::)+)(?P<name>\w+)(?: as (?P<other>\w+))?;\n", re.M)
RUST_LIST = re.compile(r"^use (?P<module>(?:\w+::)+)\{(?P<names>[^{}]*)\};\n", re.M)
# Traits that are brought in for their methods: used where one of these is called.
METHODS = {
    "Env": r"\.arg\(",
    "Read": r"\.read\w*\(",
    "Write": r"\.(?:write\w*|flush)\(",
    "Numbered": r"\.number\(",
    "KeptRows": r"\.(?:word|count|word_count)\(",
}
MODULE_IMPORT = re.compile(r"^use (?P<module>[^\s{]+?)(?: as (?P<other>[^\s{]+))?\n", re.M)
IMPORT_LINE = re.compile(r"^(?:pub |unfoldable |ghost )*use [^;{\n]*(?:\{[^}]*\})?;?$", re.M)


def without_comments(text, line_comment):
    """The text with its comments and quoted texts left out."""
    quoted = r"\"(?:\\.|[^\"\\])*\""
    if line_comment == "//":
        quoted = r"b'(?:\\.|[^'\\])'|" + quoted  # b'"' begins no text
    block = r"\{-.*?-\}" if line_comment == "--" else r"/\*.*?\*/"
    begins = r"(?<![^" + BREAKS + r"])--" if line_comment == "--" else "//"
    pattern = re.compile(f"{quoted}|{block}|{begins}[^\n]*", re.S)
    return pattern.sub(" ", text)


def words(text):
    """The words of a text in antt that do not stand right behind a dot, which would make them fields."""
    found = re.finditer(rf"(\.?)([^{BREAKS}]+)", text)
    return {match.group(2) for match in found if not match.group(1)}


def contracts(code):
    """What stands between the braces of each `requires` and `ensures`, and of each ghost member."""
    parts = []
    for match in re.finditer(r"\b(?:(?:requires|ensures)(?:\s+[\w-]+)?|ghost\s+\w+\s*[:=])\s*\{", code):
        depth, at = 1, match.end()
        while depth and at < len(code):
            depth += {"{": 1, "}": -1}.get(code[at], 0)
            at += 1
        parts.append(code[match.end() : at - 1])
    return "\n".join(parts)


def is_used(name, present):
    """Whether a name of antt, perhaps an operator, is among the words that stand in a text."""
    parts = [part for part in name.split("◌") if part]
    if name in ("◌>>=◌", "◌>>◌") and "do" in present:
        return True
    return name in present or bool(parts) and "◌" in name and all(stands(part, present) for part in parts)


def stands(part, present):
    """A part of an operator stands alone, or in a section such as `◌+`."""
    return any(form in present for form in (part, f"◌{part}", f"{part}◌"))


def brought(item):
    """The name under which an item of an import list is known: `b` of `a as b`, `d` of `N.d`."""
    return item.split(" as ")[-1].strip().split(".")[-1]


def edited(path, crate):
    """What the must-fail edits of a crate put into a file."""
    added = []
    for edit in sorted((crate / "must-fail").glob("*.edit")):
        file = None
        for line in edit.read_text(encoding="utf8").splitlines():
            if line.startswith("file: "):
                file = crate / line.removeprefix("file: ")
            elif line.startswith("new:") and file == path:
                added.append(line.removeprefix("new:"))
    return "\n".join(added)


def listed(pattern, text, present):
    """The text with each import list cut to what is used, and the names that were cut."""
    cut = []
    met = set()

    def shorter(match):
        items = [item.strip() for item in match.group("names").split(",") if item.strip()]
        module = match.group("module")
        kept = []
        for item in items:
            if is_used(brought(item), present) and (module, item) not in met:
                kept.append(item)
                met.add((module, item))
            else:
                cut.append(f"{module}.{item}")
        if len(kept) == len(items):
            return match.group(0)
        return match.group("head") + ", ".join(kept) + match.group("tail") if kept else ""

    return pattern.sub(shorter, text), cut


def is_called(name, code):
    """Whether the code has a name of its imports, or calls a method of a trait that the name is."""
    return re.search(METHODS.get(name, r"(?!)"), code) or re.search(rf"(?:(?<![\w:.])|(?<=\.\.)){name}\b", code)


def single(text, code):
    """The same of `use crate::x;` and `use crate::{x, y as z};` lines."""
    cut = []

    def shorter(match):
        if is_called(match.group("other") or match.group("name"), code):
            return match.group(0)
        cut.append(match.group(0).strip().removeprefix("use ").rstrip(";"))
        return ""

    def shorter_list(match):
        items = [item.strip() for item in match.group("names").split(",") if item.strip()]
        kept = [item for item in items if item == "self" or is_called(brought(item), code)]
        cut.extend(match.group("module") + item for item in items if item not in kept)
        if len(kept) == len(items):
            return match.group(0)
        inner = kept[0] if len(kept) == 1 else "{" + ", ".join(kept) + "}"
        return f"use {match.group('module')}{inner};\n" if kept else ""

    return RUST_LIST.sub(shorter_list, RUST_IMPORT.sub(shorter, text)), cut


def whole(text, present):
    """The same of modules brought in whole, whose name heads a path in the text or in another import."""
    cut = []
    heads = present | {match.group(1) for match in re.finditer(r"^(?:pub )?use ([^\s.{]+)\.", text, re.M)}

    def shorter(match):
        if (match.group("other") or match.group("module").split(".")[-1]) in heads:
            return match.group(0)
        cut.append(match.group(0).strip().removeprefix("use "))
        return ""

    return MODULE_IMPORT.sub(shorter, text), cut


def trimmed(path, crate, modules=False):
    """A file's text without the imports that it does not use, and those imports."""
    text = path.read_text(encoding="utf8")
    more = edited(path, crate)
    if path.suffix == ".antt":
        present = words(IMPORT_LINE.sub("", without_comments(text, "--")) + "\n" + more)
        shorter, cut = listed(ANTT_IMPORT, text, present)
        if not modules:
            return shorter, cut
        shorter, also = whole(shorter, present)
        return shorter, cut + also
    code = IMPORT_LINE.sub("", without_comments(text, "//"))
    shorter, ghosts = listed(GHOST_IMPORT, text, words(contracts(code) + "\n" + more))
    shorter, plain = single(shorter, code + "\n" + more)
    return shorter, ghosts + plain


def files(crates):
    for crate in crates:
        for path in sorted([*crate.glob("src/**/*.rt"), *crate.glob("specs/**/*.antt"), *crate.glob("proofs/**/*.antt")]):
            yield path, crate


def unused(root=ROOT, names=None, modules=False):
    """Each file with imports that it does not use: its path, its text without them, and what they are."""
    crates = [path for path in sorted((root / "crates").iterdir()) if path.is_dir() and (not names or path.name in names)]
    for path, crate in files(crates):
        shorter, cut = trimmed(path, crate, modules)
        if cut:
            yield path, shorter, cut


def main():
    names = [word for word in sys.argv[1:] if word not in ("--fix", "--modules")]
    for name in names:
        if not (ROOT / "crates" / name).is_dir():
            sys.exit(f"{sys.argv[0]}: there is no crate {name}.")
    count = 0
    for path, shorter, cut in unused(names=names, modules="--modules" in sys.argv):
        count += len(cut)
        if "--fix" in sys.argv:
            path.write_text(shorter.lstrip("\n"), encoding="utf8")
        else:
            for item in cut:
                print(f"{path.relative_to(ROOT)}: {item} is imported and not used")
    print(f"unused imports: {count}{', taken out' if '--fix' in sys.argv and count else ''}")
    sys.exit(1 if count and "--fix" not in sys.argv else 0)


if __name__ == "__main__":
    main()
