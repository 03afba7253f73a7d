#!/usr/bin/env python3
"""Checks that need no proof: public functions state what they answer and ask nothing, by definitions that a reader must
believe; functions are small, and those that write output hold no long array; crates, header and Rust crate say the same of
each refusal; no import is idle; the documents name definitions that exist; no crate is left off the list; the table of the
listed words is what its script writes; and the layout is that of `rt fmt`.

    python3 tests/source/check.py
    python3 tests/source/check.py --believe     # the definitions that each demand rests on, with their lines
    python3 tests/source/check.py --write       # writes their names into docs/STATEMENTS.md anew
"""

import pathlib
import re
import shutil
import subprocess
import sys

ROOT = pathlib.Path(__file__).resolve().parents[2]
sys.path[:0] = [str(ROOT / folder) for folder in ("tests", "tests/source", "tools")]
import arrays  # noqa: E402
import functions  # noqa: E402
import needs  # noqa: E402
import refusals  # noqa: E402
import unused_imports  # noqa: E402
import word_table  # noqa: E402

# Worked examples: they compute with definitions of specs/Internal, and nothing rests on them.
EXAMPLES = {"Examples", "EveryKind"}

faults = []


def listed_crates():
    lines = (ROOT / "crates.txt").read_text(encoding="utf8").splitlines()
    return [line.split(":")[0].split()[0] for line in lines if line.split("#")[0].strip()]


def check_crates():
    listed = set(listed_crates())
    present = {path.name for path in (ROOT / "crates").iterdir() if path.is_dir()}
    for name in sorted(present ^ listed):
        faults.append(f"crates/{name}: in crates.txt or in crates/, but not in both")


def public_functions(source):
    """The name and the head (from `pub fn` to the body) of each public function."""
    for match in re.finditer(r"^[ \t]*pub (?:extern \"C\" )?fn (\w+)", source, re.M):
        head = source[match.start():]
        body = re.search(r"^\s*\{\s*$|\{\s*$", head, re.M)
        yield match.group(1), head[: body.start()] if body else head


def check_contracts():
    for path in sorted(ROOT.glob("crates/*/src/**/*.rt")):
        for name, head in public_functions(path.read_text(encoding="utf8")):
            where = f"{path.relative_to(ROOT)}: pub fn {name}"
            if re.search(r"\brequires\b", head):
                faults.append(f"{where} has a requires")
            if not re.search(r"\bensures\b", head):
                faults.append(f"{where} states nothing")


def check_internal():
    """No public function's contract names a definition of specs/Internal, and no definition outside rests on one."""
    for path in sorted(ROOT.glob("crates/*/src/**/*.rt")):
        source = path.read_text(encoding="utf8")
        lists = re.findall(r"^\s*ghost use Rattle\.\w+\.specs\.Internal\.[\w.]+\.\{([^}]*)\};", source, re.M)
        internal = {name.strip() for names in lists for name in names.split(",")}
        for function, head in public_functions(source):
            for name in sorted(internal & unused_imports.words(unused_imports.contracts(head))):
                faults.append(f"{path.relative_to(ROOT)}: pub fn {function} is stated by {name} of specs/Internal")
    for path in sorted(ROOT.glob("crates/*/specs/*.antt")):
        if re.search(r"^use Rattle\.\w+\.specs\.Internal\b", path.read_text(encoding="utf8"), re.M):
            if path.stem not in EXAMPLES:
                faults.append(f"{path.relative_to(ROOT)}: rests on specs/Internal")


def check_functions():
    for path in sorted(ROOT.glob("crates/*/src/**/*.rt")):
        for function in functions.functions(path.read_text(encoding="utf8")):
            for fault in function.faults():
                faults.append(f"{path.relative_to(ROOT)}: fn {function.name} {fault}")


def check_arrays():
    libraries = [path.parent for path in sorted(ROOT.glob("crates/*/src/lib.rt"))]
    texts = {path: path.read_text(encoding="utf8") for folder in libraries for path in sorted(folder.glob("**/*.rt"))}
    numbers = arrays.numbers_of(texts.values())
    named = arrays.named(texts.values(), numbers)
    holding = arrays.holders(texts.values())
    for path, text in texts.items():
        for function, array in arrays.faults(text, numbers, named, holding):
            faults.append(f"{path.relative_to(ROOT)}: fn {function} writes output and holds {array}, longer than {arrays.MOST_HELD}")


def linked_crates():
    """The crates that the library for services has."""
    lines = (ROOT / "crates.txt").read_text(encoding="utf8").splitlines()
    return set(next(line for line in lines if line.startswith("arrow_types_c ")).split(":")[1].split())


def check_refusals():
    """All errors say the same of a number, and those that services can get are in the header and the Rust crate."""
    sources = [(path.relative_to(ROOT), path.read_text(encoding="utf8")) for path in sorted(ROOT.glob("crates/*/src/**/*.rt"))]
    faults.extend(refusals.of_crates(sources)[1])
    linked = linked_crates()
    sources = [(path, source) for path, source in sources if path.parts[1] in linked]
    header = (ROOT / "bindings/c/arrow_types.h").read_text(encoding="utf8")
    rust = (ROOT / "bindings/rust/src/error.rs").read_text(encoding="utf8")
    faults.extend(fault for fault in refusals.faults(sources, header, rust) if fault not in faults)


def check_imports():
    for path, _, idle in unused_imports.unused():
        for item in idle:
            faults.append(f"{path.relative_to(ROOT)}: {item} is imported and not used")


def declared_names(folder):
    """Module.name for everything that the .antt files of a folder declare."""
    names = set()
    for path in folder.glob("**/*.antt"):
        if "out" in path.relative_to(folder).parts:
            continue
        module = path.stem
        for line in path.read_text(encoding="utf8").splitlines():
            match = re.match(r"\s*(?:unfoldable |abbrev )?pub (?:data |record )?(\S+)", line)
            if match:
                names.add(f"{module}.{match.group(1)}")
    return names


def check_documents():
    """A name `crate/Module.name` in the documents is declared in that crate's specs/ or proofs/."""
    known = {name: declared_names(ROOT / "crates" / name) for name in listed_crates()}
    pattern = re.compile(r"`(\w+)/([A-Z]\w*\.[^`\s]+)`")
    for path in [ROOT / "README.md", ROOT / "CONTRIBUTING.md", *sorted((ROOT / "docs").glob("*.md"))]:
        for crate, name in pattern.findall(path.read_text(encoding="utf8")):
            if name not in known.get(crate, set()):
                faults.append(f"{path.relative_to(ROOT)}: `{crate}/{name}` is not declared")


def check_edits():
    """docs/STATEMENTS.md names each must-fail edit, and two or more of them beside each public function."""
    present = {path.stem for path in ROOT.glob("crates/*/must-fail/*.edit")}
    text = (ROOT / "docs/STATEMENTS.md").read_text(encoding="utf8")
    for name in sorted(present - set(re.findall(r"[`/](\w+)`", text))):
        faults.append(f"docs/STATEMENTS.md: the edit {name} is not named")
    table = text.split("## Public functions")[1].split("##")[0]
    for line in table.splitlines():
        cells = [cell.strip() for cell in line.split(" | ")]
        if len(cells) == 3 and cells[0].startswith("| `"):
            edits = re.findall(r"`(\w+)`", cells[2])
            for name in sorted(set(edits) - present):
                faults.append(f"docs/STATEMENTS.md: there is no edit {name}")
            if len(edits) < 2:
                faults.append(f"docs/STATEMENTS.md: {cells[0][2:]} has fewer than two edits")


def replacements(edit):
    """The file, the old and the new text of each replacement of a must-fail edit; a `file:` line holds for those behind
    it."""
    file = old = None
    for line in edit.read_text(encoding="utf8").splitlines():
        if line.startswith("file: "):
            file = edit.parents[1] / line.removeprefix("file: ")
        elif line.startswith("old: "):
            old = line.removeprefix("old: ")
        elif line.startswith("new:"):
            yield file, old, line.removeprefix("new:").removeprefix(" ")


def check_edit_texts():
    """The text that an edit replaces stands once in its file, and every edit replaces some."""
    for edit in sorted(ROOT.glob("crates/*/must-fail/*.edit")):
        texts = {}
        for file, old, new in replacements(edit):
            if not file.exists():
                faults.append(f"{edit.relative_to(ROOT)}: there is no {file.relative_to(ROOT)}")
                break
            text = texts.get(file) or file.read_text(encoding="utf8")
            if text.count(old) != 1:
                faults.append(f"{edit.relative_to(ROOT)}: {text.count(old)} times in {file.name}: {old}")
            texts[file] = text.replace(old, new)
        if not texts:
            faults.append(f"{edit.relative_to(ROOT)}: it replaces nothing")


def check_listed_functions():
    """docs/STATEMENTS.md has each public function in its table."""
    text = (ROOT / "docs/STATEMENTS.md").read_text(encoding="utf8")
    table = text.split("## Public functions")[1].split("##")[0]
    listed = set(re.findall(r"\b(\w+)\(", table))
    for path in sorted(ROOT.glob("crates/*/src/**/*.rt")):
        for name, _ in public_functions(path.read_text(encoding="utf8")):
            if name not in listed:
                faults.append(f"{path.relative_to(ROOT)}: pub fn {name} is not in docs/STATEMENTS.md")


def pages():
    """Every page of the repository but those below target folders."""
    paths = [path for path in ROOT.rglob("*.md") if "target" not in path.relative_to(ROOT).parts]
    return sorted(paths)


def check_links():
    """Files named by a relative link exist."""
    for path in pages():
        for target in re.findall(r"\]\(([^)#:]+)\)", path.read_text(encoding="utf8")):
            if not (path.parent / target).exists():
                faults.append(f"{path.relative_to(ROOT)}: no file {target}")


def check_citations():
    """docs/SCOPE.md has a heading for each section of document 01 and each demand that a file cites."""
    headings = re.findall(r"^## (.*)$", (ROOT / "docs/SCOPE.md").read_text(encoding="utf8"), re.M)
    sections = re.compile(r"document 01, ((?:'[^'\n]+'(?:,| and)? ?)+)", re.I)
    for path in sorted([*ROOT.glob("crates/**/*.rt"), *ROOT.glob("crates/**/*.antt"), *ROOT.glob("bindings/*/*.h"), *pages()]):
        text = path.read_text(encoding="utf8")
        cited = [name for part in sections.findall(text) for name in re.findall(r"'([^']+)'", part)]
        cited += [f"Demand {number}" for number in re.findall(r"\bdemand (\d)", text, re.I)]
        for name in sorted(set(cited)):
            if not any(heading.startswith(name) for heading in headings):
                faults.append(f"{path.relative_to(ROOT)}: docs/SCOPE.md has no section '{name}'")


def specs_file(crate, module):
    return ROOT / "crates" / crate / "specs" / f"{module}.antt"


def rests_on(roots):
    """The files of definitions that these files import, one by way of another, and they themselves."""
    found, todo, own = set(), list(roots), set(listed_crates())
    while todo:
        crate, module = todo.pop()
        if (crate, module) not in found:
            found.add((crate, module))
            text = specs_file(crate, module).read_text(encoding="utf8")
            imports = re.findall(r"^use Rattle\.(\w+)\.specs\.([A-Z]\w*)", text, re.M)
            todo += [name for name in imports if name[0] in own]
    return found


def believed():
    """What docs/STATEMENTS.md says of each demand: the files that its contracts cite, and all that it rests on."""
    text = (ROOT / "docs/STATEMENTS.md").read_text(encoding="utf8")
    section = text.split("## What a reader must believe")[1].split("\n## ")[0]
    for line in section.splitlines():
        cells = [cell.strip() for cell in line.strip("| ").split(" | ")]
        if len(cells) == 4 and "`" in cells[1]:
            cited, others = (set(re.findall(r"`(\w+)/(\w+)`", cell)) for cell in cells[1:3])
            yield cells[0], cited, others, cells[3]


def check_believed():
    """docs/STATEMENTS.md names, for each demand, just the files of definitions that it rests on."""
    for demand, cited, others, lines in believed():
        missing = [name for name in sorted(cited | others) if not specs_file(*name).exists()]
        for crate, module in missing:
            faults.append(f"docs/STATEMENTS.md: {demand}: there is no crates/{crate}/specs/{module}.antt")
        if not missing:
            for crate, module in sorted(rests_on(cited) ^ (cited | others)):
                wrong = "is named" if (crate, module) in others else "is not named"
                faults.append(f"docs/STATEMENTS.md: {demand}: {crate}/{module} {wrong}; check.py --write mends it")
            if lines != lines_in_all(rests_on(cited)):
                faults.append(f"docs/STATEMENTS.md: {demand}: not {lines} lines; check.py --write mends it")


def lines_of(crate, module):
    return len(specs_file(crate, module).read_text(encoding="utf8").splitlines())


def lines_in_all(names):
    return f"{sum(lines_of(*name) for name in names):,}"


def in_order(names):
    """Files of definitions in the order of the crates."""
    order = listed_crates()
    return sorted(names, key=lambda name: (order.index(name[0]), name[1]))


def write_believed():
    """The last two columns of that table, as the files are."""
    path = ROOT / "docs/STATEMENTS.md"
    text = path.read_text(encoding="utf8")
    for demand, cited, _, _ in believed():
        others = ", ".join(f"`{crate}/{module}`" for crate, module in in_order(rests_on(cited) - cited))
        row = re.compile(rf"^(\| {re.escape(demand)} \| [^|]* \| )[^|]* \| [^|]*( \|)$", re.M)
        cells = f"{others or 'nothing else'} | {lines_in_all(rests_on(cited))}"
        text = row.sub(lambda match: match.group(1) + cells + match.group(2), text)
    path.write_text(text, encoding="utf8")


def print_believed():
    """The files that each demand rests on, each with its lines."""
    for demand, cited, _, _ in believed():
        print(demand)
        for crate, module in in_order(rests_on(cited)):
            print(f"{lines_of(crate, module):>6}  crates/{crate}/specs/{module}.antt")
        print(f"{lines_in_all(rests_on(cited)):>6}  in all\n")


def check_word_table():
    """The files of the table are what tools/word_table.py writes."""
    for path in word_table.stale():
        faults.append(f"{path.relative_to(ROOT)}: not what tools/word_table.py writes")


def check_layout():
    """Each file is in the layout of `rt fmt`. The compiler that lies beside `rt` says so and changes nothing."""
    compiler = pathlib.Path(shutil.which("rt")).resolve().parent / "rattle"
    folders = [ROOT / "crates" / name / part for name in listed_crates() for part in ("src", "specs", "proofs")]
    files = [path for folder in folders for end in ("rt", "antt") for path in sorted(folder.glob(f"**/*.{end}"))]
    run = subprocess.run([compiler, "fmt", "--check", *files], capture_output=True, text=True)
    if run.returncode != 0:
        said = (run.stdout + run.stderr).strip().replace(f"{ROOT}/", "")
        faults.extend(f"rt fmt: {line}"[:500] for line in said.splitlines() or ["it failed"])


def main():
    needs.tools("rt")
    checks = [
        check_crates,
        check_contracts,
        check_internal,
        check_functions,
        check_arrays,
        check_refusals,
        check_imports,
        check_listed_functions,
        check_documents,
        check_edits,
        check_edit_texts,
        check_links,
        check_citations,
        check_believed,
        check_word_table,
        check_layout,
    ]
    failed = 0
    for check in checks:
        before = len(faults)
        check()
        failed += len(faults) > before
    for fault in faults:
        print(fault)
    print(f"source: {len(checks) - failed} passed, {failed} failed")
    sys.exit(1 if faults else 0)


if __name__ == "__main__":
    if sys.argv[1:] == ["--believe"]:
        print_believed()
    elif sys.argv[1:] == ["--write"]:
        write_believed()
    else:
        main()
