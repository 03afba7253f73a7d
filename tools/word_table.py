#!/usr/bin/env python3
"""The table of the listed words: src/edges.rt and specs/Edges.antt of `tokenizer`, made from specs/Words.antt.

    python3 tools/word_table.py             # writes both files
    python3 tools/word_table.py --check     # ends with 1 if one of them is not what it would write

specs/WordTable.antt says how the table is read. Nothing here has to be believed: that the table is right is proved.

A state is what was read of a word. The states are placed so that no two edges stand at one place: each state in turn takes
the place that drives out the fewest others, which are placed again. The choice among equals is drawn from a fixed seed, so
the same words give the same table. 470 is the least size for which a placing was found.
"""

import pathlib
import random
import re
import sys

ROOT = pathlib.Path(__file__).resolve().parents[1]
SIZE = 470
SPACE = 32  # its edge is a word's end

# The number of the first token of a sort: the tokens of `WordTable.token_of_number`.
FIRST = {"DataType": 1, "TimeUnit": 42, "IntervalUnit": 46, "UnionMode": 49, "MapSorted": 51, "Nullability": 52,
         "Field": 55, "Some": 56, "None": 57, "X": 58}

CODE_HEAD = """\
// The table of the listed words, written by tools/word_table.py. Each number is an edge: that of a state and a byte stands
// at the place that is their sum, and the space's is the end of a word (specs/WordTable.antt). 32 is the edge to no token.
// Behind each stands its place.
"""

SPEC_HEAD = """\
-- The table of the listed words, written by tools/word_table.py: the numbers of src/edges.rt. Behind each row stands the
-- place of its first.
use Rattle.std.specs.Prelude.{List, [], ◌∷◌, ℕ}

-- How many numbers a table has.
abbrev pub places : ℕ
places = PLACES

unfoldable pub edges : List ℕ
edges =
"""


def listed_words(text):
    """The bytes of each listed word and the number of its token."""
    for word, sort, value in re.findall(r'"([^"]+)" is ([A-Za-z]+)(?: (\d+))?', text):
        yield word.encode(), FIRST[sort] + int(value or 0)


def edges_of(words):
    """The edges of each state: to the state behind a byte, and at the space to a token's number."""
    edges = {}
    for word, number in words:
        for i, byte in enumerate(word):
            edges.setdefault(word[:i], {})[byte] = word[: i + 1]
        edges.setdefault(word, {})[SPACE] = number
    return edges


def places(edges, state, size):
    """Where a state may stand: an edge to it has eight bits for the place less the byte."""
    return range(state[-1], min(state[-1] + 255, size - 1 - max(edges[state])) + 1)


def placed(edges, size, seed):
    """The place of each state, or None where none is found."""
    pick = random.Random(seed)
    place, owner, taken = {b"": 0}, {0: b""}, {byte: b"" for byte in edges[b""]}
    todo = sorted((s for s in edges if s), key=lambda s: (-len(edges[s]) if len(edges[s]) > 1 else 0, pick.random()))
    for _ in range(20000):
        if not todo:
            return place
        state, best = todo.pop(0), None
        for base in places(edges, state, size):
            out = {owner[base]} if base in owner else set()
            out |= {taken[base + byte] for byte in edges[state] if base + byte in taken}
            if b"" not in out:
                cost = sum(len(edges[other]) ** 2 for other in out) + pick.random() * 0.9
                best = min(best or (cost, base, out), (cost, base, out), key=lambda found: found[0])
        if best is None:
            return None
        for other in sorted(best[2]):
            at = place.pop(other)
            del owner[at]
            for byte in edges[other]:
                del taken[at + byte]
            todo.append(other)
        place[state], owner[best[1]] = best[1], state
        taken.update({best[1] + byte: state for byte in edges[state]})
    return None


def table_of(words):
    edges = edges_of(words)
    place = next(found for seed in range(50) if (found := placed(edges, SIZE, seed)))
    table = [SPACE] * SIZE
    for state, out in edges.items():
        for byte, to in out.items():
            table[place[state] + byte] = 256 * (to if byte == SPACE else place[to] - byte) + byte
    return table


def code_text(table):
    numbers = "".join(f"    {number}, // {place}\n" for place, number in enumerate(table))
    return f"{CODE_HEAD}pub const PLACES: usize = {len(table)};\n\npub type WordTable = [u16; PLACES];\n\npub const EDGES: WordTable = [\n{numbers}];\n"


def spec_text(table):
    starts = range(0, len(table), 16)
    rows = [" ∷ ".join(map(str, table[i : i + 16])) + f"  -- {i}" for i in starts]
    return SPEC_HEAD.replace("PLACES", str(len(table))) + "    " + "\n    ∷ ".join(rows) + "\n    ∷ []\n"


def files(root=ROOT):
    """Each file with the text that it should have."""
    crate = root / "crates/tokenizer"
    table = table_of(list(listed_words((crate / "specs/Words.antt").read_text(encoding="utf8"))))
    return {crate / "src/edges.rt": code_text(table), crate / "specs/Edges.antt": spec_text(table)}


def stale(root=ROOT):
    """The files that are not what this script writes."""
    return [path for path, text in files(root).items() if not path.exists() or path.read_text(encoding="utf8") != text]


def main(check):
    if check:
        old = stale()
        for path in old:
            print(f"{path.relative_to(ROOT)}: not what tools/word_table.py writes")
        return 1 if old else 0
    for path, text in files().items():
        path.write_text(text, encoding="utf8")
    return 0


if __name__ == "__main__":
    sys.exit(main("--check" in sys.argv[1:]))
