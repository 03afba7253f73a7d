"""Arrays that functions writing output hold: document 02's request [4] lets none be longer than 32.

A function writes output where it takes bytes by `&mut`, or a struct that holds them so, itself or as `self`. It holds an
array where its body has one: by its type or its length (`[u8; 33]`, `[0; 33]`), element by element, as a byte string, by the
name of a constant that is one, or from a function that gives one back. A length that is a name is looked up among the
constants; one that is not found is a fault too."""

import re

import functions

MOST_HELD = 32

WRITES = re.compile(r"&(?:'\w+ )?mut \[u8(?:; [^\]]+)?\]")
CONSTANT = re.compile(r"\bconst (\w+): (?:&(?:'static )?)?([^=;]*(?:;[^=;]*)?) = ([^;]*(?:;[^;\]]*\])?[^;]*);")
BYTES = re.compile(r'b"((?:\\x[0-9A-Fa-f]{2}|\\.|[^"\\])*)"')
INNERMOST = re.compile(r"\[(?P<element>[^\[\];]*); (?P<length>[^\[\];]+)\]|\[(?P<elements>[^\[\];]*,[^\[\];]*)\]")
STRUCT = re.compile(r"\bstruct (\w+)(?:<[^>]*>)? \{\n(.*?)\n\}", re.DOTALL)
GIVES = re.compile(r"-> \[[^\[\];]*; ([^\[\];]+)\]")
ALIAS = re.compile(r"\btype (\w+) = (\[[^=]*\]);")
ESCAPE = re.compile(r"\\x[0-9A-Fa-f]{2}|\\.|.", re.DOTALL)
COMMENT = re.compile(r"//.*")


def number(text, numbers):
    """What a length is: a number, or a constant's name, by itself or behind a path; None where neither."""
    name = text.strip().split("::")[-1]
    plain = name.replace("_", "").removesuffix("usize")
    return int(plain) if plain.isdigit() else numbers.get(name)


def numbers_of(texts):
    """The constants that are plain numbers."""
    found = re.findall(r"\bconst (\w+): usize = (\d[\d_]*);", "\n".join(texts))
    return {name: int(value.replace("_", "")) for name, value in found}


def lengths(text, numbers):
    """The lengths of the arrays that a text spells, an array of arrays counted whole; None for one that is not known."""
    spelled = [len(ESCAPE.findall(inner)) for inner in BYTES.findall(text)]
    rest = BYTES.sub("", text)
    array = INNERMOST.search(rest)
    while array:
        element = array["element"] if array["length"] else array["elements"]
        inner = [int(n) for n in re.findall(r"<(\d+)>", element)]
        each = number(array["length"], numbers) if array["length"] else len([e for e in element.split(",") if e.strip()])
        spelled.append(each and each * max(inner, default=1))
        rest = f"{rest[:array.start()]}<{spelled[-1] or 0}>{rest[array.end():]}"
        array = INNERMOST.search(rest)
    return spelled


def holders(texts):
    """The structs that hold bytes by `&mut`."""
    return {name for text in texts for name, fields in STRUCT.findall(COMMENT.sub("", text)) if WRITES.search(fields)}


def writes(function, holding):
    """Whether a function takes bytes by `&mut`, or a struct that holds them so."""
    if WRITES.search(function.head) or (function.owner in holding and re.search(r"\(&?(?:mut )?self\b", function.head)):
        return True
    return any(re.search(rf"&mut {name}\b|: (?:mut )?{name}\b", function.head) for name in holding)


def longest(found):
    """The longest of some arrays: one of unknown length counts as longer than any."""
    return float("inf") if None in found else max(found, default=0)


def named(texts, numbers):
    """The constants, types and functions that are, or give back, an array longer than a function may hold."""
    whole = COMMENT.sub("", "\n".join(texts))
    arrays = {name: longest(lengths(kind, numbers)) for name, kind in ALIAS.findall(whole)}
    for name, kind, value in CONSTANT.findall(whole):
        arrays[name] = max(longest(lengths(kind, numbers)), longest(lengths(value, numbers)), arrays.get(kind.strip(), 0))
    for text in texts:
        for function in functions.functions(text):
            gives = GIVES.findall(function.head)
            if gives:
                arrays[function.name] = longest([number(length, numbers) for length in gives])
    return {name: length for name, length in arrays.items() if length > MOST_HELD}


def faults(text, numbers, arrays, holding=()):
    """The functions of a text that write output and hold too long an array, each with the array."""
    for function in functions.functions(text):
        if not writes(function, holding):
            continue
        body = "\n".join(COMMENT.sub("", line) for line in function.raw)
        if longest(lengths(body, numbers)) > MOST_HELD:
            yield function.name, "an array in its body"
        for name in re.findall(r"\w+", BYTES.sub("", body)):
            if name in arrays:
                yield function.name, name
