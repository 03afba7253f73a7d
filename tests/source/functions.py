"""The functions of a .rt file: how long each is, how deep its blocks nest and how many loops it has. A table, that is one
`match` with nothing but values in its arms, may have any length."""

import re

MOST_LINES = 39
MOST_NESTED = 3
MOST_LOOPS = 1

IMPL = re.compile(r"^impl\b(?:<[^>]*>)? (?:.* for )?(?P<owner>\w+)")
HEAD = re.compile(r"^(?P<indent>\s*)(?:pub(?:\(crate\))? )?(?:extern \"C\" )?fn (?P<name>\w+)")
QUOTED = re.compile(r"b?'(?:\\.|[^'\\])*'|b?\"(?:\\.|[^\"\\])*\"|//.*")
LITERAL = re.compile(r"\b[A-Z]\w*(?:::[A-Z]\w*)? \{$")


class Function:
    def __init__(self, name, head, body, owner=None):
        self.name = name
        self.owner = owner
        self.head = head
        self.raw = body
        self.body = [QUOTED.sub("", line).strip() for line in body]

    def nested(self):
        """How many blocks stand inside one another; a value of a struct is no block."""
        depth = deepest = 0
        for line in self.body:
            opens = line.endswith("{")
            inner = line[:-1] if opens else line
            depth += inner.count("{") - inner.count("}")
            if opens:
                depth += 1
                if not LITERAL.search(line) or re.search(r"\b(?:match|if|while)\b", line):
                    deepest = max(deepest, depth)
        return deepest

    def loops(self):
        return sum(bool(re.match(r"(?:'\w+: )?(?:while|loop|for)\b", line)) for line in self.body)

    def is_table(self):
        return self.body[:1] != [] and self.body[0].startswith("match ") and not any(re.search("[(;]", line) for line in self.body)

    def faults(self):
        limits = [("nested blocks", self.nested(), MOST_NESTED), ("loops", self.loops(), MOST_LOOPS)]
        if not self.is_table():
            limits.insert(0, ("lines", len(self.body), MOST_LINES))
        return [f"has {found} {what}, more than {most}" for what, found, most in limits if found > most]


def signature(lines):
    """A function's parameters and result: what stands before its contract and its body."""
    return " ".join(line.strip() for line in lines if not re.match(r"\s*(?:requires|ensures)\b", line))


def functions(text):
    """Each function of a text in the layout of `rt fmt`, by its body; of an `impl`, with the type that it is of."""
    lines = text.splitlines()
    at = 0
    owner = None
    while at < len(lines):
        head = HEAD.match(lines[at])
        impl = IMPL.match(lines[at])
        if impl:
            owner = impl["owner"]
        if lines[at] == "}":
            owner = None
        at += 1
        if not head:
            continue
        first = ends = at - 1
        while not lines[ends].endswith(";") and (not lines[ends].endswith("{") or re.match(r"\s*(?:requires|ensures)\b", lines[ends])):
            ends += 1
        # A trait's method without a body.
        if lines[ends].endswith(";"):
            at = ends + 1
            continue
        start = ends + 1
        while lines[ends].rstrip() != head["indent"] + "}":
            ends += 1
        yield Function(head["name"], signature(lines[first:start]), lines[start:ends], owner)
        at = ends + 1
