"""The numbers of the refusals and their sentences: in the errors of the crates, in the C header and in the Rust crate they
are the same.

An error of a crate is an enum for which `Numbered` is written (crates/tokenizer/src/refusal.rt): each of its variants has a
number, and a sentence in `#[error(..)]` above it."""

import re

NO_REFUSAL = "this is no refusal"

NUMBERED = re.compile(r"^impl Numbered for (\w+) \{", re.M)
ENUM = re.compile(r"^pub enum (\w+) \{\n(.*?)^\}", re.M | re.S)
COMMENT = re.compile(r"^ *//.*\n", re.M)
VARIANT = re.compile(r"(?:#\[error\(\"((?:\\.|[^\"\\])*)\"\)\]\s*)?^ *([A-Z]\w*)(?: = (\d+))?,", re.M)
CONSTANT = re.compile(r"^ *ARROW_TYPES_(\w+) = (\d+),? */\* (.*) \*/$", re.M)
STRING = re.compile(r"^ *\"(.*)\",$", re.M)
RUST_VARIANT = re.compile(r"^    ([A-Z]\w*)(?: = (\d+))?,$", re.M)
RUST_SENTENCE = re.compile(r"Error::(\w+) => (?:\{\s*)?\"(.*)\"", re.M)


def of_crate(source):
    """The errors of a source: for each the enum's name, a variant, its number and its sentence; None for what is missing."""
    numbered = set(NUMBERED.findall(source))
    for name, body in ENUM.findall(source):
        if name in numbered:
            for sentence, variant, number in VARIANT.findall(COMMENT.sub("", body)):
                yield name, variant, int(number) if number else None, sentence or None


def of_header(header):
    """What the header's enum says of each number, and what its function answers for each, from 0."""
    _, body = header.split("enum arrow_types_refusal {\n")
    enum = {int(number): sentence for _, number, sentence in CONSTANT.findall(body.split("};")[0])}
    _, body = header.split("const char *arrow_types_sentence(")
    return enum, STRING.findall(body.split("    };\n")[0])


def of_rust(source):
    """What the Rust crate's `Error` says of each number."""
    _, body = source.split("pub enum Error {\n")
    numbers, last = {}, 0
    for variant, number in RUST_VARIANT.findall(body.split("\n}")[0]):
        last = int(number) if number else last + 1
        numbers[variant] = last
    _, body = source.split("fn sentence(self)")
    sentences = dict(RUST_SENTENCE.findall(body.split("\n    }\n")[0]))
    return {number: sentences.get(variant) for variant, number in numbers.items()}


def of_crates(sources):
    """What the errors of all sources say of each number, and what is wrong among them. The sources are pairs of a path and a
    text."""
    said, faults = {}, []
    for path, source in sources:
        for name, variant, number, sentence in of_crate(source):
            where = f"{path}: {name}::{variant}"
            if number is None or sentence is None:
                faults.append(f"{where} has no number, or no sentence")
            elif said.setdefault(number, sentence) != sentence:
                faults.append(f"{where} says of {number} '{sentence}', and another error '{said[number]}'")
    return said, faults


def differences(said, other, where):
    """The numbers of which another place says something else."""
    for number in sorted(said.keys() | other.keys()):
        if said.get(number) != other.get(number):
            yield f"{where}: of {number} it says '{other.get(number)}', and the crates '{said.get(number)}'"


def faults(sources, header, rust):
    """Where crates, header and Rust crate do not say the same."""
    said, found = of_crates(sources)
    enum, answers = of_header(header)
    answered = {number: sentence for number, sentence in enumerate(answers) if sentence != NO_REFUSAL}
    if not said:
        found.append("crates/: no error has numbers")
    found += differences(said, enum, "bindings/c/arrow_types.h, enum arrow_types_refusal")
    found += differences(said, answered, "bindings/c/arrow_types.h, arrow_types_sentence")
    found += differences(said, of_rust(rust), "bindings/rust/src/error.rs")
    return found
