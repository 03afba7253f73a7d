"""For the scripts here: says in a sentence what is missing and ends the script with 2."""

import pathlib
import shutil
import sys


def tools(*names):
    """Each of these commands must be there."""
    missing = [name for name in names if shutil.which(name) is None]
    for name in missing:
        complain(f"there is no {name} here; README.md says under 'You need' what it is for.")
    if missing:
        sys.exit(2)


def path(wanted, sentence):
    """This file or folder must be there; the sentence says how it is had."""
    if not pathlib.Path(wanted).exists():
        complain(f"there is no {wanted}: {sentence}")
        sys.exit(2)


def complain(sentence):
    print(f"{sys.argv[0]}: {sentence}", file=sys.stderr)
