#!/usr/bin/env python3
"""Lists the wrong bodies that the prover must refuse.

    wrong_bodies.py [--check] [CRATE ..]

For each crate that has some, or for the named ones, it prints how many they are, and of each the name in
words, the file that it changes, and the changed text, old (-) and new (+). The wrong bodies are the files
crates/CRATE/must-fail/*.edit: after the line `file:` each line `old:` has its line `new:` behind it. With
--check it also tells whether each old text stands exactly once in its file, where the pairs before it have
changed it already; if one does not, the status is 1. Whether the prover refuses them is told by `rt`.
"""
import argparse
import pathlib
import sys

CRATES = pathlib.Path(__file__).resolve().parent.parent / "crates"


class Edit:
    def __init__(self, path):
        self.name = path.stem.replace("_", " ")
        self.file = None
        self.pairs = []
        old = None
        for number, line in enumerate(path.read_text(encoding="utf-8").splitlines(), 1):
            word, colon, text = line.partition(":")
            text = text[1:] if text.startswith(" ") else text
            if word == "file" and colon and self.file is None and text:
                self.file = text
            elif word == "old" and colon and self.file is not None and old is None and text:
                old = text
            elif word == "new" and colon and old is not None:
                self.pairs.append((old, text))
                old = None
            elif line.strip():
                raise ValueError("%s: line %d is none of file, old and new in this order" % (path, number))
        if old is not None or not self.pairs:
            raise ValueError("%s: no new text for an old one" % path)


def faults(edit, crate):
    """Each old text that does not stand exactly once in its file, as a sentence."""
    source = crate / edit.file
    if not source.is_file():
        return ["there is no file %s" % edit.file]
    text = source.read_text(encoding="utf-8")
    found = []
    for old, new in edit.pairs:
        times = text.count(old)
        if times != 1:
            found.append("stands %d times, not once: %s" % (times, old.strip()))
        text = text.replace(old, new, 1)
    return found


def show(crate, check):
    """Prints the wrong bodies of a crate; how many they are, and how many of their old texts are at fault."""
    edits = [Edit(path) for path in sorted((crate / "must-fail").glob("*.edit"))]
    wrong = 0
    print("%s: %d" % (crate.name, len(edits)))
    for edit in edits:
        print("  %s (%s)" % (edit.name, edit.file))
        for old, new in edit.pairs:
            print("    - %s\n    + %s" % (old.strip(), new.strip()))
        for fault in faults(edit, crate) if check else []:
            print("    FAULT: %s" % fault)
            wrong += 1
    return len(edits), wrong


def main():
    words = argparse.ArgumentParser(description="Lists the wrong bodies that the prover must refuse.")
    words.add_argument("crates", nargs="*", metavar="CRATE", help="a crate, as xs_pixel; all without one")
    words.add_argument("--check", action="store_true", help="tell whether each old text stands once in its file")
    given = words.parse_args()
    if given.crates:
        crates = [CRATES / name for name in given.crates]
    else:
        crates = [folder.parent for folder in sorted(CRATES.glob("*/must-fail"))]
    lacking = [crate.name for crate in crates if not crate.is_dir()]
    if lacking:
        raise ValueError("there is no crate %s" % ", ".join(lacking))
    told = [show(crate, given.check) for crate in crates]
    count, wrong = (sum(numbers) for numbers in zip(*told)) if told else (0, 0)
    print("in all: %d" % count)
    if given.check:
        print("faults: %d" % wrong)
    return 1 if wrong else 0


if __name__ == "__main__":
    try:
        sys.exit(main())
    except (OSError, ValueError) as fault:
        sys.exit("wrong_bodies: %s" % fault)
