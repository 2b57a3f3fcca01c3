#!/usr/bin/env python3
"""Tells what the merge gate costs: processor seconds by crate and kind, the dearest first.

    gate_times.py [CRATE ..]
    gate_times.py --log FILE
    gate_times.py --self-test

The first form measures, with `rt`, in a copy of the repository that is removed afterwards: each crate, or each
named one, is proved from nothing by `rt ci CRATE` without its wrong bodies, and then with them, one crate after
another, lowest first. What the two runs take, user and system time together, is the crate's own time and that of
its edits. So that no earlier run counts, each measured crate gets a comment of its own at the end of its root
file. The kind of a crate is `program` where it has a `main`, `tests` where it has tests (its library without them
among it), else `library`. All crates take about as long as a whole gate. A crate that fails is named with what
`rt` said, those above it are left out, and the status is 1.

`rt ci` itself prints no times. The second form reads what `time rt ci` printed, of whatever crates in whatever
order, and tells how much that run did and kept, and its processor time for 1,000 lines.
"""
import argparse
import os
import pathlib
import re
import secrets
import shutil
import subprocess
import sys
import tempfile

TOP = pathlib.Path(__file__).resolve().parent.parent
KINDS = ("library", "tests", "edits", "program")


def libraries_of(text):
    """The crates of a crates.txt, each with those of them that it names, as a dict in which lower crates come first."""
    named = {}
    for line in text.splitlines():
        head, colon, rest = line.partition("#")[0].partition(":")
        if colon:
            named[head.split()[0]] = rest.split()
    placed = {}

    def place(crate):
        below = [name for name in named[crate] if name in named]
        for name in below:
            if name not in placed:
                place(name)
        placed[crate] = below

    for crate in named:
        if crate not in placed:
            place(crate)
    return placed


def lines_of(folder):
    """The lines of code, definitions and proofs of a crate."""
    files = [path for part in ("src", "specs", "proofs") for path in (folder / part).rglob("*")
             if path.suffix in (".rt", ".antt")]
    return sum(path.read_bytes().count(b"\n") for path in files)


def kind_of(folder):
    if (folder / "src/main.rt").is_file():
        return "program"
    has_tests = any("#[test]" in path.read_text(encoding="utf-8") for path in (folder / "src").rglob("*.rt"))
    return "tests" if has_tests else "library"


def seconds_of(crates, folder):
    """The processor seconds of `rt ci CRATE ..` in the folder, or None where it fails, and what it said."""
    with tempfile.TemporaryFile("w+") as said:
        child = subprocess.Popen(["rt", "ci", *crates], cwd=folder, stdin=subprocess.DEVNULL, stdout=said, stderr=said)
        _, status, used = os.wait4(child.pid, 0)
        child.returncode = status
        said.seek(0)
        return (None if status else used.ru_utime + used.ru_stime), said.read()


def copied(folder, measured):
    """Copies what `rt ci` reads, without wrong bodies, and gives each measured crate a comment of its own."""
    for name in ("crates.txt", "HANDLES"):
        if (TOP / name).is_file():
            shutil.copy(TOP / name, folder)
    shutil.copytree(TOP / "crates", folder / "crates", ignore=shutil.ignore_patterns("out", "must-fail"))
    for crate in measured:
        for name in ("lib.rt", "main.rt"):
            root = folder / "crates" / crate / "src" / name
            if root.is_file():
                with open(root, "a", encoding="utf-8") as file:
                    file.write("\n// Measured as %s.\n" % secrets.token_hex(8))


def measured(crates, libraries, folder):
    """Yields crate, kind and seconds of each step; in place of seconds None where it failed."""
    failed, done = set(), set()
    for crate in libraries:
        if failed & set(libraries[crate]):
            failed.add(crate)
        if crate not in crates or crate in failed:
            continue
        below = [name for name in libraries[crate] if name not in done]
        if below:
            # These are not measured, so they are to be there before.
            seconds_of(below, folder)
            done.update(below)
        edits = TOP / "crates" / crate / "must-fail"
        steps = [kind_of(TOP / "crates" / crate)] + ["edits"] * any(edits.glob("*.edit"))
        for kind in steps:
            if kind == "edits":
                shutil.copytree(edits, folder / "crates" / crate / "must-fail")
            seconds, said = seconds_of([crate], folder)
            print("%s, %s: %s" % (crate, kind, "failed" if seconds is None else "%.0f s" % seconds), file=sys.stderr)
            if seconds is None:
                failed.add(crate)
                print(said[-3000:], file=sys.stderr)
            yield crate, kind, seconds
            if seconds is None:
                break
        done.add(crate)


def table(rows, lines):
    """The seconds by crate and kind, the dearest crate first, the sums of the kinds, and the sum for 1,000 lines."""
    by_crate = {}
    for crate, kind, seconds in rows:
        by_crate.setdefault(crate, {})[kind] = seconds
    out = ["%-16s %7s " % ("seconds", "all") + " ".join("%8s" % kind for kind in KINDS) + "    lines"]

    def row(name, of, count):
        shown = " ".join("%8.0f" % of[kind] if kind in of else "%8s" % "-" for kind in KINDS)
        return "%-16s %7.0f %s %8d" % (name, sum(of.values()), shown, count)

    for crate, of in sorted(by_crate.items(), key=lambda it: -sum(it[1].values())):
        out.append(row(crate, of, lines[crate]))
    sums = {kind: sum(of.get(kind, 0) for of in by_crate.values()) for kind in KINDS}
    whole = sum(lines[crate] for crate in by_crate)
    out.append(row("in all", sums, whole))
    out.append("%.2f processor minutes for 1,000 lines" % (sum(sums.values()) / 60 / max(whole, 1) * 1000))
    return out


def told(log, lines):
    """What a log of `time rt ci` tells: what that run did, what it kept, its times."""
    count = lambda pattern: re.findall(pattern, log, re.M)
    tests = count(r"^rt: (\w+): its tests are proved$")
    proved, kept = count(r"^rt: (\w+) proved$"), count(r"^rt: (\w+) is kept:")
    tried = sum(map(int, count(r"^rt: \w+: trying its must-fail edits \((\d+)\)$")))
    earlier = sum(map(int, count(r"^rt: \w+: (\d+) of its \d+ must-fail edits were tried by an earlier run")))
    out = ["crates proved: %d, kept from earlier runs: %d" % (len(proved), len(kept)),
           "tests proved: %d" % len(tests),
           "wrong bodies tried: %d, kept from earlier runs: %d" % (tried, earlier)]
    ended = count(r"^\d+ passed, \d+ failed.*$")[-1:]
    out += ended or ["the run did not end: its times tell nothing of the whole"]
    times = {name: int(minutes) * 60 + float(seconds)
             for name, minutes, seconds in count(r"^(real|user|sys)\s+(\d+)m([\d.]+)s$")}
    if not {"real", "user", "sys"} <= set(times):
        return out + ["no times: the log is to be that of `time rt ci`"]
    used, done = times["user"] + times["sys"], sum(lines.get(crate, 0) for crate in proved)
    out.append("processor minutes: %.1f, minutes passed: %.1f" % (used / 60, times["real"] / 60))
    if ended and done:
        out.append("%.2f processor minutes for 1,000 lines of what was proved" % (used / 60 / done * 1000))
    if kept or earlier:
        out.append("not from nothing: what was kept took no time, and its tests and programs ran all the same")
    return out


# Two crates are proved side by side, so that lines of both are mixed.
LOG = """rt: xs_low is kept: an earlier run on this machine proved the same files over the same libraries
== xs_mid
fn xs_mid::sum: proved
rt: xs_top: trying its must-fail edits (3)
rt: xs_mid proved
rt: xs_mid: trying its must-fail edits (2)
== xs_top
fn xs_top::run: proved
rt: xs_top proved
== xs_top: its tests
rt: xs_top: its tests are proved
rt: xs_low: 4 of its 4 must-fail edits were tried by an earlier run on this machine, and nothing that they stand on has changed
12 passed, 0 failed

real\t2m0.0s
user\t5m30.0s
sys\t0m30.0s
"""


def self_test():
    libraries = libraries_of("# c\nxs_top: xs_mid xs_low itoa\nxs_mid: xs_low\nxs_low: # none\n")
    assert libraries == {"xs_low": [], "xs_mid": ["xs_low"], "xs_top": ["xs_mid", "xs_low"]}, libraries
    assert list(libraries) == ["xs_low", "xs_mid", "xs_top"], libraries
    found = told(LOG, {"xs_low": 100, "xs_mid": 1000, "xs_top": 2000})
    assert found == ["crates proved: 2, kept from earlier runs: 1", "tests proved: 1",
                     "wrong bodies tried: 5, kept from earlier runs: 4", "12 passed, 0 failed",
                     "processor minutes: 6.0, minutes passed: 2.0",
                     "2.00 processor minutes for 1,000 lines of what was proved",
                     "not from nothing: what was kept took no time, and its tests and programs ran all the same"], found
    found = told(LOG.replace("12 passed, 0 failed\n", "Terminated\n"), {"xs_mid": 1000})
    assert found[3:5] == ["the run did not end: its times tell nothing of the whole",
                          "processor minutes: 6.0, minutes passed: 2.0"], found
    assert not [line for line in found if "1,000" in line], found
    assert told("rt: xs_low proved\n", {})[-1] == "no times: the log is to be that of `time rt ci`"
    rows = [("xs_low", "library", 60), ("xs_top", "library", 90), ("xs_top", "edits", 30)]
    found = table(rows, {"xs_low": 1000, "xs_top": 500})
    assert [line.split()[0] for line in found] == ["seconds", "xs_top", "xs_low", "in", "2.00"], found
    assert found[1].split()[1:] == ["120", "90", "-", "30", "-", "500"], found
    print("gate_times: self-test passed")


def main():
    words = argparse.ArgumentParser(description="Tells what the merge gate costs, by crate and kind.")
    words.add_argument("crates", nargs="*", metavar="CRATE", help="a crate, as xs_pixel; all without one")
    words.add_argument("--log", metavar="FILE", help="read what `time rt ci` printed, and measure nothing")
    words.add_argument("--self-test", action="store_true", help="test this script on a log of its own")
    given = words.parse_args()
    if given.self_test:
        return self_test()
    libraries = libraries_of((TOP / "crates.txt").read_text(encoding="utf-8"))
    lines = {crate: lines_of(TOP / "crates" / crate) for crate in libraries}
    if given.log:
        log = pathlib.Path(given.log).read_text(encoding="utf-8", errors="replace")
        return print("\n".join(told(log, lines)))
    crates = given.crates or list(libraries)
    lacking = [crate for crate in crates if crate not in libraries]
    if lacking:
        raise ValueError("crates.txt has no crate %s" % ", ".join(lacking))
    with tempfile.TemporaryDirectory(prefix="gate-times-") as room:
        folder = pathlib.Path(room)
        copied(folder, crates)
        rows = list(measured(crates, libraries, folder))
    whole = [row for row in rows if row[2] is not None]
    print("\n".join(table(whole, lines)))
    failed = [crate for crate, _, seconds in rows if seconds is None]
    if failed:
        print("failed: %s; those above were left out" % ", ".join(failed))
    return 1 if failed else 0


if __name__ == "__main__":
    try:
        sys.exit(main())
    except (OSError, ValueError) as fault:
        sys.exit("gate_times: %s" % fault)
