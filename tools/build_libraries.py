#!/usr/bin/env python3
"""Proves and builds the libraries that a crate stands on, as many side by side as there are processors.

    build_libraries.py CRATE [--lanes N] [--from-nothing]

`rt lib` keeps every crate below the one that it builds to itself, so in one checkout there is one at a time. This
script makes a few copies of these crates in a folder under out/, which it removes at the end; each of its lanes
runs `rt lib` in a copy of its own, for a crate whose libraries are there, those with the longest chain of others
behind them first. The first of the chain gets what processors `rt` gives it, the others one each, behind it. What
is built in one copy is given to the others, and `rt` takes it in the checkout itself. Says of each crate when it is
done, and how many are. Where one fails, it is named with the end of what `rt` said, and the
status is 1. With --from-nothing no check begins with what an earlier one kept: that is for measuring, in a checkout
whose text no other has.
"""
import argparse
import os
import pathlib
import shutil
import signal
import subprocess
import sys
import tempfile
import time

from gate_times import TOP, libraries_of, lines_of

# The memory that is to be free before one more check begins beside others.
ROOM = 3 << 30


def below(crate, libraries):
    """The crates that a crate stands on, directly or not, lower ones first."""
    found = set()

    def add(name):
        for lower in libraries[name]:
            if lower not in found:
                found.add(lower)
                add(lower)

    add(crate)
    return [name for name in libraries if name in found]


def behind(crates, libraries, lines):
    """For each crate the lines of the longest chain that begins with it."""
    longest = {}
    for crate in reversed(crates):
        above = [longest[name] for name in crates if crate in libraries[name]]
        longest[crate] = lines[crate] + max(above, default=0)
    return longest


def free_memory():
    try:
        for line in pathlib.Path("/proc/meminfo").read_text(encoding="utf-8").splitlines():
            if line.startswith("MemAvailable:"):
                return int(line.split()[1]) << 10
    except OSError:
        pass
    return ROOM


def copied(folder, crates, from_nothing):
    """Makes a copy of what the crates are proved from, with a crates.txt of them alone."""
    folder.mkdir()
    if (TOP / "HANDLES").is_file():
        shutil.copy(TOP / "HANDLES", folder)
    with open(TOP / "crates.txt", encoding="utf-8") as listed, open(folder / "crates.txt", "w", encoding="utf-8") as kept:
        kept.writelines(line for line in listed if line.partition(":")[0].partition(" ")[0] in crates)
    for crate in crates:
        shutil.copytree(TOP / "crates" / crate, folder / "crates" / crate,
                        ignore=shutil.ignore_patterns("out", "must-fail", "data"))
        if from_nothing:
            (folder / "crates" / crate / "out" / "incremental").mkdir(parents=True)


def sweep(out):
    """Removes the copies of runs that were killed."""
    for left in out.glob("lanes.*.*"):
        if not pathlib.Path("/proc", left.name.split(".")[1]).exists():
            shutil.rmtree(left, ignore_errors=True)


class Lanes:
    """The copies, and the checks that run in them."""

    def __init__(self, room, crates, libraries, count, from_nothing):
        self.room, self.crates, self.libraries = room, crates, libraries
        self.longest = behind(crates, libraries, {crate: lines_of(TOP / "crates" / crate) for crate in crates})
        self.done, self.running, self.begun = [], {}, time.monotonic()
        self.copies = [room / str(number) for number in range(count)]
        self.idle = list(self.copies)
        for lane in self.copies:
            copied(lane, crates, from_nothing)

    def next(self):
        """The crate to begin now, if there is one."""
        left = [it for it in self.crates if it not in self.done and it not in self.running]
        ready = [it for it in left if all(lower in self.done for lower in self.libraries[it])]
        has_room = self.idle and (not self.running or free_memory() > ROOM)
        return max(ready, key=self.longest.get) if ready and has_room else None

    def begin(self, crate):
        """Begins a check; the first of the longest chain gets the processors that it can use, any other one."""
        others = [self.longest[it] for it in self.crates if it not in self.done and it != crate]
        is_first = self.longest[crate] >= max(others, default=0)
        words = ["rt", "lib"] if is_first else ["nice", "-n", "5", "rt", "lib", "--jobs", "1"]
        lane = self.idle.pop()
        with open(self.room / (crate + ".log"), "w", encoding="utf-8") as log:
            child = subprocess.Popen(words, cwd=lane / "crates" / crate, stdin=subprocess.DEVNULL, stdout=log,
                                     stderr=subprocess.STDOUT, start_new_session=True)
        self.running[crate] = child, lane

    def ended(self):
        """Waits until a check ends, and gives its crate, its status and its copy."""
        while True:
            for crate, (child, lane) in self.running.items():
                if child.poll() is not None:
                    del self.running[crate]
                    self.idle.append(lane)
                    return crate, child.returncode, lane
            time.sleep(0.1)

    def share(self, crate, lane):
        """Gives what was built to the other copies. Where the checkout has nothing of the crate, it gets that too,
        and what the check kept, so that later checks begin with it."""
        part = pathlib.Path("crates") / crate / "out"
        for other in self.copies:
            if other != lane:
                shutil.rmtree(other / part / "rlib", ignore_errors=True)
                self.link(lane / part / "rlib", other / part / "rlib")
        (TOP / part).mkdir(exist_ok=True)
        if not (TOP / part / "rlib").exists():
            self.link(lane / part / "rlib", self.room / "ready")
            (self.room / "ready").rename(TOP / part / "rlib")
        if (lane / part / "incremental").is_dir() and not (TOP / part / "incremental").exists():
            (lane / part / "incremental").rename(TOP / part / "incremental")

    def link(self, one, other):
        """Gives the files of a library a second name: rt writes into none that is there."""
        shutil.copytree(one, other, copy_function=os.link)

    def stop(self):
        for child, _ in self.running.values():
            try:
                os.killpg(child.pid, signal.SIGTERM)
            except ProcessLookupError:
                pass
            child.wait()

    def say(self, text):
        print("vazhettin: %s" % text, file=sys.stderr, flush=True)

    def build(self):
        """Builds all, and gives the status."""
        while len(self.done) < len(self.crates):
            while (crate := self.next()) is not None:
                self.begin(crate)
            crate, status, lane = self.ended()
            if status:
                self.say("%s FAILED:\n%s" % (crate, (self.room / (crate + ".log")).read_text(errors="replace")[-3000:]))
                return 1
            self.done.append(crate)
            self.share(crate, lane)
            self.say("%d of %d libraries are proved: %s (%d s)"
                     % (len(self.done), len(self.crates), crate, time.monotonic() - self.begun))
        return self.hand_over()

    def hand_over(self):
        """Has `rt` take in the checkout what the copies have built, and gives the status."""
        for crate in self.crates:
            if not any(crate in self.libraries[above] for above in self.crates):
                ran = subprocess.run(["rt", "lib"], cwd=TOP / "crates" / crate, stdin=subprocess.DEVNULL,
                                     stdout=subprocess.PIPE, stderr=subprocess.STDOUT, text=True, errors="replace")
                if ran.returncode:
                    self.say("%s FAILED:\n%s" % (crate, ran.stdout[-3000:]))
                    return 1
        return 0


def main():
    words = argparse.ArgumentParser(description="Proves and builds the libraries below a crate, side by side.")
    words.add_argument("crate", metavar="CRATE")
    words.add_argument("--lanes", type=int, default=len(os.sched_getaffinity(0)), metavar="N")
    words.add_argument("--from-nothing", action="store_true")
    given = words.parse_args()
    libraries = libraries_of((TOP / "crates.txt").read_text(encoding="utf-8"))
    if given.crate not in libraries or given.lanes < 1:
        raise ValueError("crates.txt has no crate %s, or there is no lane" % given.crate)
    for number in (signal.SIGTERM, signal.SIGHUP):
        signal.signal(number, lambda *_: sys.exit(130))
    out = TOP / "out"
    out.mkdir(exist_ok=True)
    sweep(out)
    with tempfile.TemporaryDirectory(prefix="lanes.%d." % os.getpid(), dir=out) as room:
        lanes = Lanes(pathlib.Path(room), below(given.crate, libraries), libraries, given.lanes, given.from_nothing)
        try:
            return lanes.build()
        finally:
            lanes.stop()


if __name__ == "__main__":
    try:
        sys.exit(main())
    except (OSError, ValueError) as fault:
        sys.exit("build_libraries: %s" % fault)
    except KeyboardInterrupt:
        sys.exit(130)
