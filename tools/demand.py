#!/usr/bin/env python3
"""Draws what a range of rows demands, section by section.

    demand.py SCENE FROM TO [PICTURE.svg]

Runs `vazhettin dry` from FROM to the end of each section of eight rows in turn. Aliases keep their numbers, so those
that a longer range adds come first in its last section, and those with more readers are still read there. The
picture, SCENE.demand.svg if no other is named, shows for each section the tiles that are held before it and those
that are made in it, and the drawings that are held. The greatest sum of tiles is printed: so much the tiles of this
range take at most. A refusal is passed on, with its status, and then no picture is written. VAZHETTIN names the
program; without it that is the launcher beside this folder.
"""
import argparse
import array
import os
import pathlib
import subprocess
import sys

import demand_picture
import whole_file

SECTION_ROWS = 8
LAST_ROW = 9999
MOST_ROWS = 4096


class Refused(Exception):
    """The program refused, with this status and these words."""

    def __init__(self, status, words):
        super().__init__(words)
        self.status = status


class Demand:
    """What the sections so far demand: of each alias its bytes, its readers and its first and last section, and of
    each drawing the sections that need it first and last."""

    def __init__(self):
        self.size = array.array("L")
        self.readers = array.array("L")
        self.first = array.array("L")
        self.last = array.array("L")
        self.drawings = {}

    def take(self, section, lines):
        """Takes the lines of a range that ends with this section."""
        for line in lines:
            number, job, tile, readers = parts_of(line)
            if number == len(self.size):
                self.add(section, job, tile)
            if readers > self.readers[number]:
                self.readers[number] = readers
                self.last[number] = section

    def add(self, section, job, tile):
        """Adds an alias that comes first in this section."""
        self.size.append(4 * tile[2] * tile[3])
        self.readers.append(0)
        self.first.append(section)
        self.last.append(section)
        if job[0] in ("leaf", "tinted"):
            needed_first, _ = self.drawings.get(job[1], (section, section))
            self.drawings[job[1]] = (needed_first, section)

    def sections(self, count):
        """Of each section the bytes of tiles held before it and made in it, and how many drawings are held in it."""
        held, made, drawn = [0] * (count + 1), [0] * count, [0] * (count + 1)
        for size, first, last in zip(self.size, self.first, self.last):
            made[first] += size
            if first < last:
                held[first + 1] += size
                held[last + 1] -= size
        for first, last in self.drawings.values():
            drawn[first] += 1
            drawn[last + 1] -= 1
        return list(zip(sums(held)[:count], made, sums(drawn)[:count]))


def sums(steps):
    """The sum of the steps up to each."""
    total, all_sums = 0, []
    for step in steps:
        total += step
        all_sums.append(total)
    return all_sums


def parts_of(line):
    """The number of an alias, the words of its job, its tile and its readers, of a line of `dry`."""
    head, tile, readers = line.split("; ")
    number, job = head.split(": ", 1)
    return (int(number), job.split(), [int(side) for side in tile.split()[1:]], int(readers.split()[1]))


def program():
    """The words that run the renderer."""
    here = pathlib.Path(__file__).resolve().parent.parent / "vazhettin"
    return os.environ.get("VAZHETTIN", str(here))


def dry(scene, first, last):
    """The lines of `dry`, without the last one."""
    words = [program(), "dry", scene, str(first), str(last)]
    with subprocess.Popen(words, stdout=subprocess.PIPE, stderr=subprocess.PIPE, text=True) as run:
        before = None
        for line in run.stdout:
            if before is not None:
                yield before
            before = line
        said = run.stderr.read()
    if run.returncode != 0:
        raise Refused(run.returncode, said)


def demand_of(scene, first, ends):
    """The demand of the rows from the first on, whose sections have these last rows."""
    demand = Demand()
    for section, last in enumerate(ends):
        demand.take(section, dry(scene, first, last))
    return demand


def tell(sections, first, ends):
    """Prints the greatest sum of tiles."""
    most = max(range(len(sections)), key=lambda s: sections[s][0] + sections[s][1])
    held, made, _ = sections[most]
    print("tiles take at most %.1f MiB, in section %d, rows %d to %d: %.1f held before it and %.1f made in it"
          % ((held + made) / 2**20, most, first + SECTION_ROWS * most, ends[most], held / 2**20, made / 2**20))


def rows(words):
    """The range of rows that the words say."""
    if not 1 <= words.first <= words.last <= LAST_ROW or words.last - words.first >= MOST_ROWS:
        sys.exit("demand: rows are 1 to %d, the first up to the last, and at most %d" % (LAST_ROW, MOST_ROWS))
    return words.first, words.last


def main():
    """Draws what the words say."""
    words = argparse.ArgumentParser(description=__doc__.splitlines()[0])
    words.add_argument("scene")
    words.add_argument("first", type=int, metavar="FROM")
    words.add_argument("last", type=int, metavar="TO")
    words.add_argument("picture", nargs="?", metavar="PICTURE.svg")
    said = words.parse_args()
    first, last = rows(said)
    ends = [min(end, last) for end in range(first + SECTION_ROWS - 1, last + SECTION_ROWS, SECTION_ROWS)]
    try:
        sections = demand_of(said.scene, first, ends).sections(len(ends))
    except Refused as refused:
        sys.stderr.write(str(refused))
        return refused.status
    except OSError as fault:
        sys.exit("demand: %s" % fault)
    tell(sections, first, ends)
    picture = said.picture or said.scene + ".demand.svg"
    whole_file.write(picture, demand_picture.drawn(said.scene, first, ends, sections).encode("utf-8"))
    return 0


if __name__ == "__main__":
    sys.exit(main())
