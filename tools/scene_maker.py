"""A scene of format 2 and its level files, from an exposure sheet and a folder of PNG pictures.

A column becomes a column, in the order of the sheet. Columns of one name share a level. A picture lies in the
middle of the camera, without its clear borders. The scene is written last, when all level files are there.
"""
import argparse
import concurrent.futures
import contextlib
import json
import os
import re
import shutil
import signal
import sys
import tempfile

import names
import whole_file
from cels import LONGEST_SIDE, Cels, size_of
from drawings import Drawings
from sheets import exposures

SCENE_LIMIT = 16 << 20
LONGEST_PART = 80


def colours(text):
    """Colours as RRGGBB, with commas between."""
    found = re.fullmatch(r"#?[0-9a-fA-F]{6}(,#?[0-9a-fA-F]{6})*", text)
    if not found:
        raise argparse.ArgumentTypeError("%s is no list of colours such as 201820,c03020" % text)
    return [tuple(bytes.fromhex(it.lstrip("#"))) for it in text.split(",")]


def side(text):
    if not text.isascii() or not text.isdigit() or not 1 <= int(text) <= LONGEST_SIDE:
        raise argparse.ArgumentTypeError("a side of the camera is 1 to %d" % LONGEST_SIDE)
    return int(text)


class CommandLine(argparse.ArgumentParser):
    """The words of a script; their faults are one line and status 1."""

    def error(self, message):
        self.exit(1, "%s: %s\n" % (self.prog, message))


def words_for(description, sheet):
    """The words that all scripts that make scenes have."""
    words = CommandLine(prog=os.path.basename(sys.argv[0]).removesuffix(".py"), description=description)
    words.add_argument("sheet", metavar=sheet)
    words.add_argument("drawings", metavar="DRAWINGS", help="the folder of PNG pictures")
    words.add_argument("scene", metavar="SCENE.json", help="the level files are written beside it")
    words.add_argument("--camera", nargs=2, type=side, metavar=("W", "H"), help="else that of the largest picture")
    words.add_argument("--cm32", action="store_true", help="flat pictures become ink and paint drawings")
    words.add_argument("--ink", type=colours, action="append", metavar="RRGGBB[,..]",
                       help="these colours are ink; says --cm32 too")
    words.add_argument("--colour", action="append", default=[], metavar="COLUMN", help="this column stays in colour")
    return words


def in_a_line(words, text):
    """A line that a script tells; a name may have anything in it."""
    return "%s: %s" % (words.prog, "".join(it if it.isprintable() else "?" for it in str(text)))


def run(words, read):
    """Reads the words and the sheet and makes the scene; gives the status. Where it is refused, nothing else is told."""
    given = words.parse_args()
    signal.signal(signal.SIGTERM, lambda *_: sys.exit(130))
    told = []
    try:
        done = Maker(given, read(given.sheet, told.append), told.append).make()
    except (OSError, ValueError, concurrent.futures.BrokenExecutor) as fault:
        print(in_a_line(words, fault), file=sys.stderr)
        return 1
    except KeyboardInterrupt:
        return 130
    for line in told:
        print(in_a_line(words, line), file=sys.stderr)
    print(done)
    return 0


@contextlib.contextmanager
def room_in(folder):
    """A folder in this one, which is made where it lacks; what is left is removed, and after a fault the folder too."""
    made = not os.path.isdir(folder)
    os.makedirs(folder, exist_ok=True)
    room = tempfile.mkdtemp(prefix=".scene.", dir=folder)
    try:
        yield room
    except BaseException:
        shutil.rmtree(room)
        if made:
            os.rmdir(folder)
        raise
    shutil.rmtree(room)


class Level:
    """The drawings of the columns of one name: pictures by their place, the names of their files, and the styles of
    the palette where they are ink and paint."""

    def __init__(self, name, inks):
        self.name, self.inks = name, inks
        self.pictures, self.files, self.styles = [], [], None

    def text(self, palettes):
        """The level in a scene, whose palette is added to those that there are."""
        if self.inks is None:
            return {"kind": "colour", "drawings": self.files}
        palettes.append(self.styles)
        return {"kind": "cm32", "palette": len(palettes) - 1, "drawings": self.files}


def parts_of(level):
    """Pictures and files of a level that are made together: all, where they share a palette, else each by itself."""
    pairs = list(zip(level.pictures, level.files))
    return [[it] for it in pairs] if level.inks is None else [pairs]


def make_files(inks, pairs, room, camera):
    """Makes level files of pictures, and gives the styles of their palette."""
    cels = Cels(inks)
    for picture, file in pairs:
        cels.make(picture, os.path.join(room, file), camera)
    return cels.styles()


def make_all(levels, room, camera):
    """Makes the files of all levels, side by side where there is more than one processor."""
    jobs = [(level, part) for level in levels for part in parts_of(level)]
    with concurrent.futures.ProcessPoolExecutor(
            len(os.sched_getaffinity(0)), initializer=signal.signal, initargs=(signal.SIGINT, signal.SIG_IGN)) as pool:
        made = pool.map(make_files, [level.inks for level, _ in jobs], [part for _, part in jobs],
                        [room] * len(jobs), [camera] * len(jobs))
        for (level, _), styles in zip(jobs, made):
            level.styles = styles


class Maker:
    def __init__(self, given, sheet, tell):
        self.given, self.sheet, self.tell = given, sheet, tell
        self.folder, self.name = os.path.split(given.scene)
        if not names.is_legal(self.name):
            raise ValueError("%s is no name of a scene: 1 to 200 ASCII letters, digits, spaces, _ - and .," % self.name
                             + " the first neither . nor a space")
        self.drawings = Drawings(given.drawings)
        self.cells = [exposures(column, sheet.rows) for column in sheet.columns]
        self.levels = {}
        self.taken_names, self.taken_files = names.Taken(), names.Taken([self.name])

    def inks_of(self, column):
        """The colours of inks of a column; None where it stays in colour."""
        if column in self.given.colour or not (self.given.cm32 or self.given.ink):
            return None
        return {colour for some in self.given.ink or [] for colour in some}

    def find(self):
        """The picture of each column and drawing, and the levels with the names of their files."""
        shown = [(column.name, drawing) for column, cells in zip(self.sheet.columns, self.cells)
                 for _, _, drawing in cells]
        found = self.drawings.find_all(dict.fromkeys(shown))
        for column in self.sheet.columns:
            if column.name not in self.levels:
                self.levels[column.name] = Level(self.level_name(column.name), self.inks_of(column.name))
        for (column, drawing), picture in found.items():
            level = self.levels[column]
            if picture not in level.pictures:
                level.pictures.append(picture)
                level.files.append(self.file_name(level.name, column, drawing))
        return found

    def level_name(self, column):
        """A name for the files of a column, which is told where it is another one."""
        name = names.legal(column, "column%d" % (len(self.levels) + 1), LONGEST_PART)
        name = self.taken_names.give(name)
        if name != column:
            self.tell("the files of column %s are named %s" % (column, name))
        return name

    def file_name(self, level, column, drawing):
        part = names.legal(drawing, "drawing", LONGEST_PART)
        name = "%s.%s" % (level, part.zfill(4) if part.isdigit() else part)
        file = self.taken_files.give(name) + ".xrl"
        if part != drawing or file != name + ".xrl":
            self.tell("the file of drawing %s of column %s is named %s" % (drawing, column, file))
        return file

    def camera(self):
        """Width and height, by the option or by the picture with the most pixels."""
        sizes = [size_of(it) for level in self.levels.values() for it in level.pictures]
        if self.given.camera:
            return tuple(self.given.camera)
        if not sizes:
            raise ValueError("the sheet shows no drawing, so the camera has no size: say it by --camera W H")
        return max(sizes, key=lambda size: size[0] * size[1])

    def make(self):
        """Makes all files, and gives a line that tells what they are."""
        for name in self.given.colour:
            if name not in [column.name for column in self.sheet.columns]:
                raise ValueError("--colour %s: the sheet has no such column" % name)
        found = self.find()
        camera = self.camera()
        with room_in(self.folder or ".") as room:
            make_all(self.levels.values(), room, camera)
            self.tell_unused_inks()
            text = self.text(found, camera)
            for file in [file for level in self.levels.values() for file in level.files]:
                os.replace(os.path.join(room, file), os.path.join(self.folder, file))
            whole_file.write(self.given.scene, text)
        return "%s: %d rows, %d columns, %d drawings, camera %d by %d" % (
            self.given.scene, self.sheet.rows, len(self.cells), sum(len(it.files) for it in self.levels.values()), *camera)

    def tell_unused_inks(self):
        """A colour that no drawing has is likely another one than was meant."""
        used = {tuple(style[:3]) for level in self.levels.values() for style in (level.styles or [])[1:]}
        for colour in [colour for some in self.given.ink or [] for colour in some]:
            if colour not in used:
                self.tell("no drawing has the ink %s" % bytes(colour).hex())

    def text(self, found, camera):
        """The text of the scene."""
        palettes = []
        numbers = {name: number for number, name in enumerate(self.levels)}
        levels = [level.text(palettes) for level in self.levels.values()]
        columns = [{"cells": [self.cell(cell, column.name, numbers[column.name], found) for cell in cells]}
                   for column, cells in zip(self.sheet.columns, self.cells)]
        scene = {"format": 2, "camera": {"w": camera[0], "h": camera[1]}, "palettes": palettes, "levels": levels,
                 "sheets": [{"columns": columns}]}
        text = json.dumps(scene).encode("ascii") + b"\n"
        if len(text) > SCENE_LIMIT:
            raise ValueError("the scene has %d bytes, and a scene file at most %d" % (len(text), SCENE_LIMIT))
        return text

    def cell(self, cell, column, number, found):
        begin, end, drawing = cell
        place = self.levels[column].pictures.index(found[column, drawing])
        return {"from": begin, "to": end, "level": number, "drawing": place}
