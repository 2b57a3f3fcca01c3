#!/usr/bin/env python3
"""Makes a scene and its level files of a table in CSV and a folder of PNG drawings.

    sheet.py SHEET.csv DRAWINGS SCENE.json [--camera W H] [--cm32] [--ink RRGGBB[,..]] [--colour COLUMN]

The first line has the names of the columns, those further right in front; each further line is a row. In a cell
stands the name of a drawing, x for empty, or nothing: then what was there before is held. Before its first entry a
column is empty. A first column without a name, or named row or frame, has the numbers of the rows, from 1. What
parts the cells is a tab, a semicolon or a comma, the first of these that the first line has.
"""
import csv
import io
import sys

import scene_maker
from sheets import EMPTY, Column, Sheet

NUMBERING = ("", "row", "frame")
PARTING = "\t;,"
CROSS = "\u00d7"


def read(path, tell):
    """The sheet of a table. There is nothing in a table that a scene has not, so nothing is told."""
    try:
        with open(path, encoding="utf-8-sig", newline="") as file:
            text = file.read()
        first = text.partition("\n")[0]
        parting = next((it for it in PARTING if it in first), ",")
        return sheet_of(list(csv.reader(io.StringIO(text, newline=""), delimiter=parting, strict=True)))
    except UnicodeDecodeError as fault:
        raise ValueError("%s: byte %d is no UTF-8" % (path, fault.start)) from None
    except (ValueError, csv.Error) as fault:
        raise ValueError("%s: %s" % (path, fault)) from None


def sheet_of(lines):
    lines = [[cell.strip() for cell in line] for line in lines]
    if not lines or not any(lines[0]):
        raise ValueError("the first line has no names of columns")
    names, rows = lines[0], lines[1:]
    numbered = names[0].lower() in NUMBERING
    if numbered:
        look_at_numbers(rows)
        names, rows = names[1:], [row[1:] for row in rows]
    for number, name in enumerate(names, start=1):
        if not name:
            raise ValueError("column %d has no name" % number)
        if name in names[:number - 1]:
            raise ValueError("there are two columns %s" % name)
    for number, row in enumerate(rows, start=1):
        if len(row) > len(names):
            raise ValueError("row %d has %d cells, and there are %d columns" % (number, len(row), len(names)))
    return Sheet(len(rows), [Column(name, entries(rows, at)) for at, name in enumerate(names)])


def look_at_numbers(rows):
    for number, row in enumerate(rows, start=1):
        said = row[0] if row else ""
        if not (said.isascii() and said.isdigit() and int(said) == number):
            raise ValueError("row %d is numbered %s" % (number, said or "nothing"))


def entries(rows, at):
    """What stands in a column, by row."""
    found = {}
    for number, row in enumerate(rows, start=1):
        cell = row[at] if at < len(row) else ""
        if cell:
            found[number] = EMPTY if cell in ("x", "X", CROSS) else cell
    return found


if __name__ == "__main__":
    sys.exit(scene_maker.run(scene_maker.words_for("Makes a scene of a table in CSV.", "SHEET.csv"), read))
