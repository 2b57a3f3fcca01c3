#!/usr/bin/env python3
"""Makes a scene and its level files of a digital time sheet (XDTS) and a folder of PNG drawings.

    xdts_to_scene.py SHEET.xdts DRAWINGS SCENE.json [--camera W H] [--cm32] [--ink RRGGBB[,..]] [--colour COLUMN]

A track becomes a column; one of a higher number lies in front. Which picture is meant by a drawing is told in
drawings.py and in README.md. What the sheet has and a scene has not is told on standard error, a line each.
"""
import sys

import scene_maker
import xdts

if __name__ == "__main__":
    words = scene_maker.words_for("Makes a scene of a digital time sheet (XDTS).", "SHEET.xdts")
    sys.exit(scene_maker.run(words, xdts.read))
