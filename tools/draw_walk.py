#!/usr/bin/env python3
"""Draws the level files of the sample `walk` and writes its scene, into the folder that is named."""
import json
import math
import os
import sys

import pictures
from ink import Cel, circle, common, ellipse, limb, polygon, union

WIDTH, HEIGHT = 320, 180
ROWS = 24
DRAWINGS = 12
STRIDE = 48
GROUND = 34

# Styles of the walker's palette.
_, LINE, COAT, SLEEVE, SKIN, SCARF, HAT, BAND, TROUSERS, BOOT, CHEEK, WHITE = range(12)

STYLES = [
    [0, 0, 0, 0], [46, 30, 48, 255], [214, 92, 64, 255], [196, 78, 56, 255], [250, 214, 178, 255],
    [64, 168, 160, 255], [74, 92, 150, 255], [236, 226, 206, 255], [70, 76, 118, 255],
    [120, 72, 52, 255], [240, 160, 132, 255], [255, 255, 255, 255],
]


def bob(t):
    """How far the hip is above its lowest place."""
    return 3.0 * (1 - math.cos(4 * math.pi * t)) / 2


def foot(t):
    """The ankle's place and the sole's slope at a phase of the walk; the foot is down in its first half."""
    if t < 0.5:
        u = t / 0.5
        heel = max(0.0, (u - 0.7) / 0.3)
        toe = max(0.0, 1 - u / 0.16)
        return STRIDE / 2 - STRIDE * u, 7 + 5 * heel, -0.75 * heel + 0.42 * toe
    u = (t - 0.5) / 0.5
    smooth = u * u * (3 - 2 * u)
    lift = 12 * math.sin(math.pi * u) ** 0.8
    slope = -0.75 * (1 - min(1.0, u * 1.6)) + 0.42 * max(0.0, (u - 0.5) * 2)
    return -STRIDE / 2 + STRIDE * smooth, 7 + 5 * (1 - u) ** 2 + lift, slope


def joint(ax, ay, bx, by, first, second, side):
    """Where a limb of two parts bends between its ends."""
    dx, dy = bx - ax, by - ay
    length = min(math.hypot(dx, dy), first + second - 0.01)
    along = (first * first - second * second + length * length) / (2 * length)
    away = math.sqrt(max(0.0, first * first - along * along)) * side
    ux, uy = dx / length, dy / length
    return ax + ux * along - uy * away, ay + uy * along + ux * away


def leg(t):
    hx, hy = 0.0, 52 + bob(t)
    fx, fy, slope = foot(t)
    kx, ky = joint(hx, hy, fx, fy, 26.5, 26.5, 1)
    cos, sin = math.cos(slope), math.sin(slope)
    toe = (fx + 9 * cos + 2 * sin, fy + 9 * sin - 2.5 * cos)
    heel = (fx - 2 * cos + 2 * sin, fy - 2 * sin - 2.5 * cos)
    dx, dy = kx - fx, ky - fy
    shaft = 11 / math.hypot(dx, dy)
    cel = Cel(LINE)
    cel.add(union(limb(hx, hy, 8, kx, ky, 6.2), limb(kx, ky, 6.2, fx, fy, 4.6)), TROUSERS)
    cel.add(union(limb(*heel, 4.2, *toe, 4), limb(fx, fy, 5, fx + dx * shaft, fy + dy * shaft, 5.8)), BOOT)
    return cel


def arm(t):
    """The arm swings against the leg of its side."""
    swing = -0.62 * math.cos(2 * math.pi * t)
    sx, sy = 0.0, 84.0
    ex, ey = sx + 17 * math.sin(swing), sy - 17 * math.cos(swing)
    bent = swing + 0.35 + 0.25 * math.sin(swing)
    wx, wy = ex + 15 * math.sin(bent), ey - 15 * math.cos(bent)
    cel = Cel(LINE)
    cel.add(circle(wx + 3 * math.sin(bent), wy - 3 * math.cos(bent), 5), SCARF)
    cel.add(union(limb(sx, sy, 6.5, ex, ey, 5.8), limb(ex, ey, 5.8, wx, wy, 5.4)), SLEEVE)
    return cel


def body():
    cel = Cel(LINE)
    coat = polygon([(-10, 88), (9, 88), (13, 70), (17, 43), (-17, 43), (-13, 70)], 4)
    cel.add(coat, COAT)
    cel.add(limb(1, 92, 4, 2, 97, 4), SKIN)
    head = union(circle(3, 106, 13.5), ellipse(16.5, 103, 4, 3.2))
    cel.add(head, SKIN)
    cel.add(common(head, ellipse(9.5, 99.5, 3.6, 2.6)), CHEEK, line=0)
    cel.add(ellipse(11, 106.5, 1.7, 2.6), LINE, line=0)
    cel.add(ellipse(11.7, 107.4, 0.7, 0.8), WHITE, line=0)
    cel.add(common(circle(2.4, 107, 14.6), polygon([(-14, 109), (18, 113), (18, 130), (-14, 130)])), HAT)
    cel.add(circle(-2, 122.5, 4.4), BAND)
    cel.add(limb(-11.5, 109.4, 3.2, 15.6, 113.2, 3.2), BAND)
    return cel


def scarf(t):
    """The tail of the scarf waves behind the walker; the rest lies round the neck."""
    cel = Cel(LINE)
    points = []
    for i in range(9):
        u = i / 8
        wave = math.sin(2 * math.pi * (u * 0.9 - t)) * 5 * u
        points.append((-6 - 30 * u, 91 + wave + 3 * u))
    strokes = [limb(ax, ay, 3.6 + 1.6 * i / 8, bx, by, 3.8 + 1.6 * i / 8)
               for i, ((ax, ay), (bx, by)) in enumerate(zip(points, points[1:]))]
    cel.add(union(*strokes), SCARF)
    cel.add(limb(-8, 91.5, 5, 10, 92.5, 4.6), SCARF)
    return cel


# Colour drawings: a function gives the straight colour at a point.

def mixed(a, b, t):
    return [a[i] + (b[i] - a[i]) * t for i in range(len(a))]


def over(upper, lower):
    a = upper[3] / 255
    return [upper[i] * a + lower[i] * (1 - a) for i in range(3)] + [255 * a + lower[3] * (1 - a)]


def paint(path, left, bottom, right, top, colour):
    rows = []
    for y in range(bottom, top):
        row = []
        for x in range(left, right):
            row += [max(0, min(255, round(v))) for v in colour(x + 0.5, y + 0.5)]
        rows.append(pictures.premultiplied(row))
    pictures.write_level(path, 0, left, bottom, right - left, top - bottom, rows)


def edge(d):
    """The alpha of a point so far inside."""
    return 255 * max(0.0, min(1.0, 0.5 - d))


SKY = [(0.0, (255, 190, 120)), (0.18, (250, 146, 110)), (0.42, (190, 104, 140)), (0.72, (98, 78, 148)),
       (1.0, (48, 50, 110))]


def sky(x, y):
    t = (y - GROUND) / (HEIGHT - GROUND)
    for (a, low), (b, high) in zip(SKY, SKY[1:]):
        if t <= b:
            colour = mixed(low, high, max(0.0, t - a) / (b - a)) + [255]
            break
    glow = math.hypot(x - 226, y - 74)
    colour = over([255, 226, 170, 150 * math.exp(-glow / 34)], colour)
    colour = over([255, 240, 206, edge(glow - 22)], colour)
    far = y - (58 + 9 * math.sin(x / 47 + 0.6) + 5 * math.sin(x / 19 + 2) + 2 * math.sin(x / 7.3))
    colour = over([122, 84, 138, edge(far)], colour)
    near = y - (47 + 6 * math.sin(x / 31 + 4) + 3.5 * math.sin(x / 13 + 1))
    return over([88, 66, 122, edge(near)], colour)


def trees(x, y):
    """A hedge with a tree, again and again each 48 pixels."""
    u = x % STRIDE
    shapes = [y - (GROUND + 7 + 2.5 * math.sin(2 * math.pi * u / 24) + 1.5 * math.sin(2 * math.pi * u / 16))]
    for at in (u - STRIDE, u, u + STRIDE):
        shapes.append(max(abs(at - 15) - 1.2, y - (GROUND + 22)))
        shapes.append(math.hypot((at - 15) / 0.8, y - (GROUND + 28)) - 11)
        shapes.append(math.hypot(at - 20, y - (GROUND + 22)) - 6)
        shapes.append(max(abs(at - 38) - 0.8, y - (GROUND + 12)))
        shapes.append(math.hypot((at - 38) / 0.7, y - (GROUND + 16)) - 8)
    return [56, 48, 92, edge(min(shapes))]


def ground(x, y):
    u = x % (2 * STRIDE)
    colour = mixed((60, 88, 84), (34, 46, 66), (GROUND - y) / GROUND) + [255]
    path = abs(y - 26 - 1.5 * math.sin(2 * math.pi * u / 96)) - 5.5
    colour = over([150, 122, 118, edge(path) * 0.75], colour)
    for stone, high, size in ((11, 24, 2.4), (37, 28, 1.8), (58, 23, 1.6), (80, 27, 2.8)):
        for at in (u - 2 * STRIDE, u, u + 2 * STRIDE):
            d = math.hypot((at - stone) / 1.7, y - high) - size
            colour = over([198, 168, 150, edge(d)], colour)
    top = y - (GROUND - 2 + 1.2 * math.sin(2 * math.pi * u / 12) * math.sin(2 * math.pi * u / 32))
    return colour[:3] + [min(colour[3], edge(top))]


def grass(x, y):
    """Blades in front of the walker, again and again each 96 pixels."""
    u = x % (2 * STRIDE)
    d = y - (5 + 1.5 * math.sin(2 * math.pi * u / 48))
    for i in range(24):
        root = (i * 37 % 96) + 0.5
        tall, lean = 9 + i * 13 % 9, (i * 7 % 9 - 4) * 0.9
        for at in (u - 2 * STRIDE, u, u + 2 * STRIDE):
            t = max(0.0, min(1.0, y / tall))
            d = min(d, max(abs(at - root - lean * t * t) - 1.3 * (1 - t) - 0.1, y - tall))
    return [22, 30, 48, edge(d)]


def plaid(x, y):
    """The pattern of the coat."""
    u, v = x % 12, y % 12
    alpha = 0
    if u < 4:
        alpha += 70
    if v < 4:
        alpha += 70
    colour = [120, 30, 52, alpha]
    if 7 <= u < 8 or 7 <= v < 8:
        colour = over([255, 214, 120, 150], colour)
    return colour


def shadow(x, y):
    return [20, 16, 44, 110 * max(0.0, min(1.0, 2.2 * (1 - math.hypot(x / 30, y / 4.5))))]


def stars(path):
    cel = Cel(1)
    for i in range(34):
        x, y = (i * i * 37 + i * 71 + 23) % WIDTH, HEIGHT - 4 - (i * i * 13 + i * 29) % 66
        cel.add(circle(x + 0.5, y + 0.5, 0.7 + 0.35 * (i % 2)), 1 + i % 3, line=0)
    cel.write(path, 0, 100, WIDTH, HEIGHT)


# The scene

def on_twos(level, first, count):
    return [{"from": 2 * i + 1, "to": 2 * i + 2, "level": level, "drawing": (i + first) % count}
            for i in range(ROWS // 2)]


def held(level):
    return [{"from": 1, "to": ROWS, "level": level, "drawing": 0}]


def column(n):
    return {"column": n}


def node(n):
    return {"node": n}


def moving(x):
    """From row 1 to the row after the last, when all is as it was."""
    return [{"row": 1, "x": 0, "y": 0, "line": True}, {"row": ROWS + 1, "x": x, "y": 0}]


def bobbing():
    keys = [{"row": 2 * i + 1, "x": 0, "y": round(bob(i / DRAWINGS))} for i in range(DRAWINGS)]
    return {"keys": keys}


def twinkling():
    bright, dim = [255, 244, 220, 230], [255, 236, 214, 90]
    keys = []
    for style in (1, 2, 3):
        for i in range(3):
            keys.append({"row": 8 * i + 1, "style": style, "rgba": bright if (i + style) % 3 else dim})
    return {"styles": [[0, 0, 0, 0], dim, dim, dim], "keys": keys}


def walker():
    """The walker, in pieces on one peg that goes up and down."""
    legs, arms, trunk, tail, pattern = 4, 5, 6, 7, 8
    return {
        "pegs": [
            bobbing(),
            {"keys": [{"row": 1, "x": -3, "y": 1}]},
            {"parent": 0, "keys": [{"row": 1, "x": -4, "y": 0}]},
        ],
        "columns": [
            {"cells": on_twos(legs, 0, DRAWINGS)},
            {"peg": 1, "cells": on_twos(legs, DRAWINGS // 2, DRAWINGS)},
            {"peg": 0, "cells": on_twos(arms, 0, DRAWINGS)},
            {"peg": 2, "cells": on_twos(arms, DRAWINGS // 2, DRAWINGS)},
            {"peg": 0, "cells": held(trunk)},
            {"peg": 0, "cells": on_twos(tail, 0, DRAWINGS // 2)},
            {"peg": 0, "cells": held(pattern)},
        ],
        "nodes": [
            {"op": "card", "rgba": [168, 150, 190, 255]},
            {"op": "mult", "first": column(1), "second": node(0)},
            {"op": "mult", "first": column(3), "second": node(0)},
            {"op": "keep", "input": column(4), "styles": [COAT]},
            {"op": "in", "first": column(6), "second": node(3)},
        ],
        "out": [node(2), node(1), column(0), column(4), node(4), column(5), column(2)],
    }


def landscape():
    return {
        "pegs": [
            {"keys": moving(-2 * STRIDE)},
            {"keys": moving(-STRIDE)},
            {"keys": [{"row": 1, "x": 132, "y": 22}]},
        ],
        "columns": [
            {"cells": held(0)},
            {"cells": held(1)},
            {"peg": 1, "cells": held(2)},
            {"peg": 0, "cells": held(3)},
            {"peg": 2, "cells": held(9)},
            {"peg": 2, "cells": [{"from": 1, "to": ROWS, "sheet": 1, "start": 1}]},
            {"peg": 0, "cells": held(10)},
        ],
    }


def colour_level(name):
    return {"kind": "colour", "drawings": [name]}


def cels(name, count):
    names = ["%s.%04d.xrl" % (name, i + 1) for i in range(count)] if count > 1 else [name + ".xrl"]
    return {"kind": "cm32", "palette": 0, "drawings": names}


def scene():
    return {
        "format": 2,
        "camera": {"w": WIDTH, "h": HEIGHT},
        "palettes": [STYLES, twinkling()],
        "levels": [
            colour_level("sky.xrl"),
            {"kind": "cm32", "palette": 1, "drawings": ["stars.xrl"]},
            colour_level("trees.xrl"),
            colour_level("ground.xrl"),
            cels("leg", DRAWINGS),
            cels("arm", DRAWINGS),
            cels("body", 1),
            cels("scarf", DRAWINGS // 2),
            colour_level("plaid.xrl"),
            colour_level("shadow.xrl"),
            colour_level("grass.xrl"),
        ],
        "sheets": [landscape(), walker()],
    }


def draw(folder):
    at = lambda name: os.path.join(folder, name)
    paint(at("sky.xrl"), 0, GROUND - 4, WIDTH, HEIGHT, sky)
    stars(at("stars.xrl"))
    paint(at("trees.xrl"), 0, GROUND - 4, WIDTH + STRIDE, GROUND + 42, trees)
    paint(at("ground.xrl"), 0, 0, WIDTH + 2 * STRIDE, GROUND, ground)
    paint(at("grass.xrl"), 0, 0, WIDTH + 2 * STRIDE, 18, grass)
    paint(at("plaid.xrl"), -24, 36, 24, 96, plaid)
    paint(at("shadow.xrl"), -30, -5, 30, 5, shadow)
    for i in range(DRAWINGS):
        leg(i / DRAWINGS).write(at("leg.%04d.xrl" % (i + 1)), -60, -6, 60, 70)
        arm(i / DRAWINGS).write(at("arm.%04d.xrl" % (i + 1)), -50, 30, 50, 100)
    for i in range(DRAWINGS // 2):
        scarf(i / (DRAWINGS // 2)).write(at("scarf.%04d.xrl" % (i + 1)), -60, 70, 30, 110)
    body().write(at("body.xrl"), -40, 30, 40, 135)
    with open(at("walk.json"), "w") as file:
        json.dump(scene(), file)
        file.write("\n")


if __name__ == "__main__":
    if len(sys.argv) != 2:
        sys.exit("draw_walk: name a folder")
    os.makedirs(sys.argv[1], exist_ok=True)
    draw(sys.argv[1])
