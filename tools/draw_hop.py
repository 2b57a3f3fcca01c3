#!/usr/bin/env python3
"""Draws the sample `hop` into the folder that is named: flat PNG drawings of a frog, a fly and reeds, a pond in colour,
and their time sheet, as XDTS and as CSV."""
import json
import math
import os
import sys

import pictures
from draw_walk import edge, joint, mixed, over
from ink import Cel, circle, common, ellipse, limb, polygon, union

WIDTH, HEIGHT, ROWS = 480, 270, 40
WATER, PADS = 108, ((118, 52), (352, 48))

# The colours of flat pictures: none, line, skin, belly, white, tongue, fly, wing, reed, cattail.
NONE, LINE, SKIN, BELLY, WHITE, TONGUE, FLY, WING, REED, CATTAIL = range(10)
COLOURS = [(0, 0, 0, 0), (46, 30, 48, 255), (104, 168, 74, 255), (222, 226, 150, 255), (250, 248, 232, 255),
           (226, 96, 110, 255), (62, 56, 84, 255), (206, 222, 236, 255), (34, 58, 62, 255), (92, 58, 50, 255)]

# A frog: where its middle lies, how it is turned, where its foot and its hand are, whether the eye is shut, and where
# the tongue reaches.
POSES = [
    dict(at=(118, 76), turn=0.42, foot=(104, 55), hand=(146, 55)),
    dict(at=(112, 71), turn=0.22, foot=(102, 55), hand=(144, 55)),
    dict(at=(150, 104), turn=0.85, foot=(104, 56), hand=(176, 86)),
    dict(at=(202, 160), turn=0.62, foot=(152, 122), hand=(236, 146)),
    dict(at=(252, 178), turn=0.16, foot=(206, 164), hand=(286, 158), tongue=(322, 214)),
    dict(at=(304, 142), turn=-0.32, foot=(262, 150), hand=(338, 106)),
    dict(at=(342, 84), turn=-0.30, foot=(306, 92), hand=(370, 52)),
    dict(at=(344, 66), turn=0.10, foot=(330, 51), hand=(378, 51)),
    dict(at=(352, 73), turn=0.42, foot=(338, 51), hand=(380, 51)),
    dict(at=(352, 72), turn=0.42, foot=(338, 51), hand=(380, 51), shut=True),
]
FLIES = [(312, 206, 0.5), (318, 214, -0.4), (326, 208, 0.6), (321, 213, 0.0)]

# At which rows which drawing begins; x is an empty cell.
SHEET = {
    "BG": {1: "pond"},
    "frog": {1: "1", 7: "2", 11: "3", 13: "4", 15: "5", 17: "6", 19: "7", 21: "8", 25: "9", 31: "10", 35: "9"},
    "fly": {1: "1", 3: "2", 5: "3", 7: "2", 9: "1", 11: "2", 13: "3", 15: "4", 17: "x", 35: "1", 37: "2", 39: "3"},
    "reeds": {1: "reeds"},
}


def turned(x, y, turn):
    """A function that gives the place of a point of the frog, as it is when the frog lies level."""
    cos, sin = math.cos(turn), math.sin(turn)
    return lambda u, v: (x + u * cos - v * sin, y + u * sin + v * cos)


def hind_leg(place, foot):
    hip = place(-16, -7)
    knee = joint(*hip, *foot, 27, 27, 1)
    toe = foot[0] + 15, foot[1] + 1
    return union(limb(*hip, 10, *knee, 6), limb(*knee, 6, *foot, 4)), limb(*foot, 3.6, *toe, 2.6)


def fore_leg(place, hand):
    shoulder = place(15, -6)
    elbow = joint(*shoulder, *hand, 14, 15, -1)
    return union(limb(*shoulder, 6, *elbow, 4.4), limb(*elbow, 4.4, *hand, 3.4), limb(*hand, 3, hand[0] + 8, hand[1], 2.4))


def frog(at, turn, foot, hand, shut=False, tongue=None):
    place = turned(*at, turn)
    body = union(ellipse(*place(-2, 0), 30, 17, turn), ellipse(*place(22, 8), 19, 14, turn))
    belly = common(ellipse(*place(6, -12), 30, 12, turn), body)
    cel = Cel(LINE, 2.4)
    thigh, sole = hind_leg(place, foot)
    if tongue:
        cel.add(limb(*place(36, 5), 3.4, *tongue, 4.4), TONGUE)
    cel.add(body, SKIN)
    cel.add(belly, BELLY, line=0)
    cel.add(common(limb(*place(18, 2), 0.6, *place(40, 6), 0.6), body), LINE, line=0)
    cel.add(circle(*place(23, 22), 8.6), SKIN)
    if shut:
        cel.add(limb(*place(18, 21), 0.9, *place(29, 22), 0.9), LINE, line=0)
    else:
        cel.add(circle(*place(25, 22), 5.4), WHITE, line=0)
        cel.add(circle(*place(27, 22), 3.0), LINE, line=0)
    cel.add(sole, SKIN)
    cel.add(thigh, SKIN)
    cel.add(fore_leg(place, hand), SKIN)
    return cel


def fly(x, y, beat):
    cel = Cel(LINE, 1.6)
    cel.add(ellipse(x - 4, y + 6 + 2 * beat, 7, 3.4, 1.9 + beat), WING)
    cel.add(ellipse(x + 4, y + 6 + 2 * beat, 7, 3.4, 1.2 - beat), WING)
    cel.add(ellipse(x, y, 6.5, 4.5, 0.1), FLY)
    return cel


def reeds():
    cel = Cel(LINE, 1.8)
    for root, top, lean in ((14, 150, 14), (30, 196, 8), (44, 120, 20), (60, 92, 26), (432, 128, -20), (452, 186, -8),
                            (466, 214, -14), (476, 110, -4)):
        points = [(root + lean * t * t, top * t - 8) for t in (0, 0.25, 0.5, 0.75, 1)]
        blades = [limb(*a, 4.6 - i, *b, 3.6 - i) for i, (a, b) in enumerate(zip(points, points[1:]))]
        cel.add(union(*blades), REED)
        if top > 180:
            cel.add(limb(root + lean * 0.8, top * 0.84, 6.5, root + lean, top - 6, 6.5), CATTAIL)
    return cel


def flat_picture(cel, box):
    """The picture of a cel without half covered pixels: a pixel is line or paint."""
    rows = [[0] * (4 * WIDTH) for _ in range(HEIGHT)]
    left, bottom, right, top = box
    for y in range(max(0, bottom), min(HEIGHT, top)):
        for x in range(max(0, left), min(WIDTH, right)):
            ink, paint, tone = cel.word_at(x + 0.5, y + 0.5)
            rows[HEIGHT - 1 - y][4 * x:4 * x + 4] = COLOURS[ink if tone < 128 else paint]
    return pictures.Picture(WIDTH, HEIGHT, rows)


DUSK = [(0.0, (252, 196, 140)), (0.4, (214, 136, 140)), (1.0, (88, 84, 140))]


def sky(x, y):
    t = (y - WATER) / (HEIGHT - WATER)
    for (a, low), (b, high) in zip(DUSK, DUSK[1:]):
        if t <= b:
            colour = mixed(low, high, (t - a) / (b - a)) + [255]
            break
    colour = over([255, 240, 212, edge(math.hypot(x - 384, y - 214) - 22)], colour)
    hills = y - (WATER + 24 + 12 * math.sin(x / 61 + 1) + 6 * math.sin(x / 23))
    return over([92, 84, 128, edge(hills)], colour)


def water(x, y):
    colour = mixed((44, 76, 96), (168, 136, 150), (y / WATER) ** 2) + [255]
    wave = math.sin(y * 0.9 + 3 * math.sin(x / 37)) * math.sin(x / 29 + y / 7)
    return over([250, 224, 200, 46 * max(0.0, wave - 0.35)], colour)


def pond(x, y):
    colour = water(x, y) if y < WATER else sky(x, y)
    for px, py in PADS:
        pad = ellipse(px, py, 74, 15)
        cut = polygon([(px + 8, py + 2), (px + 90, py + 26), (px + 90, py + 2)])
        shape = max(pad(x, y), -cut(x, y))
        colour = over([24, 52, 68, 0.7 * edge(max(pad(x, y + 6), -cut(x, y + 6)))], colour)
        colour = over([74, 132, 84, edge(shape)], colour)
        colour = over([110, 164, 98, edge(shape + 3)], colour)
    return colour


def pond_picture():
    rows = [[round(value) for x in range(WIDTH) for value in pond(x + 0.5, y + 0.5)] for y in reversed(range(HEIGHT))]
    return pictures.Picture(WIDTH, HEIGHT, rows)


def box_of(pose):
    places = [pose["at"], pose["foot"], pose["hand"], pose.get("tongue", pose["at"])]
    return (min(x for x, _ in places) - 50, min(y for _, y in places) - 50,
            max(x for x, _ in places) + 50, max(y for _, y in places) + 50)


def drawings():
    """The name within the folder of drawings and the picture of each."""
    yield "BG/pond.png", pond_picture()
    for number, pose in enumerate(POSES, start=1):
        yield "frog/%04d.png" % number, flat_picture(frog(**pose), box_of(pose))
    for number, (x, y, beat) in enumerate(FLIES, start=1):
        yield "fly_%04d.png" % number, flat_picture(fly(x, y, beat), (x - 20, y - 20, x + 20, y + 24))
    yield "reeds.png", flat_picture(reeds(), (0, 0, WIDTH, HEIGHT))


def track(number, entries):
    frames = [{"frame": row - 1, "data": [{"id": 0, "values": ["SYMBOL_NULL_CELL" if name == "x" else name]}]}
              for row, name in entries.items()]
    return {"trackNo": number, "frames": frames}


def xdts():
    said = [{"frame": 30, "data": [{"id": 0, "values": ["frog", "ribbit"]}]}]
    fields = [{"fieldId": 0, "tracks": [track(number, entries) for number, entries in enumerate(SHEET.values())]},
              {"fieldId": 3, "tracks": [{"trackNo": 0, "frames": said}]}]
    headers = [{"fieldId": 0, "names": list(SHEET)}, {"fieldId": 3, "names": ["sound"]}]
    table = {"name": "hop", "duration": ROWS, "fields": fields, "timeTableHeaders": headers}
    return "exchangeDigitalTimeSheet Save Data\n%s\n" % json.dumps({"version": 5, "timeTables": [table]}, indent=1)


def table():
    lines = ["row," + ",".join(SHEET)]
    for row in range(1, ROWS + 1):
        lines.append(",".join([str(row)] + [entries.get(row, "") for entries in SHEET.values()]))
    return "\n".join(lines) + "\n"


def draw(folder):
    for name, picture in drawings():
        path = os.path.join(folder, "drawings", name)
        os.makedirs(os.path.dirname(path), exist_ok=True)
        pictures.write_png(path, picture)
    for name, text in (("hop.xdts", xdts()), ("hop.csv", table())):
        with open(os.path.join(folder, name), "w", encoding="utf-8") as file:
            file.write(text)


if __name__ == "__main__":
    if len(sys.argv) != 2:
        sys.exit("draw_hop: name a folder")
    draw(sys.argv[1])
