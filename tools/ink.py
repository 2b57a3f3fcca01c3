"""Ink and paint drawings from outlines: each shape is a function that gives a point's distance from its
edge, below 0 inside. A pixel becomes a CM32 word: the line's ink, the area's paint, and the tone between."""
import math

import pictures


def circle(x, y, r):
    return lambda px, py: math.hypot(px - x, py - y) - r


def ellipse(x, y, rx, ry, angle=0.0):
    cos, sin = math.cos(angle), math.sin(angle)

    def distance(px, py):
        dx, dy = px - x, py - y
        u, v = (dx * cos + dy * sin) / rx, (dy * cos - dx * sin) / ry
        length = math.hypot(u, v)
        slope = math.hypot(u / rx, v / ry)
        return (length - 1) * length / slope if slope > 0 else -min(rx, ry)

    return distance


def limb(ax, ay, ra, bx, by, rb):
    """A stroke from one point to another with a radius at each."""
    dx, dy = bx - ax, by - ay
    length = max(1e-9, dx * dx + dy * dy)

    def distance(px, py):
        t = min(1.0, max(0.0, ((px - ax) * dx + (py - ay) * dy) / length))
        return math.hypot(px - ax - t * dx, py - ay - t * dy) - (ra + t * (rb - ra))

    return distance


def polygon(points, rounding=0.0):
    def distance(px, py):
        best, inside = 1e18, False
        for (ax, ay), (bx, by) in zip(points, points[1:] + points[:1]):
            dx, dy = bx - ax, by - ay
            t = min(1.0, max(0.0, ((px - ax) * dx + (py - ay) * dy) / (dx * dx + dy * dy)))
            best = min(best, math.hypot(px - ax - t * dx, py - ay - t * dy))
            if (ay > py) != (by > py) and px < ax + (py - ay) * dx / dy:
                inside = not inside
        return (-best if inside else best) - rounding

    return distance


def union(*shapes):
    return lambda px, py: min(shape(px, py) for shape in shapes)


def common(*shapes):
    return lambda px, py: max(shape(px, py) for shape in shapes)


def part(amount):
    """The part of a pixel that is covered."""
    return min(1.0, max(0.0, amount + 0.5))


class Cel:
    """Shapes that were inked and painted, the last in front."""

    def __init__(self, ink, line=1.6):
        self.ink = ink
        self.line = line
        self.shapes = []

    def add(self, shape, paint, ink=None, line=None):
        """An area in a line of ink; a line of 0 is none."""
        self.shapes.append((shape, paint, ink or self.ink, self.line if line is None else line))

    def word_at(self, px, py):
        """Ink, paint and tone of the pixel round a point."""
        ink, paint, tone = 0, 0, 255
        for shape, own, own_ink, line in self.shapes:
            d = shape(px, py)
            if line == 0:
                covered = part(-d)
                if covered == 1:
                    ink, paint, tone = 0, own, 255
                elif covered > 0:
                    ink, tone = own, 255 - round(255 * covered)
                continue
            if d < 0:
                ink, paint, tone = 0, own, 255
            drawn = 255 - round(255 * part(line / 2 - abs(d)))
            if drawn < tone:
                ink, tone = own_ink, drawn
        return ink, paint, tone

    def write(self, path, left, bottom, right, top):
        """Writes what is drawn between these sides, cut to what isn't clear."""
        words = {}
        for y in range(bottom, top):
            for x in range(left, right):
                word = self.word_at(x + 0.5, y + 0.5)
                if word[1] != 0 or word[2] < 255:
                    words[x, y] = word
        xs, ys = [x for x, _ in words], [y for _, y in words]
        x0, x1, y0, y1 = min(xs), max(xs), min(ys), max(ys)
        rows = [b"".join(pictures.word(*words.get((x, y), (0, 0, 255))) for x in range(x0, x1 + 1))
                for y in range(y0, y1 + 1)]
        pictures.write_level(path, 1, x0, y0, x1 - x0 + 1, y1 - y0 + 1, rows)
