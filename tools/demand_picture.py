"""The picture of a demand, as SVG."""
from xml.sax.saxutils import escape

WIDTH, HEIGHT = 900, 420
LEFT, RIGHT, TOP, BOTTOM = 70, 80, 60, 60
HELD, MADE, DRAWINGS = "#4a6fa5", "#e0a458", "#8c2f39"

HEAD = """<svg xmlns="http://www.w3.org/2000/svg" viewBox="0 0 %d %d" font-family="sans-serif" font-size="12">
<rect width="100%%" height="100%%" fill="white"/>
"""


def text(x, y, words, anchor="middle", more=""):
    """A text at a place."""
    return '<text x="%.1f" y="%.1f" text-anchor="%s"%s>%s</text>\n' % (x, y, anchor, more, escape(words))


def box(x, y, w, h, colour, title=""):
    """A filled rectangle, with a title that a pointer shows."""
    inner = "<title>%s</title>" % escape(title) if title else ""
    return '<rect x="%.2f" y="%.2f" width="%.2f" height="%.2f" fill="%s">%s</rect>\n' % (x, y, w, h, colour, inner)


def round_up(n):
    """The least of 1, 2 and 5 times a power of ten that is not below a number."""
    power = 1.0
    while power * 10 <= n:
        power *= 10
    while power > n > 0:
        power /= 10
    return next(power * step for step in (1, 2, 5, 10) if power * step >= n)


class Scale:
    """Places in the picture: of sections from left to right, of amounts from the bottom up."""

    def __init__(self, sections, most):
        self.step = (WIDTH - LEFT - RIGHT) / sections
        self.most = round_up(most) if most > 0 else 1.0
        self.high = HEIGHT - TOP - BOTTOM

    def x(self, section):
        """The left edge of a section."""
        return LEFT + self.step * section

    def y(self, amount):
        """The place of an amount."""
        return HEIGHT - BOTTOM - self.high * amount / self.most


def axis(scale, x, anchor, unit, colour):
    """The numbers of an axis, in five steps, and its unit."""
    out = text(x, TOP - 14, unit, anchor, ' fill="%s"' % colour)
    for step in range(6):
        amount = scale.most * step / 5
        out += text(x, scale.y(amount) + 4, "%g" % amount, anchor, ' fill="%s"' % colour)
    return out


def lines_across(scale):
    """A thin line at each number of the axis."""
    out = ""
    for step in range(6):
        y = scale.y(scale.most * step / 5)
        out += '<line x1="%d" y1="%.1f" x2="%d" y2="%.1f" stroke="#ddd"/>\n' % (LEFT, y, WIDTH - RIGHT, y)
    return out


def bars(scale, first, ends, sections):
    """The tiles of each section: those held before it below, those made in it above."""
    out = ""
    for place, (held, made, drawings) in enumerate(sections):
        held, made = held / 2**20, made / 2**20
        says = "section %d, rows %d to %d: %.2f MiB held before it, %.2f MiB made in it, %d drawings" % (
            place, first + 8 * place, ends[place], held, made, drawings)
        x, w = scale.x(place) + 0.1 * scale.step, 0.8 * scale.step
        out += box(x, scale.y(held), w, scale.y(0) - scale.y(held), HELD, says)
        out += box(x, scale.y(held + made), w, scale.y(held) - scale.y(held + made), MADE, says)
    return out


def steps(scale, sections):
    """The drawings of each section, as a line of steps."""
    path = ""
    for place, (_, _, drawings) in enumerate(sections):
        start = "M" if place == 0 else "L"
        y = scale.y(drawings)
        path += "%s%.1f %.1fL%.1f %.1f" % (start, scale.x(place), y, scale.x(place + 1), y)
    return '<path d="%s" fill="none" stroke="%s" stroke-width="2"/>\n' % (path, DRAWINGS)


def numbers(scale, first, sections):
    """The first row of sections, at most some twenty of them."""
    every = max(1, -(-len(sections) // 20))
    out = ""
    for place in range(0, len(sections), every):
        out += text(scale.x(place) + scale.step / 2, HEIGHT - BOTTOM + 18, str(first + 8 * place))
    return out + text((LEFT + WIDTH - RIGHT) / 2, HEIGHT - 18, "first row of each section")


def legend():
    """What the colours mean."""
    out, x = "", LEFT + 110
    for colour, words in ((HELD, "tiles held before"), (MADE, "tiles made"), (DRAWINGS, "drawings held")):
        out += box(x, TOP - 25, 12, 12, colour) + text(x + 18, TOP - 14, words, "start")
        x += 160
    return out


def drawn(scene, first, ends, sections):
    """The picture of these sections, whose last rows are named."""
    tiles = Scale(len(sections), max(held + made for held, made, _ in sections) / 2**20)
    drawings = Scale(len(sections), max(count for _, _, count in sections))
    title = "%s, rows %d to %d: what each section demands" % (scene, first, ends[-1])
    return (HEAD % (WIDTH, HEIGHT)
            + text(WIDTH / 2, 22, title, "middle", ' font-size="15"')
            + legend() + lines_across(tiles) + axis(tiles, LEFT - 10, "end", "MiB", "black")
            + axis(drawings, WIDTH - RIGHT + 10, "start", "drawings", DRAWINGS)
            + bars(tiles, first, ends, sections) + steps(drawings, sections)
            + numbers(tiles, first, sections) + "</svg>\n")
