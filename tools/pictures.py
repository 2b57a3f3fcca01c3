"""PNG pictures, raw level files and raw frame files, with Python's standard library alone.

A picture here is its width, its height and its rows from the top down. A row is a flat list, or the bytes, of
red, green, blue, alpha, red, .. with straight colours.
"""
import itertools
import struct
import zlib

import whole_file

SIGNATURE = b"\x89PNG\r\n\x1a\n"
SAMPLES = {0: 1, 2: 3, 3: 1, 4: 2, 6: 4}
# The depths in bits that a colour type may have.
DEPTHS = {0: (1, 2, 4, 8, 16), 2: (8, 16), 3: (1, 2, 4, 8), 4: (8, 16), 6: (8, 16)}


class Picture:
    """Straight pixels; `most` is the largest value of a sample, 255 or 65535."""

    def __init__(self, width, height, rows, most=255):
        self.width = width
        self.height = height
        self.rows = rows
        self.most = most

    def in_8_bits(self):
        if self.most == 255:
            return self
        rows = [[(v * 255 + 32767) // 65535 for v in row] for row in self.rows]
        return Picture(self.width, self.height, rows)


# Reading PNG

def chunks(data):
    if data[:8] != SIGNATURE:
        raise ValueError("this is no PNG file")
    at = 8
    while at + 12 <= len(data):
        length = struct.unpack(">I", data[at:at + 4])[0]
        name, body = data[at + 4:at + 8], data[at + 8:at + 8 + length]
        if data[at + 8 + length:at + 12 + length] != struct.pack(">I", zlib.crc32(name + body)):
            raise ValueError("this PNG file is damaged")
        yield name, body
        at += 12 + length


def undone_left(line, step):
    """The bytes of a line that holds the differences from the left."""
    out = bytearray(len(line))
    for channel in range(step):
        out[channel::step] = bytes(total & 255 for total in itertools.accumulate(line[channel::step]))
    return out


def undone_mean(line, above, step):
    """The bytes of a line that holds the differences from the mean of the bytes at the left and above."""
    for i in range(len(line)):
        left = line[i - step] if i >= step else 0
        line[i] = (line[i] + (left + above[i]) // 2) & 255
    return line


def undone_nearest(line, above, step):
    """The bytes of a line that holds the differences from that neighbour at the left, above or between them which is
    nearest to left + above - corner."""
    for i in range(min(step, len(line))):
        line[i] = (line[i] + above[i]) & 255
    for i in range(step, len(line)):
        left, up, corner = line[i - step], above[i], above[i - step]
        by_left, by_up, by_corner = abs(up - corner), abs(left - corner), abs(left + up - 2 * corner)
        if by_left <= by_up and by_left <= by_corner:
            line[i] = (line[i] + left) & 255
        else:
            line[i] = (line[i] + (up if by_up <= by_corner else corner)) & 255
    return line


def unfiltered(kind, line, above, step):
    """The bytes of a line, which the file holds as differences from its neighbours."""
    line = bytearray(line)
    if kind == 0:
        return line
    if kind == 1:
        return undone_left(line, step)
    if kind == 2:
        return bytearray((a + b) & 255 for a, b in zip(line, above))
    if kind == 3:
        return undone_mean(line, above, step)
    if kind == 4:
        return undone_nearest(line, above, step)
    raise ValueError("this PNG file has an unknown filter")


def samples_of(line, bits, count):
    """The numbers of a line."""
    if bits == 8:
        return line[:count]
    if bits == 16:
        return list(struct.unpack(">%dH" % count, line[:2 * count]))
    each = 8 // bits
    mask = (1 << bits) - 1
    return bytes((line[i // each] >> (8 - bits - bits * (i % each))) & mask for i in range(count))


def alpha_of(pixels, clear, full):
    """The alpha of pixels, one of which may stand for clear."""
    return [0 if it == clear else full for it in pixels]


def planes_of(numbers, colour_type, bits, palette, clear):
    """Red, green, blue and alpha of the numbers of a line, each by itself."""
    full = 65535 if bits == 16 else 255
    if colour_type == 6:
        return [numbers[c::4] for c in range(4)]
    if colour_type == 4:
        return [numbers[0::2]] * 3 + [numbers[1::2]]
    if colour_type == 3:
        return [[palette[n][c] for n in numbers] for c in range(4)]
    if colour_type == 2:
        colours = [numbers[c::3] for c in range(3)]
        return colours + [alpha_of(zip(*colours), clear, full) if clear else [full] * len(colours[0])]
    grey = numbers if bits >= 8 else [n * 255 // ((1 << bits) - 1) for n in numbers]
    return [grey] * 3 + [alpha_of(zip(numbers), clear, full) if clear else [full] * len(numbers)]


def coloured(numbers, colour_type, bits, palette, clear):
    """The straight pixels of the numbers of a line."""
    planes = planes_of(numbers, colour_type, bits, palette, clear)
    out = [0] * (4 * len(planes[0])) if bits == 16 else bytearray(4 * len(planes[0]))
    for channel, plane in enumerate(planes):
        out[channel::4] = plane
    return out


def palette_of(colours, alphas):
    count = len(colours) // 3
    alphas = list(alphas) + [255] * (count - len(alphas))
    return [list(colours[3 * i:3 * i + 3]) + [alphas[i]] for i in range(count)]


def header_in(data):
    """Width, height, depth and colour type of a PNG file."""
    name, body = next(chunks(data), (b"", b""))
    if name != b"IHDR":
        raise ValueError("this PNG file has no header")
    width, height, bits, colour_type, _, _, interlaced = struct.unpack(">IIBBBBB", body)
    if bits not in DEPTHS.get(colour_type, ()) or width == 0 or height == 0:
        raise ValueError("this PNG file is damaged")
    if interlaced:
        raise ValueError("interlaced PNG files are not read: save it without interlacing")
    return width, height, bits, colour_type


def told_of(path, function, data):
    """What the function makes of the data of a file, with the file's name before each fault."""
    try:
        return function(data)
    except (IndexError, struct.error, zlib.error):
        raise ValueError("%s: this PNG file is damaged" % path) from None
    except ValueError as fault:
        raise ValueError("%s: %s" % (path, fault)) from None


def read_png(path):
    with open(path, "rb") as file:
        return told_of(path, picture_of, file.read())


def png_size(path):
    """Width and height of a picture, by the head of its file."""
    with open(path, "rb") as file:
        return told_of(path, header_in, file.read(33))[:2]


def unpacked(packed, height, length, step):
    """The lines of a picture, unfiltered."""
    whole = height * (length + 1)
    lines = zlib.decompressobj().decompress(packed, whole + 1)
    if len(lines) != whole:
        raise ValueError("this PNG file is damaged")
    above = bytearray(length)
    for at in range(0, len(lines), length + 1):
        above = unfiltered(lines[at], lines[at + 1:at + 1 + length], above, step)
        yield above


def picture_of(data):
    width, height, bits, colour_type = header_in(data)
    bodies = {b"PLTE": b"", b"tRNS": b"", b"IDAT": b""}
    for name, body in chunks(data):
        if name in bodies:
            bodies[name] += body
    per_pixel = SAMPLES[colour_type]
    palette = palette_of(bodies[b"PLTE"], bodies[b"tRNS"]) if colour_type == 3 else None
    clear = None
    if bodies[b"tRNS"] and colour_type in (0, 2):
        clear = struct.unpack(">%dH" % per_pixel, bodies[b"tRNS"])
    length = (width * per_pixel * bits + 7) // 8
    step = max(1, per_pixel * bits // 8)
    rows = [coloured(samples_of(line, bits, width * per_pixel), colour_type, bits, palette, clear)
            for line in unpacked(bodies[b"IDAT"], height, length, step)]
    return Picture(width, height, rows, 65535 if bits == 16 else 255)


# Writing PNG

def chunk(name, body):
    return struct.pack(">I", len(body)) + name + body + struct.pack(">I", zlib.crc32(name + body))


def header_of(width, height):
    return chunk(b"IHDR", struct.pack(">IIBBBBB", width, height, 8, 6, 0, 0, 0))


def packed_rows(picture):
    lines = bytearray()
    for row in picture.rows:
        lines.append(0)
        lines += bytes(row)
    return zlib.compress(bytes(lines), 9)


def write_png(path, picture):
    body = header_of(picture.width, picture.height)
    body += chunk(b"IDAT", packed_rows(picture)) + chunk(b"IEND", b"")
    whole_file.write(path, SIGNATURE + body)


def write_animation(path, pictures, rate):
    """An animated PNG that runs for ever, `rate` pictures a second."""
    width, height = pictures[0].width, pictures[0].height
    body = header_of(width, height) + chunk(b"acTL", struct.pack(">II", len(pictures), 0))
    number = 0
    for i, picture in enumerate(pictures):
        if (picture.width, picture.height) != (width, height):
            raise ValueError("the frames differ in size")
        control = struct.pack(">IIIIIHHBB", number, width, height, 0, 0, 1, rate, 0, 0)
        body += chunk(b"fcTL", control)
        number += 1
        packed = packed_rows(picture)
        if i == 0:
            body += chunk(b"IDAT", packed)
        else:
            body += chunk(b"fdAT", struct.pack(">I", number) + packed)
            number += 1
    whole_file.write(path, SIGNATURE + body + chunk(b"IEND", b""))


# Premultiplied pixels, levels and frames

def premultiplied(row):
    """The bytes of a row of a level: each colour times its alpha, to the nearest whole number."""
    out = bytearray(row)
    if out[3::4].count(255) == len(row) // 4:
        return bytes(out)
    for i in range(0, len(row), 4):
        a = row[i + 3]
        if a != 255:
            for c in (i, i + 1, i + 2):
                out[c] = (row[c] * a + 127) // 255
    return bytes(out)


def straight(row):
    """The straight pixels of a row of a frame."""
    out = list(row)
    for i in range(0, len(row), 4):
        m = row[i + 3]
        if 0 < m < 255:
            for c in (i, i + 1, i + 2):
                out[c] = min(255, (row[c] * 255 + m // 2) // m)
    return out


def write_level(path, kind, x, y, width, height, rows):
    """`rows` are the bytes of each row, from the lowest up; kind 0 is colour, 1 CM32."""
    if not (1 <= width <= 4096 and 1 <= height <= 4096):
        raise ValueError("the sides of a drawing are 1 to 4096")
    if not (-65536 <= x <= 65536 and -65536 <= y <= 65536):
        raise ValueError("a drawing lies within 65536 of the origin")
    whole_file.write(path, b"XRL1" + struct.pack("<BiiII", kind, x, y, width, height) + b"".join(rows))


def word(ink, paint, tone):
    """The four bytes of a CM32 word."""
    return struct.pack("<I", ink << 20 | paint << 8 | tone)


def read_frame(path):
    with open(path, "rb") as file:
        data = file.read()
    if data[:4] != b"XFR1" or len(data) < 12:
        raise ValueError(path + " is no frame")
    width, height = struct.unpack("<II", data[4:12])
    if len(data) != 12 + 4 * width * height:
        raise ValueError(path + " has another length than its sides say")
    rows = [straight(data[12 + 4 * width * y:12 + 4 * width * (y + 1)]) for y in range(height)]
    return Picture(width, height, rows[::-1])
