"""Sheets and pictures for tests."""
import json
import struct
import zlib

FIRST_LINE = "exchangeDigitalTimeSheet Save Data\n"


def frame(at, *values, number=0):
    return {"frame": at, "data": [{"id": number, "values": list(values)}]}


def track(number, **by_frame):
    """Frames are named f0, f1 .. ; each has one value."""
    return {"trackNo": number, "frames": [frame(int(name[1:]), value) for name, value in by_frame.items()]}


def table(duration, names, tracks, *fields):
    return {"name": "shot", "duration": duration, "timeTableHeaders": [{"fieldId": 0, "names": names}],
            "fields": [{"fieldId": 0, "tracks": tracks}, *fields]}


def xdts(*tables, **more):
    return FIRST_LINE + json.dumps({"version": 5, "timeTables": list(tables), **more})


def chunk(name, body):
    return struct.pack(">I", len(body)) + name + body + struct.pack(">I", zlib.crc32(name + body))


def png(width, height, kind, lines, bits=8, interlaced=0, more=()):
    """The bytes of a PNG picture, of its lines from the top with their filters."""
    head = struct.pack(">IIBBBBB", width, height, bits, kind, 0, 0, interlaced)
    parts = [chunk(b"IHDR", head), *[chunk(*it) for it in more], chunk(b"IDAT", zlib.compress(b"".join(lines)))]
    return b"\x89PNG\r\n\x1a\n" + b"".join(parts) + chunk(b"IEND", b"")


def flat(width, height, colour):
    """A picture of one colour of four samples."""
    return png(width, height, 6, [b"\0" + bytes(colour) * width] * height)


def level(data):
    """Kind, x, y, width, height and the pixels or words of a level file, from the lowest row up."""
    kind, x, y, width, height = struct.unpack("<BiiII", data[4:21])
    return kind, x, y, width, height, data[21:]


def spans(column):
    """The cells of a column of a scene, short."""
    return [(it["from"], it["to"], it["level"], it["drawing"]) for it in column["cells"]]
