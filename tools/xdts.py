"""Reads a digital time sheet (XDTS), the exchange format of time sheets that OpenToonz and other programs write.

It is UTF-8: a first line of its own, and then a JSON object. Only the first time table counts, and in it the cells.
All else that a sheet has is told, a line each.
"""
import json

from sheets import EMPTY, Column, Sheet

FIRST_LINE = "exchangeDigitalTimeSheet Save Data"
CELLS = 0
OTHER_FIELDS = {3: "dialogue", 5: "camera work"}
NOTHING, HOLD = "SYMBOL_NULL_CELL", "SYMBOL_HYPHEN"
MARKS = ("SYMBOL_TICK_1", "SYMBOL_TICK_2")
KINDS = {dict: "an object", list: "a list", int: "a whole number", str: "a text"}
KNOWN = {
    "the sheet": {"version", "timeTables"},
    "a time table": {"name", "duration", "fields", "timeTableHeaders"},
    "a field": {"fieldId", "tracks"},
    "a track": {"trackNo", "frames"},
    "a frame": {"frame", "data"},
    "an entry": {"id", "values"},
}


def of_kind(value, kind, what):
    if type(value) is not kind:
        raise ValueError("%s is not %s" % (what, KINDS[kind]))
    return value


def field(holder, key, kind, where):
    """The value under a key that must be there."""
    if key not in holder:
        raise ValueError("%s has no %s" % (where, key))
    return of_kind(holder[key], kind, "%s of %s" % (key, where))


def objects(holder, key, where):
    """The objects of a list under a key that must be there."""
    return [of_kind(it, dict, "an element of %s of %s" % (key, where)) for it in field(holder, key, list, where)]


def rows_named(frames):
    """Rows in words, of frames that count from 0."""
    shown = ", ".join(str(frame + 1) for frame in frames[:10])
    more = " and %d more" % (len(frames) - 10) if frames[10:] else ""
    return "%s %s%s" % ("row" if len(frames) == 1 else "rows", shown, more)


def read(path, tell):
    """The sheet of a file; `tell` is given a line for each thing that it has and a scene has not."""
    try:
        with open(path, encoding="utf-8-sig") as file:
            text = file.read()
        return Reader(tell).sheet(parsed(text))
    except UnicodeDecodeError as fault:
        raise ValueError("%s: byte %d is no UTF-8" % (path, fault.start)) from None
    except RecursionError:
        raise ValueError("%s: it is nested too deep" % path) from None
    except ValueError as fault:
        raise ValueError("%s: %s" % (path, fault)) from None


def parsed(text):
    first, _, rest = text.partition("\n")
    if first.rstrip() != FIRST_LINE:
        raise ValueError("this is no digital time sheet: line 1 is not %s" % FIRST_LINE)
    try:
        return of_kind(json.loads(rest), dict, "the sheet")
    except json.JSONDecodeError as fault:
        raise ValueError("line %d, column %d: %s" % (fault.lineno + 1, fault.colno, fault.msg)) from None


class Reader:
    def __init__(self, tell):
        self.tell = tell
        self.unknown = set()

    def known(self, what, holder):
        """Tells the keys of an object that are of no use here, each once for a kind of object."""
        for key in sorted(set(holder) - KNOWN[what]):
            if (what, key) not in self.unknown:
                self.unknown.add((what, key))
                self.tell("%s of %s is left out" % (key, what))

    def sheet(self, whole):
        self.known("the sheet", whole)
        field(whole, "version", int, "the sheet")
        tables = objects(whole, "timeTables", "the sheet")
        if not tables:
            raise ValueError("the sheet has no time table")
        for number, table in enumerate(tables[1:], start=2):
            self.tell("time table %d (%s) is left out: the first one counts" % (number, table.get("name", "without a name")))
        return self.table(tables[0])

    def table(self, table):
        where = "the time table"
        self.known("a time table", table)
        duration = field(table, "duration", int, where)
        cells = None
        for one in objects(table, "fields", where):
            self.known("a field", one)
            number = field(one, "fieldId", int, "a field")
            if number != CELLS:
                self.tell_field(number, one)
            elif cells is not None:
                raise ValueError("%s has two fields of cells" % where)
            else:
                cells = objects(one, "tracks", "the field of cells")
        if cells is None:
            raise ValueError("%s has no field of cells (fieldId 0)" % where)
        return Sheet(duration, self.columns(cells, self.names(table), duration))

    def tell_field(self, number, one):
        tracks = one.get("tracks")
        count = " (%d tracks)" % len(tracks) if type(tracks) is list and len(tracks) != 1 else ""
        self.tell("field %d, %s, is left out%s" % (number, OTHER_FIELDS.get(number, "of an unknown kind"), count))

    def names(self, table):
        """The names of the columns, by the number of the track."""
        found = []
        headers = objects(table, "timeTableHeaders", "the time table") if "timeTableHeaders" in table else []
        for header in headers:
            if field(header, "fieldId", int, "a header") == CELLS:
                found = [of_kind(it, str, "a name of a column") for it in field(header, "names", list, "a header")]
        return found

    def columns(self, tracks, names, duration):
        by_number = {}
        for track in tracks:
            self.known("a track", track)
            number = field(track, "trackNo", int, "a track")
            if number < 0 or number in by_number:
                raise ValueError("there %s %d" % ("are two tracks" if number in by_number else "is a track", number))
            by_number[number] = track
        for number, name in enumerate(names):
            if number not in by_number:
                self.tell("column %s has no track, so it is left out" % name)
        return [self.column(number, by_number[number], names, duration) for number in sorted(by_number)]

    def column(self, number, track, names, duration):
        name = names[number] if number < len(names) and names[number] else None
        if name is None:
            name = str(number + 1)
            self.tell("track %d has no name, so it is column %s" % (number, name))
        return Column(name, TrackReader(self, name).entries(track, duration))


class TrackReader:
    """Reads the entries of one track."""

    def __init__(self, reader, name):
        self.reader = reader
        self.where = "column %s" % name
        self.left_out = {}

    def note(self, what, frame):
        self.left_out.setdefault(what, []).append(frame)

    def entries(self, track, duration):
        marks = {}
        for one in objects(track, "frames", self.where):
            self.reader.known("a frame", one)
            frame = field(one, "frame", int, "a frame of %s" % self.where)
            if frame in marks:
                raise ValueError("%s has frame %d twice" % (self.where, frame))
            marks[frame] = self.value(one, frame)
        for frame in sorted(marks):
            if frame >= duration and marks[frame] not in (NOTHING, HOLD, None):
                self.note("what stands behind the last row, %d, is left out" % duration, frame)
        for what, frames in self.left_out.items():
            self.reader.tell("%s, %s: %s" % (self.where, rows_named(sorted(frames)), what))
        return self.held({frame: value for frame, value in marks.items() if frame < duration})

    def held(self, marks):
        """The entries by row. What stands before row 1 is held there, as some programs write it."""
        entries = {}
        for frame in sorted(marks):
            value = marks[frame]
            if value is not None and value != HOLD and value not in MARKS:
                entries[max(frame, 0) + 1] = EMPTY if value == NOTHING else value
        return entries

    def value(self, one, frame):
        """The first value of the entry of id 0; None where there is none."""
        found = None
        for entry in objects(one, "data", "frame %d of %s" % (frame, self.where)):
            self.reader.known("an entry", entry)
            number = field(entry, "id", int, "an entry of %s" % self.where)
            if number != 0:
                self.note("the entry of id %d is left out" % number, frame)
            elif found is not None:
                raise ValueError("frame %d of %s has two entries of id 0" % (frame, self.where))
            else:
                found = self.first(field(entry, "values", list, "an entry of %s" % self.where), frame)
        if found in MARKS:
            self.note("%s is a mark, and holds the drawing" % found, frame)
        if frame < 0 and found is not None:
            self.note("it stands before row 1, and is taken as held there", frame)
        return found

    def first(self, values, frame):
        if not values:
            self.note("an entry without a value empties the cell", frame)
            return NOTHING
        if values[1:]:
            self.note("values behind the first are left out", frame)
        value = of_kind(values[0], str, "the value at frame %d of %s" % (frame, self.where))
        if not value:
            raise ValueError("the value at frame %d of %s is an empty text" % (frame, self.where))
        return value
