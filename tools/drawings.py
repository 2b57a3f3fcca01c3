"""Which PNG picture is meant by a column and the name of a drawing in it.

For drawing 7 of column A these are looked for in the folder of drawings, and the first that is there counts:

    A/7.png
    A/A_7.png, A/A-7.png, A/A.7.png, A/A7.png
    A_7.png, A-7.png, A.7.png, A7.png
    7.png                                       where the name of the drawing is no bare number

Zeros before a number do not count, so 7 finds 0007.png. Where the column's name ends in a digit, A7.png is not
looked for. Two pictures for one of these names are a fault.
"""
import os
import re
import unicodedata

BETWEEN = ("_", "-", ".")


def plain(name):
    """A name without the zeros before its numbers, in composed letters."""
    return re.sub(r"(?<![0-9])0+(?=[0-9])", "", unicodedata.normalize("NFC", name))


def looked_for(column, drawing):
    """The folders and names that are looked for, in order; the folder of drawings itself is ""."""
    between = BETWEEN if column[-1:].isdigit() else BETWEEN + ("",)
    joined = [column + it + drawing for it in between]
    places = [(column, drawing)] + [(column, name) for name in joined] + [("", name) for name in joined]
    return places if drawing.isdigit() else places + [("", drawing)]


class Drawings:
    """The PNG pictures of a folder and of the folders in it."""

    def __init__(self, folder):
        self.folder = folder
        self.found = {}
        for entry in sorted(os.scandir(folder), key=lambda it: it.name):
            if entry.is_dir() and not entry.name.startswith("."):
                for name in sorted(os.listdir(entry.path)):
                    self.add(entry.name, name)
            else:
                self.add("", entry.name)

    def add(self, folder, name):
        stem, kind = os.path.splitext(name)
        if kind.lower() == ".png" and not name.startswith("."):
            key = unicodedata.normalize("NFC", folder), plain(stem)
            self.found.setdefault(key, []).append(os.path.join(folder, name))

    def find(self, column, drawing):
        """The picture within the folder, or None."""
        for folder, name in looked_for(column, drawing):
            found = self.found.get((unicodedata.normalize("NFC", folder), plain(name)), [])
            if len(found) > 1:
                raise ValueError("drawing %s of column %s: there are two pictures for it in %s, %s and %s"
                                 % (drawing, column, self.folder, found[0], found[1]))
            if found:
                return found[0]
        return None

    def find_all(self, wanted):
        """The path of the picture of each column and drawing; what is missing is a fault that says what was looked for."""
        found = {it: self.find(*it) for it in wanted}
        missing = [it for it in wanted if found[it] is None]
        if missing:
            column, drawing = missing[0]
            names = [os.path.join(*it) + ".png" for it in looked_for(column, drawing)]
            others = "; %d more missing" % (len(missing) - 1) if missing[1:] else ""
            raise ValueError("drawing %s of column %s: no picture in %s, looked for %s%s"
                             % (drawing, column, self.folder, ", ".join(names), others))
        return {it: os.path.join(self.folder, picture) for it, picture in found.items()}
