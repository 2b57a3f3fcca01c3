"""Names of scenes and level files: ASCII letters, digits, space, _ - and ., the first neither . nor a space."""
import string

LETTERS = string.ascii_letters + string.digits
ALLOWED = set(LETTERS + " _-.")
LONGEST = 200


def is_legal(name):
    return 0 < len(name) <= LONGEST and set(name) <= ALLOWED and name[0] not in ". "


def legal(name, without_letters, longest):
    """A legal name like this one; where it has no letter and no digit of ours, the other one."""
    kept = "".join(it if it in ALLOWED else "_" for it in name)
    if not set(kept) & set(LETTERS):
        kept = without_letters
    return ("_" + kept if kept[0] in ". " else kept)[:longest]


class Taken:
    """Names that are given, each once; capitals make no other name."""

    def __init__(self, names=()):
        self.names = {name.casefold() for name in names}

    def give(self, name):
        """The name, or the first of NAME_2, NAME_3 .. that is free."""
        number, given = 1, name
        while given.casefold() in self.names:
            number += 1
            given = "%s_%d" % (name, number)
        self.names.add(given.casefold())
        return given
