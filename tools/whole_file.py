"""Files that are there whole or not at all."""
import os
import tempfile


def write(path, data):
    """Writes a file beside its place, and then gives it its name."""
    folder, name = os.path.split(os.fspath(path))
    handle, beside = tempfile.mkstemp(prefix="." + name[:80] + ".", dir=folder or ".")
    try:
        with os.fdopen(handle, "wb") as file:
            file.write(data)
        os.chmod(beside, 0o666 & ~mask())
        os.replace(beside, path)
    except BaseException:
        os.unlink(beside)
        raise


def mask():
    """The rights that new files are not given."""
    now = os.umask(0)
    os.umask(now)
    return now
