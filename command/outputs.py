"""Files that are written whole or not at all: under a name of their own beside the target, whose name they take at the end."""
import os
import stat
import tempfile

from records import Bad


def permissions():
    """Those that a new file gets."""
    mask = os.umask(0)
    os.umask(mask)
    return 0o666 & ~mask


class Output:
    """A file to write, for a with block; a block that is left by an exception leaves no file behind."""

    def __init__(self, path):
        self.path = os.path.realpath(path)
        self.told = path

    def __enter__(self):
        try:
            if os.path.exists(self.path) and not stat.S_ISREG(os.stat(self.path).st_mode):
                raise Bad("it is there, and no plain file: it is not written over", self.told)
            handle, self.beside = tempfile.mkstemp(prefix=".wherryoar-", dir=os.path.dirname(self.path))
        except OSError as wrong:
            raise Bad(f"it cannot be written: {wrong.strerror}", self.told) from None
        self.file = os.fdopen(handle, "wb")
        return self

    def write(self, data):
        """Writes at once: another program may go on in the file."""
        try:
            self.file.write(data)
            self.file.flush()
        except OSError as wrong:
            raise Bad(f"it cannot be written: {wrong.strerror}", self.told) from None

    def __exit__(self, kind, *_):
        try:
            with self.file:
                pass  # what is still to be written may fail
            if kind is None:
                os.chmod(self.beside, permissions())
                os.replace(self.beside, self.path)
                return
        except OSError as wrong:
            self.drop()
            raise Bad(f"it cannot be written: {wrong.strerror}", self.told) from None
        self.drop()

    def drop(self):
        if os.path.exists(self.beside):
            os.unlink(self.beside)
