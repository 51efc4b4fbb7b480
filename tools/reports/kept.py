"""The folder that a run keeps: the trace, the certificate and the picture of each INCONSISTENT."""

import os
import shlex

# The largest file of the folder that is read, in bytes. A trace of 4,096 operations and a picture of 100 have less.
MOST_BYTES = 4_000_000


class Kept:
    """The files of one trace. Without a folder, or where a file is not there, it has none."""

    def __init__(self, folder, stem):
        self.folder, self.stem = folder, stem

    def path(self, suffix):
        """The path of one of its files, or None if it is not there."""
        # A name that leads out of the folder is none of the names that are written.
        if self.folder is None or not self.stem or "/" in self.stem or "\0" in self.stem:
            return None
        path = os.path.join(self.folder, self.stem + suffix)
        return path if os.path.isfile(path) else None

    def text(self, suffix):
        """What one of its files has, or None if it is not there or is no such file."""
        path = self.path(suffix)
        if path is None or os.path.getsize(path) > MOST_BYTES:
            return None
        with open(path, encoding="utf-8", errors="replace") as file:
            return file.read()

    def commands(self):
        """The commands that check the verdict again, from the folder in which the report was made."""
        trace, cert, names = (self.path(suffix) for suffix in (".trace", ".cert", ".names"))
        if trace is None or cert is None:
            return []
        part = ["--part", names] if names else []
        return [shlex.join(["vsc", "recheck", trace, cert, *part])]


def stem_of(result, are_many):
    """The name of the files of a result: what it says, or else the name of its file, with the trace's number if the file has several."""
    if result.kept is not None:
        return result.kept
    base = os.path.basename(result.file)
    stem = base[: -len(".trace")] if base.endswith(".trace") else base
    return f"{stem}-{result.number}" if are_many else stem
