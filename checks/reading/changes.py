"""A named change: in one file or some, a text that stands there once, and another in its place."""
import contextlib


class Misplaced(Exception):
    """A text to change is not there, or is there more than once."""


class Change:
    """Its parts are (a file below crates/, the old text, the new text)."""

    def __init__(self, name, *parts):
        self.name, self.parts = name, parts

    def crate(self):
        return self.parts[0][0].split("/")[0]

    def part(self):
        return "code" if "/src/" in self.parts[0][0] else "definition"

    @contextlib.contextmanager
    def made(self, crates):
        """The change holds inside the block; the files are as before after it."""
        before = {file: (crates / file).read_text() for file, *_ in self.parts}
        after = dict(before)
        for file, old, new in self.parts:
            if after[file].count(old) != 1:
                raise Misplaced(f"{file}: a text of '{self.name}' stands there {after[file].count(old)} times, and not once: {old}")
            after[file] = after[file].replace(old, new)
        try:
            for file, text in after.items():
                (crates / file).write_text(text)
            yield
        finally:
            for file, text in before.items():
                (crates / file).write_text(text)
