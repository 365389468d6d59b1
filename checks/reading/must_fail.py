"""The must-fail edits of a crate: what each teaches, whose promise it would break or which theorem, and what it changes."""
from dataclasses import dataclass, field


@dataclass
class MustFail:
    """One edit. A file holds one, or several that are made together: those of functions that do not rest on one another."""

    file: str  # the file's name without its ending
    teaches: str
    promise: str  # a public function, or nothing
    theorem: str = ""  # or a law whose statement is changed
    places: list = field(default_factory=list)  # each a file of the crate and the text in it that is changed
    changes: list = field(default_factory=list)  # each such text and the one in its place


def edits(crate):
    found = []
    for path in sorted((crate / "must-fail").glob("*.edit")):
        found += in_file(path)
    return found


def in_file(path):
    found, comment, source, fresh = [], "", "", True
    for line in path.read_text().split("\n"):
        word, _, rest = line.partition(" ")
        if line.startswith("# promise: "):
            found.append(MustFail(path.stem, comment, line.removeprefix("# promise: ")))
            fresh = False
        elif line.startswith("# theorem: "):
            found.append(MustFail(path.stem, comment, "", line.removeprefix("# theorem: ")))
            fresh = False
        elif word == "#":
            comment, fresh = rest, True
        elif word == "file:":
            source = rest
            if fresh:
                found.append(MustFail(path.stem, comment, ""))
                fresh = False
        elif word == "old:":
            found[-1].places.append((source, rest))
        elif word == "new:":
            found[-1].changes.append((found[-1].places[-1][1], rest))
    return found


def pairs(path):
    """What an edit's file changes: (a file of the crate, the old text, the new text), as the kit reads it."""
    found, file, old = [], "", None
    for line in path.read_text().split("\n"):
        if line.startswith("file: "):
            file = line.removeprefix("file: ").strip()
        elif line.startswith("old: "):
            old = line.removeprefix("old: ")
        elif line.startswith("new:") and old is not None:
            found.append((file, old, line.removeprefix("new:").removeprefix(" ")))
            old = None
    return found


def applied(crate, path):
    """The texts of the files that an edit's file changes, with its changes made one after another, and what is wrong, if anything is."""
    after, changes = {}, pairs(path)
    for file, old, new in changes:
        if file not in after:
            after[file] = (crate / file).read_text() if (crate / file).is_file() else ""
        count = after[file].count(old)
        if count != 1:
            return {}, f"changes a text that stands in {file} {count} times, and not once: {old}"
        after[file] = after[file].replace(old, new)
    return after, "" if changes else "changes nothing"
