"""A single small change at one place of one file, and the choice of such changes."""
import collections
import contextlib
import hashlib
import random
from dataclasses import dataclass, replace


@dataclass(frozen=True)
class Edit:
    """One text in another's place: in a file below crates/, from a place on."""

    file: str
    item: str  # the function or the definition that it stands in
    kind: str
    at: int
    old: str
    new: str
    line: int
    nth: int = 0  # which of those in the item that read the same

    def crate(self):
        return self.file.split("/")[0]

    def part(self):
        return "code" if self.file.split("/")[1] == "src" else "definition"

    def key(self):
        """A short name that stays as long as the item reads the same."""
        words = f"{self.file} {self.item} {self.kind} {self.old} {self.new} {self.nth}"
        return hashlib.sha256(words.encode()).hexdigest()[:10]

    def shown(self):
        def flat(text):
            text = " ".join(text.split())
            return text if len(text) <= 60 else text[:57] + "..."

        return f"{self.file}:{self.line} ({self.item}) {self.kind}: {flat(self.old)} -> {flat(self.new)}"

    @contextlib.contextmanager
    def made(self, crates):
        """The edit holds inside the block; the file is as before after it."""
        path = crates / self.file
        before = path.read_text()
        if before[self.at : self.at + len(self.old)] != self.old:
            raise ValueError(f"{self.file} has changed since the edits were chosen")
        path.write_text(before[: self.at] + self.new + before[self.at + len(self.old) :])
        try:
            yield
        finally:
            path.write_text(before)


def in_turn(edits, seed):
    """The edits of one part of a crate in the order in which they are tried: an item after the other, again and again,
    each time another kind of change at another place. The order within an item goes by the seed and the item's name."""
    items, alike = {}, collections.Counter()
    for edit in edits:
        words = (edit.file, edit.item, edit.kind, edit.old, edit.new)
        numbered = replace(edit, nth=alike[words])
        alike[words] += 1
        items.setdefault((edit.file, edit.item), {}).setdefault(edit.kind, []).append(numbered)
    queues = []
    for name in sorted(items):
        chance = random.Random(f"{seed} {name}")
        kinds = items[name]
        for kind in sorted(kinds):
            chance.shuffle(kinds[kind])
        order, left = [], sorted(kinds)
        chance.shuffle(left)
        while left:
            for kind in list(left):
                order.append(kinds[kind].pop())
                if not kinds[kind]:
                    left.remove(kind)
        queues.append(order)
    random.Random(f"{seed} items").shuffle(queues)
    while queues:
        for queue in list(queues):
            yield queue.pop(0)
            if not queue:
                queues.remove(queue)
