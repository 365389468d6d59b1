"""Small wrong changes of the definition: inside the clauses of definitions and the fields of records."""
import re

from .edits import Edit
from .numbers import NUMBER, another, off_by_one

TURNED = {"ltb": "leb", "leb": "ltb", "nat_lt": "nat_le", "nat_le": "nat_lt", "<": "≤", "≤": "<"}
OTHER = {"true": "false", "false": "true", "further": "back", "back": "further", "high_of": "low_of", "low_of": "high_of"}
ATOM = r"[^\s(){},;∷]+"
WORD = r"(?<![^\s(){},;∷])[^\s(){},;∷.]+"  # of an atom what stands before its fields


def without_comments(text):
    return re.sub(r"--[^\n]*", lambda found: " " * len(found.group(0)), text)


def variants(text):
    """The constructors that a file takes from each enum: {constructor: the enum's constructors}."""
    found = {}
    for names in re.findall(r"^use [^\n]*TheVariants\.\{([^}]*)\}", text, re.M):
        together = names.replace(",", " ").split()
        found.update({name: together for name in together})
    return found


def group_end(text, at):
    """The place after the atom or the bracket that begins here."""
    if text[at] != "(":
        return re.compile(ATOM).match(text, at).end()
    depth = 0
    while True:
        depth += {"(": 1, ")": -1}.get(text[at], 0)
        at += 1
        if depth == 0:
            return at


class Clause:
    """A clause of a definition, or a field of a record."""

    def __init__(self, page, item, start, end, types):
        self.page, self.item, self.start, self.end = page, item, start, end
        self.field = types is None
        self.types = types or {}

    def text(self):
        return self.page.raw[self.start : self.end]


class Page:
    """A file of specs/, read into clauses."""

    def __init__(self, path):
        self.path = path
        self.raw = path.read_text()
        self.text = without_comments(self.raw)
        self.constructors = variants(self.text)
        self.clauses = []
        signatures = {}
        blocks = [(found.start(), found.group(0)) for found in re.finditer(r"^\S[^\n]*\n(?:(?:[ \t][^\n]*)?\n)*", self.text + "\n", re.M)]
        for at, block in blocks:
            declared = re.match(r"(?:abbrev |unfoldable |opaque )?(?:pub )?(\S+) :(.*)", block, re.S)
            record = re.match(r"pub record (\S+)", block)
            clause = re.match(r"(\S+)((?: (?:\([^=]*?\)|[^\s=]+))*?)\s*=\s", block)
            if record:
                for told in re.finditer(r"^  pub (\S+) : (.*)$", block, re.M):
                    self.clauses.append(Clause(self, record.group(1), at + told.start(2), at + told.end(2), None))
            elif re.match(r"use |unfolding |pub mod |pub data ", block):
                continue
            elif clause and clause.group(1) in signatures:
                types = self.named(clause.group(2), signatures[clause.group(1)])
                body = at + clause.end()
                self.clauses.append(Clause(self, clause.group(1), body, body + len(block[clause.end() :].rstrip()), types))
            elif declared:
                signatures[declared.group(1)] = [part.strip() for part in re.split(r"→", declared.group(2))]

    @staticmethod
    def named(patterns, types):
        """The variables of a clause with their types."""
        shown = re.findall(r"\([^)]*\)|\S+", patterns)
        return {pattern: type_ for pattern, type_ in zip(shown, types) if re.fullmatch(r"[a-z][^\s()]*", pattern)}

    def edit(self, item, kind, at, old, new):
        file = "/".join(self.path.parts[-3:])
        return Edit(file, item, kind, at, old, new, self.text.count("\n", 0, at) + 1)

    def of_clause(self, clause):
        text, item = self.text, clause.item
        for token in NUMBER.finditer(text, clause.start, clause.end):
            for new in off_by_one(token.group(0)):
                yield self.edit(item, "number off by one", token.start(), token.group(0), new)
            for new in another(token.group(0)):
                yield self.edit(item, "another constant", token.start(), token.group(0), new)
        for token in re.compile(WORD).finditer(text, clause.start, clause.end):
            word, at = token.group(0), token.start()
            if word in TURNED:
                yield self.edit(item, "comparison turned", at, word, TURNED[word])
            elif word in OTHER:
                yield self.edit(item, "another operand", at, word, OTHER[word])
            elif word in self.constructors:
                near = self.constructors[word]
                if len(near) > 1:
                    yield self.edit(item, "another operand", at, word, near[(near.index(word) + 1) % len(near)])
            elif word in clause.types:
                for other, type_ in clause.types.items():
                    if other != word and type_ == clause.types[word]:
                        yield self.edit(item, "another operand", at, word, other)
            elif word == "flags_of":
                at = token.end()
                for _ in range(4):
                    at = re.compile(r"\s*").match(text, at).end()
                    after = group_end(text, at)
                    argument = text[at:after]
                    new = "true" if argument == "false" else "false"
                    yield self.edit(item, "flag dropped" if new == "false" else "flag set", at, argument, new)
                    at = after
        yield from self.neighbours(clause)

    def neighbours(self, clause):
        """Entries of a list that stand side by side on a line, exchanged."""
        entry = r"((?:[^\s()∷]+|\([^()]*\))(?: (?:[^\s()∷]+|\([^()]*\)))*)"
        for pair in re.compile(rf"{entry} ∷ (?={entry} ∷)").finditer(self.text, clause.start, clause.end):
            one, two = pair.group(1), pair.group(2)
            if one != two and "nth" not in one + two:
                yield self.edit(clause.item, "neighbours exchanged", pair.start(1), f"{one} ∷ {two}", f"{two} ∷ {one}")

    def exchanged(self):
        """Clauses of one definition that follow each other, with their right sides exchanged."""
        for one, two in zip(self.clauses, self.clauses[1:]):
            if one.item == two.item and not one.field and one.text() != two.text():
                between = self.raw[one.end : two.start]
                old, new = one.text() + between + two.text(), two.text() + between + one.text()
                yield self.edit(one.item, "arms exchanged", one.start, old, new)


def edits(crate):
    """Every edit of a crate's definition."""
    for path in sorted((crate / "specs").glob("*.antt")):
        page = Page(path)
        for clause in page.clauses:
            yield from page.of_clause(clause)
        yield from page.exchanged()
