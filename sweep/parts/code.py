"""Small wrong changes of the code: inside the bodies of functions and in the constant tables."""
import re

from reading import source

from .edits import Edit
from .numbers import NUMBER, another, off_by_one

TURNED = {"<": "<=", "<=": "<", ">": ">=", ">=": ">", "==": "!=", "!=": "=="}


def parts(text, start, end, divider=","):
    """What a divider parts from each other, where brackets hold it back, each as (place, text)."""
    found, began, depth = [], start, 0
    for at in range(start, end + 1):
        letter = text[at] if at < end else divider
        depth += {"(": 1, "{": 1, "[": 1, ")": -1, "}": -1, "]": -1}.get(letter, 0)
        if letter == divider and depth == 0:
            part = text[began:at]
            if part.strip():
                found.append((began + len(part) - len(part.lstrip()), part.strip()))
            began = at + 1
    return found


def arms(text, start, end):
    """The arms of the matches in a body: what stands after each arrow, as (place, text), match by match."""
    found = []
    for match in re.compile(r"\bmatch [^{;]*\{").finditer(text, start, end):
        inside = source.Reading(text, match.end() - 1, end).block("{", "}")
        here = []
        while inside.take(r"[^=]*=>\s*"):
            began = inside.at
            if text[began] == "{":
                inside.block("{", "}")
            else:
                inside.at = began + len(parts(text, began, inside.end)[0][1])
            here.append((began, text[began : inside.at]))
            inside.take(",")
        found.append(here)
    return found


class Places:
    """The places of one function at which something can be changed."""

    def __init__(self, function, text, root_types, results):
        self.function, self.text = function, text
        self.start, self.end = function.body
        self.enums, self.fields = root_types
        self.results = results
        self.name = function.name()

    def edit(self, kind, at, old, new):
        file = "/".join(self.function.file.parts[-3:])
        return Edit(file, self.name, kind, at, old, new, self.text.count("\n", 0, at) + 1)

    def tokens(self, pattern):
        return re.compile(pattern).finditer(self.text, self.start, self.end)

    def in_pattern(self, at):
        """A place left of an arm's arrow."""
        line = self.text[at : self.text.find("\n", at)]
        return "=>" in line

    def numbers(self):
        for token in NUMBER.finditer(self.text, self.start, self.end):
            if self.in_pattern(token.start()):
                continue
            for new in off_by_one(token.group(0)):
                yield self.edit("number off by one", token.start(), token.group(0), new)
            for new in another(token.group(0)):
                yield self.edit("another constant", token.start(), token.group(0), new)

    def comparisons(self):
        for token in self.tokens(r"(?<=\s)(<=|>=|==|!=|<|>)(?=\s)"):
            yield self.edit("comparison turned", token.start(), token.group(0), TURNED[token.group(0)])

    def flags(self):
        for call in self.tokens(r"flags::pack(?=\()|\bpack(?=\()"):
            inside = source.Reading(self.text, call.end(), self.end).block("(", ")")
            for at, argument in parts(self.text, inside.at, inside.end):
                new = "true" if argument == "false" else "false"
                yield self.edit("flag dropped" if new == "false" else "flag set", at, argument, new)

    def bools(self):
        for token in self.tokens(r"\b(true|false)\b"):
            yield self.edit("another constant", token.start(), token.group(0), {"true": "false", "false": "true"}[token.group(0)])

    def variants(self):
        for token in self.tokens(r"\b(\w+)::([A-Z]\w*)"):
            held = self.enums.get(token.group(1), {})
            if token.group(2) not in held or self.in_pattern(token.start()):
                continue
            for other, what in held.items():
                if other != token.group(2) and what == held[token.group(2)]:
                    yield self.edit("another operand", token.start(), token.group(0), f"{token.group(1)}::{other}")

    def exchanged_arms(self):
        for here in arms(self.text, self.start, self.end):
            for (at, one), (next_, two) in zip(here, here[1:]):
                if one != two:
                    between = self.text[at + len(one) : next_]
                    yield self.edit("arms exchanged", at, one + between + two, two + between + one)

    def known(self):
        """The names with a known type: parameters, fields of self, and locals whose value says it."""
        types = {}
        for parameter in self.function.parameters:
            name, _, type_ = parameter.partition(":")
            if type_:
                types[name.replace("mut ", "").strip()] = type_.strip()
            elif "self" in parameter and self.function.path[0] in self.fields:
                types.update({f"self.{name}": kind for name, kind in self.fields[self.function.path[0]].items()})
        for local in self.tokens(r"\blet (?:mut )?(\w+)(?:: ([^=]+?))? = ([^;]+);"):
            name, told, value = local.groups()
            cast = re.search(r" as (\w+)$", value)
            call = re.match(r"(?:\w+::|self\.)?(\w+)\(", value)
            if told or cast:
                types[name] = told or cast.group(1)
            elif re.search(r"\s(<|<=|==|!=|\|)\s", value):
                types[name] = "bool"
            elif call and call.group(1) in self.results:
                types[name] = self.results[call.group(1)]
            elif value in types:
                types[name] = types[value]
        return types

    def operands(self):
        types = self.known()
        for token in self.tokens(r"(?<![\w.:])((?:self\.)?[a-z_]\w*)(?![\w(!:]|\.\w)"):
            name = token.group(1)
            before = self.text[max(0, token.start() - 8) : token.start()]
            after = self.text[token.end() : token.end() + 3]
            if name not in types or re.search(r"\b(let|mut|let mut)\s$", before) or self.in_pattern(token.start()):
                continue
            if re.match(r"\s=[^=]", after) or re.match(r":", after):
                continue
            declared = self.text.find(f"let {name}", self.start, self.end)
            for other, type_ in types.items():
                place = self.text.find(f"let {other}", self.start, self.end)
                if other != name and type_ == types[name] and place < token.start() and declared < token.start():
                    yield self.edit("another operand", token.start(), name, other)

    def all(self):
        for kind in (self.numbers, self.comparisons, self.flags, self.bools, self.variants, self.exchanged_arms, self.operands):
            yield from kind()


def tables(path, text):
    """The constant arrays of a file: numbers off by one, and neighbours exchanged."""
    for table in re.finditer(r"^const (\w+): \[[^\]]*\] = \[(.*?)^\];", text, re.M | re.S):
        inside = table.start(2)
        for token in re.finditer(r"\b(\d+)(?=, (\d+))?", table.group(2)):
            at = inside + token.start()
            line = text.count("\n", 0, at) + 1
            file = "/".join(path.parts[-3:])
            for new in off_by_one(token.group(0)):
                yield Edit(file, table.group(1), "number off by one", at, token.group(0), new, line)
            if token.group(2) and token.group(2) != token.group(1):
                old, new = f"{token.group(1)}, {token.group(2)}", f"{token.group(2)}, {token.group(1)}"
                yield Edit(file, table.group(1), "neighbours exchanged", at, old, new, line)


def edits(crate, root):
    """Every edit of a crate's code."""
    types = (source.enums(root), source.fields(root))
    found = [one for other in sorted((root / "crates").iterdir()) for one in source.functions(other)]
    results = {one.path[-1]: one.answer for one in found}
    for function in source.functions(crate):
        text = source.without_comments(function.file.read_text())
        yield from Places(function, text, types, results).all()
    for path in sorted((crate / "src").glob("**/*.rt")):
        yield from tables(path, source.without_comments(path.read_text()))
