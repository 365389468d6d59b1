"""The declarations of an antt file: names, types and texts, without the layout and the comments."""
import re
from dataclasses import dataclass, field

# The files of a function's own proof, in its folder of proofs/.
OWN = ("Answers.antt", "Invariants.antt", "Proof.antt")


@dataclass
class Declared:
    """A declaration: what it says of its name, and the text below that."""

    name: str
    kind: str  # "record", "data", or nothing
    public: bool
    words: str  # `abbrev`, `unfoldable`, `opaque`, or nothing
    given: str  # the parameters of the modules around it
    says: str  # the parameters and the type
    body: list = field(default_factory=list)  # the lines below: clauses, or fields and constructors

    def word(self):
        """The name as a text uses it: a sign stands there without its places' marks."""
        return self.name.strip("◌")

    def text(self):
        """All that the declaration means, on one line."""
        return flat(f"{self.given} {self.words} {self.kind} {self.name} {self.says} {' '.join(self.body)}")


def flat(text):
    return " ".join(text.split())


def plain(text):
    """The lines of a file without comments; what a comment stood behind is kept."""
    return [re.sub(r"(^|\s)--(\s.*)?$", "", line).rstrip() for line in text.split("\n")]


def indent(line):
    return len(line) - len(line.lstrip())


def until(text, sign):
    """Where a sign stands outside all brackets, or -1."""
    depth = 0
    for at, letter in enumerate(text):
        depth += {"(": 1, "{": 1, ")": -1, "}": -1}.get(letter, 0)
        if depth == 0 and text.startswith(sign, at):
            return at
    return -1


def head(line):
    """The words, the kind, the name and the rest of a line that declares something; nothing for another line."""
    told = re.match(r"((?:(?:pub|abbrev|unfoldable|opaque) )*)((?:record |data )?)([^\s(){}:;=]+)(.*)$", line.strip())
    if not told or told.group(3) in ("use", "mod", "module", "unfolding", "where"):
        return None
    words, kind, name, rest = told.groups()
    colon = until(rest + " ", " : ")
    if colon < 0 and not kind and not re.search(r"\s:$", rest):
        return None
    if not kind and not re.fullmatch(r"(\s*[({].*[)}])?", rest[: max(colon, 0)].strip()):
        return None
    return words, kind.strip(), name, rest.strip()


def declarations(text):
    """The declarations of a file, in its order."""
    found, modules, last = [], [], None
    for line in plain(text):
        if not line.strip():
            continue
        at = indent(line)
        while modules and at <= modules[-1][0]:
            modules.pop()
        level = modules[-1][0] + 2 if modules else 0
        module = re.match(r"\s*(?:pub )?module \S+(.*?)( where)?$", line)
        together = re.match(r"\s*((?:abbrev |unfoldable |opaque )*)mutual$", line)
        if (module or together) and at == level:
            modules.append((at, module.group(1), "") if module else (at, "", together.group(1)))
            last = None
            continue
        told = head(line) if at == level else None
        if told:
            words, kind, name, rest = told
            given = flat(" ".join(one for _, one, _ in modules))
            words = "".join(one for *_, one in modules) + words
            last = Declared(name, kind, "pub" in words.split(), flat(words.replace("pub ", "")), given, rest)
            found.append((last, at))
        elif last is not None:
            part_of(last, found[-1][1], at, line)
        elif modules and not re.match(r"\s*(use|pub mod|mod)\b", line):
            modules[-1] = (modules[-1][0], f"{modules[-1][1]} {line.strip()}".removesuffix(" where"), modules[-1][2])
    return [one for one, _ in found]


def part_of(one, began, at, line):
    """A line below a declaration: more of its type while it is deeper and nothing came between, else of its body."""
    if at > began and not one.body and not one.kind:
        one.says = f"{one.says} {line.strip()}"
    elif not re.match(r"\s*(use|pub mod|mod)\b", line):
        one.body.append(line.strip())


def brought(text):
    """What each name that a file's `use` lines bring stands for: {name here: module and name there}."""
    found = {}
    for module, names in re.findall(r"^ *(?:ghost |pub )*use ([^\s{;]+?)\.\{([^}]*)\}", text, re.M):
        for one in names.split(","):
            there, _, here = one.strip().partition(" as ")
            if there:
                found[(here or there).strip()] = f"{module}.{there.strip()}"
    return found


def modules(text):
    """The modules that a file's `use` lines give a name: {name here: module}."""
    return {here: module for module, here in re.findall(r"^ *(?:ghost )?use (\S+) as (\S+?);?$", text, re.M)}
