"""The functions of a crate as its source declares them: contract, body and reach."""
import re
from dataclasses import dataclass, field

from . import antt


@dataclass
class Function:
    """A function, with its contract as text and the place of its body."""

    path: tuple  # the modules, the type of a method, and the name
    public: bool  # another crate can call it, or the linker can reach it
    parameters: list  # each as it is written
    answer: str  # the result's type, or nothing
    requires: list = field(default_factory=list)
    ensures: list = field(default_factory=list)
    exported: bool = False  # under its own name in a static library
    declared: bool = False  # by the word `pub`, wherever it stands
    of_trait: bool = False  # of a trait's `impl`, which promises by the trait's ghost members too
    owner: str = ""  # the type that `self` has, of a method
    file: object = None
    body: tuple = (0, 0)  # where the body begins and ends in the file

    def name(self):
        return "::".join(self.path)

    def text(self):
        return self.file.read_text()[slice(*self.body)]


@dataclass
class Reading:
    """A stretch of a text that is read item by item."""

    text: str
    at: int
    end: int

    def skip(self):
        self.at = re.compile(r"\s*").match(self.text, self.at, self.end).end()

    def over(self):
        self.skip()
        return self.at >= self.end

    def take(self, pattern):
        """The match of a pattern that stands here, after which the reading goes on."""
        self.skip()
        found = re.compile(pattern).match(self.text, self.at, self.end)
        if found:
            self.at = found.end()
        return found

    def block(self, open_, close):
        """What stands between two brackets, the first of which is here, as a reading of its own."""
        self.skip()
        began, depth = self.at, 0
        while True:
            depth += {open_: 1, close: -1}.get(self.text[self.at], 0)
            self.at += 1
            if depth == 0:
                return Reading(self.text, began + 1, self.at - 1)

    def words(self):
        return self.text[self.at : self.end].strip()


def without_comments(text):
    """The text with spaces in the place of comments, so that every place in it stays."""
    return re.sub(r"//[^\n]*", lambda found: " " * len(found.group(0)), text)


def parted(text):
    """The parts of a list that commas divide, where brackets hold a comma back."""
    parts, depth = [""], 0
    for letter in text:
        depth += {"(": 1, "[": 1, "<": 1, ")": -1, "]": -1, ">": -1}.get(letter, 0)
        if letter == "," and depth == 0:
            parts.append("")
        else:
            parts[-1] += letter
    return [part.strip() for part in parts if part.strip()]


def used(text):
    """What a `use` names, as (path, the name it gets here): `a::{b, c as d}` is two."""
    text = " ".join(text.split())
    before, open_, inside = text.partition("{")
    if open_:
        return [(before.replace(" ", "") + path, name) for one in parted(inside.rstrip("} ")) for path, name in used(one)]
    path, _, name = text.partition(" as ")
    return [(path.replace(" ", ""), name.strip() or path.split("::")[-1].strip())]


def word_of(kind):
    """A type as the prover writes it in a name: `u8` is U8, `&[u8; 2]` is ArrayU8."""
    kind = re.sub(r"&\s*('\w+\s+)?(mut\s+)?|'\w+|\bdyn\b|\w+::", "", kind)
    array = re.match(r"\s*\[(.*?)(;.*)?\]\s*$", kind)
    if array:
        return ("Array" if array.group(2) else "Slice") + word_of(array.group(1))
    return "+".join(word[0].upper() + word[1:] for word in re.findall(r"\w+", kind))


class Crate:
    """Reads the source of a library crate, module by module."""

    def __init__(self, folder):
        self.folder = folder / "src"
        self.found, self.modules, self.shown, self.lost = [], {(): True}, [], []
        root = self.folder / "lib.rt"
        if root.exists():
            texts = {path: without_comments(path.read_text()) for path in sorted(self.folder.glob("**/*.rt"))}
            every = "".join(texts.values())
            self.types = set(re.findall(r"^\s*pub (?:struct|enum|type) (\w+)", every, re.M))
            self.hidden = set(re.findall(r"^\s*(?:pub\([^)]*\) )?(?:struct|enum|type|trait) (\w+)", every, re.M)) - self.types
            self.homes = {name: self.module_of(path) for path in texts for name in re.findall(r"^(?:pub(?:\([^)]*\))? )?(?:struct|enum) (\w+)", texts[path], re.M)}
            self.constants = set(re.findall(r"^\s*pub const (\w+)", every, re.M))
            self.read_file(root, (), True)
            self.follow()

    def follow(self):
        """What a `pub use` shows from a private module is public too; what cannot be followed is kept as lost. What it shows of
        another crate is counted there."""
        names = {path + (name,): self.absolute(path, target) for path, _, target, name in self.shown}
        for path, reached, target, _ in self.shown:
            end = self.absolute(path, target)
            for _ in names:
                at = next((cut for cut in range(len(end), 0, -1) if end[:cut] in names), 0)
                end = (names[end[:at]] + end[at:]) if at else end
            inside = any(end[:cut] in self.modules for cut in range(1, len(end) + 1)) or len(end) == 1
            if reached and inside and not self.show(end):
                self.lost.append("::".join(path + (f"pub use {target}",)))

    def absolute(self, path, target):
        """A path from the crate's root, as it is meant in a module."""
        parts = tuple(target.split("::"))
        while parts[0] in ("self", "super"):
            path, parts = (path if parts[0] == "self" else path[:-1]), parts[1:]
        return parts[1:] if parts[0] == "crate" else path + parts

    def show(self, end):
        """Makes a function public, or those that can be reached through a module; a type or a constant shows nothing new."""
        known = end[-1] in self.types | self.constants
        for one in self.found:
            between = [one.path[:cut] for cut in range(len(end) + 1, len(one.path))]
            if one.path[: len(end)] == end:
                known = True
                one.public |= one.declared and all(self.modules.get(path, True) for path in between)
        return known

    def read_file(self, file, path, reached):
        text = without_comments(file.read_text())
        self.read_items(Reading(text, 0, len(text)), file, path, reached)

    def module_of(self, file):
        """The module that a file is."""
        path = file.relative_to(self.folder).with_suffix("").parts
        return path[:-1] if path[-1] in ("lib", "mod") else path

    def file_of(self, path):
        plain = self.folder.joinpath(*path).with_suffix(".rt")
        return plain if plain.exists() else self.folder.joinpath(*path, "mod.rt")

    def read_items(self, reading, file, path, reached):
        exported = False
        while not reading.over():
            if reading.take(r"#!?(?=\[)"):
                exported |= "no_mangle" in reading.block("[", "]").words()
                continue
            show = reading.take(r"pub use ([^;]*);")
            if show:
                self.shown += [(path, reached, target, name) for target, name in used(show.group(1))]
                continue
            module = reading.take(r"(pub )?mod (\w+)\s*(;|(?=\{))")
            if module:
                inner, open_ = path + (module.group(2),), reached and bool(module.group(1))
                self.modules[inner] = bool(module.group(1))
                if module.group(3):
                    self.read_file(self.file_of(inner), inner, open_)
                else:
                    self.read_items(reading.block("{", "}"), file, inner, open_)
                continue
            kept = reading.take(r"impl(?:<[^>]*>)? (?:\w+::)*(\w+)(?:<([^{]*?)>)? for ([^{]*?)\s*(?=\{)")
            if kept:
                trait, given, kind = kept.groups()
                name = word_of(kind) + trait + word_of(given or "")
                seen = not self.hidden & set(re.findall(r"\w+", f"{trait} {given} {kind}"))
                self.read_trait(reading.block("{", "}"), file, path + (name,), seen, kind)
                continue
            methods = reading.take(r"impl(?:<[^>]*>)? (\w+)[^{]*")
            if methods:
                # a public method of a public type is in reach wherever its block stands
                kind = methods.group(1)
                before = len(self.found)
                self.read_items(reading.block("{", "}"), file, (*self.homes.get(kind, ()), kind), kind in self.types)
                for one in self.found[before:]:
                    one.owner = kind
                continue
            function = reading.take(r'(pub(?:\([^)]*\))? )?(?:const )?(?:extern "C" )?fn ')
            if function:
                one = read_function(reading, file, path)
                one.declared, one.exported, exported = function.group(1) == "pub ", exported, False
                one.public = one.exported or (reached and one.declared)
                self.found.append(one)
                continue
            reading.take(r"[^{;]*")
            if not reading.take(";") and not reading.over():
                reading.block("{", "}")
                reading.take(";")


    def read_trait(self, block, file, path, seen, owner):
        """A trait's functions, as written by hand for a type: each promises what it ensures and what the ghost members say."""
        ghosts, found = {}, []
        while not block.over():
            if block.take(r"#(?=\[)"):
                block.block("[", "]")
                continue
            ghost = block.take(r"ghost (\w+)[^={]*=\s*(?=\{)")
            function = None if ghost else block.take(r"(?:const )?fn ")
            if ghost:
                ghosts[ghost.group(1)] = block.block("{", "}").words()
            elif function:
                found.append(read_function(block, file, path))
            else:
                block.take(r"[^{;]*")
                if not block.take(";") and not block.over():
                    block.block("{", "}")
        for one in found:
            one.of_trait, one.public, one.owner = True, seen, owner
            one.requires += [said for name, said in ghosts.items() if name.startswith("can_")]
            one.ensures += [said for name, said in ghosts.items() if not name.startswith("can_")]
        self.found += found


def read_function(reading, file, path):
    """The function whose name stands here."""
    name = reading.take(r"(\w+)(<[^>]*>)?").group(1)
    parameters = parted(reading.block("(", ")").words())
    answer = ""
    if reading.take("->"):
        answer = reading.take(r"[^{]*?(?=\s(?:ghost|requires|ensures|decreases|measure)\b|\s*\{)").group(0).strip()
    found = Function((*path, name), False, parameters, answer, file=file)
    while True:
        clause = reading.take(r"(ghost|requires|ensures|decreases|measure)\b[^{]*")
        if not clause:
            break
        said = reading.block("{", "}").words()
        {"requires": found.requires, "ensures": found.ensures}.get(clause.group(1), []).append(said)
    body = reading.block("{", "}")
    found.body = (body.at, body.end)
    return found


def functions(crate):
    """The functions of a library crate's folder; a program has none that another crate can reach."""
    return Crate(crate).found


def lost(crate):
    """Each `pub use` of a crate that cannot be followed to what it shows."""
    return Crate(crate).lost


def definitions(crate, listed):
    """The names that the crate's code takes from definitions of specs/, its own and those of other crates that are listed."""
    names = set()
    for path in (crate / "src").glob("**/*.rt"):
        for here, there in antt.brought(path.read_text()).items():
            told = re.match(r"Rattle\.(\w+)\.specs\.", there)
            if told and told.group(1) in listed:
                names.add(here)
    return names


def enums(root):
    """The variants of every enum of the crates, by what each holds: {enum: {variant: what it holds}}."""
    found = {}
    for path in sorted(root.glob("crates/*/src/**/*.rt")):
        for name, inside in re.findall(r"^pub enum (\w+) \{(.*?)^\}", without_comments(path.read_text()), re.M | re.S):
            found[name] = {variant: held for variant, held in re.findall(r"(\w+)(\([^)]*\))?,", inside)}
    return found


def fields(root):
    """The fields of every struct of the crates, also of one with a lifetime or a type as its parameter: {struct: {field: type}}."""
    found = {}
    for path in sorted(root.glob("crates/*/src/**/*.rt")):
        for name, inside in re.findall(r"^pub struct (\w+)[^{;]*\{(.*?)^\}", without_comments(path.read_text()), re.M | re.S):
            told = [re.search(r"(\w+): (.+)", " ".join(part.split())) for part in parted(inside)]
            found[name] = {field.group(1): field.group(2) for field in told if field}
    return found


def inside(root):
    """What is declared of every type of the crates, public or not, behind its name: {type: text}."""
    found = {}
    for path in sorted(root.glob("crates/*/src/**/*.rt")):
        text = without_comments(path.read_text())
        for told in re.finditer(r"^ *(?:pub(?:\([^)]*\))? )?(?:struct|enum|type) (\w+)", text, re.M):
            reading = Reading(text, told.end(), len(text))
            reading.take(r"[^{(;=]*")
            brackets = {"{": "}", "(": ")"}.get(text[reading.at])
            if brackets:
                reading.block(text[reading.at], brackets)
            else:
                reading.at = text.index(";", reading.at)
            found[told.group(1)] = found.get(told.group(1), "") + text[told.end() : reading.at]
    return found


def holding(root):
    """The types that hold a reference, or another of these: a parameter of such a type lends what it does not show."""
    texts = inside(root)
    found = {name for name, text in texts.items() if re.search(r"&|'(?!static\b)\w", text)}
    for _ in texts:
        found |= {name for name, text in texts.items() if found & set(re.findall(r"\w+", text))}
    return found


def kinds(function):
    """The types of a function's parameters and of its answer; that of `self` too."""
    for parameter in function.parameters:
        name, _, kind = parameter.partition(":")
        kind = kind or re.sub(r"^mut\s+|\bself$", "", name) + "Self"
        yield re.sub(r"\bSelf\b", function.owner, kind).strip()
    yield re.sub(r"\bSelf\b", function.owner, function.answer)


def unfollowed(root, crate):
    """Each place at which a type that holds a reference passes into a public function, or out of it, and is not lent itself. Where
    it is, the function's theorem speaks of the whole that is left of it, and so of what it holds."""
    found = holding(root)
    lent = rf"&\s*(?:'\w+\s+)?(?:mut\s+)?(?:\w+::)*(?:{'|'.join(sorted(found))})(?:<(?:'\w+|[\s,])*>)?"
    for one in functions(crate):
        for kind in kinds(one) if one.public else ():
            if found & set(re.findall(r"\w+", kind)) and not re.fullmatch(lent, kind):
                yield f"{crate.name}::{one.name()} has {kind}, which holds a reference and is not lent itself"
