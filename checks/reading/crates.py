"""The crates of the repository: which there are, what each stands on, and copies for the prover."""
import pathlib
import re
import shutil

ROOT = pathlib.Path(__file__).resolve().parents[2]
LEFT = shutil.ignore_patterns("out", "must-fail")  # of a crate that is copied for the prover


def listed(root=ROOT):
    """The crates of crates.txt with what each names, bottom up as the file has them."""
    found = {}
    for line in (root / "crates.txt").read_text().split("\n"):
        line = line.split("#")[0].strip()
        if line:
            name, _, below = line.partition(":")
            found[name.split()[0]] = below.split()  # behind the name stands what kind of crate it is, if it is no usual one
    return found


def above(name, crates):
    """The crates that stand on this one, directly or through others, in the order of the list."""
    reached = {name}
    for other, below in crates.items():
        if reached & set(below):
            reached.add(other)
    return [other for other in crates if other in reached and other != name]


def below(name, crates):
    """What this crate stands on, directly or through others, the kit's libraries among them."""
    reached, todo = set(), list(crates[name])
    for other in todo:
        if other not in reached:
            reached.add(other)
            todo += crates.get(other, [])
    return reached


def write_list(folder, names, root):
    """The lines of crates.txt for these crates, as they stand there."""
    lines = (root / "crates.txt").read_text().split("\n")
    kept = [line for line in lines if names & set(line.split("#")[0].partition(":")[0].split()[:1])]
    (folder / "crates.txt").write_text("\n".join(kept) + "\n")


def cited(texts, module):
    """What `use` lines of these texts name in each file of a module: {file: names}."""
    found = {}
    for text in texts:
        for file, names in re.findall(rf"^use {module}\.(\w+)\.\{{([^}}]*)\}}", text, re.M):
            found.setdefault(file, set()).update(names.replace(",", " ").split())
    return found


def part(text, wanted):
    """A file of laws with those alone that are wanted, and what they rest on in the file: blocks go by their names."""
    head, *blocks = re.split(r"\n\n(?=\S)", text.rstrip("\n"))
    head = re.sub(r"^use Rattle\.\w+\.proofs\.\w+\..* as .*\n?", "", head, flags=re.M).rstrip("\n")
    name = r"^\s*(?:pub |abbrev |unfoldable )*(?:record )?([^\s:(]+) ?(?:\([^:]*: [^)]*\) ?)*:"
    defined = [set(re.findall(name, block, re.M)) for block in blocks]
    kept, reached = set(), set(wanted)
    while True:
        more = {at for at, names in enumerate(defined) if at not in kept and names & reached}
        if not more:
            return "\n\n".join([head] + [block for at, block in enumerate(blocks) if at in kept]) + "\n"
        kept |= more
        for at in more:
            reached |= set(re.findall(r"[^\s(){},;.]+", blocks[at]))


def laws(name, wanted, root=ROOT):
    """The law files of a crate of which something is wanted, cut to that and to what it rests on: {file: text}."""
    kept, asked, todo = {}, {}, list(wanted.items())
    for file, names in todo:
        if not names <= asked.setdefault(file, set()):
            asked[file] |= names
            kept[file] = part((root / "crates" / name / "proofs" / f"{file}.antt").read_text(), asked[file])
            todo += cited([kept[file]], f"Rattle\\.{name}\\.proofs").items()
    return kept


def types(text):
    """The types of a crate's first file: without its modules, its functions and its blocks of methods."""
    text = re.sub(r"^(pub )?mod \w+;\n|^use \w+::[a-z_]+;\n|^use crate::[^;]*;\n", "", text, flags=re.M)
    text = re.sub(r"^(?:(?://|#\[).*\n)*(?:pub )?(?:fn|impl) (?:.*\n)*?\}\n\n?", "", text, flags=re.M)
    used = re.sub(r"^use [^;]*;\n", "", text, flags=re.M)
    return re.sub(r"^use \w+::([A-Z]\w*);\n", lambda one: one.group(0) if re.search(rf"\b{one.group(1)}\b", used) else "", text, flags=re.M)


def called(top, crates, root):
    """The crates below this one whose functions its code calls, and what those stand on: they are wanted whole."""
    text = "".join(path.read_text() for path in (root / "crates" / top / "src").glob("**/*.rt"))
    whole = {name for name in below(top, crates) & set(crates) if re.search(rf"\b{name}::[a-z_]", text)}
    return whole | {name for one in whole for name in called(one, crates, root)}


def definitions(name, texts, root=ROOT):
    """The files of a crate's definitions that texts cite, and those that these rest on: {file: text}."""
    kept, todo = {}, list(texts)
    while todo:
        for file in re.findall(rf"Rattle\.{name}\.specs\.([A-Z]\w*)", todo.pop()):
            if file not in kept:
                kept[file] = (root / "crates" / name / "specs" / f"{file}.antt").read_text()
                todo.append(kept[file])
    return kept


def cut(source, target, kept, texts, root=ROOT):
    """A crate's types, the definitions that texts cite, and these laws; the texts of the definitions."""
    lib = types((source / "src/lib.rt").read_text())
    files = definitions(source.name, [*texts, *kept.values(), lib], root)
    (target / "specs").mkdir(parents=True)
    (target / "src").mkdir()
    (target / "src/lib.rt").write_text(lib)
    listed = re.findall(r"^pub mod (\w+)", (source / "specs/Lib.antt").read_text(), re.M)
    (target / "specs/Lib.antt").write_text("".join(f"pub mod {file}\n" for file in listed if file in files))
    for file, text in files.items():
        (target / "specs" / f"{file}.antt").write_text(text)
    if kept:
        (target / "proofs").mkdir()
        (target / "proofs/Lib.antt").write_text("".join(f"pub mod {file}\n" for file in kept))
        for file, text in kept.items():
            (target / "proofs" / f"{file}.antt").write_text(text)
    return list(files.values())


def copy_under(folder, top, root=ROOT, whole=None, theorems=None):
    """A copy of a crate with what it stands on: whole where its code calls functions there, and else the types, the
    definitions and the laws that are cited. With theorems, {file: names}, the crate itself is cut to these."""
    crates = listed(root)
    if theorems:
        kept = laws(top, theorems, root)
        entire, texts = set(), [*kept.values(), *cut(root / "crates" / top, folder / "crates" / top, kept, [], root)]
    else:
        entire = called(top, crates, root) if whole is None else set(whole)
        shutil.copytree(root / "crates" / top, folder / "crates" / top, ignore=LEFT)
        texts = [path.read_text() for path in (folder / "crates" / top).glob("**/*.antt")]
    under = [name for name in crates if name in below(top, crates)]
    for name in reversed(under):
        source, target = root / "crates" / name, folder / "crates" / name
        if name in entire:
            shutil.copytree(source, target, ignore=LEFT)
            texts += [path.read_text() for path in target.glob("**/*.antt")]
            continue
        kept = laws(name, cited(texts, f"Rattle\\.{name}\\.proofs"), root)
        texts += [*cut(source, target, kept, texts, root), *kept.values()]
    write_list(folder, {top, *under}, root)
