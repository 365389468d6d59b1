"""What the prover says of each must-fail edit: it is tried on a copy of its crate. The words that tell why it was refused are kept in
checks/refused, under a sum of all that they rest on; they count while that is the same, and else the edit is tried again."""
import concurrent.futures
import hashlib
import os
import pathlib
import re
import shutil
import subprocess
import tempfile

from . import crates, must_fail, prover

LANES = int(os.environ.get("RT_JOBS") or min(4, os.cpu_count() or 1))  # crates that are tried side by side


def log(root, name, file):
    """Where the words on an edit are kept."""
    return root / "checks/refused" / name / f"{file}.log"


TELLING = r"fn \S+: (?!proved)|note: \S+\.rt:\d+:\d+: it is not proved|\S+\.(antt|rt):\d+:\d+: error|rt: the library|logic=|  "
WIDEST = 1000  # letters of a line


def telling(text):
    """The lines that say what is no longer proved, and why; and no more of a line than one reads."""
    kept, error = [], 0
    for line in text.split("\n"):
        error = 4 if re.match(r"\S+: error", line) else max(error - 1, 0)
        if re.match(TELLING, line) and (error or not line.startswith("  ")):
            kept.append(line[:WIDEST])
    return "\n".join(kept) + "\n"


def files(root, name):
    """The files of the crates that the verdict on a crate's edits rests on."""
    for one in sorted({name, *crates.below(name, crates.listed(root))}):
        for part in ("src", "specs", "proofs"):
            yield from sorted((root / "crates" / one / part).glob("**/*.*"))


def rests_on(root, name):
    """A sum of all that the verdict on a crate's edits rests on, but the edit itself."""
    said = subprocess.run(["rt", "version"], stdout=subprocess.PIPE, check=True).stdout + (root / "crates.txt").read_bytes()
    found = hashlib.sha256(said)
    for path in files(root, name):
        found.update(f"{path.relative_to(root)}".encode() + b"\0" + path.read_bytes())
    return found.hexdigest()


def copy(root, name, folder):
    """A crate and what it stands on, to be edited."""
    under = {name, *crates.below(name, crates.listed(root))} & set(crates.listed(root))
    for one in under:
        shutil.copytree(root / "crates" / one, folder / "crates" / one, ignore=shutil.ignore_patterns("out", "must-fail"))
    crates.write_list(folder, under, root)


def turned(was, now):
    """The part, with the one before it, in which two names of a place differ, where it is one alone; nothing where they differ otherwise."""
    one, two = was.split("-"), now.split("-")
    parts = [at for at in range(min(len(one), len(two))) if one[at] != two[at]]
    if len(one) == len(two) and len(parts) == 1 and parts[0] > 0:
        return tuple("-".join(name[parts[0] - 1 : parts[0] + 1]) for name in (one, two))
    return None


def renamed(text, crate, said):
    """What proof files call places whose names have a word of the code that an edit has changed, as a condition's number or an index,
    and what the prover calls them now, where one new name alone can be meant: {file: the pairs}. Said is what a file has."""
    labels, found = set(re.findall(r"`([\w-]+)`", text)), {}
    for place, words in prover.errors(text, crate):
        told, file = re.search(r"has no (?:field )?`([\w-]+)`", words), prover.own_file(place)
        if told and file:
            pairs = {turned(told.group(1), label) for label in labels if not re.search(rf"\b{re.escape(label)}\b", said(file))} - {None}
            if len(pairs) == 1:
                found.setdefault(file, set()).update(pairs)
    return found


def follow(folder, changes):
    """Has proof files name the places as the prover does now; gives what they were."""
    before = {}
    for file, pairs in changes.items():
        path = folder / "crates" / file
        before[path] = text = path.read_text()
        for was, now in sorted(pairs):
            text = re.sub(rf"(?<![\w]){re.escape(was)}(?![\w])", now, text)
        path.write_text(text)
    return before


def tried(folder, name, path, sum):
    """What is kept of the try of one edit in a copy: the sum, the status, and the prover's words."""
    crate = folder / "crates" / name
    after, fault = must_fail.applied(crate, path)
    if fault:
        return f"{sum}\nstatus 2\n{fault}"
    before = {crate / file: (crate / file).read_text() for file in after}
    for file, text in after.items():
        (crate / file).write_text(text)
    status, text, _ = prover.check(folder, name, "--jobs", "1")
    changes = renamed(text, name, lambda file: (folder / "crates" / file).read_text()) if status == 1 else {}
    if changes:
        before = {**follow(folder, changes), **before}
        status, text, _ = prover.check(folder, name, "--jobs", "1")
    for file, was in before.items():
        file.write_text(was)
    return f"{sum}\nstatus {status}\n{telling(text)}"


def sum_of(path, base):
    return hashlib.sha256(base.encode() + path.read_bytes()).hexdigest()


def try_crate(root, name):
    """Tries the edits of a crate whose words are not kept from an earlier run over the same files."""
    base = rests_on(root, name)
    wanted = [(path, log(root, name, path.stem), sum_of(path, base)) for path in sorted((root / "crates" / name / "must-fail").glob("*.edit"))]
    todo = [one for one in wanted if not one[1].exists() or one[1].read_text().split("\n")[0] != one[2]]
    if not todo:
        return
    with tempfile.TemporaryDirectory() as place:
        folder = pathlib.Path(place)
        copy(root, name, folder)
        status, text, _ = prover.check(folder, name, "--jobs", "1")
        if status != 0:
            raise RuntimeError(f"{name} is not proved as it stands: {text.strip().split(chr(10))[-1]}")
        for path, kept, sum in todo:
            words = tried(folder, name, path, sum).replace(str(folder), "")
            kept.parent.mkdir(parents=True, exist_ok=True)
            kept.write_text(words)


def try_all(root, names):
    """Tries the edits of these crates, some crates at a time."""
    with concurrent.futures.ThreadPoolExecutor(LANES) as lanes:
        for one in [lanes.submit(try_crate, root, name) for name in names]:
            one.result()


def said(root, name, file):
    """The status and the words of the prover on an edit; nothing where it was not tried."""
    kept = log(root, name, file)
    if not kept.exists():
        return None
    _, status, text = kept.read_text(errors="replace").split("\n", 2)
    return int(status.removeprefix("status ")), text
