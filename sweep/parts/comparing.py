"""Has the comparisons judge an edit that the proofs take: the core is built from a copy with the edit made, and asked."""
import pathlib
import shutil
import tempfile

from reading import prover

from . import judging

COMPARED = pathlib.Path(__file__).resolve().parents[1] / "compared"
VERDICTS = {0: "survived", 1: "seen", 2: "refused by proof"}


def ready(folder, root):
    """A copy of all crates in which those that the comparisons stand on are proved, for the edits to go on from."""
    if not (folder / "crates").exists() or not judging.same(folder / "crates", root / "crates"):
        shutil.rmtree(folder, ignore_errors=True)
        copy(root, folder)
    status, text, _ = prover.check(folder, "trnadulek")
    if status != 0:
        raise SystemExit(f"sweep: the crates are not proved as they stand: {text.strip().split(chr(10))[-1]}")


def copy(root, folder):
    folder.mkdir(parents=True, exist_ok=True)
    shutil.copytree(root / "crates", folder / "crates", ignore=shutil.ignore_patterns("out"))
    shutil.copy(root / "crates.txt", folder)


def judge(edit, proved):
    """Whether the comparisons see an edit of the crates that stand proved in a folder, and the line that says so."""
    with tempfile.TemporaryDirectory(dir=proved.parent) as name:
        folder = pathlib.Path(name) / "copy"
        copy(proved, folder)
        with edit.made(folder / "crates"):
            status, text, seconds = prover.run([str(COMPARED)], folder)
    if status not in VERDICTS:
        raise SystemExit(f"sweep: the comparisons could not be asked: {text}")
    return prover.Answer(VERDICTS[status], "", text.strip(), seconds)
