"""Has the prover judge an edit: quickly in a prepared copy, and from nothing in a fresh one."""
import filecmp
import os
import pathlib
import shutil
import tempfile

from reading import crates, prover


class Prepared:
    """A copy of a crate and of what it stands on, proved once, in which an edit costs what the edit touches."""

    def __init__(self, folder, crate, root):
        self.folder, self.crate, self.root = folder / crate, crate, root
        self.built = self.folder / "crates" / crate / "out/incremental"
        self.kept = self.folder / "kept"

    def fresh(self):
        """A copy of the sources as they are now; what was built from those that are the same stays."""
        with tempfile.TemporaryDirectory(dir=self.folder.parent) as name:
            new = pathlib.Path(name) / "new"
            new.mkdir()
            crates.copy_under(new, self.crate, self.root)
            if (self.folder / "crates").exists() and same(self.folder / "crates", new / "crates"):
                return False
            if (self.folder / "crates").exists():
                shutil.rmtree(self.folder / "crates")
            self.folder.mkdir(exist_ok=True)
            shutil.move(new / "crates", self.folder / "crates")
            shutil.move(new / "crates.txt", self.folder / "crates.txt")
        return True

    def ready(self):
        """Proves the copy as it stands, and keeps what the quick check goes on from."""
        if not self.fresh() and self.kept.exists():
            return
        answer = self.check()
        if answer.verdict != "proved":
            raise SystemExit(f"sweep: {self.crate} is not proved as it stands: {answer.line()}")
        shutil.rmtree(self.kept, ignore_errors=True)
        shutil.copytree(self.built, self.kept, copy_function=os.link)

    def check(self):
        return prover.judge(*prover.check(self.folder, self.crate), self.crate)

    def judge(self, edit):
        shutil.rmtree(self.built, ignore_errors=True)
        shutil.copytree(self.kept, self.built, copy_function=os.link)
        with edit.made(self.folder / "crates"):
            return self.check()


def same(one, two):
    """Two folders hold the same files with the same texts."""
    compared = filecmp.dircmp(one, two, ignore=["out"])
    if compared.left_only or compared.right_only:
        return False
    if filecmp.cmpfiles(one, two, compared.common_files, shallow=False)[0] != compared.common_files:
        return False
    return all(same(one / name, two / name) for name in compared.common_dirs)


def from_nothing(edit, root, top, whole=None):
    """The verdict on an edit in a fresh copy of a crate and of what it stands on."""
    with tempfile.TemporaryDirectory() as name:
        folder = pathlib.Path(name)
        crates.copy_under(folder, top, root, whole)
        with edit.made(folder / "crates"):
            return prover.judge(*prover.verdict(folder, top), top)
