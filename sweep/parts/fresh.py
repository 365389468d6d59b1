"""The lines of the crates that are new since a commit."""
import re
import subprocess


class Since:
    """For each file below crates/, which of its lines are new; one that was only moved to the side is not."""

    def __init__(self, root, commit):
        told = subprocess.run(["git", "diff", "-U0", "-w", commit, "--", "crates"], cwd=root, stdout=subprocess.PIPE, text=True, check=True).stdout
        self.lines, file = {}, ""
        for line in told.splitlines():
            if line.startswith("+++ "):
                file = line.removeprefix("+++ b/crates/")
            elif hunk := re.match(r"@@ \S+ \+(\d+)(?:,(\d+))? @@", line):
                first, many = int(hunk.group(1)), int(hunk.group(2) or 1)
                self.lines.setdefault(file, set()).update(range(first, first + many))

    def has(self, edit):
        return edit.line in self.lines.get(edit.file, ())

    def many(self, root, crate, part):
        """How many lines of a part of a crate are new; blank ones and comments do not count."""
        folder, comment = ("src", "//") if part == "code" else ("specs", "--")
        count = 0
        for file, lines in self.lines.items():
            if file.startswith(f"{crate}/{folder}/"):
                texts = [text.strip() for text in (root / "crates" / file).read_text().split("\n")]
                count += sum(1 for line in lines if texts[line - 1] and not texts[line - 1].startswith(comment))
        return count
