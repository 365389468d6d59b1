"""Runs the prover and reads its answer: proved, refused because a fact fails, or an edit that shows nothing."""
import re
import subprocess
import time
from dataclasses import dataclass

from .antt import OWN

# An error of one of these kinds says that the edit is no program, or that a proof file no longer fits the code's shape.
UNFIT = (
    r"has no field",
    r"has no `",
    r"^`(invariant(?!_of-)|decreases)[-_]",  # of a loop; `invariant_of-` is a goal, what a type says of its values
    r"not in scope|is not defined|unknown|unbound|no module|cannot find",
    r"\btakes (no|too|\d+) |\btake (no|too) |too many arguments|expects? \d+ argument",
    r"error\[",
    r"expected [^:]*, found|parse error|syntax",
    # a step of the program's own in the place of another: the code takes its steps in another order
    r"expected type `goal\.[A-Z]",
    r"one has `[^`\s]*\.Lts\.[^`\s]*` \(expected\)",
    r"the other has `[^`\s]*\.Lts\.[^`\s]*` \(found\)",
)

# An error of one of these kinds says that what is to be shown is not so, or could not be shown.
FACT = (
    r"give a proof of that as the last argument",
    r"`omega`",
    r"`simp`",
    r"`rw`",
    r"`cc`",
    r"`grind`",
    r"`search`",
    r"no occurrence",
    r"is not|are not|does not|do not|differ",
    r"expected",
)

# Errors that only follow from an earlier one.
FOLLOWS = r"^\d+ declarations? that depends? on"


@dataclass
class Answer:
    """What the prover made of one copy."""

    verdict: str  # "proved", "refused" because a fact fails, "unfit" to show anything, or "broken"
    place: str  # the file and line of the first error, from the crate's name on
    why: str  # the first error's own words
    seconds: float

    def line(self, width=160):
        text = f"{self.place}: {self.why}" if self.place else self.why
        return text if len(text) <= width else text[: width - 3] + "..."


def run(words, folder):
    """Runs a command in a folder; gives its status, all that it wrote, and the seconds."""
    began = time.time()
    done = subprocess.run(words, cwd=folder, stdout=subprocess.PIPE, stderr=subprocess.STDOUT, text=True, errors="replace")
    return done.returncode, done.stdout, time.time() - began


def check(root, crate, *flags):
    """Has the prover check a crate of the repository or of a copy, over what earlier checks kept; gives the same."""
    return run(["rt", "check", *flags], root / "crates" / crate)


def at_fault(text, crate):
    """The crate that a check's errors are of: the one that was asked for, or a library below it that did not build."""
    below = re.search(r"^rt: the library (\w+) did not build", text, re.M)
    return below.group(1) if below else crate


def placed(text, crate, path, line):
    """A place from the crate's name on."""
    return f"{at_fault(text, crate)}/{path.removeprefix('./')}:{line}"


def verdict(root, crate):
    """The same from nothing."""
    return run(["rt", "verdict"], root / "crates" / crate)


def errors(text, crate):
    """The errors that the prover printed, as (place, words): those first that stand in a function's own proof, then those in
    laws, without those that only follow from another."""
    found = []
    lines = text.split("\n")
    for at, line in enumerate(lines):
        told = re.match(r"(\S+?\.(?:antt|rt)):(\d+):\d+: error(.*)$", line)
        if not told:
            continue
        words = told.group(3).lstrip(": ")
        for more in lines[at + 1 : at + 4]:
            if not more.startswith("  "):
                break
            if "so what is shown does not paste back" not in more:  # a hint on how a term is printed
                words += " " + more.strip()
        if not re.search(FOLLOWS, words):
            found.append((placed(text, crate, told.group(1), told.group(2)), words))
    return sorted(found, key=lambda error: not any(f"/{file}:" in error[0] for file in OWN))


def own_file(place):
    """The file, from the crate's name on, of a place in a function's own proof; nothing of another place."""
    file = place.rpartition(":")[0]
    return file if re.search(rf"/proofs/.+/({'|'.join(map(re.escape, OWN))})$", file) else None


def left_open(text):
    """What is left to show of functions of whose proof files none is at fault: {the function with its crate: the goals}."""
    told = re.findall(r"^fn (\S+): no proof: .*`search` did not prove (.*)$", text, re.M)
    return {function: re.findall(r"`([^`]+)`", goals) for function, goals in told}


def open_facts(text, crate):
    """The same as (place, words)."""
    goals = {goal for some in left_open(text).values() for goal in some}
    told = re.findall(r"^note: (\S+?\.rt):(\d+):\d+: (it is not proved that .*)$", text, re.M)
    noted = [(placed(text, crate, *at), words) for *at, words in told if goals & set(re.findall(r"\(`([^`]+)`\)", words))]
    return noted or [("", f"{function} leaves {' '.join(some)} open") for function, some in left_open(text).items()]


def judge(status, text, seconds, crate):
    """The verdict on a check of a crate that ended with this status and wrote this text."""
    if status == 0:
        return Answer("proved", "", "", seconds)
    if status == 3:
        return Answer("unfit", "", "the prover could not tell", seconds)
    if status != 1 or "logic=not-proved" not in text:
        first = next((line for line in text.split("\n") if "error" in line), text.strip().split("\n")[-1])
        return Answer("unfit", "", first.split("crates/")[-1], seconds)
    for place, words in open_facts(text, crate):
        return Answer("refused", place, words, seconds)
    for place, words in errors(text, crate):
        return Answer(weighed(place, words), place, words, seconds)
    return Answer("broken", "", "the check failed and named no error", seconds)


def weighed(place, words):
    """What an error shows: that a fact fails, or that something no longer fits."""
    fit = "/proofs/" in place and not any(re.search(kind, words) for kind in UNFIT)
    return "refused" if fit and any(re.search(kind, words) for kind in FACT) else "unfit"


def calls(text):
    """The calls of a stretch of code: {name: the arguments of each, in order}."""
    found = {}
    for name, arguments in re.findall(r"\b(\w+)\(([^()]*(?:\([^()]*\)[^()]*)*)\)", text):
        found.setdefault(name, []).append(" ".join(arguments.split()))
    return found


def exchanged(changes):
    """Whether an edit, as (old, new), has calls of one name in another order. The prover counts them off where it names a function's
    steps, so that a proof file then speaks of each in the place of the other."""
    straight = [(old, new) for old, new in changes if not re.match(r"\s*\S+ =>", old)]  # a call in an arm goes by its arm's name
    before, after = (calls("\n".join(texts)) for texts in zip(*straight)) if straight else ({}, {})
    return any(some != after.get(name) and sorted(some) == sorted(after.get(name, [])) for name, some in before.items())


def own(text, crate, function, changes=()):
    """The verdict on one function of a check that failed after these changes: by the errors in its own proof, of which none may be
    of form, or, where no file of it is at fault, by what is left open of it. One that calls itself has a + before its name there."""
    *folders, name = function.split("::")
    files = ["/".join(["", "proofs", *folders, f"{sign}{name}", f"{file}:"]) for sign in ("", "+") for file in OWN]
    found = [(place, words) for place, words in errors(text, crate) if any(file in place for file in files)]
    for place, words in sorted(found, key=lambda error: weighed(*error) != "unfit"):
        return Answer("unfit" if exchanged(changes) else weighed(place, words), place, words, 0)
    left = left_open(text).get(f"{crate}::{function}")
    if left:
        return Answer("refused", "", f"{function} leaves {' '.join(left)} open", 0)
    return Answer("proved", "", f"nothing in the proof of {function} fails", 0)
