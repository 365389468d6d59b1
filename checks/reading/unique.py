"""The theorems of proofs/Unique.antt: that a promise determines its answer and what it leaves in what it was lent."""
import re

# the two words that say it shortly, as they must be defined
WORDS = {
    "OneAnswer": """
abbrev pub OneAnswer : {K : Type 0} {A R E : K → Type 0} → ((κs : K) → A κs → R κs → E κs → Type 0) → Type 0
OneAnswer {K} {A} {R} {E} Post = (κs : K) (a : A κs) (x y : R κs) (e f : E κs) → Post κs a x e → Post κs a y f → x ≡ y
""",
    "OneOutcome": """
abbrev pub OneOutcome : {K S : Type 0} {A R E : K → Type 0} → ((κs : K) → A κs → R κs → E κs → Type 0) → ((κs : K) → E κs → S) → Type 0
OneOutcome {K} {S} {A} {R} {E} Post left =
    (κs : K) (a : A κs) (x y : R κs) (e f : E κs) → Post κs a x e → Post κs a y f → (x ≡ y) × (left κs e ≡ left κs f)
""",
}
CONTENT, AGAIN = r"^e((?:\.\d+)+\.now)$", r"e'\1"  # what a parameter holds at exit, for one answer and for the other
LONG = r"\(κs : _\) \(a : _\) \(r r' : _\) \(e e' : _\) → {post} κs a r e → {post} κs a r' e' → (.*)"


def flat(text):
    return " ".join(text.split())


def wanted(function):
    """What a function's theorem must say: of the answer, and of each parameter that was lent to be written, whatever it answers."""
    if "&" in function.answer:
        found = ["r.now ≡ r'.now", "r.ref_ptr ≡ r'.ref_ptr"]
    else:
        found = ["r ≡ r'"] if function.answer else []
    for at, text in enumerate(function.parameters):
        if re.search(r"&\s*('\w+\s+)?mut\b", text):
            place = ".1" * at + ".0.now"
            found.append(f"e{place} ≡ e'{place}")
    return found


def outside(text):
    """How many brackets are open after each letter."""
    depth = 0
    for letter in text:
        depth += {"(": 1, ")": -1}.get(letter, 0)
        yield depth


def divided(text, sign):
    """The parts that a sign divides, without the brackets around them, to the last one."""
    text = text.strip()
    if text.startswith("(") and min([*outside(text)][:-1]) > 0:
        return divided(text[1:-1], sign)
    cuts = [at for at, depth in enumerate(outside(text)) if depth == 0 and text[at] == sign]
    ends = zip([0, *(at + 1 for at in cuts)], [*cuts, len(text)])
    return [one for start, end in ends for one in divided(text[start:end], sign)] if cuts else [text]


def said(stated, post):
    """What a theorem of a known form says of a promise, part by part; nothing where the form is another."""
    long = re.fullmatch(LONG.replace("{post}", re.escape(post)), stated)
    if long:
        return divided(long.group(1), "×")
    if stated == f"OneAnswer {post}":
        return ["r ≡ r'"]
    short = re.fullmatch(rf"OneOutcome (?:\{{S = [^{{}}]*\}} )?{re.escape(post)} \(λ (?:κs|_) e\. (.*)\)", stated)
    if short:
        left = divided(short.group(1), ",")
        return ["r ≡ r'"] + [f"{one} ≡ {re.sub(CONTENT, AGAIN, one)}" for one in left]
    return None


def statement(text, name):
    """What a theorem states, on one line; nothing where there is none."""
    told = re.search(rf"^pub {re.escape(name)} :(.*?)(?=^\S)", text, re.M | re.S)
    return flat(told.group(1)) if told else None


def defined(crates, crate, text, word):
    """The word is defined as it must be, in this file or in the one that it is brought from."""
    for folder in sorted(path.name for path in crates.iterdir()):
        told = re.search(rf"^use Rattle\.{folder}\.proofs\.([\w.]+)\.\{{[^}}]*\b{word}\b[^}}]*\}}$", text, re.M)
        if told:
            text = (crates / folder / "proofs" / f"{told.group(1).replace('.', '/')}.antt").read_text()
    block = re.search(rf"^abbrev pub {word} :.*?(?=\n\n|\Z)", text, re.M | re.S)
    return bool(block) and flat(block.group(0)) == flat(WORDS[word])


def missing(crate, function):
    """What is missing of the function's theorem, in a few words; nothing where it is there and says all."""
    page = crate / "proofs/Unique.antt"
    if not page.exists():
        return "proofs/Unique.antt is not there"
    if not re.search(r"^pub mod Unique$", (crate / "proofs/Lib.antt").read_text(), re.M):
        return "proofs/Lib.antt does not name Unique"
    text, name, path = page.read_text(), function.path[-1] + "_unique", ".".join(function.path)
    alias = re.search(rf"^use Rattle\.{crate.name}\.proofs\.{re.escape(path)}\.Reads as (\S+)$", text, re.M)
    if function.of_trait:  # many traits' functions have one name, so that the theorem has the name that the page gives the promise
        name = f"{alias.group(1).replace('-', '_')}_unique" if alias else f"a theorem of {path}"
    stated = statement(text, name)
    if stated is None:
        return f"{name} is not there"
    if not alias or len(re.findall(rf" as {re.escape(alias.group(1))}$", text, re.M)) != 1:
        return f"{name} does not speak of what {path} promises"
    parts = said(stated, f"{alias.group(1)}.Post")
    if parts is None:
        return f"{name} is stated in a form that this check does not know"
    word = stated.split()[0]
    if word in WORDS and not defined(crate.parent, crate, text, word):
        return f"{word} is not defined as this check knows it"
    left = [one for one in wanted(function) if one not in parts]
    return f"{name} does not say {left[0]}" if left else ""
