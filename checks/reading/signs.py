"""The signs that promises are written with: each means what the kit's library says, wherever it stands."""
import re

from . import antt

# the module of the kit that each sign comes from; one with no module is the language's own, and nothing may bring it in
KIT = {
    "mathlib.Core.Path": "◌≡◌ sym ◌∙◌ refl ap",
    "mathlib.Core.Logic": "◌≢◌ ◌⊎◌ ⊥ inl inr",
    "mathlib.Core.Bool": "Bool true false not ◌&&◌ ◌||◌",
    "mathlib.Core.List": "List [] ◌∷◌ ◌++◌",
    "Prim.Native.Nat": "ℕ zero suc ◌+◌ ◌-◌ ◌*◌ ◌/◌ ◌%◌ ◌^◌ ◌<◌ ◌≤◌",
    "lib.Dec": "eqb ltb leb",
    "lib.ListN": "length drop take get_or replicate",
    "denote.Ref": "Bor MutBor",
    "Rattle.core.specs.Bool": "◌==◌ if◌then◌else◌ nat_eq nat_lt nat_le",
    "Rattle.core.specs.List": "slice_index slice_index_or slice_range",
    "": "◌×◌ ⌜◌⌝ ◌∗◌ ◌-∗◌ ◌∧ₛ◌ ◌∨ₛ◌ ◌→ₛ◌ ⊤ₛ ⊥ₛ ∀ₛ ∃ₛ",
}
SIGNS = {sign: module for module, signs in KIT.items() for sign in signs.split()}
# the modules of the kit that pass such names on, and declare none of them
PASSED_ON = ("Rattle.std.specs.Prelude", "Rattle.std.specs.Borrow", "Rattle.std.proofs.Common")


def is_kits(sign, there):
    """Whether a name that is brought in under a sign is the kit's own."""
    module, _, name = there.rpartition(".")
    return name == sign and SIGNS[sign] != "" and module in (SIGNS[sign], *PASSED_ON)


def declared(text):
    """The names that an antt file declares, and the signs among its fields and constructors: a field that is a word hides none."""
    for one in antt.declarations(text):
        yield one.name
        inner = [antt.head(line) for line in one.body] if one.kind else []
        yield from (told[2] for told in inner if told and "◌" in told[2])


def named(text):
    """The signs that a file names with their places marked, outside its `use` lines: what could bind one."""
    rest = re.sub(r"^ *(ghost |pub )*use .*$", "", "\n".join(antt.plain(text)), flags=re.M)
    return sorted(sign for sign in SIGNS if "◌" in sign and re.search(rf"(?<![^\s({{]){re.escape(sign)}(?![^\s)}}])", rest))


def faults(crate):
    """The places of a crate where a sign would mean something else than the kit's library says."""
    files = [*crate.glob("src/**/*.rt"), *crate.glob("specs/**/*.antt"), *crate.glob("proofs/**/*.antt")]
    for path in sorted(files):
        text, name = path.read_text(), f"{crate.name}/{path.relative_to(crate)}"
        for here, there in antt.brought(text).items():
            if here in SIGNS:
                if not is_kits(here, there):
                    yield f"{name} brings `{here}` in as {there}, and not as the kit's"
            elif path.suffix == ".rt" and "◌" in here and there.rpartition(".")[0] not in PASSED_ON:
                yield f"{name} writes promises with `{here}`, which could be taken for one of the kit's signs"
        yield from (f"{name} gives a module the name `{here}`" for here in antt.modules(text) if "◌" in here)
        if path.suffix == ".antt":
            yield from (f"{name} declares a `{one}` of its own" for one in declared(text) if one in SIGNS)
        if path.suffix == ".rt" or "specs" in path.parts or path.name == "Unique.antt":
            yield from (f"{name} names the sign `{one}` itself, as a binder would" for one in named(text))
