"""The wrong edits that have a name: what is easily got wrong, what the instructions' entries say, and the cheats."""
from reading.changes import Change

STEP = "machine/specs/Step.antt"
RUN = "machine/src/run.rt"
MODES = "machine/src/modes.rt"
REQUESTS = "machine/specs/Interrupts.antt"
LOW = "(low_below s.sp s.pc ∷ [])"
HALTS = "machine/specs/Execute.antt"
RETURNED = "with_pc own (with_ime On (with_mode Running s))"
READ = "listing/src/read.rt"
FORMS = "listing/src/forms.rt"
LINES = "listing/src/lines.rt"
LINE_OF = "listing/specs/Lines.antt"
LISTED = "listing/specs/Answer.antt"
SPELLED = "listing/specs/Spelling.antt"
TABLE = "listing/src/table.rt"
LIST = "listing/src/lib.rt"
FORM = "constants/src/forms.rt"
NUMBERS = "constants/src/numbers.rt"
SUMS = "constants/src/sums.rt"
RANGES = "assembler/src/ranges.rt"
TEXTS = "assembler/src/texts.rt"
VERDICTS = "assembler/specs/Lines.antt"
OUTCOMES = "assembler/specs/Text.antt"
CODED = "spellings/specs/Bytes.antt"
ELEVEN = "11 when not (eqb edition 1 || eqb edition 2)"

EASY = [
    Change(
        "RLCA and its like set Z by the result",
        ("arith/src/rotates.rt", "flags::pack(false, false, false, left_over(op, a))", "flags::pack(value == 0, false, false, left_over(op, a))"),
    ),
    Change(
        "ADD SP sets Z",
        ("arith/src/words.rt", "flags::pack(false, false, h, c)", "flags::pack(sp == 0, false, h, c)"),
    ),
    Change(
        "DAA after a subtraction tests the digits",
        ("arith/src/decimal.rt", "adjustment(h, c)", "adjustment(h || 0x09 < a % 16, c || 0x99 < a)"),
    ),
    Change(
        "EI is On at once",
        (MODES, "Ime::Off | Ime::Arming => Ime::Arming,", "Ime::Off => Ime::On,\n        Ime::Arming => Ime::Arming,"),
    ),
    Change(
        "in Repeat PC is moved back after the instruction",
        (
            STEP,
            "unfoldable pub instruction_act :",
            "unfoldable pub moved_back : Mode → Act → Act\n"
            "moved_back Running a = a\n"
            "moved_back Repeat a = record { cycles = a.cycles; cpu = with_pc (back 1 a.cpu.pc) a.cpu; stores = a.stores }\n"
            "moved_back Halted a = a\n"
            "moved_back Stopped a = a\n\n"
            "unfoldable pub instruction_act :",
        ),
        (STEP, "{further}", "{further, back}"),
        (
            STEP,
            "instruction_act s m =\n"
            "    end_of (shape_of (next_insn s m)).cycles s.ime (exec_of s.pc (next_insn s m) (ready_of (next_after s m) s) m)",
            "instruction_act s m = moved_back s.mode (end_of (shape_of (next_insn s m)).cycles s.ime (exec_of s.pc (next_insn s m)"
            " (ready_of (further (shape_of (next_insn s m)).bytes s.pc) s) m))",
        ),
    ),
    Change("the vector is chosen before the push", (REQUESTS, "chosen_of (made (high ∷ []) m)", "chosen_of m")),
    Change(
        "IF is cleared before the high byte is stored",
        (REQUESTS, "chosen_of (made (high ∷ []) m)", "chosen_of m"),
        (REQUESTS, f"(high ∷ (chosen.stores ++ {LOW}))", "(chosen.stores ++ (high ∷ low_below s.sp s.pc ∷ []))"),
    ),
    Change(
        "IF is cleared after the low byte is stored",
        (REQUESTS, f"(high ∷ (chosen.stores ++ {LOW}))", "(high ∷ (low_below s.sp s.pc ∷ chosen.stores))"),
    ),
    Change("PC is $40 where nothing is pending", (REQUESTS, "chosen_if false k m = storeless 0", "chosen_if false k m = storeless 0x40")),
    Change("a bit is cleared where nothing is pending", ("machine/src/interrupts.rt", "if p == 0 {", "if p == 32 {")),
    Change(
        "IME is left On by a cancelled dispatch",
        (REQUESTS, "++◌, eqb}", "++◌, eqb, get_or}"),
        (REQUESTS, "TheVariants.{Off}", "TheVariants.{Off, On}"),
        (REQUESTS, "(with_ime Off (with_mode Running s))", "(with_ime (get_or (On ∷ []) to Off) (with_mode Running s))"),
    ),
    Change("HALT under Arming halts", (HALTS, f"Arming own s = {RETURNED}", "Arming own s = with_mode Halted s")),
    Change("HALT under Arming goes on after itself", (MODES, "self.ready(own, Ime::On)", "self.ready(self.pc, Ime::On)")),
    Change("HALT under Arming leaves it so", (MODES, "self.ready(own, Ime::On)", "self.ready(own, Ime::Arming)")),
    Change("HALT's address is counted back", (HALTS, RETURNED, RETURNED.replace("own", "(back 1 s.pc)"))),
]

INSTRUCTIONS = [
    Change("ADC's H leaves the carry out", ("arith/src/bytes.rt", "let h = half_carry(a, b, k);", "let h = half_carry(a, b, false);")),
    Change(
        "SBC does not take the borrow away",
        ("arith/src/bytes.rt", "let (value, c) = a.borrowing_sub(b, k);", "let (value, c) = a.borrowing_sub(b, false);"),
    ),
    Change(
        "INC sets C",
        (
            "arith/src/bytes.rt",
            "flags::pack(value == 0, false, h, Flag::C.is_set(f))",
            "flags::pack(value == 0, false, h, Flag::C.is_set(f) || value == 0)",
        ),
    ),
    Change(
        "BIT sets C",
        (
            "arith/src/bytes.rt",
            "flags::pack(!bit(k, v), false, true, Flag::C.is_set(f))",
            "flags::pack(!bit(k, v), false, true, Flag::C.is_set(v))",
        ),
    ),
    Change("JR costs 2 cycles", ("insn/src/rows.rt", "Decoded::new(Insn::Jr(n8), 1, 3)", "Decoded::new(Insn::Jr(n8), 1, 2)")),
    Change("a taken JR cc costs 2 cycles", ("machine/src/jumps.rt", "self.with_pc(to).done_after(1)", "self.with_pc(to).done_after(0)")),
    Change(
        "CALL pushes the address before",
        ("machine/src/stack.rt", "let pc = self.pc;", "let pc = words::back(3, self.pc);"),
    ),
    Change(
        "POP AF keeps the low bits",
        ("machine/src/pairs.rt", "self.f = words::low(w) / 16 * 16;", "self.f = words::low(w) / 1 * 1;"),
    ),
    Change(
        "PUSH stores the low byte first",
        (
            "machine/specs/Stack.antt",
            "(high_below s.sp w ∷ low_below s.sp w ∷ [])",
            "(low_below s.sp w ∷ high_below s.sp w ∷ [])",
        ),
    ),
    Change(
        "LD [n16],SP at $FFFF does not wrap",
        ("machine/specs/Memory.antt", "Prelude.{ℕ, ", "Prelude.{ℕ, ◌+◌, "),
        ("machine/specs/Memory.antt", "store (further 1 at) (high_of w)", "store (at + 1) (high_of w)"),
    ),
    Change(
        "a refused step moves PC",
        (STEP, "(λ n. refusing n s m)", "(λ n. refusing n (with_pc (next_rest s) s) m)"),
    ),
    Change(
        "refusal 4 comes before refusal 3",
        (STEP, "    3 when is_stopped s.mode\n    ∷ 4 when (", "    4 when ("),
        (STEP, "is_undefined (next_insn s m))\n    ∷ []", "is_undefined (next_insn s m))\n    ∷ 3 when is_stopped s.mode\n    ∷ []"),
    ),
    Change(
        "the numbers of refusals 3 and 4 are exchanged",
        ("machine/src/step.rt", "(Refusal::Stopped)", "( Refusal::Undefined)"),
        ("machine/src/step.rt", "(Refusal::Undefined)", "(Refusal::Stopped)"),
    ),
]

LISTING = [
    Change("an instruction that the end cuts is listed whole", (READ, "left < size", "left < 1")),
    Change(
        "the byte after a $10 that is data is skipped",
        (LINE_OF, "(length (line_of e a (b ∷ bytes)).bytes - 1) bytes", "(size_in (b ∷ bytes) - 1) bytes"),
    ),
    Change("a $10 before any byte is STOP", (READ, "n8 != 0", "n8 != n8")),
    Change(
        "the target of JR counts from its own address",
        (LINES, "words::further(u16::from(size), self.address)", "words::further(u16::from(size / 4), self.address)"),
    ),
    Change("LDH shows its address without $FF", (FORMS, "words::word(0xFF, self.n8)", "words::word(0x00, self.n8)")),
    Change("e8 is shown unsigned", ("listing/src/writing.rt", "if e < 0x80 {", "if e / 2 < 0x80 {")),
    Change("digits are in lower case", ("digits/src/glyphs.rt", '"0123456789ABCDEF"', '"0123456789abcdef"')),
    Change("digits are in lower case, by the definition", ("digits/specs/Numerals.antt", '"0123456789ABCDEF"', '"0123456789abcdef"')),
    Change(
        "the address of a line does not wrap",
        (LINE_OF, "Prelude.{ℕ, zero, suc, ◌-◌, ", "Prelude.{ℕ, zero, suc, ◌-◌, min, "),
        (LINE_OF, "= lines_from e (further 1 a) few bytes", "= lines_from e (min (suc a) 0xFFFF) few bytes"),
        (LINE_OF, "lines_from e (further 1 a) (length", "lines_from e (min (suc a) 0xFFFF) (length"),
    ),
    Change(
        "one byte too few is asked of the output",
        (LISTED, "Prelude.{ℕ, ", "Prelude.{ℕ, suc, "),
        (LISTED, "10 when ltb (length out) (length text)", "10 when ltb (suc (length out)) (length text)"),
    ),
    Change("an output just long enough is refused", (LINES, "if room - length < wide {", "if room - length <= wide {")),
    Change(
        "the output is written before 10 is known",
        (LISTED, "length, drop}", "length, drop, take}"),
        (LISTED, "length = 0 }; out = out }", "length = 0 }; out = take (length out) text }"),
    ),
    Change("a text that is too long is written as far as it goes", (LINES, "return Err(Refusal::Room);", "return Ok(length);")),
    Change(
        "the misprint of the reference, LD [HL],A for $22, is followed",
        (FORMS, "Edition::New => step(p, writer)", "Edition::New => step(p % 2 * p, writer)"),
    ),
    Change("a destination A is left out", (TABLE, "a A,z...", "a z.....")),
    Change("a byte needs at most 18 characters", (LINE_OF, "most_listed = 19", "most_listed = 18")),
]

EDITIONS = [
    Change("[HL] for [HLI]: two instructions, one spelling", (SPELLED, 'pointer.Hli = Named "[HLI]"', 'pointer.Hli = Named "[HL]"')),
    Change(
        "STOP for any second byte",
        (LINE_OF, "not (eqb (byte_in 1 bytes) 0x00)", "not (eqb (byte_in 1 bytes) (byte_in 1 bytes))"),
    ),
    Change("LDH spelled as LD", (SPELLED, 'two "LDH" (Of at_high n) (Named "A")', 'two "LD" (Of at_high n) (Named "A")')),
    Change("the vector of RST in one digit", (SPELLED, "constant_text next vec v = hex 2 v", "constant_text next vec v = hex 1 v")),
    Change("two digits for n16", (SPELLED, "constant_text next n16 w = hex 4 w", "constant_text next n16 w = hex 2 w")),
    Change(
        "10 before 11",
        (LISTED, f"{ELEVEN} ∷ room_refusals text out", f"10 when ltb (length out) (length text) ∷ {ELEVEN} ∷ []"),
    ),
    Change(
        "edition 0 taken as 1",
        (LISTED, "eqb, ltb, ", "eqb, leb, ltb, "),
        (LISTED, "edition_if (eqb number 1)", "edition_if (leb number 1)"),
        (LISTED, ELEVEN, ELEVEN.replace("eqb edition 1", "leb edition 1")),
    ),
    Change("edition 0 taken", (LIST, "_ => Err(Refusal::Edition),", "0 => Ok(Edition::New),\n            _ => Err(Refusal::Edition),")),
    Change(
        "edition 3 taken",
        (LIST, "_ => Err(Refusal::Edition),", "0 | 3 => Ok(Edition::New),\n            _ => Err(Refusal::Edition),"),
    ),
    Change(
        "the editions exchanged",
        (LIST, "1 => Ok(Edition::Old),", "1 => Ok(Edition::New),"),
        (LIST, "2 => Ok(Edition::New),", "2 => Ok(Edition::Old),"),
    ),
    Change("11 answered as 10", (LIST, "_ => Err(Refusal::Edition),", "_ => Err(Refusal::Room),")),
    Change("LDI for LDD", (FORMS, "3 => writer.push(b'D')", "3 => writer.push(b'I')")),
    Change("LDI for LDD, by the definition", (SPELLED, '0x32 spelled two "LDD"', '0x32 spelled two "LDI"')),
    Change(
        "a ninth row in the old edition: LDI for LD [DE],A",
        (SPELLED, "    0x22 spelled two", '    0x12 spelled two "LDI" (Named "[DE]") (Named "A")\n    ∷ 0x22 spelled two'),
    ),
    Change(
        "the old spelling in the new edition",
        (
            SPELLED,
            "spelling_in New op n w = spelling_of (decode_of op n w)",
            "spelling_in New op n w = changed_by (old_rows n) op (spelling_of (decode_of op n w))",
        ),
    ),
]

ASSEMBLER = [
    Change("a nesting of 17 is taken", (FORM, "const DEEPEST: usize = 16;", "const DEEPEST: usize = 17;")),
    Change(
        "a malformed constant that nests too deep is 13",
        (FORM, "if !ends(stand) || opened != 0 {", "if !deep && (!ends(stand) || opened != 0) {"),
    ),
    Change("a bracket that is not closed is taken", (FORM, "if !ends(stand) || opened != 0 {", "if !ends(stand) || 1 < opened {")),
    Change("a number of many digits wraps", (NUMBERS, "Err(Refusal::Range)", "Ok(more % 65_536)")),
    Change("a sum on the way wraps", (SUMS, "        total + term\n", "        (total + term) % 65_536\n")),
    Change("a difference on the way wraps", (SUMS, "        total - term\n", "        (total - term) % 65_536\n")),
    Change("a minus negates the whole constant", (SUMS, "let sign = rest[0];", "let sign = rest[0];\n        let sign = text[0];")),
    Change(
        "a minus before a bracket is lost",
        (SUMS, "with_term(value, sign, inner.value)", "with_term(value, b'+', inner.value)"),
    ),
    Change("a number of 65,536 is taken", (NUMBERS, "if more < 65_536 {", "if more < 65_537 {")),
    Change("n8 256 is taken", (RANGES, "Slot::N8 => (-128..=255)", "Slot::N8 => (-128..=256)")),
    Change("e8 128 is taken", (RANGES, "Slot::E8 => (-128..=127)", "Slot::E8 => (-128..=128)")),
    Change("JR reaches 128", (RANGES, "n <= 127", "n <= 128")),
    Change("JR reaches 129 back", (RANGES, "65408 <= n", "65407 <= n")),
    Change("LDH takes an address below $FF00", (RANGES, "0xFF00 <= n", "0xFE00 <= n")),
    Change("a vector that is no multiple of 8 is taken", (RANGES, "n % 8 == 0", "n % 4 == 0")),
    Change(
        "14 comes before 13",
        (VERDICTS, "verdict_by a row slot Deep = Fault 13", "verdict_by a row slot Deep = Fault 14"),
        (VERDICTS, "verdict_by a row slot Large = Fault 14", "verdict_by a row slot Large = Fault 13"),
    ),
    Change("a line of no form is 13", (VERDICTS, "verdict_by a row slot NoForm = Fault 12", "verdict_by a row slot NoForm = Fault 13")),
    Change(
        "a later line's fault comes first",
        (OUTCOMES, "line_outcome line room (Fault n) rest = Refused n line", "line_outcome line room (Fault n) rest = rest 0"),
    ),
    Change("lines are numbered from 0", (TEXTS, "            line: 1,", "            line: 0,")),
    Change(
        "the output is written before a fault is known",
        (OUTCOMES, "length = 0 }; out = out }", "length = 0 }; out = [] ++ drop 1 out }"),
    ),
    Change(
        "an output one byte too short is taken",
        (OUTCOMES, "outcome_if (ltb room (length bytes)) line", "outcome_if (ltb (room + 1) (length bytes)) line"),
    ),
    Change("a line without its newline is taken", (TEXTS, "= line_end(self.text) else {", "= line_end(self.text).or(Some(self.text.len())) else {")),
    Change("a line's address stays the first", (OUTCOMES, "rest (further k a) (line + 1)", "rest a (line + 1)")),
    Change("every line is assembled at the front", (TEXTS, "        write_bytes(bytes", "        writer.at = 0;\n        write_bytes(bytes")),
    Change("LDIO is taken for the other way round", ("spellings/src/rows.rt", "(A, AT_NUMBER) => Some(0xF0),", "(A, AT_NUMBER) => Some(0xE0),")),
    Change("[HLI] is taken for [HLD]", ("spellings/src/rows.rt", '"[HLI]", "[HLD]"', '"[HLD]", "[HLI]"')),
    Change("a bracket does not begin a constant", ("spellings/src/places.rt", "b'('", "b')'")),
    Change("a bracket does not end a constant", ("spellings/specs/Outline.antt", "eqb c 44 || eqb c 93", "eqb c 44 || eqb c 91")),
    Change("a bit's number is four rows apart", (CODED, "row_bytes (row + 8 * n)", "row_bytes (row + 4 * n)")),
    Change("the prefix is left out", (CODED, "(0xCB ∷ (row - 256) ∷ [])", "((row - 256) ∷ [])")),
    Change("STOP has one byte", (CODED, "(0x10 ∷ 0x00 ∷ [])", "(0x10 ∷ [])")),
    Change("a vector is a bit's number", ("spellings/specs/Rows.antt", "slot_of vec = Vec", "slot_of vec = U3")),
    Change("the high byte comes first", (CODED, "(low_of n ∷ high_of n ∷ [])", "(high_of n ∷ low_of n ∷ [])")),
]

CHEATS = [
    Change(
        "a step refuses every memory",
        (
            RUN,
            "mem.as_mut_array::<MEMORY_SIZE>() else {\n        return Err(",
            "mem[..0].as_mut_array::<MEMORY_SIZE>() else {\n        return Err(",
        ),
    ),
    Change(
        "a run refuses every memory",
        (
            RUN,
            "mem.as_mut_array::<MEMORY_SIZE>() else {\n        return refused(",
            "mem[..0].as_mut_array::<MEMORY_SIZE>() else {\n        return refused(",
        ),
    ),
    Change(
        "a step always says that it is done",
        (RUN, "Some(refusal) => Err(refusal),", "Some(refusal) => Ok(Taken { cycles: ran.spent as u8, cpu: ran.cpu }),"),
    ),
    Change(
        "an addition has a fixed answer",
        (
            "arith/src/bytes.rt",
            "        value,\n        flags: flags::pack(value == 0, false, h, c),",
            "        value: value % 1,\n        flags: flags::pack(value % 1 == 0, false, h, c),",
        ),
    ),
    Change("memory is never touched", ("machine/src/memory.rt", "mem[at as usize] = v;", "mem[at as usize] = mem[at as usize];")),
    Change(
        "memory is never touched, by the definition",
        ("machine/specs/Memory.antt", "stored m at v = set m at v", "stored m at v = set m at (byte_at m at)"),
    ),
    Change("a step does the work of a whole run", (RUN, "run_from(cpu, memory, 1)", "run_from(cpu, memory, 1048576)")),
    Change("the cycles of a step are invented", (RUN, "cycles: ran.spent as u8,", "cycles: ran.steps as u8,")),
    Change(
        "the cycles of a run are invented",
        (RUN, "        refusal: None,\n        spent,", "        refusal: None,\n        spent: budget,"),
    ),
    Change(
        "the steps of a run are invented",
        (RUN, "        refusal: None,\n        spent,\n        steps,", "        refusal: None,\n        spent,\n        steps: spent,"),
    ),
    Change(
        "a refused step is counted in the cycles",
        ("machine/specs/Run.antt", "(λ code. ending code spent steps s m))", "(λ code. ending code (spent + 1) steps s m))"),
    ),
    Change(
        "a refused step is counted in the steps",
        ("machine/specs/Run.antt", "(λ code. ending code spent steps s m))", "(λ code. ending code spent (steps + 1) s m))"),
    ),
    Change("the step count is off by one", (RUN, "let mut steps: u32 = 0;", "let mut steps: u32 = 1;")),
    Change("a listing always answers 10", (LINES, "Ok(length)", "Err(Refusal::Room)")),
    Change(
        "a listing always answers 0 and length 0",
        (LINES, "Ok(length)", "Ok(0)"),
        (LINES, "return Err(Refusal::Room);", "return Ok(0);"),
    ),
    Change("an assembly always answers 12", ("assembler/src/lines.rt", "let row = form.row.ok_or", "let row: u16 = None.ok_or")),
    Change(
        "an assembly always answers that it is done",
        (
            "assembler/src/lib.rt",
            "let length = texts::measure(text, first, out.len())?;",
            "let length = texts::measure(text, first, out.len()).or_else(|fault| -> Result<usize, Fault> { Ok(0) })?;",
        ),
    ),
    Change("two rows of the listing's table are exchanged", (TABLE, "DI......EI......", "EI......DI......")),
    Change("a listing has DB for everything", (READ, "form == kinds::DATA", "form == form")),
    Change("a listing has DB for everything, by the definition", (LINE_OF, "line_if (is_data bytes) e a bytes", "line_if true e a bytes")),
]

GROUPS = {
    "errors that come easily": EASY,
    "instructions and refusals": INSTRUCTIONS,
    "the listing": LISTING,
    "the editions of the listing": EDITIONS,
    "the assembler": ASSEMBLER,
    "cheats": CHEATS,
}
