//! How each opcode is spelled. A word in lower case is an operand after the
//! opcode: `byte` and `word` are constants, `offset` is a byte with a sign,
//! `port` the low byte of an address from $FF00 on, `target` the byte that says
//! how far JR goes.

/// What the old edition has where it parts from the texts below: the names LDIO, LDI
/// and LDD, by the remarks that documents 002 to 004 have on these.
pub static OLD: [(u8, &str); 8] = [
    (0x22, "LDI [HL],A"),
    (0x2A, "LDI A,[HL]"),
    (0x32, "LDD [HL],A"),
    (0x3A, "LDD A,[HL]"),
    (0xE0, "LDIO [port],A"),
    (0xE2, "LDIO [C],A"),
    (0xF0, "LDIO A,[port]"),
    (0xF2, "LDIO A,[C]"),
];

/// The bytes without a prefix, in the new edition. Empty for an undefined one, for the
/// prefix $CB, and for $10, which is STOP only together with the byte after it.
#[rustfmt::skip] // Sixteen bytes are four lines.
pub static UNPREFIXED: [&str; 256] = [
    "NOP",              "LD BC,word",   "LD [BC],A",      "INC BC",     // 00
    "INC B",            "DEC B",        "LD B,byte",      "RLCA",
    "LD [word],SP",     "ADD HL,BC",    "LD A,[BC]",      "DEC BC",
    "INC C",            "DEC C",        "LD C,byte",      "RRCA",

    "",                 "LD DE,word",   "LD [DE],A",      "INC DE",     // 10
    "INC D",            "DEC D",        "LD D,byte",      "RLA",
    "JR target",        "ADD HL,DE",    "LD A,[DE]",      "DEC DE",
    "INC E",            "DEC E",        "LD E,byte",      "RRA",

    "JR NZ,target",     "LD HL,word",   "LD [HLI],A",     "INC HL",     // 20
    "INC H",            "DEC H",        "LD H,byte",      "DAA",
    "JR Z,target",      "ADD HL,HL",    "LD A,[HLI]",     "DEC HL",
    "INC L",            "DEC L",        "LD L,byte",      "CPL",

    "JR NC,target",     "LD SP,word",   "LD [HLD],A",     "INC SP",     // 30
    "INC [HL]",         "DEC [HL]",     "LD [HL],byte",   "SCF",
    "JR C,target",      "ADD HL,SP",    "LD A,[HLD]",     "DEC SP",
    "INC A",            "DEC A",        "LD A,byte",      "CCF",

    "LD B,B",           "LD B,C",       "LD B,D",         "LD B,E",     // 40
    "LD B,H",           "LD B,L",       "LD B,[HL]",      "LD B,A",
    "LD C,B",           "LD C,C",       "LD C,D",         "LD C,E",
    "LD C,H",           "LD C,L",       "LD C,[HL]",      "LD C,A",

    "LD D,B",           "LD D,C",       "LD D,D",         "LD D,E",     // 50
    "LD D,H",           "LD D,L",       "LD D,[HL]",      "LD D,A",
    "LD E,B",           "LD E,C",       "LD E,D",         "LD E,E",
    "LD E,H",           "LD E,L",       "LD E,[HL]",      "LD E,A",

    "LD H,B",           "LD H,C",       "LD H,D",         "LD H,E",     // 60
    "LD H,H",           "LD H,L",       "LD H,[HL]",      "LD H,A",
    "LD L,B",           "LD L,C",       "LD L,D",         "LD L,E",
    "LD L,H",           "LD L,L",       "LD L,[HL]",      "LD L,A",

    "LD [HL],B",        "LD [HL],C",    "LD [HL],D",      "LD [HL],E",  // 70
    "LD [HL],H",        "LD [HL],L",    "HALT",           "LD [HL],A",
    "LD A,B",           "LD A,C",       "LD A,D",         "LD A,E",
    "LD A,H",           "LD A,L",       "LD A,[HL]",      "LD A,A",

    "ADD A,B",          "ADD A,C",      "ADD A,D",        "ADD A,E",    // 80
    "ADD A,H",          "ADD A,L",      "ADD A,[HL]",     "ADD A,A",
    "ADC A,B",          "ADC A,C",      "ADC A,D",        "ADC A,E",
    "ADC A,H",          "ADC A,L",      "ADC A,[HL]",     "ADC A,A",

    "SUB A,B",          "SUB A,C",      "SUB A,D",        "SUB A,E",    // 90
    "SUB A,H",          "SUB A,L",      "SUB A,[HL]",     "SUB A,A",
    "SBC A,B",          "SBC A,C",      "SBC A,D",        "SBC A,E",
    "SBC A,H",          "SBC A,L",      "SBC A,[HL]",     "SBC A,A",

    "AND A,B",          "AND A,C",      "AND A,D",        "AND A,E",    // A0
    "AND A,H",          "AND A,L",      "AND A,[HL]",     "AND A,A",
    "XOR A,B",          "XOR A,C",      "XOR A,D",        "XOR A,E",
    "XOR A,H",          "XOR A,L",      "XOR A,[HL]",     "XOR A,A",

    "OR A,B",           "OR A,C",       "OR A,D",         "OR A,E",     // B0
    "OR A,H",           "OR A,L",       "OR A,[HL]",      "OR A,A",
    "CP A,B",           "CP A,C",       "CP A,D",         "CP A,E",
    "CP A,H",           "CP A,L",       "CP A,[HL]",      "CP A,A",

    "RET NZ",           "POP BC",       "JP NZ,word",     "JP word",    // C0
    "CALL NZ,word",     "PUSH BC",      "ADD A,byte",     "RST $00",
    "RET Z",            "RET",          "JP Z,word",      "",
    "CALL Z,word",      "CALL word",    "ADC A,byte",     "RST $08",

    "RET NC",           "POP DE",       "JP NC,word",     "",           // D0
    "CALL NC,word",     "PUSH DE",      "SUB A,byte",     "RST $10",
    "RET C",            "RETI",         "JP C,word",      "",
    "CALL C,word",      "",             "SBC A,byte",     "RST $18",

    "LDH [port],A",     "POP HL",       "LDH [C],A",      "",           // E0
    "",                 "PUSH HL",      "AND A,byte",     "RST $20",
    "ADD SP,offset",    "JP HL",        "LD [word],A",    "",
    "",                 "",             "XOR A,byte",     "RST $28",

    "LDH A,[port]",     "POP AF",       "LDH A,[C]",      "DI",         // F0
    "",                 "PUSH AF",      "OR A,byte",      "RST $30",
    "LD HL,SP+offset",  "LD SP,HL",     "LD A,[word]",    "EI",
    "",                 "",             "CP A,byte",      "RST $38",
];

/// The bytes after $CB.
#[rustfmt::skip] // Sixteen bytes are two lines.
pub static PREFIXED: [&str; 256] = [
    "RLC B",   "RLC C",   "RLC D",   "RLC E",   "RLC H",   "RLC L",   "RLC [HL]",   "RLC A",   // 00
    "RRC B",   "RRC C",   "RRC D",   "RRC E",   "RRC H",   "RRC L",   "RRC [HL]",   "RRC A",
    "RL B",    "RL C",    "RL D",    "RL E",    "RL H",    "RL L",    "RL [HL]",    "RL A",    // 10
    "RR B",    "RR C",    "RR D",    "RR E",    "RR H",    "RR L",    "RR [HL]",    "RR A",
    "SLA B",   "SLA C",   "SLA D",   "SLA E",   "SLA H",   "SLA L",   "SLA [HL]",   "SLA A",   // 20
    "SRA B",   "SRA C",   "SRA D",   "SRA E",   "SRA H",   "SRA L",   "SRA [HL]",   "SRA A",
    "SWAP B",  "SWAP C",  "SWAP D",  "SWAP E",  "SWAP H",  "SWAP L",  "SWAP [HL]",  "SWAP A",  // 30
    "SRL B",   "SRL C",   "SRL D",   "SRL E",   "SRL H",   "SRL L",   "SRL [HL]",   "SRL A",
    "BIT 0,B", "BIT 0,C", "BIT 0,D", "BIT 0,E", "BIT 0,H", "BIT 0,L", "BIT 0,[HL]", "BIT 0,A", // 40
    "BIT 1,B", "BIT 1,C", "BIT 1,D", "BIT 1,E", "BIT 1,H", "BIT 1,L", "BIT 1,[HL]", "BIT 1,A",
    "BIT 2,B", "BIT 2,C", "BIT 2,D", "BIT 2,E", "BIT 2,H", "BIT 2,L", "BIT 2,[HL]", "BIT 2,A", // 50
    "BIT 3,B", "BIT 3,C", "BIT 3,D", "BIT 3,E", "BIT 3,H", "BIT 3,L", "BIT 3,[HL]", "BIT 3,A",
    "BIT 4,B", "BIT 4,C", "BIT 4,D", "BIT 4,E", "BIT 4,H", "BIT 4,L", "BIT 4,[HL]", "BIT 4,A", // 60
    "BIT 5,B", "BIT 5,C", "BIT 5,D", "BIT 5,E", "BIT 5,H", "BIT 5,L", "BIT 5,[HL]", "BIT 5,A",
    "BIT 6,B", "BIT 6,C", "BIT 6,D", "BIT 6,E", "BIT 6,H", "BIT 6,L", "BIT 6,[HL]", "BIT 6,A", // 70
    "BIT 7,B", "BIT 7,C", "BIT 7,D", "BIT 7,E", "BIT 7,H", "BIT 7,L", "BIT 7,[HL]", "BIT 7,A",
    "RES 0,B", "RES 0,C", "RES 0,D", "RES 0,E", "RES 0,H", "RES 0,L", "RES 0,[HL]", "RES 0,A", // 80
    "RES 1,B", "RES 1,C", "RES 1,D", "RES 1,E", "RES 1,H", "RES 1,L", "RES 1,[HL]", "RES 1,A",
    "RES 2,B", "RES 2,C", "RES 2,D", "RES 2,E", "RES 2,H", "RES 2,L", "RES 2,[HL]", "RES 2,A", // 90
    "RES 3,B", "RES 3,C", "RES 3,D", "RES 3,E", "RES 3,H", "RES 3,L", "RES 3,[HL]", "RES 3,A",
    "RES 4,B", "RES 4,C", "RES 4,D", "RES 4,E", "RES 4,H", "RES 4,L", "RES 4,[HL]", "RES 4,A", // A0
    "RES 5,B", "RES 5,C", "RES 5,D", "RES 5,E", "RES 5,H", "RES 5,L", "RES 5,[HL]", "RES 5,A",
    "RES 6,B", "RES 6,C", "RES 6,D", "RES 6,E", "RES 6,H", "RES 6,L", "RES 6,[HL]", "RES 6,A", // B0
    "RES 7,B", "RES 7,C", "RES 7,D", "RES 7,E", "RES 7,H", "RES 7,L", "RES 7,[HL]", "RES 7,A",
    "SET 0,B", "SET 0,C", "SET 0,D", "SET 0,E", "SET 0,H", "SET 0,L", "SET 0,[HL]", "SET 0,A", // C0
    "SET 1,B", "SET 1,C", "SET 1,D", "SET 1,E", "SET 1,H", "SET 1,L", "SET 1,[HL]", "SET 1,A",
    "SET 2,B", "SET 2,C", "SET 2,D", "SET 2,E", "SET 2,H", "SET 2,L", "SET 2,[HL]", "SET 2,A", // D0
    "SET 3,B", "SET 3,C", "SET 3,D", "SET 3,E", "SET 3,H", "SET 3,L", "SET 3,[HL]", "SET 3,A",
    "SET 4,B", "SET 4,C", "SET 4,D", "SET 4,E", "SET 4,H", "SET 4,L", "SET 4,[HL]", "SET 4,A", // E0
    "SET 5,B", "SET 5,C", "SET 5,D", "SET 5,E", "SET 5,H", "SET 5,L", "SET 5,[HL]", "SET 5,A",
    "SET 6,B", "SET 6,C", "SET 6,D", "SET 6,E", "SET 6,H", "SET 6,L", "SET 6,[HL]", "SET 6,A", // F0
    "SET 7,B", "SET 7,C", "SET 7,D", "SET 7,E", "SET 7,H", "SET 7,L", "SET 7,[HL]", "SET 7,A",
];
