use crate::link;

/// The bytes of an instruction, by its row in the opcode table: rows 0 to 255 for a first byte, 256
/// to 511 for the byte after `$CB`, which counts too. Undefined rows, row `$CB` and rows above 511
/// have 0.
///
/// ```
/// use trnadulek::length;
///
/// assert_eq!(length(0xCD), 3); // CALL
/// assert_eq!(length(256 + 0x46), 2); // BIT 0,[HL]
/// assert_eq!(length(0xD3), 0);
/// ```
pub fn length(row: u32) -> u8 {
    link::length(row)
}

/// The cycles of an instruction where no branch is taken, by its row as in [`length`]. A taken JR
/// cc or JP cc costs 1 more, CALL cc and RET cc 3 more.
///
/// ```
/// use trnadulek::untaken_cycles;
///
/// assert_eq!(untaken_cycles(0x20), 2); // JR NZ
/// assert_eq!(untaken_cycles(0xCD), 6); // CALL
/// assert_eq!(untaken_cycles(512), 0);
/// ```
pub fn untaken_cycles(row: u32) -> u8 {
    link::untaken_cycles(row)
}
