//! The refusal numbers of documents 01 and 02, and their words for each.

pub const DONE: u8 = 0;
pub const MEMORY_LENGTH: u8 = 1;
pub const FLAG_BITS: u8 = 2;
pub const STOPPED: u8 = 3;
pub const UNDEFINED: u8 = 4;
pub const BUDGET: u8 = 5;
pub const LENGTH: u8 = 6;
pub const VERSION: u8 = 7;
pub const BLOCK_LENGTH: u8 = 8;
pub const STATE_CODE: u8 = 9;
pub const ROOM: u8 = 10;
pub const EDITION: u8 = 11;
pub const LINE: u8 = 12;
pub const NESTING: u8 = 13;
pub const RANGE: u8 = 14;

/// What a number means, in the words that the project has for it everywhere.
pub fn sentence(code: u8) -> &'static str {
    match code {
        DONE => "done",
        MEMORY_LENGTH => "memory length is not 65,536",
        FLAG_BITS => "low four bits of F are not 0",
        STOPPED => "mode is Stopped when a step is due",
        UNDEFINED => "the step would run an undefined opcode",
        BUDGET => "budget above 1,048,576",
        LENGTH => "head, image or output slice of wrong length",
        VERSION => "version byte is not 1",
        BLOCK_LENGTH => "a block length is not 14, or not 65,536",
        STATE_CODE => "IME code above 2, or mode code above 3",
        ROOM => "output too short",
        EDITION => "edition number is neither 1 nor 2",
        LINE => "a line of no such form",
        NESTING => "nesting deeper than 16",
        RANGE => "number or value out of range",
        _ => "no such refusal number",
    }
}
