//! Records: one byte of kind, then a body whose length the kind fixes.

pub const FUNCTION: u8 = 0x01;
pub const PREDICATE: u8 = 0x02;
pub const CLAUSE: u8 = 0x03;
pub const VARIABLE: u8 = 0x04;
pub const APPLIED: u8 = 0x05;
pub const GOAL: u8 = 0x06;
pub const CUT: u8 = 0x07;
pub const QUERY: u8 = 0x08;
pub const END: u8 = 0x09;
pub const ANSWER: u8 = 0x0A;
pub const ANSWER_VARIABLE: u8 = 0x0B;
pub const STEP: u8 = 0x0C;
pub const ANSWER_END: u8 = 0x0D;

/// The body length of each kind. Kind 0 is unknown.
pub const BODY: [usize; 14] = [0, 1, 1, 4, 1, 2, 2, 0, 2, 0, 4, 2, 2, 0];

/// The bytes of a whole record of this kind.
pub const fn size(kind: u8) -> usize {
    1 + BODY[kind as usize]
}

/// A two-byte number, high byte first.
pub fn number(high: u8, low: u8) -> u16 {
    u16::from_be_bytes([high, low])
}
