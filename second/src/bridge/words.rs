//! The local words and their bits (01, "Configuration space"; 02, request A1).

pub const WORD_BUSES: u32 = 0x018;
pub const WORD_INFO: u32 = 0x130;
pub const WORD_DISABLE: u32 = 0x134;
pub const WORD_DECODE: u32 = 0x138;
pub const WORD_MASK: u32 = 0x13C;
pub const WORD_LINK: u32 = 0x144;
pub const WORD_STATUS: u32 = 0x148;
pub const WORD_ERRORS: u32 = 0x154;

/// The words that are demand 3's registers, in the order of the log.
pub const REGISTERS: [u32; 7] = [
    WORD_BUSES,
    WORD_DISABLE,
    WORD_DECODE,
    WORD_MASK,
    WORD_LINK,
    WORD_STATUS,
    WORD_ERRORS,
];

/// Bits of words 138 and 13C.
pub const BIT_LINK_DOWN: u32 = 0;
pub const BIT_CONFIG_TIMEOUT: u32 = 8;
pub const BIT_CORRECTABLE: u32 = 9;
pub const BIT_NON_FATAL: u32 = 10;
pub const BIT_FATAL: u32 = 11;
pub const BIT_UR: u32 = 20;
pub const BIT_UNEXPECTED: u32 = 21;
pub const BIT_TIMEOUT: u32 = 22;
pub const BIT_POISON: u32 = 23;
pub const BIT_CA: u32 = 24;
pub const BIT_BURST: u32 = 25;

/// Those that error messages set.
pub const ERROR_BITS: u32 = 1 << BIT_CORRECTABLE | 1 << BIT_NON_FATAL | 1 << BIT_FATAL;
/// All that exist: 0, 8 to 11, 20 to 25.
pub const DECODE_BITS: u32 = 1 | 1 << BIT_CONFIG_TIMEOUT | ERROR_BITS | 0x3F << BIT_UR;

/// Bit of word 134.
pub const LINE_OFF: u32 = 1 << 8;
/// Bit of word 144.
pub const LINK_UP: u32 = 1 << 11;
/// Bits of word 148.
pub const NOT_EMPTY: u32 = 1 << 16;
pub const OVERFLOW: u32 = 1 << 17;
/// Places in word 154; the requester ID lies in its low half.
pub const TYPE_SHIFT: u32 = 16;
pub const VALID: u32 = 1 << 18;
