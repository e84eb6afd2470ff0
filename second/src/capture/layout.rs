//! What a record holds: one table, from which the writer packs and the readers
//! unpack.

pub const KIND_END: u8 = 0;
pub const KIND_READ: u8 = 1;
pub const KIND_WRITE: u8 = 2;
pub const KIND_CONFIG: u8 = 3;
pub const KIND_COMPLETION: u8 = 4;
pub const KIND_LINK: u8 = 5;
pub const KIND_TICK: u8 = 6;
pub const KIND_TAKE: u8 = 7;

/// "kind (4 bits), zero (4), body length in bytes (16)"
pub const FRONT_BYTES: usize = 3;
/// "a write has 10 to 4,112 bytes, a completion 12 to 4,112"
pub const BODY_LIMIT: usize = 4112;
pub const COMPLETION_LEAST: usize = 12;
/// The longest record.
pub const RECORD_LIMIT: usize = FRONT_BYTES + BODY_LIMIT;
/// No kind has more fields.
pub const FIELDS: usize = 4;

/// The values of a record's fields, in the table's order; 0 behind the last.
pub type Values = [u64; FIELDS];

/// A kind of record: the widths of its fields in bits, most significant first, and
/// how many bytes may follow them.
pub struct Layout {
    pub kind: u8,
    pub name: &'static str,
    pub fields: &'static [u32],
    pub least_bytes: usize,
    pub most_bytes: usize,
}

/// "address 64, size code 3, beats less one 8, type 2"
const BURST: &[u32] = &[64, 3, 8, 2];
const BURST_BYTES: usize = 10;
/// The most data of a write.
pub const DATA_LIMIT: usize = BODY_LIMIT - BURST_BYTES;

/// By kind.
pub const LAYOUTS: [Layout; 8] = [
    // "the number of earlier events (32)"
    fixed(KIND_END, "end", &[32]),
    fixed(KIND_READ, "read", BURST),
    Layout {
        most_bytes: DATA_LIMIT,
        ..fixed(KIND_WRITE, "write", BURST)
    },
    // "offset 28, write flag 1, strobes 4, data 32"
    fixed(KIND_CONFIG, "config", &[28, 1, 4, 32]),
    Layout {
        least_bytes: COMPLETION_LEAST,
        most_bytes: BODY_LIMIT,
        ..fixed(KIND_COMPLETION, "completion", &[])
    },
    fixed(KIND_LINK, "link", &[1]),
    fixed(KIND_TICK, "tick", &[]),
    fixed(KIND_TAKE, "take", &[4]),
];

const fn fixed(kind: u8, name: &'static str, fields: &'static [u32]) -> Layout {
    Layout {
        kind,
        name,
        fields,
        least_bytes: 0,
        most_bytes: 0,
    }
}

impl Layout {
    /// Nothing for the kinds 8 to 15.
    pub fn of(kind: u8) -> Option<&'static Layout> {
        LAYOUTS.get(usize::from(kind))
    }

    fn bits(&self) -> u32 {
        self.fields.iter().sum()
    }

    /// The bytes that the fields take, with their padding.
    pub fn field_bytes(&self) -> usize {
        self.bits().div_ceil(8) as usize
    }

    /// The zero bits behind the fields.
    pub fn padding(&self) -> u32 {
        self.field_bytes() as u32 * 8 - self.bits()
    }

    pub fn shortest(&self) -> usize {
        self.field_bytes() + self.least_bytes
    }

    pub fn longest(&self) -> usize {
        self.field_bytes() + self.most_bytes
    }

    /// "Lengths are what the fields give".
    pub fn takes(&self, length: usize) -> bool {
        (self.shortest()..=self.longest()).contains(&length)
    }

    /// The whole record, or nothing where a value or the bytes do not fit.
    pub fn pack(&self, values: &Values, bytes: &[u8]) -> Option<Vec<u8>> {
        let mut packed = 0u128;
        for (width, value) in self.fields.iter().zip(values) {
            if u128::from(*value) >> width != 0 {
                return None;
            }
            packed = packed << width | u128::from(*value);
        }
        packed <<= self.padding();
        let length = self.field_bytes() + bytes.len();
        if !self.takes(length) {
            return None;
        }
        let mut record = Vec::with_capacity(FRONT_BYTES + length);
        record.push(self.kind << 4);
        record.extend((length as u16).to_be_bytes());
        record.extend(&packed.to_be_bytes()[16 - self.field_bytes()..]);
        record.extend(bytes);
        Some(record)
    }

    /// The values and the bytes behind them, or nothing where the padding is not
    /// zero. The body has a length that this layout takes.
    pub fn unpack<'a>(&self, body: &'a [u8]) -> Option<(Values, &'a [u8])> {
        let (packed, bytes) = body.split_at(self.field_bytes());
        let mut rest = packed
            .iter()
            .fold(0u128, |sum, byte| sum << 8 | u128::from(*byte));
        if rest % (1 << self.padding()) != 0 {
            return None;
        }
        rest >>= self.padding();
        let mut values = [0; FIELDS];
        for (index, width) in self.fields.iter().enumerate().rev() {
            values[index] = (rest % (1 << width)) as u64;
            rest >>= width;
        }
        Some((values, bytes))
    }
}
