//! Names for what is wrong with settings, completions and header calls.

use crate::bridge::{Bridge, Owner, Piece};
use crate::header::{read_completion, Completion, Request, Target};
use crate::header::{CODE_CORRECTABLE, CODE_FATAL, CODE_NON_FATAL, MESSAGE_FIRST};
use crate::settings::{AxiAddress, Settings, Window};

/// Every rule of 01 that these settings break.
pub fn broken_rules(settings: &Settings) -> Vec<&'static str> {
    let used = settings.used();
    let any = |test: &dyn Fn(&Window) -> bool| used.iter().any(test);
    let multiple = |value: u64, size: u64| size == 0 || value.is_multiple_of(size);
    let power = |value: u32| value.is_power_of_two() && value >= 128;
    let tests = [
        (settings.count < 1, "count below 1"),
        (settings.count > 6, "count above 6"),
        (any(&|w| !w.size.is_power_of_two()), "size no power of two"),
        (any(&|w| w.size < 1 << 12), "size below 2^12"),
        (any(&|w| w.size > 1 << 40), "size above 2^40"),
        (any(&|w| !multiple(w.base, w.size)), "base no multiple"),
        (any(&|w| !multiple(w.target, w.size)), "target no multiple"),
        (overlap(used), "ranges overlap"),
        (settings.bus_bits < 1, "bus bits 0"),
        (settings.bus_bits > 8, "bus bits above 8"),
        (
            !power(settings.read_limit),
            "read limit no power of two or below 128",
        ),
        (settings.read_limit > 4096, "read limit above 4,096"),
        (
            !power(settings.write_limit),
            "write limit no power of two or below 128",
        ),
        (settings.write_limit > 1024, "write limit above 1,024"),
        (settings.time_limit < 1, "time limit 0"),
        (settings.time_limit > 65_535, "time limit above 65,535"),
        (settings.requester > 0xFFFF, "requester above 16 bits"),
    ];
    let broken = tests.iter().filter(|(holds, _)| *holds);
    broken.map(|(_, name)| *name).collect()
}

fn overlap(used: &[Window]) -> bool {
    let meets = |a: &Window, b: &Window| a.holds(AxiAddress(b.base));
    (0..used.len()).any(|i| (0..used.len()).any(|j| i != j && meets(&used[i], &used[j])))
}

/// Why a completion is malformed.
pub fn malformed(bytes: &[u8]) -> &'static str {
    if bytes.len() < 12 {
        return "short";
    }
    if !matches!(bytes[0], 0x0A | 0x4A) {
        return "first byte";
    }
    if reserved_bits(bytes) {
        return "reserved bits";
    }
    let data = bytes[0] == 0x4A;
    if data && bytes[6] >> 5 != 0 {
        return "status with data";
    }
    if !data && bytes[2] & 0x40 != 0 {
        return "EP without data";
    }
    match read_completion(&bytes[..12]) {
        None => "length without data",
        Some(_) => "payload length",
    }
}

fn reserved_bits(bytes: &[u8]) -> bool {
    bytes[1] != 0 || bytes[2] & 0xBC != 0 || bytes[6] & 0x10 != 0 || bytes[11] & 0x80 != 0
}

/// Why a well-formed completion is not expected; all reasons that hold.
pub fn unexpected(bridge: &Bridge, value: &Completion) -> Vec<&'static str> {
    let open = bridge.pieces().iter().find(|p| p.tag == value.tag);
    let rests = bridge.resting().contains(&value.tag);
    let ours = value.requester == bridge.settings().requester;
    let mut list = Vec::new();
    let mut add = |holds: bool, name| {
        if holds {
            list.push(name);
        }
    };
    add(!bridge.link_is_up(), "link down");
    add(!ours && open.is_some(), "requester ID");
    add(ours && rests, "tag rests (late after timeout)");
    add(value.tag > 31, "no such tag");
    add(
        ours && value.tag < 32 && open.is_none() && !rests,
        "tag free",
    );
    if let Some(piece) = open.filter(|_| ours) {
        list.extend(shape(piece, value));
    }
    list
}

/// Why an open piece does not expect a completion of its tag.
fn shape(piece: &Piece, value: &Completion) -> Vec<&'static str> {
    let mut list = Vec::new();
    if value.poisoned {
        list.push("poisoned");
    }
    if !matches!(piece.owner, Owner::Read(_)) {
        list.push("configuration shape");
    } else if value.status == 2 {
        list.push("CRS for memory");
    } else if !value.data {
        list.push("success without data");
    } else if value.count != piece.missing {
        list.push("count");
    } else if u64::from(value.lower) != piece.next.0 % 128 {
        list.push("lower address");
    } else {
        list.push("too long");
    }
    list
}

/// Why a request reader refuses.
pub fn request_bytes(bytes: &[u8]) -> &'static str {
    let size = match bytes.first() {
        Some(0x00 | 0x40 | 0x04 | 0x05 | 0x44 | 0x45) => 12,
        Some(0x20 | 0x60) => 16,
        Some(_) => return "first byte",
        None => 12,
    };
    if bytes.len() != size {
        return "wrong size";
    }
    if bytes[2] & 0x40 != 0 {
        return "EP";
    }
    if bytes[1] != 0 || bytes[2] & 0xBC != 0 {
        return "reserved bits";
    }
    if bytes[0] & 4 != 0 && (bytes[2] & 3, bytes[3]) != (0, 1) {
        return "configuration length";
    }
    if size == 16 && bytes[8..12] == [0; 4] {
        return "4 words, below 2^32";
    }
    if bytes[size - 1] & 3 != 0 {
        return "address bits";
    }
    if bytes[0] & 4 != 0 && bytes[10] > 15 {
        return "extended register";
    }
    "enables"
}

/// Why a request writer refuses with 12.
pub fn request_value(value: &Request) -> &'static str {
    match value.target {
        _ if !(1..=1024).contains(&value.length) => "length",
        _ if value.requester > 0xFFFF => "requester",
        _ if value.tag > 0xFF => "tag",
        Target::Memory(address) if address.0 & 3 != 0 => "address",
        Target::Config { .. } if value.length != 1 => "length",
        Target::Config {
            bus,
            device,
            function,
            extended,
            register,
            ..
        } if bus > 255 || device > 31 || function > 7 || extended > 15 || register > 63 => {
            "configuration field"
        }
        _ => "enables",
    }
}

/// Why a completion reader refuses.
pub fn completion_bytes(bytes: &[u8]) -> &'static str {
    match bytes.first() {
        Some(0x0A | 0x4A) if bytes.len() != 12 => "wrong size",
        Some(0x0A | 0x4A) if reserved_bits(bytes) => "reserved bits",
        Some(0x0A | 0x4A) => "shape",
        Some(_) => "first byte",
        None => "wrong size",
    }
}

/// Why a completion writer refuses with 12.
pub fn completion_value(value: &Completion) -> &'static str {
    if value.completer > 0xFFFF {
        "completer"
    } else if value.status > 7 {
        "status"
    } else if !(1..=4096).contains(&value.count) {
        "count"
    } else if value.requester > 0xFFFF {
        "requester"
    } else if value.tag > 0xFF {
        "tag"
    } else if value.lower > 0x7F {
        "lower address"
    } else {
        "shape"
    }
}

/// What can be wrong with an error message.
pub const MESSAGE_FLAWS: [&str; 23] = [
    "no byte",
    "1 to 14 bytes",
    "15 bytes",
    "17 bytes",
    "18 bytes or more",
    "first byte 34",
    "another first byte",
    "code 32",
    "code 2F",
    "code 34",
    "code 20",
    "another code",
    "byte 1",
    "byte 2",
    "byte 3",
    "byte 8",
    "byte 9",
    "byte 10",
    "byte 11",
    "byte 12",
    "byte 13",
    "byte 14",
    "byte 15",
];

/// What is wrong with an error message; nothing where it is more than one thing,
/// so that each flaw is tried alone.
pub fn message_flaw(bytes: &[u8]) -> Option<String> {
    let length = match bytes.len() {
        0 => Some("no byte"),
        1..=14 => Some("1 to 14 bytes"),
        15 => Some("15 bytes"),
        16 => None,
        17 => Some("17 bytes"),
        _ => Some("18 bytes or more"),
    };
    let places = bytes.iter().enumerate();
    let mut flaws: Vec<String> = places.filter_map(|(i, b)| byte_flaw(i, *b)).collect();
    flaws.extend(length.map(String::from));
    match flaws.len() {
        1 => flaws.pop(),
        _ => None,
    }
}

fn byte_flaw(place: usize, byte: u8) -> Option<String> {
    match (place, byte) {
        (0, MESSAGE_FIRST) | (4..=6, _) => None,
        (0, 0x34) => Some("first byte 34".to_string()),
        (0, _) => Some("another first byte".to_string()),
        (7, CODE_CORRECTABLE | CODE_NON_FATAL | CODE_FATAL) => None,
        (7, 0x32 | 0x2F | 0x34 | 0x20) => Some(format!("code {byte:02X}")),
        (7, _) => Some("another code".to_string()),
        (_, 0) => None,
        _ => Some(format!("byte {place}")),
    }
}
