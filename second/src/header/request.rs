//! Request headers.

use crate::settings::PcieAddress;

use super::{fill, front_is_clean, length_bits, length_bytes, pair, poison_bit, Written};

#[derive(Clone, Copy, Debug, PartialEq, Eq)]
pub enum Target {
    Memory(PcieAddress),
    Config {
        /// False is type 0, true type 1.
        type1: bool,
        bus: u32,
        device: u32,
        function: u32,
        extended: u32,
        register: u32,
    },
}

/// Fields are wider than their ranges, so that values out of range exist.
#[derive(Clone, Copy, Debug, PartialEq, Eq)]
pub struct Request {
    pub write: bool,
    pub target: Target,
    pub length: u32,
    pub requester: u32,
    pub tag: u32,
    pub last: u32,
    pub first: u32,
}

impl Request {
    fn lawful(&self) -> bool {
        self.fields_fit() && self.target_fits() && self.enables_fit()
    }

    fn fields_fit(&self) -> bool {
        (1..=1024).contains(&self.length)
            && self.requester <= 0xFFFF
            && self.tag <= 0xFF
            && self.last <= 0xF
            && self.first <= 0xF
    }

    /// "the address, low two bits zero; or bus, device x 8 + function, extended
    /// register, register x 4"; "configuration has length 1".
    fn target_fits(&self) -> bool {
        match self.target {
            Target::Memory(address) => address.0.is_multiple_of(4),
            Target::Config {
                bus,
                device,
                function,
                extended,
                register,
                ..
            } => {
                self.length == 1
                    && bus <= 0xFF
                    && device <= 31
                    && function <= 7
                    && extended <= 15
                    && register <= 63
            }
        }
    }

    /// "length 1 has last enables 0, a longer one both not 0"
    fn enables_fit(&self) -> bool {
        match self.length {
            1 => self.last == 0,
            _ => self.last != 0 && self.first != 0,
        }
    }

    /// "read 00/20, write 40/60, config read 04/05, config write 44/45"
    fn first_byte(&self) -> u8 {
        let write = u8::from(self.write) << 6;
        match self.target {
            Target::Memory(address) if address.0 < 1 << 32 => write,
            Target::Memory(_) => write | 0x20,
            Target::Config { type1, .. } => write | 0x04 | u8::from(type1),
        }
    }
}

/// The header's bytes, or nothing where a field is out of its range.
pub(crate) fn request_bytes(request: &Request) -> Option<Vec<u8>> {
    if !request.lawful() {
        return None;
    }
    let mut bytes = vec![request.first_byte(), 0];
    bytes.extend(length_bytes(false, request.length));
    bytes.extend((request.requester as u16).to_be_bytes());
    bytes.push(request.tag as u8);
    bytes.push((request.last << 4 | request.first) as u8);
    bytes.extend(target_bytes(&request.target));
    Some(bytes)
}

/// "Addresses below 2^32 use a 3-word header, others 4."
fn target_bytes(target: &Target) -> Vec<u8> {
    match *target {
        Target::Memory(PcieAddress(address)) => match u32::try_from(address) {
            Ok(low) => low.to_be_bytes().to_vec(),
            Err(_) => address.to_be_bytes().to_vec(),
        },
        Target::Config {
            bus,
            device,
            function,
            extended,
            register,
            ..
        } => vec![
            bus as u8,
            (device * 8 + function) as u8,
            extended as u8,
            (register * 4) as u8,
        ],
    }
}

/// The write request header call.
pub fn write_request(request: &Request, area: &mut [u8]) -> Written {
    fill(area, request_bytes(request))
}

/// The read request header call; nothing stands for refusal 12.
pub fn read_request(bytes: &[u8]) -> Option<Request> {
    let first = *bytes.first()?;
    let size = match first {
        0x00 | 0x40 | 0x04 | 0x05 | 0x44 | 0x45 => 12,
        0x20 | 0x60 => 16,
        _ => return None,
    };
    // "A reader wants exactly the header's bytes." "requests have EP 0"
    if bytes.len() != size || !front_is_clean(bytes) || poison_bit(bytes) {
        return None;
    }
    let request = Request {
        write: first & 0x40 != 0,
        target: read_target(first, &bytes[8..])?,
        length: match length_bits(bytes) {
            0 => 1024,
            bits => bits,
        },
        requester: pair(&bytes[4..6]),
        tag: u32::from(bytes[6]),
        last: u32::from(bytes[7] >> 4),
        first: u32::from(bytes[7] & 15),
    };
    request.lawful().then_some(request)
}

fn read_target(first: u8, bytes: &[u8]) -> Option<Target> {
    if first & 0x04 != 0 {
        return read_config_target(first, bytes);
    }
    let address = bytes.iter().fold(0, |sum, b| sum << 8 | u64::from(*b));
    // "4-word addresses are 2^32 or more"
    if bytes.len() == 8 && address < 1 << 32 {
        return None;
    }
    Some(Target::Memory(PcieAddress(address)))
}

fn read_config_target(first: u8, bytes: &[u8]) -> Option<Target> {
    if bytes[3] & 3 != 0 {
        return None;
    }
    Some(Target::Config {
        type1: first & 1 != 0,
        bus: u32::from(bytes[0]),
        device: u32::from(bytes[1] >> 3),
        function: u32::from(bytes[1] & 7),
        extended: u32::from(bytes[2]),
        register: u32::from(bytes[3] >> 2),
    })
}
