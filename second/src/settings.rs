//! Settings, windows and the two kinds of address (01, "Settings").

/// "An AXI address and a PCIe address are two kinds of number that must never
/// be mixed."
#[derive(Clone, Copy, Debug, PartialEq, Eq)]
pub struct AxiAddress(pub u64);

#[derive(Clone, Copy, Debug, PartialEq, Eq)]
pub struct PcieAddress(pub u64);

#[derive(Clone, Copy, Debug, Default, PartialEq, Eq)]
pub struct Window {
    pub base: u64,
    pub size: u64,
    pub target: u64,
}

impl Window {
    /// "a power-of-two size of 2^12 to 2^40 bytes ...; base and target are
    /// multiples of the size"
    fn lawful(&self) -> bool {
        self.size.is_power_of_two()
            && self.size >= 1 << 12
            && self.size <= 1 << 40
            && self.base.is_multiple_of(self.size)
            && self.target.is_multiple_of(self.size)
    }

    /// A window may end at 2^64, so places are compared by difference.
    pub fn holds(&self, address: AxiAddress) -> bool {
        address.0 >= self.base && address.0 - self.base < self.size
    }

    /// "AXI ranges are disjoint": the later start is not in the earlier range.
    fn disjoint(&self, other: &Window) -> bool {
        !self.holds(AxiAddress(other.base)) && !other.holds(AxiAddress(self.base))
    }

    /// "PCIe address = target + (address - base)"
    fn translate(&self, address: AxiAddress) -> PcieAddress {
        PcieAddress(self.target + (address.0 - self.base))
    }
}

/// Entries of `windows` past `count` are ignored.
#[derive(Clone, Debug, PartialEq, Eq)]
pub struct Settings {
    pub count: u32,
    pub windows: [Window; 6],
    pub bus_bits: u32,
    pub read_limit: u32,
    pub write_limit: u32,
    pub time_limit: u32,
    pub requester: u32,
}

impl Settings {
    /// "Window 0: base 12340000 hex, 64 KB, target 56710000; requester 0, n 8,
    /// limits 128, T 65,535 unless said."
    pub fn example() -> Settings {
        let mut windows = [Window::default(); 6];
        windows[0] = Window {
            base: 0x1234_0000,
            size: 0x1_0000,
            target: 0x5671_0000,
        };
        Settings {
            count: 1,
            windows,
            bus_bits: 8,
            read_limit: 128,
            write_limit: 128,
            time_limit: 65_535,
            requester: 0,
        }
    }

    /// The windows that count; none where the count itself is out of range.
    pub fn used(&self) -> &[Window] {
        match self.count {
            1..=6 => &self.windows[..self.count as usize],
            _ => &[],
        }
    }

    /// Every rule of 01's section on settings.
    pub fn lawful(&self) -> bool {
        (1..=6).contains(&self.count)
            && self.used().iter().all(Window::lawful)
            && self.all_disjoint()
            && (1..=8).contains(&self.bus_bits)
            && self.read_limit.is_power_of_two()
            && (128..=4096).contains(&self.read_limit)
            && self.write_limit.is_power_of_two()
            && (128..=1024).contains(&self.write_limit)
            && (1..=65_535).contains(&self.time_limit)
            && self.requester <= 0xFFFF
    }

    fn all_disjoint(&self) -> bool {
        let used = self.used();
        (0..used.len()).all(|i| (0..i).all(|j| used[i].disjoint(&used[j])))
    }

    /// Where a byte goes, if some window holds it.
    pub fn translate(&self, address: AxiAddress) -> Option<PcieAddress> {
        let window = self.used().iter().find(|w| w.holds(address))?;
        Some(window.translate(address))
    }
}
