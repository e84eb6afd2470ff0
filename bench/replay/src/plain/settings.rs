//! Settings and the choice of a window.

#[derive(Clone, Copy, Debug, Default, PartialEq, Eq)]
pub struct Window {
    pub base: u64,
    pub size: u64,
    pub target: u64,
}

/// A window that is not used has size 0, so it holds nothing.
#[derive(Clone, Copy, Debug, PartialEq, Eq)]
pub struct Settings {
    pub windows: [Window; 6],
    pub bus_bits: u32,
    pub read_limit: u32,
    pub write_limit: u32,
    pub time_limit: u32,
    pub requester: u32,
}

impl Default for Settings {
    /// The whiteboard's.
    fn default() -> Settings {
        let mut windows = [Window::default(); 6];
        windows[0] = Window {
            base: 0x1234_0000,
            size: 0x1_0000,
            target: 0x5671_0000,
        };
        Settings {
            windows,
            bus_bits: 8,
            read_limit: 128,
            write_limit: 128,
            time_limit: 65_535,
            requester: 0,
        }
    }
}

impl Settings {
    /// The PCIe address of an AXI address, if a window holds it. A window ends
    /// at 2^64 at the latest, so below its base the difference is too large.
    #[inline]
    pub fn translate(&self, address: u64) -> Option<u64> {
        self.windows.iter().find_map(|window| {
            let inside = address.wrapping_sub(window.base);
            (inside < window.size).then(|| window.target + inside)
        })
    }
}
