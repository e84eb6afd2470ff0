//! A table of windows, as the proved library takes it and as plain Rust would keep it; addresses; random numbers.

/// Six windows: by columns for the library, and as an array of structs.
pub struct Table {
    pub count: u32,
    pub base: [u64; 6],
    pub size: [u64; 6],
    pub target: [u64; 6],
    pub windows: [Window; 6],
}

#[derive(Clone, Copy, Default)]
pub struct Window {
    pub base: u64,
    pub size: u64,
    pub target: u64,
}

impl Window {
    #[inline(always)]
    pub fn holds(&self, a: u64) -> bool {
        self.base <= a && a - self.base < self.size
    }
}

impl Table {
    pub fn new(count: u32, windows: [Window; 6]) -> Table {
        Table {
            count,
            base: windows.map(|w| w.base),
            size: windows.map(|w| w.size),
            target: windows.map(|w| w.target),
            windows,
        }
    }
}

/// A small generator of random numbers, the same in every run.
pub struct Random(pub u64);

impl Random {
    pub fn next(&mut self) -> u64 {
        self.0 ^= self.0 << 13;
        self.0 ^= self.0 >> 7;
        self.0 ^= self.0 << 17;
        self.0.wrapping_mul(0x2545_F491_4F6C_DD1D)
    }

    pub fn below(&mut self, n: u64) -> u64 {
        self.next() % n
    }
}
