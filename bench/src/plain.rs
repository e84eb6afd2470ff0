//! The choice in plain Rust: `iter().position(..)` over an array of structs.
use crate::table::Table;

/// Over all six, in use or not; 6 for none.
#[inline(always)]
fn of_six(t: &Table, a: u64) -> u64 {
    t.windows.iter().position(|w| w.holds(a)).unwrap_or(6) as u64
}

/// Over those in use: it answers as the proved one does for every count.
#[inline(always)]
fn of_count(t: &Table, a: u64) -> u64 {
    let n = (t.count as usize).min(6);
    t.windows[..n].iter().position(|w| w.holds(a)).unwrap_or(6) as u64
}

/// The PCIe address behind window i; 0 for none.
#[inline(always)]
fn behind(t: &Table, i: u64, a: u64) -> u64 {
    match t.windows.get(i as usize) {
        Some(w) => w.target.wrapping_add(a - w.base),
        None => 0,
    }
}

#[inline(always)]
fn sum(addresses: &[u64], f: impl Fn(u64) -> u64) -> u64 {
    addresses.iter().fold(0, |sum: u64, &a| sum.wrapping_add(f(a)))
}

// One call a choice, and all in one call. An access makes one choice here; the bridge makes two.

#[inline(never)]
pub fn choice_of_six(t: &Table, a: u64) -> u64 {
    of_six(t, a)
}

#[inline(never)]
pub fn choice(t: &Table, a: u64) -> u64 {
    of_count(t, a)
}

#[inline(never)]
pub fn choices_of_six(t: &Table, addresses: &[u64]) -> u64 {
    sum(addresses, |a| of_six(t, a))
}

#[inline(never)]
pub fn choices(t: &Table, addresses: &[u64]) -> u64 {
    sum(addresses, |a| of_count(t, a))
}

#[inline(never)]
pub fn accesses_of_six(t: &Table, addresses: &[u64]) -> u64 {
    sum(addresses, |a| behind(t, of_six(t, a), a))
}

#[inline(never)]
pub fn accesses(t: &Table, addresses: &[u64]) -> u64 {
    sum(addresses, |a| behind(t, of_count(t, a), a))
}
