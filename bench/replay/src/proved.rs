//! The proved replay, behind a safe function. It has no premise, and is lent its slices for the call alone.
#![allow(unsafe_code)]

use replay::engine::Lent;

extern "C" {
    fn replay_bench_play(
        input: *const u8,
        input_len: usize,
        store: *mut u8,
        store_len: usize,
        area: *mut u8,
        area_len: usize,
        held: *mut u8,
        held_len: usize,
        rows: *mut u64,
        rows_len: usize,
        allowed: usize,
    ) -> u64;
}

#[inline(never)]
pub fn proved(input: &[u8], lent: &mut Lent, allowance: usize) -> u64 {
    let Lent {
        store,
        area,
        rows,
        held,
    } = lent;
    unsafe {
        replay_bench_play(
            input.as_ptr(),
            input.len(),
            store.as_mut_ptr(),
            store.len(),
            area.as_mut_ptr(),
            area.len(),
            held.as_mut_ptr(),
            held.len(),
            rows.as_mut_ptr(),
            rows.len(),
            allowance,
        )
    }
}
