//! The proved functions, behind safe ones. None of them has a premise, and each is lent its tables for the call alone.
use crate::table::Table;

type Column = [u64; 6];

extern "C" {
    fn window_bench_choice(count: u32, base: &Column, size: &Column, a: u64) -> u64;
    fn window_bench_choice_former(count: u32, base: &Column, size: &Column, a: u64) -> u64;
    fn window_bench_choices(count: u32, base: &Column, size: &Column, a: *const u64, n: usize) -> u64;
    fn window_bench_choices_former(count: u32, base: &Column, size: &Column, a: *const u64, n: usize) -> u64;
    fn window_bench_accesses(count: u32, base: &Column, size: &Column, target: &Column, a: *const u64, n: usize) -> u64;
    fn window_bench_accesses_former(count: u32, base: &Column, size: &Column, target: &Column, a: *const u64, n: usize) -> u64;
}

#[inline(always)]
pub fn choice(t: &Table, a: u64) -> u64 {
    unsafe { window_bench_choice(t.count, &t.base, &t.size, a) }
}

#[inline(always)]
pub fn choice_former(t: &Table, a: u64) -> u64 {
    unsafe { window_bench_choice_former(t.count, &t.base, &t.size, a) }
}

pub fn choices(t: &Table, a: &[u64]) -> u64 {
    unsafe { window_bench_choices(t.count, &t.base, &t.size, a.as_ptr(), a.len()) }
}

pub fn choices_former(t: &Table, a: &[u64]) -> u64 {
    unsafe { window_bench_choices_former(t.count, &t.base, &t.size, a.as_ptr(), a.len()) }
}

pub fn accesses(t: &Table, a: &[u64]) -> u64 {
    unsafe { window_bench_accesses(t.count, &t.base, &t.size, &t.target, a.as_ptr(), a.len()) }
}

pub fn accesses_former(t: &Table, a: &[u64]) -> u64 {
    unsafe { window_bench_accesses_former(t.count, &t.base, &t.size, &t.target, a.as_ptr(), a.len()) }
}
