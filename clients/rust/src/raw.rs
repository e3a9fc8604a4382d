// The calls of the archive, as clients/c/interleaver.h declares them.
use super::{streams::Record, Set};
extern "C" {
    pub fn interleaver_test(set: &Set) -> u32;
    pub fn interleaver_fitting(set: &Set) -> u32;
    pub fn interleaver_lte_factors(k: u32, factors: &mut [u32; 4]) -> u32;
    pub fn interleaver_wcdma_figures(k: u32, figures: &mut [u32; 5]) -> u32;
    pub fn interleaver_wcdma_totals(first: u32, last: u32, totals: &mut [u32; 3]) -> u32;
    pub fn interleaver_address_l(set: &Set, t: u32, address: &mut u32) -> u32;
    pub fn interleaver_address_m(set: &Set, k: u32, address: &mut u32) -> u32;
    pub fn interleaver_walk_l(set: &Set, cell: &mut u32, out: *mut u16, len: usize, written: &mut u32, cells: &mut u32) -> u32;
    pub fn interleaver_walk_m(set: &Set, cell: &mut u32, out: *mut u16, len: usize, written: &mut u32, cells: &mut u32) -> u32;
    pub fn interleaver_interleave_bytes(set: &Set, src: *const u8, src_len: usize, dst: *mut u8, dst_len: usize) -> u32;
    pub fn interleaver_deinterleave_bytes(set: &Set, src: *const u8, src_len: usize, dst: *mut u8, dst_len: usize) -> u32;
    pub fn interleaver_interleave_soft(set: &Set, src: *const f32, src_len: usize, dst: *mut f32, dst_len: usize) -> u32;
    pub fn interleaver_deinterleave_soft(set: &Set, src: *const f32, src_len: usize, dst: *mut f32, dst_len: usize) -> u32;
    pub fn interleaver_interleave_symbols(set: &Set, width: u32, src: *const u8, src_len: usize, dst: *mut u8, dst_len: usize) -> u32;
    pub fn interleaver_deinterleave_symbols(set: &Set, width: u32, src: *const u8, src_len: usize, dst: *mut u8, dst_len: usize) -> u32;
    pub fn interleaver_add_received(
        set: &Set,
        received: *const f32,
        received_len: usize,
        present: *const u8,
        present_len: usize,
        sums: *mut f32,
        sums_len: usize,
        counts: *mut u16,
        counts_len: usize,
    ) -> u32;
    pub fn interleaver_read_sum(
        set: &Set,
        sums: *const f32,
        sums_len: usize,
        counts: *const u16,
        counts_len: usize,
        position: u32,
        sum: &mut f32,
        count: &mut u16,
    ) -> u32;
    pub fn interleaver_plans(file: *const u8, file_len: usize, count: &mut u32) -> u32;
    pub fn interleaver_judge_plan(file: *const u8, file_len: usize, plan: u32, first: &mut u32, wrong: &mut u32) -> u32;
    pub fn interleaver_plans_length(sets: *const u32, sets_len: usize, bytes: &mut u32) -> u32;
    pub fn interleaver_write_plans(sets: *const u32, sets_len: usize, out: *mut u8, out_len: usize) -> u32;
    pub fn interleaver_stream_start(kind: u32, store: *mut u8, store_len: usize, fill: u8, stream: &mut Record) -> u32;
}

// The two feeds, which differ in a name.
macro_rules! feeds {
    ($($name:ident),*) => {
        extern "C" {
            $(pub fn $name(
                stream: &mut Record,
                store: *mut u8,
                store_len: usize,
                input: *const u8,
                input_len: usize,
                out: *mut u8,
                out_len: usize,
            ) -> u32;)*
        }
    };
}
feeds!(interleaver_stream_interleave, interleaver_stream_deinterleave);
