//! The functions of `sweep_bptree.h`.

/// A map, or none.
#[repr(C)]
pub struct Handle {
    pub at: *mut u8,
}

#[repr(C)]
#[derive(Clone, Copy, Default)]
pub struct Pair {
    pub key: u64,
    pub value: u64,
}

// The results of calls that change a map, as the header numbers them.
pub const ABSENT: u32 = 0;
pub const REMOVED: u32 = 1;
pub const ADDED: u32 = 3;
pub const REPLACED: u32 = 4;

extern "C" {
    pub fn bptree_new(map: &mut Handle) -> bool;
    pub fn bptree_clone(map: &Handle, to: &mut Handle) -> bool;
    pub fn bptree_free(map: &mut Handle);
    pub fn bptree_clear(map: &mut Handle) -> bool;
    pub fn bptree_load(map: &mut Handle, given: *const Pair, n: usize) -> bool;
    pub fn bptree_len(map: &Handle) -> usize;
    pub fn bptree_contains(map: &Handle, key: u64) -> bool;
    pub fn bptree_get(map: &Handle, key: u64, value: &mut u64) -> bool;
    pub fn bptree_first(map: &Handle, pair: &mut Pair) -> bool;
    pub fn bptree_last(map: &Handle, pair: &mut Pair) -> bool;
    pub fn bptree_next(map: &Handle, key: u64, pair: &mut Pair) -> bool;
    pub fn bptree_prev(map: &Handle, key: u64, pair: &mut Pair) -> bool;
    pub fn bptree_at(map: &Handle, index: usize, pair: &mut Pair) -> bool;
    pub fn bptree_rank(map: &Handle, key: u64, rank: &mut usize) -> bool;
    pub fn bptree_range_len(map: &Handle, from: u64, to: u64) -> usize;
    pub fn bptree_put(map: &mut Handle, key: u64, value: u64, old: &mut u64) -> u32;
    pub fn bptree_del(map: &mut Handle, key: u64, old: &mut u64) -> u32;
    pub fn bptree_del_at(map: &mut Handle, index: usize, pair: &mut Pair) -> u32;
    pub fn bptree_pop_first(map: &mut Handle, pair: &mut Pair) -> u32;
    pub fn bptree_pop_last(map: &mut Handle, pair: &mut Pair) -> u32;
    pub fn bptree_range(map: &Handle, from: u64, out: *mut Pair, n: usize) -> usize;
    pub fn bptree_range_back(map: &Handle, from: u64, out: *mut Pair, n: usize) -> usize;
    pub fn bptree_page(map: &Handle, number: usize, out: *mut Pair, n: usize) -> usize;

    pub fn bptree_dict_new(dict: &mut Handle) -> bool;
    pub fn bptree_dict_free(dict: &mut Handle);
    pub fn bptree_dict_len(dict: &Handle) -> usize;
    pub fn bptree_dict_get(dict: &Handle, key: *const u8, n: usize, value: &mut u64) -> bool;
    pub fn bptree_dict_rank(dict: &Handle, key: *const u8, n: usize, rank: &mut usize) -> bool;
    pub fn bptree_dict_put(
        dict: &mut Handle,
        key: *const u8,
        n: usize,
        value: u64,
        old: &mut u64,
    ) -> u32;
    pub fn bptree_dict_del(dict: &mut Handle, key: *const u8, n: usize, old: &mut u64) -> u32;
    pub fn bptree_dict_del_at(dict: &mut Handle, index: usize, old: &mut u64) -> u32;
    pub fn bptree_dict_values(dict: &Handle, index: usize, out: *mut u64, n: usize) -> usize;
}
