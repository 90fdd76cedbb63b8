//! Rust's BTreeMap from folded label to value. The label sought is folded once.
use std::collections::BTreeMap;
use std::slice::from_raw_parts;

type Map = BTreeMap<Vec<u8>, u16>;

/// The bytes of a label at most.
const WIDTH: usize = 64;

#[no_mangle]
pub extern "C" fn btree_new() -> *mut Map {
    Box::into_raw(Box::default())
}

/// # Safety
/// `map` is from `btree_new`, and `label` points at `n` bytes.
#[no_mangle]
pub unsafe extern "C" fn btree_insert(map: *mut Map, label: *const u8, n: usize, value: u16) {
    (*map).insert(from_raw_parts(label, n).to_ascii_lowercase(), value);
}

/// # Safety
/// `map` is from `btree_new`, and `label` points at `n` bytes.
#[no_mangle]
pub unsafe extern "C" fn btree_search(map: *const Map, label: *const u8, n: usize) -> u64 {
    let mut buffer = [0; WIDTH];
    let Some(sought) = buffer.get_mut(..n) else { return 0 };
    sought.copy_from_slice(from_raw_parts(label, n));
    buffer.make_ascii_lowercase();
    (*map).get(&buffer[..n]).map_or(0, |value| u64::from(*value) + 1)
}
