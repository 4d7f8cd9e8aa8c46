//! The plain Rust functions under C names: the module that the toolchain's LLVM optimises.
mod plain;

use std::slice::{from_raw_parts, from_raw_parts_mut};

#[no_mangle]
pub unsafe extern "C" fn plain_digest(message: *const u8, size: usize, out: *mut u8, room: usize) -> u8 {
    plain::digest(from_raw_parts(message, size), from_raw_parts_mut(out, room))
}

#[no_mangle]
pub unsafe extern "C" fn plain_mac(
    key: *const u8,
    key_size: usize,
    message: *const u8,
    size: usize,
    out: *mut u8,
    room: usize,
) -> u8 {
    plain::mac(
        from_raw_parts(key, key_size),
        from_raw_parts(message, size),
        from_raw_parts_mut(out, room),
    )
}

#[no_mangle]
pub unsafe extern "C" fn plain_checks(
    key: &[u8; 32],
    store: *mut u8,
    size: usize,
    value: *const u8,
    value_size: usize,
    cells: usize,
    times: usize,
) -> bool {
    plain::checks(
        key,
        from_raw_parts_mut(store, size),
        from_raw_parts(value, value_size),
        cells,
        times,
    )
}
