//! The calls under their C names, as pintlecup.h declares them, and a safe function for each. A reference is what the header asks of a pointer: to so many
//! bytes or to a struct, not null, with nothing else that writes there, and a `&mut` overlaps nothing.

/// A multiset hash.
#[repr(C)]
pub struct Hash {
    tag: [u8; 32],
    number: u32,
}

/// The trusted state.
#[repr(C)]
pub struct State {
    key: [u8; 32],
    marks: [u64; 16],
    put: Hash,
    take: Hash,
    clock: u16,
    fault: u8,
    closed: u8,
    first: u16,
    unused: u16,
}

/// A filter record: family 0 is IPv4, and action 0 is deny.
#[repr(C)]
pub struct Filter {
    pub family: u8,
    pub action: u8,
    pub length: u8,
    pub longest: u8,
    pub member: u32,
    pub serial: u32,
    pub prefix: [u8; 16],
}

const _: () = assert!(core::mem::size_of::<State>() == 240 && core::mem::align_of::<State>() == 8);
const _: () = assert!(core::mem::size_of::<Filter>() == 28 && core::mem::align_of::<Filter>() == 4);
const _: () = assert!(core::mem::size_of::<usize>() == 8);

/// What a check that rejects gives, for a stamp and for the tags.
pub const REJECTED_STAMP: u8 = 254;
pub const REJECTED_TAG: u8 = 255;

#[link(name = "pintlecup", kind = "static")]
extern "C" {
    fn pintlecup_start(state: *mut State, key: *const u8, size: usize) -> u8;
    fn pintlecup_add(state: *mut State, store: *mut u8, size: usize, address: usize, value: *const u8, value_size: usize) -> u8;
    fn pintlecup_load(state: *mut State, store: *mut u8, size: usize, address: usize, out: *mut u8, out_size: usize) -> u8;
    fn pintlecup_store(state: *mut State, store: *mut u8, size: usize, address: usize, value: *const u8, value_size: usize) -> u8;
    fn pintlecup_remove(state: *mut State, store: *mut u8, size: usize, address: usize) -> u8;
    fn pintlecup_check(state: *mut State, store: *mut u8, size: usize, address: *mut usize) -> u8;
    fn pintlecup_look(store: *const u8, size: usize, address: usize) -> usize;
    fn pintlecup_count(state: *const State) -> u32;
    fn pintlecup_lowest_free(state: *const State, address: *mut usize) -> u8;
    fn pintlecup_digest(message: *const u8, size: usize, out: *mut u8, out_size: usize) -> u8;
    fn pintlecup_hmac(key: *const u8, key_size: usize, message: *const u8, size: usize, out: *mut u8, out_size: usize) -> u8;
    fn pintlecup_pack(filter: *const Filter, out: *mut u8, out_size: usize) -> u8;
    fn pintlecup_unpack(bytes: *const u8, size: usize, filter: *mut Filter) -> u8;
    fn pintlecup_compare(held: *const Filter, offered: *const Filter, distance: *mut i32) -> u8;
}

pub fn start(key: &[u8]) -> (u8, State) {
    let none = || Hash { tag: [0; 32], number: 0 };
    let mut state =
        State { key: [0; 32], marks: [0; 16], put: none(), take: none(), clock: 0, fault: 0, closed: 1, first: 0, unused: 0 };
    let number = unsafe { pintlecup_start(&mut state, key.as_ptr(), key.len()) };
    (number, state)
}

pub fn add(state: &mut State, store: &mut [u8], address: usize, value: &[u8]) -> u8 {
    unsafe { pintlecup_add(state, store.as_mut_ptr(), store.len(), address, value.as_ptr(), value.len()) }
}

pub fn load(state: &mut State, store: &mut [u8], address: usize, out: &mut [u8]) -> u8 {
    unsafe { pintlecup_load(state, store.as_mut_ptr(), store.len(), address, out.as_mut_ptr(), out.len()) }
}

pub fn store(state: &mut State, store: &mut [u8], address: usize, value: &[u8]) -> u8 {
    unsafe { pintlecup_store(state, store.as_mut_ptr(), store.len(), address, value.as_ptr(), value.len()) }
}

pub fn remove(state: &mut State, store: &mut [u8], address: usize) -> u8 {
    unsafe { pintlecup_remove(state, store.as_mut_ptr(), store.len(), address) }
}

pub fn check(state: &mut State, store: &mut [u8]) -> (u8, usize) {
    let mut address = 0;
    let number = unsafe { pintlecup_check(state, store.as_mut_ptr(), store.len(), &mut address) };
    (number, address)
}

pub fn look(store: &[u8], address: usize) -> usize {
    unsafe { pintlecup_look(store.as_ptr(), store.len(), address) }
}

pub fn count(state: &State) -> u32 {
    unsafe { pintlecup_count(state) }
}

pub fn lowest_free(state: &State) -> (u8, usize) {
    let mut address = 0;
    let number = unsafe { pintlecup_lowest_free(state, &mut address) };
    (number, address)
}

pub fn digest(message: &[u8], out: &mut [u8]) -> u8 {
    unsafe { pintlecup_digest(message.as_ptr(), message.len(), out.as_mut_ptr(), out.len()) }
}

pub fn hmac(key: &[u8], message: &[u8], out: &mut [u8]) -> u8 {
    unsafe { pintlecup_hmac(key.as_ptr(), key.len(), message.as_ptr(), message.len(), out.as_mut_ptr(), out.len()) }
}

pub fn pack(filter: &Filter, out: &mut [u8]) -> u8 {
    unsafe { pintlecup_pack(filter, out.as_mut_ptr(), out.len()) }
}

pub fn unpack(bytes: &[u8]) -> (u8, Filter) {
    let mut filter = Filter { family: 0, action: 0, length: 0, longest: 0, member: 0, serial: 0, prefix: [0; 16] };
    let number = unsafe { pintlecup_unpack(bytes.as_ptr(), bytes.len(), &mut filter) };
    (number, filter)
}

pub fn compare(held: &Filter, offered: &Filter) -> (u8, i32) {
    let mut distance = 0;
    let number = unsafe { pintlecup_compare(held, offered, &mut distance) };
    (number, distance)
}
