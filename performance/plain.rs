//! SHA-256, HMAC-SHA-256 and the store's check in plain Rust, to measure the proved code against.
//!
//! The method is the proved code's: a schedule of 64 words for each block, 64 rounds, the message read
//! where it lies, a tag of four compressions, a check that takes every address in use and puts it again.
//! The style is that of a good Rust programmer: simple loops, no unsafe code, no crates.

const K: [u32; 64] = [
    0x428a2f98, 0x71374491, 0xb5c0fbcf, 0xe9b5dba5, 0x3956c25b, 0x59f111f1, 0x923f82a4, 0xab1c5ed5,
    0xd807aa98, 0x12835b01, 0x243185be, 0x550c7dc3, 0x72be5d74, 0x80deb1fe, 0x9bdc06a7, 0xc19bf174,
    0xe49b69c1, 0xefbe4786, 0x0fc19dc6, 0x240ca1cc, 0x2de92c6f, 0x4a7484aa, 0x5cb0a9dc, 0x76f988da,
    0x983e5152, 0xa831c66d, 0xb00327c8, 0xbf597fc7, 0xc6e00bf3, 0xd5a79147, 0x06ca6351, 0x14292967,
    0x27b70a85, 0x2e1b2138, 0x4d2c6dfc, 0x53380d13, 0x650a7354, 0x766a0abb, 0x81c2c92e, 0x92722c85,
    0xa2bfe8a1, 0xa81a664b, 0xc24b8b70, 0xc76c51a3, 0xd192e819, 0xd6990624, 0xf40e3585, 0x106aa070,
    0x19a4c116, 0x1e376c08, 0x2748774c, 0x34b0bcb5, 0x391c0cb3, 0x4ed8aa4a, 0x5b9cca4f, 0x682e6ff3,
    0x748f82ee, 0x78a5636f, 0x84c87814, 0x8cc70208, 0x90befffa, 0xa4506ceb, 0xbef9a3f7, 0xc67178f2,
];

const H0: [u32; 8] = [
    0x6a09e667, 0xbb67ae85, 0x3c6ef372, 0xa54ff53a, 0x510e527f, 0x9b05688c, 0x1f83d9ab, 0x5be0cd19,
];

fn compress(h: &mut [u32; 8], block: &[u8; 64]) {
    let mut w = [0u32; 64];
    for (word, bytes) in w.iter_mut().zip(block.chunks_exact(4)) {
        *word = u32::from_be_bytes([bytes[0], bytes[1], bytes[2], bytes[3]]);
    }
    for t in 16..64 {
        let s0 = w[t - 15].rotate_right(7) ^ w[t - 15].rotate_right(18) ^ (w[t - 15] >> 3);
        let s1 = w[t - 2].rotate_right(17) ^ w[t - 2].rotate_right(19) ^ (w[t - 2] >> 10);
        w[t] = s1
            .wrapping_add(w[t - 7])
            .wrapping_add(s0)
            .wrapping_add(w[t - 16]);
    }
    let [mut a, mut b, mut c, mut d, mut e, mut f, mut g, mut i] = *h;
    for t in 0..64 {
        let s1 = e.rotate_right(6) ^ e.rotate_right(11) ^ e.rotate_right(25);
        let ch = (e & f) ^ (!e & g);
        let t1 = i
            .wrapping_add(s1)
            .wrapping_add(ch)
            .wrapping_add(K[t])
            .wrapping_add(w[t]);
        let s0 = a.rotate_right(2) ^ a.rotate_right(13) ^ a.rotate_right(22);
        let maj = (a & b) ^ (a & c) ^ (b & c);
        let t2 = s0.wrapping_add(maj);
        i = g;
        g = f;
        f = e;
        e = d.wrapping_add(t1);
        d = c;
        c = b;
        b = a;
        a = t1.wrapping_add(t2);
    }
    for (x, y) in h.iter_mut().zip([a, b, c, d, e, f, g, i]) {
        *x = x.wrapping_add(y);
    }
}

/// Takes the rest of a message of `total` bytes into the hash, with the padding.
fn finish(h: &mut [u32; 8], total: usize, rest: &[u8]) {
    let mut blocks = rest.chunks_exact(64);
    for block in &mut blocks {
        compress(h, block.try_into().unwrap());
    }
    let tail = blocks.remainder();
    let mut last = [0u8; 64];
    last[..tail.len()].copy_from_slice(tail);
    last[tail.len()] = 0x80;
    if tail.len() >= 56 {
        compress(h, &last);
        last = [0u8; 64];
    }
    last[56..].copy_from_slice(&(8 * total as u64).to_be_bytes());
    compress(h, &last);
}

fn bytes(h: &[u32; 8]) -> [u8; 32] {
    let mut out = [0u8; 32];
    for (to, word) in out.chunks_exact_mut(4).zip(h) {
        to.copy_from_slice(&word.to_be_bytes());
    }
    out
}

/// The digest of up to 8,192 bytes into 32: 0, or 10 where a size is wrong.
pub fn digest(message: &[u8], out: &mut [u8]) -> u8 {
    if message.len() > 8192 || out.len() != 32 {
        return 10;
    }
    let mut h = H0;
    finish(&mut h, message.len(), message);
    out.copy_from_slice(&bytes(&h));
    0
}

/// The hash after the block of a key with `pad` in each byte.
fn keyed(block: &[u8; 64], pad: u8) -> [u32; 8] {
    let mut padded = *block;
    for byte in &mut padded {
        *byte ^= pad;
    }
    let mut h = H0;
    compress(&mut h, &padded);
    h
}

fn hmac(block: &[u8; 64], message: &[u8]) -> [u8; 32] {
    let mut inner = keyed(block, 0x36);
    finish(&mut inner, 64 + message.len(), message);
    let mut outer = keyed(block, 0x5c);
    finish(&mut outer, 96, &bytes(&inner));
    bytes(&outer)
}

/// The HMAC of up to 4,096 bytes under a key of up to 1,024 into 32: 0, or 10 where a size is wrong.
pub fn mac(key: &[u8], message: &[u8], out: &mut [u8]) -> u8 {
    if key.len() > 1024 || message.len() > 4096 || out.len() != 32 {
        return 10;
    }
    let mut block = [0u8; 64];
    if key.len() > 64 {
        let mut h = H0;
        finish(&mut h, key.len(), key);
        block[..32].copy_from_slice(&bytes(&h));
    } else {
        block[..key.len()].copy_from_slice(key);
    }
    out.copy_from_slice(&hmac(&block, message));
    0
}

/// The HMAC of a message of 33 bytes under a key of 32.
fn tag(key: &[u8; 32], message: &[u8; 33]) -> [u8; 32] {
    let mut block = [0u8; 64];
    block[..32].copy_from_slice(key);
    hmac(&block, message)
}

const ADDRESSES: usize = 1024;
const VALUE: usize = 28;
const CELL: usize = VALUE + 2;

#[derive(Clone, PartialEq)]
struct Hash {
    tag: [u8; 32],
    number: u32,
}

impl Hash {
    const EMPTY: Hash = Hash {
        tag: [0; 32],
        number: 0,
    };

    fn add(&mut self, tag: &[u8; 32]) {
        for (x, y) in self.tag.iter_mut().zip(tag) {
            *x ^= y;
        }
        self.number = self.number.wrapping_add(1);
    }
}

/// What a check says: that it accepts, or why it rejects.
#[derive(PartialEq)]
pub enum Verdict {
    Accept,
    Stamp(u16),
    Tag,
}

/// The trusted state.
#[derive(Clone)]
pub struct State {
    key: [u8; 32],
    put: Hash,
    take: Hash,
    clock: u16,
    fault: bool,
    first: u16,
    closed: bool,
    marks: [u64; ADDRESSES / 64],
}

impl State {
    pub fn start(key: &[u8; 32]) -> State {
        State {
            key: *key,
            put: Hash::EMPTY,
            take: Hash::EMPTY,
            clock: 0,
            fault: false,
            first: 0,
            closed: false,
            marks: [0; ADDRESSES / 64],
        }
    }

    fn used(&self, a: usize) -> bool {
        self.marks[a / 64] >> (a % 64) & 1 == 1
    }

    /// The addresses in use, lowest first.
    fn addresses(&self) -> impl Iterator<Item = usize> {
        self.marks.into_iter().enumerate().flat_map(|(i, word)| {
            let mut left = word;
            std::iter::from_fn(move || {
                let bit = left.trailing_zeros() as usize;
                if bit == 64 {
                    return None;
                }
                left &= left - 1;
                Some(64 * i + bit)
            })
        })
    }

    fn tag_of(&self, a: usize, cell: &[u8]) -> [u8; 32] {
        let mut message = [0u8; 33];
        message[0] = 1;
        message[1..3].copy_from_slice(&(a as u16).to_be_bytes());
        message[3..].copy_from_slice(cell);
        tag(&self.key, &message)
    }

    fn take_at(&mut self, store: &[u8], a: usize) {
        let cell = &store[CELL * a..CELL * a + CELL];
        let stamp = u16::from_be_bytes([cell[VALUE], cell[VALUE + 1]]);
        if stamp > self.clock && !self.fault {
            self.fault = true;
            self.first = a as u16;
        }
        let tag = self.tag_of(a, cell);
        self.take.add(&tag);
    }

    /// Puts the value that the cell holds with this stamp.
    fn put_at(&mut self, store: &mut [u8], a: usize, stamp: u16) {
        let cell = &mut store[CELL * a..CELL * a + CELL];
        cell[VALUE..].copy_from_slice(&stamp.to_be_bytes());
        let tag = self.tag_of(a, cell);
        self.put.add(&tag);
        self.clock = stamp;
    }

    /// Adds a value at an address: 0, or the number of what refuses it.
    pub fn add(&mut self, store: &mut [u8], a: usize, value: &[u8]) -> u8 {
        if self.closed {
            return 7;
        }
        if store.len() != CELL * ADDRESSES {
            return 1;
        }
        if a >= ADDRESSES {
            return 2;
        }
        if value.len() != VALUE {
            return 3;
        }
        if self.used(a) {
            return 4;
        }
        if self.clock == u16::MAX {
            return 6;
        }
        store[CELL * a..CELL * a + VALUE].copy_from_slice(value);
        self.put_at(store, a, self.clock + 1);
        self.marks[a / 64] |= 1 << (a % 64);
        0
    }

    /// Whether the store is what was put: the verdict, or the number of what refuses it.
    pub fn check(&mut self, store: &mut [u8]) -> Result<Verdict, u8> {
        if self.closed {
            return Err(7);
        }
        if store.len() != CELL * ADDRESSES {
            return Err(1);
        }
        let mut taken = self.clone();
        for a in self.addresses() {
            taken.take_at(store, a);
        }
        if taken.put != taken.take || taken.fault {
            self.closed = true;
            return Ok(if taken.fault { Verdict::Stamp(taken.first) } else { Verdict::Tag });
        }
        self.put = Hash::EMPTY;
        self.take = Hash::EMPTY;
        self.clock = 1;
        for a in self.addresses() {
            self.put_at(store, a, 1);
        }
        Ok(Verdict::Accept)
    }
}

/// A start, a value added at the first addresses, as many as `cells`, and then so many checks: does the last one accept?
pub fn checks(key: &[u8; 32], store: &mut [u8], value: &[u8], cells: usize, times: usize) -> bool {
    let mut state = State::start(key);
    for a in 0..cells {
        state.add(store, a, value);
    }
    let mut last = false;
    for _ in 0..times {
        last = state.check(store) == Ok(Verdict::Accept);
    }
    last
}
