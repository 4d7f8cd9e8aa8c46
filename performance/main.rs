//! Compares and measures the proved code and the plain Rust beside it. `performance/run` builds and runs this.
//!
//!     measure compare              every side gives the same answers
//!     measure works                the names of the works
//!     measure call SIDE WORK N     N calls, for a tool that counts instructions
//!     measure time                 for each work, the median nanoseconds of a call of each side, in alternation
mod plain;

/// What the library and the plain program export.
mod exported {
    extern "C" {
        pub fn pintlecup_start(state: *mut State, key: *const u8, size: usize) -> u8;
        pub fn pintlecup_add(state: *mut State, store: *mut u8, size: usize, address: usize, value: *const u8, value_size: usize) -> u8;
        pub fn pintlecup_check(state: *mut State, store: *mut u8, size: usize, address: *mut usize) -> u8;
        pub fn pintlecup_digest(message: *const u8, size: usize, out: *mut u8, room: usize) -> u8;
        pub fn pintlecup_hmac(key: *const u8, key_size: usize, message: *const u8, size: usize, out: *mut u8, room: usize) -> u8;
        pub fn plain_digest(message: *const u8, size: usize, out: *mut u8, room: usize) -> u8;
        pub fn plain_mac(key: *const u8, key_size: usize, message: *const u8, size: usize, out: *mut u8, room: usize) -> u8;
        pub fn plain_checks(key: &[u8; 32], store: *mut u8, size: usize, value: *const u8, value_size: usize, cells: usize, times: usize) -> bool;
    }

    /// The trusted state: pintlecup.h has its fields.
    pub type State = [u64; 30];
}
use exported::*;

/// A start, a value added at the first addresses, as many as `cells`, and then so many checks, by the library's calls: does the last one accept?
fn proved_checks(key: &[u8; 32], store: &mut [u8], value: &[u8], cells: usize, times: usize) -> bool {
    let mut state = [0; 30];
    let mut last = false;
    let mut address = 0;
    unsafe {
        pintlecup_start(&mut state, key.as_ptr(), key.len());
        for a in 0..cells {
            pintlecup_add(&mut state, store.as_mut_ptr(), store.len(), a, value.as_ptr(), value.len());
        }
        for _ in 0..times {
            last = pintlecup_check(&mut state, store.as_mut_ptr(), store.len(), &mut address) == 0;
        }
    }
    last
}

struct Side {
    name: &'static str,
    digest: fn(&[u8], &mut [u8]) -> u8,
    mac: fn(&[u8], &[u8], &mut [u8]) -> u8,
    checks: fn(&[u8; 32], &mut [u8], &[u8], usize, usize) -> bool,
}

const SIDES: [Side; 3] = [
    Side {
        name: "proved",
        digest: |m, o| unsafe { pintlecup_digest(m.as_ptr(), m.len(), o.as_mut_ptr(), o.len()) },
        mac: |k, m, o| unsafe { pintlecup_hmac(k.as_ptr(), k.len(), m.as_ptr(), m.len(), o.as_mut_ptr(), o.len()) },
        checks: proved_checks,
    },
    Side {
        name: "plain",
        digest: |m, o| unsafe { plain_digest(m.as_ptr(), m.len(), o.as_mut_ptr(), o.len()) },
        mac: |k, m, o| unsafe { plain_mac(k.as_ptr(), k.len(), m.as_ptr(), m.len(), o.as_mut_ptr(), o.len()) },
        checks: |k, s, v, cells, times| unsafe {
            plain_checks(k, s.as_mut_ptr(), s.len(), v.as_ptr(), v.len(), cells, times)
        },
    },
    Side {
        name: "rustc",
        digest: plain::digest,
        mac: plain::mac,
        checks: plain::checks,
    },
];

const STORE: usize = 30720;

/// A value that the compiler cannot know.
fn unknown<T: Copy>(value: T) -> T {
    unsafe { std::ptr::read_volatile(&value) }
}

/// A work, what n calls of it are, and how many calls are timed together.
struct Work {
    name: &'static str,
    turn: usize,
    run: fn(&Side, &[u8], usize),
}

const WORKS: [Work; 6] = [
    Work {
        name: "digest-8192",
        turn: 4,
        run: |side, text, n| {
            let mut out = [0u8; 32];
            for _ in 0..n {
                (side.digest)(&text[..8192], &mut out);
            }
        },
    },
    Work {
        name: "hmac-33",
        turn: 100,
        run: |side, text, n| {
            let mut out = [0u8; 32];
            for _ in 0..n {
                (side.mac)(&text[..32], &text[32..65], &mut out);
            }
        },
    },
    Work {
        name: "check-1",
        turn: 100,
        run: |side, text, n| check(side, text, 1, n),
    },
    Work {
        name: "check-64",
        turn: 2,
        run: |side, text, n| check(side, text, 64, n),
    },
    Work {
        name: "check-256",
        turn: 1,
        run: |side, text, n| check(side, text, 256, n),
    },
    Work {
        name: "check-1024",
        turn: 1,
        run: |side, text, n| check(side, text, 1024, n),
    },
];

/// n checks, one after the other, of a store with so many cells in use.
fn check(side: &Side, text: &[u8], cells: usize, n: usize) {
    let key = text[..32].try_into().unwrap();
    assert!((side.checks)(&key, &mut [0u8; STORE], &text[32..60], cells, n));
}

/// Bytes with no pattern in them.
fn text() -> Vec<u8> {
    let mut x = 12345u32;
    let mut next = || {
        x = x.wrapping_mul(1664525).wrapping_add(1013904223);
        (x >> 24) as u8
    };
    (0..STORE + 1).map(|_| next()).collect()
}

/// Does every side give the same answer, and leave the same bytes in the buffer lent?
fn agree<T: PartialEq>(buffer: &[u8], call: impl Fn(&Side, &mut [u8]) -> T) -> bool {
    let one = |side: &Side| {
        let mut lent = buffer.to_vec();
        (call(side, &mut lent), lent)
    };
    let first = one(&SIDES[0]);
    SIDES[1..].iter().all(|side| one(side) == first)
}

fn compare(text: &[u8]) -> bool {
    let mut compared = 0;
    let mut differ = 0;
    let mut hold = |same: bool, what: String| {
        compared += 1;
        if !same {
            println!("answers differ: {what}");
            differ += 1;
        }
    };
    for size in (0..=320).chain((320..=8192).step_by(97)).chain(8190..=8194) {
        for room in [31, 32, 33] {
            hold(
                agree(&text[..room], |side, out| (side.digest)(&text[..size], out)),
                format!("digest of {size} into {room}"),
            );
        }
    }
    for key in (0..=140).step_by(4).chain(63..=65).chain(1022..=1026) {
        for size in (0..=200).step_by(9).chain(54..=66).chain(4094..=4098) {
            for room in [31, 32, 33] {
                hold(
                    agree(&text[..room], |side, out| (side.mac)(&text[5..5 + key], &text[50..50 + size], out)),
                    format!("HMAC under {key} of {size} into {room}"),
                );
            }
        }
    }
    let key = text[7..39].try_into().unwrap();
    for (cells, times) in [(0, 0), (0, 2), (1, 1), (1, 3), (63, 2), (64, 2), (65, 2), (1023, 1), (1024, 2), (1025, 1)] {
        for (size, value) in [(STORE, 28), (STORE - 1, 28), (STORE + 1, 28), (STORE, 27), (STORE, 29)] {
            hold(
                agree(&text[..size], |side, store| (side.checks)(&key, store, &text[..value], cells, times)),
                format!("{times} checks of {cells} cells, a store of {size}, a value of {value}"),
            );
        }
    }
    println!("{compared} answers compared, {differ} differ");
    differ == 0
}

/// This process's own time on the processor, in nanoseconds: what other processes take is not in it.
fn clock() -> f64 {
    extern "C" {
        fn clock_gettime(clock: i32, time: &mut [i64; 2]) -> i32;
    }
    let mut time = [0i64; 2];
    assert_eq!(unsafe { clock_gettime(2, &mut time) }, 0);
    time[0] as f64 * 1e9 + time[1] as f64
}

/// The nanoseconds of a call: those of some calls and one, less those of one.
fn nanoseconds(work: &Work, side: &Side, text: &[u8]) -> f64 {
    let one = |n: usize| {
        let begin = clock();
        (work.run)(unknown(side), unknown(text), n);
        clock() - begin
    };
    (one(work.turn + 1) - one(1)) / work.turn as f64
}

fn median(times: &mut [f64]) -> f64 {
    times.sort_by(f64::total_cmp);
    times[times.len() / 2]
}

fn time(text: &[u8], turns: usize) {
    for work in &WORKS {
        let mut times = vec![Vec::new(); SIDES.len()];
        for _ in 0..turns {
            for (side, times) in SIDES.iter().zip(&mut times) {
                times.push(nanoseconds(work, side, text));
            }
        }
        print!("{}", work.name);
        for times in &mut times {
            print!(" {:.0}", median(times));
        }
        println!();
    }
}

fn main() {
    let words: Vec<String> = std::env::args().skip(1).collect();
    let words: Vec<&str> = words.iter().map(|word| word.as_str()).collect();
    let text = text();
    match words[..] {
        ["compare"] => std::process::exit(if compare(&text) { 0 } else { 1 }),
        ["works"] => WORKS.iter().for_each(|work| println!("{}", work.name)),
        ["time"] => time(&text, 301),
        ["call", side, work, n] => {
            let side = SIDES.iter().find(|s| s.name == side).expect("a side's name");
            let work = WORKS.iter().find(|w| w.name == work).expect("a work's name");
            (work.run)(unknown(side), unknown(&text), n.parse().expect("a number"));
        }
        _ => panic!("measure compare | works | time | call SIDE WORK N"),
    }
}
