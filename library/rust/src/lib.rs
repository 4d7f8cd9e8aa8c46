//! Up to 1,024 values of 28 bytes in a store that nobody trusts, beside a small trusted state; a check that accepts only if no load since the start was
//! lied to, or if hashes have collided; SHA-256, HMAC, and the filter record.
//!
//! Each call is one of the proved library, under its C name. A [`State`] cannot be copied, so there is no older one to go back to; to make calls it is
//! lent together with the store, and the two stay together for as long as [`Lent`] lives. Between two lendings anything may happen to the store.
//!
//! The state is secret, and so is its key: how long a call takes is not promised to tell nothing of them, and nothing is wiped from memory.
#![no_std]
#![deny(unsafe_op_in_unsafe_fn, missing_docs)]

mod calls;

use core::fmt;

/// Bytes of a key.
pub const KEY: usize = 32;
/// Bytes of a value, and of a filter record.
pub const VALUE: usize = 28;
/// Bytes of a cell: a value and its stamp.
pub const CELL: usize = 30;
/// How many addresses there are: 0 to 1,023.
pub const ADDRESSES: usize = 1024;
/// Bytes of a store.
pub const STORE: usize = CELL * ADDRESSES;
/// Bytes of a digest and of an HMAC.
pub const DIGEST: usize = 32;

/// Why a call was refused. A refused call changes nothing.
#[derive(Clone, Copy, PartialEq, Eq, Debug)]
#[repr(u8)]
pub enum Refusal {
    /// The store is not 30,720 bytes.
    Store = 1,
    /// The address is above 1,023.
    Address = 2,
    /// The value is not 28 bytes: no call of this crate gives it.
    Value = 3,
    /// The address is in use.
    InUse = 4,
    /// The address is not in use.
    NotInUse = 5,
    /// The clock is used up: a check that accepts sets it back.
    Clock = 6,
    /// The state is closed, by a check that rejected.
    Closed = 7,
    /// The key is not 32 bytes.
    Key = 8,
    /// Every address is in use.
    Full = 9,
    /// An input of a digest or an HMAC is above its bound.
    Size = 10,
    /// The bytes of a filter record are not 28.
    Filter = 11,
    /// A spare bit is set.
    Spare = 12,
    /// The lengths are not lawful.
    Lengths = 13,
    /// A bit past the prefix length is set.
    PastPrefix = 14,
    /// The member number is 0.
    Member = 15,
}

const REFUSALS: [Refusal; 15] = [
    Refusal::Store,
    Refusal::Address,
    Refusal::Value,
    Refusal::InUse,
    Refusal::NotInUse,
    Refusal::Clock,
    Refusal::Closed,
    Refusal::Key,
    Refusal::Full,
    Refusal::Size,
    Refusal::Filter,
    Refusal::Spare,
    Refusal::Lengths,
    Refusal::PastPrefix,
    Refusal::Member,
];

const _: () = {
    let mut i = 0;
    while i < REFUSALS.len() {
        assert!(REFUSALS[i] as usize == i + 1);
        i += 1;
    }
};

impl Refusal {
    /// Its number in the rules.
    pub fn number(self) -> u8 {
        self as u8
    }
}

impl fmt::Display for Refusal {
    fn fmt(&self, f: &mut fmt::Formatter) -> fmt::Result {
        write!(f, "refused by {}: {self:?}", self.number())
    }
}

/// What a call's number says.
fn done(number: u8) -> Result<(), Refusal> {
    match number {
        0 => Ok(()),
        n => Err(REFUSALS[usize::from(n) - 1]),
    }
}

/// What a check says: that it accepts, or why it rejects. A reject says that the store lied, at some load, store or remove, or at the check: use nothing
/// loaded since the last accept. The state is closed for good.
#[derive(Clone, Copy, PartialEq, Eq, Debug)]
#[must_use]
pub enum Verdict {
    /// Every load so far gave what was last added or stored at its address, or hashes have collided.
    Accept,
    /// A reject: at this address a stamp was ahead of the clock: when it was taken, nothing put since the last accept had reached it; of several since then, the one
    /// that was taken first.
    Stamp(usize),
    /// A reject: no stamp was ahead of the clock, and what was taken is not what was put.
    Tag,
}

/// The trusted state: 240 bytes, to be kept secret.
pub struct State(calls::State);

impl State {
    /// A state under a secret key of 32 bytes, with no address in use.
    pub fn start(key: &[u8]) -> Result<State, Refusal> {
        let (number, state) = calls::start(key);
        done(number).map(|()| State(state))
    }

    /// The state with a store, for some calls.
    pub fn lend<'a>(&'a mut self, store: &'a mut [u8]) -> Lent<'a> {
        Lent { state: &mut self.0, store }
    }

    /// How many addresses are in use.
    pub fn count(&self) -> u32 {
        calls::count(&self.0)
    }

    /// The smallest address that is not in use.
    pub fn lowest_free(&self) -> Result<usize, Refusal> {
        let (number, address) = calls::lowest_free(&self.0);
        done(number).map(|()| address)
    }
}

/// A state, and the store that is lent to it.
pub struct Lent<'a> {
    state: &'a mut calls::State,
    store: &'a mut [u8],
}

impl Lent<'_> {
    /// Puts a value at an address that is not in use, and marks it in use.
    pub fn add(&mut self, address: usize, value: &[u8; VALUE]) -> Result<(), Refusal> {
        done(calls::add(self.state, self.store, address, value))
    }

    /// The value at an address in use: not to be used before a check accepts.
    pub fn load(&mut self, address: usize) -> Result<[u8; VALUE], Refusal> {
        let mut out = [0; VALUE];
        done(calls::load(self.state, self.store, address, &mut out)).map(|()| out)
    }

    /// Puts another value at an address in use.
    pub fn store(&mut self, address: usize, value: &[u8; VALUE]) -> Result<(), Refusal> {
        done(calls::store(self.state, self.store, address, value))
    }

    /// Takes the value at an address in use, fills its cell with zeros, and clears its mark.
    pub fn remove(&mut self, address: usize) -> Result<(), Refusal> {
        done(calls::remove(self.state, self.store, address))
    }

    /// Whether the store has told the truth.
    pub fn check(&mut self) -> Result<Verdict, Refusal> {
        match calls::check(self.state, self.store) {
            (calls::REJECTED_STAMP, address) => Ok(Verdict::Stamp(address)),
            (calls::REJECTED_TAG, _) => Ok(Verdict::Tag),
            (number, _) => done(number).map(|()| Verdict::Accept),
        }
    }

    /// The value's bytes in the store, of which nothing is known; none where the store's size or the address is refused.
    pub fn look(&self, address: usize) -> Option<&[u8; VALUE]> {
        match calls::look(self.store, address) {
            STORE => None,
            at => self.store[at..at + VALUE].try_into().ok(),
        }
    }
}

/// SHA-256 of up to 8,192 bytes.
pub fn digest(message: &[u8]) -> Result<[u8; DIGEST], Refusal> {
    let mut out = [0; DIGEST];
    done(calls::digest(message, &mut out)).map(|()| out)
}

/// HMAC-SHA-256 of up to 4,096 bytes under a key of up to 1,024.
pub fn hmac(key: &[u8], message: &[u8]) -> Result<[u8; DIGEST], Refusal> {
    let mut out = [0; DIGEST];
    done(calls::hmac(key, message, &mut out)).map(|()| out)
}

/// A filter record's family.
#[derive(Clone, Copy, PartialEq, Eq, Debug)]
#[allow(missing_docs)]
pub enum Family {
    Ipv4,
    Ipv6,
}

/// A filter record's action.
#[derive(Clone, Copy, PartialEq, Eq, Debug)]
#[allow(missing_docs)]
pub enum Action {
    Deny,
    Permit,
}

/// A filter record.
#[derive(Clone, Copy, PartialEq, Eq, Debug)]
pub struct Filter {
    /// IPv4 or IPv6.
    pub family: Family,
    /// Deny or permit.
    pub action: Action,
    /// The prefix's length, in bits.
    pub length: u8,
    /// The longest length that it takes in.
    pub longest: u8,
    /// The member's AS number.
    pub member: u32,
    /// The key's serial.
    pub serial: u32,
    /// The prefix: IPv4 has its own in the first 4 bytes.
    pub prefix: [u8; 16],
}

/// What a comparison says of an offered filter record. Serials go round: after 4,294,967,295 comes 0 (RFC 1982 with 32 bits).
#[derive(Clone, Copy, PartialEq, Eq, Debug)]
pub enum Going {
    /// Its serial is this far ahead of the one held: 0, where they are equal, to 2,147,483,647.
    Forward(i32),
    /// Its serial is so far behind the one held: -1 to -2,147,483,647.
    Back(i32),
    /// Its AS number is another; the serials are not looked at.
    OtherMember,
    /// Refused by number 16: the serials are exactly 2^31 apart, and neither is ahead.
    NoOrder,
}

impl Filter {
    /// Its 28 bytes.
    pub fn pack(&self) -> Result<[u8; VALUE], Refusal> {
        let mut out = [0; VALUE];
        done(calls::pack(&self.fields(), &mut out)).map(|()| out)
    }

    /// The filter record of 28 bytes.
    pub fn unpack(bytes: &[u8]) -> Result<Filter, Refusal> {
        let (number, f) = calls::unpack(bytes);
        done(number).map(|()| Filter {
            family: if f.family == 0 { Family::Ipv4 } else { Family::Ipv6 },
            action: if f.action == 0 { Action::Deny } else { Action::Permit },
            length: f.length,
            longest: f.longest,
            member: f.member,
            serial: f.serial,
            prefix: f.prefix,
        })
    }

    /// Of this one, which is held, and one that is offered.
    pub fn compare(&self, offered: &Filter) -> Going {
        match calls::compare(&self.fields(), &offered.fields()) {
            (0, distance) => Going::Forward(distance),
            (1, distance) => Going::Back(distance),
            (2, _) => Going::OtherMember,
            _ => Going::NoOrder,
        }
    }

    fn fields(&self) -> calls::Filter {
        calls::Filter {
            family: self.family as u8,
            action: self.action as u8,
            length: self.length,
            longest: self.longest,
            member: self.member,
            serial: self.serial,
            prefix: self.prefix,
        }
    }
}
