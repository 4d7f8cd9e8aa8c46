//! What the crate refuses, each by its number. (Two numbers are not met here: a value has 28 bytes by its type, and the clock takes 65,535 puts. And 16 is
//! no `Refusal`: a comparison says `NoOrder`.)
use pintlecup::{digest, hmac, Action, Family, Filter, Going, Refusal, State, Verdict, ADDRESSES, STORE, VALUE};

fn main() {
    let value = [7; VALUE];
    let mut mirror = vec![0; STORE];
    let mut state = State::start(&[1; 32]).unwrap();
    let mut met = vec![State::start(&[1; 31]).err()];

    let mut lent = state.lend(&mut mirror);
    met.push(lent.add(ADDRESSES, &value).err());
    met.push(lent.load(5).err());
    assert_eq!(lent.add(5, &value), Ok(()));
    met.push(lent.add(5, &value).err());
    assert_eq!(lent.look(5), Some(&value));
    assert_eq!(lent.look(ADDRESSES), None);
    assert_eq!(lent.load(5), Ok(value));
    assert_eq!(lent.store(5, &[8; VALUE]), Ok(()));
    assert_eq!(lent.remove(5), Ok(()));
    assert_eq!(lent.check(), Ok(Verdict::Accept));

    // a store of another size is refused, and nothing is looked at in it
    for size in [0, STORE - 1, STORE + 1, STORE + 100] {
        let mut other = vec![0; size];
        met.push(state.lend(&mut other).check().err());
        assert_eq!(state.lend(&mut other).look(5), None);
    }

    for a in 0..ADDRESSES {
        assert_eq!(state.lowest_free(), Ok(a));
        assert_eq!(state.lend(&mut mirror).add(a, &value), Ok(()));
    }
    assert_eq!(state.count(), 1024);
    met.push(state.lowest_free().err());

    mirror[0] ^= 1;
    assert_eq!(state.lend(&mut mirror).check(), Ok(Verdict::Tag));
    met.push(state.lend(&mut mirror).check().err());

    assert!(digest(&[0; 8192]).is_ok() && hmac(&[0; 1024], &[0; 4096]).is_ok());
    met.push(digest(&[0; 8193]).err());
    met.push(hmac(&[0; 1025], &[]).err());

    let mut prefix = [0; 16];
    prefix[0] = 10;
    let lawful = Filter { family: Family::Ipv4, action: Action::Deny, length: 8, longest: 24, member: 64496, serial: 7, prefix };
    let bytes = lawful.pack().unwrap();
    assert_eq!(Filter::unpack(&bytes), Ok(lawful));
    let mut spare = bytes;
    spare[3] = 1;
    met.push(Filter::unpack(&bytes[1..]).err());
    met.push(Filter::unpack(&spare).err());
    met.push(Filter { longest: 33, ..lawful }.pack().err());
    met.push(Filter { length: 4, ..lawful }.pack().err());
    met.push(Filter { member: 0, ..lawful }.pack().err());

    // serials at the edges of the order: equal, the farthest each way, and one between these
    for (serial, going) in [
        (7, Going::Forward(0)),
        (7 + i32::MAX as u32, Going::Forward(i32::MAX)),
        (8 + i32::MAX as u32, Going::NoOrder),
        (9 + i32::MAX as u32, Going::Back(-i32::MAX)),
    ] {
        assert_eq!(lawful.compare(&Filter { serial, ..lawful }), going);
        assert_eq!(lawful.compare(&Filter { serial, member: 1, ..lawful }), Going::OtherMember);
    }

    let mut numbers: Vec<u8> = met.into_iter().map(|one| one.map_or(0, Refusal::number)).collect();
    numbers.sort();
    numbers.dedup();
    println!("{numbers:?}");
}
