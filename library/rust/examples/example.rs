//! A value added, loaded and checked; a mirror that goes back to an older cell; one that makes up a stamp; and serials that go round. docs/CALLING.md,
//! "An example".
use pintlecup::{Action, Family, Filter, Going, Refusal, State, Verdict, CELL, KEY, STORE, VALUE};

fn number<T>(answer: Result<T, Refusal>) -> u8 {
    answer.map_or_else(Refusal::number, |_| 0)
}

fn said(answer: Result<Verdict, Refusal>) -> String {
    match answer {
        Ok(Verdict::Accept) => "accept".to_string(),
        Ok(Verdict::Stamp(address)) => format!("reject stamp {address}"),
        Ok(Verdict::Tag) => "reject tag".to_string(),
        Err(_) => "nothing".to_string(),
    }
}

fn compared(going: Going) -> String {
    match going {
        Going::Forward(distance) => format!("forward {distance}"),
        Going::Back(distance) => format!("back {distance}"),
        Going::OtherMember => "other member".to_string(),
        Going::NoOrder => "no order".to_string(),
    }
}

fn main() -> Result<(), Refusal> {
    let mut key = [0u8; KEY]; // secret: yours comes from a source of randomness
    for (i, byte) in key.iter_mut().enumerate() {
        *byte = i as u8;
    }
    let mut mirror = vec![0u8; STORE];
    let mut state = State::start(&key)?;
    println!("start 0");

    let mut prefix = [0; 16];
    prefix[..3].copy_from_slice(&[192, 0, 2]);
    let filter =
        Filter { family: Family::Ipv4, action: Action::Permit, length: 24, longest: 24, member: 64496, serial: 7, prefix };
    let value = filter.pack()?;
    println!("pack 0");

    let address = state.lowest_free()?;
    println!("lowest free 0, at {address}");
    let mut lent = state.lend(&mut mirror);
    println!("add {}", number(lent.add(address, &value)));
    println!("look {}", i32::from(lent.look(address) != Some(&value)));

    let out = lent.load(address)?;
    println!("load 0");
    println!("check {}", said(lent.check()));
    let loaded = Filter::unpack(&out)?;
    println!("unpack 0, AS {}, serial {}", loaded.member, loaded.serial);

    // a newer filter, and a mirror that hands out the cell that it had before
    let cell = CELL * address..CELL * address + CELL;
    let older = mirror[cell.clone()].to_vec();
    let newer = Filter { serial: 8, ..filter };
    let value = newer.pack()?;
    println!("pack 0");
    println!("store {}", number(state.lend(&mut mirror).store(address, &value)));
    mirror[cell].copy_from_slice(&older);
    let mut lent = state.lend(&mut mirror);
    let out = lent.load(address)?;
    println!("load 0");
    println!("unpack 0, {}", compared(newer.compare(&Filter::unpack(&out)?)));
    println!("check {}", said(lent.check()));
    println!("load {}", number(lent.load(address)));

    // a new start, and a mirror that hands out a stamp which is yet to come
    let mut state = State::start(&key)?;
    println!("start 0");
    println!("add {}", number(state.lend(&mut mirror).add(5, &value)));
    mirror[CELL * 5 + VALUE] = 1;
    let mut lent = state.lend(&mut mirror);
    println!("load {}", number(lent.load(5)));
    println!("check {}", said(lent.check()));

    // a member's serials that have gone past the last one, one half way round, and another member
    let (last, next) = (Filter { serial: u32::MAX, ..filter }, Filter { serial: 0, ..filter });
    println!("{}", compared(last.compare(&next)));
    println!("{}", compared(next.compare(&last)));
    println!("{}", compared(last.compare(&Filter { serial: 2147483647, ..filter })));
    println!("{}", compared(last.compare(&Filter { member: 64497, ..filter })));
    Ok(())
}
