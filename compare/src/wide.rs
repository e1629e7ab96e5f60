//! Requests of the widest range: builders and beacons with long areas, all lengths that a header can be asked to hold, long filter lists, and any
//! octet where the answer turns on a few of its values.
use crate::device;
use crate::inputs::{area, damage, long_filter};
use crate::made::{filters, Each, Share};
use crate::request::{Kind, Request, CALL};
use crate::rng::Rng;
use crate::scanner::{heard, lived};

/// Builders and beacons with areas of 0 to 300 octets; each time also a builder of any number.
pub fn built(share: &Share, rounds: u64, each: Each) {
    let mut rng = share.rng(14);
    for round in 0..rounds {
        for len in (0..=300).filter(|n| share.has(*n + round)) {
            let mut a = area(&mut rng, len as usize);
            if rng.one_in(4) {
                damage(&mut rng, &mut a);
            }
            let own = rng.octets(6);
            for which in (0..6).chain([rng.octet() as u64]) {
                each(&Request::new(Kind::Build, &[which, rng.bit()], &[&own, &a]));
            }
            let space = rng.below(64) as u64;
            each(&Request::new(Kind::Beacon, &[rng.bit(), space], &[&own, &a]));
        }
    }
}

/// Records of any kind's number written, with enough space or not.
pub fn writers(share: &Share, rounds: u64, each: Each) {
    let mut rng = share.rng(15);
    for round in 0..rounds {
        for kind in (0..=255).filter(|k| share.has(*k + round)) {
            let len = if rng.one_in(8) { 240 + rng.below(30) } else { rng.below(40) };
            let (start, at) = (rng.below(3), rng.below(4) as u64);
            let space = if rng.one_in(4) { rng.below(12) } else { 12 + len };
            let value = rng.next() & 0xFFFF;
            let numbers = [kind, rng.bit(), value, start as u64, len as u64, at, space as u64];
            each(&Request::new(Kind::Write, &numbers, &[&rng.octets(start + len)]));
        }
    }
}

/// Each length set in a header of each type, and in a new one of each number of a type.
pub fn lengths(share: &Share, each: Each) {
    let mut rng = share.rng(16);
    for ty in 0..=255u64 {
        let raw = [ty as u8, rng.octet()];
        for length in (0..=255).filter(|n| share.has(*n)) {
            for bits in 0..4 {
                each(&Request::new(Kind::SetHeader, &[bits & 1, bits / 2, length], &[&raw]));
            }
            each(&Request::new(Kind::NewHeader, &[ty, rng.bit(), rng.bit(), length], &[]));
        }
    }
}

/// Scanners after any number of timer updates.
pub fn updates(share: &Share, rounds: u64, each: Each) {
    let mut rng = share.rng(17);
    for _ in 0..rounds {
        for updates in (0..=255).filter(|n| share.has(*n)) {
            let (a, b) = (rng.next() & 0xFFFF_FFFF, rng.next() & 0xFFFF_FFFF);
            each(&Request::new(Kind::Scanner, &[a, b, updates], &[]));
        }
    }
}

/// Packets and filters with lists of up to 20 entries, for a scanner after any number of timer updates.
pub fn scans(share: &Share, count: u64, each: Each) {
    let mut rng = share.rng(18);
    for _ in 0..count / share.shares {
        let mut h = heard(&mut rng);
        h.list = long_filter(&mut rng, &h.sender(), h.random());
        filters(&mut rng, &h, each);
        let updates = if rng.bit() == 0 { rng.below(4) as u64 } else { rng.octet() as u64 };
        let numbers = [!rng.one_in(5) as u64, updates, h.crc_ok as u64];
        each(&Request::new(Kind::Scan, &numbers, &[&h.list, &h.header, &h.payload]));
    }
}

/// Sets an octet to any value now and then.
fn any_octet(rng: &mut Rng, octet: &mut u8, times: usize) {
    if rng.one_in(times) {
        *octet = rng.octet();
    }
}

/// Octets 1 and 2 of a call have any value, and so has now and then its kind; after its payload stands anything.
fn any_octets(rng: &mut Rng, calls: &mut [u8]) {
    for c in calls.chunks_exact_mut(CALL) {
        any_octet(rng, &mut c[0], 64);
        any_octet(rng, &mut c[1], 4);
        any_octet(rng, &mut c[2], 2);
        let end = 14 + c[3] as usize;
        let fill = rng.octet();
        c[end..].fill(fill);
    }
}

/// Scanners that live through up to 20 entries, with lists of up to 20 addresses.
pub fn scanners(share: &Share, count: u64, each: Each) {
    let mut rng = share.rng(19);
    for _ in 0..count / share.shares {
        let (address, random) = (rng.octets(6), rng.bit());
        let list = long_filter(&mut rng, &address, random);
        let entries = 1 + rng.below(20);
        let mut r = lived(&mut rng, entries, &list);
        any_octets(&mut rng, &mut r.parts[1]);
        each(&r);
    }
}

/// Lists of up to 24 calls on a device.
pub fn lists(share: &Share, count: u64, each: Each) {
    let mut rng = share.rng(20);
    for _ in 0..count / share.shares {
        let mut r = device::short(&mut rng);
        any_octets(&mut rng, &mut r.parts[1]);
        each(&r);
    }
}
