//! Requests for the hub's reading: areas with zeros after their records, and such as are off by an octet or a record. The strict readings are asked for
//! them too, and refuse them as rubble does.
use crate::inputs::{area, count, damage, pad, spoil};
use crate::made::{Each, Share};
use crate::request::{Kind, Request};
use crate::rng::Rng;

/// All areas of up to three octets, with space for none of them up to one more.
pub fn small(share: &Share, each: Each) {
    let mut r = Request::new(Kind::Padded, &[0], &[&[]]);
    for len in 0..=3u32 {
        for value in (0..1u64 << (8 * len)).filter(|v| share.has(*v)) {
            r.parts[0].clear();
            r.parts[0].extend_from_slice(&value.to_le_bytes()[..len as usize]);
            r.numbers[0] = value / share.shares % (len as u64 + 2);
            each(&r);
        }
    }
}

/// Zeros alone, up to 300, and each of them in turn made another octet.
pub fn zeros(share: &Share, each: Each) {
    let mut rng = share.rng(24);
    for len in (0..=300).filter(|n| share.has(*n)) {
        let mut r = Request::new(Kind::Padded, &[len], &[&vec![0; len as usize]]);
        each(&r);
        for at in 0..len as usize {
            r.parts[0][at] = 1 + rng.octet() % 255;
            each(&r);
            r.parts[0][at] = 0;
        }
    }
}

/// An area as the hub reads it: too little space for its records, just enough, and one more.
fn hub(rng: &mut Rng, taken: usize, a: &[u8], each: Each) {
    let space = (taken as u64 + rng.below(3) as u64).saturating_sub(1);
    each(&Request::new(Kind::Padded, &[space], &[a]));
}

/// The same area for all that reads strictly: the readers, the decoder, the builders and a beacon.
fn strict(rng: &mut Rng, a: &[u8], each: Each) {
    for kind in [Kind::Area, Kind::Records, Kind::Known] {
        each(&Request::new(kind, &[], &[a]));
    }
    each(&Request::new(Kind::Rewrite, &[a.len() as u64], &[a]));
    let own = rng.octets(6);
    for which in 0..6 {
        each(&Request::new(Kind::Build, &[which, rng.bit()], &[&own, a]));
    }
    each(&Request::new(Kind::Beacon, &[rng.bit(), 37 + rng.below(3) as u64], &[&own, a]));
    let payload = [&own, a].concat();
    for ty in [0, 2, 4, 6] {
        let header = [ty | (rng.octet() & 0xF0), count(rng, payload.len())];
        each(&Request::new(Kind::Decode, &[], &[&header, &payload]));
        let at = rng.below(4);
        let s = [&rng.octets(at), &header[..], &payload].concat();
        each(&Request::new(Kind::ReadPdu, &[at as u64], &[&s]));
    }
}

/// Good records of so many octets, and zeros after them, to so many octets in all: as they are, spoiled, and damaged before the zeros and anywhere.
fn around(rng: &mut Rng, len: usize, all: Option<usize>, each: Each) {
    let records = if len == 1 { Vec::new() } else { area(rng, len) };
    let taken = records.len();
    hub(rng, taken, &records, each);
    let mut padded = records.clone();
    match all {
        Some(all) => padded.resize(all, 0),
        None => pad(rng, &mut padded),
    }
    hub(rng, taken, &padded, each);
    strict(rng, &padded, each);
    for _ in 0..4 {
        let mut a = padded.clone();
        spoil(rng, &mut a, taken);
        hub(rng, taken, &a, each);
    }
    let mut a = records;
    damage(rng, &mut a);
    a.resize(padded.len().max(a.len()), 0);
    hub(rng, taken, &a, each);
    let mut a = padded;
    damage(rng, &mut a);
    hub(rng, taken, &a, each);
}

/// Records of every length to 300; of 31 octets in all, and of 57, each part of them in turn.
pub fn areas(share: &Share, rounds: u64, each: Each) {
    let mut rng = share.rng(25);
    for round in 0..rounds {
        for len in (0..=300).filter(|n| share.has(*n + round)) {
            around(&mut rng, len as usize, None, each);
        }
        for all in [31, 57] {
            for len in (0..=all).filter(|n| share.has(*n + round)) {
                around(&mut rng, len as usize, Some(all as usize), each);
            }
        }
    }
}
