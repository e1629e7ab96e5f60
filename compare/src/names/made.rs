//! Requests for a player's name: pairs of an advertisement and a reply.
use crate::inputs::{area, damage, pad, spoil};
use crate::made::{Each, Share};
use crate::request::{Kind, Request};
use crate::rng::Rng;

const COMPLETE: u8 = 0x09;
const SHORTENED: u8 = 0x08;

/// Types that are no name's: those beside the two, those a bit off, and others. Their data may be anything.
const OTHERS: [u8; 14] = [0x07, 0x07, 0x0A, 0x0A, 0xFF, 0xFF, 0x00, 0x04, 0x05, 0x0B, 0x16, 0x18, 0x88, 0x89];

/// What is no UTF-8: continuations alone; overlong forms of two, three and four octets; surrogates; above U+10FFFF; characters cut short.
const FAULTS: [&[u8]; 16] = [
    &[0x80], &[0xBF], &[0xC0, 0x80], &[0xC1, 0xBF], &[0xE0, 0x80, 0x80], &[0xE0, 0x9F, 0xBF], &[0xF0, 0x80, 0x80, 0x80], &[0xF0, 0x8F, 0xBF, 0xBF],
    &[0xED, 0xA0, 0x80], &[0xED, 0xBF, 0xBF], &[0xF4, 0x90, 0x80, 0x80], &[0xF5, 0x80, 0x80, 0x80], &[0xFF], &[0xC3], &[0xE2, 0x82], &[0xF0, 0x9F, 0x98],
];

/// The longest name that is made here.
const LONGEST: usize = 60;

/// An advertisement, and the reply.
type Pair = [Vec<u8>; 2];

fn ask(pair: &Pair, each: Each) {
    each(&Request::new(Kind::Name, &[], &[&pair[0], &pair[1]]));
}

fn record(ty: u8, data: &[u8]) -> Vec<u8> {
    [&[1 + data.len() as u8, ty][..], data].concat()
}

/// A character of one to four octets, the first and the last of these more often.
fn character(rng: &mut Rng, octets: usize) -> char {
    let (from, to) = [(0, 0x7F), (0x80, 0x7FF), (0x800, 0xFFFF), (0x10000, 0x10FFFF)][octets - 1];
    loop {
        let number = match rng.below(8) {
            0 => from,
            1 => to,
            _ => from + rng.below((to - from + 1) as usize) as u32,
        };
        if let Some(c) = char::from_u32(number) {
            return c;
        }
    }
}

/// Characters of so many octets in all.
fn text(rng: &mut Rng, len: usize) -> Vec<u8> {
    let mut text = String::new();
    while text.len() < len {
        let most = (len - text.len()).min(4);
        let octets = 1 + rng.below(most);
        text.push(character(rng, octets));
    }
    text.into_bytes()
}

/// The same with a fault before, after or between the characters; as long as the fault where that is longer.
fn malformed(rng: &mut Rng, fault: &[u8], len: usize) -> Vec<u8> {
    let around = len.saturating_sub(fault.len());
    let before = rng.below(around + 1);
    [text(rng, before), fault.to_vec(), text(rng, around - before)].concat()
}

/// The length of a name: short ones more often.
fn length(rng: &mut Rng) -> usize {
    let most = if rng.bit() == 0 { 8 } else { LONGEST };
    rng.below(most + 1)
}

fn good(rng: &mut Rng) -> Vec<u8> {
    let len = length(rng);
    text(rng, len)
}

/// A record that is no name, with what would be one for its data.
fn other(rng: &mut Rng) -> Vec<u8> {
    match rng.below(6) {
        0 => record(0x01, &[rng.octet()]),
        1 => {
            let uuids = rng.below(4);
            record(0x02 + rng.bit() as u8, &rng.octets(2 * uuids))
        }
        _ => {
            let data = good(rng);
            record(rng.pick(&OTHERS), &data)
        }
    }
}

#[derive(Clone, Copy)]
enum Name {
    Good,
    Empty,
    Malformed,
}

use Name::{Empty, Good, Malformed};

/// The names that may stand in one of the four places, in their order.
const FORMS: [&[Name]; 8] =
    [&[], &[Good], &[Empty], &[Malformed], &[Malformed, Good], &[Good, Malformed], &[Good, Good], &[Malformed, Malformed, Empty]];

fn names(rng: &mut Rng, ty: u8, form: &[Name]) -> Vec<Vec<u8>> {
    let mut one = |name: &Name| match name {
        Good => good(rng),
        Empty => Vec::new(),
        Malformed => {
            let (fault, len) = (FAULTS[rng.below(FAULTS.len())], length(rng));
            malformed(rng, fault, len)
        }
    };
    form.iter().map(|name| record(ty, &one(name))).collect()
}

/// The orders of both types in an area: complete names first, shortened ones first, any.
const ORDERS: usize = 3;

fn ordered(rng: &mut Rng, complete: Vec<Vec<u8>>, shortened: Vec<Vec<u8>>, order: usize) -> Vec<Vec<u8>> {
    let mut records = if order == 1 { [shortened, complete] } else { [complete, shortened] }.concat();
    if order == 2 {
        (1..records.len()).for_each(|at| records.swap(at, rng.below(at + 1)));
    }
    records
}

/// An area of names, with other records before, between and after them.
fn among_others(rng: &mut Rng, names: Vec<Vec<u8>>) -> Vec<u8> {
    let mut area = Vec::new();
    for name in names {
        if rng.one_in(3) {
            area.extend(other(rng));
        }
        area.extend(name);
    }
    if rng.one_in(3) {
        area.extend(other(rng));
    }
    area
}

/// A pair as it is; with zeros after one or both; each with these spoiled, and damaged.
fn around(rng: &mut Rng, pair: Pair, each: Each) {
    ask(&pair, each);
    let mut padded = pair.clone();
    let unpadded = rng.below(3);
    (0..2).filter(|at| *at != unpadded).for_each(|at| pad(rng, &mut padded[at]));
    ask(&padded, each);
    for at in 0..2 {
        let mut spoiled = padded.clone();
        spoil(rng, &mut spoiled[at], pair[at].len());
        ask(&spoiled, each);
        let mut damaged = if rng.bit() == 0 { pair.clone() } else { padded.clone() };
        damage(rng, &mut damaged[at]);
        ask(&damaged, each);
    }
}

/// All pairs of areas of up to four octets that have a few values: zero, the lengths of two records, both types, and half a character.
pub fn few(share: &Share, each: Each) {
    let values = [0, 1, 2, SHORTENED, COMPLETE, 0xC3];
    let mut areas = vec![Vec::new()];
    let mut shorter = 0;
    for _ in 0..4 {
        let longer: Vec<Vec<u8>> = areas[shorter..].iter().flat_map(|a: &Vec<u8>| values.map(|v| [&a[..], &[v]].concat())).collect();
        shorter = areas.len();
        areas.extend(longer);
    }
    let mut r = Request::new(Kind::Name, &[], &[&[], &[]]);
    for (_, advertisement) in areas.iter().enumerate().filter(|(place, _)| share.has(*place as u64)) {
        r.parts[0].clone_from(advertisement);
        for reply in &areas {
            r.parts[1].clone_from(reply);
            each(&r);
        }
    }
}

/// Each form in each of the four places, with each of the others, in all orders.
pub fn places(share: &Share, rounds: u64, each: Each) {
    let mut rng = share.rng(26);
    let forms = FORMS.len() as u64;
    let all = forms.pow(4) * (ORDERS * ORDERS) as u64;
    for round in 0..rounds {
        for place in (0..all).filter(|n| share.has(*n + round)) {
            let form = |digit: u32| FORMS[(place / forms.pow(digit) % forms) as usize];
            let orders = (place / forms.pow(4)) as usize;
            let pair = [0, 1].map(|at| {
                let complete = names(&mut rng, COMPLETE, form(2 * at));
                let shortened = names(&mut rng, SHORTENED, form(2 * at + 1));
                let order = if at == 0 { orders % ORDERS } else { orders / ORDERS };
                let names = ordered(&mut rng, complete, shortened, order);
                among_others(&mut rng, names)
            });
            around(&mut rng, pair, each);
        }
    }
}

/// In each place a name of each length, good and with each fault: alone and before a good one, with nothing and with a name of either type in the other area.
pub fn characters(share: &Share, rounds: u64, each: Each) {
    let mut rng = share.rng(27);
    for round in 0..rounds {
        for len in (0..=LONGEST).filter(|n| share.has(*n as u64 + round)) {
            for fault in FAULTS.iter().map(Some).chain([None]) {
                for ty in [COMPLETE, SHORTENED] {
                    let name = match fault {
                        Some(fault) => malformed(&mut rng, fault, len),
                        None => text(&mut rng, len),
                    };
                    beside(&mut rng, ty, &name, each);
                }
            }
        }
    }
}

/// A name in either area: alone and before a good one, with nothing and with a name of either type in the other area.
fn beside(rng: &mut Rng, ty: u8, name: &[u8], each: Each) {
    for at in 0..2 {
        let alone = record(ty, name);
        let followed = [alone.clone(), record(ty, &good(rng))].concat();
        for area in [alone, followed] {
            for others in [Vec::new(), record(COMPLETE, &good(rng)), record(SHORTENED, &good(rng))] {
                let mut pair = [area.clone(), others];
                pair.rotate_right(at);
                ask(&pair, each);
            }
        }
    }
}

/// How many faults of an area there are, none among them.
const BAD: u64 = 7;

/// Puts a fault after an area's records: none; a record cut short, half a UUID (1); Flags without data, Flags of two octets, an octet after a zero length, a name
/// there (2).
fn make_bad(rng: &mut Rng, fault: u64, area: &mut Vec<u8>) {
    let name = record(rng.pick(&[COMPLETE, SHORTENED]), &good(rng));
    match fault {
        0 => {}
        1 => {
            let kept = 1 + rng.below(name.len() - 1);
            area.extend(&name[..kept]);
        }
        2 => {
            let octets = 1 + 2 * rng.below(3);
            area.extend(record(0x02 + rng.bit() as u8, &rng.octets(octets)));
        }
        3 => area.extend(record(0x01, &[])),
        4 => area.extend(record(0x01, &rng.octets(2))),
        5 => area.extend([0, 1 + rng.octet() % 255]),
        _ => {
            area.push(0);
            area.extend(&name);
        }
    }
    // After a record that is cut short these would be its own octets.
    if fault > 1 && rng.bit() == 0 {
        area.extend(name);
    }
}

/// Each fault in each area, with each in the other and with none, after names of all forms.
pub fn refusals(share: &Share, rounds: u64, each: Each) {
    let mut rng = share.rng(28);
    for _ in (0..rounds).filter(|n| share.has(*n)) {
        for faults in 0..BAD * BAD {
            let mut pair = [0, 1].map(|_| {
                let (complete, shortened) = (FORMS[rng.below(FORMS.len())], FORMS[rng.below(FORMS.len())]);
                let (complete, shortened) = (names(&mut rng, COMPLETE, complete), names(&mut rng, SHORTENED, shortened));
                let names = ordered(&mut rng, complete, shortened, 2);
                among_others(&mut rng, names)
            });
            make_bad(&mut rng, faults % BAD, &mut pair[0]);
            make_bad(&mut rng, faults / BAD, &mut pair[1]);
            ask(&pair, each);
        }
    }
}

/// Areas of every length to 300, in either place beside a short one and in both.
pub fn lengths(share: &Share, rounds: u64, each: Each) {
    let mut rng = share.rng(29);
    for round in 0..rounds {
        for len in (0..=300).filter(|n| share.has(*n + round)) {
            let (len, short) = (len as usize, rng.below(32));
            for lens in [[len, short], [short, len], [len, 300 - len]] {
                let pair = lens.map(|n| area(&mut rng, n));
                around(&mut rng, pair, each);
            }
        }
    }
}

/// Any octets: of every length to 300, and up to 16 of those that lengths, types and characters are made of.
pub fn any(share: &Share, count: u64, each: Each) {
    let mut rng = share.rng(30);
    let likely = [0, 0, 1, 1, 2, 2, 3, 4, SHORTENED, SHORTENED, COMPLETE, COMPLETE, 0x41, 0x80, 0xC3, 0xE2];
    for turn in 0..count / share.shares {
        let pair = [0, 1].map(|_| match turn % 4 {
            0 => {
                let n = rng.below(301);
                rng.octets(n)
            }
            _ => (0..rng.below(17)).map(|_| rng.pick(&likely)).collect(),
        });
        ask(&pair, each);
    }
}
