//! Octets that requests are made of: records, maps, payloads, headers, filter lists.
use crate::rng::Rng;

/// One record that takes exactly n octets, n from 2 to 256.
fn record(rng: &mut Rng, n: usize, out: &mut Vec<u8>) {
    let data = n - 2;
    let mut ty = rng.pick(&[1, 1, 2, 3, 4, 5, 6, 7, 8, 9, 9, 0x0A, 0x16, 0xFF, 0xFF, 0, 0x20, 0x80]);
    if (ty == 1 && data != 1) || ((ty == 2 || ty == 3) && data % 2 == 1) {
        ty = rng.pick(&[4, 5, 6, 7, 8, 9, 0x16, 0xFF, 0]);
    }
    out.push((n - 1) as u8);
    out.push(ty);
    for _ in 0..data {
        out.push(if ty == 8 || ty == 9 { 0x20 + rng.octet() % 0x5F } else { rng.octet() });
    }
}

/// Records that tile exactly n octets.
pub fn area(rng: &mut Rng, n: usize) -> Vec<u8> {
    let mut out = Vec::with_capacity(n);
    while out.len() < n {
        let left = n - out.len();
        if left == 1 {
            // A record of one octet does not exist: begin again.
            if n == 1 {
                return vec![0];
            }
            out.clear();
            continue;
        }
        let size = match rng.below(4) {
            0 => 3,
            1 => 2 + rng.below(6),
            2 => 2 + rng.below(20),
            _ => left,
        };
        let size = size.clamp(2, 256).min(left);
        record(rng, size, &mut out);
    }
    out
}

/// Zeros after records: to 31 octets in all, to 57, one, or some.
pub fn pad(rng: &mut Rng, area: &mut Vec<u8>) {
    let least = area.len() + 1;
    let all = match rng.below(4) {
        0 => 31,
        1 => 57,
        2 => least,
        _ => least + rng.below(40),
    };
    area.resize(all.max(least), 0);
}

/// Spoils the zeros after the first so many octets: after the first of them another octet comes next, comes last or stands anywhere, or a record does. Where
/// there is one zero alone, an octet comes after it.
pub fn spoil(rng: &mut Rng, area: &mut Vec<u8>, taken: usize) {
    let next = taken + 1;
    if area.len() <= next {
        area.resize(next, 0);
        return area.push(1 + rng.octet() % 255);
    }
    let last = area.len() - 1;
    let at = match rng.below(4) {
        0 => next,
        1 => last,
        _ => next + rng.below(area.len() - next),
    };
    area[at] = 1 + rng.octet() % 255;
    if rng.one_in(4) && at < last {
        let n = 2 + rng.below((last - at).min(255));
        let mut other = Vec::new();
        record(rng, n, &mut other);
        write_over(area, at, &other);
    }
}

/// A small change of a good input.
pub fn damage(rng: &mut Rng, octets: &mut Vec<u8>) {
    if octets.is_empty() {
        return octets.push(rng.octet());
    }
    let at = rng.below(octets.len());
    match rng.below(6) {
        0 => octets[at] ^= 1 << rng.below(8),
        1 => octets[at] = rng.pick(&[0, 1, 2, 3, 0xFF]),
        2 => {
            octets.remove(at);
        }
        3 => octets.insert(at, rng.octet()),
        4 => octets.truncate(at),
        _ => octets[at] = rng.octet(),
    }
}

/// A map with an interest of its own: few marks, runs, octets alone.
pub fn map(rng: &mut Rng) -> [u8; 5] {
    let mut map = [0; 5];
    match rng.below(5) {
        0 => {}
        1 => map[rng.below(5)] = 1 << rng.below(8),
        2 => map = [0xFF; 5],
        3 => {
            for octet in &mut map {
                *octet = rng.pick(&[0, 0, 1, 0x80, 0xFF, 0x1F, 0xE0]);
            }
        }
        _ => {
            for octet in &mut map {
                *octet = rng.octet();
            }
        }
    }
    map
}

/// Lengths around which a type, a header or an octet's count changes what it says.
const LIMITS: [usize; 28] = [
    0, 1, 5, 6, 7, 8, 9, 11, 12, 13, 14, 33, 34, 35, 37, 38, 62, 63, 64, 65, 70, 98, 127, 128, 191, 192, 254, 255,
];

/// The length of a payload: each of 0 to 255, those that a header can count more often.
pub fn length(rng: &mut Rng) -> usize {
    match rng.below(4) {
        0 => rng.below(256),
        1 => LIMITS[rng.below(LIMITS.len())],
        2 => rng.below(64),
        _ => 6 + rng.below(32),
    }
}

/// The header's octet for a payload of n octets, which it counts in its lower six bits, with any upper ones.
pub fn count(rng: &mut Rng, n: usize) -> u8 {
    (n as u8 % 64) | (rng.octet() & 0xC0)
}

/// The same, sometimes with another count: all eight bits of n, one more or less, or any.
pub fn likely_count(rng: &mut Rng, n: usize) -> u8 {
    match rng.below(16) {
        0 => n as u8,
        1 => (n as u8).wrapping_add(1),
        2 => (n as u8).wrapping_sub(1),
        3 => rng.octet(),
        _ => count(rng, n),
    }
}

/// A payload of n octets for a type, good where n allows it.
pub fn payload(rng: &mut Rng, ty: u8, n: usize) -> Vec<u8> {
    match ty {
        0 | 2 | 4 | 6 if n >= 6 => {
            let mut p = rng.octets(6);
            p.extend(area(rng, n - 6));
            p
        }
        _ => rng.octets(n),
    }
}

/// Another type: the one before or after it, or one of four bits off.
pub fn neighbour(rng: &mut Rng, ty: u8) -> u8 {
    match rng.below(3) {
        0 => (ty + 15) % 16,
        1 => (ty + 1) % 16,
        _ => ty ^ 1 << rng.below(4),
    }
}

/// Writes octets at a place, as far as the payload reaches.
pub fn write_over(payload: &mut [u8], at: usize, octets: &[u8]) {
    for (to, from) in payload.iter_mut().skip(at).zip(octets) {
        *to = *from;
    }
}

/// Header and payload that agree as far as six bits tell, for one of the seven types; sometimes another type.
pub fn packet(rng: &mut Rng) -> (Vec<u8>, Vec<u8>) {
    let ty = if rng.one_in(12) { rng.octet() % 16 } else { rng.octet() % 7 };
    let n = length(rng);
    let p = payload(rng, ty, n);
    (vec![ty | (rng.octet() & 0xF0), count(rng, n)], p)
}

/// Filter lists, good and damaged, with an address that is often in the list.
pub fn filter(rng: &mut Rng, address: &[u8], random: u64) -> Vec<u8> {
    let mut list = Vec::new();
    for _ in 0..rng.below(5) {
        list.push(rng.bit() as u8);
        if rng.bit() == 0 {
            list.extend(rng.octets(6));
        } else {
            list.extend(address);
            if rng.one_in(3) {
                let at = list.len() - 1 - rng.below(6);
                list[at] ^= 1 << rng.below(8);
            } else if rng.bit() == 0 {
                let at = list.len() - 7;
                list[at] = random as u8;
            }
        }
    }
    if rng.one_in(6) {
        damage(rng, &mut list);
    }
    list
}

/// Filter lists of up to 20 entries. The address stands in one of them, mostly, sometimes with a bit or its kind off; one entry has a kind that is
/// none, sometimes.
pub fn long_filter(rng: &mut Rng, address: &[u8], random: u64) -> Vec<u8> {
    let entries = rng.below(21);
    let mut list = rng.octets(7 * entries);
    list.iter_mut().step_by(7).for_each(|kind| *kind &= 1);
    if entries == 0 {
        return list;
    }
    let at = 7 * rng.below(entries);
    if !rng.one_in(8) {
        list[at] = random as u8;
        list[at + 1..at + 7].copy_from_slice(address);
    }
    match rng.below(16) {
        0 => list[at] ^= 1,
        1 => list[at + 1 + rng.below(6)] ^= 1 << rng.below(8),
        2 | 3 => list[7 * rng.below(entries)] = 2 + rng.octet() % 254,
        4 => damage(rng, &mut list),
        _ => {}
    }
    list
}
