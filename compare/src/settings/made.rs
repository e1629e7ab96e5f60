//! Settings of connect requests: within the ranges, often at a limit, and outside them.
use super::OCTETS;
use crate::made::{Each, Share};
use crate::request::{Kind, Request};
use crate::rng::Rng;

/// The settings by their places in `Known`.
const HOP: usize = 0;
const CHANNELS: usize = 1;
const INTERVAL: usize = 2;
const LATENCY: usize = 3;
const TIMEOUT: usize = 4;
const SIZE: usize = 5;
const OFFSET: usize = 6;
const SETTINGS: usize = 7;

/// The settings that are chosen so far, as counts.
type Known = [Option<u64>; SETTINGS];

const NONE: Known = [None; SETTINGS];

/// The least and the most of a setting that the ranges allow beside those that are known. Of the others those are assumed that leave most, and where none is left its own
/// range counts alone.
fn bounds(setting: usize, known: &Known) -> (u64, u64) {
    let [_, _, interval, latency, timeout, size, offset] = *known;
    let sleeps = 1 + latency.unwrap_or(0);
    let product = (4 * timeout.unwrap_or(3_200)).saturating_sub(1);
    let least_interval = (size.unwrap_or(0) + 1).max(offset.unwrap_or(0)).clamp(6, 3_200);
    match setting {
        HOP => (5, 16),
        CHANNELS => (2, 37),
        INTERVAL => (least_interval, (product / sleeps).clamp(6, 3_200)),
        LATENCY => (0, (product / interval.unwrap_or(least_interval).max(1)).saturating_sub(1).min(499)),
        TIMEOUT => ((sleeps * interval.unwrap_or(least_interval) / 4 + 1).clamp(10, 3_200), 3_200),
        SIZE => (1, interval.unwrap_or(3_200).saturating_sub(1).clamp(1, 8)),
        _ => (0, interval.unwrap_or(3_200)),
    }
}

/// Chooses what is not known: within the ranges where that can be, every second time often at a limit.
fn choose(rng: &mut Rng, known: &mut Known) {
    let often = rng.bit() == 0;
    let order = match rng.below(3) {
        0 => [INTERVAL, LATENCY, TIMEOUT, SIZE, OFFSET, HOP, CHANNELS],
        1 => [LATENCY, INTERVAL, TIMEOUT, SIZE, OFFSET, HOP, CHANNELS],
        _ => [TIMEOUT, SIZE, LATENCY, INTERVAL, OFFSET, HOP, CHANNELS],
    };
    for setting in order {
        if known[setting].is_some() {
            continue;
        }
        let (least, most) = bounds(setting, known);
        let most = most.max(least);
        known[setting] = Some(match rng.below(4) {
            0 if often => least,
            1 if often => most,
            _ => least + rng.below((most - least + 1) as usize) as u64,
        });
    }
}

/// A map that marks so many channels, with any of the three bits after them.
fn map(rng: &mut Rng, channels: u64) -> [u8; 5] {
    let mut left: Vec<usize> = (0..37).collect();
    let mut map = [0, 0, 0, 0, if rng.bit() == 0 { 0 } else { rng.octet() & 0xE0 }];
    for _ in 0..channels.min(37) {
        let channel = left.swap_remove(rng.below(left.len()));
        map[channel / 8] |= 1 << (channel % 8);
    }
    map
}

/// The octets of settings that are all known; the access address, the CRC start and the clock's accuracy are any.
fn octets(rng: &mut Rng, known: &Known) -> [u8; OCTETS] {
    let [hop, channels, interval, latency, timeout, size, offset] = known.map(|count| count.expect("all are chosen"));
    let mut octets: [u8; OCTETS] = std::array::from_fn(|_| rng.octet());
    octets[7] = size as u8;
    for (at, count) in [(8, offset), (10, interval), (12, latency), (14, timeout)] {
        octets[at..at + 2].copy_from_slice(&(count as u16).to_le_bytes());
    }
    octets[16..21].copy_from_slice(&map(rng, channels));
    octets[21] = (octets[21] & 0xE0) | hop as u8;
    octets
}

/// Settings with these, and all others within the ranges where that can be.
fn with(rng: &mut Rng, chosen: &[(usize, u64)]) -> [u8; OCTETS] {
    let mut known = NONE;
    chosen.iter().for_each(|(setting, count)| known[*setting] = Some(*count));
    choose(rng, &mut known);
    octets(rng, &known)
}

/// Settings within the ranges.
pub fn within(rng: &mut Rng) -> [u8; OCTETS] {
    with(rng, &[])
}

/// Settings outside one range: mostly the first count there, and mostly all others within theirs.
pub fn outside(rng: &mut Rng) -> [u8; OCTETS] {
    let further = if rng.one_in(4) { rng.below(60_000) as u64 } else { 0 };
    let below = rng.bit() == 0;
    match rng.below(8) {
        0 => {
            let hop = if below { 4 - further % 5 } else { 17 + further % 15 };
            with(rng, &[(HOP, hop)])
        }
        1 => with(rng, &[(CHANNELS, 1)]),
        2 => {
            let interval = if below { 5 - further % 6 } else { 3_201 + further };
            with(rng, &[(INTERVAL, interval)])
        }
        3 => with(rng, &[(LATENCY, 500 + further)]),
        4 => {
            let timeout = if below { 9 - further % 10 } else { 3_201 + further };
            with(rng, &[(TIMEOUT, timeout)])
        }
        5 => {
            let interval = 40 + rng.below(3_161) as u64;
            // Mostly a product that a timeout within its range can have 4 times.
            let latency = if further > 0 { further % 500 } else { rng.below(12_800 / interval as usize) as u64 };
            let timeout = ((1 + latency) * interval / 4).min(3_200);
            with(rng, &[(INTERVAL, interval), (LATENCY, latency), (TIMEOUT, timeout)])
        }
        6 => {
            let interval = if rng.bit() == 0 { 6 + rng.below(4) as u64 } else { 6 + rng.below(3_195) as u64 };
            let size = if below { 0 } else { ((interval - 1).min(8) + 1 + further).min(255) };
            with(rng, &[(INTERVAL, interval), (SIZE, size)])
        }
        _ => {
            let interval = 6 + rng.below(3_195) as u64;
            with(rng, &[(INTERVAL, interval), (OFFSET, interval + 1 + further)])
        }
    }
}

/// Counts around each limit of a setting, and far outside.
fn values(setting: usize) -> Vec<u64> {
    match setting {
        HOP => (0..32).collect(),
        CHANNELS => vec![0, 1, 2, 3, 36, 37],
        INTERVAL => (0..=13)
            .chain([24, 39, 40, 41, 255, 256, 257, 1_599, 1_600, 1_601])
            .chain(3_198..=3_203)
            .chain([6_399, 6_400, 6_401, 12_799, 12_800, 12_801, 0x7FFF, 0x8000, 0xFFFE, 0xFFFF])
            .collect(),
        LATENCY => (0..=4)
            .chain([7, 255, 256, 257])
            .chain(497..=502)
            .chain([2_132, 2_133, 2_134, 0x0FFF, 0x7FFF, 0x8000, 0xFFFD, 0xFFFE, 0xFFFF])
            .collect(),
        TIMEOUT => (0..=13)
            .chain([255, 256, 257, 749, 750, 751, 752])
            .chain(3_197..=3_203)
            .chain([0x3FFF, 0x4000, 0x4001, 0x400A, 0x7FFF, 0x8000, 0xC000, 0xFFFE, 0xFFFF])
            .collect(),
        SIZE => (0..=12).chain([15, 16, 127, 128, 248, 254, 255]).collect(),
        _ => (0..=14).chain([23, 24, 25, 255, 256, 257]).chain(3_198..=3_203).chain([0x7FFF, 0x8000, 0xFFFE, 0xFFFF]).collect(),
    }
}

fn ask(r: &mut Request, octets: &[u8; OCTETS], each: Each) {
    r.parts[0].copy_from_slice(octets);
    each(r);
}

fn blank() -> Request {
    Request::new(Kind::Settings, &[], &[&[0; OCTETS]])
}

/// Each two settings with all counts around their limits, the others within their ranges.
pub fn limits(share: &Share, rounds: u64, each: Each) {
    let mut rng = share.rng(31);
    let mut r = blank();
    let mut place = 0;
    for first in 0..SETTINGS {
        for second in first + 1..SETTINGS {
            for a in values(first) {
                for b in values(second) {
                    for _ in 0..rounds {
                        place += 1;
                        if share.has(place) {
                            let octets = with(&mut rng, &[(first, a), (second, b)]);
                            ask(&mut r, &octets, each);
                        }
                    }
                }
            }
        }
    }
}

/// All counts of each setting of 16 bits; all window sizes with intervals around their limits; all hops and accuracies with few channels and with many.
pub fn counts(share: &Share, rounds: u64, each: Each) {
    let mut rng = share.rng(32);
    let mut r = blank();
    for count in (0..=0xFFFF).filter(|n| share.has(*n)) {
        for setting in [INTERVAL, LATENCY, TIMEOUT, OFFSET] {
            for _ in 0..rounds {
                let octets = with(&mut rng, &[(setting, count)]);
                ask(&mut r, &octets, each);
            }
        }
    }
    for octet in (0..=255).filter(|n| share.has(*n)) {
        for interval in (0..=13).chain(3_190..=3_210) {
            for _ in 0..rounds {
                let octets = with(&mut rng, &[(SIZE, octet), (INTERVAL, interval)]);
                ask(&mut r, &octets, each);
            }
        }
        for channels in 0..=37 {
            for _ in 0..rounds {
                let mut octets = with(&mut rng, &[(CHANNELS, channels)]);
                octets[OCTETS - 1] = octet as u8;
                ask(&mut r, &octets, each);
            }
        }
    }
}

/// All latencies and intervals whose product can be passed by 4 times a timeout, and one more of each, with the timeouts on both sides of it; any others, also with the
/// timeouts that would do if the product, or 4 times the timeout, had 16 bits.
pub fn products(share: &Share, count: u64, each: Each) {
    let mut rng = share.rng(33);
    let mut r = blank();
    let mut around = |rng: &mut Rng, latency: u64, interval: u64, quarter: u64| {
        for timeout in quarter.saturating_sub(1)..=quarter + 2 {
            let octets = with(rng, &[(LATENCY, latency), (INTERVAL, interval), (TIMEOUT, timeout)]);
            ask(&mut r, &octets, each);
        }
    };
    for latency in (0..=500).filter(|n| share.has(*n)) {
        for interval in 6..=(12_800 / (1 + latency) + 1).min(3_201) {
            around(&mut rng, latency, interval, (1 + latency) * interval / 4);
        }
    }
    for _ in 0..count / share.shares {
        let (latency, interval) = (rng.below(500) as u64, 6 + rng.below(3_195) as u64);
        let product = (1 + latency) * interval;
        around(&mut rng, latency, interval, (product / 4).min(3_199));
        around(&mut rng, latency, interval, product % 0x1_0000 / 4);
    }
}

/// All maps that mark one channel or two, or none, with each of the three bits after them, and all others within their ranges.
pub fn maps(share: &Share, rounds: u64, each: Each) {
    let mut rng = share.rng(34);
    let mut r = blank();
    for first in 0..40 {
        for second in (first..40).filter(|n| share.has(*n)) {
            for top in 0..8 {
                let marks = 1u64 << first | 1 << second | top << 37;
                for _ in 0..rounds {
                    let mut octets = within(&mut rng);
                    octets[16..21].copy_from_slice(&marks.to_le_bytes()[..5]);
                    ask(&mut r, &octets, each);
                }
            }
        }
    }
}

/// Zeros, FF and settings within the ranges, each with all values of each octet, and with each two bits changed.
pub fn off(share: &Share, rounds: u64, each: Each) {
    // The same for all shares.
    let mut rng = Share { mine: 0, ..*share }.rng(35);
    let mut r = blank();
    for round in 0..rounds {
        let base = match round {
            0 => [0; OCTETS],
            1 => [0xFF; OCTETS],
            _ => within(&mut rng),
        };
        for at in 0..OCTETS {
            for octet in (0..=255).filter(|n| share.has(*n)) {
                let mut octets = base;
                octets[at] = octet as u8;
                ask(&mut r, &octets, each);
            }
        }
        for first in 0..8 * OCTETS {
            for second in (first + 1..8 * OCTETS).filter(|n| share.has(*n as u64)) {
                let mut octets = base;
                octets[first / 8] ^= 1 << (first % 8);
                octets[second / 8] ^= 1 << (second % 8);
                ask(&mut r, &octets, each);
            }
        }
    }
}

/// Settings within the ranges, outside one of them, these without a channel, and any octets.
pub fn any(share: &Share, count: u64, each: Each) {
    let mut rng = share.rng(36);
    let mut r = blank();
    for turn in 0..count / share.shares {
        let octets = match turn % 8 {
            0..=2 => within(&mut rng),
            3..=5 => outside(&mut rng),
            6 => {
                let mut octets = outside(&mut rng);
                octets[16..20].fill(0);
                octets[20] &= rng.pick(&[0, 0x20, 0x40, 0x80, 0xE0]);
                octets
            }
            _ => std::array::from_fn(|_| rng.octet()),
        };
        ask(&mut r, &octets, each);
    }
}
