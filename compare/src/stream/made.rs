//! Requests for the bit stream. A good packet is made by the reference.
use super::{crc, start_on, whiten};
use crate::made::{Each, Share};
use crate::request::{Kind, Request};
use crate::rng::Rng;

/// So many octets of which one bit is set.
fn one_bit(len: usize, bit: usize) -> Vec<u8> {
    let mut octets = vec![0; len];
    octets[bit / 8] = 1 << (bit % 8);
    octets
}

/// Zeros, FF, a single bit where there is one, and any octets.
fn contents(rng: &mut Rng, len: usize) -> [Vec<u8>; 4] {
    let bit = if len == 0 { Vec::new() } else { one_bit(len, rng.below(8 * len)) };
    [vec![0; len], vec![0xFF; len], bit, rng.octets(len)]
}

/// Start values: any, a single bit of the 32, none, that of the advertising channels.
fn any_start(rng: &mut Rng) -> u32 {
    match rng.below(8) {
        0 => 1 << rng.below(32),
        1 => 0,
        2 => 0x555555,
        _ => rng.next() as u32,
    }
}

/// Channels, 36 and 37 more often.
fn any_channel(rng: &mut Rng) -> u8 {
    match rng.below(4) {
        0 => 36 + rng.bit() as u8,
        _ => rng.below(40) as u8,
    }
}

/// All channels' numbers with packets of every length to 255; on each channel, for each length of a packet, each single bit and any octets.
pub fn whitenings(share: &Share, rounds: u64, each: Each) {
    let mut rng = share.rng(21);
    let mut ask = |channel: u64, packet: &[u8]| each(&Request::new(Kind::Whiten, &[channel], &[packet]));
    for channel in (0..=255).filter(|c| share.has(*c)) {
        for len in 0..=255 {
            contents(&mut rng, len).iter().for_each(|s| ask(channel, s));
        }
    }
    for channel in (0..40).filter(|c| share.has(*c)) {
        for len in 5..=42 {
            (0..8 * len).for_each(|bit| ask(channel, &one_bit(len, bit)));
            (0..rounds).for_each(|_| ask(channel, &rng.octets(len)));
        }
    }
}

/// The CRC as a number and as octets: of octets of every length to 255 from each single bit of a start value and from other ones, of each single bit of
/// up to 60 octets, and of any.
pub fn crcs(share: &Share, count: u64, each: Each) {
    let mut rng = share.rng(22);
    let mut ask = |start: u32, octets: &[u8]| {
        let mut r = Request::new(Kind::Crc, &[start as u64], &[octets]);
        each(&r);
        r.kind = Kind::CrcOctets;
        each(&r);
    };
    for len in (0..=255).filter(|n| share.has(*n)) {
        let single = (0..32).map(|bit| 1 << bit);
        for start in single.chain([0, 0x555555, 0xFFFFFF, u32::MAX, rng.next() as u32]) {
            contents(&mut rng, len as usize).iter().for_each(|s| ask(start, s));
        }
    }
    for len in (0..=60).filter(|n| share.has(*n)) {
        for bit in 0..8 * len as usize {
            for start in [0, 0x555555, rng.next() as u32] {
                ask(start, &one_bit(len as usize, bit));
            }
        }
    }
    for _ in 0..count / share.shares {
        let len = match rng.below(32) {
            0 => rng.below(256),
            1..=3 => rng.below(61),
            _ => rng.below(43),
        };
        let (start, octets) = (any_start(&mut rng), rng.octets(len));
        ask(start, &octets);
    }
}

/// A packet as it is heard: octets, three after them, and the whitening of a channel.
fn heard(channel: u8, octets: &[u8], last: [u8; 3]) -> Vec<u8> {
    let mut packet = [octets, &last].concat();
    whiten(channel, &mut packet);
    packet
}

fn flipped(packet: &[u8], bit: usize) -> Vec<u8> {
    let mut other = packet.to_vec();
    other[bit / 8] ^= 1 << (bit % 8);
    other
}

/// A good packet, and others that have one thing off.
fn with_one_off(rng: &mut Rng, ask: &mut dyn FnMut(u8, u32, &[u8])) {
    let (channel, start) = (any_channel(rng), any_start(rng));
    let len = if rng.one_in(8) { [5, 6, 41, 42][rng.below(4)] } else { 5 + rng.below(38) };
    let mut octets = rng.octets(len - 3);
    octets[1] = len as u8 - 5;
    let own = crc(start_on(channel, start), &octets);
    let good = heard(channel, &octets, own);
    ask(channel, start, &good);
    ask(channel, start, &flipped(&good, rng.below(8 * len)));
    // Two octets that stand after each other, or anywhere.
    let mut swapped = good.clone();
    let at = rng.below(len - 1);
    swapped.swap(at, if rng.bit() == 0 { at + 1 } else { rng.below(len) });
    ask(channel, start, &swapped);
    let [a, b, c] = own;
    ask(channel, start, &heard(channel, &octets, [c, b, a]));
    // The value changed in one bit of the 32, or anyhow: of the low 24 it counts up to channel 36.
    ask(channel, start ^ (1 << rng.below(32)), &good);
    ask(channel, rng.next() as u32, &good);
    // Made from a value where there is none, and from none where there is one.
    ask(channel, start, &heard(channel, &octets, crc(if channel < 37 { 0x555555 } else { start }, &octets)));
    // Whitened for another channel, and heard on one.
    let other = any_channel(rng);
    ask(channel, start, &heard(other, &octets, own));
    ask(other, start, &good);
    // Not whitened.
    ask(channel, start, &[&octets[..], &own].concat());
    // An octet less and one more.
    ask(channel, start, &good[..len - 1]);
    ask(channel, start, &[&good[..], &[rng.octet()]].concat());
    // A header that counts otherwise: the CRC is right.
    octets[1] = rng.octet();
    ask(channel, start, &heard(channel, &octets, crc(start_on(channel, start), &octets)));
    ask(channel, start, &rng.octets(len));
}

/// Flags: all channels' numbers with packets of every length to 255; on each channel, for each length of a packet, a good one and that with each of its
/// bits changed; and packets with one thing off.
pub fn flags(share: &Share, count: u64, each: Each) {
    let mut rng = share.rng(23);
    let mut ask = |channel: u8, start: u32, packet: &[u8]| {
        each(&Request::new(Kind::CrcFlag, &[channel as u64, start as u64], &[packet]))
    };
    for channel in (0..=255).filter(|c| share.has(*c)) {
        for len in 0..=255 {
            let start = any_start(&mut rng);
            contents(&mut rng, len).iter().for_each(|s| ask(channel as u8, start, s));
        }
    }
    for channel in (0..40).filter(|c| share.has(*c)) {
        for len in 5..=42 {
            let (channel, start, octets) = (channel as u8, any_start(&mut rng), rng.octets(len - 3));
            let good = heard(channel, &octets, crc(start_on(channel, start), &octets));
            ask(channel, start, &good);
            (0..8 * len).for_each(|bit| ask(channel, start, &flipped(&good, bit)));
        }
    }
    for _ in 0..count / share.shares {
        with_one_off(&mut rng, &mut ask);
    }
}
