//! A packet's bit stream as the Core's figures draw it (Vol 6 Part B, 3.1.1 and 3.2): shift registers, position by position and bit by bit. rubble
//! leaves whitening and the CRC to the radio, so this answers in its place.
pub mod made;

use crate::ours::behind;
use crate::request::{Kind, Request};

/// The bits of octets as they are sent, each octet's lowest first.
fn bits(octets: &[u8]) -> impl Iterator<Item = u8> + '_ {
    octets.iter().flat_map(|octet| (0..8).map(move |k| octet >> k & 1))
}

/// Positions 0 to 6.
struct Whitening([u8; 7]);

impl Whitening {
    /// Position 0 is 1, and positions 1 to 6 are the channel's index, its highest bit first.
    fn on(channel: u8) -> Self {
        Whitening([1, channel >> 5 & 1, channel >> 4 & 1, channel >> 3 & 1, channel >> 2 & 1, channel >> 1 & 1, channel & 1])
    }

    /// What leaves position 6 goes to position 0, and is added between positions 3 and 4.
    fn next(&mut self) -> u8 {
        let [p0, p1, p2, p3, p4, p5, p6] = self.0;
        self.0 = [p6, p0, p1, p2, p3 ^ p6, p4, p5];
        p6
    }
}

fn whiten(channel: u8, octets: &mut [u8]) {
    let mut register = Whitening::on(channel);
    for octet in octets {
        for k in 0..8 {
            *octet ^= register.next() << k;
        }
    }
}

/// Where the bit that is fed back is added: the terms of x^24 + x^10 + x^9 + x^6 + x^4 + x^3 + x + 1 below the first.
const TERMS: [usize; 7] = [0, 1, 3, 4, 6, 9, 10];

/// The three octets of the CRC, in the order in which they are sent: position 23 goes first. Bit i of the start value is position i.
fn crc(start: u32, octets: &[u8]) -> [u8; 3] {
    // Position i is `line[first + i]`. At a shift the bits stay where they are and the register moves by one: a zero comes into position 0.
    let mut first = 8 * octets.len();
    let mut line = vec![0; first];
    line.extend((0..24).map(|i| (start >> i & 1) as u8));
    for bit in bits(octets) {
        let back = line[first + 23] ^ bit;
        first -= 1;
        for i in TERMS {
            line[first + i] ^= back;
        }
    }
    std::array::from_fn(|octet| (0..8).map(|k| line[23 - 8 * octet - k] << k).sum())
}

/// Where the CRC starts on a channel.
fn start_on(channel: u8, start: u32) -> u32 {
    match channel {
        37..=39 => 0x555555,
        _ => start,
    }
}

/// Document 02's number of a refusal, or 0.
fn refused(channel: u8, octets: usize) -> u8 {
    match (channel, octets) {
        (40.., _) => 10,
        (_, 43..) => 2,
        (_, ..=4) => 1,
        _ => 0,
    }
}

/// Whether the last three octets are the CRC of those before them, once the whitening is taken off.
fn good(channel: u8, start: u32, packet: &[u8]) -> bool {
    let mut octets = packet.to_vec();
    whiten(channel, &mut octets);
    let last = octets.split_off(octets.len() - 3);
    last == crc(start_on(channel, start), &octets)
}

pub fn answer(r: &Request, out: &mut Vec<u8>) {
    let (n, s) = (&r.numbers, &r.parts[0]);
    match r.kind {
        Kind::Whiten => {
            let number = refused(n[0] as u8, s.len());
            let at = out.len() + 1;
            out.push(number);
            out.extend(s);
            if number == 0 {
                whiten(n[0] as u8, &mut out[at..]);
            }
            out.extend(behind(s.len()));
            // A second time: the packet is back.
            out.push(number);
            out.extend(s);
            out.extend(behind(s.len()));
        }
        Kind::Crc => {
            out.extend(crc(n[0] as u32, s));
            out.push(0);
        }
        Kind::CrcOctets => out.extend(crc(n[0] as u32, s)),
        Kind::CrcFlag => {
            let number = refused(n[0] as u8, s.len());
            out.push(number);
            out.push((number == 0 && good(n[0] as u8, n[1] as u32, s)) as u8);
            out.extend(s);
            out.extend(behind(s.len()));
        }
        other => panic!("{other:?} is rubble's"),
    }
}
