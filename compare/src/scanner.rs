//! Packets for a scanner, with filter lists; lists of calls on a scanner.
use crate::inputs::{area, count, damage, filter, length, likely_count, neighbour, packet, payload, spoil, write_over};
use crate::request::{Kind, Request, CALL};
use crate::rng::Rng;

/// A packet with the list that a filtering scanner is lent.
pub struct Heard {
    pub list: Vec<u8>,
    pub header: Vec<u8>,
    pub payload: Vec<u8>,
    pub crc_ok: bool,
}

impl Heard {
    /// The kind of the sender's address: TxAdd.
    pub fn random(&self) -> u64 {
        (self.header.first().unwrap_or(&0) / 64 % 2) as u64
    }

    /// The sender's octets; zeros after a short payload.
    pub fn sender(&self) -> Vec<u8> {
        let mut sender = self.payload.clone();
        sender.resize(6, 0);
        sender
    }
}

/// A beacon that a header can count, and a list that holds its sender after up to two others.
fn beacon(rng: &mut Rng) -> Heard {
    let n = 6 + if rng.bit() == 0 { rng.below(32) } else { rng.below(58) };
    let p = payload(rng, 2, if n == 7 { 6 } else { n });
    listed(rng, p)
}

/// The same with zeros after its records, a quarter of them spoiled, and sometimes damaged.
fn padded(rng: &mut Rng) -> Heard {
    let all = match rng.below(4) {
        0 => 31,
        1 => 57,
        _ => 1 + rng.below(57),
    };
    let n = rng.below(all);
    let mut a = if n == 1 { Vec::new() } else { area(rng, n) };
    let taken = a.len();
    a.resize(all, 0);
    match rng.below(16) {
        0..=3 => spoil(rng, &mut a, taken),
        4 => damage(rng, &mut a),
        _ => {}
    }
    // Spoiled and damaged it may have an octet more.
    a.truncate(57);
    let p = [rng.octets(6), a].concat();
    listed(rng, p)
}

/// A beacon of this payload.
fn listed(rng: &mut Rng, p: Vec<u8>) -> Heard {
    let header = vec![2 | (rng.octet() & 0xF0), count(rng, p.len())];
    let mut list = Vec::new();
    for _ in 0..rng.below(3) {
        list.push(rng.bit() as u8);
        list.extend(rng.octets(6));
    }
    list.push(header[0] / 64 % 2);
    list.extend(&p[..6]);
    Heard { list, header, payload: p, crc_ok: true }
}

/// A beacon of a listed sender with one thing off.
fn near_miss(rng: &mut Rng) -> Heard {
    let mut h = if rng.one_in(3) { padded(rng) } else { beacon(rng) };
    let entry = h.list.len() - 7;
    match rng.below(10) {
        0 => h.header[0] = (h.header[0] & 0xF0) | neighbour(rng, 2),
        1 => h.crc_ok = false,
        2 => {
            h.payload.pop();
        }
        3 => h.payload.push(rng.octet()),
        4 => h.header[1] ^= 1 << rng.below(6),
        5 => h.list[entry] ^= 1,
        6 => h.list[entry + 1 + rng.below(6)] ^= 1 << rng.below(8),
        7 => h.header[0] ^= 0x40,
        // Longer by what six bits do not count.
        8 => {
            let more = 64 * (1 + rng.below(3));
            h.payload.extend(rng.octets(more));
        }
        _ => damage(rng, &mut h.list),
    }
    h
}

/// A packet of any type and length, sometimes damaged, with a list that often has its sender.
fn any(rng: &mut Rng) -> Heard {
    let (mut header, mut p) = packet(rng);
    if rng.bit() == 0 {
        let n = length(rng);
        p = payload(rng, 2, n);
        header = vec![2 | (rng.octet() & 0xF0), likely_count(rng, n)];
    }
    if rng.one_in(6) {
        damage(rng, &mut p);
        p.truncate(255);
    }
    let mut h = Heard { list: Vec::new(), header, payload: p, crc_ok: !rng.one_in(8) };
    h.list = filter(rng, &h.sender(), h.random());
    h
}

pub fn heard(rng: &mut Rng) -> Heard {
    match rng.below(5) {
        0 => beacon(rng),
        1 => padded(rng),
        2 => near_miss(rng),
        _ => any(rng),
    }
}

/// An entry of a scanner's list, at any time and with any interval.
fn entry(rng: &mut Rng, kind: u8, h: &Heard) -> [u8; CALL] {
    let n = h.payload.len();
    let mut c = [0; CALL];
    c[..4].copy_from_slice(&[kind, h.crc_ok as u8, 0, n as u8]);
    for octet in &mut c[4..12] {
        *octet = if rng.bit() == 0 { rng.octet() } else { rng.pick(&[0, 0xFF]) };
    }
    c[12..14].copy_from_slice(&h.header);
    c[14..14 + n].copy_from_slice(&h.payload);
    c
}

/// A packet from one of the list's senders, or from one that is a bit or the kind off.
fn from_listed(rng: &mut Rng, list: &[u8]) -> Heard {
    let mut h = heard(rng);
    if list.len() >= 7 && !rng.one_in(4) {
        let from = 7 * rng.below(list.len() / 7);
        write_over(&mut h.payload, 0, &list[from + 1..from + 7]);
        h.header[0] = (h.header[0] & 0xBF) | (list[from] & 1) << 6;
        match rng.below(6) {
            0 => h.header[0] ^= 0x40,
            1 if h.payload.len() >= 6 => h.payload[rng.below(6)] ^= 1 << rng.below(8),
            _ => {}
        }
    }
    h
}

/// A scanner that lives through packets and timer updates; it is configured at first, mostly, and sometimes again.
pub fn life(rng: &mut Rng, entries: usize) -> Request {
    let address = rng.octets(6);
    let random = rng.bit();
    let list = filter(rng, &address, random);
    lived(rng, entries, &list)
}

/// The same with a list.
pub fn lived(rng: &mut Rng, entries: usize, list: &[u8]) -> Request {
    let mut calls = Vec::new();
    for at in 0..entries {
        let kind = match rng.below(16) {
            0 => 0,
            1..=4 => 1,
            _ => 2,
        };
        let kind = if at == 0 && !rng.one_in(8) { 0 } else { kind };
        let h = if kind == 2 {
            from_listed(rng, list)
        } else {
            Heard { list: Vec::new(), header: vec![0; 2], payload: Vec::new(), crc_ok: true }
        };
        calls.extend(entry(rng, kind, &h));
    }
    Request::new(Kind::ScannerCalls, &[!rng.one_in(3) as u64], &[list, &calls])
}
