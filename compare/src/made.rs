//! Requests: all of a small kind, and random ones from a seed.
use crate::device;
use crate::inputs::{area, damage, packet, payload};
use crate::request::{Kind, Request};
use crate::rng::Rng;
use crate::scanner::{heard, life, Heard};

/// A share of the requests: those whose place is `mine` modulo `shares`.
pub struct Share {
    pub mine: u64,
    pub shares: u64,
    pub seed: u64,
}

impl Share {
    pub fn rng(&self, suite: u64) -> Rng {
        let mut rng = Rng(self.seed ^ (suite << 32) ^ (self.mine << 48));
        rng.next();
        rng
    }
    pub fn has(&self, place: u64) -> bool {
        place % self.shares == self.mine
    }
}

pub type Each<'a> = &'a mut dyn FnMut(&Request);

/// All headers with payloads of every length; once also after up to three octets of one slice.
pub fn all_headers(share: &Share, each: Each) {
    let mut rng = Rng(share.seed);
    for variant in 0..3 {
        let payloads: Vec<[Vec<u8>; 16]> = (0..=255)
            .map(|n| {
                std::array::from_fn(|ty| {
                    let mut p = payload(&mut rng, ty as u8, n);
                    if variant == 2 && n > 6 {
                        let at = 6 + rng.below(n - 6);
                        p[at] = rng.octet();
                    }
                    p
                })
            })
            .collect();
        let mut apart = Request::new(Kind::Decode, &[], &[&[0, 0], &[]]);
        let mut whole = Request::new(Kind::ReadPdu, &[0], &[&[]]);
        for header in (0..=0xFFFFu64).filter(|h| share.has(*h)) {
            apart.parts[0].copy_from_slice(&(header as u16).to_le_bytes());
            for of_length in &payloads {
                let payload = &of_length[(header % 16) as usize];
                apart.parts[1].clear();
                apart.parts[1].extend_from_slice(payload);
                each(&apart);
                if variant == 0 {
                    let at = (header / 16 + payload.len() as u64) % 4;
                    whole.numbers[0] = at;
                    whole.parts[0].clear();
                    whole.parts[0].extend_from_slice(&[5, 2, 7][..at as usize]);
                    whole.parts[0].extend_from_slice(&apart.parts[0]);
                    whole.parts[0].extend_from_slice(payload);
                    each(&whole);
                }
            }
        }
    }
}

/// Packets whose header counts the payload, and damaged ones; each fourth also after up to three octets of one slice.
pub fn packets(share: &Share, count: u64, each: Each) {
    let mut rng = share.rng(2);
    for n in 0..count / share.shares {
        let (mut header, mut p) = packet(&mut rng);
        if n % 3 == 1 {
            damage(&mut rng, &mut p);
            if rng.bit() == 0 {
                header[1] = p.len() as u8;
            }
        }
        if n % 1000 == 999 {
            header.truncate(rng.below(2));
        }
        each(&Request::new(Kind::Decode, &[], &[&header, &p]));
        if n % 4 == 0 {
            let at = rng.below(4);
            let s = [&rng.octets(at), &header[..], &p].concat();
            each(&Request::new(Kind::ReadPdu, &[at as u64], &[&s]));
        }
    }
}

/// All areas of up to three octets.
pub fn small_areas(share: &Share, each: Each) {
    let mut r = Request::new(Kind::Area, &[], &[&[]]);
    for len in 0..=3u32 {
        for value in (0..1u64 << (8 * len)).filter(|v| share.has(*v)) {
            r.parts[0].clear();
            r.parts[0].extend_from_slice(&value.to_le_bytes()[..len as usize]);
            for kind in [Kind::Area, Kind::Records, Kind::Known] {
                if kind == Kind::Area || len < 3 || value / share.shares % 8 == 0 {
                    r.kind = kind;
                    each(&r);
                }
            }
        }
    }
}

/// Random areas of every length, read, rewritten and built from.
pub fn areas(share: &Share, rounds: u64, each: Each) {
    let mut rng = share.rng(4);
    for round in 0..rounds {
        for len in (0..=300).filter(|n| share.has(*n + round)) {
            let mut a = if rng.below(5) == 0 { rng.octets(len as usize) } else { area(&mut rng, len as usize) };
            if rng.below(3) == 0 {
                damage(&mut rng, &mut a);
            }
            for kind in [Kind::Area, Kind::Records, Kind::Known] {
                each(&Request::new(kind, &[], &[&a]));
            }
            let space = (a.len() as u64 + rng.below(3) as u64).saturating_sub(1);
            each(&Request::new(Kind::Rewrite, &[space], &[&a]));
        }
        for len in (0..=40).filter(|n| share.has(*n + round)) {
            let mut a = area(&mut rng, len as usize);
            if rng.below(4) == 0 {
                damage(&mut rng, &mut a);
            }
            let own = rng.octets(6);
            for which in 0..6 {
                each(&Request::new(Kind::Build, &[which, rng.bit()], &[&own, &a]));
            }
            let space = rng.below(42) as u64;
            each(&Request::new(Kind::Beacon, &[rng.bit(), space], &[&own, &a]));
            let other = rng.octets(6);
            each(&Request::new(Kind::BuildDirected, &[rng.bit(), rng.bit()], &[&own, &other]));
        }
    }
}

/// Every writer around each limit: lengths, space, positions and parts.
pub fn writers(share: &Share, rounds: u64, each: Each) {
    let mut rng = share.rng(5);
    let lengths = [
        0, 1, 2, 3, 4, 5, 7, 8, 15, 16, 17, 31, 32, 33, 48, 63, 64, 127, 128, 240, 250, 251, 252, 253, 254, 255, 256, 257,
        272, 300,
    ];
    let mut place = 0;
    for _ in 0..rounds {
        for kind in 1..=9u64 {
            for len in lengths {
                for spare in [-2i64, -1, 0, 1, 40] {
                    for at in [0u64, 1, 5] {
                        place += 1;
                        if !share.has(place) {
                            continue;
                        }
                        let own = [0, 1, 0, 0, 0, 2, 0, 0, 2, 0][kind as usize];
                        let data = if kind == 1 { 0 } else { len };
                        let space = (at as i64 + 2 + own + data + spare).max(0) as u64;
                        let start = rng.below(3);
                        let size = start + (len as usize).saturating_sub((rng.below(20) == 0) as usize);
                        let s: Vec<u8> = if (kind == 6 || kind == 7) && rng.below(4) != 0 {
                            "aé€𝄞z".bytes().cycle().skip(rng.below(12)).take(size).collect()
                        } else {
                            rng.octets(size)
                        };
                        let value = rng.next() & 0xFFFF;
                        let numbers = [kind, rng.bit(), value, start as u64, len as u64, at, space];
                        each(&Request::new(Kind::Write, &numbers, &[&s]));
                    }
                }
            }
        }
    }
}

/// Two octets of marks at each place of a map, alone and with the others marked.
fn marks(value: u16, form: u64) -> [u8; 5] {
    let [a, b] = value.to_le_bytes();
    let fill = if form >= 5 { 0xFF } else { 0 };
    let mut map = [fill; 5];
    map[form as usize % 5] = a;
    map[(form as usize + 1) % 5] = b;
    map
}

/// All maps of two octets, at each place; with all hops at a place that goes with the map.
pub fn maps(share: &Share, events: u64, each: Each) {
    let mut m = Request::new(Kind::Map, &[], &[&[0; 5]]);
    let mut e = Request::new(Kind::Events, &[0, events], &[&[0; 5]]);
    for value in (0..=0xFFFFu64).filter(|v| share.has(*v)) {
        for form in 0..10 {
            m.parts[0].copy_from_slice(&marks(value as u16, form));
            each(&m);
        }
        e.parts[0].copy_from_slice(&marks(value as u16, (value ^ (value >> 4)) % 10));
        for hop in 0..32 {
            e.numbers[0] = hop + 32 * ((value + hop) % 8);
            each(&e);
        }
    }
}

/// Lists of up to 24 calls.
pub fn lists(share: &Share, count: u64, each: Each) {
    let mut rng = share.rng(7);
    for _ in 0..count / share.shares {
        each(&device::short(&mut rng));
    }
}

/// Lists of up to 400 calls. Ours answers each call from the list's first one on, so a list's time grows with the square of its length.
pub fn long_lists(share: &Share, count: u64, each: Each) {
    let mut rng = share.rng(11);
    for _ in 0..count / share.shares {
        each(&device::long(&mut rng));
    }
}

/// Lists with one connection of more than 100 events.
pub fn connections(share: &Share, count: u64, each: Each) {
    let mut rng = share.rng(37);
    for _ in 0..count.div_ceil(share.shares) {
        each(&device::connected(&mut rng));
    }
}

/// Each filter asked by itself for a packet's sender.
pub fn filters(rng: &mut Rng, h: &Heard, each: Each) {
    let (random, sender) = (h.random(), h.sender());
    each(&Request::new(Kind::Whitelist, &[random], &[&h.list, &sender]));
    for kind in [Kind::MayScan, Kind::MayConnect] {
        each(&Request::new(kind, &[rng.bit(), rng.bit(), random], &[&h.list, &sender]));
    }
    each(&Request::new(Kind::ShouldScan, &[rng.bit(), random], &[&h.list, &sender]));
}

/// A packet for a new scanner, which filters or not, and the filter asked by itself; each 64th time with too short a header.
pub fn scans(share: &Share, count: u64, each: Each) {
    let mut rng = share.rng(8);
    for turn in 0..count / share.shares {
        let mut h = heard(&mut rng);
        filters(&mut rng, &h, each);
        let filters = !rng.one_in(3) as u64;
        let numbers = [filters, rng.below(4) as u64, h.crc_ok as u64];
        each(&Request::new(Kind::Scan, &numbers, &[&h.list, &h.header, &h.payload]));
        if turn % 64 == 0 {
            h.header.truncate((turn / 64 % 2) as usize);
            each(&Request::new(Kind::Scan, &numbers, &[&h.list, &h.header, &h.payload]));
        }
    }
}

/// Scanners that live through up to 40 packets and timer updates, each 32nd through up to 400.
pub fn scanners(share: &Share, count: u64, each: Each) {
    let mut rng = share.rng(12);
    for turn in 0..count / share.shares {
        let entries = 1 + rng.below(if turn % 32 == 0 { 400 } else { 40 });
        each(&life(&mut rng, entries));
    }
}

/// Sizes around what is left at a position.
fn around(left: u64) -> [u64; 5] {
    [0, 1, left.saturating_sub(1), left, left + 1]
}

/// Each reader at a position of s.
fn reads(s: &[u8], at: u64, each: Each) {
    let left = (s.len() as u64).saturating_sub(at);
    for which in [0, 2, 3] {
        for n in around(left) {
            each(&Request::new(Kind::ReadAt, &[which, at, n], &[s]));
        }
    }
    for which in [0, 2] {
        each(&Request::new(Kind::ReadAt, &[which, at, u64::MAX], &[s]));
    }
    for which in [1, 4, 5, 6, 7, 8] {
        each(&Request::new(Kind::ReadAt, &[which, at, 0], &[s]));
    }
    for bits in [16, 32, 128] {
        each(&Request::new(Kind::ReadUuid, &[bits, at], &[s]));
    }
    each(&Request::new(Kind::ReadHeader, &[at], &[s]));
    each(&Request::new(Kind::ReadPdu, &[at], &[s]));
}

/// Each writer at a position of so many octets.
fn writes(rng: &mut Rng, space: u64, at: u64, each: Each) {
    let left = space.saturating_sub(at);
    for n in around(left) {
        each(&Request::new(Kind::WriteAt, &[0, at, space, n], &[&[]]));
        let data = rng.octets(n as usize);
        for which in [2, 3] {
            each(&Request::new(Kind::WriteAt, &[which, at, space, 0], &[&data]));
        }
    }
    each(&Request::new(Kind::WriteAt, &[0, at, space, u64::MAX], &[&[]]));
    for which in [1, 4, 5, 6] {
        each(&Request::new(Kind::WriteAt, &[which, at, space, rng.next()], &[&[]]));
    }
    for bits in [16, 32, 128] {
        each(&Request::new(Kind::WriteUuid, &[bits, at, space], &[&rng.octets(16)]));
    }
    let header = rng.octets(2);
    let kept = if rng.one_in(16) { 1 } else { 2 };
    each(&Request::new(Kind::WriteHeader, &[at, space], &[&header[..kept]]));
}

/// Readers and writers at each position of slices of up to 24 octets and of a longer one, and past the end.
pub fn positions(share: &Share, rounds: u64, each: Each) {
    let mut rng = share.rng(13);
    for round in 0..rounds.div_ceil(share.shares) {
        let longer = 25 + rng.below(276);
        for len in (0..=24).chain([longer]) {
            let s = rng.octets(len);
            for at in (0..=len as u64 + 2).chain([u64::MAX - 1, u64::MAX]) {
                if len < 25 || (at + round) % 8 == 0 {
                    reads(&s, at, each);
                    writes(&mut rng, len as u64, at, each);
                }
            }
        }
    }
}

/// Instants and spans around their limits.
fn instants(each: Each) {
    let edges = [0, 1, 1249, 1250, 299_999_999, 300_000_000, 300_000_001, 0x7FFF_FFFF, 0x8000_0000, 0xFFFF_FFFE, 0xFFFF_FFFF];
    for a in edges {
        for b in edges {
            for kind in [Kind::Later, Kind::Since] {
                each(&Request::new(kind, &[a, b], &[]));
            }
            for updates in 0..4 {
                each(&Request::new(Kind::Scanner, &[a, b, updates], &[]));
            }
        }
    }
}

/// Headers, UUIDs, channels, Flags, instants and UTF-8: all of each where that is a small number.
pub fn small_things(share: &Share, each: Each) {
    let mut rng = share.rng(9);
    if share.has(0) {
        each(&Request::new(Kind::NamedFlags, &[], &[]));
        each(&Request::new(Kind::AllChannels, &[], &[]));
        instants(each);
    }
    for value in (0..=0xFFFFu64).filter(|v| share.has(*v)) {
        let raw = (value as u16).to_le_bytes();
        each(&Request::new(Kind::Header, &[], &[&raw]));
        let at = value / 16 % 4;
        each(&Request::new(Kind::ReadHeader, &[at], &[&[&[9; 3][..at as usize], &raw].concat()]));
        each(&Request::new(Kind::WriteHeader, &[at, at + 3], &[&raw]));
        each(&Request::new(Kind::Uuid16, &[value], &[]));
        for bits in 0..4 {
            for length in [6, 21, 37] {
                each(&Request::new(Kind::SetHeader, &[bits & 1, bits / 2, length], &[&raw]));
            }
            if value % 64 == bits {
                for length in [0, 5, 38, 63, 64, 70, 255] {
                    each(&Request::new(Kind::SetHeader, &[bits & 1, bits / 2, length], &[&raw]));
                }
            }
        }
    }
    for value in (0..=0xFFu64).filter(|v| share.has(*v)) {
        for bits in 0..4 {
            for length in [5, 6, 37, 38] {
                each(&Request::new(Kind::NewHeader, &[value, bits & 1, bits / 2, length], &[]));
            }
        }
        for kind in [Kind::Flags, Kind::AdvertisingChannel, Kind::DataChannel] {
            each(&Request::new(kind, &[value], &[]));
        }
        each(&Request::new(Kind::Header, &[], &[&[value as u8]]));
        each(&Request::new(Kind::SetHeader, &[1, 0, 6], &[&[value as u8]]));
    }
    for _ in 0..400_000 / share.shares {
        let (a, b) = (rng.next() & 0xFFFF_FFFF, rng.next() & 0xFFFF_FFFF);
        each(&Request::new(Kind::Later, &[a, b], &[]));
        each(&Request::new(Kind::Since, &[a, b], &[]));
        each(&Request::new(Kind::Uuid32, &[a], &[]));
        each(&Request::new(Kind::Scanner, &[a, b, b % 4], &[]));
        let n = rng.below(40);
        let list = rng.octets(n);
        each(&Request::new(Kind::UuidList, &[], &[&list]));
    }
}

/// All strings of up to three octets, and all of four whose lead octet may begin four.
pub fn strings(share: &Share, each: Each) {
    let mut r = Request::new(Kind::Utf8, &[], &[&[]]);
    for len in 0..=3u32 {
        for value in (0..1u64 << (8 * len)).filter(|v| share.has(*v)) {
            r.parts[0].clear();
            r.parts[0].extend_from_slice(&value.to_le_bytes()[..len as usize]);
            each(&r);
        }
    }
    let follow = [0x00, 0x7F, 0x80, 0x8F, 0x90, 0x9F, 0xA0, 0xBF, 0xC0, 0xFF];
    for lead in (0xEE..=0xF6u64).filter(|v| share.has(*v)) {
        for second in 0..=0xFF {
            for third in follow {
                for fourth in follow {
                    for fifth in [0x41, 0x80] {
                        r.parts[0] = vec![lead as u8, second, third, fourth, fifth];
                        each(&r);
                        r.parts[0].pop();
                        each(&r);
                    }
                }
            }
        }
    }
}
