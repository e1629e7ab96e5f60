//! Lists of calls on a device.
use crate::inputs::{area, count, damage, length, likely_count, map, neighbour, pad, payload, write_over};
use crate::request::{Kind, Request, CALL};
use crate::rng::Rng;
use crate::settings::{self, made};

const START: u8 = 0;
const TICK: u8 = 1;
const PACKET: u8 = 2;
const EVENT: u8 = 3;
const STOP: u8 = 4;
const SET: u8 = 5;
/// Names no call, and is a stop.
const OTHER: u8 = 6;

const SCAN_REQ: u8 = 3;
const CONNECT_REQ: u8 = 5;

const STANDBY: usize = 0;
const ADVERTISING: usize = 1;
const CONNECTED: usize = 2;

/// Calls that are likely in each mode; those that it refuses are among them.
const LIKELY: [&[u8]; 3] = [
    &[START, START, START, START, START, START, TICK, PACKET, EVENT, SET, STOP, OTHER],
    &[START, TICK, TICK, TICK, PACKET, PACKET, PACKET, PACKET, PACKET, PACKET, PACKET, PACKET, EVENT, SET, STOP],
    &[START, TICK, PACKET, EVENT, EVENT, EVENT, EVENT, EVENT, EVENT, EVENT, EVENT, EVENT, SET, STOP],
];

/// A packet as a radio hands it over.
#[derive(Clone)]
struct Packet {
    header: [u8; 2],
    payload: Vec<u8>,
    crc_ok: bool,
}

/// A list that is made, with the mode that its calls are likely to lead to.
struct List<'a> {
    rng: &'a mut Rng,
    own: Vec<u8>,
    random: u8,
    mode: usize,
    calls: Vec<u8>,
}

impl<'a> List<'a> {
    fn new(rng: &'a mut Rng) -> Self {
        let own = if rng.bit() == 0 { vec![1, 2, 3, 4, 5, 6] } else { rng.octets(6) };
        let random = rng.bit() as u8;
        List { rng, own, random, mode: STANDBY, calls: Vec::new() }
    }

    fn request(self, first: usize, second: usize) -> Request {
        Request::new(Kind::Calls, &[self.random as u64, first as u64, second as u64], &[&self.own, &self.calls])
    }

    /// A call with any time and interval; `second` lends the second buffer.
    fn push(&mut self, kind: u8, second: bool, packet: &Packet) {
        let n = packet.payload.len();
        let mut c = [0; CALL];
        c[..4].copy_from_slice(&[kind, packet.crc_ok as u8, second as u8, n as u8]);
        let (any, choice) = (self.rng.next(), self.rng.next());
        for (at, octet) in c[4..12].iter_mut().enumerate() {
            *octet = [any.to_le_bytes()[at], any.to_le_bytes()[at], 0, 0xFF][choice as usize >> (2 * at) & 3];
        }
        c[12..14].copy_from_slice(&packet.header);
        c[14..14 + n].copy_from_slice(&packet.payload);
        self.calls.extend(c);
    }

    fn plain(&mut self, kind: u8) {
        let second = self.rng.one_in(5);
        self.push(kind, second, &Packet { header: [0; 2], payload: Vec::new(), crc_ok: true });
        if kind >= STOP {
            self.mode = STANDBY;
        }
    }

    fn start_with(&mut self, records: Vec<u8>, second: bool) {
        self.push(START, second, &Packet { header: [0; 2], payload: records, crc_ok: true });
    }

    /// Scan data around the most that a reply holds, sometimes damaged or with zeros after them, any, or none.
    fn set(&mut self) {
        let n = match self.rng.below(8) {
            0..=3 => self.rng.below(32),
            4 | 5 => 28 + self.rng.below(7),
            6 => 0,
            _ => length(self.rng),
        };
        let mut records = area(self.rng, n);
        match self.rng.below(12) {
            0 | 1 => damage(self.rng, &mut records),
            2 => pad(self.rng, &mut records),
            _ => {}
        }
        records.truncate(255);
        let second = self.rng.one_in(5);
        self.push(SET, second, &Packet { header: [0; 2], payload: records, crc_ok: true });
    }

    /// A start that a buffer of 37 octets has room for.
    fn start(&mut self) {
        let n = self.rng.below(29);
        let records = area(self.rng, if n == 1 { 2 } else { n });
        self.start_with(records, false);
        self.mode = ADVERTISING;
    }

    /// A start with records of any length, sometimes damaged or with zeros after them.
    fn any_start(&mut self) {
        let n = if self.rng.bit() == 0 { 24 + self.rng.below(9) } else { length(self.rng) };
        let mut records = area(self.rng, n);
        match self.rng.below(8) {
            0 | 1 => damage(self.rng, &mut records),
            2 => pad(self.rng, &mut records),
            _ => {}
        }
        records.truncate(255);
        let second = self.rng.one_in(5);
        self.start_with(records, second);
    }

    /// A request to the device, with n octets that its header counts. A connect request's settings are within the ranges.
    fn request_to_us(&mut self, ty: u8, n: usize) -> Packet {
        let mut p = payload(self.rng, ty, n);
        write_over(&mut p, 6, &self.own);
        if ty == CONNECT_REQ {
            write_over(&mut p, settings::START, &made::within(self.rng));
            if self.rng.bit() == 0 {
                write_over(&mut p, 28, &good_map(self.rng));
            }
        }
        let header = [ty | (self.rng.octet() & 0x70) | self.random << 7, count(self.rng, n)];
        Packet { header, payload: p, crc_ok: true }
    }

    /// A request that the device takes: its type's octets, or further ones as far as a header can count.
    fn good_request(&mut self, ty: u8) -> Packet {
        let least = if ty == CONNECT_REQ { 34 } else { 12 };
        let n = if self.rng.bit() == 0 { least } else { least + self.rng.below(64 - least) };
        self.request_to_us(ty, n)
    }

    /// A good request with one thing off.
    fn near_miss(&mut self) -> Packet {
        let ty = self.rng.pick(&[1, SCAN_REQ, SCAN_REQ, CONNECT_REQ, CONNECT_REQ, CONNECT_REQ]);
        let mut p = self.good_request(ty);
        let wrong = if ty == CONNECT_REQ { 16 } else { 9 };
        match self.rng.below(wrong) {
            0 => p.payload[6 + self.rng.below(6)] ^= 1 << self.rng.below(8),
            1 => p.header[0] ^= 0x80,
            2 => p.crc_ok = false,
            3 => {
                p.payload.pop();
            }
            4 => p.payload.push(self.rng.octet()),
            5 => p.header[1] ^= 1 << self.rng.below(6),
            6 => p.header[0] = (p.header[0] & 0xF0) | neighbour(self.rng, ty),
            // Longer by what six bits do not count.
            7 => {
                let more = 64 * (1 + self.rng.below(3));
                p.payload.extend(self.rng.octets(more));
            }
            // The addresses in each other's place.
            8 => p.payload[..12].rotate_left(6),
            9 => p.payload[28..33].fill(0),
            10 => p.payload[28..33].copy_from_slice(&[0, 0, 0, 0, self.rng.pick(&[0x20, 0x40, 0x80, 0xE0])]),
            // The hop is five bits; those above are the clock's accuracy.
            11 => p.payload[33] |= self.rng.pick(&[0x20, 0x40, 0x80, 0xE0]),
            12 | 13 => self.leave_ranges(&mut p),
            // No channel, and another setting off: 6 comes before 12.
            14 => {
                self.leave_ranges(&mut p);
                p.payload[28..32].fill(0);
                p.payload[32] &= 0xE0;
            }
            _ => {
                let any = self.rng.octets(settings::OCTETS);
                write_over(&mut p.payload, settings::START, &any);
            }
        }
        p
    }

    /// Puts a setting of a connect request outside its range.
    fn leave_ranges(&mut self, p: &mut Packet) {
        write_over(&mut p.payload, settings::START, &made::outside(self.rng));
    }

    /// A packet of any type and length, mostly to the device.
    fn any_packet(&mut self) -> Packet {
        let ty = if self.rng.one_in(4) { self.rng.octet() % 16 } else { self.rng.pick(&[1, SCAN_REQ, CONNECT_REQ]) };
        let n = length(self.rng);
        let mut p = self.request_to_us(ty, n);
        p.header[1] = likely_count(self.rng, n);
        if self.rng.one_in(6) {
            p.header[0] ^= 0x80;
        }
        if self.rng.one_in(6) {
            let other = self.rng.octets(6);
            write_over(&mut p.payload, 6, &other);
        }
        if ty == CONNECT_REQ && self.rng.one_in(6) {
            self.leave_ranges(&mut p);
        }
        p.crc_ok = !self.rng.one_in(8);
        p
    }

    fn packet(&mut self) {
        let p = match self.rng.below(8) {
            0 | 1 => {
                let mut p = self.good_request(CONNECT_REQ);
                if self.rng.one_in(6) {
                    self.leave_ranges(&mut p);
                }
                p
            }
            2 | 3 => self.good_request(SCAN_REQ),
            4 | 5 => self.near_miss(),
            _ => self.any_packet(),
        };
        let second = self.rng.one_in(4);
        self.push(PACKET, second, &p);
        if self.mode == ADVERTISING && connects(&p, &self.own, self.random) {
            self.mode = CONNECTED;
        }
    }

    /// A call of a kind that is likely in the mode.
    fn any_call(&mut self) {
        match self.rng.pick(LIKELY[self.mode]) {
            START if self.rng.bit() == 0 => self.start(),
            START => self.any_start(),
            PACKET => self.packet(),
            SET => self.set(),
            kind => self.plain(kind),
        }
    }

    /// A call that a connected device refuses.
    fn refused_call(&mut self) {
        match self.rng.below(3) {
            0 => self.plain(TICK),
            1 => self.packet(),
            _ => self.start_with(vec![5], false),
        }
    }

    /// From a start over a few ticks and packets, fewer than so many, to a connection.
    fn connect(&mut self, few: usize) {
        self.start();
        for _ in 0..self.rng.below(few) {
            if self.mode == ADVERTISING && self.rng.bit() == 0 {
                self.packet();
            } else if self.mode == ADVERTISING {
                self.plain(TICK);
            }
        }
        if self.mode == ADVERTISING {
            let p = self.good_request(CONNECT_REQ);
            self.push(PACKET, false, &p);
            self.mode = CONNECTED;
        }
    }

    /// Events of a connection; before one of so many comes a call that is refused.
    fn events(&mut self, count: usize, refused: usize) {
        for _ in 0..count {
            if self.rng.one_in(refused) {
                self.refused_call();
            }
            self.plain(EVENT);
        }
    }

    /// A connection and its events, refused calls among them.
    fn connection(&mut self, events: usize) {
        if self.rng.bit() == 0 {
            self.set();
        }
        self.connect(6);
        self.events(events, 24);
        // The next start ends the connection where no stop does.
        if self.rng.bit() == 0 {
            self.plain(STOP);
        }
    }
}

/// A map that marks two channels or more.
fn good_map(rng: &mut Rng) -> [u8; 5] {
    loop {
        let mut map = map(rng);
        if rng.one_in(4) {
            map[rng.below(5)] |= 1 << rng.below(5);
        }
        let marks = map.iter().map(|octet| octet.count_ones()).sum::<u32>() - (map[4] & 0xE0).count_ones();
        if marks >= 2 {
            return map;
        }
    }
}

/// Whether an advertising device takes the packet as a connect request, and begins a connection.
fn connects(p: &Packet, own: &[u8], random: u8) -> bool {
    p.crc_ok
        && p.header[0] % 16 == CONNECT_REQ
        && p.header[0] >> 7 == random
        && p.header[1] as usize % 64 == p.payload.len()
        && p.payload.len() >= 34
        && p.payload[6..12] == *own
        && settings::of(&p.payload).number() == 0
}

/// Up to 24 calls, with buffers that are often too small.
pub fn short(rng: &mut Rng) -> Request {
    let mut list = List::new(rng);
    for _ in 0..1 + list.rng.below(24) {
        list.any_call();
    }
    let first = if list.rng.one_in(8) { list.rng.below(40) } else { 37 + list.rng.below(8) };
    let second = list.rng.below(38);
    list.request(first, second)
}

/// Three connections or more with 100 to 300 events, in up to 400 calls.
pub fn long(rng: &mut Rng) -> Request {
    let mut list = List::new(rng);
    let mut events = 100 + list.rng.below(201);
    let connections = 3 + list.rng.below(4);
    for left in (1..=connections).rev() {
        let now = if left == 1 { events } else { list.rng.below(2 * events / left + 1) };
        list.connection(now);
        events -= now;
    }
    let first = 37 + list.rng.below(4);
    let second = list.rng.below(38);
    list.request(first, second)
}

/// One connection of more than 100 events, with few calls before it and few refused ones among them, so that many of these can be made.
pub fn connected(rng: &mut Rng) -> Request {
    let mut list = List::new(rng);
    if list.rng.one_in(16) {
        list.set();
    }
    list.connect(3);
    let more = if list.rng.one_in(8) { list.rng.below(8) } else { 0 };
    list.events(101 + more, 256);
    let second = if list.rng.bit() == 0 { 0 } else { 37 };
    list.request(37, second)
}
