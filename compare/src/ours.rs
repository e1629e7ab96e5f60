//! The translation's answers, from libexports.a, libdecode.a, libbasics.a and libbit_stream.a.
mod basics;
pub mod stream;

use crate::request::{last_asked, Kind, Request, CALL};

// A slice crosses as a pointer and a length.
type In = *const u8;
type Out = *mut u8;

#[repr(C)]
#[derive(Clone, Copy, Debug)]
pub struct Got {
    pub number: u8,
    pub first: usize,
    pub second: usize,
}

#[repr(C)]
struct Uuid {
    octets: [u8; 16],
}

#[repr(C)]
struct Channel {
    number: u8,
    index: u8,
    rf_channel: u8,
    whitening_iv: u8,
    freq: u16,
}

#[repr(C)]
struct Map {
    raw: [u8; 5],
    count: u8,
}

#[repr(C)]
struct Structure {
    number: u8,
    kind: u8,
    complete: bool,
    value: u16,
    start: usize,
    len: usize,
    next: usize,
}

#[repr(C)]
struct FlagsSaid {
    bits: u8,
    classic: bool,
    limited: bool,
    general: bool,
    controller: bool,
    host: bool,
}

#[repr(C)]
pub struct Packet {
    pub number: u8,
    pub ty: u8,
    pub sender_random: bool,
    pub sender: [u8; 6],
    pub has_receiver: bool,
    pub receiver_random: bool,
    pub receiver: [u8; 6],
    pub start: usize,
    pub len: usize,
    pub count: usize,
    pub access_address: u32,
    pub crc_init: u32,
    pub win_size: u32,
    pub win_offset: u32,
    pub window_end: u32,
    pub interval: u32,
    pub latency: u16,
    pub timeout: u32,
    pub map: [u8; 5],
    pub map_count: u8,
    pub hop: u8,
    pub sca: u8,
}

#[repr(C)]
struct Head {
    number: u8,
    raw: u16,
    ty: u8,
    tx_add: bool,
    rx_add: bool,
    length: u8,
    is_beacon: bool,
    allows_adv_data: bool,
}

#[repr(C)]
struct Frame {
    number: u8,
    header: u16,
    payload: [u8; 37],
}

#[repr(C)]
struct Sent {
    number: u8,
    header: u16,
    first: u8,
    second: u8,
    third: u8,
}

#[repr(C)]
pub struct Heard {
    number: u8,
    reported: bool,
    random: bool,
    sender: [u8; 6],
    start: usize,
    len: usize,
    pub count: usize,
    taken: usize,
    channel: u8,
}

#[repr(C)]
struct Listened {
    number: u8,
    reported: bool,
    random: bool,
    sender: [u8; 6],
    start: usize,
    len: usize,
    count: usize,
    taken: usize,
    channel: u8,
    next: u32,
}

#[repr(C)]
struct Said {
    number: u8,
    kind: u8,
    advertising: bool,
    connected: bool,
    channel: u8,
    header: u16,
    at: u32,
    access_address: u32,
    crc_init: u32,
}

extern "C" {
    fn board_decode(header: In, header_len: usize, payload: In, payload_len: usize) -> Packet;
    fn board_header(raw: In, raw_len: usize) -> Head;
    fn board_set_header(raw: In, raw_len: usize, tx_add: bool, rx_add: bool, length: u8) -> Got;
    fn board_new_header(ty: u8, tx_add: bool, rx_add: bool, length: u8) -> Got;
    fn board_build(which: u8, own: *const [u8; 6], random: bool, records: In, records_len: usize) -> Frame;
    fn board_build_directed(own: *const [u8; 6], random: bool, other: *const [u8; 6], other_random: bool) -> Frame;
    fn board_area(s: In, s_len: usize) -> Got;
    fn board_padded_area(s: In, s_len: usize) -> Got;
    fn board_record(s: In, s_len: usize, at: usize) -> Structure;
    fn board_known(s: In, s_len: usize, at: usize) -> Structure;
    fn board_write(
        kind: u8, complete: bool, value: u16, start: usize, len: usize, s: In, s_len: usize, at: usize, out: Out,
        out_len: usize,
    ) -> Got;
    fn board_rewrite(s: In, s_len: usize, out: Out, out_len: usize) -> Got;
    fn board_flags(octet: u8) -> FlagsSaid;
    fn board_utf8(s: In, s_len: usize) -> bool;
    fn board_uuid16(value: u16) -> Uuid;
    fn board_uuid32(value: u32) -> Uuid;
    fn board_uuid_at(data: In, data_len: usize, at: usize) -> Got;
    fn board_later(time: u32, micros: u32) -> u32;
    fn board_since(time: u32, earlier: u32) -> u32;
    fn board_advertising_channel(times: u8) -> Channel;
    fn board_data_channel(index: u8) -> Channel;
    fn board_map(raw: *const [u8; 5]) -> Map;
    fn board_all_channels() -> Map;
    fn board_is_used(raw: *const [u8; 5], channel: u8) -> Got;
    fn board_by_index(raw: *const [u8; 5], n: u8) -> Got;
    fn board_hop(raw: *const [u8; 5], unmapped: u8, hop: u8) -> Got;
    fn board_beacon(
        own: *const [u8; 6], random: bool, records: In, records_len: usize, tx: Out, tx_len: usize,
    ) -> Sent;
    fn board_scan(
        filtered: bool, list: In, list_len: usize, updates: u8, header: In, header_len: usize, payload: In,
        payload_len: usize, crc_ok: bool,
    ) -> Heard;
    fn board_scanner(time: u32, interval: u32, updates: u8) -> Got;
    fn board_scanner_call(
        filtered: bool, list: In, list_len: usize, entries: In, entries_len: usize, entry: In, entry_len: usize,
    ) -> Listened;
    fn board_call(
        own: *const [u8; 6], random: bool, calls: In, calls_len: usize, call: In, call_len: usize, first: Out,
        first_len: usize, second: Out, second_len: usize,
    ) -> Said;
}

fn filled(i: usize) -> u8 {
    0xA5 ^ (i as u8).wrapping_mul(7)
}

/// What a buffer holds before a call.
pub fn pattern(len: usize) -> Vec<u8> {
    (0..len).map(filled).collect()
}

/// Octets after each buffer that is lent for writing. They are no part of it, and stand after it in the answer: a write past the end shows.
pub const BEHIND: usize = 8;

/// What stands after a buffer of so many octets.
pub fn behind(len: usize) -> [u8; BEHIND] {
    std::array::from_fn(|i| filled(len + i))
}

/// A buffer of so many octets, and those after it.
fn lent(len: u64) -> Vec<u8> {
    pattern(len as usize + BEHIND)
}

pub fn decode(header: &[u8], payload: &[u8]) -> Packet {
    unsafe { board_decode(header.as_ptr(), header.len(), payload.as_ptr(), payload.len()) }
}

/// What a new scanner that reports all senders says of a packet with a good CRC.
pub fn scanned(header: &[u8], payload: &[u8]) -> Heard {
    let list: [u8; 0] = [];
    unsafe { board_scan(false, list.as_ptr(), 0, 0, header.as_ptr(), header.len(), payload.as_ptr(), payload.len(), true) }
}

fn got(g: Got, out: &mut Vec<u8>) {
    out.push(g.number);
    sizes([g.first, g.second], out);
}

/// Numbers of the machine's size, all octets of each.
fn sizes<const N: usize>(of: [usize; N], out: &mut Vec<u8>) {
    for n in of {
        out.extend((n as u64).to_le_bytes());
    }
}

fn array<const N: usize>(part: &[u8]) -> [u8; N] {
    part.try_into().expect("a part of fixed length")
}

fn structures(s: &[u8], read: unsafe extern "C" fn(In, usize, usize) -> Structure, out: &mut Vec<u8>) {
    let mut at = 0;
    loop {
        let r = unsafe { read(s.as_ptr(), s.len(), at) };
        out.extend([r.number, r.kind, r.complete as u8]);
        out.extend(r.value.to_le_bytes());
        sizes([r.start, r.len, r.next], out);
        if r.number != 0 || r.kind == 0 || r.next <= at {
            return;
        }
        at = r.next;
    }
}

/// The records of an area written again, into a new buffer.
fn rewrite(area: &[u8], space: u64, out: &mut Vec<u8>) {
    let mut buffer = lent(space);
    got(unsafe { board_rewrite(area.as_ptr(), area.len(), buffer.as_mut_ptr(), space as usize) }, out);
    out.extend(buffer);
}

/// A PDU, also a refused one; the fields that its type does not have are to be blank.
fn packet(p: Packet, out: &mut Vec<u8>) {
    out.extend([p.number, p.ty, p.sender_random as u8]);
    out.extend(p.sender);
    out.push(p.has_receiver as u8);
    out.push(p.receiver_random as u8);
    out.extend(p.receiver);
    sizes([p.start, p.len, p.count], out);
    let request = [
        p.access_address, p.crc_init, p.win_size, p.win_offset, p.window_end, p.interval, p.latency as u32, p.timeout,
    ];
    out.extend(request.iter().flat_map(|n| n.to_le_bytes()));
    out.extend(p.map);
    out.extend([p.map_count, p.hop, p.sca]);
}

pub fn answer(r: &Request, out: &mut Vec<u8>) {
    let n = &r.numbers;
    let p = &r.parts;
    unsafe {
        match r.kind {
            Kind::Decode => packet(decode(&p[0], &p[1]), out),
            Kind::Header => {
                let h = board_header(p[0].as_ptr(), p[0].len());
                out.push(h.number);
                out.extend(h.raw.to_le_bytes());
                let bits = [h.tx_add, h.rx_add, h.is_beacon, h.allows_adv_data];
                out.extend([h.ty, h.length]);
                out.extend(bits.map(|b| b as u8));
            }
            Kind::SetHeader => {
                got(board_set_header(p[0].as_ptr(), p[0].len(), n[0] == 1, n[1] == 1, n[2] as u8), out)
            }
            Kind::NewHeader => got(board_new_header(n[0] as u8, n[1] == 1, n[2] == 1, n[3] as u8), out),
            Kind::Build => {
                let f = board_build(n[0] as u8, &array(&p[0]), n[1] == 1, p[1].as_ptr(), p[1].len());
                out.push(f.number);
                out.extend(f.header.to_le_bytes());
                out.extend(f.payload);
            }
            Kind::BuildDirected => {
                let f = board_build_directed(&array(&p[0]), n[0] == 1, &array(&p[1]), n[1] == 1);
                out.push(f.number);
                out.extend(f.header.to_le_bytes());
                out.extend(f.payload);
            }
            Kind::Area => got(board_area(p[0].as_ptr(), p[0].len()), out),
            Kind::Records => structures(&p[0], board_record, out),
            Kind::Known => structures(&p[0], board_known, out),
            Kind::Write => {
                let mut buffer = lent(n[6]);
                let g = board_write(
                    n[0] as u8, n[1] == 1, n[2] as u16, n[3] as usize, n[4] as usize, p[0].as_ptr(), p[0].len(),
                    n[5] as usize, buffer.as_mut_ptr(), n[6] as usize,
                );
                got(g, out);
                out.extend(buffer);
            }
            Kind::Rewrite => rewrite(&p[0], n[0], out),
            Kind::Padded => {
                let g = board_padded_area(p[0].as_ptr(), p[0].len());
                got(g, out);
                if g.number == 0 {
                    rewrite(p[0].get(..g.second).unwrap_or(&p[0]), n[0], out);
                }
            }
            Kind::Flags => {
                let f = board_flags(n[0] as u8);
                out.push(f.bits);
                out.extend([f.classic, f.limited, f.general, f.controller, f.host].map(|b| b as u8));
            }
            Kind::Utf8 => out.push(board_utf8(p[0].as_ptr(), p[0].len()) as u8),
            Kind::Uuid16 => out.extend(board_uuid16(n[0] as u16).octets),
            Kind::Uuid32 => out.extend(board_uuid32(n[0] as u32).octets),
            Kind::UuidList => {
                let mut at = 0;
                loop {
                    let g = board_uuid_at(p[0].as_ptr(), p[0].len(), at);
                    got(g, out);
                    if g.number != 0 || g.second <= at {
                        return;
                    }
                    at = g.second;
                }
            }
            Kind::Later => out.extend(board_later(n[0] as u32, n[1] as u32).to_le_bytes()),
            Kind::Since => out.extend(board_since(n[0] as u32, n[1] as u32).to_le_bytes()),
            Kind::AdvertisingChannel => channel(board_advertising_channel(n[0] as u8), out),
            Kind::DataChannel => channel(board_data_channel(n[0] as u8), out),
            Kind::Map => {
                let raw = array(&p[0]);
                let m = board_map(&raw);
                out.extend(m.raw);
                out.push(m.count);
                for c in 0..=last_asked(&raw) {
                    got(board_is_used(&raw, c), out);
                    got(board_by_index(&raw, c), out);
                }
            }
            Kind::Events => {
                let raw = array(&p[0]);
                let mut unmapped = 0;
                for _ in 0..n[1] {
                    let g = board_hop(&raw, unmapped, n[0] as u8);
                    got(g, out);
                    if g.number != 0 {
                        return;
                    }
                    unmapped = g.first as u8;
                }
            }
            Kind::Beacon => {
                let mut tx = lent(n[1]);
                let own = array(&p[0]);
                let s = board_beacon(&own, n[0] == 1, p[1].as_ptr(), p[1].len(), tx.as_mut_ptr(), n[1] as usize);
                out.push(s.number);
                out.extend(s.header.to_le_bytes());
                out.extend([s.first, s.second, s.third]);
                out.extend(tx);
            }
            Kind::Scan => {
                let h = board_scan(
                    n[0] == 1, p[0].as_ptr(), p[0].len(), n[1] as u8, p[1].as_ptr(), p[1].len(), p[2].as_ptr(),
                    p[2].len(), n[2] == 1,
                );
                out.extend([h.number, h.reported as u8, h.random as u8]);
                out.extend(h.sender);
                sizes([h.start, h.len, h.count, h.taken], out);
                out.push(h.channel);
            }
            Kind::Scanner => got(board_scanner(n[0] as u32, n[1] as u32, n[2] as u8), out),
            Kind::ScannerCalls => scanner_calls(r.numbers[0] == 1, &r.parts[0], &r.parts[1], out),
            Kind::Calls => calls(r, out),
            Kind::AllChannels => {
                let m = board_all_channels();
                out.extend(m.raw);
                out.push(m.count);
            }
            kind if kind.is_stream() => stream::answer(r, out),
            _ => basics::answer(r, out),
        }
    }
}

fn channel(c: Channel, out: &mut Vec<u8>) {
    out.extend([c.number, c.index, c.rf_channel, c.whitening_iv]);
    out.extend(c.freq.to_le_bytes());
}

/// Each call is answered after the calls before it, from a fresh device and fresh buffers on.
fn calls(r: &Request, out: &mut Vec<u8>) {
    let own = array(&r.parts[0]);
    let list = &r.parts[1];
    let (first_len, second_len) = (r.numbers[1], r.numbers[2]);
    let fresh = (lent(first_len), lent(second_len));
    let (mut first, mut second) = fresh.clone();
    for at in (0..list.len() / CALL).map(|i| i * CALL) {
        first.copy_from_slice(&fresh.0);
        second.copy_from_slice(&fresh.1);
        let s = unsafe {
            board_call(
                &own, r.numbers[0] == 1, list.as_ptr(), at, list[at..].as_ptr(), CALL, first.as_mut_ptr(),
                first_len as usize, second.as_mut_ptr(), second_len as usize,
            )
        };
        out.extend([s.number, s.kind, s.advertising as u8, s.connected as u8, s.channel]);
        out.extend(s.header.to_le_bytes());
        out.extend([s.at, s.access_address, s.crc_init].iter().flat_map(|n| n.to_le_bytes()));
        out.extend(&first);
        out.extend(&second);
    }
}

/// Each entry is answered after those before it, from a fresh scanner on.
fn scanner_calls(filters: bool, list: &[u8], entries: &[u8], out: &mut Vec<u8>) {
    for at in (0..entries.len() / CALL).map(|i| i * CALL) {
        let entry = &entries[at..at + CALL];
        let l = unsafe {
            board_scanner_call(
                filters, list.as_ptr(), list.len(), entries.as_ptr(), at, entry.as_ptr(), entry.len(),
            )
        };
        out.extend([l.number, l.reported as u8, l.random as u8]);
        out.extend(l.sender);
        sizes([l.start, l.len, l.count, l.taken], out);
        out.push(l.channel);
        out.extend(l.next.to_le_bytes());
    }
}
