//! Octets, UUIDs, headers and PDUs read and written at a position, filters, a player's name, and a connect request's settings.
use super::{array, got, lent, packet, sizes, Got, In, Out, Packet};
use crate::request::{Kind, Request};
use crate::settings;

#[repr(C)]
struct Part {
    number: u8,
    start: usize,
    len: usize,
    next: usize,
}

/// Octets that were read, and the position after them.
#[repr(C)]
struct Octets<const N: usize> {
    number: u8,
    octets: [u8; N],
    next: usize,
}

#[repr(C)]
struct NameSaid {
    number: u8,
    in_reply: bool,
    start: usize,
    len: usize,
}

#[repr(C)]
struct SettingsSaid {
    number: u8,
    hop: u8,
    map: [u8; 5],
    channels: u8,
    interval: u16,
    latency: u16,
    timeout: u16,
    win_size: u8,
    win_offset: u16,
}

extern "C" {
    fn board_skip(s: In, s_len: usize, at: usize, n: usize) -> Got;
    fn board_bytes_left(s: In, s_len: usize, at: usize) -> Got;
    fn board_read_slice(s: In, s_len: usize, at: usize, n: usize) -> Part;
    fn board_read_into(s: In, s_len: usize, at: usize, dst: Out, dst_len: usize) -> Got;
    fn board_read_array5(s: In, s_len: usize, at: usize) -> Octets<5>;
    fn board_read_array6(s: In, s_len: usize, at: usize) -> Octets<6>;
    fn board_read_u8(s: In, s_len: usize, at: usize) -> Got;
    fn board_read_u16_le(s: In, s_len: usize, at: usize) -> Got;
    fn board_read_u32_le(s: In, s_len: usize, at: usize) -> Got;
    fn board_write_skip(out: In, out_len: usize, at: usize, n: usize) -> Got;
    fn board_space_left(out: In, out_len: usize, at: usize) -> usize;
    fn board_write_slice(out: Out, out_len: usize, at: usize, other: In, other_len: usize) -> Got;
    fn board_write_slice_truncate(out: Out, out_len: usize, at: usize, other: In, other_len: usize) -> Got;
    fn board_write_u8(out: Out, out_len: usize, at: usize, byte: u8) -> Got;
    fn board_write_u16_le(out: Out, out_len: usize, at: usize, value: u16) -> Got;
    fn board_write_u32_le(out: Out, out_len: usize, at: usize, value: u32) -> Got;
    fn board_read_uuid16(s: In, s_len: usize, at: usize) -> Got;
    fn board_read_uuid32(s: In, s_len: usize, at: usize) -> Got;
    fn board_read_uuid128(s: In, s_len: usize, at: usize) -> Octets<16>;
    fn board_write_uuid16(out: Out, out_len: usize, at: usize, value: u16) -> Got;
    fn board_write_uuid32(out: Out, out_len: usize, at: usize, value: u32) -> Got;
    fn board_write_uuid128(out: Out, out_len: usize, at: usize, octets: *const [u8; 16]) -> Got;
    fn board_read_header(s: In, s_len: usize, at: usize) -> Got;
    fn board_write_header(out: Out, out_len: usize, at: usize, raw: In, raw_len: usize) -> Got;
    fn board_read_pdu(s: In, s_len: usize, at: usize) -> Packet;
    fn board_whitelist(list: In, list_len: usize, octets: *const [u8; 6], random: bool) -> Got;
    fn board_may_scan(
        scan: bool, connect: bool, list: In, list_len: usize, octets: *const [u8; 6], random: bool,
    ) -> Got;
    fn board_may_connect(
        scan: bool, connect: bool, list: In, list_len: usize, octets: *const [u8; 6], random: bool,
    ) -> Got;
    fn board_should_scan(scan: bool, list: In, list_len: usize, octets: *const [u8; 6], random: bool) -> Got;
    fn board_discoverable_flags() -> u8;
    fn board_broadcast_flags() -> u8;
    fn board_name(advertisement: In, advertisement_len: usize, reply: In, reply_len: usize) -> NameSaid;
    fn board_settings(octets: *const [u8; settings::OCTETS]) -> SettingsSaid;
}

fn octets<const N: usize>(read: Octets<N>, out: &mut Vec<u8>) {
    out.push(read.number);
    out.extend(read.octets);
    sizes([read.next], out);
}

/// A function that reads at a position; `request.rs` has their numbers.
fn read(n: &[u64], s: &[u8], out: &mut Vec<u8>) {
    let (at, size) = (n[1] as usize, n[2] as usize);
    let (from, len) = (s.as_ptr(), s.len());
    unsafe {
        match n[0] {
            0 => got(board_skip(from, len, at, size), out),
            1 => got(board_bytes_left(from, len, at), out),
            2 => {
                let part = board_read_slice(from, len, at, size);
                out.push(part.number);
                sizes([part.start, part.len, part.next], out);
            }
            3 => {
                let mut dst = lent(n[2]);
                got(board_read_into(from, len, at, dst.as_mut_ptr(), size), out);
                out.extend(dst);
            }
            4 => octets(board_read_array5(from, len, at), out),
            5 => octets(board_read_array6(from, len, at), out),
            6 => got(board_read_u8(from, len, at), out),
            7 => got(board_read_u16_le(from, len, at), out),
            _ => got(board_read_u32_le(from, len, at), out),
        }
    }
}

/// Writes into a new buffer, which is answered whole, with the octets after it.
fn written(space: u64, out: &mut Vec<u8>, write: impl FnOnce(Out, usize) -> Got) {
    let mut buffer = lent(space);
    got(write(buffer.as_mut_ptr(), space as usize), out);
    out.extend(buffer);
}

fn write(n: &[u64], s: &[u8], out: &mut Vec<u8>) {
    let (at, size) = (n[1] as usize, n[3] as usize);
    written(n[2], out, |to, len| unsafe {
        match n[0] {
            0 => board_write_skip(to, len, at, size),
            1 => Got { number: 0, first: board_space_left(to, len, at), second: 0 },
            2 => board_write_slice(to, len, at, s.as_ptr(), s.len()),
            3 => board_write_slice_truncate(to, len, at, s.as_ptr(), s.len()),
            4 => board_write_u8(to, len, at, size as u8),
            5 => board_write_u16_le(to, len, at, size as u16),
            _ => board_write_u32_le(to, len, at, size as u32),
        }
    });
}

fn write_uuid(n: &[u64], full: [u8; 16], out: &mut Vec<u8>) {
    let at = n[1] as usize;
    let value = u32::from_le_bytes(array(&full[..4]));
    written(n[2], out, |to, len| unsafe {
        match n[0] {
            16 => board_write_uuid16(to, len, at, value as u16),
            32 => board_write_uuid32(to, len, at, value),
            _ => board_write_uuid128(to, len, at, &full),
        }
    });
}

fn name(advertisement: &[u8], reply: &[u8], out: &mut Vec<u8>) {
    let said = unsafe { board_name(advertisement.as_ptr(), advertisement.len(), reply.as_ptr(), reply.len()) };
    out.extend([said.number, said.in_reply as u8]);
    sizes([said.start, said.len], out);
}

fn taken(octets: [u8; settings::OCTETS], out: &mut Vec<u8>) {
    let said = unsafe { board_settings(&octets) };
    out.extend([said.number, said.hop]);
    out.extend(said.map);
    out.push(said.channels);
    out.extend([said.interval, said.latency, said.timeout].iter().flat_map(|n| n.to_le_bytes()));
    out.push(said.win_size);
    out.extend(said.win_offset.to_le_bytes());
}

pub fn answer(r: &Request, out: &mut Vec<u8>) {
    let n = &r.numbers;
    let p = &r.parts;
    let (s, len) = (p.first().map_or(std::ptr::null(), |p| p.as_ptr()), p.first().map_or(0, |p| p.len()));
    unsafe {
        match r.kind {
            Kind::ReadPdu => packet(board_read_pdu(s, len, n[0] as usize), out),
            Kind::ReadHeader => got(board_read_header(s, len, n[0] as usize), out),
            Kind::WriteHeader => {
                written(n[1], out, |to, space| board_write_header(to, space, n[0] as usize, s, len))
            }
            Kind::ReadAt => read(n, &p[0], out),
            Kind::WriteAt => write(n, &p[0], out),
            Kind::ReadUuid => match n[0] {
                16 => got(board_read_uuid16(s, len, n[1] as usize), out),
                32 => got(board_read_uuid32(s, len, n[1] as usize), out),
                _ => octets(board_read_uuid128(s, len, n[1] as usize), out),
            },
            Kind::WriteUuid => write_uuid(n, array(&p[0]), out),
            Kind::Whitelist => got(board_whitelist(s, len, &array(&p[1]), n[0] == 1), out),
            Kind::MayScan => got(board_may_scan(n[0] == 1, n[1] == 1, s, len, &array(&p[1]), n[2] == 1), out),
            Kind::MayConnect => got(board_may_connect(n[0] == 1, n[1] == 1, s, len, &array(&p[1]), n[2] == 1), out),
            Kind::ShouldScan => got(board_should_scan(n[0] == 1, s, len, &array(&p[1]), n[1] == 1), out),
            Kind::Name => name(&p[0], &p[1], out),
            Kind::Settings => taken(array(&p[0]), out),
            Kind::NamedFlags => out.extend([board_discoverable_flags(), board_broadcast_flags()]),
            other => panic!("{other:?} is asked elsewhere"),
        }
    }
}
