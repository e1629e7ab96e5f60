//! Octets, UUIDs, headers and PDUs read and written at a position, and filters, by rubble. Its readers and writers hold a slice: a position is
//! the start of that slice, and past the end, where no slice begins, there is nothing to read and no space (document 01's 1).
use super::{address, got, no_packet, number, packet_of, panics, whitelist, whole};
use crate::ours::pattern;
use crate::request::{Kind, Request};
use rubble::bytes::{ByteReader, ByteWriter, FromBytes, ToBytes};
use rubble::link::ad_structure::Flags;
use rubble::link::advertising::{Header, Pdu};
use rubble::link::filter::{AddressFilter, AdvFilter, AllowAll, ScanFilter, SliceIter, WhitelistFilter};
use rubble::link::DeviceAddress;
use rubble::uuid::{Uuid128, Uuid16, Uuid32};
use rubble::Error;

/// A reader from a position on.
fn reader(s: &[u8], at: u64) -> Result<ByteReader<'_>, Error> {
    s.get(at as usize..).map(ByteReader::new).ok_or(Error::Eof)
}

/// The position of a reader of s.
fn behind(s: &[u8], reader: &ByteReader<'_>) -> u64 {
    (s.len() - reader.bytes_left()) as u64
}

/// A number that was read at a position, and the position after it.
fn value(s: &[u8], at: u64, out: &mut Vec<u8>, read: impl FnOnce(&mut ByteReader<'_>) -> Result<u64, Error>) {
    let done = reader(s, at).and_then(|mut r| read(&mut r).map(|value| (value, behind(s, &r))));
    match done {
        Ok((value, next)) => got(0, value, next, out),
        Err(e) => got(number(e), 0, 0, out),
    }
}

/// Octets that were read at a position, and the position after them.
fn array<const N: usize>(
    s: &[u8],
    at: u64,
    out: &mut Vec<u8>,
    read: impl FnOnce(&mut ByteReader<'_>) -> Result<[u8; N], Error>,
) {
    let done = reader(s, at).and_then(|mut r| read(&mut r).map(|octets| (0, octets, behind(s, &r))));
    let (number, octets, next) = done.unwrap_or_else(|e| (number(e), [0; N], 0));
    out.push(number);
    out.extend(octets);
    out.extend(next.to_le_bytes());
}

fn read_slice(s: &[u8], at: u64, n: usize, out: &mut Vec<u8>) {
    let done = reader(s, at).and_then(|mut r| {
        let part = r.read_slice(n)?;
        let start = part.as_ptr() as usize - s.as_ptr() as usize;
        Ok((0, [start as u64, part.len() as u64, behind(s, &r)]))
    });
    let (number, place) = done.unwrap_or_else(|e| (number(e), [0; 3]));
    out.push(number);
    out.extend(place.iter().flat_map(|n| n.to_le_bytes()));
}

fn read_into(s: &[u8], at: u64, n: usize, out: &mut Vec<u8>) {
    let mut dst = pattern(n);
    let done = reader(s, at).and_then(|mut r| {
        dst.copy_from_slice(r.read_slice(n)?);
        Ok(behind(s, &r))
    });
    match done {
        Ok(next) => got(0, next, 0, out),
        Err(e) => got(number(e), 0, 0, out),
    }
    whole(&dst, out);
}

fn read(n: &[u64], s: &[u8], out: &mut Vec<u8>) {
    let (at, size) = (n[1], n[2] as usize);
    match n[0] {
        0 => match reader(s, at).and_then(|mut r| r.skip(size).map(|()| behind(s, &r))) {
            Ok(next) => got(0, next, 0, out),
            Err(e) => got(number(e), 0, 0, out),
        },
        1 => {
            let left = reader(s, at).unwrap_or(ByteReader::new(&[]));
            got(0, left.bytes_left() as u64, left.is_empty() as u64, out)
        }
        2 => read_slice(s, at, size, out),
        3 => read_into(s, at, size, out),
        4 => array::<5>(s, at, out, |r| r.read_array()),
        5 => array::<6>(s, at, out, |r| r.read_array()),
        6 => value(s, at, out, |r| r.read_u8().map(u64::from)),
        7 => value(s, at, out, |r| r.read_u16_le().map(u64::from)),
        _ => value(s, at, out, |r| r.read_u32_le().map(u64::from)),
    }
}

/// Writes at a position of a new buffer, which is answered whole, with the octets after it; before the buffer what `write` says, then the position
/// after what was written.
fn written<T: Into<Option<u64>>>(
    at: u64,
    space: u64,
    out: &mut Vec<u8>,
    write: impl FnOnce(&mut ByteWriter<'_>) -> Result<T, u8>,
) {
    let mut buffer = pattern(space as usize);
    let done = buffer.get_mut(at as usize..).ok_or(1).and_then(|rest| {
        let mut writer = ByteWriter::new(rest);
        let said = write(&mut writer)?.into();
        Ok((said, space - writer.space_left() as u64))
    });
    match done {
        Ok((Some(said), next)) => got(0, said, next, out),
        Ok((None, next)) => got(0, next, 0, out),
        Err(refused) => {
            got(refused, 0, 0, out);
            buffer = pattern(space as usize);
        }
    }
    whole(&buffer, out);
}

fn write(n: &[u64], s: &[u8], out: &mut Vec<u8>) {
    let (at, space, size) = (n[1], n[2], n[3]);
    if n[0] == 1 {
        let mut buffer = pattern(space as usize);
        let left = buffer.get_mut(at as usize..).map_or(0, |rest| ByteWriter::new(rest).space_left());
        got(0, left as u64, 0, out);
        return whole(&buffer, out);
    }
    written(at, space, out, |w| {
        if n[0] == 3 {
            return Ok(Some(w.write_slice_truncate(s) as u64));
        }
        let done = match n[0] {
            0 => w.skip(size as usize),
            2 => w.write_slice(s),
            4 => w.write_u8(size as u8),
            5 => w.write_u16_le(size as u16),
            _ => w.write_u32_le(size as u32),
        };
        done.map(|()| None).map_err(number)
    });
}

fn write_uuid(n: &[u64], full: [u8; 16], out: &mut Vec<u8>) {
    let value = u32::from_le_bytes([full[0], full[1], full[2], full[3]]);
    written(n[1], n[2], out, |w| {
        let done = match n[0] {
            16 => Uuid16(value as u16).to_bytes(w),
            32 => Uuid32(value).to_bytes(w),
            _ => Uuid128::from_bytes(full).to_bytes(w),
        };
        done.map(|()| None).map_err(number)
    });
}

fn octets(uuid: Uuid128) -> [u8; 16] {
    let mut octets = [0; 16];
    uuid.to_bytes(&mut ByteWriter::new(&mut octets)).expect("16 octets have room");
    octets
}

/// rubble's filters, chosen at run time.
enum Filter<'a> {
    All(AllowAll),
    List(WhitelistFilter<SliceIter<'a>>),
}

impl<'a> Filter<'a> {
    fn new(in_use: bool, addresses: &'a [DeviceAddress]) -> Self {
        if in_use {
            Filter::List(WhitelistFilter::from_slice(addresses))
        } else {
            Filter::All(AllowAll)
        }
    }
}

impl AddressFilter for Filter<'_> {
    fn matches(&self, address: DeviceAddress) -> bool {
        match self {
            Filter::All(all) => all.matches(address),
            Filter::List(list) => list.matches(address),
        }
    }
}

/// Whether a filter that has the list in use, or not, lets an address pass. A bad list is refused where it is in use.
fn passes(in_use: bool, list: &[u8], out: &mut Vec<u8>, asks: impl FnOnce(&[DeviceAddress]) -> bool) {
    match whitelist(list) {
        Err(refused) if in_use => got(refused, 0, 0, out),
        read => got(0, asks(&read.unwrap_or_default()) as u64, 0, out),
    }
}

pub fn answer(r: &Request, out: &mut Vec<u8>) {
    let n = &r.numbers;
    let p = &r.parts;
    match r.kind {
        Kind::ReadPdu => match reader(&p[0], n[0]).and_then(|mut r| Pdu::from_bytes(&mut r)) {
            Ok(pdu) => packet_of(pdu, p[0].len() - n[0] as usize - 2, out),
            Err(e) => no_packet(number(e), out),
        },
        Kind::ReadHeader => value(&p[0], n[0], out, |r| Header::from_bytes(r).map(|h| h.to_u16() as u64)),
        Kind::WriteHeader => match panics(4, || Header::parse(&p[0])) {
            Ok(header) => written(n[0], n[1], out, |w| header.to_bytes(w).map(|()| None).map_err(number)),
            Err(refused) => {
                got(refused, 0, 0, out);
                whole(&pattern(n[1] as usize), out);
            }
        },
        Kind::ReadAt => read(n, &p[0], out),
        Kind::WriteAt => write(n, &p[0], out),
        Kind::ReadUuid => match n[0] {
            16 => value(&p[0], n[1], out, |r| Uuid16::from_bytes(r).map(|uuid| uuid.0 as u64)),
            32 => value(&p[0], n[1], out, |r| Uuid32::from_bytes(r).map(|uuid| uuid.0 as u64)),
            _ => array(&p[0], n[1], out, |r| <Uuid128 as FromBytes>::from_bytes(r).map(octets)),
        },
        Kind::WriteUuid => write_uuid(n, p[0][..].try_into().expect("16 octets"), out),
        Kind::Whitelist => {
            let who = address(&p[1], n[0] == 1);
            passes(true, &p[0], out, |list| WhitelistFilter::from_slice(list).matches(who))
        }
        Kind::MayScan | Kind::MayConnect => {
            let who = address(&p[1], n[2] == 1);
            let scans = r.kind == Kind::MayScan;
            passes(n[!scans as usize] == 1, &p[0], out, |list| {
                let policy = AdvFilter::new(Filter::new(n[0] == 1, list), Filter::new(n[1] == 1, list));
                if scans { policy.may_scan(who) } else { policy.may_connect(who) }
            })
        }
        Kind::ShouldScan => {
            let who = address(&p[1], n[1] == 1);
            passes(n[0] == 1, &p[0], out, |list| ScanFilter::new(Filter::new(n[0] == 1, list)).should_scan(who))
        }
        Kind::NamedFlags => out.extend([Flags::discoverable().to_u8(), Flags::broadcast().to_u8()]),
        other => panic!("{other:?} is asked elsewhere"),
    }
}
