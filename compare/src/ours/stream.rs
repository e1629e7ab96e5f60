//! Whitening, the CRC and its flag, from libbit_stream.a.
use super::{behind, In, Out};
use crate::request::{Kind, Request};

#[repr(C)]
pub struct CrcOctets {
    octets: [u8; 3],
}

#[repr(C)]
pub struct FlagSaid {
    pub number: u8,
    pub good: bool,
}

extern "C" {
    fn board_whiten(channel: u8, packet: Out, packet_len: usize) -> u8;
    fn board_crc(start: u32, octets: In, octets_len: usize) -> u32;
    fn board_crc_octets(start: u32, octets: In, octets_len: usize) -> CrcOctets;
    fn board_crc_flag(channel: u8, start: u32, packet: In, packet_len: usize) -> FlagSaid;
}

pub fn whiten(channel: u8, packet: &mut [u8]) -> u8 {
    unsafe { board_whiten(channel, packet.as_mut_ptr(), packet.len()) }
}

pub fn crc(start: u32, octets: &[u8]) -> u32 {
    unsafe { board_crc(start, octets.as_ptr(), octets.len()) }
}

pub fn crc_flag(channel: u8, start: u32, packet: &[u8]) -> FlagSaid {
    unsafe { board_crc_flag(channel, start, packet.as_ptr(), packet.len()) }
}

pub fn answer(r: &Request, out: &mut Vec<u8>) {
    let (n, s) = (&r.numbers, &r.parts[0]);
    // A packet as it is lent: the octets after it are no part of it.
    let lent = || [&s[..], &behind(s.len())].concat();
    match r.kind {
        Kind::Whiten => {
            let mut packet = lent();
            for _ in 0..2 {
                out.push(whiten(n[0] as u8, &mut packet[..s.len()]));
                out.extend(&packet);
            }
        }
        Kind::Crc => out.extend(crc(n[0] as u32, s).to_le_bytes()),
        Kind::CrcOctets => out.extend(unsafe { board_crc_octets(n[0] as u32, s.as_ptr(), s.len()) }.octets),
        Kind::CrcFlag => {
            let mut packet = lent();
            let flag = unsafe { board_crc_flag(n[0] as u8, n[1] as u32, packet.as_mut_ptr(), s.len()) };
            out.extend([flag.number, flag.good as u8]);
            out.extend(packet);
        }
        other => panic!("{other:?} is asked elsewhere"),
    }
}
