//! The bit stream by tables, as it is mostly written: `compare/bench` times ours beside it. The CRC's register is a number whose lowest bit leaves first.
//! Each function is called, not set into its caller, as ours is.

/// x^24 + x^10 + x^9 + x^6 + x^4 + x^3 + x + 1, the highest term left out and the next one lowest.
const POLYNOMIAL: u32 = 0xDA6000;

/// The register after the bits of each number below N.
const fn entries<const N: usize>() -> [u32; N] {
    let mut table = [0; N];
    let mut n = 0;
    while n < N {
        let mut register = n as u32;
        let mut bits = N;
        while bits > 1 {
            register = (register >> 1) ^ if register & 1 == 1 { POLYNOMIAL } else { 0 };
            bits /= 2;
        }
        table[n] = register;
        n += 1;
    }
    table
}

const fn rows() -> [[u8; 42]; 40] {
    let mut table = [[0; 42]; 40];
    let mut channel = 0;
    while channel < 40 {
        let mut register = channel as u8 | 0x40;
        let mut bit = 0;
        while bit < 336 {
            table[channel][bit / 8] |= (register & 1) << (bit % 8);
            register = (register >> 1) ^ if register & 1 == 1 { 0x44 } else { 0 };
            bit += 1;
        }
        channel += 1;
    }
    table
}

static OF_256: [u32; 256] = entries();
static OF_16: [u32; 16] = entries();
static ROWS: [[u8; 42]; 40] = rows();

/// How an octet is taken into the register.
pub trait Table {
    fn after(register: u32, octet: u8) -> u32;
}

/// By 256 entries, an octet at a time.
pub struct Whole;

/// By 16 entries, half an octet at a time.
pub struct Halves;

impl Table for Whole {
    fn after(register: u32, octet: u8) -> u32 {
        (register >> 8) ^ OF_256[((register ^ octet as u32) & 0xFF) as usize]
    }
}

impl Table for Halves {
    fn after(register: u32, octet: u8) -> u32 {
        let half = |register: u32| (register >> 4) ^ OF_16[(register & 0xF) as usize];
        half(half(register ^ octet as u32))
    }
}

fn started(start: u32) -> u32 {
    start.reverse_bits() >> 8
}

fn refused(channel: u8, octets: usize) -> u8 {
    if channel > 39 {
        10
    } else if octets > 42 {
        2
    } else if octets < 5 {
        1
    } else {
        0
    }
}

#[inline(never)]
pub fn whiten(channel: u8, packet: &mut [u8]) -> u8 {
    let number = refused(channel, packet.len());
    if number == 0 {
        packet.iter_mut().zip(&ROWS[channel as usize]).for_each(|(octet, w)| *octet ^= w);
    }
    number
}

#[inline(never)]
pub fn crc<T: Table>(start: u32, octets: &[u8]) -> u32 {
    octets.iter().fold(started(start), |register, octet| T::after(register, *octet))
}

/// The number of a refusal, or 0, and whether the CRC is right.
#[inline(never)]
pub fn crc_flag<T: Table>(channel: u8, start: u32, packet: &[u8]) -> (u8, bool) {
    let number = refused(channel, packet.len());
    if number != 0 {
        return (number, false);
    }
    let start = if channel > 36 { 0x555555 } else { start };
    let plain = packet.iter().zip(&ROWS[channel as usize]).map(|(octet, w)| octet ^ w);
    (0, plain.fold(started(start), T::after) == 0)
}
