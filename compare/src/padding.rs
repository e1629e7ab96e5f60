//! An area as the hub reads it (document 02, Note 3; the Core, Vol 3 Part C, 11): a zero length may end the records. rubble has no such reading, so
//! this answers in its place. Each record is read by rubble; only what a zero at a record's place does is ours, and shares no line with the translation.
pub mod made;

use crate::theirs::number;
use rubble::bytes::{ByteReader, FromBytes};
use rubble::link::ad_structure::AdStructure;

/// What stands after the good records that an area begins with.
#[derive(Clone, Copy, Debug, PartialEq, Eq)]
pub enum Behind {
    /// Nothing: they are the whole area.
    Nothing,
    /// A zero length, and zeros alone after it.
    Zeros,
    /// A zero length, and after it an octet that is not zero.
    Another,
    /// A record that rubble refuses, with its number.
    Bad(u8),
}

impl Behind {
    /// The refusal's number, or 0.
    pub fn number(self) -> u8 {
        match self {
            Behind::Nothing | Behind::Zeros => 0,
            Behind::Another => 2,
            Behind::Bad(number) => number,
        }
    }
}

/// The good records that an area begins with, the octets that they took, and what stands after them.
pub struct Read<'a> {
    pub records: Vec<AdStructure<'a>>,
    pub taken: usize,
    pub behind: Behind,
}

/// The octets of good records with the undefined bits of Flags cleared: what they are written again as.
pub fn cleared(records: &[u8]) -> Vec<u8> {
    let mut octets = records.to_vec();
    let mut at = 0;
    while at < octets.len() {
        if octets[at + 1] == 0x01 {
            octets[at + 2] &= 0x1F;
        }
        at += 1 + octets[at] as usize;
    }
    octets
}

pub fn read(area: &[u8]) -> Read<'_> {
    let mut records = Vec::new();
    let mut reader = ByteReader::new(area);
    loop {
        let rest = reader.as_raw_bytes();
        let behind = match rest {
            [] => Behind::Nothing,
            [0, zeros @ ..] if zeros.iter().all(|octet| *octet == 0) => Behind::Zeros,
            [0, ..] => Behind::Another,
            _ => match AdStructure::from_bytes(&mut reader) {
                Ok(record) => {
                    records.push(record);
                    continue;
                }
                Err(e) => Behind::Bad(number(e)),
            },
        };
        return Read { records, taken: area.len() - rest.len(), behind };
    }
}
