//! A player's name in two areas, an advertisement and the reply to a scan request (document 02, Note 4). rubble has no such search, so this answers in its
//! place: rubble reads each record, `padding` says what stands after them, Rust's `str` judges UTF-8. Which name counts is ours, and shares no line with
//! the translation.
pub mod made;

use crate::padding::{self, Behind, Read};
use rubble::link::ad_structure::AdStructure;

/// The places of a name, in the order in which they count: whether it is in the reply, and its record's type.
const PLACES: [(bool, u8); 4] = [(true, 0x09), (false, 0x09), (true, 0x08), (false, 0x08)];

/// The classes of ends: a name in each of these places, no name, and the refusals of each area.
pub const ENDS: [&str; 9] = [
    "complete in the reply", "complete in the advertisement", "shortened in the reply", "shortened in the advertisement", "11", "1 of the advertisement",
    "2 of the advertisement", "1 of the reply", "2 of the reply",
];

/// How a search ends.
#[derive(Clone, Copy)]
pub enum End<'a> {
    /// With a name: its place in `PLACES`, and its octets.
    Name(usize, &'a [u8]),
    NoName,
    /// With the number that an area is refused with.
    BadAdvertisement(u8),
    BadReply(u8),
}

impl End<'_> {
    /// The class in `ENDS`.
    pub fn class(self) -> usize {
        match self {
            End::Name(place, _) => place,
            End::NoName => 4,
            End::BadAdvertisement(number) => 4 + number as usize,
            End::BadReply(number) => 6 + number as usize,
        }
    }
}

pub struct Search<'a> {
    /// What stands after the records of the advertisement, and of the reply.
    pub behind: [Behind; 2],
    /// Names that are not UTF-8.
    pub malformed: usize,
    pub end: End<'a>,
}

/// The records of an area that have the type of a name, by their places in `PLACES`.
fn named<'a>(read: &Read<'a>, in_reply: bool) -> Vec<(usize, &'a [u8])> {
    let place = |record: &AdStructure<'a>| match *record {
        AdStructure::Unknown { ty, data } => PLACES.iter().position(|place| *place == (in_reply, ty)).map(|place| (place, data)),
        AdStructure::Flags(_) | AdStructure::ServiceUuids16(_) => None,
        other => panic!("read as {other:?}"),
    };
    read.records.iter().filter_map(place).collect()
}

pub fn search<'a>(advertisement: &'a [u8], reply: &'a [u8]) -> Search<'a> {
    let (first, second) = (padding::read(advertisement), padding::read(reply));
    let mut names = named(&first, false);
    names.extend(named(&second, true));
    let all = names.len();
    names.retain(|(_, octets)| std::str::from_utf8(octets).is_ok());
    let malformed = all - names.len();
    let behind = [first.behind, second.behind];
    // Of names in the same place this is the first.
    let least = names.into_iter().min_by_key(|(place, _)| *place);
    let end = match (behind.map(Behind::number), least) {
        ([0, 0], Some((place, octets))) => End::Name(place, octets),
        ([0, 0], None) => End::NoName,
        ([0, number], _) => End::BadReply(number),
        ([number, _], _) => End::BadAdvertisement(number),
    };
    Search { behind, malformed, end }
}

/// Number, whether the name is in the reply, where it begins there, and its length. The place is told from where rubble's record lies in the area.
pub fn answer(advertisement: &[u8], reply: &[u8], out: &mut Vec<u8>) {
    let (number, in_reply, start, len) = match search(advertisement, reply).end {
        End::Name(place, octets) => {
            let in_reply = PLACES[place].0;
            let area = if in_reply { reply } else { advertisement };
            (0, in_reply, octets.as_ptr() as u64 - area.as_ptr() as u64, octets.len() as u64)
        }
        End::NoName => (11, false, 0, 0),
        End::BadAdvertisement(number) | End::BadReply(number) => (number, false, 0, 0),
    };
    out.extend([number, in_reply as u8]);
    out.extend([start, len].iter().flat_map(|n| n.to_le_bytes()));
}
