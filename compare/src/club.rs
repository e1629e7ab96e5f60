//! What turnbook prints, by the figures of docs/TURNBOOK.md: an item's call on the book is answered by its history.
use crate::book::{Address, Answer, Call, History, Seat};
use std::io::Write;

/// A club whose items are taken as they come: the octets up to `at` are taken, and `log` has their lines.
pub struct Club {
    pub history: History,
    pub at: usize,
    pub log: Vec<u8>,
}

/// The octets of the item at the front, where one begins so.
fn size(octets: &[u8]) -> Option<usize> {
    match octets {
        [0 | 5, ..] => Some(1),
        [1 | 2, _, length, ..] => Some(3 + *length as usize % 64),
        [3 | 4, ..] => Some(7),
        [6 | 7, ..] => Some(2),
        _ => None,
    }
}

/// The call that an item makes. A packet makes one where it is good, of type 2, has an address, and its area is read.
pub fn call(item: &[u8]) -> Option<Call> {
    let address = |random, octets: &[u8]| Address { random, octets: octets.try_into().unwrap() };
    match item {
        [1, header, _, payload @ ..] if header % 16 == 2 && payload.len() >= 6 => {
            let (sender, area) = payload.split_at(6);
            Some(Call::Report(address(header & 0x40 != 0, sender), area.to_vec()))
        }
        [first @ (3 | 4), octets @ ..] => Some(Call::Seat(address(*first == 4, octets))),
        [5] => Some(Call::Close),
        [6 | 7, seat] => Some(Call::Read(*seat as u16)),
        _ => None,
    }
}

impl Club {
    pub fn new(company: u16) -> Club {
        Club { history: History::new(company), at: 0, log: Vec::new() }
    }

    /// The next whole item of an input, if there is one.
    pub fn next<'a>(&self, items: &'a [u8]) -> Option<&'a [u8]> {
        let rest = &items[self.at..];
        rest.get(..size(rest)?)
    }

    pub fn take(&mut self, item: &[u8]) {
        self.at += item.len();
        let Some(call) = call(item) else { return };
        let answer = self.history.answer(&call);
        self.history.add(call);
        self.line(item, &answer);
    }

    fn line(&mut self, item: &[u8], answer: &Answer) {
        let (first, turn) = (item[0], self.history.turn());
        let refusal = if let Answer::Refused(number) = answer { *number } else { 0 };
        match (first, answer) {
            (3 | 4, Answer::Seated(seat)) => writeln!(self.log, "{first:2}{:3}{seat:3}", 0).unwrap(),
            (3 | 4, _) => writeln!(self.log, "{first:2}{refusal:3}{:3}", 0).unwrap(),
            (5, _) => writeln!(self.log, "{first:2}{refusal:3}{turn:6}").unwrap(),
            (_, Answer::Read(Seat { open, closed, .. })) => {
                let octets = if first == 6 { open } else { closed }.clone().unwrap_or_default();
                write!(self.log, "{first:2}{:4}{:3}", item[1], octets.len()).unwrap();
                (0..20).for_each(|n| write!(self.log, "{:4}", octets.get(n).unwrap_or(&0)).unwrap());
                writeln!(self.log).unwrap();
            }
            _ => {}
        }
    }

    /// The whole log, where these are all the items: the last line tells whether octets are left over.
    pub fn end(mut self, items: &[u8]) -> Vec<u8> {
        let left = (self.at < items.len()) as u8;
        writeln!(self.log, "{:6}{left:2}", self.history.turn()).unwrap();
        self.log
    }
}
