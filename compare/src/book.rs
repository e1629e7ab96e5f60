//! The turn book, written from document 02's Note 8 alone. There is no book here: each call is answered by the calls before it. The places of seat calls and of closes
//! among them are kept beside them, so that long histories are answered soon; of the reports nothing is.
use crate::area;
use std::collections::HashSet;
use std::ops::Range;

pub const SEATS: usize = 64;
pub const LAST_TURN: usize = 65_535;

#[derive(Clone, Copy, PartialEq, Eq, Hash)]
pub struct Address {
    pub random: bool,
    pub octets: [u8; 6],
}

#[derive(Clone, PartialEq)]
pub enum Call {
    Seat(Address),
    Report(Address, Vec<u8>),
    Close,
    Read(u16),
}

/// What a seat reads as: its address, its moves of the open and the closed turn, and the open turn's number.
#[derive(Default)]
pub struct Seat {
    pub address: Option<Address>,
    pub open: Option<Vec<u8>>,
    pub closed: Option<Vec<u8>>,
    pub turn: usize,
}

pub enum Answer {
    Seated(usize),
    Accepted,
    Refused(u8),
    Read(Seat),
}

/// The calls on a book since it was fresh.
pub struct History {
    pub company: u16,
    calls: Vec<Call>,
    /// The places of the seat calls.
    asked: Vec<(usize, Address)>,
    /// The places of the closes.
    closes: Vec<usize>,
}

/// The record of an area that counts, as its turn and its move octets: the first of a move's shape with the company number, whatever its turn.
pub fn counting<'a>(records: &[area::Record<'a>], company: u16) -> Option<(usize, &'a [u8])> {
    records.iter().find_map(|record| match record.data {
        [c0, c1, t0, t1, octets @ ..] if record.kind == 0xFF && (1..=20).contains(&octets.len()) && u16::from_le_bytes([*c0, *c1]) == company => {
            Some((u16::from_le_bytes([*t0, *t1]) as usize, octets))
        }
        _ => None,
    })
}

impl History {
    pub fn new(company: u16) -> History {
        History { company, calls: Vec::new(), asked: Vec::new(), closes: Vec::new() }
    }

    /// Puts a call after the others.
    pub fn add(&mut self, call: Call) {
        match call {
            Call::Seat(address) => self.asked.push((self.calls.len(), address)),
            Call::Close => self.closes.push(self.calls.len()),
            _ => {}
        }
        self.calls.push(call);
    }

    /// The filled seats in their order, each with the place of the call that filled it: those of the first 64 different addresses.
    pub fn seats(&self) -> Vec<(usize, Address)> {
        let mut met = HashSet::new();
        self.asked.iter().filter(|(_, address)| met.insert(*address)).take(SEATS).copied().collect()
    }

    /// The open turn: each close opens the next, up to the last.
    pub fn turn(&self) -> usize {
        self.closes.len().min(LAST_TURN)
    }

    /// The places of the calls while a turn was open.
    fn open_during(&self, turn: usize) -> Range<usize> {
        let begin = if turn == 0 { 0 } else { self.closes[turn - 1] };
        let end = self.closes.get(turn).filter(|_| turn < LAST_TURN).copied().unwrap_or(self.calls.len());
        begin..end
    }

    /// The move of the earliest qualifying report while the turn was open, since the seat was filled.
    fn earliest(&self, (filled, address): (usize, Address), turn: usize) -> Option<Vec<u8>> {
        let during = self.open_during(turn);
        let since = during.start.max(filled).min(during.end);
        self.calls[since..during.end].iter().find_map(|call| match call {
            Call::Report(sender, octets) if *sender == address => {
                let records = area::read(octets).ok()?;
                counting(&records, self.company).filter(|(of, _)| *of == turn).map(|(_, octets)| octets.to_vec())
            }
            _ => None,
        })
    }

    /// What a call is answered that comes after these.
    pub fn answer(&self, call: &Call) -> Answer {
        match call {
            Call::Seat(address) => {
                let seats = self.seats();
                if seats.iter().any(|(_, seated)| seated == address) {
                    Answer::Refused(13)
                } else if seats.len() == SEATS {
                    Answer::Refused(14)
                } else {
                    Answer::Seated(seats.len() + 1)
                }
            }
            Call::Report(_, octets) => area::read(octets).map_or_else(Answer::Refused, |_| Answer::Accepted),
            Call::Close if self.turn() == LAST_TURN => Answer::Refused(15),
            Call::Close => Answer::Accepted,
            Call::Read(number) => {
                let turn = self.turn();
                let seats = self.seats();
                let Some(seat) = (*number as usize).checked_sub(1).and_then(|before| seats.get(before)) else {
                    return Answer::Read(Seat { turn, ..Seat::default() });
                };
                let closed = turn.checked_sub(1).and_then(|closed| self.earliest(*seat, closed));
                Answer::Read(Seat { address: Some(seat.1), open: self.earliest(*seat, turn), closed, turn })
            }
        }
    }
}
