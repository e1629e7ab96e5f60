//! Holds the turn book to `src/book.rs`, which answers each call by its history, through the programs that have a book: `book BIN SCRATCH [SEED [PROGRAM..]]`, with the
//! folders of the programs and for files that are made, and of the programs `replay` and `turnbook` those that are named. Prints what was met. Ends with 1 where an
//! answer differs, after the smallest histories that it finds, and with 2 where something was not met. `book cases FOLDER turnbook` runs nothing: it writes inputs of
//! turnbook to the folder, and beside each, as NAME.stdout, the lines that it has to print.
#[path = "../src/area.rs"]
mod area;
#[path = "../src/book.rs"]
mod book;
#[path = "../src/club.rs"]
mod club;
#[path = "../src/rng.rs"]
mod rng;

use book::{counting, Address, Answer, Call, History, Seat, LAST_TURN};
use rng::Rng;
use std::collections::BTreeMap;
use std::fmt::Write as _;
use std::fs::{self, File};
use std::process::{exit, Command};
use std::time::{Duration, Instant};

/// Answers to replay at least, besides those of the long histories.
const ANSWERS: usize = 1_200_000;
/// Books that come to the last turn.
const LONG: usize = 4;
/// Octets of the longest area that a request of replay holds.
const LONGEST_AREA: usize = 312;
/// Inputs of turnbook.
const EVENINGS: usize = 400;
/// Those that are written for a try without a proof.
const EVENINGS_TRIED: usize = 60;
/// Differences that are printed.
const PRINTED: usize = 3;

#[derive(Default)]
struct Met(BTreeMap<&'static str, u64>);

impl Met {
    fn one(&mut self, what: &'static str) {
        *self.0.entry(what).or_default() += 1;
    }

    /// Counts a call with its answer.
    fn call(&mut self, history: &History, call: &Call, answer: &Answer) {
        match (call, answer) {
            (_, Answer::Seated(_)) => self.one("seats filled"),
            (_, Answer::Refused(13)) if history.seats().len() == book::SEATS => self.one("13, in a full book"),
            (_, Answer::Refused(13)) => self.one("13, in another"),
            (_, Answer::Refused(14)) => self.one("14"),
            (_, Answer::Refused(15)) => self.one("15"),
            (_, Answer::Refused(1)) => self.one("1"),
            (_, Answer::Refused(_)) => self.one("2"),
            (Call::Close, _) => self.one("turns closed"),
            (Call::Report(sender, octets), _) => self.report(history, sender, octets),
            (_, Answer::Read(seat)) => self.read(seat),
            _ => {}
        }
    }

    fn report(&mut self, history: &History, sender: &Address, octets: &[u8]) {
        self.one("reports accepted");
        let seated = |address: &Address| history.seats().iter().any(|(_, seated)| seated == address);
        let other = Address { random: !sender.random, ..*sender };
        if !seated(sender) {
            self.one(if seated(&other) { "  from a seat's octets under the other kind" } else { "  from a sender without a seat" });
        }
        let records = area::read(octets).unwrap_or_default();
        let turns: Vec<usize> = (0..records.len()).filter_map(|from| counting(&records[from..], history.company).map(|(turn, _)| turn)).collect();
        match turns.first() {
            None => self.one("  without a move"),
            Some(turn) if *turn == history.turn() => self.one("  with a move for the open turn"),
            Some(_) if turns.contains(&history.turn()) => self.one("  with one for another turn before it"),
            Some(_) => self.one("  with a move for another turn"),
        }
    }

    fn read(&mut self, seat: &Seat) {
        let Some(_) = seat.address else { return self.one("seats read that are not filled") };
        self.one(if seat.open.is_some() { "open moves read" } else { "open moves read, none there" });
        self.one(if seat.closed.is_some() { "closed moves read" } else { "closed moves read, none there" });
        if seat.turn == LAST_TURN && seat.open.is_some() {
            self.one("  of turn 65535");
        }
    }

    /// Prints these counts; whether none is 0.
    fn print(&self, of: &[&str]) -> bool {
        let count = |what| self.0.get(what).copied().unwrap_or(0);
        of.iter().for_each(|what| println!("{:>9} {what}", count(what)));
        of.iter().all(|what| count(what) > 0)
    }
}

/// What each program has to meet.
const HAS_TO_MEET: [&str; 22] = [
    "books", "seats filled", "13, in a full book", "13, in another", "14", "turns closed", "15", "1", "2", "reports accepted", "  from a seat's octets under the other kind",
    "  from a sender without a seat", "  without a move", "  with a move for the open turn", "  with one for another turn before it", "  with a move for another turn",
    "seats read that are not filled", "open moves read", "  of turn 65535", "open moves read, none there", "closed moves read", "closed moves read, none there",
];

fn hex(octets: &[u8]) -> String {
    octets.iter().fold(String::new(), |mut text, octet| {
        write!(text, " {octet:02x}").unwrap();
        text
    })
}

// Histories

/// The octets of a number, the low one first, or near it.
fn near(rng: &mut Rng, number: u16) -> [u8; 2] {
    let [low, high] = number.to_le_bytes();
    match rng.below(8) {
        0 => [high, low],
        1 => number.wrapping_add(1).to_le_bytes(),
        2 => number.wrapping_sub(1).to_le_bytes(),
        3 => [low, high ^ 1],
        4 => [low, rng.octet()],
        5 => (number ^ 1 << rng.below(16)).to_le_bytes(),
        6 => [0, 0],
        _ => [rng.octet(), rng.octet()],
    }
}

fn record(kind: u8, data: &[u8]) -> Vec<u8> {
    [&[data.len() as u8 + 1, kind], data].concat()
}

fn a_move(rng: &mut Rng, company: u16, turn: usize) -> Vec<u8> {
    let company = if rng.below(6) > 0 { company.to_le_bytes() } else { near(rng, company) };
    let turn = if rng.below(3) > 0 { (turn as u16).to_le_bytes() } else { near(rng, turn as u16) };
    let octets = match rng.below(10) {
        0 => 0,
        1 => 21 + rng.below(2),
        2 => 20,
        3 => 1,
        4 if rng.one_in(8) => 23 + rng.below(30),
        _ => 1 + rng.below(20),
    };
    let kind = if rng.one_in(20) { rng.pick(&[0xFE, 0x7F, 0x00, 0xEF]) } else { 0xFF };
    record(kind, &[&company[..], &turn, &rng.octets(octets)].concat())
}

fn a_good_record(rng: &mut Rng, company: u16, turn: usize) -> Vec<u8> {
    match rng.below(12) {
        0..=6 => a_move(rng, company, turn),
        7 => record(0x01, &rng.octets(1)),
        8 => record(8 + rng.bit() as u8, b"a player of the club".get(..rng.below(21)).unwrap()),
        9 => {
            let uuids = 2 * rng.below(4);
            record(2 + rng.bit() as u8, &rng.octets(uuids))
        }
        10 => record(0xFF, &company.to_le_bytes()[..rng.below(3)]),
        _ => {
            let (kind, size) = (rng.octet(), rng.below(8));
            record(if (1..=3).contains(&kind) { 0x16 } else { kind }, &rng.octets(size))
        }
    }
}

fn a_bad_record(rng: &mut Rng) -> Vec<u8> {
    match rng.below(4) {
        0 => vec![1, 0x01],
        1 => record(0x01, &rng.octets(2)),
        2 => {
            let uuids = 1 + 2 * rng.below(4);
            record(2 + rng.bit() as u8, &rng.octets(uuids))
        }
        // more than is left in most areas
        _ => vec![60 + rng.octet() % 190, rng.octet()],
    }
}

fn an_area(rng: &mut Rng, company: u16, turn: usize, longest: usize) -> Vec<u8> {
    let count = [0, 1, 1, 1, 1, 2, 2, 3, 4, 8][rng.below(10)];
    let mut records: Vec<Vec<u8>> = (0..count).map(|_| a_good_record(rng, company, turn)).collect();
    if rng.one_in(12) {
        let at = rng.below(records.len() + 1);
        records.insert(at, a_bad_record(rng));
    }
    while records.iter().map(Vec::len).sum::<usize>() > longest {
        records.pop();
    }
    let mut area = records.concat();
    if rng.one_in(5) {
        area.resize((area.len() + 1 + rng.below(20)).min(longest), 0);
        if rng.one_in(3) {
            // what stands after a zero length, or is taken for a record
            let more = a_good_record(rng, company, turn);
            area.truncate(longest.saturating_sub(more.len()));
            area.extend(more);
        }
    }
    if rng.one_in(25) {
        let kept = rng.below(area.len() + 1);
        area.truncate(kept);
    }
    area
}

/// Addresses that differ in one bit each from the first, under both kinds.
fn some_addresses(rng: &mut Rng, count: usize) -> Vec<Address> {
    let first: [u8; 6] = std::array::from_fn(|_| rng.octet());
    (0..count)
        .map(|_| {
            let mut octets = first;
            octets[rng.below(6)] ^= 1 << rng.below(8);
            Address { random: rng.bit() == 1, octets }
        })
        .collect()
}

/// How a book is used: the number of addresses, how seldom a turn is closed, and what stands before the other calls.
struct Use {
    addresses: usize,
    close_one_in: usize,
    closes_before: usize,
    seats_before: usize,
    calls: usize,
}

fn some_use(rng: &mut Rng) -> Use {
    let full = rng.one_in(4);
    Use {
        addresses: if full { 200 } else { [1, 2, 3, 5, 10, 30, 100][rng.below(7)] },
        close_one_in: [4, 12, 12, 40, 40, 200, usize::MAX][rng.below(7)],
        closes_before: if rng.one_in(12) { 250 + rng.below(60) } else { 0 },
        seats_before: if full { 60 + rng.below(150) } else { 0 },
        calls: 50 + rng.below(700),
    }
}

/// A book that comes to the last turn.
fn long_use(rng: &mut Rng) -> Use {
    Use { addresses: 10, close_one_in: 20, closes_before: LAST_TURN - rng.below(12), seats_before: rng.below(5), calls: 2_000 }
}

fn a_seat_number(rng: &mut Rng, filled: usize) -> u16 {
    match rng.below(16) {
        0 => rng.below(71) as u16,
        1 => 256 + rng.below(5) as u16,
        2 => rng.pick(&[0, 63, 64, 65]) as u16,
        3 => 0xFFFF - rng.below(2) as u16,
        4 => 256 * (1 + rng.below(255) as u16) + rng.below(filled + 1) as u16,
        _ => 1 + rng.below(filled + 1) as u16,
    }
}

/// The address of a seat, mostly, or one of the pool.
fn a_sender(rng: &mut Rng, history: &History, pool: &[Address]) -> Address {
    let seats = history.seats();
    match rng.below(6) {
        1.. if !seats.is_empty() => {
            let (_, address) = seats[rng.below(seats.len())];
            Address { random: address.random ^ rng.one_in(12), ..address }
        }
        _ => pool[rng.below(pool.len())],
    }
}

/// A book's company and calls, with the answers by their history.
struct Asked {
    company: u16,
    calls: Vec<Call>,
    answers: Vec<String>,
}

fn ask(used: &Use, rng: &mut Rng, met: &mut Met) -> Asked {
    let company = [0x0059, 0xFFFF, 0, 0x0100, 0x4C4C, rng.next() as u16][rng.below(6)];
    let pool = some_addresses(rng, used.addresses);
    let mut history = History::new(company);
    let mut asked = Asked { company, calls: Vec::new(), answers: Vec::new() };
    let mut sender_before = None;
    met.one("books");
    let mut closing = used.closes_before;
    let mut left = used.seats_before + used.calls;
    while left > 0 {
        let address = pool[rng.below(pool.len())];
        let call = if left > used.calls {
            Call::Seat(address)
        } else if closing > 0 && rng.below(500) > 0 {
            closing -= 1;
            left += 1;
            Call::Close
        } else if used.close_one_in < usize::MAX && rng.one_in(used.close_one_in) {
            Call::Close
        } else {
            let seats = history.seats();
            match (rng.below(20), sender_before) {
                (0..=1, _) => Call::Seat(address),
                (2..=5, Some(sender)) => {
                    Call::Read(seats.iter().position(|(_, address)| *address == sender).map_or(0, |before| before as u16 + 1))
                }
                (2..=9, _) => Call::Read(a_seat_number(rng, seats.len())),
                _ => Call::Report(a_sender(rng, &history, &pool), an_area(rng, company, history.turn(), LONGEST_AREA)),
            }
        };
        if let Call::Report(sender, _) = &call {
            sender_before = Some(*sender);
        }
        let answer = history.answer(&call);
        met.call(&history, &call, &answer);
        left -= 1;
        history.add(call.clone());
        asked.calls.push(call);
        asked.answers.push(replay_answer(company, &answer));
    }
    asked
}

// Through replay

/// An address as its kind and octets. A kind that is not 01 is public: that of some addresses is neither 00 nor 01.
fn address_octets(address: &Address) -> Vec<u8> {
    let sum = address.octets.iter().fold(0u8, |sum, octet| sum.wrapping_add(*octet));
    let kind = match address.random {
        true => 1,
        false if sum % 8 == 0 => 2 + sum / 8,
        false => 0,
    };
    [&[kind], &address.octets[..]].concat()
}

fn request(call: &Call) -> String {
    let octets = match call {
        Call::Seat(address) => [&[1], &address_octets(address)[..]].concat(),
        Call::Report(sender, area) => [&[2], &address_octets(sender)[..], area].concat(),
        Call::Close => vec![3],
        Call::Read(number) => [&[4], &number.to_le_bytes()[..]].concat(),
    };
    format!("o{}", hex(&octets))
}

fn new_book(company: u16) -> String {
    format!("o 00{}", hex(&company.to_le_bytes()))
}

fn replay_answer(company: u16, answer: &Answer) -> String {
    match answer {
        Answer::Seated(number) => format!("o seat {number}"),
        Answer::Accepted => "o accepted".to_string(),
        Answer::Refused(number) => format!("o refused {number}"),
        Answer::Read(seat) => {
            let address = seat.address.map_or("nothing".to_string(), |address| {
                format!("{}{}", if address.random { "random" } else { "public" }, hex(&address.octets))
            });
            let octets = |of: &Option<Vec<u8>>| of.as_deref().map_or(String::new(), hex);
            format!("o {address} open{} closed{} turn {} company {company}", octets(&seat.open), octets(&seat.closed), seat.turn)
        }
    }
}

fn run(program: &str, scratch: &str, input: &[u8]) -> Vec<u8> {
    let path = format!("{scratch}/book-input");
    fs::write(&path, input).unwrap();
    let done = Command::new(program).stdin(File::open(&path).unwrap()).output().unwrap_or_else(|e| {
        eprintln!("{program}: {e}");
        exit(2)
    });
    done.stdout
}

/// What replay answers to the calls on some books, a list of lines for each.
fn replayed(program: &str, scratch: &str, books: &[(u16, &[Call])]) -> Vec<Vec<String>> {
    let mut input = String::new();
    for (company, calls) in books {
        writeln!(input, "{}", new_book(*company)).unwrap();
        calls.iter().for_each(|call| writeln!(input, "{}", request(call)).unwrap());
    }
    let output = run(program, scratch, input.as_bytes());
    let text = String::from_utf8_lossy(&output);
    let mut lines = text.lines();
    let mut of_books = Vec::new();
    for (_, calls) in books {
        let made = lines.next();
        let mut answers: Vec<String> = lines.by_ref().take(calls.len()).map(str::to_string).collect();
        if made != Some("o") {
            answers.insert(0, format!("to a new book: {made:?}"));
        }
        of_books.push(answers);
    }
    of_books
}

/// The place of the first call that replay answers otherwise, with both answers.
fn first_difference(calls: &[Call], wanted: &[String], found: &[String]) -> Option<(usize, String, String)> {
    (0..calls.len()).find(|n| found.get(*n) != wanted.get(*n)).map(|n| (n, wanted[n].clone(), found.get(n).cloned().unwrap_or("nothing".to_string())))
}

fn difference(program: &str, scratch: &str, company: u16, calls: &[Call]) -> Option<(usize, String, String)> {
    let mut history = History::new(company);
    let mut wanted = Vec::new();
    for call in calls {
        wanted.push(replay_answer(company, &history.answer(call)));
        history.add(call.clone());
    }
    first_difference(calls, &wanted, &replayed(program, scratch, &[(company, calls)])[0])
}

/// An area in pieces, its records, with the octets from the first that is none on as the last piece.
fn pieces(area: &[u8]) -> Vec<&[u8]> {
    let (mut pieces, mut rest) = (Vec::new(), area);
    while !rest.is_empty() {
        let size = if rest[0] == 0 { rest.len() } else { rest.len().min(1 + rest[0] as usize) };
        let (piece, further) = rest.split_at(size);
        pieces.push(piece);
        rest = further;
    }
    pieces
}

/// Leaves out some of a list, many at once and then fewer, as long as it differs, for ten seconds at most.
fn smaller<T: Clone>(mut list: Vec<T>, differs: impl Fn(&[T]) -> bool) -> Vec<T> {
    let begun = Instant::now();
    let mut size = list.len().div_ceil(2);
    while size > 0 {
        let mut at = 0;
        while at < list.len() && begun.elapsed() < Duration::from_secs(10) {
            let mut fewer = list.clone();
            fewer.drain(at..(at + size).min(list.len()));
            if differs(&fewer) {
                list = fewer;
            } else {
                at += size;
            }
        }
        size /= 2;
    }
    list
}

/// The same in a row, for the eye.
fn in_a_row<T: PartialEq>(list: &[T], text: impl Fn(&T) -> String) -> String {
    let rows = list.chunk_by(|one, next| one == next).map(|same| match same.len() {
        1 => format!("; {}", text(&same[0])),
        times => format!("; {}, {times} times", text(&same[0])),
    });
    rows.collect()
}

/// Leaves out calls, and records of their areas, as long as replay answers otherwise.
fn print_difference(program: &str, scratch: &str, company: u16, calls: &[Call]) {
    let differs = |calls: &[Call]| difference(program, scratch, company, calls).is_some();
    let Some((place, ..)) = difference(program, scratch, company, calls) else {
        return println!("difference: not there where this book is asked alone");
    };
    let mut calls = smaller(calls[..=place].to_vec(), differs);
    for n in 0..calls.len() {
        if let Call::Report(sender, area) = calls[n].clone() {
            let with = |records: &[&[u8]]| {
                let mut changed = calls.clone();
                changed[n] = Call::Report(sender, records.concat());
                changed
            };
            calls = with(&smaller(pieces(&area), |records| differs(&with(records))));
        }
    }
    let (place, wanted, found) = difference(program, scratch, company, &calls).expect("as before");
    println!("difference: {found}, by its history {wanted}, after {}{}", new_book(company), in_a_row(&calls[..=place], request));
}

fn through_replay(bin: &str, scratch: &str, seed: u64) -> u8 {
    let (program, begun) = (format!("{bin}/replay"), Instant::now());
    let mut rng = Rng(seed);
    let (mut met, mut answers, mut differ) = (Met::default(), 0, 0);
    let mut long = 0;
    while long < LONG {
        // the long ones last: a difference is found sooner, and by fewer calls
        let is_long = answers >= ANSWERS;
        long += is_long as usize;
        let books: Vec<Asked> = (0..if is_long { 1 } else { 60 })
            .map(|_| {
                let used = if is_long { long_use(&mut rng) } else { some_use(&mut rng) };
                ask(&used, &mut rng, &mut met)
            })
            .collect();
        let given: Vec<(u16, &[Call])> = books.iter().map(|book| (book.company, &book.calls[..])).collect();
        let found = replayed(&program, scratch, &given);
        for (book, found) in books.iter().zip(&found) {
            if first_difference(&book.calls, &book.answers, found).is_some() {
                differ += 1;
                if differ <= PRINTED {
                    print_difference(&program, scratch, book.company, &book.calls);
                }
            }
            answers += book.calls.len();
        }
        if differ >= PRINTED {
            break;
        }
    }
    end("replay", &met, &HAS_TO_MEET, answers, "answers", differ, begun)
}

// Through turnbook

/// A packet for a report, with one thing off now and then: the CRC, the type, the address or the octets that the header counts.
fn a_packet(rng: &mut Rng, history: &History, pool: &[Address]) -> Vec<u8> {
    let sender = a_sender(rng, history, pool);
    let mut payload = [&sender.octets[..], &an_area(rng, history.company, history.turn(), 57)].concat();
    if rng.one_in(40) {
        payload.truncate(rng.below(7));
    }
    let counted = payload.len() as u8 ^ if rng.one_in(2_000) { 1 << rng.below(6) } else { 0 };
    let kind = if rng.one_in(12) { rng.below(16) as u8 } else { 2 };
    let header = kind | rng.octet() & 0xB0 | (sender.random as u8) << 6;
    [&[1 + rng.one_in(12) as u8, header, counted | rng.octet() & 0xC0], &payload[..]].concat()
}

fn an_item(rng: &mut Rng, history: &History, pool: &[Address], used: &Use) -> Vec<u8> {
    let address = pool[rng.below(pool.len())];
    if used.close_one_in < usize::MAX && rng.one_in(used.close_one_in) {
        return vec![5];
    }
    match rng.below(20) {
        0..=1 => [&[3 + address.random as u8], &address.octets[..]].concat(),
        2 => vec![0],
        3..=9 => vec![6 + rng.bit() as u8, a_seat_number(rng, history.seats().len()) as u8],
        _ => a_packet(rng, history, pool),
    }
}

/// An input.
fn evening(used: &Use, rng: &mut Rng, met: &mut Met) -> Vec<u8> {
    let company = rng.next() as u16;
    let pool = some_addresses(rng, used.addresses);
    let mut club = club::Club::new(company);
    let mut items = Vec::new();
    met.one("books");
    for n in 0..used.seats_before + used.closes_before + used.calls {
        let address = pool[rng.below(pool.len())];
        items.extend(match n {
            _ if n < used.seats_before => [&[3 + address.random as u8], &address.octets[..]].concat(),
            _ if n < used.seats_before + used.closes_before => vec![5],
            _ => an_item(rng, &club.history, &pool, used),
        });
        while let Some(item) = club.next(&items) {
            match club::call(item) {
                Some(call) => met.call(&club.history, &call, &club.history.answer(&call)),
                None => met.one(if item[0] == 0 { "ticks" } else { "packets that are no report" }),
            }
            club.take(item);
        }
    }
    if rng.one_in(4) {
        let count = 1 + rng.below(8);
        items.extend(rng.octets(count));
    }
    [&company.to_le_bytes()[..], &items].concat()
}

/// The log of an input, by the figures, and the octets of its items, the first two being the company's.
fn log_of(input: &[u8]) -> (Vec<u8>, usize) {
    let (company, items) = input.split_at(2);
    let mut club = club::Club::new(u16::from_le_bytes([company[0], company[1]]));
    while let Some(item) = club.next(items) {
        club.take(item);
    }
    let taken = 2 + club.at;
    (club.end(items), taken)
}

/// An input in pieces: its items, after the company, and what is left over.
fn items_of(input: &[u8]) -> Vec<&[u8]> {
    let (_, items) = input.split_at(2);
    let (mut club, mut pieces) = (club::Club::new(0), Vec::new());
    while let Some(item) = club.next(items) {
        club.at += item.len();
        pieces.push(item);
    }
    pieces.extend(Some(&items[club.at..]).filter(|left| !left.is_empty()));
    pieces
}

/// Leaves out items, as long as turnbook prints another log.
fn print_log_difference(program: &str, scratch: &str, input: &[u8]) {
    let company = &input[..2];
    let whole = |items: &[&[u8]]| [company, &items.concat()].concat();
    let items = smaller(items_of(input), |items| run(program, scratch, &whole(items)) != log_of(&whole(items)).0);
    let (found, wanted) = (run(program, scratch, &whole(&items)), log_of(&whole(&items)).0);
    let (found, wanted) = (String::from_utf8_lossy(&found), String::from_utf8_lossy(&wanted));
    let line = found.lines().zip(wanted.lines()).take_while(|(one, other)| one == other).count();
    let text = |log: &str| log.lines().nth(line).map_or("nothing".to_string(), |line| format!("{line:?}"));
    println!("difference: {}, by the figures {}, in line {} after{}{}", text(&found), text(&wanted), line + 1, hex(company), in_a_row(&items, |item| hex(item).trim_start().to_string()));
}

fn through_turnbook(bin: &str, scratch: &str, seed: u64) -> u8 {
    let (program, begun) = (format!("{bin}/turnbook"), Instant::now());
    let mut rng = Rng(seed);
    let (mut met, mut lines, mut differ) = (Met::default(), 0, 0);
    for n in 0..EVENINGS {
        let used = match n {
            // the long ones last
            _ if n + 2 >= EVENINGS => long_use(&mut rng),
            _ => Use { calls: rng.below(4_000), ..some_use(&mut rng) },
        };
        let input = evening(&used, &mut rng, &mut met);
        let (wanted, taken) = log_of(&input);
        met.one(if taken < input.len() { "inputs with octets left over" } else { "inputs of whole items" });
        lines += wanted.iter().filter(|octet| **octet == b'\n').count();
        if run(&program, scratch, &input) != wanted {
            differ += 1;
            print_log_difference(&program, scratch, &input);
            if differ == PRINTED {
                break;
            }
        }
    }
    let of = [&HAS_TO_MEET[..], &["ticks", "packets that are no report", "inputs with octets left over", "inputs of whole items"]].concat();
    end("turnbook", &met, &of, lines, "lines", differ, begun)
}

/// Inputs of turnbook, with their lines, of which a case holds fewer than a megabyte.
fn write_cases(folder: &str) {
    let (mut rng, mut met) = (Rng(1), Met::default());
    for n in 0..EVENINGS_TRIED {
        let used = match n {
            _ if n + 2 >= EVENINGS_TRIED => long_use(&mut rng),
            _ => Use { calls: rng.below(4_000), ..some_use(&mut rng) },
        };
        let input = evening(&used, &mut rng, &mut met);
        let lines = log_of(&input).0;
        if lines.len() < 1_000_000 {
            fs::write(format!("{folder}/{n:03}"), input).unwrap();
            fs::write(format!("{folder}/{n:03}.stdout"), lines).unwrap();
        }
    }
}

fn end(program: &str, met: &Met, of: &[&str], compared: usize, what: &str, differ: usize, begun: Instant) -> u8 {
    let all = met.print(of);
    let seconds = begun.elapsed().as_secs();
    match (differ, all) {
        (0, true) => println!("{program}: {compared} {what}, no difference, {seconds} s"),
        (0, false) => println!("{program}: {compared} {what}, no difference, but not all was met, {seconds} s"),
        _ => println!("{program}: {compared} {what}, {differ} with a difference at least, {seconds} s"),
    }
    if differ > 0 { 1 } else { 2 * !all as u8 }
}

fn main() {
    let words: Vec<String> = std::env::args().skip(1).collect();
    if let [word, folder, ..] = &words[..] {
        if word == "cases" {
            return write_cases(folder);
        }
    }
    let (Some(bin), Some(scratch), Ok(seed)) = (words.first(), words.get(1), words.get(2).map_or(Ok(1), |word| word.parse())) else {
        eprintln!("usage: book BIN SCRATCH [SEED [replay|turnbook..]] | cases FOLDER turnbook");
        exit(2);
    };
    println!("seed {seed}");
    let named = |program: &str| words.len() < 4 || words[3..].iter().any(|word| word == program);
    let mut status = 0;
    if named("replay") {
        status = through_replay(bin, scratch, seed);
    }
    if named("turnbook") && status == 0 {
        status = through_turnbook(bin, scratch, seed);
    }
    exit(status.into());
}
