//! Prints requests for `crates/replay` with rubble's answers, a line for each: first the request, then its answer. From each suite the first
//! requests that show a refusal, a type, a builder, a kind of record, a call's answer, what stands after an area's records, where a name lies or which of a connect
//! request's settings is outside its range are taken.
use compare::made::{self, Share};
use compare::names;
use compare::ours::{pattern, BEHIND};
use compare::padding::{self, Behind};
use compare::request::{Kind, Request, CALL};
use compare::settings;
use compare::theirs;
use std::collections::HashMap;

/// A line of the sample: what it shows, the request and the answer.
struct Line {
    shows: (u8, u8, u8),
    request: String,
    answer: String,
}

/// Octets that a request may have, and of room that it asks for: fewer than FF, which stands for ALL of it.
const MOST: usize = 310;
const ROOM: usize = 64;
const ALL: usize = 320;

fn asked(letter: char, parts: &[&[u8]]) -> String {
    let mut text = String::from(letter);
    for octet in parts.iter().flat_map(|p| p.iter()) {
        text += &format!(" {octet:02X}");
    }
    text
}

fn octets(s: &[u8]) -> String {
    s.iter().map(|b| format!(" {b:02x}")).collect()
}

fn address(random: bool, six: &[u8]) -> String {
    format!(" {}{}", if random { "random" } else { "public" }, octets(six))
}

fn word(s: &[u8], at: usize) -> u32 {
    u32::from_le_bytes(s[at..at + 4].try_into().unwrap())
}

fn rubble(r: &Request) -> Vec<u8> {
    let mut out = Vec::new();
    theirs::answer(r, &mut out);
    out
}

/// A lent buffer, with the octets after it, as replay prints it: what was written, and FF where rubble's buffer kept what it held.
fn lent(whole: &[u8], written: usize) -> String {
    let buffer = &whole[..whole.len() - BEHIND];
    assert_eq!(buffer[written..], pattern(buffer.len())[written..]);
    octets(&buffer[..written]) + &octets(&vec![0xFF; buffer.len() - written])
}

fn line(letter: char, shows: (u8, u8), parts: &[&[u8]], answer: String) -> Vec<Line> {
    if parts.iter().map(|p| p.len()).sum::<usize>() > MOST {
        return Vec::new();
    }
    vec![Line { shows: (letter as u8, shows.0, shows.1), request: asked(letter, parts), answer: format!("{letter}{answer}") }]
}

fn decode(r: &Request) -> Vec<Line> {
    let a = rubble(r);
    // A header slice of under two octets comes without a payload.
    let payload: &[u8] = if r.parts[0].len() < 2 { &[] } else { &r.parts[1] };
    let parts: [&[u8]; 2] = [&r.parts[0], payload];
    if a[0] != 0 {
        return line('d', (a[0], 0), &parts, format!(" refused {}", a[0]));
    }
    let mut text = format!(" type {}{}", a[1], address(a[2] == 1, &a[3..9]));
    if a[9] == 1 {
        text += &format!(" to{}", address(a[10] == 1, &a[11..17]));
    } else {
        text += &format!(" records {}", word(&a, 33));
    }
    if a[1] == 5 {
        let n = |i: usize| word(&a, 41 + 4 * i);
        text += &format!(" {:08x} {:06x} {} {} {} {} {}", n(0), n(1), n(2), n(3), n(5), n(6), n(7));
        text += &format!("{} {}", octets(&a[73..78]), a[79]);
    }
    line('d', (0, a[1]), &parts, text)
}

/// The number and the position of an answer, and the buffer after them.
fn written(a: &[u8]) -> (u8, String) {
    let to = word(a, 1) as usize;
    match a[0] {
        0 => (0, format!(" to {to}{}", lent(&a[17..], to))),
        n => (n, format!(" refused {n}{}", lent(&a[17..], 0))),
    }
}

fn write(r: &Request) -> Vec<Line> {
    let n = &r.numbers;
    let (start, len, space) = (n[3] as usize, n[4] as usize, n[6] as usize);
    let data = match r.parts[0].get(start..).and_then(|rest| rest.get(..len)) {
        Some(data) if n[5] == 0 && (space <= ROOM || space > 255) => data,
        _ => return Vec::new(),
    };
    let space = if space > ROOM { ALL } else { space };
    let kind = n[0] as u8 + if n[1] == 1 { 16 } else { 0 };
    let front = [kind, n[2] as u8, (n[2] >> 8) as u8, space.min(255) as u8];
    let s = [&front[..], data].concat();
    let a = rubble(&Request::new(Kind::Write, &[n[0], n[1], n[2], 4, len as u64, 0, space as u64], &[&s]));
    let (number, text) = written(&a);
    line('w', (number, kind), &[&s], text)
}

fn build(r: &Request) -> Vec<Line> {
    let a = rubble(r);
    let ty = [0, 7, 2, 2, 4, 6][r.numbers[0].min(5) as usize];
    let outcome = if a[0] == 0 { " accepted".to_string() } else { format!(" refused {}", a[0]) };
    let header = u16::from_le_bytes([a[1], a[2]]);
    let parts: [&[u8]; 3] = [&[ty, r.numbers[1] as u8], &r.parts[0], &r.parts[1]];
    line('b', (a[0], ty), &parts, format!("{outcome} {header:04x}{}", octets(&a[3..40])))
}

fn map(r: &Request) -> Vec<Line> {
    let a = rubble(r);
    line('m', (0, 0), &[&r.parts[0]], format!(" {}{}", a[5], octets(&a[..5])))
}

/// Single hops, from the channels of a connection's first events.
fn hops(r: &Request) -> Vec<Line> {
    let hop = r.numbers[0] as u8;
    let step = (hop % 32) as usize;
    let a = rubble(&Request::new(Kind::Events, &[r.numbers[0], 3], &[&r.parts[0]]));
    let mut lines = Vec::new();
    for (k, event) in a.chunks_exact(17).enumerate() {
        let from = [(k * step % 37) as u8, hop];
        let text = match event[0] {
            0 => format!(" {} {}", word(event, 1), event[9]),
            n => format!(" refused {n}"),
        };
        lines.extend(line('h', (event[0], step as u8), &[&r.parts[0], &from], text));
    }
    lines
}

fn beacon(r: &Request) -> Vec<Line> {
    let made = rubble(&Request::new(Kind::Build, &[3, r.numbers[0]], &[&r.parts[0], &r.parts[1]]));
    if made[0] != 0 || r.numbers[1] as usize > ROOM {
        return Vec::new();
    }
    let a = rubble(r);
    let header = u16::from_le_bytes([a[1], a[2]]);
    let text = match a[0] {
        0 => format!(" accepted {header:04x} on {} on {} on {}{}", a[3], a[4], a[5], lent(&a[6..], (header >> 8) as usize & 63)),
        n => format!(" accepted refused {n}{}", lent(&a[6..], 0)),
    };
    let parts: [&[u8]; 4] = [&[r.numbers[0] as u8], &r.parts[0], &[r.numbers[1] as u8], &r.parts[1]];
    line('k', (a[0], 0), &parts, text)
}

/// What stands after the records of an area: nothing, zeros, another octet after a zero length, or a bad record by its number.
fn behind(area: &[u8]) -> u8 {
    match padding::read(area).behind {
        Behind::Nothing => 0,
        Behind::Zeros => 1,
        Behind::Another => 2,
        Behind::Bad(number) => 2 + number,
    }
}

/// The number of records and the octets that they took, which stand so in an answer.
fn counts(a: &[u8]) -> String {
    format!(" records {} taken {}", word(a, 0), word(a, 8))
}

fn padded(r: &Request) -> Vec<Line> {
    let a = rubble(r);
    let room = r.numbers[0] as usize;
    let (number, text) = match a[0] {
        0 => {
            let (number, text) = written(&a[17..]);
            (number, counts(&a[1..]) + &text)
        }
        n => (n, format!(" refused {n}{}", octets(&vec![0xFF; room]))),
    };
    line('z', (number, behind(&r.parts[0])), &[&[room as u8], &r.parts[0]], text)
}

/// A player's name: where it lies, and its octets there. The number of the advertisement's octets is one octet.
fn name(r: &Request) -> Vec<Line> {
    let [advertisement, reply] = &r.parts[..] else { panic!("a name is sought in two areas") };
    if advertisement.len() > 255 {
        return Vec::new();
    }
    let a = rubble(r);
    let (start, end) = (word(&a, 2) as usize, (word(&a, 2) + word(&a, 10)) as usize);
    let text = match (a[0], a[1]) {
        (0, 1) => format!(" reply at {start} to {end}{}", octets(&reply[start..end])),
        (0, _) => format!(" advertisement at {start} to {end}{}", octets(&advertisement[start..end])),
        (n, _) => format!(" refused {n}"),
    };
    let search = names::search(advertisement, reply);
    let shows = (search.end.class() as u8, (search.malformed > 0) as u8);
    line('l', shows, &[&[advertisement.len() as u8], advertisement, reply], text)
}

/// A connect request's settings taken alone: the counts in the order of its fields.
fn taken(r: &Request) -> Vec<Line> {
    let a = rubble(r);
    let count = |at: usize| u16::from_le_bytes([a[at], a[at + 1]]);
    let text = match a[0] {
        0 => format!(" {} {} {} {} {}{} {}", a[14], count(15), count(8), count(10), count(12), octets(&a[2..7]), a[1]),
        n => format!(" refused {n}"),
    };
    let outside = settings::read(&r.parts[0]).outside();
    let alone = outside.iter().filter(|is| **is).count() == 1;
    let range = if alone { 1 + outside.iter().position(|is| *is).expect("one is") as u8 } else { 0 };
    line('q', (a[0], range), &[&r.parts[0]], text)
}

fn scan(r: &Request) -> Vec<Line> {
    if r.numbers[0] == 1 || r.numbers[1] != 0 || r.parts[1].len() != 2 {
        return Vec::new();
    }
    let a = rubble(r);
    let text = match a[1] {
        1 => address(a[2] == 1, &a[3..9]) + &counts(&a[25..]) + &octets(&r.parts[2][6..]),
        _ => " nothing".to_string(),
    };
    let shows = r.parts[2].get(6..).map_or(0, behind).min(2);
    line('c', (shows, a[1]), &[&[r.numbers[2] as u8], &r.parts[1], &r.parts[2]], text)
}

/// A list of calls: a new device, and each call. A tick while connected is left out of rubble.
fn calls(r: &Request) -> Vec<Line> {
    let sizes = [r.numbers[1] as usize, r.numbers[2] as usize];
    if sizes.iter().any(|s| *s > ROOM) {
        return Vec::new();
    }
    let a = rubble(r);
    let mut lines = line('n', (0, 0), &[&[r.numbers[0] as u8], &r.parts[0]], String::new());
    for (c, a) in r.parts[1].chunks_exact(CALL).zip(a.chunks_exact(19 + sizes[0] + sizes[1] + 2 * BEHIND)) {
        let second = 19 + sizes[0] + BEHIND;
        let buffer = if c[2] == 1 { &a[second..second + sizes[1]] } else { &a[19..19 + sizes[0]] };
        let room = [buffer.len() as u8];
        let header = u16::from_le_bytes([a[5], a[6]]);
        let part = c.get(14..14 + c[3] as usize).unwrap_or(&[]);
        // What was transmitted stands at the front of the buffer.
        let n = if matches!(a[1], 1 | 3) { (header >> 8) as usize & 63 } else { 0 };
        let lent = octets(&buffer[..n]) + &octets(&vec![0xFF; buffer.len() - n]);
        let answer = match (a[0], a[1]) {
            (0, 1) => format!(" {header:04x} on {} at {}{lent}", a[4], word(a, 7)),
            (0, 2) => format!(" listens on {}{lent}", a[4]),
            (0, 3) => format!(" {header:04x} on {}{lent}", a[4]),
            (0, 4) => format!(" {} at {} {:08x} {:06x}{lent}", a[4], word(a, 7), word(a, 11), word(a, 15)),
            (0, 5) => format!(" {}", a[4]),
            (0, 6) => " stopped".to_string(),
            (0, _) => " set".to_string(),
            (n, _) if c[0] < 3 => format!(" refused {n}{lent}"),
            (n, _) => format!(" refused {n}"),
        };
        let shows = (a[0], a[1]);
        lines.extend(match c[0] {
            0 => line('s', shows, &[&c[4..12], &room, part], answer),
            1 => line('t', shows, &[&room], answer),
            2 => line('p', shows, &[&c[4..8], &c[1..2], &room, &c[12..14], part], answer),
            3 => line('e', shows, &[], answer),
            5 => line('y', shows, &[part], answer),
            _ => line('x', shows, &[], answer),
        });
    }
    lines
}

fn lines(r: &Request) -> Vec<Line> {
    match r.kind {
        Kind::Decode => decode(r),
        Kind::Area => {
            let a = rubble(r);
            let text = if a[0] == 0 { format!(" {}", word(&a, 1)) } else { format!(" refused {}", a[0]) };
            line('a', (a[0], 0), &[&r.parts[0]], text)
        }
        Kind::Rewrite if r.numbers[0] as usize <= ROOM => {
            let (number, text) = written(&rubble(r));
            line('r', (number, 0), &[&[r.numbers[0] as u8], &r.parts[0]], text)
        }
        Kind::Padded if r.numbers[0] as usize <= ROOM => padded(r),
        Kind::Name => name(r),
        Kind::Settings => taken(r),
        Kind::Write => write(r),
        Kind::Build => build(r),
        Kind::Map => map(r),
        Kind::Events => hops(r),
        Kind::Beacon => beacon(r),
        Kind::Scan => scan(r),
        Kind::Calls => calls(r),
        Kind::SetHeader if r.parts[0].len() == 2 => {
            let a = rubble(r);
            let text = if a[0] == 0 { format!(" {:04x}", word(&a, 1)) } else { format!(" refused {}", a[0]) };
            let set = [r.numbers[0] as u8, r.numbers[1] as u8, r.numbers[2] as u8];
            line('g', (a[0], 0), &[&set, &r.parts[0]], text)
        }
        Kind::DataChannel => {
            let a = rubble(r);
            let freq = u16::from_le_bytes([a[4], a[5]]);
            let text = if a[0] == 0 { format!(" {} {} {freq} {}", a[1], a[2], a[3]) } else { format!(" refused {}", a[0]) };
            line('i', (a[0], 0), &[&[r.numbers[0] as u8]], text)
        }
        _ => Vec::new(),
    }
}

fn main() {
    std::panic::set_hook(Box::new(|_| {}));
    let seed = std::env::args().nth(1).map_or(1, |text| text.parse().expect("a seed is a number"));
    let share = Share { mine: 0, shares: 1, seed };
    let mut seen: HashMap<(u8, u8, u8), usize> = HashMap::new();
    let mut count = 0;
    // All the lines of a request, where one of them shows something that few did before.
    let mut each = |r: &Request, limit: usize| {
        let found = lines(r);
        if found.iter().any(|l| l.shows.0 != b'n' && *seen.get(&l.shows).unwrap_or(&0) < limit) {
            for l in found {
                *seen.entry(l.shows).or_default() += 1;
                println!("{}\n{}", l.request, l.answer);
                count += 1;
            }
        }
    };
    made::packets(&share, 60_000, &mut |r| each(r, 24));
    made::areas(&share, 30, &mut |r| each(r, 24));
    padding::made::areas(&share, 3, &mut |r| each(r, 18));
    // So far apart that the first few have names of many forms.
    let mut turn = 0u64;
    names::made::places(&share, 8, &mut |r| {
        turn += 1;
        if turn % 1231 == 1 {
            each(r, 12)
        }
    });
    names::made::characters(&share, 1, &mut |r| {
        turn += 1;
        if turn % 61 == 1 {
            each(r, 18)
        }
    });
    names::made::refusals(&share, 2, &mut |r| each(r, 24));
    settings::made::any(&share, 4_000, &mut |r| each(r, 18));
    made::writers(&share, 2, &mut |r| each(r, 6));
    made::scans(&share, 2_000, &mut |r| each(r, 24));
    made::lists(&share, 8_000, &mut |r| each(r, 30));
    for mine in [0, 5, 37, 64, 96] {
        made::small_things(&Share { mine, shares: 97, seed }, &mut |r| each(r, 48));
    }
    let mut place = 0u64;
    made::maps(&Share { mine: 0, shares: 1021, seed }, 3, &mut |r| {
        place += 1;
        if place % 11 == 1 {
            each(r, 24)
        }
    });
    eprintln!("{count} requests, seed {seed}");
}
