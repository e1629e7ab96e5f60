//! What was compared: comparisons and refusals by kind, lengths of payloads, near misses, padded areas, searches for a name, replies, connections and events of
//! lists, settings outside the ranges, CRC flags.
use crate::names;
use crate::ours::BEHIND;
use crate::padding::{self, Behind};
use crate::request::{Kind, Request, CALL, KINDS};
use crate::settings::{self, Settings, RANGES};

/// Classes of lengths, each from its first to before the next one's.
const CLASSES: [(&str, usize); 9] = [
    ("0-5", 0), ("6-11", 6), ("12", 12), ("13-33", 13), ("34", 34), ("35-63", 35), ("64-127", 64), ("128-191", 128),
    ("192-255", 192),
];

const GROUPS: [&str; 6] = [
    "device: all packets", "  type 1 to us", "  type 3 to us", "  type 5 to us", "scanner: all packets",
    "  type 2, CRC good",
];
const SCANNER: usize = 4;

const DEVICE_OFF: [&str; 7] = ["a bit of the address", "RxAdd", "the CRC", "the length", "the type", "an empty map", "a setting"];
const SCANNER_OFF: [&str; 5] = ["the type", "the CRC", "the length", "the entry's kind", "a bit of the entry"];

/// The kinds that read as the hub does. What they answer where a zero length stands at a record's place is judged by Note 3: of beacons those that have
/// passed the checks before decoding are counted.
const HUB: [(Kind, &str); 3] = [
    (Kind::Padded, "zero lengths in areas"),
    (Kind::Scan, "zero lengths in beacons for a new scanner"),
    (Kind::ScannerCalls, "zero lengths in beacons for scanners that live on"),
];
const ZEROS: [&str; 3] = ["zeros behind it", "of these accepted or reported", "another octet behind it"];
const HUB_OCTETS: [&str; 3] = ["31", "57", "others"];

/// What reads strictly, and refuses padding.
const STRICT: [&str; 7] = ["counted", "rewritten", "decoded", "built", "sent", "in a start", "set as scan data"];

/// What a search for a name meets where neither area is bad.
const SEARCHED: [&str; 3] = ["a name that is not UTF-8", "zeros behind the advertisement's records", "zeros behind the reply's"];

const REPLIES: [(&str, usize); 3] = [("bare", 6), ("with 1 to 30 octets of data", 7), ("with 31", 37)];
const SETS: [&str; 4] = ["refused with 1", "refused with 2", "accepted", "accepted without data"];

const CONNECTIONS: [(&str, usize); 4] = [("none", 0), ("1", 1), ("2", 2), ("3 or more", 3)];
const EVENTS: [(&str, usize); 5] = [("none", 0), ("1-9", 1), ("10-99", 10), ("100-300", 100), ("more", 301)];

/// How many events a connection has to have, so that its list counts as a long one.
const LONG: usize = 101;

/// Where settings are met: taken alone, and in connect requests that a device judges.
const SETTINGS: [(Kind, &str); 2] = [(Kind::Settings, "settings taken alone"), (Kind::Calls, "connect requests to a device that advertises")];
const JUDGED: [&str; 4] = ["within the ranges", "of these with a setting at a limit", "refused with 6", "refused with 12"];

const LIVED: [(&str, usize); 4] = [("none", 0), ("1-9", 1), ("10-99", 10), ("100-400", 100)];

const FLAGS: [&str; 4] = ["good on 0 to 36", "bad", "good on 37 to 39", "bad"];

/// Numbers that an answer has: 0, and those of refusals.
const NUMBERS: usize = 13;

/// The octets of an answer of two numbers, of a record, of a call before both buffers, and of a scanner.
const GOT: usize = 17;
const RECORD: usize = 29;
const CALL_ANSWER: usize = 19;
const SCANNER_ANSWER: usize = 46;

pub struct Counts {
    /// For each kind how often it was answered with each number; 0 is no refusal.
    answers: [[u64; NUMBERS]; KINDS.len()],
    lengths: [[u64; 256]; GROUPS.len()],
    device_off: [u64; DEVICE_OFF.len()],
    scanner_off: [u64; SCANNER_OFF.len()],
    zeros: [[u64; ZEROS.len()]; HUB.len()],
    hub_octets: [u64; HUB_OCTETS.len()],
    strict: [u64; STRICT.len()],
    names: [u64; names::ENDS.len()],
    searched: [u64; SEARCHED.len()],
    replies: [u64; REPLIES.len()],
    no_room: u64,
    sets: [u64; SETS.len()],
    connections: [u64; CONNECTIONS.len()],
    events: [u64; EVENTS.len()],
    /// Lists that have a connection of more than 100 events, and those with a request that is refused with 12.
    long: u64,
    refused: u64,
    judged: [[u64; JUDGED.len()]; SETTINGS.len()],
    /// Those refused with 12 that are outside one range alone.
    outside: [[u64; RANGES.len()]; SETTINGS.len()],
    scanner_packets: [u64; LIVED.len()],
    scanner_updates: [u64; LIVED.len()],
    flags: [u64; FLAGS.len()],
    /// By channel and by octets, of packets that were whitened or had their flag asked.
    heard_on: [u64; 256],
    heard_octets: [u64; 256],
}

impl Default for Counts {
    fn default() -> Self {
        Counts {
            answers: [[0; NUMBERS]; KINDS.len()],
            lengths: [[0; 256]; GROUPS.len()],
            device_off: [0; DEVICE_OFF.len()],
            scanner_off: [0; SCANNER_OFF.len()],
            zeros: [[0; ZEROS.len()]; HUB.len()],
            hub_octets: [0; HUB_OCTETS.len()],
            strict: [0; STRICT.len()],
            names: [0; names::ENDS.len()],
            searched: [0; SEARCHED.len()],
            replies: [0; REPLIES.len()],
            no_room: 0,
            sets: [0; SETS.len()],
            connections: [0; CONNECTIONS.len()],
            events: [0; EVENTS.len()],
            long: 0,
            refused: 0,
            judged: [[0; JUDGED.len()]; SETTINGS.len()],
            outside: [[0; RANGES.len()]; SETTINGS.len()],
            scanner_packets: [0; LIVED.len()],
            scanner_updates: [0; LIVED.len()],
            flags: [0; FLAGS.len()],
            heard_on: [0; 256],
            heard_octets: [0; 256],
        }
    }
}

fn class(classes: &[(&str, usize)], n: usize) -> usize {
    classes.iter().rposition(|c| c.1 <= n).expect("the first class begins with 0")
}

fn add(sums: &mut [u64], more: &[u64]) {
    sums.iter_mut().zip(more).for_each(|(sum, n)| *sum += n);
}

/// The one thing that is so, where it is one.
fn only(off: &[bool]) -> Option<usize> {
    let mut so = (0..off.len()).filter(|i| off[*i]);
    so.next().filter(|_| so.next().is_none())
}

/// The area of a packet, where the type has records, the length is as the header counts and there is an address.
fn area_in<'a>(header: &[u8], payload: &'a [u8]) -> Option<&'a [u8]> {
    let [first, second] = header[..] else { return None };
    let counted = matches!(first % 16, 0 | 2 | 4 | 6) && second as usize % 64 == payload.len();
    payload.get(6..).filter(|_| counted)
}

impl Counts {
    /// Counts a request with its answer, and says how many comparisons it is: one for each call of a list and for each event of a connection.
    pub fn count(&mut self, r: &Request, answer: &[u8]) -> u64 {
        let row = &mut self.answers[r.kind as usize];
        match r.kind {
            Kind::Calls => return self.count_list(r, answer),
            Kind::Events => {
                let events = answer.len() / GOT;
                row[answer[answer.len() - GOT] as usize % NUMBERS] += 1;
                row[0] += events as u64 - 1;
                return events as u64;
            }
            Kind::ScannerCalls => return self.count_scanner(r, answer),
            Kind::Scan => {
                let [list, header, payload] = &r.parts[..] else { panic!("a scan has three parts") };
                let filter = (r.numbers[0] == 1).then_some(&list[..]);
                self.count_heard(filter, header, payload, r.numbers[2] == 1);
                self.count_beacon(1, header, payload, r.numbers[2] == 1, answer[1] == 1);
            }
            Kind::Padded => self.count_zeros(0, &r.parts[0], answer[0] == 0),
            Kind::Name => self.count_name(&r.parts[0], &r.parts[1]),
            Kind::Settings => self.count_settings(0, &settings::read(&r.parts[0]), answer[0]),
            Kind::Whiten | Kind::CrcFlag => self.count_stream(r, answer),
            _ => {}
        }
        // Records and UUIDs are read one by one: the last answer is the end, or the refusal.
        let number = match r.kind {
            Kind::Records | Kind::Known => answer[answer.len() - RECORD],
            Kind::UuidList => answer[answer.len() - GOT],
            kind if kind.has_number() => answer[0],
            _ => 0,
        };
        self.answers[r.kind as usize][number as usize % NUMBERS] += 1;
        let p = &r.parts;
        match r.kind {
            Kind::Area => self.count_strict(0, number, Some(&p[0])),
            Kind::Rewrite => self.count_strict(1, number, Some(&p[0])),
            Kind::Decode => self.count_strict(2, number, area_in(&p[0], &p[1])),
            Kind::Build => self.count_strict(3, number, Some(&p[1])),
            Kind::Beacon => self.count_strict(4, number, Some(&p[1])),
            _ => {}
        }
        1
    }

    /// Counts an area that is refused with 2, where it has zeros after its records and is no other.
    fn count_strict(&mut self, by: usize, number: u8, area: Option<&[u8]>) {
        let Some(area) = area.filter(|a| number == 2 && a.last() == Some(&0)) else { return };
        self.strict[by] += (padding::read(area).behind == Behind::Zeros) as u64;
    }

    /// Counts an area that a kind reads as the hub does.
    fn count_zeros(&mut self, kind: usize, area: &[u8], taken: bool) {
        let behind = padding::read(area).behind;
        let of_kind = &mut self.zeros[kind];
        match behind {
            Behind::Zeros => {
                of_kind[0] += 1;
                of_kind[1] += taken as u64;
            }
            Behind::Another => of_kind[2] += 1,
            Behind::Nothing | Behind::Bad(_) => return,
        }
        self.hub_octets[match area.len() {
            31 => 0,
            57 => 1,
            _ => 2,
        }] += 1;
    }

    /// The same of a packet for a scanner.
    fn count_beacon(&mut self, kind: usize, header: &[u8], payload: &[u8], crc_ok: bool, reported: bool) {
        if let Some(area) = area_in(header, payload).filter(|_| crc_ok && header[0] % 16 == 2) {
            self.count_zeros(kind, area, reported);
        }
    }

    fn count_name(&mut self, advertisement: &[u8], reply: &[u8]) {
        let search = names::search(advertisement, reply);
        self.names[search.end.class()] += 1;
        if search.behind.iter().all(|behind| behind.number() == 0) {
            let [first, second] = search.behind.map(|behind| behind == Behind::Zeros);
            add(&mut self.searched, &[search.malformed > 0, first, second].map(u64::from));
        }
    }

    /// Counts settings that were answered with the number.
    fn count_settings(&mut self, met: usize, settings: &Settings, number: u8) {
        let judged = &mut self.judged[met];
        match number {
            0 => {
                judged[0] += 1;
                judged[1] += settings.at_a_limit() as u64;
            }
            6 => judged[2] += 1,
            _ => {
                judged[3] += 1;
                if let Some(one) = only(&settings.outside()) {
                    self.outside[met][one] += 1;
                }
            }
        }
    }

    fn count_stream(&mut self, r: &Request, answer: &[u8]) {
        let channel = r.numbers[0] as usize;
        self.heard_on[channel % 256] += 1;
        self.heard_octets[r.parts[0].len().min(255)] += 1;
        if r.kind == Kind::CrcFlag && answer[0] == 0 {
            self.flags[2 * (channel > 36) as usize + (answer[1] == 0) as usize] += 1;
        }
    }

    fn count_list(&mut self, r: &Request, answer: &[u8]) -> u64 {
        let size = CALL_ANSWER + (r.numbers[1] + r.numbers[2]) as usize + 2 * BEHIND;
        let (mut connections, mut events) = (0, 0);
        // Events of the connection, of the longest one, and whether a request is refused with 12.
        let (mut its_events, mut longest, mut refused) = (0, 0, false);
        for (c, a) in r.parts[1].chunks_exact(CALL).zip(answer.chunks_exact(size)) {
            self.answers[Kind::Calls as usize][a[0] as usize % NUMBERS] += 1;
            connections += (a[1] == 4) as usize;
            events += (a[1] == 5) as usize;
            its_events = if a[1] == 4 { 0 } else { its_events + (a[1] == 5) as usize };
            longest = longest.max(its_events);
            refused |= a[0] == 12;
            if a[1] == 4 || matches!(a[0], 6 | 12) {
                self.count_settings(1, &settings::of(&c[14..]), a[0]);
            }
            match (c[0], a[0], a[1]) {
                (2, 0, 3) => self.replies[class(&REPLIES, a[6] as usize % 64)] += 1,
                (2, 1, _) => self.no_room += 1,
                (5, 0, _) => self.sets[2 + (c[3] == 0) as usize] += 1,
                (5, n, _) => self.sets[n as usize - 1] += 1,
                _ => {}
            }
            match c[0] {
                0 => self.count_strict(5, a[0], c.get(14..14 + c[3] as usize)),
                5 => self.count_strict(6, a[0], c.get(14..14 + c[3] as usize)),
                _ => {}
            }
            // A packet in another mode is refused with 5, whatever it holds.
            if c[0] == 2 && a[0] != 5 {
                self.count_packet(c, &r.parts[0], r.numbers[0] as u8);
            }
        }
        self.connections[class(&CONNECTIONS, connections)] += 1;
        self.events[class(&EVENTS, events)] += 1;
        self.long += (longest >= LONG) as u64;
        self.refused += refused as u64;
        (answer.len() / size) as u64
    }

    fn count_packet(&mut self, c: &[u8], own: &[u8], random: u8) {
        let n = c[3] as usize;
        let p = &c[14..14 + n];
        self.lengths[0][n] += 1;
        let bits: u32 = p.iter().skip(6).zip(own).map(|(a, b)| (a ^ b).count_ones()).sum();
        let ty = c[12] % 16;
        if bits == 0 && c[12] >> 7 == random && matches!(ty, 1 | 3 | 5) {
            self.lengths[1 + ty as usize / 2][n] += 1;
        }
        if n < 12 || bits > 1 {
            return;
        }
        let settings = if ty == 5 && n >= 34 { settings::of(p).number() } else { 0 };
        let off = [
            bits == 1,
            c[12] >> 7 != random,
            c[1] != 1,
            c[13] as usize % 64 != n,
            !matches!(ty, 3 | 5),
            settings == 6,
            settings == 12,
        ];
        if let Some(one) = only(&off) {
            self.device_off[one] += 1;
        }
    }

    fn count_scanner(&mut self, r: &Request, answer: &[u8]) -> u64 {
        let filter = (r.numbers[0] == 1).then_some(&r.parts[0][..]);
        let (mut packets, mut updates) = (0, 0);
        for (c, a) in r.parts[1].chunks_exact(CALL).zip(answer.chunks_exact(SCANNER_ANSWER)) {
            self.answers[Kind::ScannerCalls as usize][a[0] as usize % NUMBERS] += 1;
            match c[0] {
                0 => {}
                1 => updates += 1,
                _ => {
                    packets += 1;
                    let payload = &c[14..14 + c[3] as usize];
                    self.count_heard(filter, &c[12..14], payload, c[1] == 1);
                    self.count_beacon(2, &c[12..14], payload, c[1] == 1, a[1] == 1);
                }
            }
        }
        self.scanner_packets[class(&LIVED, packets)] += 1;
        self.scanner_updates[class(&LIVED, updates)] += 1;
        (answer.len() / SCANNER_ANSWER) as u64
    }

    /// Counts a packet for a scanner, which filters by the list that is given.
    fn count_heard(&mut self, filter: Option<&[u8]>, header: &[u8], p: &[u8], crc_ok: bool) {
        let [first, second] = header[..] else { return };
        let n = p.len().min(255);
        self.lengths[SCANNER][n] += 1;
        if first % 16 == 2 && crc_ok {
            self.lengths[SCANNER + 1][n] += 1;
        }
        let Some(list) = filter.filter(|list| n >= 6 && list.len() % 7 == 0) else { return };
        let kind = first / 64 % 2;
        let near = |entry: &[u8]| -> (bool, u32) {
            (entry[0] == kind, p.iter().zip(&entry[1..]).map(|(a, b)| (a ^ b).count_ones()).sum())
        };
        let entries: Vec<(bool, u32)> = list.chunks(7).map(near).collect();
        let has = |entry| entries.contains(&entry);
        let listed = has((true, 0));
        let off = [
            first % 16 != 2,
            !crc_ok,
            second as usize % 64 != n,
            !listed && has((false, 0)),
            !listed && has((true, 1)),
        ];
        if let Some(one) = only(&off).filter(|one| listed || *one > 2) {
            self.scanner_off[one] += 1;
        }
    }

    pub fn add(&mut self, more: &Counts) {
        self.answers.iter_mut().zip(&more.answers).for_each(|(sum, n)| add(sum, n));
        self.lengths.iter_mut().zip(&more.lengths).for_each(|(sum, n)| add(sum, n));
        add(&mut self.device_off, &more.device_off);
        add(&mut self.scanner_off, &more.scanner_off);
        self.zeros.iter_mut().zip(&more.zeros).for_each(|(sum, n)| add(sum, n));
        add(&mut self.hub_octets, &more.hub_octets);
        add(&mut self.strict, &more.strict);
        add(&mut self.names, &more.names);
        add(&mut self.searched, &more.searched);
        add(&mut self.replies, &more.replies);
        self.no_room += more.no_room;
        add(&mut self.sets, &more.sets);
        add(&mut self.connections, &more.connections);
        add(&mut self.events, &more.events);
        self.long += more.long;
        self.refused += more.refused;
        self.judged.iter_mut().zip(&more.judged).for_each(|(sum, n)| add(sum, n));
        self.outside.iter_mut().zip(&more.outside).for_each(|(sum, n)| add(sum, n));
        add(&mut self.scanner_packets, &more.scanner_packets);
        add(&mut self.scanner_updates, &more.scanner_updates);
        add(&mut self.flags, &more.flags);
        add(&mut self.heard_on, &more.heard_on);
        add(&mut self.heard_octets, &more.heard_octets);
    }

    pub fn total(&self) -> u64 {
        self.answers.iter().flatten().sum()
    }

    fn of(&self, kind: Kind) -> u64 {
        self.answers[kind as usize].iter().sum()
    }

    /// What reads as the hub does and met no padding.
    pub fn without_padding(&self) -> Option<&'static str> {
        let lacks = |(kind, zeros): (&(Kind, _), &[u64; ZEROS.len()])| self.of(kind.0) > 0 && zeros[1] == 0;
        let at = HUB.iter().zip(&self.zeros).position(lacks);
        at.map(|at| HUB[at].1)
    }

    /// An end of searches for a name, or what they meet, that there was not.
    pub fn without_name(&self) -> Option<&'static str> {
        let mut all = names::ENDS.iter().zip(&self.names).chain(SEARCHED.iter().zip(&self.searched));
        let lacks = all.find(|(_, n)| **n == 0).filter(|_| self.of(Kind::Name) > 0);
        lacks.map(|(what, _)| *what)
    }

    /// What settings were met in, and an answer or a range that there was not.
    pub fn without_settings(&self) -> Option<(&'static str, &'static str)> {
        let of_kind = |met: usize| {
            let mut all = JUDGED.iter().zip(&self.judged[met]).chain(RANGES.iter().zip(&self.outside[met]));
            all.find(|(_, n)| **n == 0).map(|(what, _)| (SETTINGS[met].1, *what))
        };
        (0..SETTINGS.len()).filter(|met| self.of(SETTINGS[*met].0) > 0).find_map(of_kind)
    }

    /// Lists that have a connection of more than 100 events.
    pub fn long(&self) -> u64 {
        self.long
    }

    pub fn print(&self) {
        self.print_shares();
        self.print_padding();
        print_row("searches for a name by their end", &names::ENDS, &self.names);
        print_row("those without a bad area that met", &SEARCHED, &self.searched);
        self.print_settings();
        self.print_kinds();
    }

    fn print_shares(&self) {
        if self.lengths.iter().flatten().any(|n| *n > 0) {
            print!("{:<22}", "payloads, in octets");
            CLASSES.iter().for_each(|c| print!("{:>9}", c.0));
            println!("  lengths met");
        }
        for (name, row) in GROUPS.iter().zip(&self.lengths).filter(|g| g.1.iter().any(|n| *n > 0)) {
            let mut sums = [0; CLASSES.len()];
            (0..256).for_each(|n| sums[class(&CLASSES, n)] += row[n]);
            print!("{name:<22}");
            sums.iter().for_each(|n| print!("{n:>9}"));
            println!("  {} of 256", row.iter().filter(|n| **n > 0).count());
        }
        print_row("device packets with one thing off", &DEVICE_OFF, &self.device_off);
        print_row("beacons of a listed sender with one thing off", &SCANNER_OFF, &self.scanner_off);
        print_row("scan data set", &SETS, &self.sets);
        print_row("replies to scan requests", &REPLIES.map(|c| c.0), &self.replies);
        print_row("scan requests", &["without room for the reply"], &[self.no_room]);
        print_row("lists of calls by connections", &CONNECTIONS.map(|c| c.0), &self.connections);
        print_row("lists of calls by events", &EVENTS.map(|c| c.0), &self.events);
        print_row("scanners by packets", &LIVED.map(|c| c.0), &self.scanner_packets);
        print_row("scanners by timer updates", &LIVED.map(|c| c.0), &self.scanner_updates);
        print_row("CRC flags", &FLAGS, &self.flags);
        let met = |of: &[u64]| of.iter().filter(|n| **n > 0).count();
        if met(&self.heard_on) > 0 {
            println!("packets as heard: {} of 256 channel numbers and {} of 256 lengths met", met(&self.heard_on), met(&self.heard_octets));
        }
    }

    fn print_padding(&self) {
        HUB.iter().zip(&self.zeros).for_each(|((_, name), zeros)| print_row(name, &ZEROS, zeros));
        print_row("their areas by octets", &HUB_OCTETS, &self.hub_octets);
        let (judged, taken) = (self.hub_octets.iter().sum::<u64>(), self.zeros.iter().map(|zeros| zeros[1]).sum::<u64>());
        if judged > 0 {
            println!("{judged} answers judged by Note 3's rule for a zero length, {taken} of them accepted or reported");
        }
        print_row("padded areas refused with 2 by what reads strictly", &STRICT, &self.strict);
    }

    fn print_settings(&self) {
        for ((_, name), (judged, outside)) in SETTINGS.iter().zip(self.judged.iter().zip(&self.outside)) {
            print_row(name, &JUDGED, judged);
            print_row("  those refused with 12 that are outside one range alone", &RANGES, outside);
        }
        if self.of(Kind::Calls) > 0 {
            let calls = self.answers[Kind::Calls as usize][12];
            println!("{calls} calls of {} lists judged by Note 6's rule: 12", self.refused);
            println!("{} lists have a connection of more than 100 events", self.long);
        }
    }

    fn print_kinds(&self) {
        println!("{:<20}{:>13}{:>13}  {}", "kind", "comparisons", "refused", "refusals by number");
        for (kind, row) in KINDS.iter().zip(&self.answers).filter(|k| k.1.iter().any(|n| *n > 0)) {
            let numbers: Vec<String> = (1..NUMBERS).filter(|n| row[*n] > 0).map(|n| format!("{n}: {}", row[n])).collect();
            let refused: u64 = row[1..].iter().sum();
            println!("{:<20}{:>13}{refused:>13}  {}", format!("{kind:?}"), row.iter().sum::<u64>(), numbers.join(", "));
        }
        let (events, calls) = (self.of(Kind::Events), self.of(Kind::Calls) + self.of(Kind::ScannerCalls));
        let others = self.total() - events - calls;
        println!("{events} single events of connections, {calls} calls of lists, {others} other requests");
    }
}

fn print_row(name: &str, of: &[&str], counts: &[u64]) {
    if counts.iter().any(|n| *n > 0) {
        let shares: Vec<String> = of.iter().zip(counts).map(|(what, n)| format!("{what} {n}")).collect();
        println!("{name}: {}", shares.join(", "));
    }
}
