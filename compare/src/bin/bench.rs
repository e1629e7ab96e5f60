//! Times both decoders on one million payloads that rubble accepts, the seven types in turn, made beforehand from a fixed seed. Both sides are
//! called from here, in alternating rounds. Our answer has the number of records; rubble's area is walked for it, and timed without that too.
//!
//! Likewise both scanners, a new one for each of one million beacons that fill their area: ours as `board_scan` answers, rubble's with a callback that counts
//! the records. rubble reports none that has zeros after its records, so ours alone is timed on the same beacons with zeros up to 37 octets.
//!
//! Then the bit stream of packets of 42 octets, ours beside the same by tables (`tables.rs`); rubble has none.
use compare::inputs::payload;
use compare::rng::Rng;
use compare::tables::{self, Halves, Whole};
use compare::{ours, theirs};
use std::hint::black_box;
use std::time::Instant;

const PAYLOADS: usize = 1_000_000;

struct Packets {
    octets: Vec<u8>,
    // Header, start and length.
    places: Vec<([u8; 2], u32, u8)>,
}

impl Packets {
    fn push(&mut self, header: [u8; 2], payload: &[u8]) {
        self.places.push((header, self.octets.len() as u32, payload.len() as u8));
        self.octets.extend(payload);
    }

    fn payload(&self, start: u32, len: u8) -> &[u8] {
        &self.octets[start as usize..start as usize + len as usize]
    }
}

/// Of one type, or of all in turn.
fn packets(only: Option<u8>) -> Packets {
    let mut rng = Rng(10);
    let mut found = Packets { octets: Vec::new(), places: Vec::new() };
    while found.places.len() < PAYLOADS {
        let ty = only.unwrap_or((found.places.len() % 7) as u8);
        let n = match ty {
            1 | 3 => 12,
            5 => 34,
            _ => 6 + rng.below(32),
        };
        let payload = payload(&mut rng, ty, n);
        let header = [ty | (rng.octet() & 0xC0), n as u8];
        if theirs::decode(&header, &payload) != usize::MAX {
            found.push(header, &payload);
        }
    }
    found
}

/// The same beacons with zeros up to the longest payload.
fn padded(beacons: &Packets) -> Packets {
    let mut found = Packets { octets: Vec::new(), places: Vec::new() };
    for (header, start, len) in &beacons.places {
        let mut payload = beacons.payload(*start, *len).to_vec();
        payload.resize(37, 0);
        found.push([header[0], 37], &payload);
    }
    found
}

fn time(packets: &Packets, decode: impl Fn(&[u8], &[u8]) -> usize) -> (f64, usize) {
    let begun = Instant::now();
    let mut sum = 0;
    for (header, start, len) in &packets.places {
        sum += black_box(decode(black_box(header), packets.payload(*start, *len)));
    }
    (begun.elapsed().as_secs_f64(), sum)
}

/// The median and the least of the times of each side.
fn middle<const N: usize>(times: [Vec<f64>; N]) -> [(f64, f64); N] {
    times.map(|mut t| {
        t.sort_by(f64::total_cmp);
        (t[t.len() / 2], t[0])
    })
}

fn decoders(rounds: usize) {
    let packets = packets(None);
    let mut times = [Vec::new(), Vec::new(), Vec::new()];
    for _ in 0..rounds {
        let (a, ours) = time(&packets, |h, p| {
            let packet = ours::decode(h, p);
            black_box(&packet);
            packet.count
        });
        let (b, theirs) = time(&packets, theirs::decode);
        let (c, _) = time(&packets, theirs::decode_only);
        assert!(ours == theirs, "the sides count {ours} and {theirs} records");
        times[0].push(a);
        times[1].push(b);
        times[2].push(c);
    }
    let [a, b, c] = middle(times);
    println!("{PAYLOADS} payloads, {} octets, {rounds} rounds; median (least) in ms", packets.octets.len());
    println!("ours                      {:7.2} ({:.2})", a.0 * 1e3, a.1 * 1e3);
    println!("rubble, records walked    {:7.2} ({:.2})", b.0 * 1e3, b.1 * 1e3);
    println!("rubble, decoded only      {:7.2} ({:.2})", c.0 * 1e3, c.1 * 1e3);
    println!("ratio to rubble with the walk {:.2} ({:.2}), without {:.2} ({:.2})", a.0 / b.0, a.1 / b.1, a.0 / c.0, a.1 / c.1);
}

fn scanners(rounds: usize) {
    let beacons = packets(Some(2));
    let filled = padded(&beacons);
    let scan = |h: &[u8], p: &[u8]| {
        let heard = ours::scanned(h, p);
        black_box(&heard);
        heard.count
    };
    let mut times = [Vec::new(), Vec::new(), Vec::new()];
    for _ in 0..rounds {
        let (a, ours) = time(&beacons, scan);
        let (b, theirs) = time(&beacons, theirs::scanned);
        let (c, with_zeros) = time(&filled, scan);
        assert!(ours == theirs && ours == with_zeros, "the scanners report {ours}, {theirs} and {with_zeros} records");
        times[0].push(a);
        times[1].push(b);
        times[2].push(c);
    }
    let [a, b, c] = middle(times);
    println!("\nscanners, {PAYLOADS} beacons, {} octets, {rounds} rounds; median (least) in ms", beacons.octets.len());
    println!("ours                      {:7.2} ({:.2})", a.0 * 1e3, a.1 * 1e3);
    println!("rubble, records counted   {:7.2} ({:.2})", b.0 * 1e3, b.1 * 1e3);
    println!("ratio {:.2} ({:.2})", a.0 / b.0, a.1 / b.1);
    println!("ours, zeros to 37 octets  {:7.2} ({:.2})", c.0 * 1e3, c.1 * 1e3);
}

const LONGEST: usize = 42;
const HEARD: usize = 512;
/// How often a round goes through the packets; an even number, so that what is whitened is as it was.
const TURNS: usize = 200;

type Heard = [u8; LONGEST];

/// Packets with their CRC, whitened for a channel.
fn heard(channel: u8, start: u32) -> Vec<Heard> {
    let mut rng = Rng(11);
    let one = |_| {
        let mut packet: Heard = rng.octets(LONGEST).try_into().expect("so many octets");
        let crc = tables::crc::<Whole>(if channel > 36 { 0x555555 } else { start }, &packet[..LONGEST - 3]);
        packet[LONGEST - 3..].copy_from_slice(&crc.to_le_bytes()[..3]);
        tables::whiten(channel, &mut packet);
        packet
    };
    (0..HEARD).map(one).collect()
}

/// Nanoseconds of a call, and a sum of what was answered.
fn call_time(packets: &mut [Heard], call: impl Fn(&mut Heard) -> u64) -> (f64, u64) {
    let begun = Instant::now();
    let mut sum = 0;
    for _ in 0..TURNS {
        for packet in packets.iter_mut() {
            sum += black_box(call(black_box(packet)));
        }
    }
    (begun.elapsed().as_secs_f64() * 1e9 / (TURNS * HEARD) as f64, sum)
}

/// Times ours, a table of 256 and one of 16.
fn row(
    name: &str, rounds: usize, mut packets: Vec<Heard>, ours: impl Fn(&mut Heard) -> u64, whole: impl Fn(&mut Heard) -> u64,
    halves: impl Fn(&mut Heard) -> u64,
) {
    let mut times = [Vec::new(), Vec::new(), Vec::new()];
    for _ in 0..rounds {
        let round = [call_time(&mut packets, &ours), call_time(&mut packets, &whole), call_time(&mut packets, &halves)];
        assert!(round.iter().all(|side| side.1 == round[0].1 && side.1 > 0), "{name}: the sides answer differently");
        times.iter_mut().zip(round).for_each(|(side, (time, _))| side.push(time));
    }
    let [a, b, c] = middle(times);
    let said = |t: (f64, f64)| format!("{:7.1} ({:.1})", t.0, t.1);
    println!("{name:<26}{:<20}{:<20}{:<20}{:.2} ({:.2})", said(a), said(b), said(c), a.0 / b.0, a.1 / b.1);
}

fn bit_stream(rounds: usize) {
    println!("\nbit stream, packets of {LONGEST} octets, {} calls a round, {rounds} rounds; median (least) in ns", TURNS * HEARD);
    println!("{:<26}{:<20}{:<20}{:<20}ours to 256", "", "   ours", "   table of 256", "   table of 16");
    for (name, channel, start) in [("flag, channel 37", 37, 0), ("flag, channel 10, a value", 10, 0x123456)] {
        let asked = || (black_box(channel), black_box(start));
        let ours = |p: &mut Heard| {
            let flag = ours::stream::crc_flag(asked().0, asked().1, p);
            flag.number as u64 + flag.good as u64
        };
        let said = |flag: (u8, bool)| flag.0 as u64 + flag.1 as u64;
        let whole = |p: &mut Heard| said(tables::crc_flag::<Whole>(asked().0, asked().1, p));
        let halves = |p: &mut Heard| said(tables::crc_flag::<Halves>(asked().0, asked().1, p));
        row(name, rounds, heard(channel, start), ours, whole, halves);
    }
    // Whitening by a table is one and the same beside both.
    let said = |number: u8, p: &Heard| number as u64 + p[LONGEST - 1] as u64;
    let ours = |p: &mut Heard| said(ours::stream::whiten(black_box(37), p), p);
    let by_rows = |p: &mut Heard| said(tables::whiten(black_box(37), p), p);
    row("whitening, 42 octets", rounds, heard(37, 0), ours, by_rows, by_rows);
    let ours = |p: &mut Heard| ours::stream::crc(black_box(0x555555), &p[..LONGEST - 3]) as u64;
    let whole = |p: &mut Heard| tables::crc::<Whole>(black_box(0x555555), &p[..LONGEST - 3]) as u64;
    let halves = |p: &mut Heard| tables::crc::<Halves>(black_box(0x555555), &p[..LONGEST - 3]) as u64;
    row("CRC, 39 octets", rounds, heard(37, 0), ours, whole, halves);
}

fn main() {
    let rounds = std::env::args().nth(1).map_or(15, |text| text.parse().expect("rounds are a number"));
    decoders(rounds);
    scanners(rounds);
    bit_stream(rounds);
}
