//! The settings of a connect request (document 02, Note 6): 22 octets after its two addresses. rubble reads them and takes any, so this answers in its place where
//! they are taken alone, and says which requests to a device are outside the ranges. rubble reads each setting; the ranges alone are ours, and share no line with the
//! translation.
pub mod made;

use rubble::bytes::{ByteReader, FromBytes};
use rubble::link::advertising::ConnectRequestData;
use rubble::time::Duration;

/// How many octets they are, and where in the payload of a connect request they begin.
pub const OCTETS: usize = 22;
pub const START: usize = 12;

/// What each range is of.
pub const RANGES: [&str; 8] =
    ["hop", "channels", "interval", "latency", "timeout", "timeout x 4", "window size", "window offset"];

/// Settings as rubble reads them, in the request's own counts.
pub struct Settings {
    map: [u8; 5],
    channels: i64,
    hop: i64,
    interval: i64,
    latency: i64,
    timeout: i64,
    win_size: i64,
    win_offset: i64,
}

fn request(octets: &[u8]) -> ConnectRequestData {
    ConnectRequestData::from_bytes(&mut ByteReader::new(octets)).expect("22 octets are settings")
}

/// The count that rubble made a time of: 1,250 µs for each, for a timeout 10 ms.
fn counted(time: Duration, unit: u32) -> i64 {
    assert_eq!(time.as_micros() % unit, 0);
    (time.as_micros() / unit) as i64
}

/// The window's size and offset together, without the delay before it.
fn window(read: &ConnectRequestData) -> i64 {
    counted(read.end_of_tx_window(), 1_250) - 1
}

pub fn read(octets: &[u8]) -> Settings {
    let read = request(octets);
    // rubble says where the window ends, and nothing of its size alone: without it the offset is left.
    let mut sizeless: [u8; OCTETS] = octets.try_into().expect("22 octets");
    sizeless[7] = 0;
    let win_offset = window(&request(&sizeless));
    Settings {
        map: read.channel_map().to_raw(),
        channels: read.channel_map().num_used_channels() as i64,
        hop: read.hop() as i64,
        interval: counted(read.interval(), 1_250),
        latency: read.slave_latency() as i64,
        timeout: counted(read.supervision_timeout(), 10_000),
        win_size: window(&read) - win_offset,
        win_offset,
    }
}

/// The settings in the payload of a connect request.
pub fn of(payload: &[u8]) -> Settings {
    read(&payload[START..START + OCTETS])
}

/// The most of what has no upper limit.
const NO_LIMIT: i64 = i64::MAX / 2;

impl Settings {
    /// What each range is of, the least and the most that it may be, and by how much the request's next count changes it: in the order of `RANGES`.
    fn ranges(&self) -> [(i64, i64, i64, i64); RANGES.len()] {
        [
            (self.hop, 5, 16, 1),
            (self.channels, 2, NO_LIMIT, 1),
            (self.interval, 6, 3_200, 1),
            (self.latency, 0, 499, 1),
            (self.timeout, 10, 3_200, 1),
            (4 * self.timeout, (1 + self.latency) * self.interval + 1, NO_LIMIT, 4),
            (self.win_size, 1, (self.interval - 1).min(8), 1),
            (self.win_offset, 0, self.interval, 1),
        ]
    }

    /// Which are outside their ranges.
    pub fn outside(&self) -> [bool; RANGES.len()] {
        self.ranges().map(|(value, least, most, _)| value < least || value > most)
    }

    /// Whether one of them is the first or the last of its range.
    pub fn at_a_limit(&self) -> bool {
        self.ranges().iter().any(|(value, least, most, step)| value - step < *least || value + step > *most)
    }

    /// The refusal's number, or 0.
    pub fn number(&self) -> u8 {
        match (self.channels, self.outside().contains(&true)) {
            (0, _) => 6,
            (_, true) => 12,
            (_, false) => 0,
        }
    }
}

/// Number, hop, map, channels, interval, latency, timeout, window size and window offset; after a refusal zeros.
pub fn answer(octets: &[u8], out: &mut Vec<u8>) {
    let s = read(octets);
    let number = s.number();
    let at = out.len();
    out.extend([number, s.hop as u8]);
    out.extend(s.map);
    out.push(s.channels as u8);
    for count in [s.interval, s.latency, s.timeout] {
        out.extend((count as u16).to_le_bytes());
    }
    out.push(s.win_size as u8);
    out.extend((s.win_offset as u16).to_le_bytes());
    if number != 0 {
        out[at + 1..].fill(0);
    }
}
