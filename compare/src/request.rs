//! Requests.

/// The kinds of requests: numbers and octets that each takes, and what is answered.
#[derive(Copy, Clone, Debug, PartialEq, Eq, Hash)]
#[repr(u8)]
pub enum Kind {
    /// | header, payload: a PDU with all fields
    Decode,
    /// | header: what it says
    Header,
    /// TxAdd, RxAdd, length | header: the header set so
    SetHeader,
    /// type, TxAdd, RxAdd, length: a new header set so
    NewHeader,
    /// builder, random | address, records: header and payload
    Build,
    /// random, random | address, address: header and payload
    BuildDirected,
    /// random | list, address: whether the list holds it
    Whitelist,
    /// | area: the number of records
    Area,
    /// | area: each record, up to the end or a refusal
    Records,
    /// | area: each record read on to the kind that its type names
    Known,
    /// kind, complete, value, start, len, position, space | data: a record written
    Write,
    /// space | area: the records written again
    Rewrite,
    /// space | area: the number of records as the hub reads it and the octets that they took, and these octets written again
    Padded,
    /// | advertisement, reply: where a player's name lies
    Name,
    /// octet: what Flags say
    Flags,
    /// | octets: whether they are UTF-8
    Utf8,
    /// number: the full UUID
    Uuid16,
    Uuid32,
    /// | list data: each UUID
    UuidList,
    /// instant, microseconds: later
    Later,
    /// instant, earlier instant: microseconds between
    Since,
    /// cycles: an advertising channel
    AdvertisingChannel,
    /// index: a data channel
    DataChannel,
    /// | map: its octets and count, and each channel and place
    Map,
    /// hop, events | map: the channels of a connection's events
    Events,
    /// | 22 octets: a connect request's settings, or why not
    Settings,
    /// random, space | address, records: a beacon sent
    Beacon,
    /// filter in use, updates, CRC good | list, header, payload: a report
    Scan,
    /// time, interval, updates: channel and next instant
    Scanner,
    /// position | octets: a PDU whose header begins there
    ReadPdu,
    /// position | octets: a header there
    ReadHeader,
    /// position, space | header: the header written there
    WriteHeader,
    /// function, position, n | octets: what it reads there. 0 skip, 1 what is left, 2 a slice, 3 into a buffer, 4 five and 5 six octets, 6 to 8 numbers
    /// of 8, 16 and 32 bits
    ReadAt,
    /// function, position, space, n | octets: what it writes there. 0 skip, 1 space left, 2 a slice, 3 what of it fits, 4 to 6 numbers of 8, 16 and
    /// 32 bits
    WriteAt,
    /// bits, position | octets: a UUID there
    ReadUuid,
    /// bits, position, space | octets: the UUID written there
    WriteUuid,
    /// list in use for scanning, for connecting, random | list, address: whether it passes
    MayScan,
    MayConnect,
    /// list in use, random | list, address: whether it passes
    ShouldScan,
    /// | : the Flags of a start and of a beacon
    NamedFlags,
    /// | : the map of all channels
    AllChannels,
    /// filter in use | list, entries of 272 octets: what a scanner that lives through them answers to each
    ScannerCalls,
    /// random, first and second buffer | address, calls of 272 octets: each call's answer and both buffers
    Calls,
    /// channel | packet: the packet whitened, and once more
    Whiten,
    /// start value | octets: their CRC as a number
    Crc,
    /// start value | octets: their CRC as three octets
    CrcOctets,
    /// channel, start value | packet: whether its CRC is right, and the packet
    CrcFlag,
}

pub const KINDS: [Kind; 47] = [
    Kind::Decode, Kind::Header, Kind::SetHeader, Kind::NewHeader, Kind::Build, Kind::BuildDirected, Kind::Whitelist,
    Kind::Area, Kind::Records, Kind::Known, Kind::Write, Kind::Rewrite, Kind::Padded, Kind::Name, Kind::Flags, Kind::Utf8,
    Kind::Uuid16, Kind::Uuid32, Kind::UuidList, Kind::Later, Kind::Since, Kind::AdvertisingChannel, Kind::DataChannel, Kind::Map,
    Kind::Events, Kind::Settings, Kind::Beacon, Kind::Scan, Kind::Scanner, Kind::ReadPdu,
    Kind::ReadHeader, Kind::WriteHeader, Kind::ReadAt, Kind::WriteAt, Kind::ReadUuid, Kind::WriteUuid, Kind::MayScan,
    Kind::MayConnect, Kind::ShouldScan, Kind::NamedFlags, Kind::AllChannels, Kind::ScannerCalls, Kind::Calls,
    Kind::Whiten, Kind::Crc, Kind::CrcOctets, Kind::CrcFlag,
];

impl Kind {
    /// Whether an answer begins with the refusal's number, or 0.
    pub fn has_number(self) -> bool {
        use Kind::*;
        !matches!(self, Uuid16 | Uuid32 | Later | Since | Map | Flags | Utf8 | NamedFlags | AllChannels | Crc | CrcOctets)
    }

    /// Whether it is of the bit stream, which rubble does not have: `stream.rs` answers it.
    pub fn is_stream(self) -> bool {
        matches!(self, Kind::Whiten | Kind::Crc | Kind::CrcOctets | Kind::CrcFlag)
    }

    /// Whether its second part is a list of calls.
    pub fn is_list(self) -> bool {
        matches!(self, Kind::Calls | Kind::ScannerCalls)
    }
}

/// The last channel and place that a map is asked for: two after the last one, for some maps all that an octet holds.
pub fn last_asked(map: &[u8]) -> u8 {
    if map[1] == 0x5A { 255 } else { 38 }
}

/// Octets of a call in a list of calls, on a device or on a scanner.
pub const CALL: usize = 272;

#[derive(Clone, Debug, PartialEq, Eq)]
pub struct Request {
    pub kind: Kind,
    pub numbers: Vec<u64>,
    pub parts: Vec<Vec<u8>>,
}

impl Request {
    pub fn new(kind: Kind, numbers: &[u64], parts: &[&[u8]]) -> Self {
        Request { kind, numbers: numbers.to_vec(), parts: parts.iter().map(|p| p.to_vec()).collect() }
    }

    /// What a part is made of, in octets: calls, addresses of a filter list, octets.
    pub fn units(&self, part: usize) -> &'static [usize] {
        use Kind::*;
        match (self.kind, part) {
            (Calls | ScannerCalls, 1) => &[CALL],
            (Whitelist | MayScan | MayConnect | ShouldScan | Scan | ScannerCalls, 0) => &[7, 1],
            _ => &[1],
        }
    }

    /// Parts whose length is fixed: addresses, maps and settings.
    pub fn fixed(&self, part: usize) -> bool {
        match self.kind {
            Kind::Build | Kind::Beacon | Kind::Calls => part == 0,
            Kind::BuildDirected | Kind::Map | Kind::Events | Kind::Settings | Kind::WriteUuid => true,
            Kind::Whitelist | Kind::MayScan | Kind::MayConnect | Kind::ShouldScan => part == 1,
            _ => false,
        }
    }
}

/// A line of text: kind, numbers and octets, in hexadecimal; an empty part is a dash.
pub fn line(r: &Request) -> String {
    let mut text = format!("{:02x}", r.kind as u8);
    for n in &r.numbers {
        text += &format!(" {n:x}");
    }
    for p in &r.parts {
        text += " ";
        text += &hex(p);
    }
    text
}

pub fn hex(octets: &[u8]) -> String {
    if octets.is_empty() {
        return "-".to_string();
    }
    octets.iter().map(|b| format!("{b:02x}")).collect()
}

/// The same for the eye, `kind numbers | part | part`: four equal octets and more as `00*4`, the calls of a list one by one.
pub fn brief(r: &Request) -> String {
    let mut text = format!("{:?}", r.kind);
    for n in &r.numbers {
        text += &format!(" {n}");
    }
    for (at, part) in r.parts.iter().enumerate() {
        text += " | ";
        if r.kind.is_list() && at == 1 {
            let calls: Vec<String> = part.chunks_exact(CALL).map(|c| brief_call(r.kind, c)).collect();
            text += &calls.join("; ");
        } else {
            text += &runs(part);
        }
    }
    text
}

fn brief_call(kind: Kind, c: &[u8]) -> String {
    let octets = runs(&c[14..14 + c[3] as usize]);
    match (kind, c[0]) {
        (Kind::Calls, 0) => format!("start {octets}"),
        (Kind::Calls, 1) => "tick".to_string(),
        (Kind::Calls, 3) => "event".to_string(),
        (Kind::Calls, 5) => format!("scan data {octets}"),
        (Kind::Calls, 4..) => "stop".to_string(),
        (Kind::ScannerCalls, 0) => "configure".to_string(),
        (Kind::ScannerCalls, 1) => "update".to_string(),
        _ => format!("packet {} {octets}{}", hex(&c[12..14]), if c[1] == 1 { "" } else { ", CRC bad" }),
    }
}

fn runs(octets: &[u8]) -> String {
    if octets.is_empty() {
        return "-".to_string();
    }
    let mut text = String::new();
    for run in octets.chunk_by(|a, b| a == b) {
        if run.len() >= 4 {
            text += &format!(" {:02x}*{} ", run[0], run.len());
        } else {
            text += &hex(run);
        }
    }
    text.trim().replace("  ", " ")
}
