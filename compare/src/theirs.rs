//! rubble's answers. Where it panics, the number that document 01 gives (its rows marked P).
mod basics;

use crate::area;
use crate::names;
use crate::ours::{behind, pattern};
use crate::padding::{self, Behind};
use crate::request::{last_asked, Kind, Request, CALL};
use crate::settings;
use rubble::beacon::{Beacon, BeaconScanner, ScanCallback};
use rubble::bytes::{ByteReader, ByteWriter, BytesOr, FromBytes, ToBytes};
use rubble::config::Config;
use rubble::link::ad_structure::{AdStructure, Flags, ServiceUuids};
use rubble::link::advertising::{Header, Pdu, PduBuf, PduType};
use rubble::link::filter::{AddressFilter, AllowAll, WhitelistFilter};
use rubble::link::llcp::ChannelMap;
use rubble::link::queue::NoQueue;
use rubble::link::{
    data, AddressKind, Cmd, CompanyId, DeviceAddress, LinkLayer, NextUpdate, RadioCmd, Transmitter,
};
use rubble::phy::{AdvertisingChannel, DataChannel};
use rubble::time::{Duration, Instant, Timer};
use rubble::uuid::{IsUuid, Uuid128, Uuid16, Uuid32};
use rubble::Error;
use std::cell::RefCell;
use std::panic::{catch_unwind, AssertUnwindSafe};

/// Document 01's numbers of the errors.
pub(crate) fn number(e: Error) -> u8 {
    match e {
        Error::Eof => 1,
        Error::InvalidLength => 2,
        Error::InvalidValue => 3,
    }
}

/// A call that panics gives the number.
fn panics<T>(number: u8, f: impl FnOnce() -> T) -> Result<T, u8> {
    catch_unwind(AssertUnwindSafe(f)).map_err(|_| number)
}

fn got(number: u8, first: u64, second: u64, out: &mut Vec<u8>) {
    out.push(number);
    out.extend(first.to_le_bytes());
    out.extend(second.to_le_bytes());
}

/// A lent buffer, and the octets after it, which stay as they were.
fn whole(buffer: &[u8], out: &mut Vec<u8>) {
    out.extend(buffer);
    out.extend(behind(buffer.len()));
}

/// Numbers of the machine's size, all octets of each.
fn sizes<const N: usize>(of: [usize; N], out: &mut Vec<u8>) {
    for n in of {
        out.extend((n as u64).to_le_bytes());
    }
}

fn kind(random: bool) -> AddressKind {
    if random {
        AddressKind::Random
    } else {
        AddressKind::Public
    }
}

fn address(octets: &[u8], random: bool) -> DeviceAddress {
    DeviceAddress::new(octets.try_into().expect("six octets"), kind(random))
}

/// The records of an area, which builders take as a list.
fn list(area: &[u8]) -> Result<Vec<AdStructure<'_>>, u8> {
    let read = BytesOr::<[AdStructure<'_>]>::from_bytes(&mut ByteReader::new(area)).map_err(number)?;
    Ok(read.iter().collect())
}

/// A whitelist that is given as octets: rubble's takes addresses, which cannot be malformed.
fn whitelist(list: &[u8]) -> Result<Vec<DeviceAddress>, u8> {
    if list.len() % 7 != 0 || list.chunks(7).any(|entry| entry[0] > 1) {
        return Err(3);
    }
    Ok(list.chunks(7).map(|entry| address(&entry[1..], entry[0] == 1)).collect())
}

/// A duration from its `Debug` text, for the fields that have no accessor.
fn micros(text: &str) -> u32 {
    let (digits, scale) = if let Some(d) = text.strip_suffix("µs") {
        (d, 1)
    } else if let Some(d) = text.strip_suffix("ms") {
        (d, 1_000)
    } else {
        (text.strip_suffix('s').expect("a duration"), 1_000_000)
    };
    match digits.split_once('.') {
        Some((whole, part)) => whole.parse::<u32>().unwrap() * scale + part.parse::<u32>().unwrap(),
        None => digits.parse::<u32>().unwrap() * scale,
    }
}

fn field<'a>(text: &'a str, name: &str) -> &'a str {
    let from = text.find(name).expect("a field") + name.len();
    let rest = &text[from..];
    &rest[..rest.find([',', ' ']).expect("an end")]
}

const ACCURACIES: [&str; 8] = [
    "Ppm251To500", "Ppm151To250", "Ppm101To150", "Ppm76To100", "Ppm51To75", "Ppm31To50", "Ppm21To30", "Ppm0To20",
];

fn packet(header: Header, payload: &[u8], out: &mut Vec<u8>) {
    match Pdu::from_header_and_payload(header, &mut ByteReader::new(payload)) {
        Ok(pdu) => packet_of(pdu, payload.len(), out),
        Err(e) => no_packet(number(e), out),
    }
}

/// What stands in the answer of a refused PDU: a type that is none, and blank fields.
fn no_packet(number: u8, out: &mut Vec<u8>) {
    out.extend([number, 15]);
    out.extend([0; 15]);
    sizes([0; 3], out);
    no_request(out);
}

/// The fields of a connect request where there is none: all blank, so that the window ends after the delay alone.
fn no_request(out: &mut Vec<u8>) {
    out.extend([0; 16]);
    out.extend(1250u32.to_le_bytes());
    out.extend([0; 20]);
}

/// A PDU that was read from a payload of so many octets.
fn packet_of(pdu: Pdu<'_>, len: usize, out: &mut Vec<u8>) {
    out.push(0);
    out.extend([u8::from(pdu.ty()), pdu.sender().is_random() as u8]);
    out.extend(pdu.sender().raw());
    match pdu.receiver() {
        Some(to) => {
            out.extend([1, to.is_random() as u8]);
            out.extend(to.raw());
        }
        None => out.extend([0; 8]),
    }
    match pdu.advertising_data() {
        Some(records) => sizes([6, len - 6, records.count()], out),
        None => sizes([0; 3], out),
    }
    match pdu {
        Pdu::ConnectRequest { lldata, .. } => {
            let text = format!("{lldata:?}");
            let request = [
                lldata.access_address(),
                lldata.crc_init(),
                micros(field(&text, "win_size: ")),
                micros(field(&text, "win_offset: ")),
                lldata.end_of_tx_window().as_micros(),
                lldata.interval().as_micros(),
                lldata.slave_latency() as u32,
                lldata.supervision_timeout().as_micros(),
            ];
            out.extend(request.iter().flat_map(|n| n.to_le_bytes()));
            out.extend(lldata.channel_map().to_raw());
            let sca = field(&text, "sca: ");
            let sca = ACCURACIES.iter().position(|a| *a == sca).expect("an accuracy") as u8;
            out.extend([lldata.channel_map().num_used_channels(), lldata.hop(), sca]);
        }
        _ => no_request(out),
    }
}

fn structure(number: u8, kind: u8, complete: bool, value: u16, place: [usize; 3], out: &mut Vec<u8>) {
    out.extend([number, kind, complete as u8]);
    out.extend(value.to_le_bytes());
    sizes(place, out);
}

/// Type and data read on, as rubble's types of lists and Rust's `str` read them. Of service data and manufacturer specific data there is no
/// reader: the kind is taken where writing it gives the record's octets again.
fn known<'a>(record: &'a [u8], start: usize) -> Result<(u8, bool, u16, usize), u8> {
    let data = &record[2..];
    let ty = record[1];
    let pair = |make: &dyn Fn(u16) -> AdStructure<'a>, kind: u8| {
        if data.len() < 2 {
            return Err(1);
        }
        let value = u16::from_le_bytes([data[0], data[1]]);
        let mut octets = vec![0; record.len()];
        make(value).to_bytes(&mut ByteWriter::new(&mut octets)).map_err(number)?;
        assert_eq!(octets, record);
        Ok((kind, false, value, start + 2))
    };
    match ty {
        0x04 | 0x05 => {
            let uuids = ServiceUuids::<Uuid32>::from_bytes(&mut ByteReader::new(&record[1..])).map_err(number)?;
            Ok((3, uuids.is_complete(), 0, start))
        }
        0x06 | 0x07 => {
            let uuids = ServiceUuids::<Uuid128>::from_bytes(&mut ByteReader::new(&record[1..])).map_err(number)?;
            Ok((4, uuids.is_complete(), 0, start))
        }
        0x08 | 0x09 => {
            std::str::from_utf8(data).map_err(|_| 3)?;
            Ok((if ty == 0x09 { 6 } else { 7 }, false, 0, start))
        }
        0x16 => pair(&|uuid| AdStructure::ServiceData16 { uuid, data: &data[2..] }, 5),
        0xFF => pair(
            &|company| AdStructure::ManufacturerSpecificData {
                company_identifier: CompanyId::from_raw(company),
                payload: &data[2..],
            },
            8,
        ),
        _ => Ok((9, false, ty as u16, start)),
    }
}

fn structures(area: &[u8], read_on: bool, out: &mut Vec<u8>) {
    let mut reader = ByteReader::new(area);
    while !reader.is_empty() {
        let at = area.len() - reader.bytes_left();
        let read = AdStructure::from_bytes(&mut reader);
        let next = area.len() - reader.bytes_left();
        match read {
            Err(e) => return structure(number(e), 0, false, 0, [0; 3], out),
            Ok(AdStructure::Flags(flags)) => structure(0, 1, false, flags.to_u8() as u16, [0, 0, next], out),
            Ok(AdStructure::ServiceUuids16(uuids)) => {
                structure(0, 2, uuids.is_complete(), 0, [at + 2, 2 * uuids.iter().count(), next], out)
            }
            Ok(AdStructure::Unknown { ty, data }) => {
                let start = data.as_ptr() as usize - area.as_ptr() as usize;
                if !read_on {
                    structure(0, 9, false, ty as u16, [start, data.len(), next], out);
                    continue;
                }
                match known(&area[at..next], start) {
                    Err(n) => return structure(n, 0, false, 0, [0; 3], out),
                    Ok((kind, complete, value, from)) => {
                        structure(0, kind, complete, value, [from, next - from, next], out)
                    }
                }
            }
            Ok(other) => panic!("read as {other:?}"),
        }
    }
    structure(0, 0, false, 0, [0; 3], out)
}

/// UUIDs from octets. A list is written from these.
fn uuids<T: IsUuid>(ty: u8, data: &[u8]) -> Result<Vec<T>, u8> {
    let mut octets = vec![ty];
    octets.extend(data);
    let read = ServiceUuids::<T>::from_bytes(&mut ByteReader::new(&octets)).map_err(number)?;
    Ok(read.iter().collect())
}

fn write(n: &[u64], s: &[u8], out: &mut Vec<u8>) {
    let (complete, value) = (n[1] == 1, n[2] as u16);
    let (start, len, at, space) = (n[3] as usize, n[4] as usize, n[5] as usize, n[6] as usize);
    let mut buffer = pattern(space);
    let result = (|| {
        let flags = AdStructure::from(Flags::from_bits_truncate(value as u8));
        if n[0] == 1 {
            return written(flags, at, &mut buffer);
        }
        let data = s.get(start..).and_then(|rest| rest.get(..len)).ok_or(1)?;
        match n[0] {
            2 => {
                let list = uuids::<Uuid16>(3, data)?;
                written(AdStructure::ServiceUuids16(ServiceUuids::from_uuids(complete, &list)), at, &mut buffer)
            }
            3 => {
                let list = uuids::<Uuid32>(5, data)?;
                written(AdStructure::ServiceUuids32(ServiceUuids::from_uuids(complete, &list)), at, &mut buffer)
            }
            4 => {
                let list = uuids::<Uuid128>(7, data)?;
                written(AdStructure::ServiceUuids128(ServiceUuids::from_uuids(complete, &list)), at, &mut buffer)
            }
            5 => written(AdStructure::ServiceData16 { uuid: value, data }, at, &mut buffer),
            6 => written(AdStructure::CompleteLocalName(std::str::from_utf8(data).map_err(|_| 3)?), at, &mut buffer),
            7 => written(AdStructure::ShortenedLocalName(std::str::from_utf8(data).map_err(|_| 3)?), at, &mut buffer),
            8 => {
                let company_identifier = CompanyId::from_raw(value);
                written(AdStructure::ManufacturerSpecificData { company_identifier, payload: data }, at, &mut buffer)
            }
            _ => written(AdStructure::Unknown { ty: value as u8, data }, at, &mut buffer),
        }
    })();
    match result {
        Ok(next) => got(0, next as u64, 0, out),
        Err(refused) => {
            got(refused, 0, 0, out);
            // What rubble had written before an error is not compared (document 01).
            buffer = pattern(space);
        }
    }
    whole(&buffer, out);
}

fn written(ad: AdStructure<'_>, at: usize, buffer: &mut [u8]) -> Result<usize, u8> {
    let len = buffer.len();
    let mut writer = ByteWriter::new(buffer.get_mut(at..).ok_or(1)?);
    panics(9, || ad.to_bytes(&mut writer))?.map_err(number)?;
    Ok(len - writer.space_left())
}

/// Transmits into a log.
#[derive(Default)]
pub struct Radio {
    buffer: Vec<u8>,
    sent: Vec<(u16, u8)>,
}

impl Transmitter for Radio {
    fn tx_payload_buf(&mut self) -> &mut [u8] {
        &mut self.buffer
    }
    fn transmit_advertising(&mut self, header: Header, channel: AdvertisingChannel) {
        self.sent.push((header.to_u16(), channel.channel()));
    }
    fn transmit_data(&mut self, _access_address: u32, _crc_iv: u32, _header: data::Header, _channel: DataChannel) {}
}

pub struct Clock(u32);

impl Timer for Clock {
    fn now(&self) -> Instant {
        Instant::from_raw_micros(self.0)
    }
}

pub struct NoMapper;

impl rubble::l2cap::ChannelMapper for NoMapper {}

pub struct Board;

impl Config for Board {
    type Timer = Clock;
    type Transmitter = Radio;
    type ChannelMapper = NoMapper;
    type PacketQueue = NoQueue;
}

#[derive(Default)]
struct Said {
    number: u8,
    kind: u8,
    channel: u8,
    header: u16,
    at: u32,
    access_address: u32,
    crc_init: u32,
}

fn refused(number: u8) -> Said {
    Said { number, ..Said::default() }
}

/// A `LinkLayer`, with the accepted calls that lead to its state: after a panic it is made anew from these. It has no scan data: the reply with these
/// is what rubble's builder of scan responses builds of them, header and payload.
struct Device<'a> {
    own: DeviceAddress,
    layer: LinkLayer<Board>,
    radio: Radio,
    accepted: Vec<&'a [u8]>,
    reply: Option<(u16, Vec<u8>)>,
}

struct Call<'a> {
    kind: u8,
    crc_ok: bool,
    second: bool,
    time: u32,
    interval: u32,
    header: Header,
    octets: &'a [u8],
}

fn call(c: &[u8]) -> Call<'_> {
    let number = |at: usize| u32::from_le_bytes(c[at..at + 4].try_into().unwrap());
    Call {
        kind: c[0],
        crc_ok: c[1] == 1,
        second: c[2] == 1,
        time: number(4),
        interval: number(8),
        header: Header::parse(&c[12..14]),
        octets: c.get(14..14 + c[3] as usize).unwrap_or(&[]),
    }
}

impl<'a> Device<'a> {
    fn new(own: DeviceAddress) -> Self {
        Device { own, layer: LinkLayer::new(own, Clock(0)), radio: Radio::default(), accepted: Vec::new(), reply: None }
    }

    fn again(&mut self) {
        let accepted = std::mem::take(&mut self.accepted);
        self.layer = LinkLayer::new(self.own, Clock(0));
        let mut buffer = vec![0; 64];
        for c in accepted {
            let said = self.run(c, &mut buffer);
            assert!(said.number == 0);
            self.accepted.push(c);
        }
    }

    fn step(&mut self, c: &'a [u8], first: &mut Vec<u8>, second: &mut Vec<u8>) -> Said {
        let buffer = if call(c).second { second } else { first };
        let said = self.run(c, buffer);
        match said.kind {
            0 | 7 => {}
            6 => self.accepted.clear(),
            _ => self.accepted.push(c),
        }
        said
    }

    fn run(&mut self, c: &[u8], buffer: &mut Vec<u8>) -> Said {
        let c = call(c);
        self.radio.sent.clear();
        match c.kind {
            0 => self.start(&c, buffer),
            1 => self.tick(buffer),
            2 => self.packet(&c, buffer),
            3 => self.event(c.time),
            5 => self.set_scan_data(c.octets),
            _ => {
                // rubble has no stop; a device that was stopped is in standby.
                self.layer = LinkLayer::new(self.own, Clock(0));
                Said { kind: 6, ..Said::default() }
            }
        }
    }

    fn sent(&mut self, next: Instant, buffer: &mut Vec<u8>) -> Said {
        std::mem::swap(&mut self.radio.buffer, buffer);
        let (header, channel) = self.radio.sent[0];
        assert!(self.radio.sent.len() == 1);
        Said { kind: 1, channel, header, at: next.raw_micros(), ..Said::default() }
    }

    fn start(&mut self, c: &Call<'_>, buffer: &mut Vec<u8>) -> Said {
        let records = match list(c.octets) {
            Ok(records) => records,
            Err(n) => return refused(n),
        };
        self.layer.timer().0 = c.time;
        let before = buffer.clone();
        std::mem::swap(&mut self.radio.buffer, buffer);
        let interval = Duration::from_micros(c.interval);
        let (layer, radio) = (&mut self.layer, &mut self.radio);
        match panics(1, || layer.start_advertise(interval, &records, radio, NoQueue, NoQueue)) {
            Ok(Ok(NextUpdate::At(next))) => self.sent(next, buffer),
            Ok(Ok(other)) => panic!("a start answers {other:?}"),
            Ok(Err(e)) => {
                std::mem::swap(&mut self.radio.buffer, buffer);
                refused(number(e))
            }
            Err(n) => {
                *buffer = before;
                self.again();
                refused(n)
            }
        }
    }

    fn tick(&mut self, buffer: &mut Vec<u8>) -> Said {
        if self.layer.is_connected() {
            // rubble's timer call while connected is left out (document 01); refused here.
            return refused(5);
        }
        let advertising = self.layer.is_advertising();
        let before = buffer.clone();
        std::mem::swap(&mut self.radio.buffer, buffer);
        let (layer, radio) = (&mut self.layer, &mut self.radio);
        match panics(if advertising { 1 } else { 5 }, || layer.update_timer(radio)) {
            Ok(Cmd { radio: RadioCmd::ListenAdvertising { channel }, next_update: NextUpdate::At(next), .. }) => {
                let said = self.sent(next, buffer);
                assert!(said.channel == channel.channel());
                said
            }
            Ok(other) => panic!("a tick answers {other:?}"),
            Err(n) => {
                *buffer = before;
                self.again();
                refused(n)
            }
        }
    }

    fn set_scan_data(&mut self, area: &[u8]) -> Said {
        match build(4, self.own, area) {
            Ok(pdu) => {
                self.reply = if area.is_empty() { None } else { Some((pdu.header().to_u16(), pdu.payload().to_vec())) };
                Said { kind: 7, ..Said::default() }
            }
            Err(n) => refused(n),
        }
    }

    /// A reply that rubble's device gave with this header. Its payload is written as document 02's Note 1 has it: without scan data the own address.
    fn replied(&self, header: u16, channel: u8, buffer: &mut [u8]) -> Said {
        let (header, payload) = match &self.reply {
            Some((header, payload)) => (*header, &payload[..]),
            None => (header, &self.own.raw()[..]),
        };
        let Some(front) = buffer.get_mut(..payload.len()) else { return refused(1) };
        front.copy_from_slice(payload);
        Said { kind: 3, channel, header, ..Said::default() }
    }

    /// A packet. Where rubble begins a connection on settings outside the ranges, the call is judged by document 02's Note 6: 12, and the device, made anew, goes on as if
    /// it had not heard the request.
    fn packet(&mut self, c: &Call<'_>, buffer: &mut [u8]) -> Said {
        let advertising = self.layer.is_advertising();
        let (layer, radio) = (&mut self.layer, &mut self.radio);
        let end = Instant::from_raw_micros(c.time);
        match panics(if advertising { 6 } else { 5 }, || {
            layer.process_adv_packet(end, radio, c.header, c.octets, c.crc_ok)
        }) {
            Ok(Cmd { radio: RadioCmd::ListenAdvertising { channel }, next_update: NextUpdate::Keep, .. }) => {
                match self.radio.sent[..] {
                    [] => Said { kind: 2, channel: channel.channel(), ..Said::default() },
                    [(header, on)] => {
                        assert!(on == channel.channel());
                        self.replied(header, on, buffer)
                    }
                    _ => panic!("a packet is answered more than once"),
                }
            }
            Ok(Cmd {
                radio: RadioCmd::ListenData { channel, access_address, crc_init, timeout: false },
                next_update: NextUpdate::At(at),
                ..
            }) => {
                let number = settings::of(c.octets).number();
                if number != 0 {
                    self.again();
                    return refused(number);
                }
                let channel = channel.index();
                Said { kind: 4, channel, at: at.raw_micros(), access_address, crc_init, ..Said::default() }
            }
            Ok(other) => panic!("a packet answers {other:?}"),
            Err(n) => {
                assert!(!advertising || settings::of(c.octets).number() == n);
                self.again();
                refused(n)
            }
        }
    }

    /// A data packet with a bad CRC: the connection hops once.
    fn event(&mut self, time: u32) -> Said {
        let (layer, radio) = (&mut self.layer, &mut self.radio);
        let header = data::Header::new(data::Llid::DataCont);
        match panics(5, || {
            layer.process_data_packet(Instant::from_raw_micros(time), radio, header, &[], false)
        }) {
            Ok(Cmd { radio: RadioCmd::ListenData { channel, .. }, .. }) => {
                Said { kind: 5, channel: channel.index(), ..Said::default() }
            }
            Ok(other) => panic!("an event answers {other:?}"),
            Err(n) => {
                self.again();
                refused(n)
            }
        }
    }
}

fn calls(r: &Request, out: &mut Vec<u8>) {
    let mut device = Device::new(address(&r.parts[0], r.numbers[0] == 1));
    let mut first = pattern(r.numbers[1] as usize);
    let mut second = pattern(r.numbers[2] as usize);
    for c in r.parts[1].chunks_exact(CALL) {
        let s = device.step(c, &mut first, &mut second);
        let mode = [device.layer.is_advertising() as u8, device.layer.is_connected() as u8];
        out.extend([s.number, s.kind, mode[0], mode[1], s.channel]);
        out.extend(s.header.to_le_bytes());
        out.extend([s.at, s.access_address, s.crc_init].iter().flat_map(|n| n.to_le_bytes()));
        whole(&first, out);
        whole(&second, out);
    }
}

/// The channels of a connection's events, by a connect request to a device that advertises. rubble keeps the unmapped channel to itself: it is
/// counted from the hop's lower five bits.
fn events(hop: u8, count: u64, map: &[u8], out: &mut Vec<u8>) {
    let own = [1, 2, 3, 4, 5, 6];
    let mut layer = LinkLayer::<Board>::new(address(&own, false), Clock(0));
    let mut radio = Radio { buffer: vec![0; 37], sent: Vec::new() };
    layer.start_advertise(Duration::from_micros(0), &[], &mut radio, NoQueue, NoQueue).unwrap();
    let mut request = vec![0; 34];
    request[6..12].copy_from_slice(&own);
    request[28..33].copy_from_slice(map);
    request[33] = hop;
    let at = Instant::from_raw_micros(0);
    for event in 0..count {
        let cmd = panics(6, || {
            if event == 0 {
                layer.process_adv_packet(at, &mut radio, Header::parse(&[5, 34]), &request, true)
            } else {
                layer.process_data_packet(at, &mut radio, data::Header::new(data::Llid::DataCont), &[], false)
            }
        });
        match cmd {
            Ok(Cmd { radio: RadioCmd::ListenData { channel, .. }, .. }) => {
                got(0, (event + 1) * (hop % 32) as u64 % 37, channel.index() as u64, out)
            }
            Ok(other) => panic!("an event answers {other:?}"),
            Err(n) => return got(n, 0, 0, out),
        }
    }
}

/// The sender and the number of records of the last report.
#[derive(Clone, Copy)]
struct Report(DeviceAddress, usize);

struct Reports<'a>(&'a RefCell<Option<Report>>);

impl ScanCallback for Reports<'_> {
    fn beacon<'a, I>(&mut self, adv_addr: DeviceAddress, adv_data: I)
    where
        I: Iterator<Item = AdStructure<'a>>,
    {
        *self.0.borrow_mut() = Some(Report(adv_addr, adv_data.count()));
    }
}

fn listens(cmd: Cmd) -> (u8, NextUpdate) {
    match cmd.radio {
        RadioCmd::ListenAdvertising { channel } => (channel.channel(), cmd.next_update),
        other => panic!("a scanner answers {other:?}"),
    }
}

/// A packet as rubble's scanner can read it. A beacon with zeros after its records is cut there, and its header counts what is left; any other packet is as
/// it came.
fn unpadded(header: Header, payload: &[u8]) -> (Header, &[u8]) {
    let counted = header.type_().is_beacon() && header.payload_length() as usize == payload.len();
    let Some(area) = payload.get(6..).filter(|_| counted) else { return (header, payload) };
    let read = padding::read(area);
    if read.behind != Behind::Zeros {
        return (header, payload);
    }
    let [first, second] = header.to_u16().to_le_bytes();
    let kept = 6 + read.taken;
    (Header::parse(&[first, (second & 0xC0) | kept as u8]), &payload[..kept])
}

/// What rubble's scanner says of a packet, which is cut first: the command, the report, and the octets of the area that were read. Of a packet that is
/// cut it reports nothing as it came.
fn hears<F: AddressFilter>(
    scanner: &mut BeaconScanner<Reports<'_>, F>, reports: &RefCell<Option<Report>>, header: Header, payload: &[u8], crc_ok: bool,
) -> (Cmd, Option<Report>, usize) {
    let (cut, kept) = unpadded(header, payload);
    if kept.len() < payload.len() {
        let _ = scanner.process_adv_packet(header, payload, crc_ok);
        assert!(reports.take().is_none());
    }
    let cmd = scanner.process_adv_packet(cut, kept, crc_ok);
    (cmd, reports.take(), kept.len().saturating_sub(6))
}

/// What a scanner said of a packet; without a report of the channel alone. The area is the whole rest of the payload, and all of it was taken but for zeros
/// that were cut.
fn heard(report: Option<Report>, payload: &[u8], taken: usize, channel: u8, out: &mut Vec<u8>) {
    match report {
        Some(Report(sender, count)) => {
            out.extend([0, 1, sender.is_random() as u8]);
            out.extend(sender.raw());
            sizes([6, payload.len() - 6, count, taken], out);
            out.push(channel);
        }
        None => unheard(0, channel, out),
    }
}

/// No report: the number and the channel alone.
fn unheard(number: u8, channel: u8, out: &mut Vec<u8>) {
    out.push(number);
    out.extend([0; 8]);
    sizes([0; 4], out);
    out.push(channel);
}

fn scan_with<F: AddressFilter>(filter: F, r: &Request, out: &mut Vec<u8>) {
    let reports = RefCell::new(None);
    let mut scanner = BeaconScanner::with_filter(Reports(&reports), filter);
    let zero = Instant::from_raw_micros(0);
    let _ = scanner.configure(zero, Duration::from_micros(0));
    for _ in 0..r.numbers[1].min(3) {
        let _ = scanner.timer_update(zero);
    }
    let header = match panics(4, || Header::parse(&r.parts[1])) {
        Ok(header) => header,
        Err(n) => return unheard(n, 0, out),
    };
    let (cmd, report, taken) = hears(&mut scanner, &reports, header, &r.parts[2], r.numbers[2] == 1);
    let (channel, next) = listens(cmd);
    assert!(matches!(next, NextUpdate::Keep));
    heard(report, &r.parts[2], taken, channel, out);
}

/// A list that is no list of addresses, which rubble's types cannot hold, is refused with 3 (document 01).
fn scan(r: &Request, out: &mut Vec<u8>) {
    if r.numbers[0] != 1 {
        return scan_with(AllowAll, r, out);
    }
    match whitelist(&r.parts[0]) {
        Ok(addresses) => scan_with(WhitelistFilter::from_slice(&addresses), r, out),
        Err(n) => {
            let mut channel = AdvertisingChannel::first();
            for _ in 0..r.numbers[1].min(3) {
                channel = channel.cycle();
            }
            unheard(n, channel.channel(), out);
        }
    }
}

/// A scanner that lives through its entries. Where its list is bad, each packet is refused with the number.
fn scanner_calls_with<F: AddressFilter>(filter: F, bad: Option<u8>, entries: &[u8], out: &mut Vec<u8>) {
    let reports = RefCell::new(None);
    let mut scanner = BeaconScanner::with_filter(Reports(&reports), filter);
    for c in entries.chunks_exact(CALL).map(call) {
        let time = Instant::from_raw_micros(c.time);
        let (cmd, report, taken) = match c.kind {
            0 => (scanner.configure(time, Duration::from_micros(c.interval)), None, 0),
            1 => (scanner.timer_update(time), None, 0),
            _ => hears(&mut scanner, &reports, c.header, c.octets, c.crc_ok),
        };
        let (channel, next) = listens(cmd);
        match (c.kind, bad) {
            (2.., Some(n)) => unheard(n, channel, out),
            _ => heard(report, c.octets, taken, channel, out),
        }
        let next = match next {
            NextUpdate::At(next) => next.raw_micros(),
            NextUpdate::Keep => 0,
            NextUpdate::Disable => panic!("a scanner is disabled"),
        };
        out.extend(next.to_le_bytes());
    }
}

fn scanner_calls(filters: bool, list: &[u8], entries: &[u8], out: &mut Vec<u8>) {
    if !filters {
        return scanner_calls_with(AllowAll, None, entries, out);
    }
    match whitelist(list) {
        Ok(addresses) => scanner_calls_with(WhitelistFilter::from_slice(&addresses), None, entries, out),
        Err(n) => scanner_calls_with(AllowAll, Some(n), entries, out),
    }
}

fn frame(built: Result<PduBuf, u8>, out: &mut Vec<u8>) {
    match built {
        Ok(pdu) => {
            out.push(0);
            out.extend(pdu.header().to_u16().to_le_bytes());
            out.extend(pdu.payload());
            out.extend(std::iter::repeat(0).take(37 - pdu.payload().len()));
        }
        Err(n) => {
            out.push(n);
            out.extend([0; 39]);
        }
    }
}

fn build(which: u64, own: DeviceAddress, area: &[u8]) -> Result<PduBuf, u8> {
    let records = list(area)?;
    match which {
        0 => PduBuf::connectable_undirected(own, &records),
        1 => PduBuf::discoverable(own, &records),
        2 => PduBuf::nonconnectable_undirected(own, &records),
        3 => PduBuf::beacon(own, &records),
        4 => PduBuf::scan_response(own, &records),
        _ => PduBuf::scannable_undirected(own, &records),
    }
    .map_err(number)
}

/// Records written again, into a new buffer.
fn rewritten(records: Result<Vec<AdStructure<'_>>, u8>, space: u64, out: &mut Vec<u8>) {
    let mut buffer = pattern(space as usize);
    let mut writer = ByteWriter::new(&mut buffer);
    let done = records.and_then(|records| records[..].to_bytes(&mut writer).map_err(number));
    match done {
        Ok(()) => {
            let left = writer.space_left() as u64;
            got(0, space - left, 0, out)
        }
        Err(refused) => {
            got(refused, 0, 0, out);
            buffer = pattern(space as usize);
        }
    }
    whole(&buffer, out);
}

/// An area as the hub reads it. rubble's reading of the whole area is the same where no zero length stands at a record's place, and 2 where one does. What
/// rubble writes of the records is the octets before the padding, save undefined Flags bits. `area`, which needs no rubble, reads the same.
fn padded(octets: &[u8], space: u64, out: &mut Vec<u8>) {
    let read = padding::read(octets);
    let strict = list(octets).map(|records| records.len());
    assert!(match read.behind {
        Behind::Nothing => strict == Ok(read.records.len()),
        Behind::Bad(n) => strict == Err(n),
        Behind::Zeros | Behind::Another => strict == Err(2),
    });
    let count = match read.behind.number() {
        0 => Ok(read.records.len()),
        refused => Err(refused),
    };
    assert_eq!(area::read(octets).map(|records| records.len()), count);
    match read.behind.number() {
        0 => {
            got(0, read.records.len() as u64, read.taken as u64, out);
            let at = out.len();
            rewritten(Ok(read.records), space, out);
            assert_eq!(out[at] == 0, space >= read.taken as u64);
            assert!(out[at] != 0 || out[at + 17..].starts_with(&padding::cleared(&octets[..read.taken])));
        }
        refused => got(refused, 0, 0, out),
    }
}

fn set(mut header: Header, n: &[u64], out: &mut Vec<u8>) {
    header.set_tx_add(n[0] == 1);
    header.set_rx_add(n[1] == 1);
    match panics(7, || header.set_payload_length(n[2] as u8)) {
        Ok(()) => got(0, header.to_u16() as u64, 0, out),
        Err(refused) => got(refused, 0, 0, out),
    }
}

fn beacon(r: &Request, out: &mut Vec<u8>) {
    let own = address(&r.parts[0], r.numbers[0] == 1);
    let mut radio = Radio { buffer: pattern(r.numbers[1] as usize), sent: Vec::new() };
    let made = list(&r.parts[1]).and_then(|records| Beacon::new(own, &records).map_err(number));
    let result = made.and_then(|beacon| panics(1, || beacon.broadcast(&mut radio)));
    match result {
        Ok(()) => {
            out.push(0);
            let header = radio.sent[0].0;
            assert!(radio.sent.len() == 3 && radio.sent.iter().all(|s| s.0 == header));
            out.extend(header.to_le_bytes());
            out.extend(radio.sent.iter().map(|s| s.1));
        }
        Err(n) => {
            out.push(n);
            out.extend([0; 5]);
            radio.buffer = pattern(r.numbers[1] as usize);
        }
    }
    whole(&radio.buffer, out);
}

pub fn answer(r: &Request, out: &mut Vec<u8>) {
    let n = &r.numbers;
    let p = &r.parts;
    match r.kind {
        Kind::Decode => match p[0].len() {
            0 | 1 => match panics(4, || Header::parse(&p[0])) {
                Ok(_) => panic!("a short header is read"),
                Err(refused) => no_packet(refused, out),
            },
            _ => packet(Header::parse(&p[0]), &p[1], out),
        },
        Kind::Header => match panics(4, || Header::parse(&p[0])) {
            Ok(h) => {
                out.push(0);
                out.extend(h.to_u16().to_le_bytes());
                let bits = [h.tx_add(), h.rx_add(), h.type_().is_beacon(), h.type_().allows_adv_data()];
                out.extend([u8::from(h.type_()), h.payload_length()]);
                out.extend(bits.map(|b| b as u8));
            }
            Err(refused) => {
                out.push(refused);
                out.extend([0; 8]);
            }
        },
        Kind::SetHeader => match panics(4, || Header::parse(&p[0])) {
            Ok(header) => set(header, n, out),
            Err(refused) => got(refused, 0, 0, out),
        },
        Kind::NewHeader => set(Header::new(PduType::from(n[0] as u8)), &n[1..], out),
        Kind::Build => frame(build(n[0], address(&p[0], n[1] == 1), &p[1]), out),
        Kind::BuildDirected => {
            let (a, b) = (address(&p[0], n[0] == 1), address(&p[1], n[1] == 1));
            frame(Ok(PduBuf::connectable_directed(a, b)), out)
        }
        Kind::Area => match list(&p[0]) {
            Ok(records) => got(0, records.len() as u64, 0, out),
            Err(refused) => got(refused, 0, 0, out),
        },
        Kind::Records => structures(&p[0], false, out),
        Kind::Known => structures(&p[0], true, out),
        Kind::Write => write(n, &p[0], out),
        Kind::Rewrite => rewritten(list(&p[0]), n[0], out),
        Kind::Padded => padded(&p[0], n[0], out),
        Kind::Name => names::answer(&p[0], &p[1], out),
        Kind::Flags => {
            let f = Flags::from_bits_truncate(n[0] as u8);
            out.push(f.to_u8());
            // rubble's answer is inverted (docs/DIFFERENCES.md, R25).
            let classic = !f.supports_classic_bluetooth();
            let (limited, general) = (f.le_limited_discoverable(), f.le_general_discoverable());
            let (controller, host) = (f.contains(Flags::SIMUL_LE_BR_CONTROLLER), f.contains(Flags::SIMUL_LE_BR_HOST));
            out.extend([classic, limited, general, controller, host].map(|b| b as u8));
        }
        Kind::Utf8 => out.push(std::str::from_utf8(&p[0]).is_ok() as u8),
        Kind::Uuid16 => uuid(Uuid16(n[0] as u16).into(), out),
        Kind::Uuid32 => uuid(Uuid32(n[0] as u32).into(), out),
        Kind::UuidList => {
            let mut reader = ByteReader::new(&p[0]);
            while !reader.is_empty() {
                match Uuid16::from_bytes(&mut reader) {
                    Ok(uuid) => got(0, uuid.0 as u64, (p[0].len() - reader.bytes_left()) as u64, out),
                    Err(e) => return got(number(e), 0, 0, out),
                }
            }
            got(0, 0, p[0].len() as u64, out);
        }
        Kind::Later => {
            let later = Instant::from_raw_micros(n[0] as u32) + Duration::from_micros(n[1] as u32);
            out.extend(later.raw_micros().to_le_bytes())
        }
        Kind::Since => {
            let since = Instant::from_raw_micros(n[0] as u32).duration_since(Instant::from_raw_micros(n[1] as u32));
            out.extend(since.as_micros().to_le_bytes())
        }
        Kind::AdvertisingChannel => {
            let mut c = AdvertisingChannel::first();
            for _ in 0..n[0].min(3) {
                c = c.cycle();
            }
            out.extend([0, c.channel(), c.rf_channel(), c.whitening_iv()]);
            out.extend(c.freq().to_le_bytes());
        }
        Kind::DataChannel => match panics(8, || DataChannel::new(n[0] as u8)) {
            Ok(c) => {
                out.extend([0, c.index(), c.rf_channel(), c.whitening_iv()]);
                out.extend(c.freq().to_le_bytes());
            }
            Err(refused) => out.extend([refused, 0, 0, 0, 0, 0]),
        },
        Kind::Map => {
            let map = ChannelMap::from_raw(p[0][..].try_into().expect("five octets"));
            out.extend(map.to_raw());
            out.push(map.num_used_channels());
            let marked: Vec<u8> = map.iter_used().map(|c| c.index()).collect();
            assert!(marked.len() == map.num_used_channels() as usize);
            for c in 0..=last_asked(&p[0]) {
                match c {
                    0..=36 => got(0, map.is_used(DataChannel::new(c)) as u64, 0, out),
                    // `DataChannel::new` panics: see `DataChannel`.
                    _ => got(8, 0, 0, out),
                }
                // `by_index` is the place of `iter_used`, and panics after its end: asked for itself on a sample.
                match marked.get(c as usize) {
                    Some(index) => {
                        if p[0][0] == 0x5A || p[0][4] == 0x1F {
                            assert!(map.by_index(c).index() == *index);
                        }
                        got(0, *index as u64, 0, out)
                    }
                    None => {
                        if p[0][0] == 0x5A {
                            assert!(panics(8, || map.by_index(c)).is_err());
                        }
                        got(8, 0, 0, out)
                    }
                }
            }
        }
        Kind::Events => events(n[0] as u8, n[1], &p[0], out),
        Kind::Settings => settings::answer(&p[0], out),
        Kind::Beacon => beacon(r, out),
        Kind::Scan => scan(r, out),
        Kind::Scanner => {
            let none = RefCell::new(None);
            let mut scanner = BeaconScanner::new(Reports(&none));
            let time = Instant::from_raw_micros(n[0] as u32);
            let mut cmd = scanner.configure(time, Duration::from_micros(n[1] as u32));
            for _ in 0..n[2].min(3) {
                cmd = scanner.timer_update(time);
            }
            match listens(cmd) {
                (channel, NextUpdate::At(next)) => got(0, channel as u64, next.raw_micros() as u64, out),
                (_, other) => panic!("a scanner answers {other:?}"),
            }
        }
        Kind::ScannerCalls => scanner_calls(n[0] == 1, &p[0], &p[1], out),
        Kind::Calls => calls(r, out),
        Kind::AllChannels => {
            let map = ChannelMap::with_all_channels();
            out.extend(map.to_raw());
            out.push(map.num_used_channels());
        }
        _ => basics::answer(r, out),
    }
}

fn uuid(full: Uuid128, out: &mut Vec<u8>) {
    let mut octets = [0; 16];
    full.to_bytes(&mut ByteWriter::new(&mut octets)).unwrap();
    out.extend(octets);
}

/// For the benchmark: a decoded PDU, and the number of its records by a walk over them.
#[inline(never)]
pub fn decode(header: &[u8], payload: &[u8]) -> usize {
    match Pdu::from_header_and_payload(Header::parse(header), &mut ByteReader::new(payload)) {
        Ok(pdu) => {
            std::hint::black_box(&pdu);
            pdu.advertising_data().map_or(0, |records| records.count())
        }
        Err(_) => usize::MAX,
    }
}

/// The same without the walk; decoding has read each record once.
#[inline(never)]
pub fn decode_only(header: &[u8], payload: &[u8]) -> usize {
    match Pdu::from_header_and_payload(Header::parse(header), &mut ByteReader::new(payload)) {
        Ok(pdu) => {
            std::hint::black_box(&pdu);
            0
        }
        Err(_) => usize::MAX,
    }
}

/// For the benchmark: the number of records of a packet that a new scanner reports.
#[inline(never)]
pub fn scanned(header: &[u8], payload: &[u8]) -> usize {
    let reports = RefCell::new(None);
    let mut scanner = BeaconScanner::new(Reports(&reports));
    let cmd = scanner.configure(Instant::from_raw_micros(0), Duration::from_micros(0));
    std::hint::black_box(&cmd);
    let cmd = scanner.process_adv_packet(Header::parse(header), payload, true);
    std::hint::black_box(&cmd);
    reports.take().map_or(usize::MAX, |report: Report| report.1)
}
