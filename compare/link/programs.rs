//! Tries the programs hublog and replay from outside, as a shell starts them: `programs BIN REPOSITORY SCRATCH`, with the folders of the programs, of the repository and
//! for files that are made. Prints a line for each thing tried, and ends with 1 if one of them is not as it should be. `programs cases FOLDER` runs nothing: it writes
//! inputs of hublog to the folder, and beside each, as NAME.stdout, the log that it has to print.
// records are only counted here
#[allow(dead_code)]
#[path = "../src/area.rs"]
mod area;

use std::fs::{self, File};
use std::io::{Read, Seek, Write};
use std::os::fd::{AsRawFd, FromRawFd, OwnedFd};
use std::process::{exit, Command, Stdio};
use std::time::{Duration, Instant};

extern "C" {
    fn pipe(ends: *mut [i32; 2]) -> i32;
    fn fcntl(fd: i32, command: i32, flags: i32) -> i32;
}

const F_SETFL: i32 = 4;
const O_NONBLOCK: i32 = 0o4000;

/// The two ends of a pipe, for reading and for writing.
fn pipe_ends() -> (File, File) {
    let mut ends = [0; 2];
    assert!(unsafe { pipe(&mut ends) } == 0);
    let end = |fd| File::from(unsafe { OwnedFd::from_raw_fd(fd) });
    (end(ends[0]), end(ends[1]))
}

fn does_not_wait(end: &File) {
    assert!(unsafe { fcntl(end.as_raw_fd(), F_SETFL, O_NONBLOCK) } == 0);
}

struct Tried {
    bin: String,
    scratch: String,
    failed: u32,
}

type Ran = (Vec<u8>, String);

fn text(octets: &[u8]) -> String {
    String::from_utf8_lossy(octets).into_owned()
}

impl Tried {
    fn say(&mut self, what: &str, is: bool, found: &Ran) {
        println!("{}  {what}", if is { "ok  " } else { "FAIL" });
        if !is {
            let front = &found.0[..found.0.len().min(200)];
            println!("      printed {} octets: {:?}\n      said {:?}", found.0.len(), text(front), found.1);
            self.failed += 1;
        }
    }

    fn file(&self, name: &str, octets: &[u8]) -> String {
        let path = format!("{}/{name}", self.scratch);
        fs::write(&path, octets).unwrap();
        path
    }

    /// Runs a program on octets.
    fn run(&self, program: &str, input: &[u8]) -> Ran {
        let path = self.file("input", input);
        self.shell(&format!("{}/{program} < {path}", self.bin))
    }

    /// Lines of the shell that print nothing and say one thing on standard error.
    fn each(&mut self, program: &str, lines: &[(&str, String, &str)]) {
        for (what, line, said) in lines {
            let ran = self.shell(line);
            self.say(&format!("{program}: {what}"), ran.0.is_empty() && ran.1 == *said, &ran);
        }
    }

    /// Runs a line of the shell.
    fn shell(&self, line: &str) -> Ran {
        let done = Command::new("sh").arg("-c").arg(line).stdin(Stdio::null()).output().unwrap();
        (done.stdout, text(&done.stderr))
    }
}

/// Random numbers, by Marsaglia's xorshift.
struct Random(u64);

impl Random {
    fn below(&mut self, n: u64) -> u64 {
        self.0 ^= self.0 << 13;
        self.0 ^= self.0 >> 7;
        self.0 ^= self.0 << 17;
        (self.0 >> 11) % n
    }
}

/// hublog's log, written from documents 01 and 02 and from nothing else.
fn log(input: &[u8]) -> Vec<u8> {
    let (mut out, mut at, mut items, mut reports, mut ticks) = (Vec::new(), 0, 0, 0, 0);
    let is_broken = loop {
        let rest = &input[at..];
        let size = match rest {
            [] => break false,
            _ if items == 999_999 => break true,
            [0, ..] => 1,
            [1 | 2, _, length, ..] => 3 + (length % 64) as usize,
            _ => break true,
        };
        if rest.len() < size {
            break true;
        }
        items += 1;
        at += size;
        let item = &rest[..size];
        ticks += (item[0] == 0) as u32;
        if item[0] == 1 && item[1] % 16 == 2 && size >= 9 {
            if let Ok(records) = area::read(&item[9..]) {
                let count = records.len();
                reports += 1;
                write!(out, "{items:6}{:3}{:2}", [37, 38, 39][(ticks % 3) as usize], item[1] / 64 % 2).unwrap();
                item[3..9].iter().for_each(|octet| write!(out, "{octet:4}").unwrap());
                writeln!(out, "{count:3}").unwrap();
            }
        }
    };
    writeln!(out, "{items:6}{reports:6}{:2}", is_broken as u8).unwrap();
    out
}

/// An input whose items are often whole and often reported.
fn some_input(random: &mut Random) -> Vec<u8> {
    let mut input = Vec::new();
    for _ in 0..random.below(60) {
        if random.below(4) == 0 {
            input.push(0);
            continue;
        }
        let mut payload: Vec<u8> = (0..6).map(|_| random.below(256) as u8).collect();
        for _ in 0..random.below(5) {
            let data = random.below(12) as u8;
            payload.push(data + 1);
            payload.push(random.below(5) as u8);
            payload.extend((0..data).map(|_| random.below(256) as u8));
        }
        if random.below(2) == 0 {
            payload.extend((0..random.below(40)).map(|_| (random.below(80) == 0) as u8));
        }
        payload.truncate(63);
        let length = payload.len() as u64 + if random.below(40) == 0 { 1 } else { 0 };
        input.push(1 + (random.below(6) == 0) as u8);
        input.push((if random.below(5) == 0 { random.below(16) } else { 2 } + 16 * random.below(16)) as u8);
        input.push((length % 64 + 64 * random.below(4)) as u8);
        input.extend(payload);
    }
    if random.below(8) == 0 {
        input.push(random.below(256) as u8);
    }
    input
}

/// So many items, each reported.
fn reports(count: u64) -> Vec<u8> {
    let mut random = Random(7);
    let mut input = Vec::new();
    for _ in 0..count {
        input.extend([1, 0x42, 9]);
        input.extend((0..6).map(|_| random.below(256) as u8));
        input.extend([2, 1, 6]);
    }
    input
}

/// Items of twelve octets, each reported, a tick before some: a tick may be the last octet of a read.
fn reports_and_ticks(count: usize) -> Vec<u8> {
    let mut random = Random(9);
    let mut input = Vec::new();
    for item in reports(count as u64).chunks(12) {
        input.extend(vec![0; random.below(4) as usize]);
        input.extend(item);
    }
    input
}

/// Items that are no report, a CRC-bad beacon among them, before ones that are.
fn bad_and_good(count: usize) -> Vec<u8> {
    let mut input = Vec::new();
    for item in reports(count as u64).chunks(12) {
        input.push(2);
        input.extend(&item[1..]);
        input.push(0);
        input.extend(item);
    }
    input
}

fn hublog_prints(t: &mut Tried, example: &[u8]) {
    let ran = t.run("hublog", example);
    t.say("hublog: document 01's example, with its channel", text(&ran.0) == "     2 38 1   1   2   3   4   5 198  1\n     2     1 0\n", &ran);
    let ran = t.run("hublog", b"");
    t.say("hublog: no input", text(&ran.0) == "     0     0 0\n" && ran.1.is_empty(), &ran);
    let mut random = Random(1);
    for round in 0..1000 {
        let input = some_input(&mut random);
        let ran = t.run("hublog", &input);
        if ran.0 != log(&input) || !ran.1.is_empty() {
            return t.say(&format!("hublog: random input {round}"), false, &ran);
        }
    }
    println!("ok    hublog: 1000 random inputs against a log written from documents 01 and 02");
    let input = reports_and_ticks(100_000);
    let ran = t.run("hublog", &input);
    t.say("hublog: 100000 reports with ticks between them, over many reads", ran.0 == log(&input), &ran);
    for count in [999_998, 999_999, 1_000_000] {
        let input = vec![0; count];
        let ran = t.run("hublog", &input);
        t.say(&format!("hublog: {count} ticks"), ran.0 == log(&input), &ran);
    }
}

/// The CRC of the Core (Vol 6 Part B, 3.1.1), a bit at a time: position 23 is the number's lowest bit.
fn crc(octets: &[u8]) -> u32 {
    octets.iter().flat_map(|octet| (0..8).map(move |bit| u32::from(octet >> bit & 1))).fold(0xAAAAAA, |register, bit| {
        let shifted = register >> 1;
        if register & 1 == bit { shifted } else { shifted ^ 0xDA6000 }
    })
}

/// The output that the gate holds try_hublog to, from the inputs that it makes.
fn try_hublog_is_held(t: &mut Tried, example: &[u8], repository: &str) {
    let beacons = |count: u32| {
        let mut beacons = Vec::new();
        for n in 0..count {
            if n % 5_000 == 4_999 {
                beacons.push(0);
            }
            beacons.extend([1, 0x42, 6, n as u8, (n >> 8) as u8, 3, 4, 5, 0xC6]);
        }
        beacons
    };
    let of = log(&beacons(15_000));
    let most = log(&beacons(1_000_000));
    let ran = |input: &[u8]| {
        let of = log(input);
        format!("written {0}, found {0} octets, CRC {1:06x}\n{2}{3}", of.len(), crc(&of), text(&of[..39]), text(&of[of.len() - 54..]))
    };
    let full = format!(
        "7281 beacons, and another first octet\n{}7 of them, at most 66 octets a read\n{}",
        ran(&[&beacons(7_281)[..], &[3]].concat()), ran(&[&beacons(7)[..], &[3]].concat())
    );
    let mut sizes = Vec::new();
    for k in 0..66 {
        sizes.extend(vec![0; k]);
        sizes.extend([1, 0x42, 63, 1, 2, 3, 4, 5, 0xC6]);
        sizes.extend([0; 57]);
    }
    let sized = format!("reads of 1 to 66 octets\n{}no descriptor\nwritten 0, failed, found 0 octets, CRC {:06x}\n", ran(&sizes), crc(b""));
    let longest = format!("1000000 beacons\nwritten {}, its end 54 octets\n{}", most.len(), text(&most[most.len() - 54..]));
    let long = format!("written {0}, found {0} octets, CRC {1:06x}\n{2}{3}", of.len(), crc(&of), text(&of[..39]), text(&of[of.len() - 54..]));
    let cut = [example, &[1, 0x42, 6, 10]].concat();
    let another = [example, &[3], example].concat();
    let wanted = format!(
        "document 01's sample\n{}the sample, and an item that is cut short\n{}the sample, another first octet, and the sample again\n{}no input\n{}15000 beacons\n{long}the same, at most 66 octets a read\n{long}{full}{sized}{longest}",
        text(&log(example)), text(&log(&cut)), text(&log(&another)), text(&log(b""))
    );
    let stored = fs::read(format!("{repository}/crates/try_hublog/stdout")).unwrap();
    t.say("try_hublog: its stored output, by a log written from documents 01 and 02", text(&stored) == wanted, &(stored, wanted));
}

fn hublog_is_asked(t: &mut Tried, example: &str) {
    for word in ["--help", "FILE"] {
        let mut input = File::open(example).unwrap();
        let done = Command::new(format!("{}/hublog", t.bin)).arg(word).stdin(input.try_clone().unwrap()).output().unwrap();
        let ran = (done.stdout, text(&done.stderr));
        let is = ran.0.is_empty() && ran.1.starts_with("usage: hublog") && input.stream_position().unwrap() == 0;
        t.say(&format!("hublog {word}: usage, and nothing is read"), is, &ran);
    }
}

fn hublog_fails(t: &mut Tried, example: &str) {
    let bin = format!("{}/hublog", t.bin);
    let many = t.file("many", &reports(20_000));
    let lines = [
        ("a full device", format!("{bin} < {many} > /dev/full"), "hublog: writing failed at item 1: No space left on device\n"),
        ("a full device at the last line", format!("{bin} < /dev/null > /dev/full"), "hublog: writing the last line failed after item 0: No space left on device\n"),
        ("a closed output", format!("{bin} < {example} >&-"), "hublog: writing failed at item 2: Bad file descriptor\n"),
        ("a directory as input", format!("{bin} < /"), "hublog: reading failed after item 0: Is a directory\n"),
        ("a closed input", format!("{bin} <&-"), "hublog: reading failed after item 0: Bad file descriptor\n"),
    ];
    t.each("hublog", &lines);
    // 16 blocks of 512 octets fit, so writing stops within a line.
    let cut = format!("{}/cut", t.scratch);
    let ran = t.shell(&format!("trap '' XFSZ; ulimit -f 16; {bin} < {many} > {cut}"));
    let (kept, whole) = (fs::read(&cut).unwrap(), t.run("hublog", &reports(20_000)).0);
    let said = format!("hublog: writing failed at item {}: File too large\n", kept.len() / 39 + 1);
    let is = kept.len() > 39 && kept.len() % 39 != 0 && whole.starts_with(&kept) && ran.1 == said;
    t.say("hublog: a file that may not grow, and nothing behind the failed write", is, &(kept, ran.1));
    for (what, before) in [("", ""), (", the signal being ignored", "trap '' PIPE; ")] {
        let ran = t.shell(&format!("{before}{bin} < {many} | head -c 100"));
        let is = ran.0.len() == 100 && ran.1.starts_with("hublog: writing failed at item ") && ran.1.ends_with(": Broken pipe\n");
        t.say(&format!("hublog: a reader that goes away{what}"), is, &ran);
    }
}

fn hublog_does_not_wait(t: &mut Tried, example: &[u8]) {
    let program = format!("{}/hublog", t.bin);
    let many = reports_and_ticks(100_000);
    let input = t.file("many", &many);
    let (mut reader, writer) = pipe_ends();
    does_not_wait(&writer);
    let mut child = Command::new(&program).stdin(File::open(&input).unwrap()).stdout(writer).stderr(Stdio::piped()).spawn().unwrap();
    let (mut got, mut block) = (Vec::new(), vec![0; 50_000]);
    loop {
        let n = reader.read(&mut block).unwrap();
        if n == 0 {
            break;
        }
        got.extend(&block[..n]);
        std::thread::sleep(Duration::from_millis(2));
    }
    let mut said = String::new();
    child.stderr.take().unwrap().read_to_string(&mut said).unwrap();
    child.wait().unwrap();
    let is = got == log(&many) && said.is_empty();
    t.say("hublog: an output that does not wait, and a slow reader", is, &(got, said));

    let (reader, mut writer) = pipe_ends();
    does_not_wait(&reader);
    writer.write_all(example).unwrap();
    let done = Command::new(&program).stdin(reader).output().unwrap();
    let ran = (done.stdout, text(&done.stderr));
    let is = text(&ran.0) == "     2 38 1   1   2   3   4   5 198  1\n" && ran.1.starts_with("hublog: reading failed after item 2: ");
    t.say("hublog: an input that does not wait", is, &ran);
}

/// Each octet by itself, so that every read is a short one.
fn in_pieces(t: &mut Tried, program: &str, input: &[u8], wanted: &[u8]) {
    let mut child = Command::new(format!("{}/{program}", t.bin)).stdin(Stdio::piped()).stdout(Stdio::piped()).spawn().unwrap();
    let mut to = child.stdin.take().unwrap();
    for octet in input {
        // A program that stops reading too early has closed its end.
        if to.write_all(&[*octet]).is_err() {
            break;
        }
        std::thread::sleep(Duration::from_micros(200));
    }
    drop(to);
    let got = child.wait_with_output().unwrap().stdout;
    let is = got == wanted;
    t.say(&format!("{program}: an octet at a time"), is, &(got, String::new()));
}

/// The recorded requests of the gate's sample.
fn recorded(repository: &str) -> Vec<u8> {
    let sample = fs::read(format!("{repository}/crates/replay/stdin")).unwrap();
    let mark = b"# recorded from rubble\n";
    let at = sample.windows(mark.len()).position(|w| w == mark).expect("a recorded part");
    sample[at + mark.len()..].to_vec()
}

fn lines_of(octets: &[u8]) -> usize {
    octets.iter().filter(|octet| **octet == b'\n').count()
}

fn replay_answers(t: &mut Tried, requests: &[u8]) {
    let as_recorded = t.run("replay", requests);
    let ran = t.run("replay", &requests.to_ascii_lowercase());
    t.say("replay: the recorded requests in lower case", ran.0 == as_recorded.0 && lines_of(&ran.0) == lines_of(requests), &ran);
    let bad = "d 42 0g\nf\nd 4\ni\ni 00 00\ne\r\nd42\n\n# 4g\nh 0a 00 00 00 00 00 05";
    let answers = "request 1: an octet that is no number\nrequest 2: no such request\nrequest 3: an octet of one digit\nrequest 4: too few octets\n\
        request 5: too many octets\nrequest 6: a carriage return\nrequest 7: no space behind its letter\n\n#\nh 5 3\n";
    let ran = t.run("replay", bad.as_bytes());
    t.say("replay: lines that are no requests, and a last line without its end", text(&ran.0) == answers && ran.1.is_empty(), &ran);
    let mut random = Random(3);
    let garbage: Vec<u8> = (0..1_000_000).map(|_| random.below(256) as u8).chain([b'\n']).collect();
    let ran = t.run("replay", &garbage);
    t.say("replay: a megabyte of anything, a line for each line", lines_of(&ran.0) == lines_of(&garbage) && ran.1.is_empty(), &ran);
    let many = requests.repeat(10_000_000 / requests.len() + 1);
    let path = t.file("many", &many);
    let begun = Instant::now();
    let ran = t.shell(&format!("{}/replay < {path} > /dev/null", t.bin));
    let taken = begun.elapsed();
    t.say(&format!("replay: {} octets of requests in {} ms", many.len(), taken.as_millis()), taken.as_millis() < 1000 && ran.1.is_empty(), &ran);
}

fn replay_fails(t: &mut Tried, repository: &str) {
    let bin = format!("{}/replay", t.bin);
    let sample = format!("{repository}/crates/replay/stdin");
    let lines = [
        ("a full device", format!("{bin} < {sample} > /dev/full"), "replay: standard output: No space left on device\n"),
        ("a closed output", format!("{bin} < {sample} >&-"), "replay: standard output: Bad file descriptor\n"),
        ("a directory as input", format!("{bin} < /"), "replay: standard input: Is a directory\n"),
        ("a closed input", format!("{bin} <&-"), "replay: standard input: Bad file descriptor\n"),
        ("an argument", format!("{bin} --help < {sample}"), "usage: replay < requests\n"),
    ];
    t.each("replay", &lines);
}

/// Inputs of hublog, with their logs: each kind of item often, many reads, and the limit of items.
fn write_cases(folder: &str) {
    let mut random = Random(1);
    let mut inputs: Vec<Vec<u8>> = (0..60).map(|_| some_input(&mut random)).collect();
    inputs.extend([vec![], reports_and_ticks(20_000), bad_and_good(9_000)]);
    inputs.extend([999_998, 999_999, 1_000_000].map(|count| vec![0; count]));
    for (n, input) in inputs.iter().enumerate() {
        fs::write(format!("{folder}/{n:02}"), input).unwrap();
        fs::write(format!("{folder}/{n:02}.stdout"), log(input)).unwrap();
    }
}

fn main() {
    let words: Vec<String> = std::env::args().collect();
    let (bin, repository, scratch) = match &words[..] {
        [_, word, folder, ..] if word == "cases" => return write_cases(folder),
        [_, bin, repository, scratch] => (bin, repository, scratch),
        _ => {
            eprintln!("usage: programs BIN REPOSITORY SCRATCH | cases FOLDER");
            exit(2);
        }
    };
    let mut t = Tried { bin: bin.clone(), scratch: scratch.clone(), failed: 0 };
    let path = format!("{repository}/examples/hub");
    let example = fs::read(&path).unwrap();
    hublog_prints(&mut t, &example);
    for some in [reports_and_ticks(300), bad_and_good(100)] {
        in_pieces(&mut t, "hublog", &some, &log(&some));
    }
    try_hublog_is_held(&mut t, &example, repository);
    hublog_is_asked(&mut t, &path);
    hublog_fails(&mut t, &path);
    hublog_does_not_wait(&mut t, &example);
    let requests = recorded(repository);
    replay_answers(&mut t, &requests);
    replay_fails(&mut t, repository);
    let answers = t.run("replay", &requests[..3_000]).0;
    in_pieces(&mut t, "replay", &requests[..3_000], &answers);
    if t.failed > 0 {
        println!("{} not as they should be", t.failed);
        exit(1);
    }
}
