//! Compares the translation with rubble, its bit stream with `stream`, the hub's reading with `padding`, a player's name with `names` and a connect request's settings
//! with `settings`; `usage.txt` says how it is called and how it ends.
use compare::counts::Counts;
use compare::made::{self, Each, Share};
use compare::request::{brief, hex, line, Kind, Request, CALL};
use compare::shrink::smallest;
use compare::{names, ours, padding, settings, stream, theirs, wide};
use std::io::IsTerminal;
use std::panic::{catch_unwind, AssertUnwindSafe};
use std::process::exit;
use std::sync::atomic::{AtomicBool, AtomicU64, Ordering};
use std::sync::Mutex;
use std::time::{Duration, Instant};

const USAGE: &str = include_str!("usage.txt");

/// Lists of the part `connections`: each has a connection of more than 100 events.
const CONNECTIONS: u64 = 1_000_000;

type Suite = (&'static str, fn(&Share, Each));

/// The parts by their names, with the number of requests that each makes.
const SUITES: [Suite; 18] = [
    ("headers", |s, e| made::all_headers(s, e)),
    ("packets", |s, e| made::packets(s, 8_000_000, e)),
    ("few-octets", |s, e| made::small_areas(s, e)),
    ("areas", |s, e| {
        made::areas(s, 2_000, e);
        wide::built(s, 400, e);
    }),
    ("padding", |s, e| {
        padding::made::small(s, e);
        padding::made::zeros(s, e);
        padding::made::areas(s, 400, e);
    }),
    ("names", |s, e| {
        names::made::few(s, e);
        names::made::places(s, 12, e);
        names::made::characters(s, 12, e);
        names::made::refusals(s, 8_000, e);
        names::made::lengths(s, 100, e);
        names::made::any(s, 500_000, e);
    }),
    ("writers", |s, e| {
        made::writers(s, 40, e);
        wide::writers(s, 400, e);
    }),
    ("maps", |s, e| made::maps(s, 40, e)),
    ("settings", |s, e| {
        settings::made::limits(s, 100, e);
        settings::made::counts(s, 4, e);
        settings::made::products(s, 100_000, e);
        settings::made::maps(s, 8, e);
        settings::made::off(s, 20, e);
        settings::made::any(s, 1_000_000, e);
    }),
    ("lists", |s, e| {
        made::lists(s, 450_000, e);
        wide::lists(s, 50_000, e);
    }),
    ("long-lists", |s, e| made::long_lists(s, 6_000, e)),
    ("connections", |s, e| made::connections(s, CONNECTIONS, e)),
    ("scans", |s, e| {
        made::scans(s, 2_500_000, e);
        wide::scans(s, 600_000, e);
    }),
    ("scanners", |s, e| {
        made::scanners(s, 180_000, e);
        wide::scanners(s, 50_000, e);
    }),
    ("positions", |s, e| made::positions(s, 200, e)),
    ("small", |s, e| {
        made::small_things(s, e);
        wide::lengths(s, e);
        wide::updates(s, 200, e);
    }),
    ("utf8", |s, e| made::strings(s, e)),
    ("stream", |s, e| {
        stream::made::whitenings(s, 500, e);
        stream::made::crcs(s, 2_500_000, e);
        stream::made::flags(s, 600_000, e);
    }),
];

static MADE: AtomicU64 = AtomicU64::new(0);
static DONE: AtomicBool = AtomicBool::new(false);

#[derive(Default)]
struct Both {
    ours: Vec<u8>,
    theirs: Vec<u8>,
    counts: Counts,
    unsaid: u64,
}

impl Both {
    /// Whether the answers are the same.
    fn agree(&mut self, r: &Request) -> bool {
        self.ours.clear();
        self.theirs.clear();
        ours::answer(r, &mut self.ours);
        let theirs = &mut self.theirs;
        let other = if r.kind.is_stream() { stream::answer } else { theirs::answer };
        let answered = catch_unwind(AssertUnwindSafe(|| other(r, theirs)));
        answered.is_ok() && self.ours == self.theirs
    }

    fn compare(&mut self, r: &Request) {
        if !self.agree(r) {
            self.report(r);
        }
        self.unsaid += self.counts.count(r, &self.ours);
        if self.unsaid >= 4096 {
            self.say();
        }
    }

    /// Adds to the number that the progress shows.
    fn say(&mut self) {
        MADE.fetch_add(self.unsaid, Ordering::Relaxed);
        self.unsaid = 0;
    }

    fn report(&mut self, r: &Request) -> ! {
        if DONE.swap(true, Ordering::SeqCst) {
            loop {
                std::thread::park();
            }
        }
        let mut differs = |less: &Request| catch_unwind(AssertUnwindSafe(|| !self.agree(less))).unwrap_or(false);
        let least = smallest(r, &mut differs);
        self.agree(&least);
        println!("\ndifference: {}", brief(&least));
        println!("  ours    {}", hex(&self.ours));
        println!("  {}  {}", answers(r.kind), hex(&self.theirs));
        println!("  request {}", line(&least));
        if r.kind.is_list() {
            println!("found in a list of {} calls", r.parts[1].len() / CALL);
        } else {
            println!("found in  {}", line(r));
        }
        exit(1);
    }
}

/// Who answers beside us.
fn answers(kind: Kind) -> &'static str {
    match kind {
        Kind::Padded => "Note 3",
        Kind::Name => "Note 4",
        Kind::Settings => "Note 6",
        kind if kind.is_stream() => "stream",
        _ => "rubble",
    }
}

fn refuse(why: &str) -> ! {
    eprintln!("compare: {why}\n\n{USAGE}");
    exit(2);
}

/// A part's line of the usage.
fn said_of(name: &str) -> &'static str {
    let of_part = |line: &&str| line.split_whitespace().next() == Some(name) && line.starts_with("  ");
    USAGE.lines().find(of_part).expect("the usage has each part").trim()
}

/// The seed and the parts that the arguments name.
fn asked() -> (u64, Vec<Suite>) {
    let mut words = std::env::args().skip(1);
    let seed = words.next().map_or(1, |w| w.parse().unwrap_or_else(|_| refuse(&format!("{w}: a seed is a number"))));
    let named = |w: String| *SUITES.iter().find(|s| s.0 == w).unwrap_or_else(|| refuse(&format!("{w}: no such part")));
    let mut parts: Vec<Suite> = Vec::new();
    for part in words.map(named) {
        if parts.iter().all(|p| p.0 != part.0) {
            parts.push(part);
        }
    }
    (seed, if parts.is_empty() { SUITES.to_vec() } else { parts })
}

/// Shows how far a part has got: on a terminal in one line, else a line every ten seconds.
fn progress(name: &str, before: u64, threads: &[std::thread::ScopedJoinHandle<()>]) {
    let terminal = std::io::stderr().is_terminal();
    let (begun, mut shown) = (Instant::now(), 0);
    while threads.iter().any(|t| !t.is_finished()) {
        std::thread::sleep(Duration::from_millis(20));
        let now = begun.elapsed().as_secs() / if terminal { 1 } else { 10 };
        if now > shown {
            shown = now;
            let made = MADE.load(Ordering::Relaxed) - before;
            let seconds = begun.elapsed().as_secs();
            if terminal {
                eprint!("\r{name}: {made} comparisons, {seconds} s ..");
            } else {
                eprintln!("{name}: {made} comparisons, {seconds} s ..");
            }
        }
    }
    if terminal && shown > 0 {
        eprint!("\r\x1b[K");
    }
}

/// Runs a part on all threads.
fn run(suite: Suite, seed: u64, shares: u64) -> Counts {
    let before = MADE.load(Ordering::Relaxed);
    let begun = Instant::now();
    let all = Mutex::new(Counts::default());
    std::thread::scope(|scope| {
        let all = &all;
        let one = |mine| {
            let mut both = Both::default();
            suite.1(&Share { mine, shares, seed }, &mut |r| both.compare(r));
            both.say();
            all.lock().expect("no thread fails with it").add(&both.counts);
        };
        let threads: Vec<_> = (0..shares).map(|mine| scope.spawn(move || one(mine))).collect();
        progress(suite.0, before, &threads);
        if threads.into_iter().any(|t| t.join().is_err()) {
            println!("{}: the comparison itself failed", suite.0);
            exit(2);
        }
    });
    let made = MADE.load(Ordering::Relaxed) - before;
    println!("{}: {made} comparisons, {:.1} s", said_of(suite.0), begun.elapsed().as_secs_f64());
    if made == 0 {
        println!("{}: no comparison was made", suite.0);
        exit(2);
    }
    let counts = all.into_inner().expect("no thread fails with it");
    if let Some(what) = counts.without_padding() {
        println!("{}: {what}: none has zeros behind it and is accepted or reported", suite.0);
        exit(2);
    }
    if let Some(what) = counts.without_name() {
        println!("{}: no search for a name ended so, or met this: {what}", suite.0);
        exit(2);
    }
    if let Some((met, what)) = counts.without_settings() {
        println!("{}: {met}: none is so, or is outside this range alone: {what}", suite.0);
        exit(2);
    }
    if suite.0 == "connections" && counts.long() < CONNECTIONS {
        println!("{}: {} lists with a connection of more than 100 events, not {CONNECTIONS}", suite.0, counts.long());
        exit(2);
    }
    counts
}

fn main() {
    let (seed, parts) = asked();
    // rubble's panics are answers here.
    std::panic::set_hook(Box::new(|_| {}));
    let shares = std::thread::available_parallelism().map_or(2, |n| n.get()) as u64;
    let begun = Instant::now();
    println!("seed {seed}, {shares} threads, {} of {} parts", parts.len(), SUITES.len());
    let mut counts = Counts::default();
    for suite in parts {
        counts.add(&run(suite, seed, shares));
    }
    counts.print();
    println!("{} comparisons, no difference, {:.1} s", counts.total(), begun.elapsed().as_secs_f64());
}
