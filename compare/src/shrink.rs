//! The smallest request that still shows a difference, step by step.
use crate::request::{Kind, Request, CALL};

type Differs<'a> = &'a mut dyn FnMut(&Request) -> bool;

pub fn smallest(found: &Request, differs: Differs) -> Request {
    let mut least = found.clone();
    loop {
        let before = least.clone();
        for part in (0..least.parts.len()).filter(|part| !found.fixed(*part)) {
            for unit in found.units(part) {
                shorten(&mut least, part, *unit, differs);
            }
        }
        count_less(&mut least, differs);
        blank_address(&mut least, differs);
        lower(&mut least, differs);
        if least == before {
            return least;
        }
    }
}

/// Takes the changed request where it still differs.
fn attempt(least: &mut Request, differs: Differs, change: impl FnOnce(&mut Request)) -> bool {
    let mut r = least.clone();
    change(&mut r);
    let less = r != *least && differs(&r);
    if less {
        *least = r;
    }
    less
}

/// Takes octets, calls or addresses out of a part: all, halves, quarters, down to one.
fn shorten(least: &mut Request, part: usize, unit: usize, differs: Differs) {
    let mut size = least.parts[part].len() / unit;
    while size > 0 {
        let mut at = 0;
        while at + size * unit <= least.parts[part].len() {
            if !attempt(least, differs, |r| drop(r.parts[part].drain(at..at + size * unit))) {
                at += size * unit;
            }
        }
        size /= 2;
    }
}

/// Lowers a header's count together with the payload that it counts.
fn count_less(least: &mut Request, differs: Differs) {
    match least.kind {
        Kind::Decode => while attempt(least, differs, |r| one_octet_less(&mut r.parts, 0)) {},
        Kind::Scan => while attempt(least, differs, |r| one_octet_less(&mut r.parts, 1)) {},
        Kind::Calls | Kind::ScannerCalls => {
            for at in (0..least.parts[1].len()).step_by(CALL) {
                while attempt(least, differs, |r| one_counted_less(&mut r.parts[1][at..])) {}
            }
        }
        Kind::Name => (0..2).for_each(|part| shorten_records(least, part, differs)),
        _ => {}
    }
}

fn one_octet_less(parts: &mut [Vec<u8>], header: usize) {
    if parts[header].len() == 2 && parts[header][1] > 0 && parts[header + 1].pop().is_some() {
        parts[header][1] -= 1;
    }
}

fn one_counted_less(call: &mut [u8]) {
    if call[3] > 0 && call[13] > 0 {
        call[3] -= 1;
        call[13] -= 1;
    }
}

/// Where the record that begins there ends, if it is whole.
fn end_of_record(area: &[u8], at: usize) -> Option<usize> {
    let end = at + 1 + *area.get(at)? as usize;
    (end <= area.len()).then_some(end)
}

/// Takes whole records out of an area, or else octets of their data.
fn shorten_records(least: &mut Request, part: usize, differs: Differs) {
    for at in 0..least.parts[part].len() {
        while let Some(end) = end_of_record(&least.parts[part], at) {
            if !attempt(least, differs, |r| drop(r.parts[part].drain(at..end))) {
                shorten_data(least, part, at, differs);
                break;
            }
        }
    }
}

/// Takes octets out of a record's data, which its length counts no more: all, halves, quarters, down to one.
fn shorten_data(least: &mut Request, part: usize, at: usize, differs: Differs) {
    let mut size = (least.parts[part][at] as usize).saturating_sub(1);
    while size > 0 {
        let mut from = at + 2;
        while end_of_record(&least.parts[part], at).is_some_and(|end| from + size <= end) {
            let fewer = |r: &mut Request| {
                r.parts[part].drain(from..from + size);
                r.parts[part][at] -= size as u8;
            };
            if !attempt(least, differs, fewer) {
                from += size;
            }
        }
        size /= 2;
    }
}

/// Makes a device's address zeros, wherever it stands.
fn blank_address(least: &mut Request, differs: Differs) {
    if least.kind != Kind::Calls {
        return;
    }
    attempt(least, differs, |r| {
        let own = std::mem::replace(&mut r.parts[0], vec![0; 6]);
        for call in r.parts[1].chunks_exact_mut(CALL).filter(|c| c[20..26] == own[..]) {
            call[20..26].fill(0);
        }
    });
}

/// Lowers numbers: to 0, to a half, by one; and octets: to 0, by a bit of theirs, by one.
fn lower(least: &mut Request, differs: Differs) {
    for n in 0..least.numbers.len() {
        let was = least.numbers[n];
        for less in [0, was / 2, was.saturating_sub(1)] {
            if attempt(least, differs, |r| r.numbers[n] = less) {
                break;
            }
        }
    }
    for part in 0..least.parts.len() {
        for at in 0..least.parts[part].len() {
            let was = least.parts[part][at];
            if was != 0 && !attempt(least, differs, |r| r.parts[part][at] = 0) {
                for bit in (0..8).rev() {
                    attempt(least, differs, |r| r.parts[part][at] &= !(1 << bit));
                }
                attempt(least, differs, |r| r.parts[part][at] -= 1);
            }
        }
    }
}
