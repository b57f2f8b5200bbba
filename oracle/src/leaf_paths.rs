//! Paths, their segments, the requests that carry them and the tag path test.

use crate::findings::{Findings, hex};
use crate::messages::Talk;
use crate::probe;
use crate::rng::Rng;
use crate::tables::{self, name};
use ciplink_sim::logix::leaves::{Piece, first_piece, path_size, pieces, tag_path};

const NEARLY_PROGRAMS: [&[u8]; 5] = [b"Program:", b"Program;A", b"Program", b"Prog\xE4m:A", b" Program:A"];

/// A seed gives as many paths.
const PER_SEED: u64 = 1000;

/// Every first byte with tails of 0 to 11 bytes; every size byte of a symbol and of a port's link, with a byte too few, as
/// many as it takes, and a byte more.
pub fn set_paths(seed: u64, findings: &mut Findings) {
    let mut rng = Rng::new(seed);
    compare(&[], &mut rng, findings);
    for first in 0..=0xFF {
        for length in 0..12 {
            for _ in 0..8 {
                let path = [&[first][..], &rng.bytes(length)].concat();
                compare(&path, &mut rng, findings);
            }
        }
    }
    for first in (0x10..=0x1F).chain([0x91]) {
        for size in 0..=0xFF {
            for more in 0..3 {
                let number = rng.bytes(if first == 0x1F { 2 } else { 0 });
                let rest = rng.bytes((u32::from(size) + u32::from(size % 2) + more).saturating_sub(1));
                let path = [&[first][..], &number, &[size], &rest].concat();
                compare(&path, &mut rng, findings);
            }
        }
    }
}

/// Paths by the seeds from this one on.
pub fn generated(seed: u64, count: u64, findings: &mut Findings) {
    for from in (0..count).step_by(PER_SEED as usize) {
        let mut rng = Rng::new(seed + from / PER_SEED);
        let set = tables::set(&mut rng);
        let mut talk = Talk::new(&set, &mut rng, 0);
        for _ in from..count.min(from + PER_SEED) {
            let mut path = fresh(&mut talk);
            bend(talk.rng, &mut path);
            compare(&path, talk.rng, findings);
        }
    }
}

fn fresh(talk: &mut Talk) -> Vec<u8> {
    match talk.rng.below(10) {
        0 => {
            let length = talk.rng.below(24);
            talk.rng.bytes(length)
        }
        1 => likely(talk.rng),
        2..=4 => talk.tag_path().0,
        5 => programs(talk),
        _ => {
            let count = *talk.rng.pick(&[1, 2, 2, 3, 4, 5, 8, 20, 60]);
            (0..count).flat_map(|_| segment(talk)).collect()
        }
    }
}

/// First bytes that mostly begin a segment, each with a few bytes behind it.
fn likely(rng: &mut Rng) -> Vec<u8> {
    let mut path = Vec::new();
    for _ in 0..rng.within(1, 6) {
        path.push(match rng.below(3) {
            0 => 0x91,
            1 => rng.within(0x20, 0x33) as u8,
            _ => rng.below(0x20) as u8,
        });
        path.push(rng.below(6) as u8);
        let length = rng.below(6);
        path.extend(rng.bytes(length));
    }
    path
}

/// Program names in a row, near misses among them, and something behind them or nothing.
fn programs(talk: &mut Talk) -> Vec<u8> {
    let mut path = Vec::new();
    for _ in 0..*talk.rng.pick(&[1, 1, 2, 3, 9]) {
        let mut name = talk.program_name(1);
        if talk.rng.chance(15) {
            name = talk.rng.pick(&NEARLY_PROGRAMS).to_vec();
        }
        path.extend(talk.symbol(&name));
    }
    if talk.rng.chance(70) {
        path.extend(segment(talk));
        path.extend(segment(talk));
    }
    path
}

/// A segment, nearly always a valid one.
fn segment(talk: &mut Talk) -> Vec<u8> {
    match talk.rng.below(32) {
        0..=15 => {
            let kind = *talk.rng.pick(&[0x20, 0x24, 0x28, 0x30]);
            let number = number(talk.rng);
            talk.value(kind, number)
        }
        16..=24 => {
            let word = name(talk.rng);
            talk.symbol(&word)
        }
        25 => {
            let length = talk.rng.below(256);
            let word = talk.rng.bytes(length);
            talk.symbol(&word)
        }
        26 => {
            let number = number(talk.rng);
            talk.object(0x6B, number)
        }
        27 => talk.odd_segment(),
        _ => talk.port(),
    }
}

fn number(rng: &mut Rng) -> u32 {
    match rng.below(4) {
        0 => *rng.pick(&[0, 1, 0x6B, 0xFF, 0x100, 0x16B, 0xFFFF, 0x1_0000, 0x1_006B, 0xFFFF_FFFF]),
        1 => rng.below(0x100),
        2 => rng.below(0x1_0000),
        _ => rng.next() as u32,
    }
}

/// Cuts a path short, changes a byte or takes one out; half of the paths stay as they are.
fn bend(rng: &mut Rng, path: &mut Vec<u8>) {
    let at = rng.below(path.len() as u32) as usize;
    match rng.below(10) {
        0..=2 => path.truncate(at),
        3 if !path.is_empty() => path[at] = rng.byte(),
        4 if !path.is_empty() => drop(path.remove(at)),
        _ => {}
    }
}

/// A request with this path: as long as its second byte says, or not quite.
fn request(rng: &mut Rng, path: &[u8]) -> Vec<u8> {
    let words = path.len() / 2;
    let words = match rng.below(12) {
        0 => rng.below(256) as usize,
        1 => words + 1,
        2 => words.saturating_sub(1),
        _ => words,
    };
    let data = rng.below(5);
    let mut message = [&[rng.byte(), words as u8], path, &rng.bytes(data)].concat();
    if rng.chance(5) {
        message.truncate(rng.below(message.len() as u32) as usize);
    }
    message
}

/// All that is compared of one path.
fn compare(path: &[u8], rng: &mut Rng, findings: &mut Findings) {
    let whole = pieces(path);
    let input = || hex(path);
    findings.compare("path: count", whole.as_ref().map(Vec::len), probe::check_path(path), input);
    findings.compare("path: segments", whole, segments(path), input);
    match tag_path(path) {
        Some(test) => findings.compare_test("path: tag path", test, probe::tag_path(path) == Some(true), input),
        None => findings.compare("path: tag path, invalid", None, probe::tag_path(path), input),
    }
    let mut at = 0;
    while let Some(next) = compare_at(path, at, findings) {
        at = next;
    }
    compare_at(path, rng.below(path.len() as u32 + 3) as usize, findings);
    let message = request(rng, path);
    findings.compare("request: path size", path_size(&message), probe::split_request(&message), || hex(&message));
}

/// The segment at a position; answers where the reference has the next one.
fn compare_at(path: &[u8], at: usize, findings: &mut Findings) -> Option<usize> {
    let rust = path.get(at..).and_then(first_piece).map(|(piece, length)| (piece, at + length));
    let next = rust.as_ref().map(|(_, next)| *next);
    findings.compare("segment and its end", rust, probe::segment(path, at), || format!("{} at {at}", hex(path)));
    next
}

/// The port's list of a path's segments, by its own positions.
fn segments(path: &[u8]) -> Option<Vec<Piece>> {
    let (mut at, mut list) = (0, Vec::new());
    while at < path.len() {
        let (piece, next) = probe::segment(path, at)?;
        list.push(piece);
        // a wrong end must not keep the comparison here forever
        at = next.max(at + 1);
    }
    Some(list)
}
