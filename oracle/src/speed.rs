//! Times the entry points of `crates/ciplink`, linked from its archive, beside the reference, and prints a table.
//!
//!   speed [RUNS]     each side in turn, RUNS times; the table has the medians

// what only the other drivers use of the generators
#![allow(dead_code)]

mod ciplink;
mod messages;
mod paths;
mod rng;
mod tables;
mod valid;

use ciplink::Asked;
use ciplink_sim::logix::Logix;
use ciplink_sim::rows::{Flags, Tables};
use messages::{page, request};
use std::hint::black_box;

const DINT: u32 = 0xC4;
/// A run takes about as many nanoseconds.
const RUN: f64 = 20e6;

/// A controller with its tag memory.
struct Bench {
    tables: Tables,
    memory: Vec<u8>,
}

impl Bench {
    /// So many tags of the controller: DINT values, of which the last is an array of 1,000; and a structure whose template
    /// has 600 bytes.
    fn new(tags: u32) -> Bench {
        let mut t = Tables {
            names: b"CellType".to_vec(),
            templates: (0..600).map(|i| i as u8).collect(),
            ..Tables::default()
        };
        t.structures.push([0, 8, 0x123, 0x4567, 4, 0, 0, 0, 0, 600]);
        for id in 1..=tags {
            let name = name(id);
            let (start, length) = (t.tag_names.len() as u32, name.len() as u32);
            let (lengths, elements) = if id == tags { ([1000, 0, 0], 1000) } else { ([0; 3], 1) };
            let [d0, d1, d2] = lengths;
            t.tags.push([0, start, length, id, DINT, d0, d1, d2, elements, 0, 0, 4 * (id - 1)]);
            t.tag_names.extend(name.into_bytes());
        }
        let memory: Vec<u8> = (0..4 * (tags + 999)).map(|i| i as u8).collect();
        valid::valid(&t, &memory).expect("valid tables");
        Bench { tables: t, memory }
    }

    /// At most 64 IDs of single values, spread over the table.
    fn ids(&self) -> impl Iterator<Item = u32> + Clone {
        let singles = self.tables.tags.len() as u32 - 1;
        let count = singles.min(64);
        (0..count).map(move |i| 1 + i * singles / count)
    }
}

fn name(id: u32) -> String {
    format!("Station{id:04}_Speed")
}

fn by_name(id: u32) -> Vec<u8> {
    let name = name(id);
    let mut path = vec![0x91, name.len() as u8];
    path.extend(name.bytes());
    path.resize(path.len().next_multiple_of(2), 0);
    path
}

fn by_id(id: u32) -> Vec<u8> {
    let [low, high, ..] = id.to_le_bytes();
    vec![0x20, 0x6B, 0x25, 0, low, high]
}

fn read(path: &[u8]) -> Vec<u8> {
    request(0x4C, path, &[1, 0])
}

/// Parts in one message to the message router.
fn envelope(parts: &[Vec<u8>]) -> Vec<u8> {
    let mut data = (parts.len() as u16).to_le_bytes().to_vec();
    let mut offset = 2 + 2 * parts.len();
    for part in parts {
        data.extend((offset as u16).to_le_bytes());
        offset += part.len();
    }
    data.extend(parts.concat());
    request(0x0A, &[0x20, 0x02, 0x24, 0x01], &data)
}

/// A row of the table: its requests are sent in turn.
struct Row<'a> {
    what: &'static str,
    bench: &'a Bench,
    requests: Vec<Vec<u8>>,
    limit: usize,
    /// Whether they go through `ciplink_message`, which judges the tables at each call.
    judged: bool,
}

fn rows<'a>(few: &'a Bench, many: &'a Bench) -> Vec<Row<'a>> {
    let names = |bench: &Bench| bench.ids().map(|id| read(&by_name(id))).collect();
    let ids = |bench: &Bench| bench.ids().map(|id| read(&by_id(id))).collect();
    let array = vec![request(0x4C, &by_name(10), &1000u16.to_le_bytes())];
    let masks = [4, 0, 1, 0, 0, 0, 0xFF, 0xFF, 0xFF, 0x7F];
    let masked = few.ids().map(|id| request(0x4E, &by_name(id), &masks)).collect();
    let reads: Vec<Vec<u8>> = few.ids().cycle().take(20).map(|id| read(&by_name(id))).collect();
    let pages = many.ids().map(|id| page(&[], id, &[1, 2, 7, 8])).collect();
    let template = vec![request(0x4C, &[0x20, 0x6C, 0x25, 0, 0x23, 0x01], &[0, 0, 0, 0, 0x58, 0x02])];
    let row = |what, bench, requests, limit| Row { what, bench, requests, limit, judged: false };
    let through_message = "read by name through ciplink_message, 1,024 tags";
    vec![
        row("read by name, 10 tags", few, names(few), 504),
        row("read by name, 1,024 tags", many, names(many), 504),
        row("read by instance, 10 tags", few, ids(few), 504),
        row("read by instance, 1,024 tags", many, ids(many), 504),
        row("read of a 4,000-byte array", few, array, 4100),
        row("masked write, 10 tags", few, masked, 504),
        row("envelope of 20 reads, 10 tags", few, vec![envelope(&reads)], 504),
        row("symbol page, 1,024 tags", many, pages, 504),
        row("template read, 500 of 600 bytes", few, template, 504),
        Row { judged: true, ..row(through_message, many, names(many), 504) },
    ]
}

unsafe extern "C" {
    /// Of the C library: seconds and nanoseconds of a clock.
    fn clock_gettime(clock: i32, time: *mut [i64; 2]) -> i32;
}

/// Nanoseconds that this thread has had a processor: what else runs beside it does not count.
fn now() -> f64 {
    const THREAD: i32 = 3;
    let mut time = [0; 2];
    // sound: it writes the two numbers and nothing else
    assert_eq!(unsafe { clock_gettime(THREAD, &mut time) }, 0);
    time[0] as f64 * 1e9 + time[1] as f64
}

/// Nanoseconds for each of `count` calls.
fn time(count: u64, call: &mut impl FnMut(u64)) -> f64 {
    let start = now();
    (0..count).for_each(call);
    (now() - start) / count as f64
}

/// How many calls take a run's time.
fn calibrated(call: &mut impl FnMut(u64)) -> u64 {
    let once = time(3, call).max(1.0);
    (RUN / once).max(1.0) as u64
}

fn median(mut times: Vec<f64>) -> f64 {
    times.sort_by(f64::total_cmp);
    times[times.len() / 2]
}

/// The medians of both sides, the port's through `send`; None where an answer differs.
fn compare(row: &Row, runs: usize, send: impl Fn(Asked, &mut [u8], &mut [u8]) -> u64) -> Option<[f64; 2]> {
    let flags = Flags { multi_service: true, instance_ids: true, ..Flags::default() };
    let t = &row.bench.tables;
    let mut logix = Logix::from_rows(t, flags, &row.bench.memory);
    let (mut memory, mut buffer) = (row.bench.memory.clone(), vec![0; row.limit.max(8)]);
    assert_eq!(ciplink::valid(t, &memory), 1, "the tables are valid");
    let mut port = |n: u64, buffer: &mut [u8]| {
        let request = &row.requests[n as usize % row.requests.len()];
        let asked = Asked { tables: t, flags, request, limit: row.limit };
        send(black_box(asked), &mut memory, buffer) as usize
    };
    let mut rust = |n: u64| logix.answer(black_box(&row.requests[n as usize % row.requests.len()]), row.limit);
    for n in 0..row.requests.len() as u64 {
        let (due, told) = (rust(n), port(n, &mut buffer));
        // what is refused has no length
        let told = buffer.get(..told);
        if told != Some(&due) || !matches!(due[2], 0 | 0x06) {
            println!("differs: {}, request {n}\n  the Rust: {due:X?}\n  the port: {told:X?}", row.what);
            return None;
        }
    }
    Some(medians(runs, |n| drop(black_box(rust(n))), |n| _ = black_box(port(n, &mut buffer))))
}

/// The medians of both sides, which run in turn.
fn medians(runs: usize, mut rust: impl FnMut(u64), mut port: impl FnMut(u64)) -> [f64; 2] {
    let counts = [calibrated(&mut rust), calibrated(&mut port)];
    let mut times = [Vec::new(), Vec::new()];
    for _ in 0..runs {
        times[0].push(time(counts[0], &mut rust));
        times[1].push(time(counts[1], &mut port));
    }
    times.map(median)
}

/// Masks that are joined; an archive from before `ciplink_join_masks` is timed without them.
#[cfg(not(feature = "older"))]
mod joins {
    use super::{black_box, ciplink, medians};

    /// The formula as a plain function, in the place of the first pair; whether the lengths are equal.
    #[inline(never)]
    fn join(ors: &mut [u8], ands: &mut [u8], next_ors: &[u8], next_ands: &[u8]) -> u32 {
        let length = ors.len();
        if ands.len() != length || next_ors.len() != length || next_ands.len() != length {
            return 0;
        }
        for j in 0..length {
            ands[j] = (ands[j] | next_ors[j]) & next_ands[j];
            ors[j] |= next_ors[j];
        }
        1
    }

    /// The masks of two masked writes: OR, AND, OR, AND.
    type Two = [[u8; 8]; 4];

    /// Joins the first bytes of the masks, as many as are wanted.
    fn joined(by: fn(&mut [u8], &mut [u8], &[u8], &[u8]) -> u32, two: &mut Two, length: usize) -> u32 {
        let [ors, ands, next_ors, next_ands] = two;
        by(&mut ors[..length], &mut ands[..length], &next_ors[..length], &next_ands[..length])
    }

    /// The medians of both sides; None where the masks differ.
    pub fn compare(length: usize, runs: usize) -> Option<[f64; 2]> {
        // the port does not know the length beforehand; and many in turn, so that no call waits for the bytes of the one before
        let length = black_box(length);
        let mut rust: [Two; 64] = std::array::from_fn(|n| {
            std::array::from_fn(|mask| std::array::from_fn(|j| (n * 37 + mask * 101 + j * 59) as u8))
        });
        let mut port = rust;
        for (due, found) in rust.iter_mut().zip(&mut port) {
            let told = [joined(join, due, length), joined(ciplink::join_masks, found, length)];
            if due != found || told != [1, 1] {
                println!("differs: masks joined\n  the Rust: {due:X?}\n  the port: {found:X?}");
                return None;
            }
        }
        let (of_rust, of_port) = (&mut rust, &mut port);
        Some(medians(
            runs,
            |n| _ = black_box(joined(join, black_box(&mut of_rust[n as usize % 64]), length)),
            |n| _ = black_box(joined(ciplink::join_masks, black_box(&mut of_port[n as usize % 64]), length)),
        ))
    }
}

fn main() {
    let runs = match std::env::args().nth(1).map(|a| a.parse()) {
        None => 15,
        Some(Ok(runs)) if runs > 0 => runs,
        _ => {
            eprintln!("speed [RUNS]");
            std::process::exit(2)
        }
    };
    let (few, many) = (Bench::new(10), Bench::new(1024));
    println!("| message | Rust, ns | this port, ns | port ÷ Rust |\n|---|---|---|---|");
    let mut differ = false;
    for row in rows(&few, &many) {
        let times = match row.judged {
            true => compare(&row, runs, ciplink::message),
            // sound: `compare` has the tables judged; request, limit and buffer are short and long enough
            false => {
                compare(&row, runs, |asked, memory, buffer| unsafe { ciplink::answer(asked, memory, buffer) })
            }
        };
        match times {
            Some([rust, port]) => println!("| {} | {rust:.0} | {port:.0} | {:.2} |", row.what, port / rust),
            None => differ = true,
        }
    }
    #[cfg(not(feature = "older"))]
    for length in [4, 8] {
        match joins::compare(length, runs) {
            Some([rust, port]) => {
                println!("| masks joined, {length} bytes | {rust:.1} | {port:.1} | {:.2} |", port / rust)
            }
            None => differ = true,
        }
    }
    for (shown, tags) in [("16", 16), ("64", 64), ("256", 256), ("1,024", 1024)] {
        let bench = Bench::new(tags);
        let mut judge = |_| _ = black_box(ciplink::valid(black_box(&bench.tables), &bench.memory));
        let count = calibrated(&mut judge);
        let port = median((0..runs).map(|_| time(count, &mut judge)).collect());
        println!("| tables judged, {shown} tags | – | {port:.0} | – |");
    }
    std::process::exit(i32::from(differ))
}
