//! Makes the table image (crates/simulator/IMAGE.md) of a JSON configuration of the Rust.
//!
//!   image CONFIG                                          writes the image to standard output
//!   image --check CONFIG SIMULATOR FILE SEED MESSAGES     writes it to FILE, has the program SIMULATOR serve it, and
//!                                                         compares the replies to the listed messages and MESSAGES others

// what only the other drivers use of the generators
#![allow(dead_code)]

mod findings;
mod messages;
mod paths;
mod rng;
mod served;
mod tables;
mod tally;
mod valid;

use ciplink_sim::logix::Logix;
use std::io::Write;
use std::path::Path;
use tables::Set;

/// The most that an image holds, in the order of `Logix::sizes`: the first nine are the counts of its head.
const MOST: [(&str, usize); 10] = [
    ("structures", 64),
    ("members", 512),
    ("programs", 16),
    ("tags", 1024),
    ("other symbols", 64),
    ("bytes of names", 26_752),
    ("bytes of tag names", 40_960),
    ("bytes of templates", 65_536),
    ("bytes of tag memory", 65_536),
    ("elements of one tag", u32::MAX as usize),
];

/// The tables of a controller; or, of each size that an image cannot hold, a line that says so.
fn read_out(logix: &Logix) -> Result<Set, String> {
    let sizes = logix.sizes();
    let over = sizes.iter().zip(MOST).filter(|(size, (_, most))| *size > most);
    let lines: Vec<String> =
        over.map(|(size, (what, most))| format!("{size} {what}: an image holds at most {most}")).collect();
    if !lines.is_empty() {
        return Err(lines.join("\n"));
    }
    let (tables, flags, memory) = logix.rows();
    Ok(Set { tables, flags, memory })
}

fn words(rows: &[impl AsRef<[u32]>]) -> impl Iterator<Item = u8> {
    rows.iter().flat_map(|row| row.as_ref().iter().flat_map(|w| w.to_le_bytes()))
}

fn image(set: &Set) -> Vec<u8> {
    let t = &set.tables;
    let counts = [
        t.structures.len(),
        t.members.len(),
        t.programs.len(),
        t.tags.len(),
        t.others.len(),
        t.names.len(),
        t.tag_names.len(),
        t.templates.len(),
        set.memory.len(),
    ];
    let mut out = b"CIPLINK1".to_vec();
    out.extend(set.flags.bits().to_le_bytes());
    out.extend(counts.iter().flat_map(|&n| (n as u32).to_le_bytes()));
    out.extend(words(&t.structures));
    out.extend(words(&t.members));
    out.extend(words(&t.programs));
    out.extend(words(&t.tags));
    out.extend(words(&t.others));
    for store in [&t.names, &t.tag_names, &t.templates, &set.memory] {
        out.extend(store);
    }
    out
}

fn run(args: &[&str]) -> Result<i32, String> {
    let build = |config: &str| -> Result<(Logix, Set), String> {
        let named = |e: String| e.lines().map(|line| format!("{config}: {line}")).collect::<Vec<_>>().join("\n");
        let logix = Logix::from_file(Path::new(config)).map_err(named)?;
        let set = read_out(&logix).map_err(named)?;
        Ok((logix, set))
    };
    match args {
        ["--check", config, simulator, file, seed, messages] => {
            let (Ok(seed), Ok(messages)) = (seed.parse(), messages.parse()) else {
                return Err("SEED and MESSAGES are numbers".into());
            };
            let (logix, set) = build(config)?;
            std::fs::write(file, image(&set)).map_err(|e| format!("{file}: {e}"))?;
            served::check(logix, &set, &served::Server { simulator, image: file }, seed, messages)
        }
        [config] if !config.starts_with("--") => {
            let (_, set) = build(config)?;
            std::io::stdout().write_all(&image(&set)).map_err(|e| e.to_string())?;
            Ok(0)
        }
        _ => Err("image CONFIG\nimage --check CONFIG SIMULATOR FILE SEED MESSAGES".into()),
    }
}

fn main() {
    let args: Vec<String> = std::env::args().skip(1).collect();
    let args: Vec<&str> = args.iter().map(String::as_str).collect();
    let status = run(&args).unwrap_or_else(|what| {
        eprintln!("{what}");
        2
    });
    std::process::exit(status)
}
