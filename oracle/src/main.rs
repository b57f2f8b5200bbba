//! The driver: generates table sets and messages, runs the reference on them, and does something with each case.
//!
//!   driver count SEED SETS MESSAGES              run the reference, print which items and statuses occurred
//!   driver breaches SEED SETS                    break SETS table sets, hold the model of `breach` to T1 to T6
//!   driver antt SEED SETS MESSAGES DIR PER CHUNK write the cases as antt crates below DIR: PER table sets to a crate,
//!                                                CHUNK cases to a theorem

// what only the other drivers use of the generators
#![allow(dead_code)]

mod breach;
mod breaches;
mod broken;
mod cases;
mod messages;
mod paths;
mod rng;
mod scratch;
mod tables;
mod tally;
mod valid;

use cases::{Wanted, run, run_broken};
use std::collections::BTreeMap;
use std::path::Path;
use tally::Tally;

fn count(seed: u64, sets: u64, messages: usize) {
    let mut tally = Tally::default();
    let (mut longest, mut broken) = (0, BTreeMap::new());
    let wanted = Wanted { messages, most: 65_535, refused: 0, long: false };
    for index in 0..sets {
        let run = run(seed + index, wanted);
        for case in &run.cases {
            tally.note(&case.message, case.reply(), run.set.flags.micro800);
            longest = longest.max(case.reply().len());
        }
        let kind = run_broken(seed + index, &run.set, false).broken;
        *broken.entry(kind.map_or("", |kind| kind.what)).or_insert(0) += 1;
    }
    println!("seeds {seed} to {}: {} messages", seed + sets - 1, sets * messages as u64);
    tally.print();
    println!("longest reply {longest}");
    for (what, count) in broken {
        println!("broken: {what} {count}");
    }
}

/// The cases of sets `from` to `to` as one crate; the crate's name.
fn antt_crate(seed: u64, from: u64, to: u64, wanted: Wanted, dir: &Path, chunk: usize) -> String {
    let krate = format!("cases{from}");
    let proofs = dir.join("crates").join(&krate).join("proofs");
    let (mut mods, mut lines) = (String::new(), String::new());
    for index in from..to {
        let sound = run(seed + index, wanted);
        let broken = run_broken(seed + index, &sound.set, false);
        let runs = [(String::new(), sound), (String::from("_broken"), broken)];
        let module = format!("Set{}", seed + index);
        scratch::write(&proofs.join(format!("{module}.antt")), &scratch::module(&runs, chunk));
        lines += &scratch::lines(&format!("{krate}/{module}"), &runs, chunk);
        mods += &format!("pub mod {module}\n");
    }
    scratch::write(&proofs.join("Lib.antt"), &mods);
    scratch::write(
        &dir.join("crates").join(&krate).join("src/lib.rt"),
        "// No code: cases, held to the definition.\n\n#![tactic(auto)]\n",
    );
    scratch::write(&dir.join(format!("{krate}.txt")), &lines);
    krate
}

fn antt(seed: u64, sets: u64, messages: usize, dir: &Path, per: u64, chunk: usize) {
    let wanted = Wanted { messages, most: 520, refused: 4, long: false };
    for from in (0..sets).step_by(per as usize) {
        println!("{}", antt_crate(seed, from, sets.min(from + per), wanted, dir, chunk));
    }
}

fn main() {
    let args: Vec<String> = std::env::args().skip(1).collect();
    let number = |i: usize| -> u64 { args.get(i).and_then(|a| a.parse().ok()).unwrap_or_else(|| usage()) };
    match args.first().map(String::as_str) {
        Some("count") => count(number(1), number(2), number(3) as usize),
        Some("breaches") => {
            let seeds = number(1)..number(1) + number(2);
            std::process::exit(breaches::run(seeds, |_| None))
        }
        Some("antt") => {
            let dir = args.get(4).unwrap_or_else(|| usage());
            antt(number(1), number(2), number(3) as usize, Path::new(dir), number(5), number(6) as usize)
        }
        _ => usage(),
    }
}

fn usage() -> ! {
    eprintln!("driver count SEED SETS MESSAGES");
    eprintln!("driver breaches SEED SETS");
    eprintln!("driver antt SEED SETS MESSAGES DIR PER CHUNK");
    std::process::exit(2)
}
