//! Holds the crates `path` and `model`, linked from the archive of `oracle/probe`, to the reference.
//!
//!   leaves SEED PATHS SETS     PATHS generated paths beside the set ones, and SETS table sets; exit status 1 if an
//!                              answer differs

// what only the other drivers use of the generators
#![allow(dead_code)]

mod findings;
mod leaf_paths;
mod leaf_tables;
mod messages;
mod paths;
mod probe;
mod rng;
mod tables;
mod valid;

use findings::Findings;

fn main() {
    let args: Vec<u64> = std::env::args().skip(1).map_while(|a| a.parse().ok()).collect();
    let [seed, paths, sets] = args[..] else {
        eprintln!("leaves SEED PATHS SETS");
        std::process::exit(2)
    };
    let mut findings = Findings::default();
    leaf_paths::set_paths(seed, &mut findings);
    leaf_paths::generated(seed, paths, &mut findings);
    leaf_tables::generated(seed, sets, &mut findings);
    println!("seed {seed}: {paths} generated paths, {sets} table sets");
    findings.print();
    std::process::exit(findings.status())
}
