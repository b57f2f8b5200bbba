//! What is told of table sets: the model (breach.rs) is held to T1 to T6 (valid.rs), and the port to both; how often each
//! test was told is counted.

use crate::breach::{Head, Told, breach, heads};
use crate::broken::{Kind, break_places};
use crate::cases::sound;
use crate::rng::Rng;
use crate::tables::{self, LARGE, MEDIUM, SMALL, Set, Size};
use crate::valid::valid;
use ciplink_sim::rows::{Tables, part};
use std::collections::BTreeMap;

/// More differences than these are counted and not printed.
const PRINTED: u64 = 20;
/// The tables by their numbers.
const TABLES: [&str; 8] =
    ["", "structures", "members", "programs", "tags", "others", "tag memory", "template store"];

/// What the port says of a table set.
pub struct Judged {
    /// What `ciplink_valid` answered, and `ciplink_breach`.
    pub valid: u32,
    pub rule: u64,
    /// The numbers that it told.
    pub told: [u64; 5],
    /// Whether the bytes beside them stayed.
    pub guarded: bool,
}

#[derive(Default)]
pub struct Breaches {
    valid: u64,
    /// Broken table sets by the test that was told.
    told: BTreeMap<Head, u64>,
    /// The same of the sets in which one kind alone was broken, and of how many it was the test of that kind.
    kinds: BTreeMap<&'static str, BTreeMap<Head, u64>>,
    expected: u64,
}

impl Breaches {
    /// Counts a table set, in which the kind alone was broken if there is one, and says what differs.
    pub fn hold(&mut self, set: &Set, kind: Option<&'static Kind>, port: Option<Judged>) -> Result<(), String> {
        let told = breach(&set.tables, &set.memory);
        self.note(told, kind);
        let sound = witnesses(set, told)?;
        expected(set, told, kind)?;
        port.map_or(Ok(()), |port| answered(set, told, sound, port))
    }

    fn note(&mut self, told: Option<Told>, kind: Option<&'static Kind>) {
        let Some(head) = told.map(Told::head) else {
            self.valid += 1;
            return;
        };
        *self.told.entry(head).or_default() += 1;
        if let Some(kind) = kind {
            *self.kinds.entry(kind.what).or_default().entry(head).or_default() += 1;
            self.expected += u64::from(kind.told.contains(&head));
        }
    }

    /// How many table sets were valid, and how many were broken.
    fn sets(&self) -> (u64, u64) {
        (self.valid, self.told.values().sum())
    }

    /// The counts of each test in their order.
    fn print_tests(&self) {
        println!("{:>4}  {:<16}{:<16}{:>10}", "rule", "table", "against", "told");
        for head in heads() {
            let (rule, table, other) = head;
            let count = self.told.get(&head).unwrap_or(&0);
            println!("{rule:>4}  {:<16}{:<16}{count:>10}", TABLES[table as usize], TABLES[other as usize]);
        }
    }

    /// The counts of each kind that was broken alone, with the tests that were told.
    pub fn print_kinds(&self) {
        for (what, told) in &self.kinds {
            let sets: u64 = told.values().sum();
            let list: Vec<String> = told.iter().map(|(head, n)| format!("{} {n}", test(*head))).collect();
            println!("  {what:<36}{sets:>8}   {}", list.join(", "));
        }
    }

    pub fn print_total(&self) {
        let (valid, broken) = self.sets();
        println!("{} table sets: {valid} valid, {broken} broken", valid + broken);
        let alone: u64 = self.kinds.values().flat_map(BTreeMap::values).sum();
        println!(
            "broken in one place: {alone} in {} ways, the rule told was the expected one of {}",
            self.kinds.len(),
            self.expected
        );
        let heads = heads();
        let missing: Vec<String> =
            heads.iter().filter(|head| !self.told.contains_key(head)).map(|&head| test(head)).collect();
        match missing.is_empty() {
            true => println!("each of the {} tests was told", heads.len()),
            false => println!("of {} tests these were not told: {}", heads.len(), missing.join(", ")),
        }
    }
}

/// As `ciplink_breach` tells them: all 0 where the set is valid.
fn numbers(told: Option<Told>) -> [u64; 5] {
    told.map_or([0; 5], Told::numbers)
}

/// Whether a set is valid by T1 to T6, where the model agrees.
fn witnesses(set: &Set, told: Option<Told>) -> Result<bool, String> {
    let verdict = valid(&set.tables, &set.memory);
    match verdict.is_ok() == told.is_none() {
        true => Ok(verdict.is_ok()),
        false => Err(format!("T1 to T6: {verdict:?}\n  the model: {}", shown(set, numbers(told)))),
    }
}

/// Whether what is told is what the kind breaks.
fn expected(set: &Set, told: Option<Told>, kind: Option<&Kind>) -> Result<(), String> {
    let (Some(kind), Some(head)) = (kind, told.map(Told::head)) else { return Ok(()) };
    if kind.told.contains(&head) {
        return Ok(());
    }
    let due: Vec<String> = kind.told.iter().map(|&head| test(head)).collect();
    Err(format!("due: {}\n  the model: {}", due.join(" or "), shown(set, numbers(told))))
}

/// Whether the port answers what is due.
fn answered(set: &Set, told: Option<Told>, sound: bool, port: Judged) -> Result<(), String> {
    let due = numbers(told);
    if port.valid != u32::from(sound) {
        return Err(format!("ciplink_valid: {}\n  the model: {}", port.valid, shown(set, due)));
    }
    if (port.rule, port.told) != (due[0], due) {
        let (theirs, ours) = (shown(set, port.told), shown(set, due));
        return Err(format!("ciplink_breach: {}, {theirs}\n  the model: {ours}", port.rule));
    }
    match port.guarded {
        true => Ok(()),
        false => Err("ciplink_breach wrote beside the numbers that it tells".into()),
    }
}

// ---- what is printed

fn table(number: u64) -> &'static str {
    TABLES.get(number as usize).unwrap_or(&"no table")
}

/// A test, as it is printed.
fn test((rule, own, other): Head) -> String {
    match other {
        0 => format!("{rule} {}", table(own)),
        _ => format!("{rule} {}/{}", table(own), table(other)),
    }
}

/// The words of a row, and where its name starts among them.
fn words(t: &Tables, table: u64, row: u64) -> Option<(&[u32], &[u8], usize)> {
    let row = row as usize;
    Some(match table {
        1 => (t.structures.get(row)?, &t.names, 0),
        2 => (t.members.get(row)?, &t.names, 0),
        3 => (t.programs.get(row)?, &t.names, 0),
        4 => (t.tags.get(row)?, &t.tag_names, 1),
        5 => (t.others.get(row)?, &t.names, 1),
        _ => return None,
    })
}

/// A row with its words and its name.
fn shown_row(t: &Tables, number: u64, row: u64) -> String {
    let Some((words, store, at)) = words(t, number, row) else {
        return format!("{} {row}", table(number));
    };
    let name = part(store, words[at], words[at + 1]).map(String::from_utf8_lossy);
    format!("{} {row} {words:X?} {name:?}", table(number))
}

/// Told numbers, and the rows that they name.
fn shown(set: &Set, told: [u64; 5]) -> String {
    let row = |table, row| shown_row(&set.tables, table, row);
    match told {
        [0, 0, 0, 0, 0] => "valid".into(),
        [_, own, at, 0, _] => format!("{told:?}\n    {}", row(own, at)),
        [_, own, at, other_table, other] => {
            format!("{told:?}\n    {}\n    against {}", row(own, at), row(other_table, other))
        }
    }
}

// ---- many table sets, broken in one to three places

fn size(seed: u64) -> &'static Size {
    match seed % 100 {
        0 => &LARGE,
        n if n % 10 == 5 => &MEDIUM,
        _ => &SMALL,
    }
}

/// What was broken, for a printed difference.
fn places(kinds: &[Option<&'static Kind>]) -> String {
    let list: Vec<&str> = kinds.iter().map(|kind| kind.map_or("some word", |kind| kind.what)).collect();
    list.join("; ")
}

/// Breaks the table set of each seed and compares what is told; prints the counts. The exit status.
pub fn run(seeds: std::ops::Range<u64>, port: impl Fn(&Set) -> Option<Judged>) -> i32 {
    let (mut breaches, mut differ) = (Breaches::default(), 0);
    for seed in seeds.clone() {
        let mut rng = Rng::new(seed);
        let mut set = sound(seed, tables::sized(&mut rng, size(seed)));
        let count = rng.within(1, 3);
        let kinds = break_places(&mut rng, &mut set, count);
        let alone = if let [kind] = kinds[..] { kind } else { None };
        if let Err(what) = breaches.hold(&set, alone, port(&set)) {
            differ += 1;
            if differ <= PRINTED {
                println!("differs: seed {seed}, broken: {}\n  {what}", places(&kinds));
            }
        }
    }
    println!("from seed {} on: table sets, each broken in one to three places", seeds.start);
    breaches.print_tests();
    breaches.print_total();
    match differ {
        0 => println!("no answer differs"),
        n => println!("{n} answers differ"),
    }
    i32::from(differ > 0)
}
