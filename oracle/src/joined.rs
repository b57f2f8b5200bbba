//! Holds masked writes in a row to a single one: the reference takes them one after the other (clicks.rs), the port one with
//! the masks that `ciplink_join_masks` made of theirs, and tag memory afterwards has to be the same.

use crate::cases::{Case, sound};
use crate::ciplink;
use crate::clicks::{Between, Plant, Row};
use crate::findings::hex;
use crate::masks::{Joiner, Pair};
use crate::port::{Port, short, show_tables};
use crate::rng::Rng;
use crate::sizes;
use crate::tables::{self, Set};
use crate::targets::{by_other_members, with_and_without_index};
use ciplink_sim::rows::Tables;
use std::collections::BTreeMap;

/// More differences than these are counted and not printed.
const PRINTED: u64 = 20;
/// Four masks are tried in every length up to this, and in one length up to that.
const UNEQUAL: u32 = 16;
const EQUAL: u32 = 64;

#[derive(Default)]
struct Rows {
    port: Port,
    joiner: Joiner,
    /// Accepted rows, those of them that changed tag memory, and rows whose first click was refused, by its status.
    accepted: u64,
    changed: u64,
    refused: BTreeMap<String, u64>,
    /// Clicks of accepted and of refused rows; accepted rows by their clicks and by the size.
    clicks: [u64; 2],
    by_clicks: BTreeMap<usize, u64>,
    by_size: BTreeMap<usize, u64>,
    /// Accepted rows by several of something, and of some kinds.
    paths: u64,
    ways: u64,
    name_and_id: u64,
    indexed_or_not: u64,
    overlaid: u64,
    programs: u64,
    members: u64,
    single_apart: u64,
    /// Rows with messages between, and those messages.
    interrupted: u64,
    between: Between,
    /// Rows that differ, and those of them in the masks, and in a reply or tag memory; joins of set lengths; table sets.
    differ: u64,
    masks_differ: u64,
    memory_differs: u64,
    lengths_differ: u64,
    sets_differ: u64,
    most_ways: usize,
}

impl Rows {
    /// One seed: a valid table set with its rows, each from the tag memory that the one before it left.
    fn seed(&mut self, seed: u64, rows: u64) {
        let (size, share, _) = sizes(seed);
        let mut rng = Rng::new(seed);
        let set = sound(seed, tables::sized(&mut rng, size));
        if ciplink::valid(&set.tables, &set.memory) != 1 {
            self.sets_differ += 1;
            println!("differs: the verdict on the tables of seed {seed}");
            return;
        }
        let mut entry = Rng::new(!seed);
        let mut plant = Plant::new(&set, &mut rng);
        for number in 0..rows {
            let row = plant.row();
            self.note(&set, &row);
            self.hold(&set, &row, (seed, number), &mut entry, share);
        }
        self.equal_lengths(&mut entry);
    }

    /// One row: the joins, the single one and, alone, zeros with all ones.
    fn hold(&mut self, set: &Set, row: &Row, from: (u64, u64), entry: &mut Rng, share: u32) {
        let mut wrong = Vec::new();
        let mut joined = row.clicks[0].pair.clone();
        for click in &row.clicks[1..] {
            joined = self.joiner.join(&joined, &click.pair, &mut wrong);
        }
        let third = row.clicks.get(2).map_or_else(|| Pair::random(entry, row.aim.size), |click| click.pair.clone());
        self.joiner.laws([&row.clicks[0].pair, &row.clicks[1].pair, &third], &mut wrong);
        let single = row.case(&joined, &row.after, entry);
        let alone = row.case(&Pair::neutral(row.aim.size), &row.before, entry);
        let mut differing = Vec::new();
        for (what, case) in [("the single one", single), ("zeros with all ones", alone)] {
            let judged = entry.below(share) == 0;
            if !self.port.hold(set, &case, judged).same {
                differing.push((what, case, judged));
            }
        }
        let (masks, memory) = (!wrong.is_empty(), !differing.is_empty());
        self.masks_differ += u64::from(masks);
        self.memory_differs += u64::from(memory);
        self.differ += u64::from(masks || memory);
        if (masks || memory) && self.differ <= PRINTED {
            println!("differs: row {} of seed {}, {:?}", from.1, from.0, set.flags);
            self.show(set, row, &wrong, &differing);
        }
    }

    /// Prints a row, what differs of its joins, and the cases that differ, which are sent once more.
    fn show(&mut self, set: &Set, row: &Row, wrong: &[String], differing: &[(&str, Case, bool)]) {
        for [message, reply] in &row.sent {
            println!("  the Rust: {} answered {}", short(message), short(reply));
        }
        wrong.iter().for_each(|what| println!("  joined {what}"));
        for (what, case, judged) in differing {
            let held = self.port.hold(set, case, *judged);
            println!("  {what}, through {}", held.through);
            self.port.show(case, &held);
        }
        show_tables(set, None);
    }

    /// Four masks of every length up to 16, which are refused if they are not all equal.
    fn four_lengths(&mut self, rng: &mut Rng) {
        let count = UNEQUAL + 1;
        for number in 0..count.pow(4) {
            let length = |place| number / count.pow(place) % count;
            let (first, next) = (Pair::any(rng, [length(0), length(1)]), Pair::any(rng, [length(2), length(3)]));
            self.lengths(&first, &next);
        }
    }

    /// Masks of each length up to 64.
    fn equal_lengths(&mut self, rng: &mut Rng) {
        for length in 0..=EQUAL {
            let (first, next) = (Pair::any(rng, [length; 2]), Pair::any(rng, [length; 2]));
            self.lengths(&first, &next);
        }
    }

    fn lengths(&mut self, first: &Pair, next: &Pair) {
        let mut wrong = Vec::new();
        self.joiner.join(first, next, &mut wrong);
        if wrong.is_empty() {
            return;
        }
        self.lengths_differ += 1;
        if self.lengths_differ <= PRINTED {
            println!("differs: joined {}", wrong.join("\n  "));
        }
    }

    // ---- counts

    fn note(&mut self, set: &Set, row: &Row) {
        let sum = &mut self.between;
        let Between { reads, refused, others, taken_back } = row.between;
        sum.reads += reads;
        sum.refused += refused;
        sum.others += others;
        sum.taken_back += taken_back;
        self.interrupted += u64::from(reads + refused + others > 0);
        self.clicks[usize::from(!row.accepted())] += row.clicks.len() as u64;
        match row.accepted() {
            true => self.note_accepted(&set.tables, row),
            false => *self.refused.entry(hex(&row.clicks[0].reply[2..])).or_default() += 1,
        }
    }

    fn note_accepted(&mut self, t: &Tables, row: &Row) {
        self.accepted += 1;
        self.changed += u64::from(row.before != row.after);
        *self.by_clicks.entry(row.clicks.len()).or_default() += 1;
        *self.by_size.entry(row.aim.size).or_default() += 1;
        self.paths += u64::from(row.different(|click| click.path.bytes.clone()) > 1);
        self.ways += u64::from(row.different(|click| click.path.way) > 1);
        self.name_and_id += u64::from(row.different(|click| click.path.by_id) > 1);
        self.indexed_or_not += u64::from(row.by_two_ways(with_and_without_index));
        self.overlaid += u64::from(row.by_two_ways(by_other_members));
        self.single_apart += u64::from(row.clicks.iter().all(|click| click.path.bytes != row.single.bytes));
        let Some((target, ways)) = &row.aim.target else { return };
        self.programs += u64::from(t.tags[target.tag][0] > 0);
        self.members += u64::from(t.tags[target.tag][4] >= 0x100);
        self.most_ways = self.most_ways.max(ways.len());
    }
}

/// Numbers with what each is the count of.
fn list<T: std::fmt::Display>(counts: &BTreeMap<T, u64>) -> String {
    counts.iter().map(|(what, n)| format!("{what}: {n}")).collect::<Vec<_>>().join("  ")
}

impl Rows {
    fn print(&self) {
        let refused: u64 = self.refused.values().sum();
        println!("{} rows: {} accepted, {refused} refused", self.accepted + refused, self.accepted);
        println!("clicks: {} of accepted rows, {} of refused rows", self.clicks[0], self.clicks[1]);
        println!("accepted rows by their clicks {}", list(&self.by_clicks));
        println!("accepted rows by their size   {}", list(&self.by_size));
        println!("refused rows by their status  {}", list(&self.refused));
        println!("of the accepted rows");
        println!("  by several paths              {:>9}", self.paths);
        println!("  by several ways               {:>9}   (of at most {})", self.ways, self.most_ways);
        println!("  by name and by ID             {:>9}", self.name_and_id);
        println!("  with and without an index     {:>9}", self.indexed_or_not);
        println!("  by members on one another     {:>9}", self.overlaid);
        println!("  to a program's tag            {:>9}", self.programs);
        println!("  to a member                   {:>9}", self.members);
        println!("  the single by another path    {:>9}", self.single_apart);
        println!("  that changed tag memory       {:>9}", self.changed);
        self.print_between();
        self.print_joins(self.accepted + refused);
        println!(
            "single ones, and zeros with all ones: through ciplink_message {}, through ciplink_answer {}",
            self.port.judged, self.port.answered
        );
        if self.status() == 0 {
            println!("no row differs");
            return;
        }
        println!(
            "{} rows differ: {} in the masks, {} in a reply or tag memory; {} joins of set lengths differ, {} table sets",
            self.differ, self.masks_differ, self.memory_differs, self.lengths_differ, self.sets_differ
        );
    }

    fn print_between(&self) {
        let Between { reads, refused, others, taken_back } = self.between;
        println!("rows with messages between: {}", self.interrupted);
        println!("  {reads} reads, {refused} refused, {others} others ({taken_back} that wrote were taken back)");
    }

    fn print_joins(&self, rows: u64) {
        let in_rows = self.clicks[0] + self.clicks[1] - rows;
        let (three, neutral) = (4 * rows, 2 * rows);
        let set = self.joiner.joined - in_rows - three - neutral;
        println!("joins: {in_rows} in rows, {three} of three pairs in both orders, {neutral} with zeros and all ones");
        println!("  of equal lengths from 0 to {EQUAL} {set}, of unequal lengths {}", self.joiner.unequal);
    }

    fn status(&self) -> i32 {
        i32::from(self.differ + self.lengths_differ + self.sets_differ > 0)
    }
}

/// Sends rows to the table set of each seed, and prints the counts. The exit status.
pub fn run(seeds: std::ops::Range<u64>, rows: u64) -> i32 {
    let mut all = Rows::default();
    all.four_lengths(&mut Rng::new(seeds.start ^ 0x301));
    for seed in seeds.clone() {
        all.seed(seed, rows);
    }
    println!("from seed {} on: {} table sets, {rows} rows of masked writes each", seeds.start, seeds.end - seeds.start);
    all.print();
    all.status()
}
