//! Holds the entry points of `crates/ciplink`, linked from its archive, to the reference: outcomes, replies, the buffer
//! behind them, tag memory after each message, and the entry refusals; and what is told of broken tables to a model.
//!
//!   messages SEED SETS MESSAGES     MESSAGES messages to each of SETS table sets; exit status 1 if an answer differs
//!   messages breaches SEED SETS     SETS table sets, each broken in one to three places: only what is told of them
//!   messages joined SEED SETS ROWS  ROWS rows of masked writes to each of SETS table sets, and each row as a single one

// what only the other drivers use of the generators
#![allow(dead_code)]

mod breach;
mod breaches;
mod broken;
mod cases;
mod ciplink;
mod clicks;
mod findings;
mod joined;
mod lent;
mod masks;
mod messages;
mod paths;
mod port;
mod rng;
mod tables;
mod tally;
mod targets;
mod valid;

use breaches::{Breaches, Judged};
use broken::Kind;
use cases::{Case, Expected, Run, Wanted, run_broken, sound, talk};
use ciplink_sim::rows::Flags;
use port::{Port, show_tables};
use rng::Rng;
use tables::{LARGE, MEDIUM, SMALL, Set, Size};
use tally::Tally;

/// More differences than these are counted and not printed.
const PRINTED: u64 = 20;

/// Where a case comes from, for a printed difference.
#[derive(Clone, Copy)]
struct Origin<'a> {
    seed: u64,
    set: &'a Set,
    broken: Option<&'static Kind>,
}

#[derive(Default)]
struct Comparison {
    tally: Tally,
    port: Port,
    /// What was told of the table sets.
    breaches: Breaches,
    /// Messages by the flags' bits.
    flags: [u64; 16],
    finished: [u64; 4],
    /// Other symbols with a name of more than 40 bytes, and symbol pages that list such a name.
    long_symbols: usize,
    long_pages: u64,
    most_tags: usize,
    longest: usize,
    differ: u64,
}

/// The size of a seed's tables; of how many messages one goes through `ciplink_message`, which judges the tables anew; and
/// how many copies are broken for each 200 messages.
fn sizes(seed: u64) -> (&'static Size, u32, usize) {
    match seed % 50 {
        0 => (&LARGE, 300, 1),
        n if n % 10 == 5 => (&MEDIUM, 20, 2),
        _ => (&SMALL, 10, 2),
    }
}

/// Half of the messages with the set's own flags, half shared among all sixteen combinations.
fn legs(own: Flags, messages: usize) -> impl Iterator<Item = (Flags, usize)> {
    let half = messages / 2;
    let share = move |bits: usize| half * (bits + 1) / 16 - half * bits / 16;
    let all = (0..16).map(move |bits| (Flags::from_bits(bits as u32), share(bits)));
    std::iter::once((own, messages - half)).chain(all)
}

impl Comparison {
    /// One seed: a valid table set with its messages, and copies of it that are broken.
    fn seed(&mut self, seed: u64, messages: usize) {
        let (size, share, copies) = sizes(seed);
        let mut rng = Rng::new(seed);
        let mut set = sound(seed, tables::sized(&mut rng, size));
        self.most_tags = self.most_tags.max(set.tables.tags.len());
        self.long_symbols += tables::long_names(&set.tables).len();
        if self.verdict(Origin { seed, set: &set, broken: None }) == 1 {
            let (mut entry, mut which) = (Rng::new(!seed), Rng::new(seed ^ 0xA115));
            for (flags, count) in legs(set.flags, messages) {
                set.flags = flags;
                let wanted = Wanted { messages: count, most: 65_535, refused: 3, long: true };
                let origin = Origin { seed, set: &set, broken: None };
                let each = |case: Case| self.hold(origin, &case, which.below(share) == 0);
                let finished = talk(&set, &mut rng, &mut entry, wanted, each);
                for (sum, n) in self.finished.iter_mut().zip(finished) {
                    *sum += n;
                }
            }
        }
        for copy in 0..(copies * messages / 200).max(1) as u64 {
            let Run { set, cases, broken } = run_broken(seed ^ copy << 40, &set, true);
            self.verdict(Origin { seed, set: &set, broken });
            for case in cases {
                self.hold(Origin { seed, set: &set, broken }, &case, true);
            }
        }
    }

    /// Holds what `ciplink_valid` and `ciplink_breach` say of a set to what is due; what the first says.
    fn verdict(&mut self, origin: Origin) -> u32 {
        let judged = judged(origin.set);
        let verdict = judged.valid;
        if let Err(what) = self.breaches.hold(origin.set, origin.broken, Some(judged)) {
            if self.differs(origin, "the verdict on the tables") {
                println!("  {what}");
                show_tables(origin.set, origin.broken);
            }
        }
        verdict
    }

    /// One message, through `ciplink_message` if it is `judged`.
    fn hold(&mut self, origin: Origin, case: &Case, judged: bool) {
        let set = origin.set;
        match &case.expected {
            Expected::Refused(number) => self.tally.note_refused(*number),
            Expected::Replied(reply) => {
                self.tally.note(&case.message, reply, set.flags.micro800);
                self.longest = self.longest.max(reply.len());
                self.long_pages += u64::from(lists_long_name(set, &case.message, reply));
            }
        }
        self.flags[set.flags.bits() as usize] += 1;
        let held = self.port.hold(set, case, judged);
        if !held.same && self.differs(origin, held.through) {
            self.port.show(case, &held);
            show_tables(set, origin.broken);
        }
    }

    /// Counts a difference; whether it is to be printed.
    fn differs(&mut self, origin: Origin, through: &str) -> bool {
        self.differ += 1;
        if self.differ <= PRINTED {
            println!("differs: {through}, seed {}, {:?}", origin.seed, origin.set.flags);
        }
        self.differ <= PRINTED
    }

    fn print(&self) {
        let (answered, refused) = self.tally.messages();
        println!(
            "{} messages: {answered} answered, {refused} refused at the entry; through ciplink_message {}, through ciplink_answer {}",
            answered + refused,
            self.port.judged,
            self.port.answered
        );
        self.tally.print();
        self.tally.print_refused();
        let fewest = self.flags.iter().min().expect("sixteen");
        println!("each of the 16 combinations of flags: at least {fewest} messages");
        let [reads, opened, templates, pages] = self.finished;
        println!("continued to the end: {reads} reads ({opened} opened by 4C), {templates} template reads, {pages} symbol pages");
        let (symbols, pages) = (self.long_symbols, self.long_pages);
        println!("other symbols of more than 40 bytes: {symbols}, symbol pages that list one: {pages}");
        println!("longest reply {} bytes, largest tag table {} tags", self.longest, self.most_tags);
        println!(
            "ciplink_valid and ciplink_breach: sets broken in one place, and which rule was told of which table"
        );
        self.breaches.print_kinds();
        self.breaches.print_total();
        match self.differ {
            0 => println!("no answer differs"),
            n => println!("{n} answers differ"),
        }
    }
}

/// Whether a reply is a symbol page on which a name of more than 40 bytes stands.
fn lists_long_name(set: &Set, message: &[u8], reply: &[u8]) -> bool {
    let listed = |name: &&[u8]| reply.windows(name.len()).any(|part| part == *name);
    message.first() == Some(&0x55) && tables::long_names(&set.tables).iter().any(listed)
}

/// What the port says of a table set. The numbers that it tells stand between two guards.
fn judged(set: &Set) -> Judged {
    const GUARD: u64 = 0xA5A5_A5A5_A5A5_A5A5;
    let (t, memory) = (&set.tables, &set.memory[..]);
    let mut room = [[GUARD; 5]; 3];
    let rule = ciplink::breach(t, memory, &mut room[1]);
    let [before, told, after] = room;
    let guarded = before == [GUARD; 5] && after == [GUARD; 5];
    Judged { valid: ciplink::valid(t, memory), rule, told, guarded }
}

fn numbers(words: &[String]) -> Option<Vec<u64>> {
    words.iter().map(|word| word.parse().ok()).collect()
}

/// Sends messages to the table set of each seed; the exit status.
fn compare(seed: u64, sets: u64, messages: u64) -> i32 {
    let mut comparison = Comparison::default();
    for seed in seed..seed + sets {
        comparison.seed(seed, messages as usize);
    }
    println!("seed {seed}: {sets} table sets, {messages} messages each and some to broken copies");
    comparison.print();
    i32::from(comparison.differ > 0)
}

const USAGE: &str = "messages SEED SETS MESSAGES\nmessages breaches SEED SETS\nmessages joined SEED SETS ROWS";

fn main() {
    let words: Vec<String> = std::env::args().skip(1).collect();
    let mode = words.first().filter(|word| ["breaches", "joined"].contains(&word.as_str()));
    let status = match (mode.map(String::as_str), numbers(&words[mode.iter().len()..]).as_deref()) {
        (None, Some(&[seed, sets, messages])) => compare(seed, sets, messages),
        (Some("breaches"), Some(&[seed, sets])) => breaches::run(seed..seed + sets, |set| Some(judged(set))),
        (Some("joined"), Some(&[seed, sets, rows])) => joined::run(seed..seed + sets, rows),
        _ => {
            eprintln!("{USAGE}");
            2
        }
    };
    std::process::exit(status)
}
