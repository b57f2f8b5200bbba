//! Which test of the tables' encoding and of T1 to T6 a table set breaks first, and in which row: `breach` of
//! crates/definition/specs/Breach.antt over rows. It shares nothing with valid.rs, so that each is held to the other, and
//! answers for any rows: a part that runs past its store is cut there, and no sum or product wraps.

use ciplink_sim::rows::Tables;
use std::ops::Range;

/// A test by its rule, its table, and the table of the other row. Tables are numbered: 1 structures, 2 members, 3 programs,
/// 4 tags, 5 other symbols, 6 tag memory, 7 template store, 0 none.
pub type Head = (u64, u64, u64);

const NONE: u64 = 0;
const STRUCTURES: u64 = 1;
const MEMBERS: u64 = 2;
const PROGRAMS: u64 = 3;
const TAGS: u64 = 4;
const OTHERS: u64 = 5;
const MEMORY: u64 = 6;
const TEMPLATES: u64 = 7;

/// What is told: the rule, the row that breaks it, and the row that it clashes with (table and row 0 where there is none).
#[derive(Clone, Copy, Debug, Default, PartialEq, Eq)]
pub struct Told {
    pub rule: u64,
    pub table: u64,
    pub row: u64,
    pub other_table: u64,
    pub other: u64,
}

impl Told {
    /// In the order of `ciplink_told`.
    pub fn numbers(self) -> [u64; 5] {
        [self.rule, self.table, self.row, self.other_table, self.other]
    }

    pub fn head(self) -> Head {
        (self.rule, self.table, self.other_table)
    }
}

/// A test: for each of so many rows i of the other table some rows j of its own, each of which is to hold.
struct Test<'a> {
    head: Head,
    others: usize,
    rows: Box<dyn Fn(usize) -> Range<usize> + 'a>,
    holds: Box<dyn Fn(usize, usize) -> bool + 'a>,
}

impl Test<'_> {
    /// The first row j of the first row i that does not hold.
    fn broken(&self) -> Option<Told> {
        (0..self.others).find_map(|i| {
            let j = (self.rows)(i).find(|&j| !(self.holds)(i, j))?;
            let (rule, table, other_table) = self.head;
            Some(Told { rule, table, row: j as u64, other_table, other: i as u64 })
        })
    }
}

/// The first test that a table set breaks, and where; None where it is valid.
pub fn breach(t: &Tables, memory: &[u8]) -> Option<Told> {
    tests(t, memory.len()).iter().find_map(Test::broken)
}

/// All tests in their order.
pub fn heads() -> Vec<Head> {
    tests(&Tables::default(), 0).iter().map(|test| test.head).collect()
}

fn tests<'a>(t: &'a Tables, memory: usize) -> Vec<Test<'a>> {
    let mut list = counts(t, memory);
    list.extend(each(STRUCTURES, &t.structures, structure_rules(t)));
    list.extend(each(MEMBERS, &t.members, member_rules(t)));
    list.extend(each(PROGRAMS, &t.programs, name_rules(&t.names, 0, forty)));
    list.extend(each(TAGS, &t.tags, tag_rules(t, memory)));
    list.extend(each(OTHERS, &t.others, other_rules(t)));
    list.extend(clashes(t));
    list
}

// ---- the counts of T1

fn counts<'a>(t: &Tables, memory: usize) -> Vec<Test<'a>> {
    vec![
        most(STRUCTURES, t.structures.len(), 64),
        most(MEMBERS, t.members.len(), 512),
        most(PROGRAMS, t.programs.len(), 16),
        most(TAGS, t.tags.len(), 1024),
        most(OTHERS, t.others.len(), 64),
        most(MEMORY, memory, 65_536),
        most(TEMPLATES, t.templates.len(), 65_536),
    ]
}

/// At most so many: the row behind them is one too many.
fn most<'a>(table: u64, count: usize, limit: usize) -> Test<'a> {
    let rows = move |_| 0..count;
    let holds = move |_, j| j < limit;
    Test { head: (101, table, NONE), others: 1, rows: Box::new(rows), holds: Box::new(holds) }
}

// ---- the rules of a row by itself

struct Rule<'a, const N: usize> {
    number: u64,
    passes: Box<dyn Fn(&[u32; N]) -> bool + 'a>,
}

fn rule<'a, const N: usize>(number: u64, passes: impl Fn(&[u32; N]) -> bool + 'a) -> Rule<'a, N> {
    Rule { number, passes: Box::new(passes) }
}

/// A test of each row for each rule.
fn each<'a, const N: usize>(
    table: u64,
    rows: &'a [[u32; N]],
    rules: Vec<Rule<'a, N>>,
) -> impl Iterator<Item = Test<'a>> {
    rules.into_iter().map(move |rule| Test {
        head: (rule.number, table, NONE),
        others: 1,
        rows: Box::new(|_| 0..rows.len()),
        holds: Box::new(move |_, j| (rule.passes)(&rows[j])),
    })
}

/// Those of a name whose start and length stand at words `at` and `at` + 1 of a row; `most` is how many bytes it may have.
fn name_rules<'a, const N: usize>(store: &'a [u8], at: usize, most: fn(&[u8]) -> usize) -> Vec<Rule<'a, N>> {
    let name = move |r: &[u32; N]| part(store, r[at], r[at + 1]);
    vec![
        rule(1, move |r: &[u32; N]| end(r[at], r[at + 1]) <= store.len() as u64),
        rule(201, move |r| !name(r).is_empty() && name(r).len() <= most(name(r))),
        rule(202, move |r| name(r).iter().all(|&byte| 0x20 <= byte && byte <= 0x7E)),
    ]
}

fn forty(_: &[u8]) -> usize {
    40
}

/// Of an other symbol's name 40 more than its prefix has.
fn forty_behind(name: &[u8]) -> usize {
    let name = name.to_ascii_lowercase();
    let starts = |prefix: &str| name.starts_with(prefix.as_bytes());
    match (starts("program:") || starts("routine:"), starts("task:")) {
        (true, _) => 48,
        (_, true) => 45,
        _ => 40,
    }
}

fn structure_rules(t: &Tables) -> Vec<Rule<'_, 10>> {
    let mut rules = name_rules(&t.names, 0, forty);
    rules.extend([
        rule(4, |r: &[u32; 10]| r[2] <= 0xFFFF),
        rule(5, |r| r[3] <= 0xFFFF),
        rule(7, |r| end(r[5], r[6]) <= t.members.len() as u64),
        rule(8, |r| r[7] <= 1),
        rule(401, |r| 0 < r[4] && r[4] <= 0xFFFF),
        rule(402, |r| end(r[8], r[9]) <= t.templates.len() as u64),
    ]);
    rules
}

fn member_rules(t: &Tables) -> Vec<Rule<'_, 9>> {
    let mut rules = name_rules(&t.names, 0, forty);
    rules.extend([
        rule(3, |r: &[u32; 9]| is_type(t.structures.len(), r[2])),
        rule(9, |r| r[6] <= 1),
        rule(10, |r| r[7] <= 1),
        rule(102, |r| r[8] <= 3),
        rule(403, |r| r[5] <= 8),
    ]);
    rules
}

fn tag_rules(t: &Tables, memory: usize) -> Vec<Rule<'_, 12>> {
    let mut rules = name_rules(&t.tag_names, 1, forty);
    rules.extend([
        rule(2, |r: &[u32; 12]| r[0] as usize <= t.programs.len()),
        rule(11, |r| r[10] <= 1),
        rule(102, |r| r[9] <= 3),
        rule(301, |r| r[3] > 0),
        rule(501, |r| is_type(t.structures.len(), r[4])),
        rule(502, |r| !zero_before_length([r[5], r[6], r[7]])),
        rule(503, |r| u128::from(r[8]) == product(nonzero(r)) || is_bool_array(r)),
        rule(601, move |r| tag_end(t, r) <= memory as u64),
    ]);
    rules
}

fn other_rules(t: &Tables) -> Vec<Rule<'_, 5>> {
    let mut rules = name_rules(&t.names, 1, forty_behind);
    rules.extend([
        rule(2, |r: &[u32; 5]| r[0] as usize <= t.programs.len()),
        rule(6, |r| r[4] <= 0xFFFF),
        rule(301, |r| r[3] > 0),
    ]);
    rules
}

// ---- rows that clash

fn clashes(t: &Tables) -> Vec<Test<'_>> {
    vec![
        member_of(404, t, |i, m| is_type(i, m[2])),
        member_of(405, t, |i, m| member_end(t, m) <= u64::from(t.structures[i][4])),
        two((203, PROGRAMS, PROGRAMS), &t.programs, &t.programs, |p, q| {
            !same_name(part(&t.names, p[0], p[1]), part(&t.names, q[0], q[1]))
        }),
        two((203, TAGS, TAGS), &t.tags, &t.tags, |a, b| {
            a[0] != b[0] || !same_name(tag_name(t, a), tag_name(t, b))
        }),
        two((203, OTHERS, TAGS), &t.tags, &t.others, |a, o| {
            a[0] != o[0] || !same_name(tag_name(t, a), part(&t.names, o[1], o[2]))
        }),
        two((302, TAGS, TAGS), &t.tags, &t.tags, |a, b| (a[0], a[3]) != (b[0], b[3])),
        two((302, OTHERS, TAGS), &t.tags, &t.others, |a, o| (a[0], a[3]) != (o[0], o[3])),
        two((302, OTHERS, OTHERS), &t.others, &t.others, |o, p| (o[0], o[3]) != (p[0], p[3])),
        two((602, TAGS, TAGS), &t.tags, &t.tags, |a, b| {
            tag_end(t, a) <= u64::from(b[11]) || tag_end(t, b) <= u64::from(a[11])
        }),
    ]
}

/// Each row of a table against each of another; if it is one table, against those behind it.
fn two<'a, const N: usize, const M: usize>(
    head: Head,
    others: &'a [[u32; N]],
    rows: &'a [[u32; M]],
    differ: impl Fn(&[u32; N], &[u32; M]) -> bool + 'a,
) -> Test<'a> {
    let (_, table, other_table) = head;
    let from = move |i: usize| if table == other_table { i + 1 } else { 0 };
    Test {
        head,
        others: others.len(),
        rows: Box::new(move |i| from(i)..rows.len()),
        holds: Box::new(move |i, j| differ(&others[i], &rows[j])),
    }
}

/// Each member of structure i that stands in the member table.
fn member_of<'a>(number: u64, t: &'a Tables, passes: impl Fn(usize, &[u32; 9]) -> bool + 'a) -> Test<'a> {
    let rows = |i: usize| {
        let s = &t.structures[i];
        s[5] as usize..t.members.len().min(end(s[5], s[6]) as usize)
    };
    Test {
        head: (number, MEMBERS, STRUCTURES),
        others: t.structures.len(),
        rows: Box::new(rows),
        holds: Box::new(move |i, j| passes(i, &t.members[j])),
    }
}

// ---- parts, names, types, lengths, ends

fn end(start: u32, length: u32) -> u64 {
    u64::from(start) + u64::from(length)
}

/// The bytes of a store from a start on, so many of them as far as they go.
fn part(store: &[u8], start: u32, length: u32) -> &[u8] {
    let cut = |at: u64| store.len().min(at as usize);
    &store[cut(u64::from(start))..cut(end(start, length))]
}

fn tag_name<'a>(t: &'a Tables, tag: &[u32; 12]) -> &'a [u8] {
    part(&t.tag_names, tag[1], tag[2])
}

/// A to Z as a to z, any other byte as it is.
fn lower(byte: u8) -> u8 {
    if (0x41..0x5B).contains(&byte) { byte + 0x20 } else { byte }
}

fn same_name(a: &[u8], b: &[u8]) -> bool {
    a.len() == b.len() && a.iter().zip(b).all(|(&x, &y)| lower(x) == lower(y))
}

/// The bytes of an atomic type, 0 for what is none.
fn atomic_size(code: u32) -> u32 {
    const FROM_C1: [u32; 11] = [1, 1, 2, 4, 8, 1, 2, 4, 8, 4, 8];
    const FROM_D1: [u32; 4] = [1, 2, 4, 8];
    match code {
        0xC1..=0xCB => FROM_C1[code as usize - 0xC1],
        0xD1..=0xD4 => FROM_D1[code as usize - 0xD1],
        _ => 0,
    }
}

/// An atomic code, or a structure below this number.
fn is_type(bound: usize, word: u32) -> bool {
    if word < 0x100 { atomic_size(word) > 0 } else { ((word - 0x100) as usize) < bound }
}

/// The bytes of one element of a type word; 0 for a structure that is not there.
fn size(t: &Tables, word: u32) -> u64 {
    let bytes = match word {
        0..0x100 => atomic_size(word),
        _ => t.structures.get((word - 0x100) as usize).map_or(0, |s| s[4]),
    };
    u64::from(bytes)
}

fn zero_before_length([a, b, c]: [u32; 3]) -> bool {
    a == 0 && (b > 0 || c > 0) || b == 0 && c > 0
}

/// A tag's lengths before the first 0.
fn nonzero(tag: &[u32; 12]) -> &[u32] {
    let lengths = &tag[5..8];
    let count = lengths.iter().position(|&n| n == 0).unwrap_or(3);
    &lengths[..count]
}

fn product(lengths: &[u32]) -> u128 {
    lengths.iter().fold(1, |product, &n| product * u128::from(n))
}

/// A DWORD tag with one length, 32 times its elements.
fn is_bool_array(tag: &[u32; 12]) -> bool {
    tag[4] == 0xD3 && nonzero(tag).len() == 1 && u64::from(tag[8]) * 32 == u64::from(tag[5])
}

/// Where a tag ends in tag memory: below 2^64 for any words.
fn tag_end(t: &Tables, tag: &[u32; 12]) -> u64 {
    u64::from(tag[11]) + u64::from(tag[8]) * size(t, tag[4])
}

/// Where a member ends in its structure, all its elements counted.
fn member_end(t: &Tables, member: &[u32; 9]) -> u64 {
    u64::from(member[4]) + size(t, member[2]) * u64::from(member[3].max(1))
}
