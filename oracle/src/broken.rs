//! Table sets that break one of T1 to T6, or the row encoding, in one place; and in several at once.

use crate::breach::Head;
use crate::rng::Rng;
use crate::tables::Set;
use crate::valid::PREFIXES;
use ciplink_sim::rows::{DWORD, Tables};

type Break = fn(&mut Rng, &mut Set) -> Option<()>;

/// A way to break a table set.
pub struct Kind {
    pub what: &'static str,
    /// The test that is told where nothing else is broken: its rule, its table and the other row's table, by their numbers.
    /// More than one where this breaks an earlier one too in some sets.
    pub told: &'static [Head],
    /// Breaks it, whatever the set is; None where the set has nothing of the kind to break.
    apply: Break,
}

const fn kind(what: &'static str, told: &'static [Head], apply: Break) -> Kind {
    Kind { what, told, apply }
}

static BREAKS: [Kind; 74] = [
    kind("T1 structures", &[(101, 1, 0)], |_, s| many(&mut s.tables.structures, 65)),
    kind("T1 members", &[(101, 2, 0)], |_, s| many(&mut s.tables.members, 513)),
    kind("T1 programs", &[(101, 3, 0)], |_, s| programs(s)),
    kind("T1 others", &[(101, 5, 0)], |_, s| others(s)),
    kind("T1 member access", &[(102, 2, 0)], |r, s| field(r, &mut s.tables.members, 8, &[4, u32::MAX])),
    kind("T1 tag access", &[(102, 4, 0)], |r, s| field(r, &mut s.tables.tags, 9, &[4, u32::MAX])),
    kind("T2 empty structure name", &[(201, 1, 0)], |r, s| empty_name(r, s, 1)),
    kind("T2 empty member name", &[(201, 2, 0)], |r, s| empty_name(r, s, 2)),
    kind("T2 empty program name", &[(201, 3, 0)], |r, s| empty_name(r, s, 3)),
    kind("T2 empty tag name", &[(201, 4, 0)], |r, s| empty_name(r, s, 4)),
    kind("T2 empty other name", &[(201, 5, 0)], |r, s| empty_name(r, s, 5)),
    kind("T2 long structure name", &[(201, 1, 0)], |r, s| long_name(r, s, 1)),
    kind("T2 long member name", &[(201, 2, 0)], |r, s| long_name(r, s, 2)),
    kind("T2 long program name", &[(201, 3, 0)], |r, s| long_name(r, s, 3)),
    kind("T2 long tag name", &[(201, 4, 0)], |r, s| long_name(r, s, 4)),
    kind("T2 long other name", &[(201, 5, 0)], |r, s| long_name(r, s, 5)),
    kind("T2 long other name behind a prefix", &[(201, 5, 0)], long_behind),
    kind("T2 structure name byte", &[(202, 1, 0)], |r, s| odd_name(r, s, 1)),
    kind("T2 member name byte", &[(202, 2, 0)], |r, s| odd_name(r, s, 2)),
    kind("T2 program name byte", &[(202, 3, 0)], |r, s| odd_name(r, s, 3)),
    kind("T2 tag name byte", &[(202, 4, 0)], |r, s| odd_name(r, s, 4)),
    kind("T2 other name byte", &[(202, 5, 0)], |r, s| odd_name(r, s, 5)),
    kind("T2 other name byte behind a prefix", &[(202, 5, 0)], odd_behind),
    // names of all four tables may have the byte; in the prefix of an other symbol's it makes the name too long
    kind("T2 a byte of the names", &[(202, 1, 0), (202, 2, 0), (202, 3, 0), (202, 5, 0), (201, 5, 0)], |r, s| {
        odd_byte(r, s, &[1, 2, 3, 5])
    }),
    kind("T2 a byte of the tags' names", &[(202, 4, 0)], |r, s| odd_byte(r, s, &[4])),
    kind("T2 two programs of a name", &[(203, 3, 3)], two_programs),
    kind("T2 two tags of a name", &[(203, 4, 4)], |r, s| two_of_a_scope(r, &mut s.tables.tags, &[1, 2])),
    kind("T2 two tags of a name but for case", &[(203, 4, 4)], tag_named_as_tag),
    kind("T2 other named as a tag", &[(203, 5, 4)], other_named_as_tag),
    kind("T3 tag ID 0", &[(301, 4, 0)], |r, s| field(r, &mut s.tables.tags, 3, &[0])),
    kind("T3 other ID 0", &[(301, 5, 0)], |r, s| field(r, &mut s.tables.others, 3, &[0])),
    kind("T3 two tags of an ID", &[(302, 4, 4)], |r, s| two_of_a_scope(r, &mut s.tables.tags, &[3])),
    kind("T3 other of a tag's ID", &[(302, 5, 4)], other_of_tag_id),
    kind("T3 two others of an ID", &[(302, 5, 5)], |r, s| two_of_a_scope(r, &mut s.tables.others, &[3])),
    // the tag moves to the other's scope, where its name may be taken
    kind("T3 a tag of another scope", &[(302, 4, 4), (203, 4, 4), (203, 5, 4)], tag_of_another_scope),
    kind("T4 size 0", &[(401, 1, 0)], |r, s| field(r, &mut s.tables.structures, 4, &[0])),
    kind("T4 size 65,536", &[(401, 1, 0)], |r, s| field(r, &mut s.tables.structures, 4, &[65_536, u32::MAX])),
    kind("T4 template past the store", &[(402, 1, 0)], template_outside),
    kind("T4 bit 9", &[(403, 2, 0)], |r, s| field(r, &mut s.tables.members, 5, &[9, u32::MAX])),
    kind("T4 not an earlier structure", &[(404, 2, 1)], later_member),
    kind("T4 member outside", &[(405, 2, 1)], member_outside),
    kind("T4 member array outside", &[(405, 2, 1)], member_array_outside),
    kind("T5 no type", &[(501, 4, 0)], |r, s| field(r, &mut s.tables.tags, 4, &NO_TYPES)),
    kind("T5 no structure", &[(501, 4, 0)], |r, s| {
        no_structure(r, s.tables.structures.len(), &mut s.tables.tags, 4)
    }),
    kind("T5 a zero first", &[(502, 4, 0)], |r, s| lengths(r, s, |[a, _, c]| [0, a.max(1), c])),
    kind("T5 a zero between", &[(502, 4, 0)], |r, s| lengths(r, s, |[a, _, _]| [a, 0, a.max(1)])),
    kind("T5 one element more", &[(503, 4, 0)], |r, s| more(r, &mut s.tables.tags, 8, 1)),
    kind("T5 no elements", &[(503, 4, 0)], |r, s| field(r, &mut s.tables.tags, 8, &[0])),
    kind("T5 a 32nd of another type", &[(503, 4, 0)], thirty_second),
    kind("T5 a product past 32 bits", &[(503, 4, 0)], long_product),
    kind("T6 no tag memory", &[(601, 4, 0)], |_, s| s.memory.truncate(0).into()),
    kind("T6 past tag memory", &[(601, 4, 0)], past_memory),
    kind("T6 far past tag memory", &[(601, 4, 0)], |r, s| field(r, &mut s.tables.tags, 11, &[65_536, u32::MAX])),
    kind("T6 shared bytes", &[(602, 4, 4)], shared_bytes),
    // its further bytes may end past tag memory
    kind("T6 a shared byte", &[(602, 4, 4), (601, 4, 0)], shared_byte),
    kind("encoding: structure name", &[(1, 1, 0)], |r, s| name_outside(r, s, 1)),
    kind("encoding: member name", &[(1, 2, 0)], |r, s| name_outside(r, s, 2)),
    kind("encoding: program name", &[(1, 3, 0)], |r, s| name_outside(r, s, 3)),
    kind("encoding: tag name", &[(1, 4, 0)], |r, s| name_outside(r, s, 4)),
    kind("encoding: other name", &[(1, 5, 0)], |r, s| name_outside(r, s, 5)),
    kind("encoding: tag scope", &[(2, 4, 0)], |r, s| scope(r, s.tables.programs.len(), &mut s.tables.tags)),
    kind("encoding: other scope", &[(2, 5, 0)], |r, s| scope(r, s.tables.programs.len(), &mut s.tables.others)),
    kind("encoding: member type", &[(3, 2, 0)], |r, s| field(r, &mut s.tables.members, 2, &NO_TYPES)),
    kind("encoding: member of no structure", &[(3, 2, 0)], |r, s| {
        no_structure(r, s.tables.structures.len(), &mut s.tables.members, 2)
    }),
    kind("encoding: template ID", &[(4, 1, 0)], |r, s| field(r, &mut s.tables.structures, 2, &WIDE)),
    kind("encoding: handle", &[(5, 1, 0)], |r, s| field(r, &mut s.tables.structures, 3, &WIDE)),
    kind("encoding: symbol type", &[(6, 5, 0)], |r, s| field(r, &mut s.tables.others, 4, &WIDE)),
    kind("encoding: members past the table", &[(7, 1, 0)], members_outside),
    kind("encoding: members far past it", &[(7, 1, 0)], |r, s| field(r, &mut s.tables.structures, 5, &[u32::MAX])),
    kind("encoding: very many members", &[(7, 1, 0)], |r, s| {
        field(r, &mut s.tables.structures, 6, &[513, u32::MAX])
    }),
    kind("encoding: AOI mark", &[(8, 1, 0)], |r, s| field(r, &mut s.tables.structures, 7, &NO_MARKS)),
    kind("encoding: hidden mark", &[(9, 2, 0)], |r, s| field(r, &mut s.tables.members, 6, &NO_MARKS)),
    kind("encoding: local mark", &[(10, 2, 0)], |r, s| field(r, &mut s.tables.members, 7, &NO_MARKS)),
    kind("encoding: alias mark", &[(11, 4, 0)], |r, s| field(r, &mut s.tables.tags, 10, &NO_MARKS)),
];

/// Those that take many rows or bytes.
static LONG_BREAKS: [Kind; 3] = [
    kind("T1 tags", &[(101, 4, 0)], |_, s| tags(s)),
    kind("T1 tag memory", &[(101, 6, 0)], |_, s| s.memory.resize(65_537, 0).into()),
    kind("T1 template store", &[(101, 7, 0)], |_, s| s.tables.templates.resize(65_537, 0).into()),
];

const NO_TYPES: [u32; 8] = [0, 0xC0, 0xCC, 0xD0, 0xD5, 0xFF, 0x140, u32::MAX];
const NO_MARKS: [u32; 3] = [2, 0x100, u32::MAX];
/// More than 16 bits.
const WIDE: [u32; 2] = [0x1_0000, u32::MAX];

fn any_kind(rng: &mut Rng, long: bool) -> &'static Kind {
    match long && rng.chance(5) {
        true => rng.pick(&LONG_BREAKS),
        false => rng.pick(&BREAKS),
    }
}

/// Breaks a copy of a set in one place (17 programs are always possible, so this ends).
pub fn broken(rng: &mut Rng, set: &Set, long: bool) -> (&'static Kind, Set) {
    loop {
        let kind = any_kind(rng, long);
        let mut copy = set.clone();
        let done = (kind.apply)(rng, &mut copy).is_some();
        if done && crate::valid::valid(&copy.tables, &copy.memory).is_err() {
            return (kind, copy);
        }
    }
}

/// Breaks a set in so many places, one on top of the other, now and then two in the same way, so that the order of rows
/// matters; the kinds, None where some word became another number, which may well break nothing.
pub fn break_places(rng: &mut Rng, set: &mut Set, places: u32) -> Vec<Option<&'static Kind>> {
    let mut kinds = Vec::new();
    while kinds.len() < places as usize {
        let kind = match kinds.last() {
            Some(&last) if rng.chance(30) => last,
            _ => (!rng.chance(20)).then(|| any_kind(rng, true)),
        };
        let apply = kind.map_or(any_word as Break, |kind| kind.apply);
        if apply(rng, set).is_some() {
            kinds.push(kind);
        }
    }
    kinds
}

// ---- rows and words

fn row<'a, T>(rng: &mut Rng, rows: &'a mut [T]) -> Option<&'a mut T> {
    let index = rng.below(rows.len() as u32) as usize;
    rows.get_mut(index)
}

/// Gives a word of some row one of these values.
fn field<const N: usize>(rng: &mut Rng, rows: &mut [[u32; N]], at: usize, values: &[u32]) -> Option<()> {
    row(rng, rows)?[at] = *rng.pick(values);
    Some(())
}

fn more<const N: usize>(rng: &mut Rng, rows: &mut [[u32; N]], at: usize, by: u32) -> Option<()> {
    let word = &mut row(rng, rows)?[at];
    *word = word.wrapping_add(by);
    Some(())
}

/// Any word of any row becomes another number.
fn any_word(rng: &mut Rng, set: &mut Set) -> Option<()> {
    const NUMBERS: [u32; 16] = [0, 1, 2, 3, 4, 8, 9, 17, 41, 0xC1, 0xD3, 0x100, 0x102, 0xFFFF, 0x1_0000, u32::MAX];
    let value = if rng.chance(70) { *rng.pick(&NUMBERS) } else { rng.next() as u32 };
    let t = &mut set.tables;
    let words: &mut [u32] = match rng.below(5) {
        0 => row(rng, &mut t.structures)?,
        1 => row(rng, &mut t.members)?,
        2 => row(rng, &mut t.programs)?,
        3 => row(rng, &mut t.tags)?,
        _ => row(rng, &mut t.others)?,
    };
    *row(rng, words)? = value;
    Some(())
}

/// The numbers of two rows, the second one of those that are like the first.
fn two_rows<T>(rng: &mut Rng, rows: &[T], like: impl Fn(&T, &T) -> bool) -> Option<(usize, usize)> {
    let a = rng.below(rows.len() as u32) as usize;
    let first = rows.get(a)?;
    let others: Vec<usize> = (0..rows.len()).filter(|&b| b != a && like(first, &rows[b])).collect();
    (!others.is_empty()).then(|| (a, *rng.pick(&others)))
}

/// Gives a row these words of another one of its scope.
fn two_of_a_scope<const N: usize>(rng: &mut Rng, rows: &mut [[u32; N]], words: &[usize]) -> Option<()> {
    let (a, b) = two_rows(rng, rows, |a, b| a[0] == b[0])?;
    for &at in words {
        rows[a][at] = rows[b][at];
    }
    Some(())
}

fn scope<const N: usize>(rng: &mut Rng, programs: usize, rows: &mut [[u32; N]]) -> Option<()> {
    field(rng, rows, 0, &[programs as u32 + 1, 17, u32::MAX])
}

fn no_structure<const N: usize>(rng: &mut Rng, structures: usize, rows: &mut [[u32; N]], at: usize) -> Option<()> {
    field(rng, rows, at, &[0x100 + structures as u32])
}

// ---- too many

fn many<T: Clone>(rows: &mut Vec<T>, count: usize) -> Option<()> {
    let last = rows.last()?.clone();
    rows.resize(count, last);
    Some(())
}

/// Seventeen programs whose names differ.
fn programs(set: &mut Set) -> Option<()> {
    let t = &mut set.tables;
    while t.programs.len() < 17 {
        t.programs.push([t.names.len() as u32, 4]);
        let name = [b'q', b'a' + t.programs.len() as u8, b'!', b'7'];
        t.names.extend(name);
    }
    Some(())
}

/// 1,025 tags, the new ones of a byte each, whose names and IDs differ.
fn tags(set: &mut Set) -> Option<()> {
    let t = &mut set.tables;
    for id in (0x7000_0000..).take(1025_usize.saturating_sub(t.tags.len())) {
        let name = format!("~{id:X}~");
        let (start, offset) = (t.tag_names.len() as u32, set.memory.len() as u32);
        t.tags.push([0, start, name.len() as u32, id, 0xC1, 0, 0, 0, 1, 0, 0, offset]);
        t.tag_names.extend(name.into_bytes());
        set.memory.push(0);
    }
    Some(())
}

fn others(set: &mut Set) -> Option<()> {
    let t = &mut set.tables;
    let like = *t.others.first()?;
    for id in (0x5000..).take(65_usize.saturating_sub(t.others.len())) {
        t.others.push([like[0], like[1], like[2], id, 0]);
    }
    Some(())
}

// ---- names

/// A name of some row of a table: the words of its start and its length, and its store.
fn a_name<'a>(rng: &mut Rng, t: &'a mut Tables, table: u64) -> Option<(&'a mut [u32], &'a mut Vec<u8>)> {
    Some(match table {
        1 => (&mut row(rng, &mut t.structures)?[..2], &mut t.names),
        2 => (&mut row(rng, &mut t.members)?[..2], &mut t.names),
        3 => (&mut row(rng, &mut t.programs)?[..2], &mut t.names),
        4 => (&mut row(rng, &mut t.tags)?[1..3], &mut t.tag_names),
        _ => (&mut row(rng, &mut t.others)?[1..3], &mut t.names),
    })
}

fn empty_name(rng: &mut Rng, set: &mut Set, table: u64) -> Option<()> {
    a_name(rng, &mut set.tables, table)?.0[1] = 0;
    Some(())
}

/// Gives some row of a table a name of its own.
fn rename(rng: &mut Rng, set: &mut Set, table: u64, name: &[u8]) -> Option<()> {
    let (words, store) = a_name(rng, &mut set.tables, table)?;
    words.copy_from_slice(&[store.len() as u32, name.len() as u32]);
    store.extend(name);
    Some(())
}

fn long_name(rng: &mut Rng, set: &mut Set, table: u64) -> Option<()> {
    let mut name = vec![b'n'; *rng.pick(&[41, 42, 48, 300])];
    let starts: &[&[u8]] = match table {
        5 => &[b"", b"Map:", b"Program", b"Programs:", b" Task:", b"xProgram:", b"Routine;"],
        _ => &[b"", b"", b"Program:", b"Task:"],
    };
    let start = *rng.pick(starts);
    name[..start.len()].copy_from_slice(start);
    rename(rng, set, table, &name)
}

/// A prefix of an other symbol's name and these bytes behind it.
fn prefixed(rng: &mut Rng, rest: &[u8]) -> Vec<u8> {
    let prefix = *rng.pick(&PREFIXES);
    [&rng.recase(prefix), rest].concat()
}

fn long_behind(rng: &mut Rng, set: &mut Set) -> Option<()> {
    let rest = vec![b'n'; *rng.pick(&[41, 42, 43, 48, 300])];
    let name = prefixed(rng, &rest);
    rename(rng, set, 5, &name)
}

/// A byte behind a prefix, often behind the 40th of the name, is odd.
fn odd_behind(rng: &mut Rng, set: &mut Set) -> Option<()> {
    let mut rest = vec![b'n'; *rng.pick(&[1, 34, 36, 39, 40])];
    *rest.last_mut()? = odd(rng);
    let name = prefixed(rng, &rest);
    rename(rng, set, 5, &name)
}

/// No byte of a name.
fn odd(rng: &mut Rng) -> u8 {
    *rng.pick(&[0x00, 0x1F, 0x7F, 0x80, 0xFF])
}

fn odd_name(rng: &mut Rng, set: &mut Set, table: u64) -> Option<()> {
    let mut name = vec![b'n'; rng.within(1, 40) as usize];
    *row(rng, &mut name)? = odd(rng);
    rename(rng, set, table, &name)
}

/// Makes a byte odd where it stands: further names may have it too.
fn odd_byte(rng: &mut Rng, set: &mut Set, tables: &[u64]) -> Option<()> {
    let table = *rng.pick(tables);
    let (words, store) = a_name(rng, &mut set.tables, table)?;
    let at = words[0] as usize + rng.below(words[1]) as usize;
    *store.get_mut(at)? = odd(rng);
    Some(())
}

/// A name that runs past its store, by a byte or far.
fn name_outside(rng: &mut Rng, set: &mut Set, table: u64) -> Option<()> {
    let (words, store) = a_name(rng, &mut set.tables, table)?;
    let (end, start, length) = (store.len() as u32, words[0], words[1]);
    let past = end.wrapping_sub(start).wrapping_add(1);
    let ways = [[start, past], [end, 1], [end + 1, 0], [u32::MAX, length], [start, u32::MAX]];
    words.copy_from_slice(&ways[rng.below(5) as usize]);
    Some(())
}

fn two_programs(rng: &mut Rng, set: &mut Set) -> Option<()> {
    let rows = &mut set.tables.programs;
    let (a, b) = two_rows(rng, rows, |_, _| true)?;
    rows[a] = rows[b];
    Some(())
}

fn tag_named_as_tag(rng: &mut Rng, set: &mut Set) -> Option<()> {
    let t = &mut set.tables;
    let (a, b) = two_rows(rng, &t.tags, |a, b| a[0] == b[0])?;
    let name = rng.recase(t.tag_name(&t.tags[b]));
    (t.tags[a][1], t.tags[a][2]) = (t.tag_names.len() as u32, name.len() as u32);
    t.tag_names.extend(name);
    Some(())
}

fn other_named_as_tag(rng: &mut Rng, set: &mut Set) -> Option<()> {
    let t = &mut set.tables;
    let tag = *row(rng, &mut t.tags)?;
    let name = rng.recase(t.tag_name(&tag));
    let other = row(rng, &mut t.others)?;
    (other[0], other[1], other[2]) = (tag[0], t.names.len() as u32, name.len() as u32);
    t.names.extend(name);
    Some(())
}

// ---- IDs

/// Gives another symbol the ID of a tag of its scope.
fn other_of_tag_id(rng: &mut Rng, set: &mut Set) -> Option<()> {
    let t = &mut set.tables;
    let other = row(rng, &mut t.others)?;
    let ids: Vec<u32> = t.tags.iter().filter(|tag| tag[0] == other[0]).map(|tag| tag[3]).collect();
    other[3] = *(!ids.is_empty()).then(|| rng.pick(&ids))?;
    Some(())
}

/// Gives a tag the scope and the ID of a tag of another scope.
fn tag_of_another_scope(rng: &mut Rng, set: &mut Set) -> Option<()> {
    let rows = &mut set.tables.tags;
    let (a, b) = two_rows(rng, rows, |a, b| a[0] != b[0])?;
    (rows[a][0], rows[a][3]) = (rows[b][0], rows[b][3]);
    Some(())
}

// ---- structures and members

fn template_outside(rng: &mut Rng, set: &mut Set) -> Option<()> {
    let length = set.tables.templates.len() as u32;
    let s = row(rng, &mut set.tables.structures)?;
    let past = length.wrapping_sub(s[8]).wrapping_add(1);
    (s[8], s[9]) = *rng.pick(&[(s[8], past), (length + 1, 0), (u32::MAX, 1), (s[8], u32::MAX)]);
    Some(())
}

fn members_outside(rng: &mut Rng, set: &mut Set) -> Option<()> {
    let count = set.tables.members.len() as u32;
    let s = row(rng, &mut set.tables.structures)?;
    let past = count.wrapping_sub(s[5]).wrapping_add(1);
    (s[5], s[6]) = *rng.pick(&[(s[5], past), (count, 1), (count + 1, 0)]);
    Some(())
}

/// A structure's member, by the number of both.
fn a_member(rng: &mut Rng, t: &Tables) -> Option<(usize, usize)> {
    let s = rng.below(t.structures.len() as u32) as usize;
    let row = t.structures.get(s).filter(|row| row[6] > 0)?;
    let m = row[5] as usize + rng.below(row[6]) as usize;
    (m < t.members.len()).then_some((s, m))
}

/// A member that ends a byte behind its structure.
fn member_outside(rng: &mut Rng, set: &mut Set) -> Option<()> {
    let t = &mut set.tables;
    let (s, m) = a_member(rng, t)?;
    let bytes = u64::from(t.size(t.members[m][2])?) * u64::from(t.members[m][3].max(1));
    t.members[m][4] = (u64::from(t.structures[s][4]) + 1).saturating_sub(bytes) as u32;
    Some(())
}

/// A member of so many elements that its bytes do not fit in 32 bits, or nearly.
fn member_array_outside(rng: &mut Rng, set: &mut Set) -> Option<()> {
    let (_, m) = a_member(rng, &set.tables)?;
    set.tables.members[m][3] = *rng.pick(&[0x1_0000, 0x2000_0001, 0x4000_0000, 0x8000_0000, u32::MAX]);
    Some(())
}

/// A member of its own structure's type, or of a later one's.
fn later_member(rng: &mut Rng, set: &mut Set) -> Option<()> {
    let t = &mut set.tables;
    let (s, m) = a_member(rng, t)?;
    let ty = 0x100 + rng.within(s as u32, t.structures.len() as u32 - 1);
    (t.members[m][2], t.members[m][3], t.members[m][4]) = (ty, 0, 0);
    Some(())
}

// ---- lengths and bytes of tags

fn lengths(rng: &mut Rng, set: &mut Set, change: fn([u32; 3]) -> [u32; 3]) -> Option<()> {
    let tag = row(rng, &mut set.tables.tags)?;
    [tag[5], tag[6], tag[7]] = change([tag[5], tag[6], tag[7]]);
    Some(())
}

/// 32k lengths with k elements, of a type other than DWORD.
fn thirty_second(rng: &mut Rng, set: &mut Set) -> Option<()> {
    let tag = row(rng, &mut set.tables.tags)?;
    if tag[4] == DWORD {
        return None;
    }
    (tag[5], tag[6], tag[7]) = (tag[8].wrapping_mul(32), 0, 0);
    Some(())
}

/// Lengths whose product has the element count as its low 32 bits.
fn long_product(rng: &mut Rng, set: &mut Set) -> Option<()> {
    let tag = row(rng, &mut set.tables.tags)?;
    let ([a, b, c], elements) =
        *rng.pick(&[([0x8000_0001, 2, 0], 2), ([3, 0x5555_5557, 1], 5), ([0x1_0000, 0x1_0000, 7], 0)]);
    (tag[5], tag[6], tag[7], tag[8]) = (a, b, c, elements);
    Some(())
}

/// All bytes of a tag.
fn bytes_of(t: &Tables, tag: &[u32; 12]) -> u64 {
    u64::from(t.size(tag[4]).unwrap_or(0)) * u64::from(tag[8])
}

/// A tag that ends a byte behind tag memory.
fn past_memory(rng: &mut Rng, set: &mut Set) -> Option<()> {
    let a = rng.below(set.tables.tags.len() as u32) as usize;
    let bytes = bytes_of(&set.tables, set.tables.tags.get(a)?);
    set.tables.tags[a][11] = (set.memory.len() as u64 + 1).saturating_sub(bytes) as u32;
    Some(())
}

/// Puts the shorter of two tags where the longer one starts.
fn shared_bytes(rng: &mut Rng, set: &mut Set) -> Option<()> {
    let t = &mut set.tables;
    let (a, b) = two_rows(rng, &t.tags, |_, _| true)?;
    let longer = bytes_of(t, &t.tags[a]) > bytes_of(t, &t.tags[b]);
    let (short, long) = if longer { (b, a) } else { (a, b) };
    t.tags[short][11] = t.tags[long][11];
    Some(())
}

/// Puts a tag on the last byte of another.
fn shared_byte(rng: &mut Rng, set: &mut Set) -> Option<()> {
    let t = &mut set.tables;
    let (a, b) = two_rows(rng, &t.tags, |_, _| true)?;
    let end = u64::from(t.tags[b][11]).wrapping_add(bytes_of(t, &t.tags[b]));
    t.tags[a][11] = end.wrapping_sub(1) as u32;
    Some(())
}
