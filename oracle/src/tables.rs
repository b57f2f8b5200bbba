//! Generates table sets that are valid by T1 to T6: mostly small, and rich in what the services tell apart.

use crate::rng::Rng;
use crate::valid::other_length;
use ciplink_sim::rows::{DWORD, Flags, Tables};
use std::collections::BTreeSet;

#[derive(Clone, Debug)]
pub struct Set {
    pub tables: Tables,
    pub flags: Flags,
    pub memory: Vec<u8>,
}

pub const ATOMICS: [u32; 15] =
    [0xC1, 0xC2, 0xC3, 0xC4, 0xC5, 0xC6, 0xC7, 0xC8, 0xC9, 0xCA, 0xCB, 0xD1, 0xD2, 0xD3, 0xD4];

/// Few names, so that scopes, members and requests meet the same ones.
const WORDS: [&str; 16] = [
    "A",
    "b",
    "Count",
    "Rows",
    "Cell",
    "Run",
    "Main",
    "Aux",
    "x1",
    "Local:1:I",
    "Program:Main",
    "program:",
    "Program:Aux",
    "[1]",
    "@Z`{",
    " ~",
];
const IDS: [u32; 9] = [1, 2, 3, 0xFE, 0x100, 0xFFFF, 0x1_0000, 0xFFFF_FFFE, 0xFFFF_FFFF];
/// How large the tables of a set may get; a list has the numbers that one is taken from.
pub struct Size {
    structures: &'static [u32],
    /// Bytes of a structure.
    bytes: &'static [u32],
    /// Members in all, and of one structure.
    members: (u32, u32),
    /// Bytes of the template store.
    templates: &'static [u32],
    programs: &'static [u32],
    tags: &'static [u32],
    /// Fewer other symbols than this.
    others: u32,
    /// The tags' bytes together.
    memory: u32,
    /// Bytes of a long array; 0: there is none, and names are not numbered.
    long: u32,
}

pub const SMALL: Size = Size {
    structures: &[0, 1, 1, 2, 2, 3, 3, 4],
    bytes: &[1, 2, 4, 8, 12, 16, 20, 24, 36, 5, 7],
    members: (10, 6),
    templates: &[0, 8, 30, 61, 90],
    programs: &[0, 1, 2, 2, 3, 3],
    tags: &[0, 1, 2, 3, 4, 5, 5, 6, 6, 7, 7, 8, 9, 9, 10, 12],
    others: 7,
    memory: 200,
    long: 0,
};
pub const MEDIUM: Size = Size {
    structures: &[4, 8, 12],
    bytes: &[4, 8, 12, 16, 20, 36, 7, 88, 200],
    members: (60, 12),
    templates: &[90, 600, 3000],
    programs: &[2, 5],
    tags: &[30, 60, 100],
    others: 20,
    memory: 4000,
    long: 1000,
};
/// Up to the bounds of T1.
pub const LARGE: Size = Size {
    structures: &[40, 64],
    bytes: &[1, 2, 4, 4, 4, 8, 8, 12, 12, 16, 20, 5, 7, 36, 88, 400, 65_535],
    members: (512, 20),
    templates: &[5000, 65_536],
    programs: &[9, 16, 16],
    tags: &[600, 1500, 3000, 3000],
    others: 65,
    memory: 65_536,
    long: 4500,
};

/// A small set.
pub fn set(rng: &mut Rng) -> Set {
    sized(rng, &SMALL)
}

pub fn sized(rng: &mut Rng, size: &Size) -> Set {
    let mut tables = Tables::default();
    structures(rng, &mut tables, size);
    templates(rng, &mut tables, size);
    programs(rng, &mut tables, size);
    tags(rng, &mut tables, size);
    let length = place(rng, &mut tables, size);
    others(rng, &mut tables, size);
    let flags = Flags {
        multi_service: rng.chance(85),
        instance_ids: rng.chance(80),
        aoi_locals_refused: rng.chance(60),
        micro800: rng.chance(12),
    };
    let memory = rng.bytes(length);
    Set { tables, flags, memory }
}

pub fn name(rng: &mut Rng) -> Vec<u8> {
    let word = rng.pick(&WORDS).as_bytes().to_vec();
    match rng.below(20) {
        0..=12 => word,
        13..=16 => [word, rng.below(10).to_string().into_bytes()].concat(),
        17 => printable(rng, 40),
        _ => {
            let length = rng.within(1, 8);
            printable(rng, length)
        }
    }
}

/// A name; in larger tables mostly with a number behind it, since so many have to differ.
fn new_name(rng: &mut Rng, size: &Size) -> Vec<u8> {
    let mut word = name(rng);
    if size.long > 0 && rng.chance(85) {
        word.truncate(36);
        word.extend(rng.below(5000).to_string().into_bytes());
    }
    word
}

fn printable(rng: &mut Rng, length: u32) -> Vec<u8> {
    (0..length).map(|_| rng.within(0x20, 0x7E) as u8).collect()
}

/// Puts a name into a store: now and then over bytes that another name has, or behind a gap.
fn keep(rng: &mut Rng, store: &mut Vec<u8>, name: &[u8]) -> [u32; 2] {
    let found = store.windows(name.len()).position(|w| w == name);
    if let Some(at) = found.filter(|_| rng.chance(50)) {
        return [at as u32, name.len() as u32];
    }
    if rng.chance(10) {
        let gap = rng.within(1, 3);
        store.extend(rng.bytes(gap));
    }
    store.extend(name);
    [(store.len() - name.len()) as u32, name.len() as u32]
}

fn access(rng: &mut Rng) -> u32 {
    if rng.chance(75) { 0 } else { rng.within(1, 3) }
}

fn mark(rng: &mut Rng, percent: u32) -> u32 {
    u32::from(rng.chance(percent))
}

fn structures(rng: &mut Rng, t: &mut Tables, sizes: &Size) {
    let ids = [0x100, 0x101, 0xFCE, rng.below(0x1_0000), 0xFFFF, 0];
    let (most, of_one) = sizes.members;
    for index in 0..*rng.pick(sizes.structures) {
        let word = name(rng);
        let [start, length] = keep(rng, &mut t.names, &word);
        let size = *rng.pick(sizes.bytes);
        let aoi = mark(rng, 35);
        let (first, count) = shared(rng, t, size).unwrap_or_else(|| {
            let first = t.members.len() as u32;
            let room = most - first.min(most);
            for _ in 0..rng.below(room.min(of_one) + 1) {
                let row = member(rng, t, index, size, first, aoi);
                t.members.push(row);
            }
            (first, t.members.len() as u32 - first)
        });
        let handle = if rng.chance(10) { 0x02A0 } else { rng.below(0x1_0000) };
        let id = match sizes.long > 0 && rng.chance(70) {
            true => rng.below(0x1_0000),
            false => *rng.pick(&ids),
        };
        let row = [start, length, id, handle, size, first, count, aoi, 0, 0];
        t.structures.push(row);
    }
    if rng.chance(10) && t.members.len() < most as usize {
        // a member of no structure
        let row = member(rng, t, 0, 8, t.members.len() as u32, 0);
        t.members.push(row);
    }
}

/// Now and then a structure takes members of an earlier one, where they lie inside it too.
fn shared(rng: &mut Rng, t: &Tables, size: u32) -> Option<(u32, u32)> {
    if t.structures.is_empty() || !rng.chance(8) {
        return None;
    }
    let from = rng.pick(&t.structures);
    let rows = &t.members[from[5] as usize..][..from[6] as usize];
    let end = |m: &[u32; 9]| m[4] + size_of(t, m[2]) * m[3].max(1);
    rows.iter().all(|m| end(m) <= size).then_some((from[5], from[6]))
}

/// A member of structure `index`, which has `size` bytes and members from `first` on.
fn member(rng: &mut Rng, t: &mut Tables, index: u32, size: u32, first: u32, aoi: u32) -> [u32; 9] {
    let bit = if rng.chance(35) { rng.below(8) } else { 8 };
    let mut ty = match rng.below(10) {
        0..=3 if index > 0 => 0x100 + rng.below(index),
        _ if bit < 8 && rng.chance(70) => 0xC1,
        _ => *rng.pick(&ATOMICS),
    };
    let mut array = *rng.pick(&[0, 0, 0, 1, 2, 3, 4]);
    if size_of(t, ty) * array.max(1) > size {
        array = 0;
    }
    if size_of(t, ty) > size {
        ty = *rng.pick(&[0xC1, 0xC2, 0xC6, 0xD1]);
    }
    let bytes = size_of(t, ty) * array.max(1);
    let earlier = &t.members[first as usize..];
    let word = match earlier.is_empty() || rng.chance(80) {
        true => name(rng),
        false => {
            let like = rng.pick(earlier);
            let like = t.name(like[0], like[1]).to_vec();
            rng.recase(&like)
        }
    };
    let [start, length] = keep(rng, &mut t.names, &word);
    let offset = rng.below(size - bytes + 1);
    let local = mark(rng, 10 + 25 * aoi);
    [start, length, ty, array, offset, bit, mark(rng, 12), local, access(rng)]
}

fn templates(rng: &mut Rng, t: &mut Tables, size: &Size) {
    let length = *rng.pick(size.templates);
    t.templates = rng.bytes(length);
    for s in &mut t.structures {
        s[8] = rng.below(length + 1);
        s[9] = if rng.chance(60) { length - s[8] } else { rng.below(length - s[8] + 1) };
    }
}

fn programs(rng: &mut Rng, t: &mut Tables, size: &Size) {
    let mut taken = BTreeSet::new();
    for _ in 0..*rng.pick(size.programs) {
        let word = match rng.below(3) {
            0 => name(rng),
            1 if size.long > 0 => new_name(rng, size),
            _ => rng.pick(&["Main", "Aux", "P", "program:", "A"]).as_bytes().to_vec(),
        };
        if taken.insert(word.to_ascii_lowercase()) {
            let row = keep(rng, &mut t.names, &word);
            t.programs.push(row);
        }
    }
}

fn lengths(rng: &mut Rng) -> Vec<u32> {
    let count = *rng.pick(&[0, 0, 0, 1, 1, 2, 3]);
    (0..count).map(|_| if count == 1 { rng.within(1, 9) } else { rng.within(1, 5) }).collect()
}

/// A type, the lengths and the element count of a tag.
fn tag_type(rng: &mut Rng, t: &Tables, size: &Size) -> (u32, Vec<u32>, u32) {
    if size.long > 0 && rng.chance(1) {
        let ty = *rng.pick(&ATOMICS);
        let elements = rng.within(1, size.long / size_of(t, ty));
        return (ty, vec![elements], elements);
    }
    let mut lengths = lengths(rng);
    let ty = match rng.below(10) {
        0..=3 if !t.structures.is_empty() => 0x100 + rng.below(t.structures.len() as u32),
        4 | 5 => DWORD,
        _ => *rng.pick(&ATOMICS),
    };
    if ty == DWORD && lengths.len() == 1 && rng.chance(65) {
        let words = rng.within(1, 3);
        let elements = if rng.chance(85) { words } else { 32 };
        return (ty, vec![if elements == 32 { 32 } else { 32 * words }], elements);
    }
    if size_of(t, ty) * lengths.iter().product::<u32>() > 64 {
        lengths = lengths.iter().map(|&d| d.min(2)).collect();
    }
    let elements = lengths.iter().product();
    (ty, lengths, elements)
}

fn new_id(rng: &mut Rng, taken: &mut BTreeSet<(u32, u32)>, scope: u32) -> u32 {
    loop {
        let id = match rng.below(4) {
            0 => *rng.pick(&IDS),
            1 => rng.next() as u32,
            _ => rng.within(1, 30),
        };
        if id != 0 && taken.insert((scope, id)) {
            return id;
        }
    }
}

fn tags(rng: &mut Rng, t: &mut Tables, size: &Size) {
    let (mut ids, mut taken, mut bytes) = (BTreeSet::new(), BTreeSet::new(), 0);
    for _ in 0..*rng.pick(size.tags) {
        let (ty, lengths, elements) = tag_type(rng, t, size);
        let more = size_of(t, ty) * elements;
        let scope = if rng.chance(60) { 0 } else { rng.below(t.programs.len() as u32 + 1) };
        let word = new_name(rng, size);
        let full = t.tags.len() == 1024 || bytes + more > size.memory;
        if full || !taken.insert((scope, word.to_ascii_lowercase())) {
            continue;
        }
        bytes += more;
        let [start, length] = keep(rng, &mut t.tag_names, &word);
        let id = new_id(rng, &mut ids, scope);
        let d = |i: usize| lengths.get(i).copied().unwrap_or(0);
        let (access, alias) = (access(rng), mark(rng, 15));
        t.tags.push([scope, start, length, id, ty, d(0), d(1), d(2), elements, access, alias, 0]);
    }
}

/// Gives each tag its bytes, in another order than the table's, some adjacent, some behind a gap.
fn place(rng: &mut Rng, t: &mut Tables, size: &Size) -> u32 {
    let mut order: Vec<usize> = (0..t.tags.len()).collect();
    rng.shuffle(&mut order);
    // where the bounds of T1 leave no room for a gap, there is none
    let bytes_of = |t: &Tables, i: usize| size_of(t, t.tags[i][4]) * t.tags[i][8];
    let all: u32 = order.iter().map(|&i| bytes_of(t, i)).sum();
    let gaps = size.memory < LARGE.memory || all + 3 * order.len() as u32 + 4 <= LARGE.memory;
    let mut at = 0;
    for index in order {
        at += *rng.pick(&[0, 0, 0, 1, 3]) * u32::from(gaps);
        t.tags[index][11] = at;
        at += bytes_of(t, index);
    }
    at + *rng.pick(&[0, 0, 1, 4]) * u32::from(gaps)
}

/// A name as tags have them, or a program's, mostly with its prefix, or up to 48 bytes behind what is a prefix or nearly one: more than it may have too.
fn other_name(rng: &mut Rng, t: &Tables) -> Vec<u8> {
    if rng.chance(30) {
        return name(rng);
    }
    if !t.programs.is_empty() && rng.chance(50) {
        let p = rng.pick(&t.programs);
        let plain = t.name(p[0], p[1]).to_vec();
        let prefix: &[u8] = if rng.chance(80) { b"Program:" } else { b"" };
        return rng.recase(&[prefix, &plain].concat());
    }
    let start = *rng.pick(&STARTS);
    let length = *rng.pick(&[0, 1, 5, 32, 33, 35, 36, 40, 40, 41, 43]);
    let rest = printable(rng, length);
    [rng.recase(start), rest].concat()
}

const STARTS: [&[u8]; 10] =
    [b"Program:", b"Program:", b"Routine:", b"Routine:", b"Task:", b"Task:", b"Map:", b"Programs:", b" Task:", b"Program"];

/// The names of other symbols that have more than 40 bytes.
pub fn long_names(t: &Tables) -> Vec<&[u8]> {
    t.others.iter().map(|o| t.name(o[1], o[2])).filter(|name| name.len() > 40).collect()
}

fn others(rng: &mut Rng, t: &mut Tables, size: &Size) {
    let mut ids: BTreeSet<(u32, u32)> = t.tags.iter().map(|r| (r[0], r[3])).collect();
    let tag_names: BTreeSet<(u32, Vec<u8>)> =
        t.tags.iter().map(|r| (r[0], t.tag_name(r).to_ascii_lowercase())).collect();
    for _ in 0..rng.below(size.others) {
        let scope = if rng.chance(75) { 0 } else { rng.below(t.programs.len() as u32 + 1) };
        let word = other_name(rng, t);
        if !other_length(&word) || tag_names.contains(&(scope, word.to_ascii_lowercase())) {
            continue;
        }
        let [start, length] = keep(rng, &mut t.names, &word);
        let id = new_id(rng, &mut ids, scope);
        let ty = if rng.chance(50) { 0x1068 } else { rng.below(0x1_0000) };
        t.others.push([scope, start, length, id, ty]);
    }
}

/// The bytes of one element of a type word of these tables.
pub fn size_of(t: &Tables, ty: u32) -> u32 {
    t.size(ty).unwrap_or(0)
}
