//! Atomic values in tag memory, and the ways through the tables that lead to each: members lie on one another, and an array
//! is its first element to a masked write.

use crate::messages::Talk;
use crate::rng::Rng;
use crate::tables::size_of;
use ciplink_sim::rows::{DWORD, Tables};

/// What stands behind a tag's name: an element's indexes, or a member's name (its start and length in the store).
#[derive(Clone, Debug, PartialEq, Eq)]
pub enum Step {
    Element(Vec<u32>),
    Member(u32, u32),
}

pub type Way = Vec<Step>;

/// A value of a tag: its first byte in tag memory and its size.
#[derive(Clone, Copy)]
pub struct Target {
    pub tag: usize,
    pub start: u32,
    pub size: u32,
}

/// Longer ways are not looked for: their paths would not fit in a request.
const STEPS: usize = 8;
/// Nor are more places than these looked at for one target: structures in structures can have very many.
const PLACES: u32 = 300;

/// What some steps lead to: elements of a type from a byte on, of which none is chosen yet where there are lengths.
struct Place {
    ty: u32,
    lengths: Vec<u32>,
    start: u32,
}

impl Place {
    fn tag(row: &[u32; 12]) -> Place {
        let lengths = match Tables::lengths(row) {
            [_, ..] if row[4] == DWORD => vec![row[8]],
            lengths => lengths.to_vec(),
        };
        Place { ty: row[4], lengths, start: row[11] }
    }

    fn member(&self, row: &[u32; 9]) -> Place {
        let lengths = if row[3] > 0 { vec![row[3]] } else { Vec::new() };
        Place { ty: row[2], lengths, start: self.start + row[4] }
    }

    fn element(&self, t: &Tables, number: u32) -> Place {
        Place { ty: self.ty, lengths: Vec::new(), start: self.start + number * size_of(t, self.ty) }
    }

    fn elements(&self) -> u32 {
        self.lengths.iter().product()
    }

    fn atomic(&self) -> bool {
        self.ty < 0x100
    }
}

/// The members of a structure that their names find, without the bits.
fn members(t: &Tables, ty: u32) -> Vec<&[u32; 9]> {
    let s = &t.structures[(ty - 0x100) as usize];
    let shown = t.members[s[5] as usize..][..s[6] as usize].iter().filter(|m| m[6] == 0);
    let name = |m: &[u32; 9]| t.name(m[0], m[1]).to_ascii_lowercase();
    let mut taken = Vec::new();
    let mut first = |m: &&[u32; 9]| {
        let new = !taken.contains(&name(m));
        taken.push(name(m));
        new
    };
    shown.filter(|m| first(m)).filter(|m| m[5] == 8).collect()
}

/// Some value; None where there is no tag, or a structure without members was met.
pub fn target(t: &Tables, rng: &mut Rng) -> Option<Target> {
    let tag = rng.below(t.tags.len() as u32) as usize;
    let mut place = Place::tag(t.tags.get(tag)?);
    loop {
        let number = if rng.chance(40) { 0 } else { rng.below(place.elements()) };
        place = place.element(t, number);
        if place.atomic() {
            return Some(Target { tag, start: place.start, size: size_of(t, place.ty) });
        }
        let members = members(t, place.ty);
        if members.is_empty() {
            return None;
        }
        place = place.member(*rng.pick(&members));
    }
}

/// The ways to values of the target's first byte and size, of any type: some of them a masked write may not go.
pub fn ways(t: &Tables, target: Target) -> Vec<Way> {
    let mut search = Search { t, target, way: Vec::new(), ways: Vec::new(), left: PLACES };
    search.look(&Place::tag(&t.tags[target.tag]));
    search.ways
}

struct Search<'a> {
    t: &'a Tables,
    target: Target,
    way: Way,
    ways: Vec<Way>,
    /// Places that may still be looked at.
    left: u32,
}

impl Search<'_> {
    fn look(&mut self, place: &Place) {
        let size = size_of(self.t, place.ty);
        let Some(ahead) = self.target.start.checked_sub(place.start) else { return };
        let number = ahead / size;
        if self.left == 0 || number >= place.elements() {
            return;
        }
        self.left -= 1;
        if place.atomic() && ahead == 0 && size == self.target.size {
            self.ways.push(self.way.clone());
        }
        if !place.lengths.is_empty() {
            self.go(Step::Element(indexes(number, &place.lengths)), &place.element(self.t, number));
        } else if !place.atomic() {
            for m in members(self.t, place.ty) {
                self.go(Step::Member(m[0], m[1]), &place.member(m));
            }
        }
    }

    fn go(&mut self, step: Step, place: &Place) {
        if self.way.len() < STEPS {
            self.way.push(step);
            self.look(place);
            self.way.pop();
        }
    }
}

/// The indexes of an element, by its number.
fn indexes(mut number: u32, lengths: &[u32]) -> Vec<u32> {
    let mut out: Vec<u32> = Vec::new();
    for length in lengths.iter().rev() {
        out.insert(0, number % length);
        number /= length;
    }
    out
}

/// Whether two ways go by different members, which lie on one another.
pub fn by_other_members(a: &Way, b: &Way) -> bool {
    let members = |way: &Way| -> Vec<Step> { way.iter().filter(|s| matches!(s, Step::Member(..))).cloned().collect() };
    members(a) != members(b)
}

/// Whether two ways differ in the index of an array's first element alone.
pub fn with_and_without_index(a: &Way, b: &Way) -> bool {
    let [short, long] = if a.len() < b.len() { [a, b] } else { [b, a] };
    match long.split_last() {
        Some((Step::Element(indexes), rest)) => rest == &short[..] && indexes.iter().all(|&e| e == 0),
        _ => false,
    }
}

impl Talk<'_> {
    /// A path to a tag and on by these steps: names in any case, numbers in any form. By the tag's ID or by its name.
    pub fn path(&mut self, tag: usize, way: &[Step], by_id: bool) -> Vec<u8> {
        let t = &self.set.tables;
        let row = &t.tags[tag];
        let mut path = match row[0].checked_sub(1).map(|program| t.programs[program as usize]) {
            Some(p) => self.in_any_case(&[b"Program:", t.name(p[0], p[1])].concat()),
            None => Vec::new(),
        };
        path.extend(match by_id || read_as_program(t, row, way) {
            true => self.object(0x6B, row[3]),
            false => self.in_any_case(t.tag_name(row)),
        });
        for step in way {
            path.extend(match step {
                Step::Member(start, length) => self.in_any_case(t.name(*start, *length)),
                Step::Element(indexes) => indexes.iter().flat_map(|&e| self.value(0x28, e)).collect(),
            });
        }
        path
    }

    fn in_any_case(&mut self, name: &[u8]) -> Vec<u8> {
        let name = self.rng.recase(name);
        self.spelled(&name)
    }
}

/// Whether a tag's name would be taken for a program's: `Program:Main` of the controller, with something behind it.
fn read_as_program(t: &Tables, row: &[u32; 12], way: &[Step]) -> bool {
    let start = t.tag_name(row).get(..8);
    row[0] == 0 && !way.is_empty() && start.is_some_and(|start| start.eq_ignore_ascii_case(b"Program:"))
}
