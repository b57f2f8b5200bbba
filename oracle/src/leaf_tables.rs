//! Lookups, the next symbol, types and shapes of table sets.

use crate::findings::Findings;
use crate::probe;
use crate::rng::Rng;
use crate::tables::{self, name};
use crate::valid;
use ciplink_sim::logix::leaves::Lookups;
use ciplink_sim::rows::Tables;

/// A table set, the reference's lookups on it, and what requests may ask for.
struct Asked<'a> {
    seed: u64,
    t: &'a Tables,
    rust: Lookups,
    names: Vec<Vec<u8>>,
    ids: Vec<u32>,
}

/// Table sets by the seeds from this one on, each a second time with rows that repeat others' names and IDs.
pub fn generated(seed: u64, sets: u64, findings: &mut Findings) {
    for seed in seed..seed + sets {
        let mut rng = Rng::new(seed);
        let mut set = tables::set(&mut rng);
        if let Err(what) = valid::valid(&set.tables, &set.memory) {
            panic!("seed {seed}: the generated tables break a rule: {what}");
        }
        let asked = Asked::new(seed, &set.tables, &set.memory, &mut rng);
        asked.lookups(findings);
        asked.structures(findings);
        asked.listing(findings);
        asked.types(findings);
        repeat(&mut rng, &mut set.tables);
        // where IDs repeat, the order of a listing is not told; the lookups still find the first
        Asked::new(seed, &set.tables, &set.memory, &mut rng).lookups(findings);
    }
}

/// More rows at the end of the tables with names or IDs that earlier rows have.
fn repeat(rng: &mut Rng, t: &mut Tables) {
    for _ in 0..3 {
        if let [_, ..] = t.tags[..] {
            let (mut row, other) = (*rng.pick(&t.tags), *rng.pick(&t.tags));
            row[3] = other[3];
            t.tags.push(row);
        }
        if let [_, ..] = t.others[..] {
            let mut row = *rng.pick(&t.others);
            row[0] = rng.pick(&t.others)[0];
            t.others.push(row);
        }
        if let [_, ..] = t.programs[..] {
            let row = *rng.pick(&t.programs);
            t.programs.push(row);
        }
    }
}

/// A name as it is asked for: in any case, now and then with a byte changed, cut off or added.
fn asked_name(rng: &mut Rng, name: &[u8]) -> Vec<u8> {
    let mut name = rng.recase(name);
    let at = rng.below(name.len() as u32) as usize;
    match rng.below(12) {
        0 if !name.is_empty() => name[at] ^= 0x20,
        1 if !name.is_empty() => name[at] = rng.byte(),
        2 => drop(name.pop()),
        3 => name.push(rng.byte()),
        _ => {}
    }
    name
}

fn names(rng: &mut Rng, t: &Tables) -> Vec<Vec<u8>> {
    let mut names: Vec<Vec<u8>> = t.tags.iter().map(|r| t.tag_name(r).to_vec()).collect();
    names.extend(t.others.iter().map(|r| t.name(r[1], r[2]).to_vec()));
    names.extend(t.programs.iter().map(|r| t.name(r[0], r[1]).to_vec()));
    names.extend(t.members.iter().map(|r| t.name(r[0], r[1]).to_vec()));
    names.extend((0..6).map(|_| name(rng)));
    names.extend([Vec::new(), rng.bytes(3)]);
    names.iter().map(|n| asked_name(rng, n)).collect()
}

/// IDs that occur, their neighbours, and the ends.
fn ids(t: &Tables) -> Vec<u32> {
    let present = t.tags.iter().map(|r| r[3]).chain(t.others.iter().map(|r| r[3]));
    let near = present.flat_map(|id| [id.wrapping_sub(1), id, id.wrapping_add(1)]);
    near.chain([0, 1, 0x7FFF_FFFF, 0xFFFF_FFFF]).collect()
}

/// The row of the tag or other symbol that is the reference's `place`-th of a scope.
fn row<const N: usize>(rows: &[[u32; N]], scope: u32, place: usize) -> Option<usize> {
    let of_scope = rows.iter().enumerate().filter(|(_, r)| r[0] == scope);
    of_scope.map(|(i, _)| i).nth(place)
}

impl<'a> Asked<'a> {
    fn new(seed: u64, t: &'a Tables, memory: &[u8], rng: &mut Rng) -> Self {
        Asked { seed, t, rust: Lookups::new(t, memory), names: names(rng, t), ids: ids(t) }
    }

    /// The controller's, each program's, and one that is not there.
    fn scopes(&self) -> impl Iterator<Item = u32> {
        0..self.t.programs.len() as u32 + 2
    }

    fn input(&self, what: impl std::fmt::Debug) -> String {
        format!("{what:X?}, seed {}: {:X?}", self.seed, self.t)
    }

    fn lookups(&self, findings: &mut Findings) {
        let t = self.t;
        for n in &self.names {
            findings.compare("program", self.rust.program(n), probe::find_program(t, n), || self.input(n));
        }
        for scope in self.scopes() {
            for n in &self.names {
                let rust = self.rust.tag(scope, n).and_then(|place| row(&t.tags, scope, place));
                findings.compare("tag", rust, probe::find_tag(t, scope, n), || self.input((scope, n)));
            }
            for &id in &self.ids {
                let rust = self.rust.tag_id(scope, id).and_then(|place| row(&t.tags, scope, place));
                let port = probe::find_tag_id(t, scope, id);
                findings.compare("tag by ID", rust, port, || self.input((scope, id)));
                let rust = self.rust.other_id(scope, id).and_then(|place| row(&t.others, scope, place));
                let port = probe::find_other_id(t, scope, id);
                findings.compare("other by ID", rust, port, || self.input((scope, id)));
            }
        }
    }

    fn structures(&self, findings: &mut Findings) {
        let t = self.t;
        for (index, s) in t.structures.iter().enumerate() {
            let members = &t.members[s[5] as usize..][..s[6] as usize];
            for n in &self.names {
                let port = probe::find_member(members, &t.names, n);
                findings.compare("member", self.rust.member(index, n), port, || self.input((index, n)));
            }
            let (rust, port) = (self.rust.has_local(index), probe::has_local(members));
            findings.compare_test("has a local", rust, port, || self.input(index));
        }
        let used = t.structures.iter().flat_map(|s| [s[2], s[2] + 1, s[2].wrapping_sub(1), s[2] + 0x1_0000]);
        for id in used.chain([0, 0x100, 0xFCE]) {
            findings.compare("template", self.rust.template(id), probe::find_template(t, id), || self.input(id));
        }
    }

    /// The next symbol by ID, and the lengths of each tag.
    fn listing(&self, findings: &mut Findings) {
        let t = self.t;
        for scope in self.scopes() {
            let bounds = self.ids.iter().map(|&id| u64::from(id)).chain([1 << 32, (1 << 32) + 1, u64::MAX]);
            for bound in bounds {
                let rust = self.rust.next(scope, bound).and_then(|id| self.symbol(scope, id));
                let port = probe::next_symbol(t, scope, bound);
                findings.compare("next symbol", rust, port, || self.input((scope, bound)));
            }
            for place in 0..t.tags.iter().filter(|r| r[0] == scope).count() {
                let rust = self.rust.listed(scope, place).zip(self.rust.indexed(scope, place));
                let port = row(&t.tags, scope, place).map(|i| probe::shapes(&t.tags[i]).into());
                findings.compare("shapes", rust, port, || self.input((scope, place)));
            }
        }
    }

    /// Whether the symbol of an ID is a tag, its row, and the ID: no two of a scope share one.
    fn symbol(&self, scope: u32, id: u32) -> Option<(bool, usize, u32)> {
        let tag = self.rust.tag_id(scope, id).and_then(|place| row(&self.t.tags, scope, place));
        let other = self.rust.other_id(scope, id).and_then(|place| row(&self.t.others, scope, place));
        tag.map(|i| (true, i, id)).or(other.map(|i| (false, i, id)))
    }

    /// Every type word from 0 to past the last structure's. Where the Rust has no such type, the port has size 0.
    fn types(&self, findings: &mut Findings) {
        let t = self.t;
        for ty in 0..0x102 + t.structures.len() as u32 {
            let size = probe::element_size(t, ty);
            let port = (size != 0).then_some(size);
            findings.compare("element size", self.rust.size(ty), port, || self.input(ty));
            for lengths in 0..=3 {
                let Some(rust) = self.rust.symbol_type(ty, lengths as usize) else { continue };
                let port = probe::symbol_type(t, ty, lengths);
                findings.compare("symbol type", Some(u32::from(rust)), Some(port), || self.input((ty, lengths)));
            }
        }
    }
}
