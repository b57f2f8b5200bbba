//! Writes cases as antt modules, for the definition to compute, and as lines, to look a case up.

use crate::cases::{Case, Expected, Run};
use std::fmt::Write as _;
use std::fs;
use std::path::Path;

fn bytes(list: &[u8]) -> String {
    let mut out = String::new();
    for b in list {
        let _ = write!(out, "{b} ∷ ");
    }
    out + "[]"
}

fn rows<const N: usize>(rows: &[[u32; N]]) -> String {
    let mut out = String::new();
    for row in rows {
        let words: Vec<String> = row.iter().map(u32::to_string).collect();
        let _ = write!(out, "({} ∷ []) ∷ ", words.join(" ∷ "));
    }
    out + "[]"
}

pub fn hex(list: &[u8]) -> String {
    list.iter().map(|b| format!("{b:02X}")).collect()
}

const HEAD: &str = "use mathlib.Core.Path.{◌≡◌, refl}
use Rattle.std.specs.Prelude.{true, false, List, [], ◌∷◌, ℕ}
use Rattle.definition.specs.Tables.{Tables, Flags}
use Rattle.checker.specs.Check.{Case, refusal, answer, stored, failures}
";

fn tables(run: &Run, name: &str) -> String {
    let (t, f) = (&run.set.tables, run.set.flags);
    format!(
        "
abbrev pub tables{name} : Tables
tables{name} = record {{
  structures = {};
  members = {};
  programs = {};
  tags = {};
  others = {};
  names = {};
  tag_names = {};
  templates = {} }}

abbrev pub flags{name} : Flags
flags{name} = record {{ multi_service = {}; instance_ids = {}; aoi_locals_refused = {}; micro800 = {} }}
",
        rows(&t.structures),
        rows(&t.members),
        rows(&t.programs),
        rows(&t.tags),
        rows(&t.others),
        bytes(&t.names),
        bytes(&t.tag_names),
        bytes(&t.templates),
        f.multi_service,
        f.instance_ids,
        f.aoi_locals_refused,
        f.micro800,
    )
}

fn case(number: usize, c: &Case) -> String {
    let expected = match &c.expected {
        Expected::Refused(n) => format!("refusal {n}"),
        Expected::Replied(r) if c.before == c.after => format!("answer ({})", bytes(r)),
        Expected::Replied(r) => format!("stored ({}) ({})", bytes(r), bytes(&c.after)),
    };
    format!(
        "  record {{ number = {number}; request = {}; limit = {}; room = {}; fill = {}; expected = {expected} }} ∷\n",
        bytes(&c.message),
        c.limit,
        c.room,
        c.fill
    )
}

/// A theorem for every `chunk` cases: none of them differs.
fn theorems(run: &Run, name: &str, first: usize, chunk: usize) -> String {
    let mut out = String::new();
    for (i, cases) in run.cases.chunks(chunk).enumerate() {
        let tag = format!("{name}{i}");
        let _ = write!(
            out,
            "\nabbrev pub memory{tag} : List ℕ\nmemory{tag} = {}\n\nabbrev pub cases{tag} : List Case\ncases{tag} =\n",
            bytes(&cases[0].before)
        );
        for (j, c) in cases.iter().enumerate() {
            out += &case(first + i * chunk + j, c);
        }
        let _ = write!(
            out,
            "  []\n\nagree{tag} : failures tables{name} flags{name} memory{tag} cases{tag} ≡ []\nunfolding failures\nagree{tag} = refl\n"
        );
    }
    out
}

/// The module of one table set, and its broken copy's.
pub fn module(runs: &[(String, Run)], chunk: usize) -> String {
    let mut out = String::from(HEAD);
    let mut first = 0;
    for (name, run) in runs {
        out += &tables(run, name);
        out += &theorems(run, name, first, chunk);
        first += run.cases.len();
    }
    out
}

/// A line for each case: module, theorem, number, limit, room, fill, request, expected, memory before and afterwards.
pub fn lines(module: &str, runs: &[(String, Run)], chunk: usize) -> String {
    let (mut out, mut first) = (String::new(), 0);
    for (name, run) in runs {
        for (i, c) in run.cases.iter().enumerate() {
            let expected = match &c.expected {
                Expected::Refused(n) => format!("refused:{n}"),
                Expected::Replied(r) => format!("replied:{}", hex(r)),
            };
            let _ = writeln!(
                out,
                "{module} agree{name}{} {} {} {} {} {:?} {expected} {:?} {:?} {:?}",
                i / chunk,
                first + i,
                c.limit,
                c.room,
                c.fill,
                hex(&c.message),
                hex(&c.before),
                hex(&c.after),
                run.broken.map_or("", |kind| kind.what)
            );
        }
        first += run.cases.len();
    }
    out
}

pub fn write(path: &Path, text: &str) {
    if let Some(folder) = path.parent() {
        fs::create_dir_all(folder).expect("a folder to write to");
    }
    fs::write(path, text).unwrap_or_else(|e| panic!("{}: {e}", path.display()));
}
