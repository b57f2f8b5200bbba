//! T1 to T6 of document 01 over rows, written apart from the generator, to hold its table sets to them and to
//! tell that a table set broken on purpose is broken. Answers what is wrong.

use ciplink_sim::rows::{DWORD, Tables, part};

type Verdict = Result<(), String>;

fn hold(ok: bool, what: impl Fn() -> String) -> Verdict {
    if ok { Ok(()) } else { Err(what()) }
}

pub fn valid(t: &Tables, memory: &[u8]) -> Verdict {
    counts(t, memory)?;
    for s in 0..t.structures.len() {
        structure(t, s)?;
    }
    for (i, m) in t.members.iter().enumerate() {
        member(t, m).map_err(|e| format!("member {i}: {e}"))?;
    }
    for (i, p) in t.programs.iter().enumerate() {
        named(&t.names, p[0], p[1])?;
        let same = |q: &[u32; 2]| t.name(q[0], q[1]).eq_ignore_ascii_case(t.name(p[0], p[1]));
        hold(!t.programs[..i].iter().any(same), || format!("T2: program {i} named twice"))?;
    }
    for i in 0..t.tags.len() {
        tag(t, memory, i).map_err(|e| format!("tag {i}: {e}"))?;
    }
    for i in 0..t.others.len() {
        other(t, i).map_err(|e| format!("other {i}: {e}"))?;
    }
    Ok(())
}

fn counts(t: &Tables, memory: &[u8]) -> Verdict {
    let most = [
        (t.structures.len(), 64),
        (t.members.len(), 512),
        (t.programs.len(), 16),
        (t.tags.len(), 1024),
        (t.others.len(), 64),
        (memory.len(), 65_536),
        (t.templates.len(), 65_536),
    ];
    hold(most.iter().all(|(n, max)| n <= max), || "T1: too many".into())
}

fn named(store: &[u8], start: u32, length: u32) -> Verdict {
    named_by(store, start, length, |name| (1..=40).contains(&name.len()))
}

fn named_by(store: &[u8], start: u32, length: u32, fits: fn(&[u8]) -> bool) -> Verdict {
    let name = part(store, start, length).ok_or("a name past its store")?;
    hold(fits(name), || "T2: name length".into())?;
    hold(name.iter().all(|b| (0x20..=0x7E).contains(b)), || "T2: name bytes".into())
}

/// Document 02, P2: an other symbol has 0 to 40 bytes behind one of these, case ignored, and 1 to 40 in all without one.
pub const PREFIXES: [&[u8]; 3] = [b"Program:", b"Routine:", b"Task:"];

pub fn other_length(name: &[u8]) -> bool {
    let behind = |prefix: &&[u8]| {
        let (start, rest) = name.split_at_checked(prefix.len())?;
        start.eq_ignore_ascii_case(prefix).then_some(rest.len())
    };
    match PREFIXES.iter().find_map(behind) {
        Some(rest) => rest <= 40,
        None => (1..=40).contains(&name.len()),
    }
}

fn structure(t: &Tables, index: usize) -> Verdict {
    let s = &t.structures[index];
    named(&t.names, s[0], s[1])?;
    hold(s[2] < 0x1_0000 && s[3] < 0x1_0000, || "template ID or handle".into())?;
    hold((1..=65_535).contains(&s[4]), || "T4: size".into())?;
    hold(s[7] <= 1, || "AOI mark".into())?;
    hold(part(&t.templates, s[8], s[9]).is_some(), || "T4: template".into())?;
    let end = u64::from(s[5]) + u64::from(s[6]);
    hold(end <= t.members.len() as u64, || "members past the table".into())?;
    for m in &t.members[s[5] as usize..end as usize] {
        hold(m[2] < 0x100 + index as u32, || "T4: not an earlier structure".into())?;
        let bytes = u64::from(t.size(m[2]).unwrap_or(0)) * u64::from(m[3].max(1));
        hold(u64::from(m[4]) + bytes <= u64::from(s[4]), || "T4: member outside".into())?;
    }
    Ok(())
}

fn member(t: &Tables, m: &[u32; 9]) -> Verdict {
    named(&t.names, m[0], m[1])?;
    hold(t.size(m[2]).is_some(), || "no type".into())?;
    hold(m[5] <= 8, || "T4: bit".into())?;
    hold(m[6] <= 1 && m[7] <= 1, || "marks".into())?;
    hold(m[8] <= 3, || "T1: access".into())
}

fn tag(t: &Tables, memory: &[u8], index: usize) -> Verdict {
    let r = &t.tags[index];
    hold(r[0] as usize <= t.programs.len(), || "scope".into())?;
    named(&t.tag_names, r[1], r[2])?;
    hold(r[3] != 0, || "T3: ID 0".into())?;
    let size = t.size(r[4]).ok_or("T5: no type")?;
    hold(r[9] <= 3, || "T1: access".into())?;
    hold(r[10] <= 1, || "alias mark".into())?;
    let lengths = Tables::lengths(r);
    hold(r[5 + lengths.len()..8].iter().all(|&d| d == 0), || "T5: a zero length".into())?;
    let product: u128 = lengths.iter().map(|&d| u128::from(d)).product();
    let words = r[4] == DWORD && lengths.len() == 1 && r[5] % 32 == 0 && r[8] == r[5] / 32;
    hold(u128::from(r[8]) == product || words, || "T5: elements".into())?;
    let span = |r: &[u32; 12], size: u32| {
        let start = u64::from(r[11]);
        (start, start + u64::from(size) * u64::from(r[8]))
    };
    let (start, end) = span(r, size);
    hold(end <= memory.len() as u64, || "T6: past tag memory".into())?;
    for q in &t.tags[..index] {
        let (from, to) = span(q, t.size(q[4]).unwrap_or(0));
        hold(end <= from || to <= start, || "T6: a shared byte".into())?;
        hold(q[0] != r[0] || q[3] != r[3], || "T3: the same ID".into())?;
        let same = t.tag_name(q).eq_ignore_ascii_case(t.tag_name(r));
        hold(q[0] != r[0] || !same, || "T2: the same name".into())?;
    }
    Ok(())
}

fn other(t: &Tables, index: usize) -> Verdict {
    let o = &t.others[index];
    hold(o[0] as usize <= t.programs.len(), || "scope".into())?;
    named_by(&t.names, o[1], o[2], other_length)?;
    hold(o[3] != 0, || "T3: ID 0".into())?;
    hold(o[4] < 0x1_0000, || "symbol type".into())?;
    let name = t.name(o[1], o[2]);
    let clash = |r: &&[u32; 12]| r[3] == o[3] || t.tag_name(r).eq_ignore_ascii_case(name);
    let mut tags = t.tags.iter().filter(|r| r[0] == o[0]);
    hold(!tags.any(|r| clash(&r)), || "T2 or T3: a tag's name or ID".into())?;
    let mut earlier = t.others[..index].iter().filter(|q| q[0] == o[0]);
    hold(!earlier.any(|q| q[3] == o[3]), || "T3: the same ID".into())
}
