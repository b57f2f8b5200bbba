//! Has the simulator serve an image, and holds its replies to those of the controller that the image was read out of.

use crate::findings::hex;
use crate::messages::{Talk, last_id, page, request};
use crate::rng::Rng;
use crate::tables::{Set, size_of};
use crate::tally;
use ciplink_sim::logix::Logix;
use ciplink_sim::rows::{DWORD, Tables};
use std::collections::BTreeMap;
use std::io::Write;
use std::process::{Command, Stdio};

/// More differences than these are counted and not printed.
const PRINTED: usize = 20;
/// The reply limit of the listed messages.
const LIMIT: usize = 500;
/// The most bytes that a listed message writes.
const CHUNK: u32 = 400;
/// The kind of the messages that are not listed.
const OTHERS: &str = "";

/// The simulator's program and the image that it is given.
pub struct Server<'a> {
    pub simulator: &'a str,
    pub image: &'a str,
}

impl Server<'_> {
    /// The lines that the program answers to these.
    fn answers(&self, lines: &str) -> Result<Vec<String>, String> {
        let fail = |e: std::io::Error| format!("{}: {e}", self.simulator);
        let mut command = Command::new(self.simulator);
        let command = command.arg(self.image).stdin(Stdio::piped()).stdout(Stdio::piped());
        let mut child = command.spawn().map_err(fail)?;
        let mut input = child.stdin.take().expect("a pipe");
        // beside the reading, since neither pipe takes everything at once; one that refuses the image reads nothing
        let output = std::thread::scope(|s| {
            s.spawn(move || drop(input.write_all(lines.as_bytes())));
            child.wait_with_output()
        });
        let output = String::from_utf8_lossy(&output.map_err(fail)?.stdout).into_owned();
        Ok(output.lines().map(str::to_owned).collect())
    }
}

/// A message, what it is for, and the controller's reply.
struct Asked {
    kind: &'static str,
    what: String,
    message: Vec<u8>,
    limit: usize,
    reply: Vec<u8>,
}

impl Asked {
    fn line(&self) -> String {
        format!("@{} {}", self.limit, hex(&self.message))
    }
}

/// Elements that a path leads to.
struct Place<'a> {
    kind: &'static str,
    what: &'a str,
    path: &'a [u8],
    ty: u32,
    elements: u32,
}

struct Questions<'a> {
    logix: Logix,
    set: &'a Set,
    asked: Vec<Asked>,
    /// Where the bytes come from if the tags are written; None if they are read.
    written: Option<Rng>,
}

fn symbol(name: &[u8]) -> Vec<u8> {
    let mut out = vec![0x91, name.len() as u8];
    out.extend(name);
    out.resize(out.len().next_multiple_of(2), 0);
    out
}

/// A class (0x20), instance (0x24) or element (0x28) in its shortest form.
fn value(kind: u8, value: u32) -> Vec<u8> {
    let bytes = value.to_le_bytes();
    match value {
        0..=0xFF => vec![kind, bytes[0]],
        0x100..=0xFFFF => [&[kind + 1, 0], &bytes[..2]].concat(),
        _ => [&[kind + 2, 0], &bytes[..]].concat(),
    }
}

fn object(class: u32, instance: u32) -> Vec<u8> {
    [value(0x20, class), value(0x24, instance)].concat()
}

fn text(name: &[u8]) -> String {
    name.iter().map(|&b| char::from(b)).collect()
}

impl Questions<'_> {
    fn ask(&mut self, kind: &'static str, what: &str, message: Vec<u8>) -> Vec<u8> {
        let reply = self.logix.answer(&message, LIMIT);
        self.asked.push(Asked { kind, what: what.into(), message, limit: LIMIT, reply: reply.clone() });
        reply
    }

    /// Reads or writes elements to their end, as far as a request can count them.
    fn visit(&mut self, place: Place) {
        let count = (place.elements.min(0xFFFF) as u16).to_le_bytes();
        match self.written.take() {
            Some(mut rng) => {
                self.write(place, count, &mut rng);
                self.written = Some(rng);
            }
            None => self.read(place, count),
        }
    }

    fn read(&mut self, Place { kind, what, path, elements, .. }: Place, count: [u8; 2]) {
        let mut reply = self.ask(kind, what, request(0x4C, path, &count));
        let mut offset = 0u32;
        while reply[2] == 0x06 {
            offset += (reply.len() - if reply[4..6] == [0xA0, 0x02] { 8 } else { 6 }) as u32;
            let data = [&count[..], &offset.to_le_bytes()].concat();
            reply = self.ask("a read that goes on", what, request(0x52, path, &data));
        }
        if let Ok(more) = u16::try_from(elements + 1) {
            self.ask("an element too many", what, request(0x4C, path, &more.to_le_bytes()));
        }
    }

    fn write(&mut self, Place { what, path, ty, elements, .. }: Place, count: [u8; 2], rng: &mut Rng) {
        let t = &self.set.tables;
        let header = match ty.checked_sub(0x100).map(|index| t.structures[index as usize][3].to_le_bytes()) {
            Some(handle) => vec![0xA0, 0x02, handle[0], handle[1]],
            None => vec![ty as u8, 0],
        };
        let total = size_of(t, ty) * elements.min(0xFFFF);
        if total <= CHUNK {
            let data = [&header[..], &count, &rng.bytes(total)].concat();
            self.ask("a write", what, request(0x4D, path, &data));
            return;
        }
        for offset in (0..total).step_by(CHUNK as usize) {
            let bytes = rng.bytes(CHUNK.min(total - offset));
            let data = [&header[..], &count, &offset.to_le_bytes(), &bytes].concat();
            self.ask("a write that goes on", what, request(0x53, path, &data));
        }
    }

    /// Each tag, by name and by ID, its last element, and each member of it or of its last element.
    fn tags(&mut self) {
        let t = &self.set.tables;
        for r in &t.tags {
            let program = r[0].checked_sub(1).map(|p| t.programs[p as usize]);
            let prefix = program.map(|p| [b"Program:", t.name(p[0], p[1])].concat());
            let (mut path, mut what) = match &prefix {
                Some(prefix) => (symbol(prefix), text(prefix) + "."),
                None => Default::default(),
            };
            let by_id = [&path[..], &object(0x6B, r[3])].concat();
            path.extend(symbol(t.tag_name(r)));
            what += &text(t.tag_name(r));
            let kind = if prefix.is_some() { "a program's tag" } else { "a tag by name" };
            let (ty, elements) = (r[4], r[8]);
            self.visit(Place { kind, what: &what, path: &path, ty, elements });
            self.visit(Place { kind: "a tag by ID", what: &what, path: &by_id, ty, elements });
            let lengths = match Tables::lengths(r) {
                [_, ..] if ty == DWORD => &r[8..9],
                lengths => lengths,
            };
            if !lengths.is_empty() {
                path.extend(lengths.iter().flat_map(|d| value(0x28, d - 1)));
                let last: Vec<String> = lengths.iter().map(|d| (d - 1).to_string()).collect();
                what += &format!("[{}]", last.join(","));
                self.visit(Place { kind: "an element", what: &what, path: &path, ty, elements: 1 });
            }
            self.members(ty, &path, &what);
        }
    }

    fn members(&mut self, ty: u32, path: &[u8], what: &str) {
        let t = &self.set.tables;
        let Some(s) = ty.checked_sub(0x100).map(|index| t.structures[index as usize]) else { return };
        for m in &t.members[s[5] as usize..][..s[6] as usize] {
            let (name, elements) = (t.name(m[0], m[1]), m[3].max(1));
            let (kind, ty) = if m[5] < 8 { ("a member bit", 0xC1) } else { ("a member", m[2]) };
            let path = [path, &symbol(name)].concat();
            let what = format!("{what}.{}", text(name));
            self.visit(Place { kind, what: &what, path: &path, ty, elements });
            // refused where the member is no array
            let path = [path, value(0x28, elements - 1)].concat();
            let what = format!("{what}[{}]", elements - 1);
            self.visit(Place { kind: "an element of a member", what: &what, path: &path, ty, elements: 1 });
        }
    }

    /// The symbol pages of each scope.
    fn pages(&mut self) {
        let t = &self.set.tables;
        let names = t.programs.iter().map(|p| [b"Program:", t.name(p[0], p[1])].concat());
        for name in std::iter::once(Vec::new()).chain(names) {
            let (prefix, what) = match name.is_empty() {
                true => (Vec::new(), String::from("the controller")),
                false => (symbol(&name), text(&name)),
            };
            // name, type, element size, lengths, access: what a browser asks for, and the rest
            for attributes in [&[1, 2, 7, 8, 10][..], &[3, 5, 6]] {
                let mut start = 0;
                loop {
                    let reply = self.ask("a symbol page", &what, page(&prefix, start, attributes));
                    if reply[2] != 0x06 {
                        break;
                    }
                    start = last_id(&reply[4..], attributes) + 1;
                }
            }
        }
    }

    /// Attributes and template of each structure, and what the controller's other symbols refer to.
    fn objects(&mut self) {
        let t = &self.set.tables;
        for s in &t.structures {
            let (path, what) = (object(0x6C, s[2]), text(t.name(s[0], s[1])));
            self.ask("a structure's attributes", &what, request(0x03, &path, &[4, 0, 1, 0, 2, 0, 4, 0, 5, 0]));
            let mut offset = 0u32;
            loop {
                // more than a template has: what is left of it
                let data = [&offset.to_le_bytes()[..], &[0xFF, 0xFF]].concat();
                let reply = self.ask("a template", &what, request(0x4C, &path, &data));
                offset += reply.len() as u32 - 4;
                if reply[2] != 0x06 {
                    break;
                }
            }
        }
        for o in t.others.iter().filter(|o| o[0] == 0) {
            let what = text(t.name(o[1], o[2]));
            self.ask("an other symbol", &what, request(0x03, &object(0x6B, o[3]), &[1, 0, 0x0D, 0]));
        }
    }

    /// Random messages, of which about a third write; some go on where a reply broke off.
    fn random(&mut self, seed: u64, messages: usize) {
        let mut rng = Rng::new(seed);
        let mut talk = Talk::new(self.set, &mut rng, 65_535);
        let wanted = self.asked.len() + messages;
        while self.asked.len() < wanted {
            let message = talk.message();
            if !tally::in_domain(&message) {
                continue;
            }
            let limit = talk.limit(|| self.logix.clone().answer(&message, 65_535).len());
            let reply = self.logix.answer(&message, limit);
            talk.heard(&reply);
            self.asked.push(Asked { kind: OTHERS, what: String::new(), message, limit, reply });
        }
    }

    /// Of each kind of listed messages the first, an answered one if there is any, with the simulator's line.
    fn show(&self, answers: &[String]) {
        let mut kinds: Vec<(&Asked, &String)> = Vec::new();
        for (asked, answer) in self.asked.iter().zip(answers).filter(|(a, _)| a.kind != OTHERS) {
            match kinds.iter_mut().find(|(a, _)| a.kind == asked.kind) {
                Some(first) if first.0.reply[2] != 0 && asked.reply[2] == 0 => *first = (asked, answer),
                Some(_) => {}
                None => kinds.push((asked, answer)),
            }
        }
        for (asked, answer) in kinds {
            println!("{}  # {}: {}\n{answer}\n", asked.line(), asked.kind, asked.what);
        }
    }

    /// Prints the replies that differ; how many do.
    fn compare(&self, answers: &[String]) -> usize {
        let mut differ = 0;
        for (i, asked) in self.asked.iter().enumerate() {
            let found = answers.get(i).map_or("no line", |line| line.split('#').next().unwrap_or("").trim());
            let due = hex(&asked.reply);
            if found == due {
                continue;
            }
            differ += 1;
            if differ <= PRINTED {
                println!("differs: message {}, {} {}", i + 1, asked.kind, asked.what);
                println!("  {}\n  the Rust:      {due}\n  the simulator: {found}", asked.line());
            }
        }
        let more = answers.len().saturating_sub(self.asked.len());
        if more > 0 {
            println!("differs: {more} lines behind the last reply");
        }
        differ + more
    }
}

/// Compares on the listed messages: all tags and symbols read, the tags written, and read again; on random ones; and on what
/// those wrote. The exit status: 0 if no reply differs, else 1.
pub fn check(logix: Logix, set: &Set, server: &Server, seed: u64, messages: usize) -> Result<i32, String> {
    // a program that does not serve the image says so before it reads anything
    if let Some(line) = server.answers("")?.first() {
        return Err(format!("the simulator does not serve the image: {line}"));
    }
    let mut questions = Questions { logix, set, asked: Vec::new(), written: None };
    questions.tags();
    questions.pages();
    questions.objects();
    questions.written = Some(Rng::new(!seed));
    questions.tags();
    questions.written = None;
    questions.tags();
    questions.random(seed, messages);
    questions.tags();
    let lines: String = questions.asked.iter().map(|a| a.line() + "\n").collect();
    let answers = server.answers(&lines)?;
    questions.show(&answers);
    let differ = questions.compare(&answers);
    let mut statuses = BTreeMap::new();
    questions.asked.iter().for_each(|a| *statuses.entry(a.reply[2]).or_insert(0u64) += 1);
    let statuses: Vec<String> = statuses.iter().map(|(status, n)| format!("{status:02X} {n}")).collect();
    let listed = questions.asked.len() - messages;
    println!("{listed} listed messages and {messages} random ones; replies by status: {}", statuses.join(", "));
    match differ {
        0 => println!("no reply differs"),
        n => println!("{n} replies differ"),
    }
    Ok(i32::from(differ > 0))
}
