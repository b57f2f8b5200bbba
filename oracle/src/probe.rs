//! The functions of `oracle/probe`, linked from its archive: a slice goes as its start and its length, and `usize::MAX`
//! comes back where there is nothing.

use ciplink_sim::logix::leaves::Piece;
use ciplink_sim::rows::Tables;

type Bytes = *const u8;
type Programs = *const [u32; 2];
type Tags = *const [u32; 12];
type Others = *const [u32; 5];
type Members = *const [u32; 9];
type Structures = *const [u32; 10];

unsafe extern "C" {
    fn probe_segment_kind(bytes: Bytes, n: usize, at: usize) -> u32;
    fn probe_segment_value(bytes: Bytes, n: usize, at: usize) -> u32;
    fn probe_name_start(bytes: Bytes, n: usize, at: usize) -> usize;
    fn probe_name_length(bytes: Bytes, n: usize, at: usize) -> usize;
    fn probe_segment_next(bytes: Bytes, n: usize, at: usize) -> usize;
    fn probe_check_path(bytes: Bytes, n: usize) -> usize;
    fn probe_split_request(bytes: Bytes, n: usize) -> usize;
    fn probe_tag_path(bytes: Bytes, n: usize) -> u32;
    fn probe_find_program(rows: Programs, n: usize, names: Bytes, all: usize, name: Bytes, len: usize) -> usize;
    fn probe_find_tag(
        rows: Tags,
        n: usize,
        names: Bytes,
        all: usize,
        scope: u32,
        name: Bytes,
        len: usize,
    ) -> usize;
    fn probe_find_tag_id(rows: Tags, n: usize, scope: u32, id: u32) -> usize;
    fn probe_find_other_id(rows: Others, n: usize, scope: u32, id: u32) -> usize;
    fn probe_find_member(rows: Members, n: usize, names: Bytes, all: usize, name: Bytes, len: usize) -> usize;
    fn probe_find_template(rows: Structures, n: usize, id: u32) -> usize;
    fn probe_has_local(rows: Members, n: usize) -> bool;
    fn probe_next_side(t: Tags, n: usize, o: Others, m: usize, scope: u32, bound: u64) -> u32;
    fn probe_next_place(t: Tags, n: usize, o: Others, m: usize, scope: u32, bound: u64) -> usize;
    fn probe_next_id(t: Tags, n: usize, o: Others, m: usize, scope: u32, bound: u64) -> u32;
    fn probe_element_size(rows: Structures, n: usize, ty: u32) -> u32;
    fn probe_symbol_type(rows: Structures, n: usize, ty: u32, lengths: u32) -> u32;
    fn probe_shape(row: Tags, which: usize, i: usize) -> u32;
}

// Each block below is sound for one reason: every start and length that is passed are those of a slice that outlives the
// call, and the functions, as they are proved, read only what lies inside it.

/// None for the number that stands for nothing.
fn place(number: usize) -> Option<usize> {
    (number != usize::MAX).then_some(number)
}

/// The segment at a position and where the next one starts.
pub fn segment(path: &[u8], at: usize) -> Option<(Piece, usize)> {
    let (bytes, n) = (path.as_ptr(), path.len());
    let (kind, value, next) = unsafe {
        (probe_segment_kind(bytes, n, at), probe_segment_value(bytes, n, at), probe_segment_next(bytes, n, at))
    };
    let piece = match kind {
        1 => Piece::Port,
        2 => Piece::Class(value),
        3 => Piece::Instance(value),
        4 => Piece::Element(value),
        5 => Piece::Attribute(value),
        6 => {
            let (start, length) = unsafe { (probe_name_start(bytes, n, at), probe_name_length(bytes, n, at)) };
            Piece::Symbol(path.get(start..start + length).unwrap_or_default().to_vec())
        }
        _ => return None,
    };
    Some((piece, next))
}

/// The number of a path's segments.
pub fn check_path(path: &[u8]) -> Option<usize> {
    place(unsafe { probe_check_path(path.as_ptr(), path.len()) })
}

/// The number of bytes of a request's path.
pub fn split_request(message: &[u8]) -> Option<usize> {
    place(unsafe { probe_split_request(message.as_ptr(), message.len()) })
}

pub fn tag_path(path: &[u8]) -> Option<bool> {
    let number = unsafe { probe_tag_path(path.as_ptr(), path.len()) };
    (number < 2).then_some(number == 1)
}

pub fn find_program(t: &Tables, name: &[u8]) -> Option<usize> {
    let (rows, names) = (&t.programs, &t.names);
    place(unsafe {
        probe_find_program(rows.as_ptr(), rows.len(), names.as_ptr(), names.len(), name.as_ptr(), name.len())
    })
}

pub fn find_tag(t: &Tables, scope: u32, name: &[u8]) -> Option<usize> {
    let (rows, names) = (&t.tags, &t.tag_names);
    place(unsafe {
        probe_find_tag(rows.as_ptr(), rows.len(), names.as_ptr(), names.len(), scope, name.as_ptr(), name.len())
    })
}

pub fn find_tag_id(t: &Tables, scope: u32, id: u32) -> Option<usize> {
    place(unsafe { probe_find_tag_id(t.tags.as_ptr(), t.tags.len(), scope, id) })
}

pub fn find_other_id(t: &Tables, scope: u32, id: u32) -> Option<usize> {
    place(unsafe { probe_find_other_id(t.others.as_ptr(), t.others.len(), scope, id) })
}

pub fn find_member(members: &[[u32; 9]], names: &[u8], name: &[u8]) -> Option<usize> {
    place(unsafe {
        probe_find_member(members.as_ptr(), members.len(), names.as_ptr(), names.len(), name.as_ptr(), name.len())
    })
}

pub fn find_template(t: &Tables, id: u32) -> Option<usize> {
    place(unsafe { probe_find_template(t.structures.as_ptr(), t.structures.len(), id) })
}

pub fn has_local(members: &[[u32; 9]]) -> bool {
    unsafe { probe_has_local(members.as_ptr(), members.len()) }
}

/// The next symbol: whether it is a tag, its row in its table, its ID.
pub fn next_symbol(t: &Tables, scope: u32, bound: u64) -> Option<(bool, usize, u32)> {
    let (tags, n) = (t.tags.as_ptr(), t.tags.len());
    let (others, m) = (t.others.as_ptr(), t.others.len());
    unsafe {
        let place = probe_next_place(tags, n, others, m, scope, bound);
        let id = probe_next_id(tags, n, others, m, scope, bound);
        match probe_next_side(tags, n, others, m, scope, bound) {
            0 => None,
            side => Some((side == 1, place, id)),
        }
    }
}

/// The bytes of one element; 0 for what is no type.
pub fn element_size(t: &Tables, ty: u32) -> usize {
    unsafe { probe_element_size(t.structures.as_ptr(), t.structures.len(), ty) as usize }
}

/// The symbol type of a type with at most three lengths.
pub fn symbol_type(t: &Tables, ty: u32, lengths: u32) -> u32 {
    assert!(lengths <= 3);
    unsafe { probe_symbol_type(t.structures.as_ptr(), t.structures.len(), ty, lengths) }
}

/// A tag's lengths as listed and as indexed.
pub fn shapes(row: &[u32; 12]) -> [[u32; 3]; 2] {
    std::array::from_fn(|which| std::array::from_fn(|i| unsafe { probe_shape(row, which, i) }))
}
