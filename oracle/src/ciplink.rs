//! The entry points of `crates/ciplink_c`, linked from its archive: a slice goes as its start and its length, a slice of rows
//! as its start and the number of its rows.

use ciplink_sim::rows::{Flags, Tables};

/// An answer of this and more is this plus the number of an entry refusal; one below it is the reply's length.
pub const REFUSED: u64 = 0x1_0000_0000;

/// Functions of the eight tables and of what follows them.
macro_rules! entries {
    ($($name:ident($($rest:ident: $type:ty),*) -> $answer:ty;)*) => {
        unsafe extern "C" {
            $(fn $name(
                structures: *const [u32; 10],
                structure_count: usize,
                members: *const [u32; 9],
                member_count: usize,
                programs: *const [u32; 2],
                program_count: usize,
                tags: *const [u32; 12],
                tag_count: usize,
                others: *const [u32; 5],
                other_count: usize,
                names: *const u8,
                names_length: usize,
                tag_names: *const u8,
                tag_names_length: usize,
                templates: *const u8,
                templates_length: usize,
                $($rest: $type),*
            ) -> $answer;)*
        }
    };
}
entries! {
    ciplink_message(flags: u32, memory: *mut u8, memory_length: usize, request: *const u8, request_length: usize,
        limit: usize, reply: *mut u8, reply_length: usize) -> u64;
    ciplink_answer(flags: u32, memory: *mut u8, memory_length: usize, request: *const u8, request_length: usize,
        limit: usize, reply: *mut u8, reply_length: usize) -> u64;
    ciplink_valid(memory: *const u8, memory_length: usize) -> u32;
    ciplink_breach(memory: *const u8, memory_length: usize, told: *mut [u64; 5]) -> u64;
}

unsafe extern "C" {
    fn ciplink_join_masks(
        ors: *mut u8,
        ors_length: usize,
        ands: *mut u8,
        ands_length: usize,
        next_ors: *const u8,
        next_ors_length: usize,
        next_ands: *const u8,
        next_ands_length: usize,
    ) -> u32;
}

/// Calls a function with the eight tables and what follows them.
macro_rules! call {
    ($function:ident, $t:expr, $($rest:expr),*) => {
        $function(
            $t.structures.as_ptr(),
            $t.structures.len(),
            $t.members.as_ptr(),
            $t.members.len(),
            $t.programs.as_ptr(),
            $t.programs.len(),
            $t.tags.as_ptr(),
            $t.tags.len(),
            $t.others.as_ptr(),
            $t.others.len(),
            $t.names.as_ptr(),
            $t.names.len(),
            $t.tag_names.as_ptr(),
            $t.tag_names.len(),
            $t.templates.as_ptr(),
            $t.templates.len(),
            $($rest),*
        )
    };
}

/// What a request is answered from: the tables and flags, the request and the reply's limit.
#[derive(Clone, Copy)]
pub struct Asked<'a> {
    pub tables: &'a Tables,
    pub flags: Flags,
    pub request: &'a [u8],
    pub limit: usize,
}

// Each block below is sound for one reason: every start and length that is passed are those of a slice that outlives the
// call, what is written overlaps nothing, and the functions, as they are proved, stay inside them.

/// The reply's length, or `REFUSED` plus the refusal's number.
pub fn message(asked: Asked, memory: &mut [u8], reply: &mut [u8]) -> u64 {
    let (t, flags, q) = (asked.tables, asked.flags.bits(), asked.request);
    let (memory, n) = (memory.as_mut_ptr(), memory.len());
    let (reply, m) = (reply.as_mut_ptr(), reply.len());
    unsafe { call!(ciplink_message, t, flags, memory, n, q.as_ptr(), q.len(), asked.limit, reply, m) }
}

/// The reply's length.
///
/// # Safety
/// None of the entry items 1 to 4 refuses this: the function is proved for no other.
pub unsafe fn answer(asked: Asked, memory: &mut [u8], reply: &mut [u8]) -> u64 {
    let (t, flags, q) = (asked.tables, asked.flags.bits(), asked.request);
    let (memory, n) = (memory.as_mut_ptr(), memory.len());
    let (reply, m) = (reply.as_mut_ptr(), reply.len());
    unsafe { call!(ciplink_answer, t, flags, memory, n, q.as_ptr(), q.len(), asked.limit, reply, m) }
}

/// 1 if the tables are valid by T1 to T6 for this tag memory, else 0.
pub fn valid(t: &Tables, memory: &[u8]) -> u32 {
    unsafe { call!(ciplink_valid, t, memory.as_ptr(), memory.len()) }
}

/// The number of the rule that the tables break first, 0 if they are valid; the numbers of `ciplink_told` are written.
pub fn breach(t: &Tables, memory: &[u8], told: &mut [u64; 5]) -> u64 {
    unsafe { call!(ciplink_breach, t, memory.as_ptr(), memory.len(), told) }
}

/// Joins the masks of a masked write with those of the next one, in place of the first; 0 where the four lengths are not
/// equal, else 1.
pub fn join_masks(ors: &mut [u8], ands: &mut [u8], next_ors: &[u8], next_ands: &[u8]) -> u32 {
    let (o, a, p, b) = (ors.len(), ands.len(), next_ors.len(), next_ands.len());
    let (ors, ands) = (ors.as_mut_ptr(), ands.as_mut_ptr());
    unsafe { ciplink_join_masks(ors, o, ands, a, next_ors.as_ptr(), p, next_ands.as_ptr(), b) }
}
