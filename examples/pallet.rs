// The same host as examples/pallet.c, in Rust, with no crate: reads the array `Rows` of the pallet bench by a continued read, and
// again by ciplink_read_whole, lists the symbols, sends two clicks on `Count` as one masked write, and prints it all. examples/build makes it; by hand, from the root of the repository:
//   examples/build library && rustc -O examples/pallet.rs -L target/staticlib -l static=ciplink -o target/pallet-rs && target/pallet-rs

/// A row of 32-bit words, as in ciplink.h.
type Row<const N: usize> = [u32; N];

/// ciplink.h's parameters for the tables, then those of the call.
macro_rules! entries {
    ($(fn $name:ident($($parameter:ident: $ty:ty),*) -> $result:ty;)*) => {
        extern "C" {
            $(fn $name(
                structures: *const Row<10>, structure_count: usize, members: *const Row<9>, member_count: usize,
                programs: *const Row<2>, program_count: usize, tags: *const Row<12>, tag_count: usize,
                others: *const Row<5>, other_count: usize, names: *const u8, names_length: usize,
                tag_names: *const u8, tag_names_length: usize, templates: *const u8, templates_length: usize,
                $($parameter: $ty),*
            ) -> $result;)*
        }
    };
}

entries! {
    fn ciplink_breach(memory: *const u8, memory_length: usize, told: *mut [u64; 5]) -> u64;
    fn ciplink_message(flags: u32, memory: *mut u8, memory_length: usize, request: *const u8, request_length: usize, limit: usize,
        reply: *mut u8, reply_length: usize) -> u64;
    fn ciplink_read_whole(flags: u32, memory: *mut u8, memory_length: usize, path: *const u8, path_length: usize, elements: u16,
        limit: usize, reply: *mut u8, reply_length: usize, out: *mut u8, out_length: usize) -> u64;
    fn ciplink_list_whole(flags: u32, memory: *mut u8, memory_length: usize, program: *const u8, program_length: usize,
        attributes: *const u8, attributes_length: usize, limit: usize, reply: *mut u8, reply_length: usize, out: *mut u8,
        out_length: usize) -> u64;
}

extern "C" {
    fn ciplink_join_masks(ors: *mut u8, ors_length: usize, ands: *mut u8, ands_length: usize, next_ors: *const u8, next_ors_length: usize,
        next_ands: *const u8, next_ands_length: usize) -> u32;
}

/// Joins the masks of a masked write with those of the next one, in the place of the first; false where the four lengths differ.
fn join_masks(ors: &mut [u8], ands: &mut [u8], next_ors: &[u8], next_ands: &[u8]) -> bool {
    unsafe {
        ciplink_join_masks(ors.as_mut_ptr(), ors.len(), ands.as_mut_ptr(), ands.len(), next_ors.as_ptr(), next_ors.len(),
            next_ands.as_ptr(), next_ands.len()) == 1
    }
}

const REFUSED: u64 = 0x1_0000_0000;
const FLAGS: u32 = 1 | 2; // multi-service, instance IDs

/// The tables; a slice's pointer is never null, not even an empty one's.
struct Tables<'a> {
    structures: &'a [Row<10>],
    members: &'a [Row<9>],
    programs: &'a [Row<2>],
    tags: &'a [Row<12>],
    others: &'a [Row<5>],
    names: &'a [u8],
    tag_names: &'a [u8],
    templates: &'a [u8],
}

/// Calls an entry point with the tables first.
macro_rules! call {
    ($name:ident, $t:expr, $($argument:expr),*) => {
        unsafe {
            $name(
                $t.structures.as_ptr(), $t.structures.len(), $t.members.as_ptr(), $t.members.len(),
                $t.programs.as_ptr(), $t.programs.len(), $t.tags.as_ptr(), $t.tags.len(),
                $t.others.as_ptr(), $t.others.len(), $t.names.as_ptr(), $t.names.len(),
                $t.tag_names.as_ptr(), $t.tag_names.len(), $t.templates.as_ptr(), $t.templates.len(),
                $($argument),*
            )
        }
    };
}

impl Tables<'_> {
    /// The words of ciplink_told: all are 0 where the tables are valid.
    fn breach(&self, memory: &[u8]) -> [u64; 5] {
        let mut told = [0; 5];
        call!(ciplink_breach, self, memory.as_ptr(), memory.len(), &mut told);
        told
    }

    fn message(&self, memory: &mut [u8], request: &[u8], limit: usize, reply: &mut [u8]) -> u64 {
        call!(ciplink_message, self, FLAGS, memory.as_mut_ptr(), memory.len(), request.as_ptr(), request.len(), limit,
            reply.as_mut_ptr(), reply.len())
    }

    fn read_whole(&self, memory: &mut [u8], path: &[u8], elements: u16, limit: usize, reply: &mut [u8], out: &mut [u8]) -> u64 {
        call!(ciplink_read_whole, self, FLAGS, memory.as_mut_ptr(), memory.len(), path.as_ptr(), path.len(), elements, limit,
            reply.as_mut_ptr(), reply.len(), out.as_mut_ptr(), out.len())
    }

    fn list_whole(&self, memory: &mut [u8], program: &[u8], attributes: &[u8], limit: usize, reply: &mut [u8], out: &mut [u8]) -> u64 {
        call!(ciplink_list_whole, self, FLAGS, memory.as_mut_ptr(), memory.len(), program.as_ptr(), program.len(),
            attributes.as_ptr(), attributes.len(), limit, reply.as_mut_ptr(), reply.len(), out.as_mut_ptr(), out.len())
    }
}

fn number(bytes: &[u8]) -> u32 {
    u32::from_le_bytes([bytes[0], bytes[1], bytes[2], bytes[3]])
}

/// The general status and the extended word of a read that is turned away.
fn status(turned: u64) -> (u8, u16) {
    (turned as u8, (turned >> 8) as u16)
}

fn run() -> Result<(), String> {
    let bench = Tables {
        structures: &[[0, 8, 0x100, 0x1234, 4, 0, 1, 0, 0, 8]],
        members: &[[8, 3, 0xC1, 0, 0, 2, 0, 0, 0]], // Run: bit 2 of byte 0
        programs: &[],
        tags: &[
            [0, 0, 5, 1, 0xC4, 0, 0, 0, 1, 0, 0, 0],              // Count, a DINT
            [0, 5, 4, 2, 0xC4, 10, 0, 0, 10, 0, 0, 4],            // Rows, 10 DINTs
            [0, 9, 4, 0xFFFF_FFFF, 0x100, 0, 0, 0, 1, 0, 0, 44],  // Cell
        ],
        others: &[],
        names: b"CellTypeRun",
        tag_names: b"CountRowsCell",
        templates: &[1, 2, 3, 4, 5, 6, 7, 8],
    };
    let mut memory = [0u8; 48];
    memory[0] = 42; // Count
    for i in 0..10u8 {
        memory[4 + 4 * usize::from(i)] = i * i; // Rows: 0, 1, 4, 9 ..
    }
    memory[44] = 4; // Cell.Run is on
    let told = bench.breach(&memory);
    if told[0] != 0 {
        return Err(format!("table {}, row {}: rule {}", told[1], told[2], told[0]));
    }

    let (mut reply, mut joined) = ([0u8; 22], Vec::new());
    let limit = reply.len();
    loop {
        // 0x52, the path `Rows`, 10 elements, and as the offset what is there already
        let mut request = b"\x52\x03\x91\x04Rows\x0A\x00".to_vec();
        request.extend((joined.len() as u32).to_le_bytes());
        let length = bench.message(&mut memory, &request, limit, &mut reply);
        if length >= REFUSED {
            return Err(format!("refused by entry item {}", length - REFUSED));
        }
        if !matches!(reply[2], 0 | 6) || length <= 6 {
            return Err(format!("status 0x{:02X} after {} bytes", reply[2], joined.len()));
        }
        // service, 0, status, 0 and the type, then the data
        let data = &reply[6..length as usize];
        println!("{} bytes, status 0x{:02X}", data.len(), reply[2]);
        joined.extend(data);
        if reply[2] == 0 {
            break;
        }
    }

    // the same done by the library: the joined bytes are those selected
    let mut whole = [0u8; 40];
    let bytes = bench.read_whole(&mut memory, b"\x91\x04Rows", 10, limit, &mut reply, &mut whole);
    if bytes != joined.len() as u64 || joined != whole {
        return Err("the whole read differs".into());
    }
    for (i, row) in joined.chunks(4).enumerate() {
        println!("Rows[{i}] = {}", number(row));
    }

    // eleven elements of ten, and a tag that is not there
    let beyond = status(bench.read_whole(&mut memory, b"\x91\x04Rows", 11, limit, &mut reply, &mut whole));
    let unknown = status(bench.read_whole(&mut memory, b"\x91\x04None", 1, limit, &mut reply, &mut whole));
    println!(
        "turned away: status 0x{:02X}, word 0x{:04X}; status 0x{:02X}, word 0x{:04X}",
        beyond.0, beyond.1, unknown.0, unknown.1
    );

    // all symbols of the controller's scope by attribute 1: the ID, then the name behind its length
    let mut symbols = [0u8; 64];
    let bytes = bench.list_whole(&mut memory, b"", &[1, 0, 1, 0], limit, &mut reply, &mut symbols);
    if bytes >= REFUSED {
        return Err(format!("the symbols are not listed: 0x{bytes:X}"));
    }
    let mut left = &symbols[..bytes as usize];
    while left.len() >= 6 {
        let end = 6 + usize::from(left[4]);
        println!("symbol {} {}", number(left), String::from_utf8_lossy(&left[6..end]));
        left = &left[end..];
    }

    // two masked writes to Count, bit 0 on with the bits from 4 on off, then bits 4 to 7 on, sent as one
    println!("Count = {}", number(&memory));
    let (mut ors, mut ands) = ([0x01, 0, 0, 0], [0x0F, 0, 0, 0]);
    if !join_masks(&mut ors, &mut ands, &[0xF0, 0, 0, 0], &[0xFF, 0, 0, 0]) {
        return Err("the clicks were not taken".into());
    }
    let request = [&b"\x4E\x04\x91\x05Count\x00\x04\x00"[..], &ors, &ands].concat();
    if bench.message(&mut memory, &request, limit, &mut reply) >= REFUSED || reply[2] != 0 {
        return Err("the clicks were not taken".into());
    }
    println!("Count = {} after two clicks in one", number(&memory));
    Ok(())
}

fn main() {
    if let Err(what) = run() {
        println!("{what}");
        std::process::exit(1);
    }
}
