//! The library's calls as it has them: slices in, numbers out.
//!
//! Each returns 0 or document 01's number. A refused call changes nothing that it was lent, but for [`plan_where`] and
//! [`audit_where`], whose answer is about a refusal. An answer slice that is too short is 11, tried last; numbers past the
//! answer's own are left as they were.

#![allow(unsafe_code)]

/// How many numbers a packet has: kind, form, TC, Attr, TD, EP, AT, Length, requester, tag, last enables, first
/// enables, address, target, register, completer, status, BCM, byte count, lower address. A message has its routing, its
/// code and bytes 8 to 15 where a request has its enables and address. A field that the kind does not have is 0.
pub const PACKET: usize = 20;

/// How many numbers the answer to [`route`] and [`find`] has: record, bridges, and the packet as it arrives. Only of a broadcast are
/// there more.
pub const ROUTE: usize = 2 + PACKET;

/// How many numbers are always enough for [`route`], and for [`find`] in an index that was built: a broadcast's answer ends
/// with the record of every function.
pub const ANY_ROUTE: usize = ROUTE + 512;

/// How many numbers the answer to [`route_sent`] has: sender, where the packet goes, then as [`ROUTE`]. Only of a broadcast are
/// there more.
pub const SENT: usize = 2 + ROUTE;

/// How many numbers are always enough for [`route_sent`].
pub const ANY_SENT: usize = SENT + 512;

/// How many numbers the state of a trace has, in [`annotate`], [`label`] and [`annotate_end`]. All zero is a trace of which
/// nothing was read yet.
pub const TRACE: usize = 6;

/// How many numbers a ledger of open requests has, in [`ledger_open`], [`ledger_complete`] and [`ledger_count`]. All zero is
/// an empty one, and any numbers are a ledger.
pub const LEDGER: usize = 256;

/// How many numbers [`audit_where`] answers with: a record and its place, another record and its place. A place is 0 to 5
/// for a BAR slot, 6 the low, 7 the high and 8 the I/O window, 9 the bus registers, 10 the ID.
pub const WHO: usize = 4;

/// How many numbers [`plan_where`] answers with: as [`WHO`], then how many bus numbers the board needs, and how many bytes of the
/// low, the high and the I/O pool; then for each of these an alignment: where the pool is closed, the bytes are enough from any
/// multiple of it. A slice for 8 to 10 numbers gets the first 8.
pub const PLAN_WHO: usize = 11;

pub use crate::version::VERSION;

/// What a call answers where its answer does not fit the slice for it: tried last, so it would have been accepted.
pub const SHORT: u32 = 11;

mod c {
    // The archive is compiled for the System V convention, whatever the target's own is.
    extern "sysv64" {
        pub fn cartsundial_version() -> u32;
        pub fn cartsundial_read(header: *const u8, header_len: usize, packet: *mut u64, packet_len: usize) -> u32;
        pub fn cartsundial_judge(header: *const u8, header_len: usize) -> u32;
        pub fn cartsundial_write(
            packet: *const u64,
            packet_len: usize,
            room: *mut u8,
            room_len: usize,
            written: *mut u64,
            written_len: usize,
        ) -> u32;
        pub fn cartsundial_plan(
            board: *const u8,
            board_len: usize,
            sheet: *mut u8,
            sheet_len: usize,
            written: *mut u64,
            written_len: usize,
        ) -> u32;
        pub fn cartsundial_plan_where(board: *const u8, board_len: usize, who: *mut u64, who_len: usize) -> u32;
        pub fn cartsundial_script(
            board: *const u8,
            board_len: usize,
            requester: u32,
            first_tag: u32,
            script: *mut u8,
            script_len: usize,
            written: *mut u64,
            written_len: usize,
        ) -> u32;
        pub fn cartsundial_check(sheet: *const u8, sheet_len: usize) -> u32;
        pub fn cartsundial_audit(host: *const u8, host_len: usize, sheet: *const u8, sheet_len: usize) -> u32;
        pub fn cartsundial_sound(host: *const u8, host_len: usize, sheet: *const u8, sheet_len: usize) -> u32;
        pub fn cartsundial_sound_alone(sheet: *const u8, sheet_len: usize) -> u32;
        pub fn cartsundial_audit_where(
            host: *const u8,
            host_len: usize,
            sheet: *const u8,
            sheet_len: usize,
            who: *mut u64,
            who_len: usize,
        ) -> u32;
        pub fn cartsundial_lookup(
            sheet: *const u8,
            sheet_len: usize,
            id: u32,
            offset: *mut u64,
            offset_len: usize,
        ) -> u32;
        pub fn cartsundial_id(sheet: *const u8, sheet_len: usize, record: u32, id: *mut u64, id_len: usize) -> u32;
        pub fn cartsundial_command(sheet: *mut u8, sheet_len: usize, id: u32, command: u32) -> u32;
        pub fn cartsundial_route(
            header: *const u8,
            header_len: usize,
            sheet: *const u8,
            sheet_len: usize,
            answer: *mut u64,
            answer_len: usize,
        ) -> u32;
        pub fn cartsundial_route_from(
            record: u32,
            header: *const u8,
            header_len: usize,
            sheet: *const u8,
            sheet_len: usize,
            answer: *mut u64,
            answer_len: usize,
        ) -> u32;
        pub fn cartsundial_sender(
            host_id: u64,
            header: *const u8,
            header_len: usize,
            sheet: *const u8,
            sheet_len: usize,
            sender: *mut u64,
            sender_len: usize,
        ) -> u32;
        pub fn cartsundial_route_sent(
            host_id: u64,
            header: *const u8,
            header_len: usize,
            sheet: *const u8,
            sheet_len: usize,
            answer: *mut u64,
            answer_len: usize,
        ) -> u32;
        pub fn cartsundial_index(
            host: *const u8,
            host_len: usize,
            sheet: *const u8,
            sheet_len: usize,
            index: *mut u8,
            index_len: usize,
        ) -> u32;
        pub fn cartsundial_index_sound(
            host: *const u8,
            host_len: usize,
            sheet: *const u8,
            sheet_len: usize,
            index: *mut u8,
            index_len: usize,
        ) -> u32;
        pub fn cartsundial_index_alone(sheet: *const u8, sheet_len: usize, index: *mut u8, index_len: usize) -> u32;
        pub fn cartsundial_find(
            header: *const u8,
            header_len: usize,
            index: *const u8,
            index_len: usize,
            answer: *mut u64,
            answer_len: usize,
        ) -> u32;
        pub fn cartsundial_annotate(
            state: *mut u64,
            state_len: usize,
            sheet: *const u8,
            sheet_len: usize,
            piece: *const u8,
            piece_len: usize,
            lines: *mut u8,
            lines_len: usize,
            written: *mut u64,
            written_len: usize,
        ) -> u32;
        pub fn cartsundial_label(
            state: *mut u64,
            state_len: usize,
            index: *const u8,
            index_len: usize,
            piece: *const u8,
            piece_len: usize,
            lines: *mut u8,
            lines_len: usize,
            written: *mut u64,
            written_len: usize,
        ) -> u32;
        pub fn cartsundial_follow(
            host_id: u64,
            state: *mut u64,
            state_len: usize,
            sheet: *const u8,
            sheet_len: usize,
            piece: *const u8,
            piece_len: usize,
            lines: *mut u8,
            lines_len: usize,
            written: *mut u64,
            written_len: usize,
        ) -> u32;
        pub fn cartsundial_annotate_end(
            state: *const u64,
            state_len: usize,
            lines: *mut u8,
            lines_len: usize,
            written: *mut u64,
            written_len: usize,
        ) -> u32;
        pub fn cartsundial_ledger_open(
            ledger: *mut u64,
            ledger_len: usize,
            header: *const u8,
            header_len: usize,
        ) -> u32;
        pub fn cartsundial_ledger_complete(
            ledger: *mut u64,
            ledger_len: usize,
            header: *const u8,
            header_len: usize,
        ) -> u32;
        pub fn cartsundial_ledger_count(
            ledger: *const u64,
            ledger_len: usize,
            count: *mut u64,
            count_len: usize,
        ) -> u32;
    }
}

// SAFETY, of every call below: each pointer comes from a slice and goes with that slice's length; a slice's pointer is
// never null, not even of an empty one. The borrows last for the call: nobody changes what it reads, and a slice that is
// written is borrowed alone. The library is proved to touch nothing else, for any contents and any lengths.

/// The version of the archive, as [`VERSION`] is that of this crate.
pub fn version() -> u32 {
    unsafe { c::cartsundial_version() }
}

/// Reads the header at the start of `header` into the first [`PACKET`] numbers of `packet`.
#[inline]
pub fn read(header: &[u8], packet: &mut [u64]) -> u32 {
    unsafe { c::cartsundial_read(header.as_ptr(), header.len(), packet.as_mut_ptr(), packet.len()) }
}

/// The number that [`read`] gives the header at the start of `header`, with no numbers to write: 0 where it is read.
#[inline]
pub fn judge(header: &[u8]) -> u32 {
    unsafe { c::cartsundial_judge(header.as_ptr(), header.len()) }
}

/// Writes the packet that the first [`PACKET`] numbers are to the start of `room`, and the header's length to
/// `written`.
///
/// Fewer numbers are 11, before anything else; a number that its field cannot hold, and one in a field that the kind
/// does not have, are 10.
#[inline]
pub fn write(packet: &[u64], room: &mut [u8], written: &mut [u64]) -> u32 {
    unsafe {
        c::cartsundial_write(
            packet.as_ptr(),
            packet.len(),
            room.as_mut_ptr(),
            room.len(),
            written.as_mut_ptr(),
            written.len(),
        )
    }
}

/// Plans a board to the start of `sheet`, and writes the sheet's length to `written`.
pub fn plan(board: &[u8], sheet: &mut [u8], written: &mut [u64]) -> u32 {
    unsafe {
        c::cartsundial_plan(
            board.as_ptr(),
            board.len(),
            sheet.as_mut_ptr(),
            sheet.len(),
            written.as_mut_ptr(),
            written.len(),
        )
    }
}

/// The number that [`plan`] gives a board, but for the room of its sheet, and writes to `who` whom it is about and what the board
/// needs: [`PLAN_WHO`] numbers. Record and place, and the other record and place, are 0 where there is none; what is needed is 0
/// where the board fails its own checks. A refusal leaves them too. Where `who` has room for eight to ten, it gets the first eight;
/// where it has room for fewer it stays, and 0 becomes 11.
pub fn plan_where(board: &[u8], who: &mut [u64]) -> u32 {
    unsafe { c::cartsundial_plan_where(board.as_ptr(), board.len(), who.as_mut_ptr(), who.len()) }
}

/// Writes the plan of a board as configuration writes to the start of `script`, 18 bytes each, and their length to
/// `written`.
///
/// A requester above FFFFh or a tag above FFh is 10, before the board is read.
pub fn script(board: &[u8], requester: u32, first_tag: u32, script: &mut [u8], written: &mut [u64]) -> u32 {
    unsafe {
        c::cartsundial_script(
            board.as_ptr(),
            board.len(),
            requester,
            first_tag,
            script.as_mut_ptr(),
            script.len(),
            written.as_mut_ptr(),
            written.len(),
        )
    }
}

/// Checks a sheet.
pub fn check(sheet: &[u8]) -> u32 {
    unsafe { c::cartsundial_check(sheet.as_ptr(), sheet.len()) }
}

/// Audits a sheet for the bytes of a host record. Other than 30 bytes are 20, before the sheet is read.
pub fn audit(host: &[u8], sheet: &[u8]) -> u32 {
    unsafe { c::cartsundial_audit(host.as_ptr(), host.len(), sheet.as_ptr(), sheet.len()) }
}

/// The same with 51 asked of the address space and not of the kind.
pub fn sound(host: &[u8], sheet: &[u8]) -> u32 {
    unsafe { c::cartsundial_sound(host.as_ptr(), host.len(), sheet.as_ptr(), sheet.len()) }
}

/// The same of a sheet without a host record: the sheet's own number first, then as for the widest host that is lawful.
pub fn sound_alone(sheet: &[u8]) -> u32 {
    unsafe { c::cartsundial_sound_alone(sheet.as_ptr(), sheet.len()) }
}

/// Audits a sheet, and writes to `who` whom the number is about: the record and its place, the other record and its place.
/// Each is 0 where there is none. A refusal leaves them too; where `who` has no room for all four it stays, and 0 becomes 11.
pub fn audit_where(host: &[u8], sheet: &[u8], who: &mut [u64]) -> u32 {
    unsafe {
        c::cartsundial_audit_where(host.as_ptr(), host.len(), sheet.as_ptr(), sheet.len(), who.as_mut_ptr(), who.len())
    }
}

/// Writes to `offset` where in the sheet the 64 register bytes of the function with this ID start. No function has an
/// ID above FFFFh.
pub fn lookup(sheet: &[u8], id: u32, offset: &mut [u64]) -> u32 {
    unsafe { c::cartsundial_lookup(sheet.as_ptr(), sheet.len(), id, offset.as_mut_ptr(), offset.len()) }
}

/// Writes to `id` the ID of the function with this record number, from 1.
pub fn id(sheet: &[u8], record: u32, id: &mut [u64]) -> u32 {
    unsafe { c::cartsundial_id(sheet.as_ptr(), sheet.len(), record, id.as_mut_ptr(), id.len()) }
}

/// Rewrites the command word of the function with this ID. A word above FFFFh is 10, before the sheet is read.
pub fn command(sheet: &mut [u8], id: u32, command: u32) -> u32 {
    unsafe { c::cartsundial_command(sheet.as_mut_ptr(), sheet.len(), id, command) }
}

/// Routes a header over a sheet into the first [`ROUTE`] numbers of `answer`.
///
/// | answer | record | bridges | after the packet |
/// |---|---|---|---|
/// | one function | its record, from 1 | crossed | |
/// | every function | 0 | how many functions | their records, in order |
/// | the port | 0 | 0 | |
pub fn route(header: &[u8], sheet: &[u8], answer: &mut [u64]) -> u32 {
    unsafe {
        c::cartsundial_route(
            header.as_ptr(),
            header.len(),
            sheet.as_ptr(),
            sheet.len(),
            answer.as_mut_ptr(),
            answer.len(),
        )
    }
}

/// Routes a request from the function with this record number, from 1, into the first [`ROUTE`] numbers of `answer`.
///
/// | answer | record | bridges |
/// |---|---|---|
/// | another function | its record, from 1 | crossed, up and down |
/// | the host | 0 | crossed, up |
pub fn route_from(record: u32, header: &[u8], sheet: &[u8], answer: &mut [u64]) -> u32 {
    unsafe {
        c::cartsundial_route_from(
            record,
            header.as_ptr(),
            header.len(),
            sheet.as_ptr(),
            sheet.len(),
            answer.as_mut_ptr(),
            answer.len(),
        )
    }
}

/// Writes to `sender` who sent a packet: 0 for the host, else the record of the function whose ID the header names.
///
/// A host ID above FFFFh is 10, before the header is read.
pub fn sender(host_id: u64, header: &[u8], sheet: &[u8], sender: &mut [u64]) -> u32 {
    unsafe {
        c::cartsundial_sender(
            host_id,
            header.as_ptr(),
            header.len(),
            sheet.as_ptr(),
            sheet.len(),
            sender.as_mut_ptr(),
            sender.len(),
        )
    }
}

/// Routes a packet from whom its header names into the first [`SENT`] numbers of `answer`: the sender as [`sender`] has it, where
/// the packet goes, and then
///
/// | where | record | bridges | after the packet |
/// |---|---|---|---|
/// | 0, one function | its record, from 1 | crossed, up and down | |
/// | 1, the host | 0 | crossed, up | |
/// | 2, the port | 0 | 0 | |
/// | 3, every function | 0 | how many functions | their records, in order |
///
/// A host ID above FFFFh is 10, before the header is read.
pub fn route_sent(host_id: u64, header: &[u8], sheet: &[u8], answer: &mut [u64]) -> u32 {
    unsafe {
        c::cartsundial_route_sent(
            host_id,
            header.as_ptr(),
            header.len(),
            sheet.as_ptr(),
            sheet.len(),
            answer.as_mut_ptr(),
            answer.len(),
        )
    }
}

/// Builds the index of a sheet for the bytes of a host record at the start of `index`: 1,024 bytes, and 256 a function.
///
/// The audit's number comes first, then 11 for a shorter slice.
pub fn index(host: &[u8], sheet: &[u8], index: &mut [u8]) -> u32 {
    unsafe {
        c::cartsundial_index(host.as_ptr(), host.len(), sheet.as_ptr(), sheet.len(), index.as_mut_ptr(), index.len())
    }
}

/// The same by the number of [`sound`] in place of the audit's.
pub fn index_sound(host: &[u8], sheet: &[u8], index: &mut [u8]) -> u32 {
    let (bytes, len) = (index.as_mut_ptr(), index.len());
    unsafe { c::cartsundial_index_sound(host.as_ptr(), host.len(), sheet.as_ptr(), sheet.len(), bytes, len) }
}

/// The same for a sheet without a host record, by the number of [`sound_alone`].
pub fn index_alone(sheet: &[u8], index: &mut [u8]) -> u32 {
    unsafe { c::cartsundial_index_alone(sheet.as_ptr(), sheet.len(), index.as_mut_ptr(), index.len()) }
}

/// Routes a header by an index: what [`route`] answers over the sheet that it was built from. On other bytes the call ends
/// too, with an answer or a number; a broadcast can then be for up to 65,535 functions.
pub fn find(header: &[u8], index: &[u8], answer: &mut [u64]) -> u32 {
    unsafe {
        c::cartsundial_find(
            header.as_ptr(),
            header.len(),
            index.as_ptr(),
            index.len(),
            answer.as_mut_ptr(),
            answer.len(),
        )
    }
}

/// Takes the next piece of a trace: writes the line of each record that ends in it to the start of `lines`, how many bytes
/// they are to `written`, and to the first [`TRACE`] numbers of `state` how far the trace was read.
///
/// Fewer numbers of state are 11, and numbers that are no state 10, both before anything else. Lines that do not fit are
/// 11: the piece is not taken.
pub fn annotate(state: &mut [u64], sheet: &[u8], piece: &[u8], lines: &mut [u8], written: &mut [u64]) -> u32 {
    unsafe {
        c::cartsundial_annotate(
            state.as_mut_ptr(),
            state.len(),
            sheet.as_ptr(),
            sheet.len(),
            piece.as_ptr(),
            piece.len(),
            lines.as_mut_ptr(),
            lines.len(),
            written.as_mut_ptr(),
            written.len(),
        )
    }
}

/// Takes the next piece of a trace as [`annotate`] does, by an index: over one that was built, the lines are those over its
/// sheet. On other bytes each header gets what [`find`] answers by them.
pub fn label(state: &mut [u64], index: &[u8], piece: &[u8], lines: &mut [u8], written: &mut [u64]) -> u32 {
    unsafe {
        c::cartsundial_label(
            state.as_mut_ptr(),
            state.len(),
            index.as_ptr(),
            index.len(),
            piece.as_ptr(),
            piece.len(),
            lines.as_mut_ptr(),
            lines.len(),
            written.as_mut_ptr(),
            written.len(),
        )
    }
}

/// Takes the next piece of a trace as [`annotate`] does, with both ends of each packet: `host_id` is the host's own ID, and
/// above FFFFh 10, before anything else. A line is `4 MWr from 3 to host`, and at most 51 bytes long.
pub fn follow(
    host_id: u64,
    state: &mut [u64],
    sheet: &[u8],
    piece: &[u8],
    lines: &mut [u8],
    written: &mut [u64],
) -> u32 {
    unsafe {
        c::cartsundial_follow(
            host_id,
            state.as_mut_ptr(),
            state.len(),
            sheet.as_ptr(),
            sheet.len(),
            piece.as_ptr(),
            piece.len(),
            lines.as_mut_ptr(),
            lines.len(),
            written.as_mut_ptr(),
            written.len(),
        )
    }
}

/// Writes the line that a trace gets if it ends here, if any, to the start of `lines`, and how many bytes it is to
/// `written`. The numbers are those of [`annotate`]; ending needs no sheet and no index.
pub fn annotate_end(state: &[u64], lines: &mut [u8], written: &mut [u64]) -> u32 {
    unsafe {
        c::cartsundial_annotate_end(
            state.as_ptr(),
            state.len(),
            lines.as_mut_ptr(),
            lines.len(),
            written.as_mut_ptr(),
            written.len(),
        )
    }
}

/// Opens the request of a header in the first [`LEDGER`] numbers of `ledger`. Fewer are 11, before anything else; then the
/// header's number, 60, 61 or 62.
pub fn ledger_open(ledger: &mut [u64], header: &[u8]) -> u32 {
    unsafe { c::cartsundial_ledger_open(ledger.as_mut_ptr(), ledger.len(), header.as_ptr(), header.len()) }
}

/// Completes a request by a header, in the first [`LEDGER`] numbers of `ledger`. Fewer are 11, before anything else; then the
/// header's number, 60, 63, 64 or 65.
pub fn ledger_complete(ledger: &mut [u64], header: &[u8]) -> u32 {
    unsafe { c::cartsundial_ledger_complete(ledger.as_mut_ptr(), ledger.len(), header.as_ptr(), header.len()) }
}

/// Writes to `count` how many requests are open in the first [`LEDGER`] numbers of `ledger`. Fewer are 11.
pub fn ledger_count(ledger: &[u64], count: &mut [u64]) -> u32 {
    unsafe { c::cartsundial_ledger_count(ledger.as_ptr(), ledger.len(), count.as_mut_ptr(), count.len()) }
}
