//! A PCI Express header codec, board planner, packet router and trace annotator: Rust types over the proved library.
//!
//! A board is planned as a register sheet, and a packet is routed over the sheet to the card that owns its address; or there is
//! a [`Refusal`], a number with its words. Nothing is guessed.
//!
#![cfg_attr(feature = "alloc", doc = "```")]
#![cfg_attr(not(feature = "alloc"), doc = "```ignore")]
//! use cartsundial::{route, Board, Refusal, Sheet};
//!
//! let board: Board = "host buses 00-1F low E0000000+64M high 16G+4G io 2000-5FFF
//!     bridge 01.0 \"slot\"
//!       card 00.0 \"capture\" mem32 64K, mem64p 256M
//!       card 01.0 \"timecode\" mem32 4K, io 128"
//!     .parse()?;
//! let sheet = Sheet::new(board.plan()?)?;
//! for function in sheet.functions() {
//!     let name = board.function(function.record).and_then(|one| one.name.as_deref());
//!     println!("{} {name:?}: {:X?}", function.id, function.bars().map(|bar| bar.range()).collect::<Vec<_>>());
//! }
//!
//! // A memory write of one dword at E0000010, as captured: it goes to record 2, over one bridge.
//! let header = [0x40, 0, 0, 1, 0, 0, 0x21, 0x0F, 0xE0, 0x00, 0x00, 0x10];
//! let arrival = route(&header, sheet.bytes())?;
//! let delivery = arrival.delivery().expect("only messages go to many functions, or to none");
//! assert_eq!((delivery.record, delivery.id.to_string(), delivery.bridges), (2, "01:00.0".to_string(), 1));
//! assert_eq!(board.function(2).unwrap().name.as_deref(), Some("capture"));
//!
//! // 1 MiB further nobody has the address.
//! let header = [0x40, 0, 0, 1, 0, 0, 0x21, 0x0F, 0xE0, 0x10, 0x00, 0x10];
//! assert_eq!(route(&header, sheet.bytes()), Err(Refusal::NoOwner));
//! assert_eq!(Refusal::NoOwner.to_string(), "refused 40: no owner");
//! # Ok::<(), Box<dyn std::error::Error>>(())
//! ```
//!
//! | for | call |
//! |---|---|
//! | a board, built or from its text | [`Board`] |
//! | a board as a register sheet | [`plan`], [`Board::plan`] |
//! | what a board needs; for whom it is refused, and what finds no room | [`plan_where`], [`what_does_not_fit`] |
//! | a board's bridges, and the buses and memory that each keeps free | [`bridges`] |
//! | a sheet that is checked once and then asked: functions, BARs, windows, buses | [`Sheet`], [`Function`] |
//! | a sheet: is it lawful, a function's registers, its command word | [`check`], [`registers`], [`set_command`] |
//! | its functions one by one, or from a record to its ID | [`functions()`], [`id_of`] |
//! | where a packet goes: a function, every function, the port | [`route`] |
//! | the same for many headers over one sheet | [`Index`] |
//! | where a request goes that starts at a function: another function, the host | [`route_from`] |
//! | both ends of a packet: from whom it comes, by the ID in its header, and where it goes | [`sent()`], [`sender`] |
//! | a line for each header of a trace, over a sheet or by an index: in pieces, of a whole one, as bytes come | [`Annotator`], [`lines()`], [`Labeller`] |
//! | the same with both ends of each packet | [`Engine::both_ends`] |
//! | what each of these costs | [`Engine`] |
//! | the headers of a trace, and a trace of headers | [`headers()`], [`TraceWriter`] |
//! | is a sheet that other firmware left in order, for a host | [`audit`] |
//! | the same, and which record is not, where, and which other one it meets | [`audit_where`] |
//! | has every address on it one owner, wherever firmware put prefetchable memory | [`sound`], without a host record [`sound_alone`] |
//! | which requests wait for completions, and what a completion belongs to | [`Ledger`] |
//! | a board as configuration writes, in the order in which boot code makes them | [`write_script`], [`writes`] |
//! | a header's bytes as a packet, and back | [`read()`], [`write()`] |
//! | a packet's fields, and a packet or a header of fields | [`Packet::fields`], [`Packet::new`], [`Fields::write`] |
//! | the same calls with numbers in place of types | [`calls`] |
//!
//! # What is proved
//!
//! The archive is compiled from proved code: what each call answers, and what the lent bytes then hold, is an equation with
//! document 01's definitions, for every input. This crate adds types, a board's text, and no rules of its
//! own. Any bytes may be given; each call ends with an answer or a [`Refusal`], and a refused call changes no lent byte.
//! docs/FORMATS.md in the repository is document 01 in our own words: headers, boards and sheets byte by byte, which of a
//! function's registers boot code is to write, and every rule. A header is given in the order of the link, byte 0 first and each
//! number's high byte first.
//!
//! # Features
//!
//! | feature | what it adds | what it needs |
//! |---|---|---|
//! | none, the default | all that is not named below | `core`: the crate is `no_std` |
//! | `alloc` | [`Board`], built or read from a text, with [`BoardFunction`] and [`BoardTextError`]; [`TraceWriter`] | an allocator |
//! | `std` | `alloc`, [`Labeller`], which implements `std::io::Write`, and [`Index::new`], in a vector | the standard library |
//!
//! # The archive
//!
//! The build script links it, for x86-64 and ELF only. It looks, in this order, into the folder that the environment variable
//! `CARTSUNDIAL_LIB_DIR` names, with `libcartsundial.a` or `libcapi.a`; into the repository's `target/staticlib`, where
//! `make library` writes it, if the crate is there; and where pkg-config finds `cartsundial`, of this version, as
//! `make install` leaves it. Wherever it was found, the archive is asked for its version; another one than this crate's is refused.
//!
//! # In boot code
//!
//! No call allocates, keeps anything or waits. A call takes 64 KiB of stack at most, as from C; that is measured, not proved, and a
//! thread's own library takes its part on top. A call that runs where interrupts are handled on the same stack (ring 0) must not be interrupted: the archive uses
//! the red zone; include/cartsundial.h says more.
//!
//! Nobody may change a slice of a call while it runs, also one that is only read: a call counts on what it found when it looks
//! again, and writes anywhere if that has changed. For a program's own memory the borrows see to it. Memory that a device or
//! another process can still write (a ring of captured headers, a mapped file) is none that a slice may be made of: copy it
//! first.
//!
// What is not built has no page: its name leads to the features.
#![cfg_attr(not(feature = "alloc"), doc = "[`Board`]: #features\n[`Board::plan`]: #features")]
#![cfg_attr(not(feature = "alloc"), doc = "[`BoardFunction`]: #features\n[`BoardTextError`]: #features")]
#![cfg_attr(not(feature = "alloc"), doc = "[`TraceWriter`]: #features")]
#![cfg_attr(not(feature = "std"), doc = "[`Labeller`]: #features\n[`Index::new`]: #features")]
#![no_std]
#![deny(missing_docs)]

#[cfg(feature = "alloc")]
extern crate alloc;
#[cfg(feature = "std")]
extern crate std;

mod annotator;
mod arrival;
mod bar;
mod board;
#[cfg(feature = "alloc")]
mod board_text;
#[cfg(feature = "alloc")]
mod built;
pub mod calls;
mod cards;
mod engine;
mod fields;
mod finding;
mod functions;
mod host;
mod id;
mod index;
mod kind;
mod label;
#[cfg(feature = "std")]
mod labeller;
mod ledger;
mod lines;
mod packet;
mod plan_finding;
mod pool;
mod refusal;
mod requests;
mod script;
mod sent;
mod sheet;
mod size;
mod trace;
mod version;

pub use annotator::{Annotator, LONGEST_LINE};
pub use arrival::{route, Arrival, Delivery};
pub use bar::{Bar, BarKind};
pub use board::{bridges, Bridge, Spares};
#[cfg(feature = "alloc")]
pub use board_text::BoardTextError;
#[cfg(feature = "alloc")]
pub use built::{Board, BoardFunction};
pub use cards::route_from;
pub use engine::Engine;
pub use fields::{Body, Enables, Fields};
pub use finding::{audit_where, Finding, Party, Place};
pub use functions::{functions, Buses, Function, PlacedBar, Windows};
pub use host::{audit, sound, sound_alone, HostRecord};
pub use id::{Id, NoId};
pub use index::{index_length, Index, FULL_INDEX};
pub use kind::{CompletionKind, ConfigurationKind, Form, IoKind, Kind, MemoryKind, MessageKind, NoKind, Routing};
pub use label::{Label, NoLabel, Owner};
#[cfg(feature = "std")]
pub use labeller::Labeller;
pub use ledger::{Completed, Ledger, OpenRequest, RequestKind};
pub use lines::{lines, Line, Lines};
pub use packet::{read, write, Packet};
pub use plan_finding::{plan_where, what_does_not_fit, Needs, PlanFinding, PlanParty};
pub use pool::Pool;
pub use refusal::{NoRefusal, Refusal};
pub use script::{write_script, writes, RegisterWrite, Writes, FULL_SCRIPT};
pub use sent::{sender, sent, Sender, Sent};
pub use sheet::Sheet;
pub use size::{NoSize, Size};
#[cfg(feature = "alloc")]
pub use trace::TraceWriter;
pub use trace::{headers, Headers};

/// The length of the largest sheet: a version byte and 512 records.
pub const FULL_SHEET: usize = 47_105;

/// The length of a function's configuration header.
pub const REGISTERS: usize = 64;

/// Plans `board` at the start of `sheet` and returns the sheet's length, at most [`FULL_SHEET`]. Nothing past it is
/// written. A board is planned whole or refused.
pub fn plan(board: &[u8], sheet: &mut [u8]) -> Result<usize, Refusal> {
    let mut written = [0];
    accepted(calls::plan(board, sheet, &mut written))?;
    Ok(written[0] as usize)
}

/// Checks a sheet: 20 to 29 in document 01's order. The whole slice is the sheet.
pub fn check(sheet: &[u8]) -> Result<(), Refusal> {
    accepted(calls::check(sheet))
}

/// The 64 register bytes of the function with this ID, inside the lent sheet.
pub fn registers(sheet: &[u8], id: Id) -> Result<&[u8; REGISTERS], Refusal> {
    let mut offset = [0];
    accepted(calls::lookup(sheet, id.0.into(), &mut offset))?;
    let part = sheet.get(offset[0] as usize..).and_then(<[u8]>::first_chunk);
    Ok(part.expect("a function's registers lie inside its sheet"))
}

/// The ID of the function with this record number, from 1.
pub fn id_of(sheet: &[u8], record: u16) -> Result<Id, Refusal> {
    let mut id = [0];
    accepted(calls::id(sheet, record.into(), &mut id))?;
    Ok(Id(id[0] as u16))
}

/// Rewrites the command word of the function with this ID, and no other byte.
pub fn set_command(sheet: &mut [u8], id: Id, command: u16) -> Result<(), Refusal> {
    accepted(calls::command(sheet, id.0.into(), command.into()))
}

/// 0 is accepted, any other number the refusal.
#[inline]
fn accepted(number: u32) -> Result<(), Refusal> {
    match number {
        0 => Ok(()),
        _ => Err(refused(number)),
    }
}

/// The refusal that a call answered with.
#[inline]
fn refused(number: u32) -> Refusal {
    Refusal::try_from(number).expect("the library answers with document 01's numbers")
}
