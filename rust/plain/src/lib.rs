//! Document 01, with requests E1 to E12 and E14 of document 02 and document 03's E15, in plain, safe Rust: the header codec,
//! the board planner, the packet router, from the host, from card to card and by both ends, the trace annotator, the audit of
//! a sheet, the index, the ledger of open requests and the write script.
//!
//! Written from the documents and the readings of their open points in docs/DECISIONS.md, not from the proved code. The
//! proved library is compared with it, and the stored answers of the programs come from it ([`programs`]). Every refusal is
//! the documents' number.

mod audit;
mod bar;
mod board;
mod cards;
mod finding;
mod fit;
mod index;
pub mod ledger;
mod packet;
mod plan;
mod pool;
pub mod programs;
mod route;
mod script;
mod sent;
mod sheet;
mod trace;

pub use audit::{audit, sound, sound_alone};
pub use cards::route_from;
pub use finding::{audit_where, Finding, Party};
pub use fit::{plan_where, Fit, Needs};
pub use index::{build, build_alone, build_sound, find};
pub use packet::{read, to_numbers, write, write_numbers, Form, Kind, Packet};
pub use plan::plan;
pub use route::{route, Arrival};
pub use script::script;
pub use sent::{sender, sent, Sender, Sent};
pub use sheet::{check, id_of, listing, lookup, set_command, Sheet, FULL_SHEET};
pub use trace::{annotate, follow, label, Annotator};
