//! Follows the requests of a trace, `ledger < TRACE`: which were never answered, and which completions belong to nothing.
//!
//! `cargo run --release --offline --example ledger < ../docs/example/requests`

use cartsundial::{read, Kind, Ledger, OpenRequest, Packet, Refusal};
use std::collections::HashMap;
use std::fmt::Write;
use std::io::{self, Read};

fn main() -> io::Result<()> {
    let mut trace = Vec::new();
    io::stdin().read_to_end(&mut trace)?;
    print!("{}", report(&trace));
    Ok(())
}

/// A line for each header that the ledger refuses, 63 for a completion that belongs to nothing; at the end one for each
/// request that is still open.
pub fn report(trace: &[u8]) -> String {
    let Some((1, mut rest)) = trace.split_first().map(|(&version, rest)| (version, rest)) else {
        return "no trace of version 1\n".into();
    };
    let mut lines = String::new();
    let mut ledger = Ledger::new();
    // By requester and tag, the record that asked.
    let mut askers = HashMap::new();
    let mut record = 0_u64;
    while let Some((&length, after)) = rest.split_first_chunk() {
        let Some((header, after)) = after.split_at_checked(u16::from_be_bytes(length).into()) else { break };
        (record, rest) = (record + 1, after);
        let line = match read(header) {
            Ok(packet) => match follow(&mut ledger, &packet) {
                Ok(true) => {
                    askers.insert((packet.requester(), packet.tag()), (record, packet));
                    continue;
                }
                // What is posted waits for no answer.
                Ok(false) | Err(Refusal::LedgerKind) => continue,
                Err(refusal) => format!("{} {refusal}", name(&packet)),
            },
            Err(refusal) => format!("- {refusal}"),
        };
        let _ = writeln!(lines, "{record} {line}");
    }
    if !rest.is_empty() {
        lines += "cut\n";
    }
    let mut unanswered: Vec<_> = ledger.requests().map(|open| (askers[&(open.requester, open.tag)], open)).collect();
    unanswered.sort_by_key(|((record, _), _)| *record);
    for ((record, packet), OpenRequest { kind, left, .. }) in unanswered {
        let missing = if kind.is_read() { format!(", dwords to come: {left}") } else { String::new() };
        let _ = writeln!(lines, "{record} {} not answered{missing}", name(&packet));
    }
    lines
}

/// Opens a request or completes one; whether it was opened.
fn follow(ledger: &mut Ledger, packet: &Packet) -> Result<bool, Refusal> {
    match packet.kind() {
        Kind::Cpl | Kind::CplD | Kind::CplLk | Kind::CplDLk => ledger.complete(packet.header()).map(|_| false),
        _ => ledger.open(packet.header()).map(|()| true),
    }
}

/// `CplD 01:00.0 tag 021`.
fn name(packet: &Packet) -> String {
    format!("{} {} tag {:03X}", packet.kind(), packet.requester(), packet.tag())
}
