//! `route`: where a header goes from the host, from a card, or from whom it names.

use crate::arguments::{Arguments, Options};
use crate::failure::{Answer, Failure, Verdict};
use crate::filters::function;
use crate::full::{is_full, FULL};
use crate::json::{self, Object};
use crate::logged::{are_followed, headers_of, Logged};
use crate::named::NamedSheet;
use crate::output::Lines;
use crate::source::{read_id, Source};
use crate::{members, words};
use cartsundial::{read, route, route_from, sender as sender_of, sent};
use cartsundial::{Arrival, Delivery, Function, Id, Owner, Packet, Refusal, Sender, Sent};

pub const OPTIONS: Options = Options {
    flags: &["--sent", "--json", FULL],
    values: &["--from", "--host-id"],
    needs: &[("--host-id", &["--sent"])],
    apart: &[&["--from", "--sent"]],
    ..Options::NONE
};

pub const HELP: &str = "\
cartsundial route SHEET [HEADER..] [--from ID | --sent [--host-id ID]]

Where each header goes over a sheet, or over the plan of a board: the function with its BAR and the offset in it, and the
bridges on the way. Headers are hexadecimal in any spacing; words of up to eight digits are one header together. With - or
without any they come from standard input, one to a line, or out of a log with `TLP Header:` lines.

  --from ID           the function that sends the request, as 03:00.0; without it a header starts at the host
  --sent              from whom the header names: a completion's completer, else the requester; who it is is told
  --host-id ID        the host's own ID, for --sent; 00:00.0 where none is given
  --json              an object a line in place of the words
  --full              of a log each line begins with the time and with the device that logged the header

What is not hexadecimal names a file: a trace, lines with a header each, or a log. A log is followed as it grows:
dmesg -w | cartsundial route SHEET. The function of --from may also be named by its record or its name.
";

/// Where headers start.
enum Start {
    Host,
    Card(u16),
    /// With whom each one names; the host has this ID.
    Named(Id),
}

/// A header's way.
struct Routed<'a> {
    /// Who sends it; `None` where the header is refused before that is known.
    sender: Option<Sender>,
    arrival: Result<Arrival, Refusal>,
    /// The bridges above the sender, none above the host.
    up: Vec<Function<'a>>,
}

pub fn run(arguments: &Arguments) -> Answer {
    let (name, others) = arguments.first_and_others(["SHEET", "HEADER.."])?;
    let named = Source::read(name)?.into_sheet()?;
    let from = arguments.value("--from").map(|text| function("--from", text, &named)).transpose()?;
    let host_id = arguments.value("--host-id").map(read_id).transpose()?;
    let start = match (from, arguments.has("--sent")) {
        (Some(record), _) => Start::Card(record),
        (None, true) => Start::Named(host_id.unwrap_or(Id(0))),
        (None, false) => Start::Host,
    };
    let mut lines = Lines::new(are_followed(others));
    let answer = routed(arguments.has("--json"), &start, others, &named, &mut lines);
    lines.end()?;
    answer
}

fn routed(is_json: bool, start: &Start, headers: &[String], named: &NamedSheet, lines: &mut Lines) -> Answer {
    let mut are_all = true;
    for logged in headers_of(headers)? {
        let logged = logged?;
        let routed = Routed::of(start, named, &logged.header);
        are_all &= routed.arrival.is_ok();
        match lines.add(&if is_json { routed.json(&logged, named) } else { routed.text(start, &logged, named) }) {
            Err(Failure::Closed) => break,
            added => added?,
        }
    }
    Ok(Verdict::of(are_all))
}

impl<'a> Routed<'a> {
    fn of(start: &Start, named: &'a NamedSheet, header: &[u8]) -> Routed<'a> {
        let sheet = named.sheet.bytes();
        let (sender, arrival) = match start {
            Start::Host => (Some(Sender::Host), route(header, sheet)),
            Start::Card(record) => (Some(Sender::Record(*record)), route_from(*record, header, sheet)),
            Start::Named(host_id) => match sent(*host_id, header, sheet) {
                Ok(Sent { sender, arrival }) => (Some(sender), Ok(arrival)),
                // Who it is is told also where the packet is then refused.
                Err(refusal) => (sender_of(*host_id, header, sheet).ok(), Err(refusal)),
            },
        };
        let up = match sender {
            Some(Sender::Record(record)) => above(named, record),
            _ => Vec::new(),
        };
        Routed { sender, arrival, up }
    }

    fn text(&self, start: &Start, logged: &Logged, named: &NamedSheet) -> Vec<u8> {
        let from = match self.sender {
            Some(Sender::Record(record)) => format!(" from {}", named.title_of(record)),
            Some(Sender::Host) if matches!(start, Start::Named(_)) => " from the host".to_string(),
            _ => String::new(),
        };
        // What it is, also where it is refused.
        let title = read(&logged.header).map_or_else(|_| "-".to_string(), |packet| words::title(&packet));
        let arrived = match &self.arrival {
            Ok(arrival) => arrived(named, arrival, &self.up),
            Err(refusal) => refusal.to_string(),
        };
        let start = if is_full() { logged.start() } else { String::new() };
        format!("{start}{title}{from}: {arrived}\n").into_bytes()
    }

    fn json(&self, logged: &Logged, named: &NamedSheet) -> Vec<u8> {
        let mut out = Vec::new();
        json::line(&mut out, |line| {
            members::bytes(line, "header", &logged.header);
            members::logged(line, logged);
            if let Ok(packet) = read(&logged.header) {
                line.shown("kind", packet.kind());
                members::address(line, &packet);
            }
            if let Some(sender) = self.sender {
                members::from(line, sender, named);
            }
            match &self.arrival {
                Err(refusal) => members::refusal(line, *refusal),
                Ok(arrival) => self.end(line, arrival, named),
            }
        });
        out
    }

    fn end(&self, line: &mut Object, arrival: &Arrival, named: &NamedSheet) {
        let (owner, way) = match arrival {
            Arrival::Function(Delivery { record, .. }) => {
                (Owner::Function(*record), between(&self.up, &above(named, *record)))
            }
            Arrival::Host { .. } => (Owner::Host, self.up.clone()),
            Arrival::Every { .. } => (Owner::Every, Vec::new()),
            _ => (Owner::Port, Vec::new()),
        };
        members::to(line, owner, named);
        if let Owner::Function(record) = owner {
            members::place(line, record, arrival.packet(), named);
        }
        let Some(count) = arrival.bridges() else { return };
        line.number("crossed", count);
        if way.len() == usize::from(count) {
            line.list("bridges", |list| {
                way.iter().for_each(|bridge| list.object(|object| members::function(object, bridge, named)));
            });
        }
    }
}

/// Where it went, with the bridges that are above its sender, none above the host.
fn arrived(named: &NamedSheet, arrival: &Arrival, up: &[Function]) -> String {
    match arrival {
        Arrival::Function(Delivery { record, bridges, packet, .. }) => {
            owner(named, *record, packet) + &over(named, *bridges, &between(up, &above(named, *record)))
        }
        Arrival::Host { bridges, .. } => "the host".to_string() + &over(named, *bridges, up),
        Arrival::Every { functions, .. } => format!("every function, {functions} of them"),
        Arrival::Port { .. } => "the port that receives it".to_string(),
        other => format!("{other:?}"),
    }
}

/// `record 4, 03:00.0 "capture", BAR 0 + 10`.
fn owner(named: &NamedSheet, record: u16, packet: &Packet) -> String {
    let place = named.place(record, packet).map_or(String::new(), |place| format!(", {place}"));
    format!("record {record}, {}{place}", named.title_of(record))
}

/// The bridges above a record, the nearest first.
fn above(named: &NamedSheet, record: u16) -> Vec<Function<'_>> {
    let bus = named.sheet.record(record).map(|function| function.id.bus());
    bus.map_or(Vec::new(), |bus| named.sheet.bridges_above(bus).collect())
}

/// The bridges from one function up and down to another: those that are above only one of the two.
fn between<'a>(up: &[Function<'a>], down: &[Function<'a>]) -> Vec<Function<'a>> {
    let goes_up = up.iter().filter(|bridge| !down.contains(bridge));
    let goes_down = down.iter().rev().filter(|bridge| !up.contains(bridge));
    goes_up.chain(goes_down).copied().collect()
}

/// `, over 2 bridges: 00:00.0, 01:00.0`; without a list where the bus numbers do not tell those that were crossed.
fn over(named: &NamedSheet, count: u16, bridges: &[Function]) -> String {
    let names: Vec<String> = bridges.iter().map(|bridge| named.title(bridge)).collect();
    let bridges = if count == 1 { "bridge" } else { "bridges" };
    match count {
        0 => String::new(),
        _ if usize::from(count) == names.len() => format!(", over {count} {bridges}: {}", names.join(", ")),
        _ => format!(", over {count} {bridges}"),
    }
}
