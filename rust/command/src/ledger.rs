//! `ledger`: requests never answered, and completions of nothing.

use crate::arguments::{Arguments, Options};
use crate::ends;
use crate::failure::{output_failed, print, Answer, Failure, Verdict};
use crate::filters::{Filters, Passed, FILTERS};
use crate::full::{is_full, FULL};
use crate::json;
use crate::logged::Logged;
use crate::members;
use crate::named::NamedSheet;
use crate::parts::{End, Part, Parts, Range};
use crate::progress::Progress;
use crate::source::{read_id, Source};
use crate::trace::Feed;
use cartsundial::{read, Completed, Id, Kind, Ledger, OpenRequest, Owner, Packet, Refusal};
use std::collections::HashMap;
use std::io::{self, Write};

pub const OPTIONS: Options = Options {
    flags: &["--json", "--quiet", FULL],
    values: &["--names", "--host-id", "--owner", "--from", "--to", "--number", "--kind"],
    more: &FILTERS,
    needs: &[("--host-id", &["--names"]), ("--owner", &["--names"]), ("--from", &["--names"]), ("--to", &["--names"])],
    ..Options::NONE
};

pub const HELP: &str = "\
cartsundial ledger TRACE [--names SHEET [--host-id ID]]

Follows the requests of a trace: a line for each header that is refused, 63 for a completion that belongs to nothing, and at
the end one for each request that was never answered. Exit status 1 where there is any line.

  --names SHEET       a sheet or a board: who sent each packet and who gets it, by name
  --host-id ID        the host's own ID, for --names; 00:00.0 where none is given
  --json              each line is an object
  --quiet             no progress line, which a terminal else gets on standard error
  --owner WHO         only packets that WHO gets, with --names: a record, an ID, a name or a part of one, host, all or port
  --to WHO            the same
  --from WHO          only packets that WHO has sent, with --names
  --number N          only headers that are refused with this number
  --kind KIND         only headers of this kind, as MRd; - is one that is not read. Filters take several, with commas
  --full              why a sheet or a board is refused with the place and what to do

A trace may be of any length, bytes or text; headers one to a line, or a log with `TLP Header:` lines, are taken too.
";

/// By requester and tag, who asked.
type Askers = HashMap<(Id, u16), Asker>;

struct Asker {
    record: u64,
    packet: Packet,
    logged: Option<Logged>,
}

/// The functions' names, and the host's own ID.
type Names = (NamedSheet, Id);

/// What is told of a record.
enum What {
    Refused(Refusal),
    /// Of a read, how many dwords are still to come.
    Unanswered(Option<u16>),
}

struct Report {
    ledger: Ledger,
    /// As many as there are open requests.
    askers: Askers,
    named: Option<Names>,
    filters: Filters,
    is_json: bool,
    out: Vec<u8>,
    /// Whether there was any line, and whether any was left out by a filter.
    has_line: bool,
    has_other: bool,
}

pub fn run(arguments: &Arguments) -> Answer {
    match written(arguments) {
        // There is a line that nobody reads.
        Err(Failure::Closed) => Ok(Verdict::Refused),
        answer => answer,
    }
}

fn written(arguments: &Arguments) -> Answer {
    let [name] = arguments.exactly(["TRACE"])?;
    let host_id = arguments.value("--host-id").map_or(Ok(Id(0)), read_id)?;
    let named = arguments.value("--names").map(|file| Source::read(file)?.into_sheet()).transpose()?;
    let filters = Filters::read(arguments, named.as_ref())?;
    let named = named.map(|named| (named, host_id));
    let mut parts = Parts::new(Feed::open(name)?, Range::ALL);
    let mut progress = Progress::new(parts.far(), arguments.has("--quiet"));
    let is_json = arguments.has("--json");
    let mut report = Report::new(named, filters, is_json);
    let mut part = Part::default();
    while parts.next(&mut part)? {
        report.take(&part);
        report.write()?;
        progress.tell(part.before + part.count as u64);
    }
    progress.end(part.before + part.count as u64);
    if let End::Cut { .. } = parts.end() {
        report.out.extend(if is_json { parts.last_json() } else { parts.last_line() });
    }
    report.unanswered();
    report.write()?;
    // The line `cut` says it; by `--full` also where.
    if parts.cut().is_some() && !is_full() {
        return Ok(Verdict::Refused);
    }
    parts.ended()?;
    if !report.has_line && !report.has_other && !is_json {
        print("every request is answered\n")?;
    }
    Ok(Verdict::of(!report.has_line))
}

impl Report {
    fn new(named: Option<Names>, filters: Filters, is_json: bool) -> Report {
        Report {
            ledger: Ledger::new(),
            askers: Askers::new(),
            named,
            filters,
            is_json,
            out: Vec::new(),
            has_line: false,
            has_other: false,
        }
    }

    fn write(&mut self) -> Result<(), Failure> {
        let mut out = io::stdout().lock();
        let written = out.write_all(&self.out).and_then(|()| out.flush()).map_err(output_failed);
        self.out.clear();
        written
    }

    fn take(&mut self, part: &Part) {
        for (at, (record, header)) in part.headers().enumerate() {
            let logged = part.logged.get(at);
            let packet = match read(header) {
                Ok(packet) => packet,
                Err(refusal) => {
                    self.put(record, None, &What::Refused(refusal), logged);
                    continue;
                }
            };
            match self.follow(record, packet, logged) {
                // What is posted waits for no answer.
                Ok(()) | Err(Refusal::LedgerKind) => {}
                Err(refusal) => self.put(record, Some(&packet), &What::Refused(refusal), logged),
            }
        }
    }

    /// Opens a request or completes one.
    fn follow(&mut self, record: u64, packet: Packet, logged: Option<&Logged>) -> Result<(), Refusal> {
        let key = (packet.requester(), packet.tag());
        match packet.kind() {
            Kind::Cpl | Kind::CplD | Kind::CplLk | Kind::CplDLk => {
                if self.ledger.complete(packet.header())? == Completed::Closed {
                    self.askers.remove(&key);
                }
            }
            _ => {
                self.ledger.open(packet.header())?;
                self.askers.insert(key, Asker { record, packet, logged: logged.cloned() });
            }
        }
        Ok(())
    }

    /// What is still open, in the order of asking.
    fn unanswered(&mut self) {
        let left: HashMap<(Id, u16), OpenRequest> =
            self.ledger.requests().map(|open| ((open.requester, open.tag), open)).collect();
        let mut open: Vec<_> = std::mem::take(&mut self.askers).into_iter().collect();
        open.sort_by_key(|(_, asker)| asker.record);
        for (key, Asker { record, packet, logged }) in open {
            let OpenRequest { kind, left, .. } = left[&key];
            let what = What::Unanswered(kind.is_read().then_some(left));
            self.put(record, Some(&packet), &what, logged.as_ref());
        }
    }

    fn put(&mut self, record: u64, packet: Option<&Packet>, what: &What, logged: Option<&Logged>) {
        let named = self.named.as_ref();
        let both = packet.zip(named).and_then(|(packet, (named, id))| ends::both(packet.header(), *id, named));
        let refusal = match what {
            What::Refused(refusal) => Some(*refusal),
            What::Unanswered(_) => None,
        };
        let to = both.as_ref().and_then(|(_, to)| to.as_ref().ok());
        let passed = Passed {
            kind: packet.map(Packet::kind),
            from: both.as_ref().map(|(sender, _)| *sender),
            to: to.map(|(owner, _)| *owner),
            refusal,
        };
        if !self.filters.keeps(&passed) {
            self.has_other = true;
            return;
        }
        self.has_line = true;
        let line = Line { record, packet, what, logged, both };
        match self.is_json {
            true => line.json(self.named.as_ref().map(|(named, _)| named), &mut self.out),
            false => line.text(self.named.as_ref().map(|(named, _)| named), &mut self.out),
        }
    }
}

struct Line<'a> {
    record: u64,
    packet: Option<&'a Packet>,
    what: &'a What,
    logged: Option<&'a Logged>,
    /// Where names are known.
    both: Option<ends::Both>,
}

impl Line<'_> {
    /// `7 MRd 01:00.0 tag 021 not answered`, and both ends where names are known.
    fn text(&self, named: Option<&NamedSheet>, out: &mut Vec<u8>) {
        let start = self.logged.map_or(String::new(), Logged::start);
        let title = self.packet.map_or("-".to_string(), |packet| {
            format!("{} {} tag {:03X}", packet.kind(), packet.requester(), packet.tag())
        });
        let both = match (&self.both, named) {
            (Some(both), Some(named)) => format!(" {}:", ends::words(both, named)),
            _ => String::new(),
        };
        let what = match self.what {
            What::Refused(refusal) => refusal.to_string(),
            What::Unanswered(None) => "not answered".to_string(),
            What::Unanswered(Some(left)) => format!("not answered, dwords to come: {left}"),
        };
        out.extend(format!("{start}{} {title}{both} {what}\n", self.record).into_bytes());
    }

    fn json(&self, named: Option<&NamedSheet>, out: &mut Vec<u8>) {
        json::line(out, |line| {
            line.number("number", self.record);
            if let Some(logged) = self.logged {
                members::logged(line, logged);
            }
            match self.packet {
                None => drop(line.null("kind")),
                Some(packet) => {
                    line.text("kind", packet.kind().name()).shown("requester", packet.requester());
                    line.number("tag", packet.tag());
                }
            }
            if let (Some((sender, to)), Some(named)) = (&self.both, named) {
                members::from(line, *sender, named);
                if let Ok((owner, packet)) = to {
                    members::to(line, *owner, named);
                    if let Owner::Function(record) = owner {
                        members::place(line, *record, packet, named);
                    }
                }
            }
            match self.what {
                What::Refused(refusal) => members::refusal(line, *refusal),
                What::Unanswered(left) => {
                    line.flag("answered", false);
                    if let Some(left) = left {
                        line.number("left", *left);
                    }
                }
            }
        });
    }
}
