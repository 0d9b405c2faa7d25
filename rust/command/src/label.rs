//! `label`: a line for each header of a trace.

use crate::arguments::{Arguments, Options};
use crate::failure::{print, Answer, Failure, Verdict};
use crate::filters::{Filters, Passed, FILTERS};
use crate::full::FULL;
use crate::jobs::{self, Desk};
use crate::letters::put_from;
use crate::lines::Titles;
use crate::logged::Logged;
use crate::named::NamedSheet;
use crate::parts::{Part, Parts, Range};
use crate::progress::Progress;
use crate::said::{digits_of, Said};
use crate::source::{read_id, Source};
use crate::tally::Tally;
use crate::trace::Feed;
use cartsundial::{index_length, Annotator, Engine, Headers, HostRecord, Id, Index, Refusal, LONGEST_LINE};
use std::io::{self, Write};

pub const OPTIONS: Options = Options {
    flags: &["--names", "--both", "--json", "--summary", "--quiet", FULL],
    values: &["--jobs", "--records", "--host", "--host-id", "--owner", "--from", "--to", "--number", "--kind"],
    more: &FILTERS,
    needs: &[("--host-id", &["--both"]), ("--from", &["--both"])],
    apart: &[&["--names", "--both"], &["--names", "--json"]],
};

pub const HELP: &str = "\
cartsundial label SHEET TRACE [--names | --both [--host-id ID]] [--jobs N] [--summary] [--host HOST]

A line for each header of a trace, over a sheet or over the plan of a board: the proved lines, those of the program annotate.
A trace may be of any length. Exit status 1 where the trace itself is refused or cut, 0 whatever the headers get.

  --names             each line goes on with the owner's ID and name, its BAR and the offset in it, or with a number's words
  --both              both ends of each packet, with names: who sent it, by the ID in its header, and who gets it
  --host-id ID        the host's own ID, for --both; 00:00.0 where none is given
  --jobs N            label parts of the trace side by side: the same lines
  --summary           at the end, on standard error: how many headers went to whom, and how many have which number; with --both
                      who sent how many packets to whom, and how many bytes, as told by the Length of requests
  --host HOST         the sheet's host: a sheet on which an address may have two owners is then refused; of a board it is known
  --json              each line is an object, with names
  --records A-B       these records only, with their numbers in the whole trace: 1-1000000, or 1000001- to the end
  --quiet             no progress line, which a terminal else gets on standard error
  --owner WHO         only headers that WHO gets: a record, an ID, a name or a part of one, host, all or port
  --to WHO            the same, as --both says it
  --from WHO          only headers that WHO has sent, with --both
  --number N          only headers that are refused with this number
  --kind KIND         only headers of this kind, as MWr; - is one that is not read. Filters take several, with commas
  --full              why a sheet or a board is refused with the place and what to do

A trace may be bytes or text. Headers one to a line, and logs with `TLP Header:` lines, are taken too; the time and the device that
a log names stand before the line.
";

/// What is made of the library's lines.
#[derive(Clone, Copy, PartialEq, Eq)]
enum Form {
    Plain,
    Names,
    BothEnds,
    Json,
}

/// What labels the parts of a trace: one for all jobs.
struct Labels<'a> {
    by: Engine<'a>,
    titles: Titles,
    form: Form,
    has_ends: bool,
    filters: Filters,
    has_tally: bool,
}

pub fn run(arguments: &Arguments) -> Answer {
    let [sheet, trace] = arguments.exactly(["SHEET", "TRACE"])?;
    if (sheet, trace) == ("-", "-") {
        return Err(Failure::Usage("only one of SHEET and TRACE is standard input".into()));
    }
    let jobs = arguments.value("--jobs").map_or(Ok(1), str::parse).ok().filter(|jobs| (1..=256).contains(jobs));
    let jobs: usize = jobs.ok_or_else(|| Failure::Usage("--jobs has a number from 1 to 256".into()))?;
    let range = arguments.value("--records").map_or(Ok(Range::ALL), str::parse);
    let range = range.map_err(|why| Failure::Usage(format!("--records {why}")))?;
    let host_id = arguments.value("--host-id").map_or(Ok(Id(0)), read_id)?;
    let named = Source::read(sheet)?.into_sheet()?;
    let host = arguments.value("--host").map(|file| Source::read(file)?.into_host()).transpose()?;
    // An index gives the same lines as the walk and takes less time. Without a host it is there where no address has two owners.
    let index = match host.or(named.host) {
        Some(host) => Some(indexed(&host, &named)?),
        None => Index::alone(named.sheet.bytes(), room_for_index(&named)).ok(),
    };
    let has_ends = arguments.has("--both");
    let by = match (has_ends, &index) {
        (true, _) => Engine::both_ends(host_id, named.sheet.bytes()),
        (false, Some(index)) => Engine::from(index),
        (false, None) => Engine::from(named.sheet.bytes()),
    };
    let form = match (arguments.has("--json"), has_ends, arguments.has("--names")) {
        (true, ..) => Form::Json,
        (_, true, _) => Form::BothEnds,
        (_, _, true) => Form::Names,
        _ => Form::Plain,
    };
    let filters = Filters::read(arguments, Some(&named))?;
    let has_tally = arguments.has("--summary");
    let labels = Labels { by, titles: Titles::new(&named), form, has_ends, filters, has_tally };
    let parts = Parts::new(Feed::open(trace)?, range);
    let progress = Progress::new(parts.far(), arguments.has("--quiet"));
    let desks = (0..jobs).map(|_| LabelDesk::new(&labels)).collect();
    let (parts, desks) = jobs::write_all(parts, desks, progress)?;
    print(if form == Form::Json { parts.last_json() } else { parts.last_line() })?;
    if has_tally {
        let mut tally = Tally::default();
        desks.iter().for_each(|desk| tally.add(&desk.tally));
        // Where standard error cannot be written the lines are there all the same.
        let _ = io::stderr().write_all(tally.shown(&named).as_bytes());
    }
    if let Some(records) = parts.none_asked() {
        let _ = writeln!(io::stderr(), "cartsundial: {}: it has {records} records, so none of these", parts.name());
    }
    parts.ended().map(|()| Verdict::Accepted)
}

/// By the second verdict: what lies where is not asked here, only that no address has two owners.
fn indexed<'a>(host: &HostRecord, named: &'a NamedSheet) -> Result<Index<&'a [u8], Vec<u8>>, Failure> {
    let why = |refusal: Refusal| format!("the sheet for this host: {refusal}; without --host any sheet is labelled by");
    Index::sound(host, named.sheet.bytes(), room_for_index(named)).map_err(|refusal| Failure::Refused(why(refusal)))
}

fn room_for_index(named: &NamedSheet) -> Vec<u8> {
    vec![0; index_length(named.sheet.functions().len())]
}

impl Labels<'_> {
    /// Whether the library's lines are taken as they are.
    fn is_plain(&self, part: &Part) -> bool {
        self.form == Form::Plain && !self.has_tally && self.filters.is_empty() && !part.has_words()
    }

    /// Puts what is made of a record's line after what is there, unless a filter leaves it out.
    fn put(&self, said: &Said, header: &[u8], logged: Option<&Logged>, tally: &mut Tally, out: &mut Vec<u8>) {
        if !self.keeps(said) {
            return;
        }
        match self.has_tally {
            true if self.has_ends => tally.ends.count(said, header),
            true => tally.count(said),
            false => {}
        }
        if let (Some(logged), true) = (logged, self.form != Form::Json) {
            out.extend(logged.start().into_bytes());
        }
        match self.form {
            Form::Plain => {
                put_from(said.text, said.length, out);
                out.push(b'\n');
            }
            Form::Names => self.titles.owner(said, header, out),
            Form::BothEnds => self.titles.both(said, header, out),
            Form::Json => self.titles.json(said, header, logged, out),
        }
    }

    fn keeps(&self, said: &Said) -> bool {
        let passed = || Passed { kind: said.kind(), from: said.from, to: said.to.ok(), refusal: said.refusal() };
        self.filters.is_empty() || self.filters.keeps(&passed())
    }
}

/// A job's own room.
struct LabelDesk<'a> {
    labels: &'a Labels<'a>,
    /// For the library's lines, and for what is made of them.
    room: Vec<u8>,
    out: Vec<u8>,
    tally: Tally,
}

impl<'a> LabelDesk<'a> {
    fn new(labels: &'a Labels<'a>) -> LabelDesk<'a> {
        LabelDesk { labels, room: Vec::new(), out: Vec::new(), tally: Tally::default() }
    }
}

impl Desk for LabelDesk<'_> {
    fn lines(&mut self, part: &Part) -> &[u8] {
        let room = (part.count + 1) * LONGEST_LINE;
        self.room.resize(room.max(self.room.len()), 0);
        let mut annotator = Annotator::after(part.before);
        let fed = annotator.feed(self.labels.by, &part.bytes, &mut self.room);
        let lines = &self.room[..fed.expect("there is room for a line of each record")];
        if self.labels.is_plain(part) {
            return lines;
        }
        self.out.clear();
        let (mut rest, mut digits, mut more_digits) = (lines, 0, part.before + 1);
        for ((at, number), header) in (part.before + 1..).enumerate().zip(Headers::of_records(&part.bytes)) {
            if number == more_digits {
                digits = digits_of(number);
                more_digits = 10_u64.saturating_pow(digits as u32);
            }
            let said = Said::of(rest, digits).expect("a line of the library for each record");
            self.labels.put(&said, header, part.logged.get(at), &mut self.tally, &mut self.out);
            rest = &rest[said.length + 1..];
        }
        &self.out
    }
}
