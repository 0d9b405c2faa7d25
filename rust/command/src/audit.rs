//! `audit`: whether a sheet is in order for a host, and whether every address has one owner.

use crate::arguments::{Arguments, Options};
use crate::convert::functions;
use crate::explain::remedy;
use crate::failure::{print, Answer, Failure, Verdict};
use crate::faults::{self, Fault, Nesting};
use crate::full::{is_full, FULL};
use crate::json::{self, Object};
use crate::members;
use crate::named::{NamedSheet, RECORD};
use crate::source::Source;
use crate::unlawful;
use cartsundial::{audit, audit_where, sound, Finding, HostRecord, Party, Refusal};

pub const OPTIONS: Options = Options {
    flags: &["--all", "--quiet", "--json", FULL],
    values: &["--host"],
    apart: &[&["--quiet", "--json"]],
    ..Options::NONE
};

pub const HELP: &str = "\
cartsundial audit SHEET --host HOST [--all] [--quiet]

Judges a sheet, whoever wrote it, for a host: accepted, or the number of the first check that fails, with its words and the
function that breaks it. On an accepted sheet no address has two owners. HOST is a host record's 30 bytes, or a board, of
which the host is taken; where SHEET is itself a board, its plan is judged, for its own host unless another is given.

A second verdict, `one owner for every address`, asks 51 of the address space and not of the kind: memory may lie in any memory
window of the bridge above, or memory pool of the host. Prefetchable windows below 4 GiB, which are 51 to the first verdict and
which much firmware leaves, may pass it. Over a sheet that passes, packets from the host are delivered as over an accepted one.
The exit status is 0 where both verdicts are yes, else 1: the first one's, since a sheet that it accepts passes the second.

The verdicts are the proved library's, and so is the line `first`: the first record that fails the check, in record order, where,
and the other one that it meets there. The lines after it are looked up beside them, and are not proved.

  --all               every fault, not only those of the first rule that is broken
  --quiet             no word: the exit status is the answer
  --host HOST         a host record, or a board, of which the host is taken
  --json              an object in place of the words: both verdicts, who fails, and the faults
  --full              more words: names, what is wrong at the first place, and what to do
";

pub fn run(arguments: &Arguments) -> Answer {
    let [name] = arguments.exactly(["SHEET"])?;
    let source = Source::read(name)?;
    let named_host = arguments.value("--host").map(|file| Source::read(file)?.into_host()).transpose()?;
    let own_host = HostRecord::of_board(&source.bytes).ok();
    let names = source.names().to_vec();
    let board = source.clone_board();
    let host = named_host.or(own_host.filter(|_| board.is_some()));
    let host = host.ok_or_else(|| Failure::Usage("it takes --host HOST: a host record or a board".into()))?;
    let sheet = source.into_sheet_bytes()?;
    let named = match &board {
        Some(board) => NamedSheet::planned(board).ok(),
        None => NamedSheet::new(sheet.clone(), &names).ok(),
    };
    let (verdict, one) = (audit(&host, &sheet), sound(&host, &sheet));
    let audited = Audited { host, sheet, named, verdict, one, is_all: arguments.has("--all") };
    match (arguments.has("--quiet"), arguments.has("--json")) {
        (true, _) => {}
        (false, true) => print(audited.json())?,
        (false, false) => print(audited.text())?,
    }
    Ok(Verdict::of(verdict.is_ok() && one.is_ok()))
}

/// A sheet with its two verdicts.
struct Audited {
    host: HostRecord,
    sheet: Vec<u8>,
    /// A sheet that fails its own checks has no functions to ask.
    named: Option<NamedSheet>,
    verdict: Result<(), Refusal>,
    one: Result<(), Refusal>,
    /// Every fault is asked for.
    is_all: bool,
}

impl Audited {
    fn text(&self) -> String {
        let first = match self.verdict {
            Ok(()) => format!("accepted: {}\n", functions(self.sheet.len() / RECORD)),
            Err(refusal) => self.refused(refusal),
        };
        let Err(refusal) = self.one else { return first + "one owner for every address: yes\n" };
        first + &format!("one owner for every address: {refusal}\n") + &told(&self.faults_of_one(refusal))
    }

    fn refused(&self, refusal: Refusal) -> String {
        let mut text = format!("{refusal}\n");
        let mut faults = self.faults(refusal);
        if !is_full() {
            return text + &self.first(refusal) + &told(&faults);
        }
        if let Some(finding) = self.finding() {
            let (first, rest) = faults::first_and_rest(&finding, self.named.as_ref(), faults);
            faults = rest;
            text += &format!("  first: {first}\n");
        }
        // What of a host record or of a sheet's own checks is wrong.
        let finding = audit_where(&self.host, &self.sheet).err();
        let own = match refusal {
            Refusal::Host => unlawful::host(&self.host),
            _ => finding.and_then(|finding| unlawful::in_sheet(&self.sheet, &finding)),
        };
        text += &own.map_or(String::new(), |what| format!("  {what}\n"));
        text + &told(&faults) + &format!("  {}\n", remedy(refusal))
    }

    /// Who fails the first check, and of a BAR that is too small its size.
    fn first(&self, refusal: Refusal) -> String {
        let Some(finding) = self.finding() else { return String::new() };
        let small = finding.party.as_ref().filter(|_| refusal == Refusal::ReadBack);
        let small = small.and_then(|party| faults::small_bar(party, &self.sheet));
        format!("  first: {finding}\n") + &small.map_or(String::new(), |what| format!("  25: {what}\n"))
    }

    /// Who fails the first check, where it is somebody.
    fn finding(&self) -> Option<Finding> {
        audit_where(&self.host, &self.sheet).err().filter(|finding| finding.party.is_some())
    }

    /// Those of the first rule that is broken, or all.
    fn faults(&self, refusal: Refusal) -> Vec<Fault> {
        self.all(Nesting::OfKind, |fault| self.is_all || fault.refusal == refusal)
    }

    /// Who breaks the second verdict, where the first one has not said so.
    fn faults_of_one(&self, refusal: Refusal) -> Vec<Fault> {
        let is_told = self.verdict == self.one && refusal != Refusal::NotNested;
        self.all(Nesting::OfSpace, |fault| !is_told && fault.refusal == refusal)
    }

    fn all(&self, nesting: Nesting, is_asked: impl Fn(&Fault) -> bool) -> Vec<Fault> {
        let faults = self.named.as_ref().map_or(Vec::new(), |named| faults::all(named, &self.host, nesting));
        faults.into_iter().filter(is_asked).collect()
    }

    fn json(&self) -> Vec<u8> {
        let mut out = Vec::new();
        json::line(&mut out, |line| {
            if let Some(named) = &self.named {
                line.number("functions", named.sheet.functions().len() as u64);
            }
            self.verdict_json(line);
            line.object("one_owner", |one| {
                one.flag("accepted", self.one.is_ok());
                if let Err(refusal) = self.one {
                    members::refusal(one, refusal);
                    faults_json(one, &self.all(Nesting::OfSpace, |fault| fault.refusal == refusal));
                }
            });
        });
        out
    }

    fn verdict_json(&self, line: &mut Object) {
        line.flag("accepted", self.verdict.is_ok());
        let Err(refusal) = self.verdict else { return };
        members::refusal(line, refusal);
        let finding = self.finding();
        let parties = finding.iter().flat_map(|finding| [("first", &finding.party), ("other", &finding.other)]);
        for (name, party) in parties {
            if let Some(party) = party {
                line.object(name, |object| self.party(object, party));
            }
        }
        faults_json(line, &self.faults(refusal));
    }

    fn party(&self, object: &mut Object, party: &Party) {
        object.number("record", party.record).shown("id", party.id);
        object.maybe("name", self.named.as_ref().and_then(|named| named.name(party.record)));
        object.shown("place", party.place);
        if let Some(range) = &party.range {
            object.address("first", *range.start()).address("last", *range.end());
        }
        if let Some(buses) = party.buses {
            object.number("secondary", buses.secondary).number("subordinate", buses.subordinate);
        }
    }
}

fn told(faults: &[Fault]) -> String {
    faults.iter().map(|fault| format!("  {}: {}\n", fault.refusal.number(), fault.what)).collect()
}

fn faults_json(line: &mut Object, faults: &[Fault]) {
    line.list("faults", |list| {
        for fault in faults {
            list.object(|object| {
                object.number("refused", fault.refusal.number()).text("what", &fault.what);
            });
        }
    });
}
