//! Filters: which lines of a trace come out. `--owner`, `--to` and `--from` say who, by record, ID or name; `--number` which
//! refusals; `--kind` which packets. An option may have several, with commas or given again: any of them is meant. Of several
//! options all are.

use crate::arguments::Arguments;
use crate::failure::Failure;
use crate::named::NamedSheet;
#[cfg(test)]
use cartsundial::Label;
use cartsundial::{Id, Kind, Owner, Refusal, Sender};

/// The options, for the table of a subcommand that has them.
pub const FILTERS: [&str; 5] = ["--owner", "--from", "--to", "--number", "--kind"];

#[derive(Default)]
pub struct Filters {
    /// `--owner` and `--to`: who gets the packet.
    to: Option<Who>,
    from: Option<Who>,
    numbers: Option<Vec<Refusal>>,
    kinds: Option<Vec<Option<Kind>>>,
}

/// What a filter asks of a header. `kind` is `None` of one that is not read.
pub struct Passed {
    pub kind: Option<Kind>,
    pub from: Option<Sender>,
    pub to: Option<Owner>,
    pub refusal: Option<Refusal>,
}

/// Functions of a sheet, and ends that are none.
#[derive(Debug, Default, PartialEq, Eq)]
struct Who {
    /// Rising.
    records: Vec<u16>,
    is_host: bool,
    is_every: bool,
    is_port: bool,
}

impl Filters {
    /// Of a call over this sheet; where there is none, nobody can be named.
    pub fn read(arguments: &Arguments, named: Option<&NamedSheet>) -> Result<Filters, Failure> {
        let who = |option: &str| -> Result<Option<Who>, Failure> {
            let values = arguments.values(option);
            match (values.is_empty(), named) {
                (true, _) => Ok(None),
                (false, Some(named)) => Who::read(option, &values, named).map(Some),
                (false, None) => Err(Failure::Usage(format!("{option} is for --names, which says who there is"))),
            }
        };
        let (owner, to) = (who("--owner")?, who("--to")?);
        if owner.is_some() && to.is_some() {
            return Err(Failure::Usage("--owner and --to both say who gets a packet: leave one out".into()));
        }
        Ok(Filters { to: owner.or(to), from: who("--from")?, numbers: numbers(arguments)?, kinds: kinds(arguments)? })
    }

    /// Whether every header passes.
    pub fn is_empty(&self) -> bool {
        self.to.is_none() && self.from.is_none() && self.numbers.is_none() && self.kinds.is_none()
    }

    pub fn keeps(&self, header: &Passed) -> bool {
        let is_to = |who: &Who| header.to.is_some_and(|owner| who.has_owner(owner));
        let is_from = |who: &Who| header.from.is_some_and(|sender| who.has_sender(sender));
        let is_number = |all: &Vec<Refusal>| header.refusal.is_some_and(|refusal| all.contains(&refusal));
        self.to.as_ref().is_none_or(is_to)
            && self.from.as_ref().is_none_or(is_from)
            && self.numbers.as_ref().is_none_or(is_number)
            && self.kinds.as_ref().is_none_or(|all| all.contains(&header.kind))
    }

    /// The same of a line. One that is about the trace and not about a header always passes.
    #[cfg(test)]
    fn keeps_label(&self, label: &Label) -> bool {
        match label {
            Label::Owned { kind, sender, owner, .. } => {
                self.keeps(&Passed { kind: Some(*kind), from: *sender, to: Some(*owner), refusal: None })
            }
            Label::Refused { kind, sender, refusal, .. } => {
                self.keeps(&Passed { kind: *kind, from: *sender, to: None, refusal: Some(*refusal) })
            }
            _ => true,
        }
    }
}

/// The one function that a record, an ID or a name means.
pub fn function(option: &str, text: &str, named: &NamedSheet) -> Result<u16, Failure> {
    match records(text, named)[..] {
        [record] => Ok(record),
        [] => Err(Failure::Usage(match text.parse::<Id>() {
            Ok(id) => format!("{option} {text}: the sheet has no function {id}"),
            Err(_) => format!("{option} {text}: the sheet has no function of this record, ID or name"),
        })),
        [first, second, ..] => {
            let [first, second] = [first, second].map(|record| named.title_of(record));
            Err(Failure::Usage(format!("{option} {text}: which one? {first} and {second} have it in their names")))
        }
    }
}

impl Who {
    fn read(option: &str, values: &[&str], named: &NamedSheet) -> Result<Who, Failure> {
        let mut all = Who::default();
        for value in values {
            // A name may have commas in it.
            let parts = if all.add(value, named) { Vec::new() } else { value.split(',').map(str::trim).collect() };
            for part in parts {
                if !all.add(part, named) {
                    let words = "no function of the sheet has this record, ID or name, and it is not host, all or port";
                    return Err(Failure::Usage(format!("{option} {part}: {words}")));
                }
            }
        }
        all.records.sort_unstable();
        all.records.dedup();
        Ok(all)
    }

    /// `host`, `all`, `port`, or functions. Returns whether anybody is meant.
    fn add(&mut self, text: &str, named: &NamedSheet) -> bool {
        match text {
            "host" => self.is_host = true,
            "all" => self.is_every = true,
            "port" => self.is_port = true,
            _ => {
                let found = records(text, named);
                self.records.extend(&found);
                return !found.is_empty();
            }
        }
        true
    }

    fn has(&self, record: u16) -> bool {
        self.records.binary_search(&record).is_ok()
    }

    fn has_owner(&self, owner: Owner) -> bool {
        match owner {
            Owner::Function(record) => self.has(record),
            Owner::Host => self.is_host,
            Owner::Every => self.is_every,
            Owner::Port => self.is_port,
        }
    }

    fn has_sender(&self, sender: Sender) -> bool {
        match sender {
            Sender::Host => self.is_host,
            Sender::Record(record) => self.has(record),
        }
    }
}

/// The functions that a text means: by record, by ID, or by name or a part of one. In quotes it is a name.
fn records(text: &str, named: &NamedSheet) -> Vec<u16> {
    let quoted = text.strip_prefix('"').and_then(|text| text.strip_suffix('"'));
    let record = text.parse().ok().filter(|record| named.sheet.record(*record).is_some());
    let id = text.parse::<Id>().ok().and_then(|id| named.sheet.function(id)).map(|function| function.record);
    record.or(id).map_or_else(|| called(quoted.unwrap_or(text), named), |record| vec![record])
}

/// The records with this name; where there is none, those with it in their names, large or small letters.
fn called(text: &str, named: &NamedSheet) -> Vec<u16> {
    let names = || named.sheet.functions().filter_map(|one| Some((one.record, named.name(one.record)?)));
    let exact: Vec<u16> = names().filter(|(_, name)| *name == text).map(|(record, _)| record).collect();
    let part = text.to_lowercase();
    let has = |name: &str| name.to_lowercase().contains(&part);
    match exact.is_empty() && !part.is_empty() {
        true => names().filter(|(_, name)| has(name)).map(|(record, _)| record).collect(),
        false => exact,
    }
}

/// The parts of all values of an option.
fn parts<'a>(arguments: &'a Arguments, option: &str) -> Vec<&'a str> {
    arguments.values(option).into_iter().flat_map(|value| value.split(',')).map(str::trim).collect()
}

fn numbers(arguments: &Arguments) -> Result<Option<Vec<Refusal>>, Failure> {
    let parts = parts(arguments, "--number");
    let number = |text: &&str| text.parse().map_err(|why| Failure::Usage(format!("--number {text}: {why}")));
    let numbers = parts.iter().map(number).collect::<Result<Vec<Refusal>, _>>()?;
    Ok(Some(numbers).filter(|_| !parts.is_empty()))
}

/// `-` is one that is not read.
fn kinds(arguments: &Arguments) -> Result<Option<Vec<Option<Kind>>>, Failure> {
    let parts = parts(arguments, "--kind");
    let kind = |text: &&str| {
        let found = Kind::ALL.into_iter().find(|kind| kind.name().eq_ignore_ascii_case(text));
        let names = Kind::ALL.map(Kind::name).join(", ");
        let nothing = || Failure::Usage(format!("--kind {text}: kinds are {names}, and - is a header that is refused"));
        if *text == "-" {
            Ok(None)
        } else {
            found.map(Some).ok_or_else(nothing)
        }
    };
    let kinds = parts.iter().map(kind).collect::<Result<Vec<_>, _>>()?;
    Ok(Some(kinds).filter(|_| !parts.is_empty()))
}

#[cfg(test)]
mod tests {
    use super::*;
    use crate::arguments::Options;
    use cartsundial::Board;

    const OPTIONS: Options = Options { values: &FILTERS, more: &FILTERS, ..Options::NONE };

    fn named() -> NamedSheet {
        let board: Board = "host buses 00-0F low E0000000+64M\n\
            bridge 00.0 \"root port\"\n  card 00.0 \"capture\" mem32 4K\n\
            bridge 01.0 \"second port\"\n  card 00.0 \"capture, large\" mem32 4K\n  card 00.1 \"9\" mem32 4K\n"
            .parse()
            .unwrap();
        NamedSheet::planned(&board).unwrap()
    }

    fn read(words: &[&str]) -> Result<Filters, String> {
        let words: Vec<String> = words.iter().map(|word| word.to_string()).collect();
        let told = |failure| match failure {
            Failure::Usage(message) => message,
            _ => panic!("not of usage"),
        };
        Filters::read(&Arguments::read(&words, &OPTIONS).map_err(told)?, Some(&named())).map_err(told)
    }

    fn kept(words: &[&str], lines: &[&str]) -> Vec<usize> {
        let filters = read(words).unwrap();
        let is_kept = |line: &&str| filters.keeps_label(&line.parse().unwrap());
        lines.iter().enumerate().filter(|(_, line)| is_kept(line)).map(|(at, _)| at).collect()
    }

    #[test]
    fn who() {
        let records = |value: &str| read(&["--to", value]).unwrap().to.unwrap().records;
        assert_eq!(records("2"), [2]);
        assert_eq!(records("01:00.0"), [2]);
        assert_eq!(records("capture"), [2], "an exact name before those that have it in them");
        assert_eq!(records("capture, large"), [4]);
        assert_eq!(records("PORT"), [1, 3]);
        assert_eq!(records("\"9\",1,01:00.0,1"), [1, 2, 5]);
        assert!(read(&["--to", "9"]).is_ok(), "a name, where there is no such record");
        for nobody in ["17", "0", "07:00.0", "gpu", "", "1,,2"] {
            assert!(read(&["--from", nobody]).is_err(), "{nobody}");
        }
        assert!(read(&["--to", "1", "--owner", "2"]).is_err());
    }

    #[test]
    fn one_function() {
        let record = |text| function("--from", text, &named()).ok();
        assert_eq!(["2", "01:00.0", "capture", "large"].map(record), [Some(2), Some(2), Some(2), Some(4)]);
        assert_eq!(["17", "port", "host", "", "07:00.0", "gpu"].map(record), [None; 6]);
        let Err(Failure::Usage(why)) = function("--from", "port", &named()) else { panic!("two are one") };
        assert!(why.starts_with("--from port: which one? 00:00.0 \"root port\" and "), "{why}");
    }

    #[test]
    fn lines() {
        let plain = ["1 MRd owner 2", "2 IOWr refused 40", "3 - refused 4", "4 Msg owner all", "5 CplD owner 1", "cut"];
        assert_eq!(kept(&[], &plain), [0, 1, 2, 3, 4, 5]);
        assert_eq!(kept(&["--owner", "capture"], &plain), [0, 5]);
        assert_eq!(kept(&["--owner", "all", "--owner", "1"], &plain), [3, 4, 5]);
        assert_eq!(kept(&["--number", "40,4"], &plain), [1, 2, 5]);
        assert_eq!(kept(&["--kind", "mrd,-"], &plain), [0, 2, 5]);
        assert_eq!(kept(&["--kind", "IOWr", "--number", "4"], &plain), [5]);
        let both = ["1 MRd from 2 to host", "2 MWr from host to 2", "3 MWr from 2 refused 44"];
        assert_eq!(kept(&["--from", "2"], &both), [0, 2]);
        assert_eq!(kept(&["--from", "2", "--to", "host"], &both), [0]);
        assert_eq!(kept(&["--from", "host"], &both), [1]);
        assert!(read(&[]).unwrap().is_empty());
        for wrong in [["--number", "66"], ["--number", "forty"], ["--kind", "MRdd"], ["--kind", ""]] {
            assert!(read(&wrong).is_err(), "{wrong:?}");
        }
    }
}
