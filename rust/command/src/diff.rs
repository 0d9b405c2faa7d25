//! `diff`: two sheets, boards or machines by function: what moved, changed, appeared and went.

use crate::arguments::{Arguments, Options};
use crate::convert::functions;
use crate::failure::{print, Answer, Failure, Verdict};
use crate::import::{self, Root};
use crate::json::{self, Object};
use crate::named::{NamedSheet, RECORD};
use crate::source::{called, open, Source};
use cartsundial::{BarKind, Function, Place, Pool, Size, Windows};
use std::io::Read;
use std::ops::RangeInclusive;
use std::path::Path;

pub const OPTIONS: Options =
    Options { flags: &["--json", "--quiet"], apart: &[&["--json", "--quiet"]], ..Options::NONE };

pub const HELP: &str = "\
cartsundial diff A B [--json | --quiet]

What is different between two sheets, boards, which are planned, or machines, which are what import takes: a file with what
lspci -vvx prints, or a folder. A function is the same one by its name, where that is there once on both sides, else by its way
down from the root bus, devices and functions, not bus numbers. It has moved where it has another ID, another bus below it, or a BAR
or a window that starts elsewhere; it is changed where something else is other, as a size or its command word.

  --json              an object a line for each function that is different
  --quiet             no word: the exit status is the answer

Exit status: 0 where all functions are the same, 1 where not, 2 where one side cannot be had.
";

/// A function of one side.
struct One {
    /// Where it is: the root bus, and device and function of each bridge down to it.
    way: (u32, u8, Vec<u8>),
    record: u16,
    id: String,
    name: Option<String>,
    kind: &'static str,
    /// What it has, by what that is called.
    traits: Vec<(String, Trait)>,
}

#[derive(PartialEq, Eq)]
enum Trait {
    Text(String),
    /// A BAR, with its kind, or a window.
    Range(Option<BarKind>, RangeInclusive<u64>),
    /// A window that is closed.
    Closed,
}

/// A function that is different: before, after, or both.
struct Difference<'a> {
    before: Option<&'a One>,
    after: Option<&'a One>,
    changes: Vec<Change<'a>>,
}

/// What it is called, and what it was and is.
type Change<'a> = (&'a str, Option<&'a Trait>, Option<&'a Trait>);

pub fn run(arguments: &Arguments) -> Answer {
    let [before, after] = arguments.exactly(["A", "B"])?;
    if (before, after) == ("-", "-") {
        return Err(Failure::Usage("only one of A and B is standard input".into()));
    }
    let (before, after) = (side(before)?, side(after)?);
    let all = differences(&before, &after);
    let is_same = all.is_empty();
    match (arguments.has("--quiet"), arguments.has("--json")) {
        (true, _) => {}
        (false, true) => print(all.iter().flat_map(Difference::json).collect::<Vec<u8>>())?,
        (false, false) => {
            let told: String = all.iter().map(Difference::text).collect();
            print(told + &summary(&all, before.len(), after.len()))?;
        }
    }
    Ok(Verdict::of(is_same))
}

/// A function that is different, for a page.
pub struct Told {
    /// `moved`, `changed`, `went` or `appeared`.
    pub word: &'static str,
    /// Its record on each side.
    pub before: Option<u16>,
    pub after: Option<u16>,
    /// `BAR 0 mem32 F8100000-F810FFFF 64K -> ..`.
    pub lines: Vec<String>,
}

/// Two sheets.
pub fn compared(before: &NamedSheet, after: &NamedSheet) -> Vec<Told> {
    let (before, after) = (of_named(before), of_named(after));
    let told = |one: &Difference| Told {
        word: one.word(),
        before: one.before.map(|one| one.record),
        after: one.after.map(|one| one.record),
        lines: one.lines().map(|(name, values)| format!("{name} {values}")).collect(),
    };
    differences(&before, &after).iter().map(told).collect()
}

/// The functions of a file or a folder. A side that is refused is trouble, not a difference.
fn side(name: &str) -> Result<Vec<One>, Failure> {
    let read = if Path::new(name).is_dir() { import::machine(name, None).map(of_roots) } else { of_file(name) };
    read.map_err(|failure| match failure {
        Failure::Refused(why) => Failure::Stream(why),
        other => other,
    })
}

fn of_file(name: &str) -> Result<Vec<One>, Failure> {
    let mut bytes = Vec::new();
    open(name)?.read_to_end(&mut bytes).map_err(Failure::stream(called(name)))?;
    let text = String::from_utf8_lossy(&bytes);
    if import::has_functions(&text) {
        return import::machine(name, Some(&text)).map(of_roots);
    }
    Ok(of_named(&Source::of(name, bytes)?.into_sheet()?))
}

fn of_named(named: &NamedSheet) -> Vec<One> {
    let bus = named.sheet.functions().next().map_or(0, |first| first.id.bus());
    of_sheet((0, bus), named.sheet.bytes(), |record| named.name(record).map(String::from))
}

fn of_roots(roots: Vec<Root>) -> Vec<One> {
    let of = |root: &Root| of_sheet((root.domain, root.bus), &root.sheet, |record| root.name(record).map(String::from));
    roots.iter().flat_map(of).collect()
}

/// A sheet of a machine may fail a check and is compared all the same: what is asked of a record is that it is whole.
fn of_sheet((domain, bus): (u32, u8), sheet: &[u8], name: impl Fn(u16) -> Option<String>) -> Vec<One> {
    let records = (1..).zip(sheet.get(1..).unwrap_or(&[]).chunks_exact(RECORD));
    let functions: Vec<Function> = records
        .filter_map(|(record, bytes)| {
            let (id, rest) = bytes.get(2..)?.split_first_chunk()?;
            let (registers, read_backs) = rest.split_first_chunk()?;
            let id = cartsundial::Id(u16::from_be_bytes(*id));
            Some(Function { record, id, registers, read_backs: read_backs.first_chunk()? })
        })
        .collect();
    let one = |function: &Function| {
        let name = name(function.record).filter(|name| !name.is_empty());
        One {
            way: (domain, bus, way(function, &functions)),
            record: function.record,
            id: if domain == 0 { function.id.to_string() } else { format!("{domain:04x}:{}", function.id) },
            kind: if function.is_bridge() { "bridge" } else { "card" },
            traits: traits(function, name.as_ref()),
            name,
        }
    };
    functions.iter().map(one).collect()
}

/// Device and function of each bridge above it, and its own.
fn way(function: &Function, all: &[Function]) -> Vec<u8> {
    let leads = |bus: u8| all.iter().find(|one| one.buses().is_some_and(|buses| bus != 0 && buses.secondary == bus));
    let above = std::iter::successors(leads(function.id.bus()), |bridge| leads(bridge.id.bus())).take(1 << 8);
    let mut way: Vec<u8> = [function].into_iter().chain(above).map(|one| one.id.0 as u8).collect();
    way.reverse();
    way
}

fn traits(function: &Function, name: Option<&String>) -> Vec<(String, Trait)> {
    let text = |what: &str, text: String| (what.to_string(), Trait::Text(text));
    let mut traits = vec![text("ID", function.id.to_string())];
    traits.extend(name.map(|name| text("name", name.clone())));
    for placed in function.bars() {
        let range = Trait::Range(Some(placed.bar.kind), placed.range());
        traits.push((Place::Bar(placed.slot).to_string(), range));
    }
    if let Some(buses) = function.buses() {
        traits.push(text("buses", format!("{:02X}-{:02X}", buses.secondary, buses.subordinate)));
    }
    if let Some(Windows { io, low, high }) = function.windows() {
        for (pool, window) in [(Pool::Io, io), (Pool::Low, low), (Pool::High, high)] {
            let window = window.map_or(Trait::Closed, |range| Trait::Range(None, range));
            traits.push((Place::Window(pool).to_string(), window));
        }
    }
    traits.push(text("command", format!("{:04X}", function.command())));
    traits
}

/// In the order of the first side, and then what appeared.
fn differences<'a>(before: &'a [One], after: &'a [One]) -> Vec<Difference<'a>> {
    let pairs = pairs(before, after);
    let mut all = Vec::new();
    for (at, one) in before.iter().enumerate() {
        let other = pairs.iter().find(|(first, _)| *first == at).map(|(_, second)| &after[*second]);
        let changes = other.map_or(Vec::new(), |other| changes(one, other));
        if other.is_none() || !changes.is_empty() {
            all.push(Difference { before: Some(one), after: other, changes });
        }
    }
    let is_new = |at: &usize| !pairs.iter().any(|(_, second)| second == at);
    let new = (0..after.len()).filter(is_new);
    all.extend(new.map(|at| Difference { before: None, after: Some(&after[at]), changes: Vec::new() }));
    all
}

/// Which function is which one of the other side: by names that are there once on both, else by the way.
fn pairs(before: &[One], after: &[One]) -> Vec<(usize, usize)> {
    let only = |side: &[One], is_it: &dyn Fn(&One) -> bool| {
        let mut found = (0..side.len()).filter(|at| is_it(&side[*at]));
        found.next().filter(|_| found.next().is_none())
    };
    let mut pairs = Vec::new();
    for one in before.iter().filter(|one| one.name.is_some()) {
        let same = |other: &One| other.name == one.name;
        pairs.extend(only(before, &same).zip(only(after, &same)));
    }
    for (at, one) in before.iter().enumerate() {
        let other = after.iter().position(|other| other.way == one.way);
        let is_free = |other: &usize| !pairs.iter().any(|(first, second)| *first == at || second == other);
        let other = other.filter(is_free);
        pairs.extend(other.map(|other| (at, other)));
    }
    pairs
}

/// What one has and the other has not so. A side without names is not another one for that.
fn changes<'a>(one: &'a One, other: &'a One) -> Vec<Change<'a>> {
    let value = |of: &'a One, what: &str| of.traits.iter().find(|(name, _)| name == what).map(|(_, value)| value);
    let new = other.traits.iter().filter(|(name, _)| value(one, name).is_none());
    let all = one.traits.iter().chain(new).map(|(name, _)| &name[..]);
    let is_other =
        |(name, before, after): &Change| before != after && (*name != "name" || before.is_some() && after.is_some());
    all.map(|name| (name, value(one, name), value(other, name))).filter(is_other).collect()
}

impl Difference<'_> {
    /// `moved`, `changed`, `went` or `appeared`.
    fn word(&self) -> &'static str {
        let is_elsewhere = |(name, before, after): &Change| match (before, after) {
            (Some(Trait::Range(_, before)), Some(Trait::Range(_, after))) => before.start() != after.start(),
            // The first bus.
            (Some(Trait::Text(before)), Some(Trait::Text(after))) if *name == "buses" => before[..2] != after[..2],
            _ => *name == "ID",
        };
        match (self.before, self.after) {
            (_, None) => "went",
            (None, _) => "appeared",
            _ if self.changes.iter().any(is_elsewhere) => "moved",
            _ => "changed",
        }
    }

    fn text(&self) -> String {
        let Some(one) = self.before.or(self.after) else { return String::new() };
        let mut text = format!("{}: {}, {}\n", self.word(), one.title(), one.kind);
        for (name, values) in self.lines() {
            text += &format!("  {name:12} {values}\n");
        }
        text
    }

    /// What is different, and what it was and is.
    fn lines(&self) -> impl Iterator<Item = (&str, String)> {
        let shown = |value: &Option<&Trait>| value.map_or("none".to_string(), Trait::text);
        self.changes.iter().map(move |(name, before, after)| (*name, format!("{} -> {}", shown(before), shown(after))))
    }

    fn json(&self) -> Vec<u8> {
        let mut out = Vec::new();
        json::line(&mut out, |line| {
            line.text("is", self.word());
            for (name, one) in [("before", self.before), ("after", self.after)] {
                match one {
                    Some(one) => line.object(name, |object| one.json(object)),
                    None => line.null(name),
                };
            }
            line.list("changes", |list| {
                for (name, before, after) in &self.changes {
                    list.object(|object| {
                        object.text("what", name);
                        Trait::json(object, "before", *before);
                        Trait::json(object, "after", *after);
                    });
                }
            });
        });
        out
    }
}

impl One {
    fn title(&self) -> String {
        self.name.as_ref().map_or(self.id.clone(), |name| format!("{} \"{name}\"", self.id))
    }

    fn json(&self, object: &mut Object) {
        object.text("root", &format!("{:04x}:{:02x}", self.way.0, self.way.1)).number("record", self.record);
        object.text("id", &self.id).maybe("name", self.name.as_deref()).text("kind", self.kind);
    }
}

impl Trait {
    fn text(&self) -> String {
        match self {
            Trait::Text(text) => text.clone(),
            Trait::Closed => "closed".to_string(),
            Trait::Range(kind, range) => {
                let (first, last) = (range.start(), range.end());
                let kind = kind.map_or(String::new(), |kind| format!("{kind} "));
                format!("{kind}{first:X}-{last:X} {}", Size((last - first).saturating_add(1)))
            }
        }
    }

    fn json(object: &mut Object, name: &str, value: Option<&Trait>) {
        match value {
            None | Some(Trait::Closed) => object.null(name),
            Some(Trait::Text(text)) => object.text(name, text),
            Some(Trait::Range(kind, range)) => object.object(name, |object| {
                if let Some(kind) = kind {
                    object.shown("kind", kind);
                }
                object.address("first", *range.start()).address("last", *range.end());
            }),
        };
    }
}

fn summary(all: &[Difference], before: usize, after: usize) -> String {
    let count = |word: &str| all.iter().filter(|one| one.word() == word).count();
    let parts: Vec<String> = ["moved", "changed", "went", "appeared"]
        .into_iter()
        .filter(|word| count(word) > 0)
        .map(|word| format!("{} {word}", count(word)))
        .collect();
    let same = before - all.iter().filter(|one| one.before.is_some()).count();
    match parts.is_empty() {
        true => format!("the same: {}\n", functions(before)),
        false => format!("{} and {after}: {}, {same} the same\n", functions(before), parts.join(", ")),
    }
}
