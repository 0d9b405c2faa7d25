//! `import`: what Linux says of a machine, as a sheet, a host record and a board for each root bus.

mod bridges;
mod found;
mod left_out;
mod log;
mod lspci;
mod machines;
mod pools;
mod roots;
mod slots;
mod sysfs;

use crate::arguments::{Arguments, Options};
use crate::convert;
use crate::failure::{print, Answer, Failure, Verdict};
use crate::json;
use crate::members;
use crate::output::Outputs;
use cartsundial::{audit, sound, Board, HostRecord, Pool};
pub use found::read_address;
use found::Found;
use left_out::LeftOut;
use log::Log;
use machines::Machine;
pub use roots::Root;
use roots::Taken;
use std::io::{self, Write};
use std::path::Path;

#[cfg(test)]
mod edited;

pub const OPTIONS: Options = Options {
    flags: &["--quiet", "--json", "--fleet"],
    values: &["--out", "--leave-out"],
    more: &["--leave-out"],
    ..Options::NONE
};

pub const HELP: &str = "\
cartsundial import FILE.. [--out PREFIX] [--leave-out ID] [--quiet]

Takes `lspci -vvx` (more x's, -D, -n and -nn do not matter), or /sys/bus/pci/devices or a copy of it, and, for the root windows,
/proc/iomem and /proc/ioports as root sees them, or a boot log. They may be in several files or in one. Registers are taken
from the hexadecimal lines, sizes from `Region` lines, and where those have none from the boot log.

A function is refused, with its ID and what is missing, that has not all of its 64 bytes, or a BAR whose size nothing says, that
does not answer any more, or that is there twice and not alike. Then nothing comes out for its root bus.

What is normalised or left out is told on standard error: closed windows in other spellings, bits that say how wide a window
register is, a primary bus register, BARs without an address. No address, size, bus number or open window is changed. A window
that reads 0, and so is open at 0 unless the bridge has none, is told and left.

Without root windows the pools of host and board are as tight as what is used, which the line of the host then says.

  --out PREFIX        for each root bus, PREFIX-0000-00.sheet.txt, .host.txt, for --host of audit and label, and .board.txt, for
                      plan, and a line with the audit's verdict; without it, the sheet of a machine with one root bus comes out
  --leave-out ID      without this function, and what is below it where it is a bridge; more may follow after commas. It is told
                      in every file
  --quiet             no word of what was changed, left out or refused: the exit status says it
  --json              an object for each root bus in place of the sheet or the lines
  --fleet             each file or folder with functions is a machine of its own, with the windows or the log of files that have the
                      same name up to the last dot. A line comes out for each root bus, and PREFIX goes on with the name of each.
                      A file with nothing of a machine gets a line too, and is refused

FILE may be a root folder too, with sys/bus/pci/devices and proc below it: / is this machine; or a folder of captures, which is a
fleet.

Exit status: 0 where every function is read and the audit accepts every sheet, 1 where not, 2 usage or a stream that failed.
";

/// How a function that is not read can be had.
const ADVICE: [&str; 2] = [
    "`lspci -vvx`, as root, shows what is missing; a boot log, the size of a BAR that Linux could not place",
    "--leave-out ID takes the rest without a function",
];

/// What was changed or left out, and of whom.
pub type Notes = Vec<String>;

/// What was made of a machine.
pub struct Imported {
    /// The file or folder with its functions.
    pub name: String,
    pub taken: Vec<Taken>,
    pub left_out: Vec<LeftOut>,
    pub notes: Notes,
    /// Why nothing could be read of it, where that is so.
    why: Option<String>,
}

pub fn run(arguments: &Arguments) -> Answer {
    if arguments.files.is_empty() {
        return Err(Failure::Usage("it takes lspci's output, and perhaps more files".into()));
    }
    let machines = machines::all(&arguments.files, arguments.has("--fleet"))?;
    let (is_fleet, asked) = (machines.len() > 1, arguments.values("--leave-out"));
    if is_fleet && !asked.is_empty() {
        return Err(Failure::Usage(format!("--leave-out is for one machine, and here are {}", machines.len())));
    }
    let imported = machines.into_iter().map(|machine| Imported::of(machine, &asked));
    let mut imported = imported.collect::<Result<Vec<Imported>, Failure>>()?;
    let is_any = imported.iter().any(|one| !one.is_read());
    let advice = || ADVICE.map(String::from).into_iter().filter(|_| is_any);
    if let [one] = &mut imported[..] {
        one.notes.extend(advice());
    }
    let answer = write_out(arguments, &mut imported)?;
    if arguments.has("--quiet") {
        return Ok(answer);
    }
    let start = |one: &Imported| if is_fleet { format!("{}: ", one.name) } else { String::new() };
    let notes = imported.iter().flat_map(|one| one.notes.iter().map(move |note| format!("{}{note}", start(one))));
    for note in notes.chain(advice().filter(|_| is_fleet)) {
        // Where standard error cannot be written the sheet is there all the same.
        let _ = writeln!(io::stderr(), "cartsundial: {note}");
    }
    Ok(answer)
}

impl Imported {
    fn of(machine: Machine, asked: &[&str]) -> Result<Imported, Failure> {
        let Machine { name, functions, log, mut notes, why } = machine;
        let (functions, left_out) = left_out::split(once(functions, &mut notes), asked)?;
        notes.extend(left_out.iter().map(|one| format!("{}: left out, as --leave-out says", one.found.title())));
        let taken = roots::all(functions, &left_out, &log, &mut notes);
        tell_tight(&taken, &log, &mut notes);
        Ok(Imported { name, taken, left_out, notes, why })
    }

    /// Every function is read, and the audit accepts every sheet.
    fn is_accepted(&self) -> bool {
        let is_accepted = |root: &Root| audit(&root.host, &root.sheet).is_ok();
        self.why.is_none() && self.taken.iter().all(|(_, root)| root.as_ref().is_ok_and(is_accepted))
    }

    fn is_read(&self) -> bool {
        self.taken.iter().all(|(_, root)| root.is_ok())
    }
}

/// The one machine of a folder, or of a file with this text, with all of its functions read.
pub fn machine(name: &str, text: Option<&str>) -> Result<Vec<Root>, Failure> {
    let mut machines = match text {
        Some(text) => vec![machines::of_text(name, text)?],
        None => machines::all(&[name.to_string()], true)?,
    };
    let (Some(machine), true) = (machines.pop(), machines.is_empty()) else {
        return Err(Failure::Usage(format!("{name} has more than one machine: name one of its files")));
    };
    let imported = Imported::of(machine, &[])?;
    let notes = imported.notes;
    let unread = |why: String| Failure::Refused(format!("{name}: {why}: {}", notes.join("; ")));
    imported.taken.into_iter().map(|(_, root)| root.map_err(unread)).collect()
}

/// Whether a text has functions with their bytes, as `lspci -x` prints them.
pub fn has_functions(text: &str) -> bool {
    lspci::read("", text).is_ok_and(|functions| functions.iter().any(|found| found.rows.contains(&true)))
}

/// Whether a text starts as lspci's output does.
pub fn is_lspci(text: &str) -> bool {
    let line = text.lines().find(|line| !line.trim().is_empty() && !line.starts_with('#'));
    line.is_some_and(|line| found::read_address(line.split(' ').next().unwrap_or("")).is_some())
}

/// Each function once, in order. One that is there twice, in two files or in one, is taken from where all is said of it.
fn once(mut functions: Vec<Found>, notes: &mut Notes) -> Vec<Found> {
    functions.sort_by_key(|found| (found.domain, found.id));
    let mut all: Vec<Found> = Vec::new();
    let mut twice = Vec::new();
    for found in functions {
        let Some(other) = all.last_mut().filter(|other| (other.domain, other.id) == (found.domain, found.id)) else {
            all.push(found);
            continue;
        };
        if other.covers(&found) || found.covers(other) {
            twice.push(found.title());
            if !other.covers(&found) {
                *other = found;
            }
        } else {
            other.lacks("it is there twice, and not alike: give one output of one machine");
        }
    }
    // By ID, unless they come from a sheet that was exported.
    if all.iter().all(|found| found.order.is_some()) {
        all.sort_by_key(|found| found.order);
    }
    twice.dedup();
    match &twice[..] {
        [] => {}
        [one] => notes.push(format!("{one} is there twice, alike: taken once")),
        [first, .., last] => {
            notes.push(format!("{} functions are there twice, alike, {first} to {last}: taken once", twice.len()))
        }
    }
    all
}

/// Without root windows. Who is not root sees zeros for addresses in iomem and ioports.
fn tell_tight(taken: &[Taken], log: &Log, notes: &mut Notes) {
    let tight: Vec<&Root> =
        taken.iter().filter_map(|(_, root)| root.as_ref().ok()).filter(|root| !root.tight.is_empty()).collect();
    if log.is_hidden() {
        notes.push("iomem and ioports have zeros for addresses, as who is not root sees them: `sudo cat /proc/iomem /proc/ioports`".into());
    }
    for root in tight {
        notes.push(format!("{}: no root windows are known: {}", root.title(), tight_words(&root.tight)));
    }
}

fn tight_words(spaces: &[Pool]) -> String {
    let (pools, files) = match spaces {
        [Pool::Low] => ("the memory pools are", "/proc/iomem"),
        [Pool::Io] => ("the I/O pool is", "/proc/ioports"),
        _ => ("the pools are", "/proc/iomem and /proc/ioports"),
    };
    format!("{pools} as tight as what is used; {files}, read as root, or a boot log has more")
}

/// The files or the sheet of each root bus that was read, and the verdicts: accepted where that holds of all.
fn write_out(arguments: &Arguments, imported: &mut [Imported]) -> Answer {
    let prefix = arguments.value("--out").filter(|prefix| *prefix != "-");
    let is_fleet = imported.len() > 1;
    let mut outputs = Outputs::new(&arguments.files);
    let start = |one: &Imported| prefix.map(|prefix| start_of(prefix, &one.name, is_fleet));
    for one in imported.iter() {
        if let Some(start) = start(one) {
            add_files(&mut outputs, &start, one);
        }
    }
    let ready = outputs.prepare()?;
    let is_accepted = imported.iter().all(Imported::is_accepted);
    let lines: Vec<(String, Vec<u8>)> = imported.iter().flat_map(|one| lines(one, start(one), is_fleet)).collect();
    match (imported, prefix) {
        _ if arguments.has("--json") => print(lines.into_iter().flat_map(|(_, json)| json).collect::<Vec<u8>>())?,
        // The sheet of a machine with one root bus; where none was read there is nothing to write.
        ([one], None) if one.taken.len() == 1 || one.taken.iter().all(|(_, root)| root.is_err()) => {
            print(one.taken[0].1.as_ref().map_or(String::new(), |root| sheet_text(root, &one.left_out)))?;
            one.notes.extend(lines.into_iter().map(|(line, _)| line));
        }
        ([one], None) => {
            let names: Vec<String> =
                one.taken.iter().map(|((domain, bus), _)| format!("{domain:04x}:{bus:02x}")).collect();
            return Err(Failure::Usage(format!("root buses {}: --out PREFIX writes files for each", names.join(", "))));
        }
        _ if arguments.has("--quiet") => {}
        _ => print(lines.into_iter().map(|(line, _)| line + "\n").collect::<String>())?,
    }
    ready.commit()?;
    Ok(Verdict::of(is_accepted))
}

/// Of several machines each has its own file's name in those of its files.
fn start_of(prefix: &str, name: &str, is_fleet: bool) -> String {
    let stem = Path::new(name).file_stem().map_or(String::new(), |stem| stem.to_string_lossy().into_owned());
    if is_fleet {
        format!("{prefix}-{stem}")
    } else {
        prefix.to_string()
    }
}

fn add_files(outputs: &mut Outputs, prefix: &str, one: &Imported) {
    for root in one.taken.iter().filter_map(|(_, root)| root.as_ref().ok()) {
        let start = start(prefix, (root.domain, root.bus));
        outputs.add("--out", &format!("{start}.sheet.txt"), sheet_text(root, &one.left_out));
        outputs.add("--out", &format!("{start}.host.txt"), board_text(root, &Board::host(root.host), &one.left_out));
        outputs.add("--out", &format!("{start}.board.txt"), board_text(root, &root.board, &one.left_out));
    }
}

fn start(prefix: &str, (domain, bus): (u32, u8)) -> String {
    format!("{prefix}-{domain:04x}-{bus:02x}")
}

fn sheet_text(root: &Root, left_out: &[LeftOut]) -> String {
    comments(root, left_out) + &convert::sheet_text(&root.sheet, |record| root.name(record))
}

/// The host's line says where its pools are as tight as what is used; `plan` gives that back when they run out.
fn board_text(root: &Root, board: &Board, left_out: &[LeftOut]) -> String {
    let text = board.to_string();
    let (host, functions) = text.split_once('\n').expect("a board has a host");
    let tight = if root.tight.is_empty() { String::new() } else { format!(" # {}", tight_words(&root.tight)) };
    format!("{}{host}{tight}\n{functions}", comments(root, left_out))
}

fn comments(root: &Root, left_out: &[LeftOut]) -> String {
    let of_root = left_out.iter().filter(|one| one.root == (root.domain, root.bus));
    of_root.map(|one| format!("# left out by --leave-out: {}\n", one.title())).collect()
}

/// A line and an object for each root bus of a machine; one that says why where none was found.
fn lines(one: &Imported, prefix: Option<String>, is_fleet: bool) -> Vec<(String, Vec<u8>)> {
    if let Some(why) = &one.why {
        let mut out = Vec::new();
        json::line(&mut out, |line| {
            line.text("machine", &one.name).flag("read", false).flag("accepted", false).text("why", why);
        });
        return vec![(format!("{}: refused: {why}", one.name), out)];
    }
    let of = |taken| (line(one, taken, prefix.clone(), is_fleet), json_of(one, taken, prefix.clone()));
    one.taken.iter().map(of).collect()
}

/// What became of a root bus, with the audit's verdict; where it refuses, and every address has one owner, also that.
fn line(one: &Imported, (root, taken): &Taken, prefix: Option<String>, is_fleet: bool) -> String {
    let machine = if is_fleet { format!("{} ", one.name) } else { String::new() };
    let title = format!("{machine}{:04x}:{:02x}", root.0, root.1);
    let made = match taken {
        Ok(made) => made,
        Err(why) => return format!("{title}: refused: {why}: nothing comes out for it"),
    };
    let files = prefix.map_or(String::new(), |prefix| format!(", {}", start(&prefix, *root)));
    let titles = left_out_of(one, *root);
    let without = if titles.is_empty() { String::new() } else { format!(", left out: {}", titles.join(", ")) };
    format!("{title}: {}{files}{without}: {}", convert::functions(made.len()), verdict(&made.host, &made.sheet))
}

fn left_out_of(one: &Imported, root: (u32, u8)) -> Vec<String> {
    one.left_out.iter().filter(|left| left.root == root).map(|left| left.found.title()).collect()
}

fn verdict(host: &HostRecord, sheet: &[u8]) -> String {
    match (audit(host, sheet), sound(host, sheet)) {
        (Ok(()), _) => "accepted".to_string(),
        (Err(refusal), Ok(())) => format!("{refusal}; one owner for every address"),
        (Err(refusal), Err(_)) => refusal.to_string(),
    }
}

/// The same as an object of JSON.
fn json_of(one: &Imported, (root, taken): &Taken, prefix: Option<String>) -> Vec<u8> {
    let mut out = Vec::new();
    json::line(&mut out, |line| {
        line.text("machine", &one.name).text("root", &format!("{:04x}:{:02x}", root.0, root.1));
        line.flag("read", taken.is_ok());
        let made = match taken {
            Ok(made) => made,
            Err(why) => {
                line.flag("accepted", false).text("why", why);
                return;
            }
        };
        let verdict = audit(&made.host, &made.sheet);
        line.number("functions", made.len() as u64).flag("accepted", verdict.is_ok());
        if let Err(refusal) = verdict {
            members::refusal(line, refusal);
        }
        line.flag("one_owner", sound(&made.host, &made.sheet).is_ok());
        line.list("left_out", |list| left_out_of(one, *root).iter().for_each(|title| list.text(title)));
        line.list("tight", |list| made.tight.iter().for_each(|pool| list.text(tight_word(*pool))));
        if let Some(prefix) = prefix {
            line.text("files", &start(&prefix, *root));
        }
    });
    out
}

/// A space whose pools are as tight as what is used.
fn tight_word(pool: Pool) -> &'static str {
    if pool == Pool::Io {
        "io"
    } else {
        "memory"
    }
}
