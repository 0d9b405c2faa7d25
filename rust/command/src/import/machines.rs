//! Which inputs are of which machine: all are of one, but in a fleet. There each that has functions is a machine, and what else there
//! is, iomem, ioports or a boot log, is of the one whose file has the same name up to the last dot.

use super::found::{read_address, Found};
use super::log::Log;
use super::{lspci, sysfs, Notes};
use crate::failure::Failure;
use crate::source::{called, open};
use std::fs;
use std::io::Read;
use std::path::{Path, PathBuf};

/// Where Linux has its functions and its root windows, from the root folder on.
const DEVICES: &str = "sys/bus/pci/devices";
const WINDOWS: [&str; 2] = ["proc/iomem", "proc/ioports"];

const NEITHER: &str = "neither what `lspci -vvx` prints, nor /proc/iomem, /proc/ioports or a boot log with PCI's lines";

/// What the inputs of a machine have.
#[derive(Default)]
pub struct Machine {
    /// The file or folder with its functions.
    pub name: String,
    pub functions: Vec<Found>,
    pub log: Log,
    pub notes: Notes,
    /// Why nothing could be read of it, where that is so, among others that were.
    pub why: Option<String>,
}

/// A file, or a folder of /sys.
#[derive(Default)]
struct Input {
    name: String,
    functions: Vec<Found>,
    text: String,
    /// Why it has nothing of a machine.
    why: Option<Failure>,
}

/// The machines of these files and folders.
pub fn all(names: &[String], is_fleet: bool) -> Result<Vec<Machine>, Failure> {
    let (mut machines, mut inputs) = (Vec::new(), Vec::new());
    for name in names {
        let path = Path::new(name);
        if !path.is_dir() {
            inputs.push(of_file(name)?);
        } else if let Some(input) = of_folder(path)? {
            inputs.push(input);
        } else {
            machines.extend(of_captures(path)?);
        }
    }
    if machines.is_empty() || !inputs.is_empty() {
        machines.extend(if is_fleet { grouped(inputs)? } else { vec![one(inputs)?] });
    }
    Ok(machines)
}

/// A machine of a text alone.
pub fn of_text(name: &str, text: &str) -> Result<Machine, Failure> {
    let functions = lspci::read(called(name), text)?;
    one(vec![Input { name: called(name).to_string(), functions, text: text.to_string(), why: None }])
}

fn of_file(name: &str) -> Result<Input, Failure> {
    let (called, mut bytes) = (called(name), Vec::new());
    open(name)?.read_to_end(&mut bytes).map_err(Failure::stream(called))?;
    let text = String::from_utf8_lossy(&bytes).into_owned();
    let input = Input { name: called.to_string(), ..Input::default() };
    let nothing = || Some(Failure::Usage(format!("{called}: {NEITHER}")));
    Ok(match lspci::read(called, &text) {
        Err(refused) => Input { why: Some(refused), ..input },
        Ok(functions) => {
            let is_any = !functions.is_empty() || text.trim().is_empty() || Log::default().read(&text);
            Input { functions, text, why: if is_any { None } else { nothing() }, ..input }
        }
    })
}

impl Input {
    fn has_functions(&self) -> bool {
        !self.functions.is_empty()
    }

    /// It is empty, or nothing of a machine.
    fn is_nothing(&self) -> bool {
        self.why.is_some() || self.text.trim().is_empty() && !self.has_functions()
    }

    fn stem(&self) -> PathBuf {
        Path::new(&self.name).with_extension("")
    }

    /// A machine of which nothing was read.
    fn unread(self) -> Machine {
        let why = match self.why {
            Some(Failure::Usage(why) | Failure::Refused(why)) => why,
            _ => "it is empty".to_string(),
        };
        let words = why.strip_prefix(&self.name).map_or(&why[..], |rest| rest.trim_start_matches([':', ',', ' ']));
        Machine { why: Some(words.to_string()), name: self.name, ..Machine::default() }
    }
}

/// /sys/bus/pci/devices or a copy of it, or a root folder with it; `None` where it is neither.
fn of_folder(folder: &Path) -> Result<Option<Input>, Failure> {
    let called = folder.display().to_string();
    let entries = fs::read_dir(folder).map_err(Failure::stream(&called))?;
    let is_function = |name: &str| read_address(name).is_some();
    if entries.flatten().any(|entry| is_function(&entry.file_name().to_string_lossy())) {
        return Ok(Some(Input { functions: sysfs::read(folder)?, name: called, ..Input::default() }));
    }
    of_root(folder)
}

/// What a root folder has of Linux: the functions, and the root windows where they can be read.
fn of_root(root: &Path) -> Result<Option<Input>, Failure> {
    let devices = root.join(DEVICES);
    if !devices.is_dir() {
        return Ok(None);
    }
    let text = WINDOWS.map(|file| fs::read_to_string(root.join(file)).unwrap_or_default()).join("\n");
    let name = root.display().to_string();
    Ok(Some(Input { name, functions: sysfs::read(&devices)?, text, why: None }))
}

/// A folder with captures. What has nothing of a machine is passed over.
fn of_captures(folder: &Path) -> Result<Vec<Machine>, Failure> {
    let called = folder.display().to_string();
    let entries = fs::read_dir(folder).map_err(Failure::stream(&called))?;
    let mut paths: Vec<PathBuf> = entries.flatten().map(|entry| entry.path()).filter(|path| path.is_file()).collect();
    paths.sort();
    let (mut inputs, mut notes) = (Vec::new(), Notes::new());
    for path in paths {
        let input = of_file(&path.display().to_string())?;
        let has_bytes = input.functions.iter().any(|found| found.rows.contains(&true));
        match &input.why {
            Some(Failure::Usage(why)) => notes.push(format!("passed over: {why}")),
            // Any text may have a line that starts as lspci's do.
            None if !input.functions.is_empty() && !has_bytes => {
                notes.push(format!("passed over: {}: no byte of a function is in it", input.name));
            }
            _ => inputs.push(input),
        }
    }
    if inputs.is_empty() {
        return Err(Failure::Usage(format!(
            "{called}: neither /{DEVICES}, nor a folder with what `lspci -vvx` prints"
        )));
    }
    let mut machines = grouped(inputs)?;
    machines[0].notes.splice(0..0, notes);
    Ok(machines)
}

fn grouped(inputs: Vec<Input>) -> Result<Vec<Machine>, Failure> {
    let stems: Vec<PathBuf> = inputs.iter().filter(|input| input.has_functions()).map(Input::stem).collect();
    if stems.len() < 2 {
        return one(inputs).map(|machine| vec![machine]);
    }
    // What begins a machine, or was to: among others it is told, and does not stop them.
    let begins = |input: &Input| input.has_functions() || !stems.contains(&input.stem()) && input.is_nothing();
    let (first, others): (Vec<Input>, Vec<Input>) = inputs.into_iter().partition(begins);
    let mut machines: Vec<Vec<Input>> = first.into_iter().map(|input| vec![input]).collect();
    for other in others {
        let Some(machine) = machines.iter_mut().find(|machine| machine[0].stem() == other.stem()) else {
            let words = "of which machine? Its name up to the last dot is to be that of a file with functions";
            return Err(Failure::Usage(format!("{}: {words}", other.name)));
        };
        machine.push(other);
    }
    let made = |mut inputs: Vec<Input>| match inputs[0].has_functions() {
        true => one(inputs),
        false => Ok(inputs.swap_remove(0).unread()),
    };
    machines.into_iter().map(made).collect()
}

/// The machine that all of these are of.
fn one(inputs: Vec<Input>) -> Result<Machine, Failure> {
    let mut machine = Machine::default();
    for Input { name, functions, text, why } in inputs {
        if let Some(failure) = why {
            return Err(failure);
        }
        if functions.is_empty() && text.trim().is_empty() {
            machine.notes.push(format!("{name} is empty"));
        }
        machine.log.read(&text);
        machine.functions.extend(functions);
        machine.name = if machine.name.is_empty() { name } else { machine.name };
    }
    if machine.functions.is_empty() {
        let words = "no function found: `lspci -vvx` has them, or /sys/bus/pci/devices";
        let empty: String = machine.notes.iter().map(|note| format!("{note}; ")).collect();
        return Err(Failure::Usage(format!("{empty}{words}")));
    }
    for found in &mut machine.functions {
        found.logged = std::array::from_fn(|slot| machine.log.size((found.domain, found.id), slot));
        found.has_log = machine.log.has_sizes();
    }
    Ok(machine)
}
