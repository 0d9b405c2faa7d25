//! What a call writes: its files, all of them or none, and standard output. A file is written beside its place and renamed over
//! it, so that a name has the old bytes or all of the new ones. `-` is standard output, which then has nothing else.

mod beside;
mod place;

use crate::failure::{output_failed, print, Failure};
use beside::Beside;
use place::{Identity, Place};
use std::fs::{File, OpenOptions};
use std::io::{self, ErrorKind, IsTerminal, Write};

/// What a call is going to write, by the option that names it.
pub struct Outputs<'a> {
    inputs: &'a [String],
    outputs: Vec<Output>,
}

struct Output {
    /// As it was given: `--sheet box.sheet`.
    given: String,
    path: String,
    bytes: Vec<u8>,
}

/// The files stand beside their places, whole.
pub struct Ready {
    files: Vec<Beside>,
}

impl<'a> Outputs<'a> {
    /// Of a call that reads these files.
    pub fn new(inputs: &'a [String]) -> Outputs<'a> {
        Outputs { inputs, outputs: Vec::new() }
    }

    pub fn add(&mut self, option: &str, path: &str, bytes: impl Into<Vec<u8>>) {
        self.outputs.push(Output { given: format!("{option} {path}"), path: path.to_string(), bytes: bytes.into() });
    }

    /// Writes everything but the files' names: what goes through a device, a pipe or standard output is out, and each file stands
    /// beside its place. Where anything fails, no file is changed and none is left.
    pub fn prepare(self) -> Result<Ready, Failure> {
        let places = self.places()?;
        let all = || self.outputs.iter().zip(&places);
        // A pipe is opened when somebody reads it, which may take long: before anything is written.
        let through = all().map(|(output, place)| through(output, place)).collect::<Result<Vec<_>, _>>()?;
        let mut files = Vec::new();
        for (output, place) in all() {
            if let Place::File { path, old } = place {
                files.push(Beside::write(path, old.as_ref(), &output.bytes).map_err(|error| failed(output, &error))?);
            }
        }
        for (output, through) in self.outputs.iter().zip(through) {
            match through {
                Through::Nothing => {}
                Through::File(mut file) => file.write_all(&output.bytes).map_err(|error| failed(output, &error))?,
                Through::StandardOutput => print(&output.bytes)?,
            }
        }
        Ok(Ready { files })
    }

    /// Where each output goes: no two to one place, and none to an input.
    fn places(&self) -> Result<Vec<Place>, Failure> {
        let mut places: Vec<Place> = Vec::new();
        let inputs: Vec<_> = self.inputs.iter().map(|input| (input, Identity::of_input(input))).collect();
        let printed = Identity::of_standard_output();
        for (number, output) in self.outputs.iter().enumerate() {
            let place = Place::of(&output.path).map_err(|error| failed(output, &error))?;
            let same = places.iter().position(|other| other.is(&place));
            if let Some(other) = same {
                let (one, other) = (&self.outputs[number].given, &self.outputs[other].given);
                return Err(Failure::Usage(format!("{other} and {one} are one place: give each its own")));
            }
            let identity = place.identity();
            if let Some((input, _)) = inputs.iter().find(|(_, input)| input.is_some() && *input == identity) {
                let read = if *input == "-" { "standard input" } else { &input[..] };
                return Err(Failure::Usage(format!("{} is {read}, which is read: give another file", output.given)));
            }
            if printed.is_some() && printed == identity && !matches!(place, Place::StandardOutput) {
                return Err(Failure::Usage(format!(
                    "{} is where standard output goes: give another file",
                    output.given
                )));
            }
            places.push(place);
        }
        Ok(places)
    }
}

/// What an output goes through, open.
enum Through {
    Nothing,
    File(File),
    StandardOutput,
}

fn through(output: &Output, place: &Place) -> Result<Through, Failure> {
    match place {
        Place::File { .. } => Ok(Through::Nothing),
        Place::Through(path) => {
            let opened = OpenOptions::new().write(true).truncate(true).open(path);
            let file = opened.map_err(|error| failed(output, &error))?;
            refuse_raw(file.is_terminal(), output)?;
            Ok(Through::File(file))
        }
        Place::StandardOutput => {
            refuse_raw(io::stdout().is_terminal(), output)?;
            Ok(Through::StandardOutput)
        }
    }
}

impl Ready {
    /// Gives each file its name; all of them, or none.
    pub fn commit(mut self) -> Result<(), Failure> {
        let is_alone = self.files.len() == 1;
        for at in 0..self.files.len() {
            if let Err(error) = self.files[at].put(is_alone) {
                let path = self.files[at].path().display().to_string();
                self.files[..at].iter_mut().rev().for_each(Beside::take_back);
                return Err(Failure::Stream(format!("{path}: {error}; no file is written")));
            }
        }
        Ok(())
    }
}

/// Standard output for lines that come while the input is read: each at once where the input may grow, else many together.
pub struct Lines {
    bytes: Vec<u8>,
    is_followed: bool,
}

impl Lines {
    /// So many bytes are written together.
    const PIECE: usize = 1 << 16;

    pub fn new(is_followed: bool) -> Lines {
        Lines { bytes: Vec::new(), is_followed }
    }

    /// Where nobody reads any more, the rest of the input need not be read either.
    pub fn add(&mut self, line: &[u8]) -> Result<(), Failure> {
        self.bytes.extend_from_slice(line);
        if !self.is_followed && self.bytes.len() < Lines::PIECE {
            return Ok(());
        }
        let mut out = io::stdout().lock();
        let written = out.write_all(&self.bytes).and_then(|()| out.flush());
        self.bytes.clear();
        written.map_err(output_failed)
    }

    pub fn end(self) -> Result<(), Failure> {
        print(self.bytes)
    }
}

/// Refuses a call whose standard output goes into a file that it reads.
pub fn refuse_own_input(inputs: &[String]) -> Result<(), Failure> {
    let printed = Identity::of_standard_output();
    match inputs.iter().find(|input| printed.is_some() && Identity::of_input(input) == printed) {
        Some(input) => Err(Failure::Usage(format!("{input}: it is read, and standard output goes into it"))),
        None => Ok(()),
    }
}

/// Whether an output is standard output, under whatever name.
pub fn is_standard_output(path: &str) -> bool {
    matches!(Place::of(path), Ok(Place::StandardOutput))
}

/// A terminal takes text. Bytes that are none would change how it works, and nobody can read them.
fn refuse_raw(is_terminal: bool, output: &Output) -> Result<(), Failure> {
    let is_text = |bytes| crate::source::has_text(bytes) || output.bytes.is_empty();
    match is_terminal && !is_text(&output.bytes) {
        true => Err(Failure::Usage(format!(
            "{}: a terminal gets no raw bytes: name a file, or a pipe, as | xxd",
            output.given
        ))),
        false => Ok(()),
    }
}

fn failed(output: &Output, error: &io::Error) -> Failure {
    let why = match error.kind() {
        ErrorKind::StorageFull => format!("the disk is full ({error})"),
        _ => error.to_string(),
    };
    Failure::Stream(format!("{}: {why}; no file is written", output.path))
}
