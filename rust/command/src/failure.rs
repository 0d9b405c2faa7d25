//! How a run ends: exit status 0 accepted, 1 refused, 2 usage or a stream that failed.

use crate::explain::remedy;
use crate::full::is_full;
use cartsundial::Refusal;
use std::io::{self, ErrorKind, Write};
use std::process::ExitCode;

/// What was asked has its answer.
#[derive(Clone, Copy, Debug, PartialEq, Eq)]
pub enum Verdict {
    Accepted,
    Refused,
}

/// There is no answer.
#[derive(Debug)]
pub enum Failure {
    /// An input is refused, by its number.
    Refused(String),
    /// The arguments.
    Usage(String),
    /// A file that is not what it has to be: a text that cannot be read, or something else than is asked for.
    Input(String),
    /// A stream or a file that cannot be read or written.
    Stream(String),
    /// Nobody reads standard output any more, and the rest of the input was not looked at.
    Closed,
}

pub type Answer = Result<Verdict, Failure>;

impl Verdict {
    /// Accepted if this holds.
    pub fn of(is_accepted: bool) -> Verdict {
        if is_accepted {
            Verdict::Accepted
        } else {
            Verdict::Refused
        }
    }
}

impl Failure {
    /// A file's bytes that are refused.
    pub fn refused(name: &str, refusal: Refusal) -> Failure {
        Failure::refused_for(name, refusal, &[])
    }

    /// The same, by `--full` with what is known of the place, a line each, and what to do.
    pub fn refused_for(name: &str, refusal: Refusal, about: &[String]) -> Failure {
        if !is_full() {
            return Failure::Refused(format!("{name}: {refusal}"));
        }
        let about: String = about.iter().map(|what| format!("\n  {what}")).collect();
        Failure::Refused(format!("{name}: {refusal}{about}\n  {}", remedy(refusal)))
    }

    /// What went wrong with a stream of this name.
    pub fn stream(name: &str) -> impl FnOnce(io::Error) -> Failure + '_ {
        move |error| Failure::Stream(format!("{name}: {error}"))
    }
}

/// Says what failed, on standard error, and gives the exit status.
pub fn finish(answer: Answer) -> ExitCode {
    let (status, message) = match answer {
        // A reader that has seen enough, as head, is no failure.
        Ok(Verdict::Accepted) | Err(Failure::Closed) => return ExitCode::SUCCESS,
        Ok(Verdict::Refused) => return ExitCode::from(1),
        Err(Failure::Refused(message)) => (1, message),
        Err(Failure::Usage(message) | Failure::Input(message) | Failure::Stream(message)) => (2, message),
    };
    // Where standard error cannot be written either, the status says it.
    let _ = writeln!(io::stderr(), "cartsundial: {message}");
    ExitCode::from(status)
}

/// Writes to standard output, all of it, or as much as its reader wants: the verdict stays what it is.
pub fn print(bytes: impl AsRef<[u8]>) -> Result<(), Failure> {
    let mut out = io::stdout().lock();
    match out.write_all(bytes.as_ref()).and_then(|()| out.flush()).map_err(output_failed) {
        Err(Failure::Closed) => Ok(()),
        printed => printed,
    }
}

/// For what is written while the input is read: where nobody reads it any more, the rest need not be read either.
pub fn output_failed(error: io::Error) -> Failure {
    match error.kind() {
        ErrorKind::BrokenPipe => Failure::Closed,
        _ => Failure::Stream(format!("standard output: {error}")),
    }
}
