//! Parts of a trace side by side. Each job takes the next part, makes its lines, and writes them when all before are written.

use crate::failure::{output_failed, Failure};
use crate::parts::{Part, Parts};
use crate::progress::Progress;
use std::io::{self, Write};
use std::sync::atomic::{AtomicBool, Ordering};
use std::sync::{Condvar, Mutex, MutexGuard};
use std::thread;

/// What a job makes of parts. It is the job's own.
pub trait Desk: Send {
    /// The lines of a part.
    fn lines(&mut self, part: &Part) -> &[u8];
}

struct Input {
    parts: Parts,
    /// How many parts were given.
    given: u64,
    has_ended: bool,
}

struct Output {
    /// How many parts were written, and how many headers these are.
    written: u64,
    headers: u64,
    failure: Option<Failure>,
    progress: Progress,
}

struct Shared {
    input: Mutex<Input>,
    output: Mutex<Output>,
    turn: Condvar,
    /// Nothing more is written, and nothing more need be read.
    has_failed: AtomicBool,
}

/// Where a job panics, the others do not wait for its turn.
struct Alarm<'a>(&'a Shared);

/// Writes the lines of all parts to standard output, in their order. The desks come back, and the parts at their end.
pub fn write_all<D: Desk>(parts: Parts, mut desks: Vec<D>, progress: Progress) -> Result<(Parts, Vec<D>), Failure> {
    let input = Mutex::new(Input { parts, given: 0, has_ended: false });
    let output = Mutex::new(Output { written: 0, headers: 0, failure: None, progress });
    let shared = Shared { input, output, turn: Condvar::new(), has_failed: AtomicBool::new(false) };
    match &mut desks[..] {
        [desk] => shared.work(desk),
        desks => thread::scope(|scope| desks.iter_mut().for_each(|desk| drop(scope.spawn(|| shared.work(desk))))),
    }
    let Shared { input, output, .. } = shared;
    let mut output = output.into_inner().expect("no job panics");
    output.progress.end(output.headers);
    match output.failure {
        Some(failure) => Err(failure),
        None => Ok((input.into_inner().expect("no job panics").parts, desks)),
    }
}

impl Shared {
    fn work<D: Desk>(&self, desk: &mut D) {
        let _alarm = Alarm(self);
        let mut part = Part::default();
        while let Some(number) = self.take(&mut part) {
            let lines = desk.lines(&part);
            let mut output = self.turn_of(number);
            if !self.has_failed() {
                let mut out = io::stdout().lock();
                let written = out.write_all(lines).and_then(|()| out.flush()).map_err(output_failed);
                self.fail(&mut output, written.err());
                output.headers += part.count as u64;
                let headers = output.headers;
                output.progress.tell(headers);
            }
            self.end_turn(output);
        }
    }

    /// The next part and its number. `None` after the last, or after a failure.
    fn take(&self, part: &mut Part) -> Option<u64> {
        let mut input = self.input.lock().expect("no job panics");
        if input.has_ended || self.has_failed() {
            return None;
        }
        let next = input.parts.next(part);
        let number = input.given;
        input.has_ended = !matches!(next, Ok(true));
        input.given += 1;
        drop(input);
        match next {
            Ok(is_there) => is_there.then_some(number),
            Err(failure) => {
                // After the lines of what was read before it.
                let mut output = self.turn_of(number);
                self.fail(&mut output, Some(failure));
                self.end_turn(output);
                None
            }
        }
    }

    fn has_failed(&self) -> bool {
        self.has_failed.load(Ordering::Relaxed)
    }

    /// The first failure is told.
    fn fail(&self, output: &mut Output, failure: Option<Failure>) {
        if let Some(failure) = failure {
            output.failure.get_or_insert(failure);
            self.has_failed.store(true, Ordering::Relaxed);
        }
    }

    fn turn_of(&self, number: u64) -> MutexGuard<'_, Output> {
        let output = self.output.lock().expect("no job panics");
        self.turn.wait_while(output, |output| output.written < number).expect("no job panics")
    }

    fn end_turn(&self, mut output: MutexGuard<Output>) {
        output.written = output.written.saturating_add(1);
        drop(output);
        self.turn.notify_all();
    }
}

impl Drop for Alarm<'_> {
    fn drop(&mut self) {
        if thread::panicking() {
            self.0.has_failed.store(true, Ordering::Relaxed);
            if let Ok(mut output) = self.0.output.lock() {
                output.written = u64::MAX;
            }
            self.0.turn.notify_all();
        }
    }
}
