//! How often each call gave each number, and how large what it accepted was.

use cartsundial::{Label, Owner, Refusal, Sender};
use inputs::board::{MOST_ABOVE, MOST_FUNCTIONS};
use plain::Arrival;
use std::fmt;

#[derive(Clone, Copy, Debug, PartialEq, Eq)]
pub enum Call {
    Read,
    Judge,
    Write,
    Plan,
    PlanWhere,
    Script,
    Check,
    Audit,
    Sound,
    SoundAlone,
    AuditWhere,
    Lookup,
    Id,
    Command,
    Route,
    RouteFrom,
    Sender,
    RouteSent,
    Index,
    IndexSound,
    IndexAlone,
    Find,
    Annotate,
    Label,
    Follow,
    End,
    Open,
    Complete,
    Count,
}

const CALLS: [Call; 29] = [
    Call::Read,
    Call::Judge,
    Call::Write,
    Call::Plan,
    Call::PlanWhere,
    Call::Script,
    Call::Check,
    Call::Audit,
    Call::Sound,
    Call::SoundAlone,
    Call::AuditWhere,
    Call::Lookup,
    Call::Id,
    Call::Command,
    Call::Route,
    Call::RouteFrom,
    Call::Sender,
    Call::RouteSent,
    Call::Index,
    Call::IndexSound,
    Call::IndexAlone,
    Call::Find,
    Call::Annotate,
    Call::Label,
    Call::Follow,
    Call::End,
    Call::Open,
    Call::Complete,
    Call::Count,
];

/// One more than the greatest number.
const NUMBERS: usize = 66;

/// A version that is not known.
const VERSION: usize = 21;

impl Call {
    /// The numbers that the call can give, by documents 01 to 03 and, for 11, by the boundary's answer slices.
    fn numbers(self) -> &'static [usize] {
        match self {
            Call::Read => &[0, 1, 2, 3, 4, 5, 6, 7, 8, 9, 11],
            Call::Judge => &[0, 1, 2, 3, 4, 5, 6, 7, 8, 9],
            Call::Write => &[0, 2, 4, 5, 6, 7, 8, 9, 10, 11],
            Call::Plan | Call::PlanWhere => &[0, 11, 20, 21, 22, 23, 24, 25, 26, 30, 31, 32, 33],
            Call::Script => &[0, 10, 11, 20, 21, 22, 23, 24, 25, 26, 30, 31, 32, 33],
            Call::Check => &[0, 20, 21, 22, 24, 25, 27, 28, 29],
            Call::Audit | Call::Sound => &[0, 20, 21, 22, 24, 25, 26, 27, 28, 29, 50, 51, 52],
            Call::SoundAlone => &[0, 20, 21, 22, 24, 25, 27, 28, 29, 50, 51, 52],
            Call::AuditWhere => &[0, 11, 20, 21, 22, 24, 25, 26, 27, 28, 29, 50, 51, 52],
            Call::Lookup => &[0, 11, 20, 21, 22, 24, 25, 27, 28, 29, 40],
            Call::Id => &[0, 11, 20, 21, 22, 24, 25, 27, 28, 29, 40],
            Call::Command => &[0, 10, 20, 21, 22, 24, 25, 27, 28, 29, 40],
            Call::Route => &[0, 1, 2, 3, 4, 5, 6, 7, 8, 9, 11, 20, 21, 22, 24, 25, 27, 28, 29, 40, 41, 42, 43],
            Call::RouteFrom => &[0, 1, 2, 3, 4, 5, 6, 7, 8, 9, 11, 20, 21, 22, 24, 25, 27, 28, 29, 40, 41, 44, 45],
            Call::Sender => &[0, 1, 2, 3, 4, 5, 6, 7, 8, 9, 10, 11, 20, 21, 22, 24, 25, 27, 28, 29],
            Call::RouteSent => {
                &[0, 1, 2, 3, 4, 5, 6, 7, 8, 9, 10, 11, 20, 21, 22, 24, 25, 27, 28, 29, 40, 41, 42, 43, 44, 45]
            }
            Call::Index | Call::IndexSound => &[0, 11, 20, 21, 22, 24, 25, 26, 27, 28, 29, 50, 51, 52],
            Call::IndexAlone => &[0, 11, 20, 21, 22, 24, 25, 27, 28, 29, 50, 51, 52],
            Call::Find => &[0, 1, 2, 3, 4, 5, 6, 7, 8, 9, 11, 40, 42, 43],
            Call::Annotate | Call::Label | Call::Follow | Call::End => &[0, 10, 11],
            Call::Open => &[0, 1, 2, 3, 4, 5, 6, 7, 8, 9, 11, 60, 61, 62],
            Call::Complete => &[0, 1, 2, 3, 4, 5, 6, 7, 8, 9, 11, 60, 63, 64, 65],
            Call::Count => &[0, 11],
        }
    }
}

/// What the lines of traces say, in kinds.
const LABELS: [&str; 15] = [
    "a function",
    "every function",
    "the port",
    "header refused",
    "route refused",
    "refused 20",
    "refused 21",
    "cut",
    "host to function",
    "host to every function",
    "host to port",
    "from the host refused",
    "function to function",
    "function to host or port",
    "from a function refused",
];

pub struct Tally {
    numbers: [[u64; NUMBERS]; CALLS.len()],
    /// Boards of version 1 and of version 2, by the number that they got.
    boards: [[u64; NUMBERS]; 2],
    /// Boards planned, by their functions.
    functions: [u64; MOST_FUNCTIONS + 1],
    /// Packets delivered, by the bridges that they crossed.
    bridges: [u64; 256],
    /// Requests delivered from card to card, by the bridges that they crossed.
    cards: [u64; 256],
    /// Requests from a card that went to the host, by the bridges that they crossed.
    hosts: [u64; 256],
    /// Packets by ID that a function sent: delivered, by the bridges crossed, and gone up to the host.
    by_id: [u64; 512],
    by_id_to_host: [u64; 512],
    /// Messages that went to every function, by how many there are.
    broadcasts: [u64; MOST_FUNCTIONS + 1],
    /// Messages that ended at the port.
    ports: u64,
    /// Lines of traces, by what they say.
    labels: [u64; LABELS.len()],
    /// Sheets that are sound and not accepted.
    sound_alone: u64,
}

impl Default for Tally {
    fn default() -> Tally {
        Tally {
            numbers: [[0; NUMBERS]; CALLS.len()],
            boards: [[0; NUMBERS]; 2],
            functions: [0; MOST_FUNCTIONS + 1],
            bridges: [0; 256],
            cards: [0; 256],
            hosts: [0; 256],
            by_id: [0; 512],
            by_id_to_host: [0; 512],
            broadcasts: [0; MOST_FUNCTIONS + 1],
            ports: 0,
            labels: [0; LABELS.len()],
            sound_alone: 0,
        }
    }
}

impl Tally {
    pub fn count(&mut self, call: Call, number: u32) {
        match self.numbers[call as usize].get_mut(number as usize) {
            Some(count) => *count += 1,
            None => panic!("{call:?} gave {number}, which is no number of documents 01 to 03"),
        }
    }

    /// The number of a board that starts with this byte.
    pub fn board(&mut self, version: u8, number: u32) {
        if let 1 | 2 = version {
            self.boards[usize::from(version) - 1][number as usize] += 1;
        }
    }

    /// The numbers of a sheet's two verdicts.
    pub fn judged(&mut self, audit: u8, sound: u8) {
        self.sound_alone += u64::from(audit != 0 && sound == 0);
    }

    pub fn planned(&mut self, functions: usize) {
        self.functions[functions] += 1;
    }

    pub fn arrived(&mut self, arrival: &Arrival) {
        match *arrival {
            Arrival::Function { bridges, .. } => self.bridges[usize::from(bridges)] += 1,
            Arrival::Every { functions, .. } => self.broadcasts[usize::from(functions)] += 1,
            Arrival::Port { .. } => self.ports += 1,
            Arrival::Host { .. } => panic!("the host has it already"),
        }
    }

    /// Of what a function sends.
    pub fn climbed(&mut self, arrival: &Arrival) {
        match *arrival {
            Arrival::Function { bridges, .. } => self.cards[usize::from(bridges)] += 1,
            Arrival::Host { bridges, .. } => self.hosts[usize::from(bridges)] += 1,
            Arrival::Every { .. } | Arrival::Port { .. } => panic!("a message has no start"),
        }
    }

    /// Of a completion or a message that a function sends.
    pub fn climbed_by_id(&mut self, arrival: &Arrival) {
        match *arrival {
            Arrival::Function { bridges, .. } => self.by_id[usize::from(bridges)] += 1,
            Arrival::Host { bridges, .. } => self.by_id_to_host[usize::from(bridges)] += 1,
            Arrival::Port { .. } => self.ports += 1,
            Arrival::Every { .. } => panic!("a broadcast starts at the host"),
        }
    }

    pub fn labelled(&mut self, label: &Label) {
        let kind = match label {
            Label::Owned { sender: None, owner: Owner::Function(_), .. } => 0,
            Label::Owned { sender: None, owner: Owner::Every, .. } => 1,
            Label::Owned { sender: None, owner: Owner::Port, .. } => 2,
            Label::Refused { sender: None, kind: None, .. } => 3,
            Label::Refused { sender: None, kind: Some(_), .. } => 4,
            Label::Owned { sender: Some(Sender::Host), owner: Owner::Function(_), .. } => 8,
            Label::Owned { sender: Some(Sender::Host), owner: Owner::Every, .. } => 9,
            Label::Owned { sender: Some(Sender::Host), owner: Owner::Port, .. } => 10,
            Label::Refused { sender: Some(Sender::Host), .. } => 11,
            Label::Owned { sender: Some(Sender::Record(_)), owner: Owner::Function(_), .. } => 12,
            Label::Owned { sender: Some(Sender::Record(_)), owner: Owner::Host | Owner::Port, .. } => 13,
            Label::Refused { sender: Some(Sender::Record(_)), .. } => 14,
            Label::NoTrace(Refusal::Frame) => 5,
            Label::NoTrace(_) => 6,
            Label::Cut => 7,
            other => panic!("{other:?}"),
        };
        self.labels[kind] += 1;
    }

    pub fn total(&self) -> u64 {
        self.numbers.iter().flatten().sum()
    }

    /// The numbers that never came back and should have, and those that came back and should not.
    pub fn faults(&self) -> String {
        let mut faults = Vec::new();
        for call in CALLS {
            for number in 0..NUMBERS {
                let seen = self.numbers[call as usize][number] > 0;
                match (seen, call.numbers().contains(&number)) {
                    (false, true) => faults.push(format!("{call:?} never gave {number}")),
                    (true, false) => faults.push(format!("{call:?} gave {number}")),
                    _ => {}
                }
            }
        }
        for (version, boards) in (1..).zip(&self.boards) {
            // Both are known, so neither is 21.
            for number in Call::Plan.numbers().iter().filter(|&&number| number != VERSION && boards[number] == 0) {
                faults.push(format!("no board of version {version} got {number}"));
            }
        }
        if self.functions[MOST_FUNCTIONS] == 0 {
            faults.push("no board of 512 functions was planned".into());
        }
        if self.bridges[..=MOST_ABOVE].contains(&0) || self.bridges[255] == 0 {
            faults.push("some number of bridges, 0 to 32 or 255, was never crossed".into());
        }
        if self.cards[..=2 * MOST_ABOVE].contains(&0) || self.cards[255] == 0 || self.hosts[..3].contains(&0) {
            faults.push("some number of bridges was never crossed from card to card, or to the host".into());
        }
        if self.by_id[..=2 * MOST_ABOVE].contains(&0) || self.by_id[255] == 0 || self.by_id_to_host[..3].contains(&0) {
            faults.push("some number of bridges was never crossed by ID from a function, or to the host".into());
        }
        if self.broadcasts[1] == 0 || self.broadcasts[MOST_FUNCTIONS] == 0 || self.ports == 0 {
            faults.push("no message went to the one function, to all 512, or to the port".into());
        }
        if self.sound_alone == 0 {
            faults.push("no sheet was sound and not accepted".into());
        }
        for (label, _) in LABELS.iter().zip(self.labels).filter(|&(_, count)| count == 0) {
            faults.push(format!("no line of a trace was: {label}"));
        }
        faults.join("\n")
    }
}

/// Counts by size, in a few parts.
fn by_size(counts: &[u64]) -> String {
    let parts = [0..=0, 1..=1, 2..=4, 5..=31, 32..=32, 33..=64, 65..=254, 255..=255, 256..=511, 512..=512];
    let parts = parts.into_iter().filter(|part| *part.end() < counts.len()).map(|part| {
        let count: u64 = counts[part.clone()].iter().sum();
        if part.start() == part.end() {
            format!("{}: {count}", part.start())
        } else {
            format!("{} to {}: {count}", part.start(), part.end())
        }
    });
    parts.collect::<Vec<_>>().join(", ")
}

impl fmt::Display for Tally {
    fn fmt(&self, f: &mut fmt::Formatter<'_>) -> fmt::Result {
        write!(f, "number")?;
        for call in CALLS {
            write!(f, " {:>8}", format!("{call:?}").to_lowercase())?;
        }
        writeln!(f)?;
        for number in (0..NUMBERS).filter(|number| CALLS.iter().any(|call| call.numbers().contains(number))) {
            write!(f, "{number:>6}")?;
            for call in CALLS {
                match self.numbers[call as usize][number] {
                    0 if !call.numbers().contains(&number) => write!(f, " {:>8}", ".")?,
                    count => write!(f, " {count:>8}")?,
                }
            }
            writeln!(f)?;
        }
        write!(f, "   all")?;
        for call in CALLS {
            write!(f, " {:>8}", self.numbers[call as usize].iter().sum::<u64>())?;
        }
        writeln!(f)?;
        for (version, boards) in (1..).zip(&self.boards) {
            let planned = boards[0];
            let refused = boards.iter().sum::<u64>() - planned;
            writeln!(f, "boards of version {version}: {planned} planned, {refused} refused")?;
        }
        writeln!(f, "boards planned, by functions: {}", by_size(&self.functions))?;
        writeln!(f, "packets delivered, by bridges crossed: {}", by_size(&self.bridges))?;
        writeln!(f, "requests from card to card, by bridges crossed: {}", by_size(&self.cards))?;
        writeln!(f, "requests from a card to the host, by bridges crossed: {}", by_size(&self.hosts))?;
        writeln!(f, "packets by ID from a function, by bridges crossed: {}", by_size(&self.by_id))?;
        writeln!(
            f,
            "packets by ID or up from a function to the host, by bridges crossed: {}",
            by_size(&self.by_id_to_host)
        )?;
        writeln!(f, "messages for every function, by functions: {}", by_size(&self.broadcasts))?;
        writeln!(f, "messages for the port: {}", self.ports)?;
        let labels: Vec<String> =
            LABELS.iter().zip(self.labels).map(|(label, count)| format!("{label}: {count}")).collect();
        writeln!(f, "lines of traces: {}", labels.join(", "))?;
        writeln!(f, "sheets that are sound and not accepted: {}", self.sound_alone)
    }
}
