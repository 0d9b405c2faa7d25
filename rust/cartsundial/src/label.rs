//! What a line of an annotated trace says.

use crate::{Kind, Refusal, Sender};
use core::error::Error;
use core::fmt;
use core::str::FromStr;

/// What a line of an annotated trace says. With [both ends](crate::Engine::both_ends) a line names the sender too.
#[derive(Clone, Copy, Debug, PartialEq, Eq, Hash)]
#[non_exhaustive]
pub enum Label {
    /// `1 MRd owner 2`, or with both ends `1 MRd from host to 2`: a record whose packet has an owner.
    Owned {
        /// The record's number in the trace, from 1.
        number: u64,
        /// The header's kind, as it was read.
        kind: Kind,
        /// From whom the packet comes, where the line says it.
        sender: Option<Sender>,
        /// Where the packet goes.
        owner: Owner,
    },
    /// `2 IOWr refused 40`, with both ends `2 IOWr from 3 refused 44`, or `3 - refused 4`: a record that is refused.
    Refused {
        /// The record's number in the trace, from 1.
        number: u64,
        /// The header's kind, where it was read. `None` where the reader refuses it.
        kind: Option<Kind>,
        /// From whom the packet comes, where the line says it. `None` also with both ends where the header is not read, or the
        /// sheet fails its checks.
        sender: Option<Sender>,
        /// Why.
        refusal: Refusal,
    },
    /// `refused 20`, a trace of no bytes, or `refused 21`, one of another version.
    NoTrace(Refusal),
    /// `cut`: the trace ends inside a record.
    Cut,
}

/// Where the packet of a record goes.
#[derive(Clone, Copy, Debug, PartialEq, Eq, Hash)]
pub enum Owner {
    /// `2`: to the function with this record of the sheet.
    Function(u16),
    /// `host`: to the host. Only with both ends, of what a function sends.
    Host,
    /// `all`: to every function.
    Every,
    /// `port`: to the port that receives it, and no further.
    Port,
}

/// The most words of a line: `2 IOWr from 3 refused 44`.
const MOST_WORDS: usize = 6;

/// The host, as sender and as owner.
const HOST: &str = "host";

/// The text is no line of an annotated trace.
#[derive(Clone, Copy, Debug, PartialEq, Eq)]
pub struct NoLabel;

impl fmt::Display for NoLabel {
    fn fmt(&self, f: &mut fmt::Formatter<'_>) -> fmt::Result {
        f.write_str("not a line of an annotated trace, as `1 MRd owner 2` or `2 IOWr refused 40`")
    }
}

impl Error for NoLabel {}

/// The line, without its newline.
impl FromStr for Label {
    type Err = NoLabel;

    fn from_str(line: &str) -> Result<Label, NoLabel> {
        let mut words = [""; MOST_WORDS];
        let mut count = 0;
        for word in line.split(' ') {
            *words.get_mut(count).ok_or(NoLabel)? = word;
            count += 1;
        }
        Ok(match words[..count] {
            ["cut"] => Label::Cut,
            ["refused", refusal] => Label::NoTrace(part(refusal)?),
            // The host gets a packet only from a sender.
            [number, kind, "owner", owner] if owner != HOST => {
                Label::Owned { number: part(number)?, kind: part(kind)?, sender: None, owner: owner.parse()? }
            }
            [number, kind, "from", sender, "to", owner] => Label::Owned {
                number: part(number)?,
                kind: part(kind)?,
                sender: Some(sender.parse()?),
                owner: owner.parse()?,
            },
            [number, kind, "refused", refusal] => Label::Refused {
                number: part(number)?,
                kind: if kind == "-" { None } else { Some(part(kind)?) },
                sender: None,
                refusal: part(refusal)?,
            },
            [number, kind, "from", sender, "refused", refusal] => Label::Refused {
                number: part(number)?,
                kind: Some(part(kind)?),
                sender: Some(sender.parse()?),
                refusal: part(refusal)?,
            },
            _ => return Err(NoLabel),
        })
    }
}

/// `2`, `host`, `all` or `port`.
impl FromStr for Owner {
    type Err = NoLabel;

    fn from_str(word: &str) -> Result<Owner, NoLabel> {
        Ok(match word {
            HOST => Owner::Host,
            "all" => Owner::Every,
            "port" => Owner::Port,
            record => Owner::Function(part(record)?),
        })
    }
}

/// `host`, or a record.
impl FromStr for Sender {
    type Err = NoLabel;

    fn from_str(word: &str) -> Result<Sender, NoLabel> {
        Ok(if word == HOST { Sender::Host } else { Sender::Record(part(word)?) })
    }
}

/// A word of a line.
fn part<T: FromStr>(word: &str) -> Result<T, NoLabel> {
    word.parse().map_err(|_| NoLabel)
}

/// The line, without its newline.
impl fmt::Display for Label {
    fn fmt(&self, f: &mut fmt::Formatter<'_>) -> fmt::Result {
        match *self {
            Label::Owned { number, kind, sender: None, owner } => write!(f, "{number} {kind} owner {owner}"),
            Label::Owned { number, kind, sender: Some(sender), owner } => {
                write!(f, "{number} {kind} from {sender} to {owner}")
            }
            Label::Refused { number, kind, sender, refusal } => {
                write!(f, "{number} ")?;
                match kind {
                    Some(kind) => write!(f, "{kind} ")?,
                    None => f.write_str("- ")?,
                }
                if let Some(sender) = sender {
                    write!(f, "from {sender} ")?;
                }
                write!(f, "refused {}", refusal.number())
            }
            Label::NoTrace(refusal) => write!(f, "refused {}", refusal.number()),
            Label::Cut => f.write_str("cut"),
        }
    }
}

/// `2`, `host`, `all` or `port`.
impl fmt::Display for Owner {
    fn fmt(&self, f: &mut fmt::Formatter<'_>) -> fmt::Result {
        match self {
            Owner::Function(record) => write!(f, "{record}"),
            Owner::Host => f.write_str(HOST),
            Owner::Every => f.write_str("all"),
            Owner::Port => f.write_str("port"),
        }
    }
}

/// `host`, or a record.
impl fmt::Display for Sender {
    fn fmt(&self, f: &mut fmt::Formatter<'_>) -> fmt::Result {
        match self {
            Sender::Host => f.write_str(HOST),
            Sender::Record(record) => write!(f, "{record}"),
        }
    }
}
