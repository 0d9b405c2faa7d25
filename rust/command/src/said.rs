//! What a line of the library says, taken apart in place. It is what [`Label`](cartsundial::Label) says, in less time: a test
//! holds the two together.

use cartsundial::{Kind, Owner, Refusal, Sender};

#[derive(Clone, Copy, Debug, PartialEq, Eq)]
pub struct Said<'a> {
    /// The record's number, as it is spelled.
    pub number: &'a [u8],
    /// The header's kind, `-` where it is not read.
    pub kind: &'a [u8],
    pub from: Option<Sender>,
    pub to: Result<Owner, u32>,
    /// How long the line is without its newline, and the text that starts with it.
    pub length: usize,
    pub text: &'a [u8],
}

impl<'a> Said<'a> {
    /// Of the record's line that this text starts with, up to its newline. The number has so many digits.
    pub fn of(text: &'a [u8], digits: usize) -> Option<Said<'a>> {
        let mut at = digits + 1;
        let kind = word(text, at)?;
        at += kind.len() + 1;
        let mut from = None;
        if *text.get(at)? == b'f' {
            at += b"from ".len();
            let sender = word(text, at)?;
            at += sender.len() + 1;
            from = Some(if sender == b"host" { Sender::Host } else { Sender::Record(number(sender)? as u16) });
        }
        at += match text.get(at)? {
            b'r' => b"refused ".len(),
            b'o' => b"owner ".len(),
            _ => b"to ".len(),
        };
        let who = word(text, at)?;
        let to = match who {
            b"host" => Ok(Owner::Host),
            b"all" => Ok(Owner::Every),
            b"port" => Ok(Owner::Port),
            digits => match text[at - 2] {
                b'd' => Err(number(digits)?),
                _ => Ok(Owner::Function(number(digits)? as u16)),
            },
        };
        Some(Said { number: &text[..digits], kind, from, to, length: at + who.len(), text })
    }

    pub fn is_read(&self) -> bool {
        self.kind != b"-"
    }

    pub fn kind(&self) -> Option<Kind> {
        std::str::from_utf8(self.kind).ok()?.parse().ok()
    }

    pub fn refusal(&self) -> Option<Refusal> {
        self.to.err().and_then(|number| Refusal::try_from(number).ok())
    }
}

/// The word from here on, up to a space or the line's end.
#[inline]
fn word(text: &[u8], start: usize) -> Option<&[u8]> {
    let rest = text.get(start..)?;
    let length = rest.iter().position(|&letter| letter <= b' ')?;
    Some(&rest[..length])
}

/// Of a few digits.
#[inline]
fn number(digits: &[u8]) -> Option<u32> {
    digits.iter().try_fold(0, |number: u32, &digit| {
        let digit = digit.wrapping_sub(b'0');
        (digit < 10).then(|| number.wrapping_mul(10).wrapping_add(digit.into()))
    })
}

/// How many digits a number has.
pub fn digits_of(number: u64) -> usize {
    number.checked_ilog10().map_or(1, |power| power as usize + 1)
}

#[cfg(test)]
mod tests {
    use super::*;
    use cartsundial::Label;

    /// Every form that a line has, against the library's own reading.
    #[test]
    fn as_the_library_reads_it() {
        let mut lines = Vec::new();
        let kinds = Kind::ALL.iter().map(|kind| kind.name()).chain(["-"]);
        for (at, kind) in kinds.enumerate() {
            for who in ["1", "512", "host", "all", "port"] {
                lines.push(format!("{} {kind} owner {who}", 10_u64.pow(at as u32)));
                lines.push(format!("{at} {kind} from 77 to {who}"));
                lines.push(format!("{at} {kind} from {who} to 3"));
            }
            for refusal in Refusal::ALL {
                lines.push(format!("{at} {kind} refused {}", refusal.number()));
                lines.push(format!("{at} {kind} from host refused {}", refusal.number()));
                lines.push(format!("{at} {kind} from 9 refused {}", refusal.number()));
            }
        }
        let mut read = 0;
        for line in &lines {
            let Ok(label) = line.parse::<Label>() else { continue };
            let (number, kind, from, to) = match label {
                Label::Owned { number, kind, sender, owner } => (number, Some(kind), sender, Ok(owner)),
                Label::Refused { number, kind, sender, refusal } => (number, kind, sender, Err(refusal)),
                _ => continue,
            };
            let text = format!("{line}\n7 MRd owner 1\n");
            let said = Said::of(text.as_bytes(), digits_of(number)).unwrap();
            assert_eq!(std::str::from_utf8(&said.text[..said.length]), Ok(&line[..]));
            assert_eq!(std::str::from_utf8(said.number), Ok(&number.to_string()[..]));
            assert_eq!((said.kind(), said.from, said.is_read()), (kind, from, kind.is_some()), "{line}");
            assert_eq!(said.to.map_err(|_| said.refusal().unwrap()), to, "{line}");
            read += 1;
        }
        assert!(read > 1000, "{read}");
        assert_eq!([0, 9, 10, 99, u64::MAX].map(digits_of), [1, 1, 2, 2, 20]);
    }
}
