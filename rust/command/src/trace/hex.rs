//! A trace's hexadecimal text as a stream: its bytes as they come, whatever the length of its lines. The rules are those of
//! [`hexadecimal`](crate::hexadecimal).

/// Where in a line the text is.
#[derive(Clone, Copy, PartialEq, Eq)]
enum Place {
    /// Nothing but spaces so far.
    Start,
    Code,
    Comment,
    /// Inside a name, which is passed over.
    Name,
}

/// How far a text was read.
pub struct HexStream {
    place: Place,
    /// The digit before, where its byte has one more to come.
    half: Option<u8>,
    /// Whether the next letter starts a word, and whether the one before was a 0 that did: then `x` may follow.
    is_word_start: bool,
    is_zero: bool,
    line: u64,
    column: u64,
}

/// What is wrong, with its line and column.
pub struct Wrong(pub String);

const NO_DIGIT: u8 = 0xFF;

/// The digit of each letter.
const DIGITS: [u8; 256] = {
    let mut digits = [NO_DIGIT; 256];
    let mut digit = 0;
    while digit < 16 {
        digits[b"0123456789ABCDEF"[digit] as usize] = digit as u8;
        digits[b"0123456789abcdef"[digit] as usize] = digit as u8;
        digit += 1;
    }
    digits
};

impl HexStream {
    /// From the start of this line, counted from 1.
    pub fn new(line: u64) -> HexStream {
        HexStream { place: Place::Start, half: None, is_word_start: true, is_zero: false, line, column: 1 }
    }

    /// Takes the text's next piece and puts its bytes after those that are there.
    pub fn feed(&mut self, text: &[u8], bytes: &mut Vec<u8>) -> Result<(), Wrong> {
        let mut rest = text;
        while let Some(&letter) = rest.first() {
            let taken = match self.place {
                Place::Comment | Place::Name => self.pass_over(rest),
                Place::Code if self.half.is_none() => self.pairs(rest, bytes),
                _ => 0,
            };
            if taken > 0 {
                rest = &rest[taken..];
                continue;
            }
            self.letter(letter, bytes)?;
            rest = &rest[1..];
        }
        Ok(())
    }

    /// Up to the end of a comment or a name.
    fn pass_over(&mut self, text: &[u8]) -> usize {
        let is_end = |&letter: &u8| letter == b'\n' || letter == b'"' && self.place == Place::Name;
        let length = text.iter().position(is_end).unwrap_or(text.len());
        self.column += length as u64;
        length
    }

    /// Whole bytes, each of two digits, for as long as there are such.
    fn pairs(&mut self, text: &[u8], bytes: &mut Vec<u8>) -> usize {
        let pair = |pair: &[u8]| {
            let [high, low] = [pair[0], pair[1]].map(|letter| DIGITS[usize::from(letter)]);
            (high | low != NO_DIGIT).then_some(high << 4 | low & 0xF)
        };
        let before = bytes.len();
        bytes.extend(text.chunks_exact(2).map_while(pair));
        let letters = 2 * (bytes.len() - before);
        if letters > 0 {
            self.column += letters as u64;
            (self.is_word_start, self.is_zero) = (false, false);
        }
        letters
    }

    fn letter(&mut self, letter: u8, bytes: &mut Vec<u8>) -> Result<(), Wrong> {
        let is_zero = self.is_zero;
        self.is_zero = false;
        match (letter, self.place) {
            (b'\n', _) => return self.end_line(),
            (b'"', Place::Name) => self.place = Place::Code,
            (b'"', Place::Start) => self.place = Place::Name,
            (b'#', _) => self.place = Place::Comment,
            (b' ' | b'\t' | b'\r' | b',' | b'_' | b':', place) => {
                self.is_word_start = true;
                self.place = if place == Place::Start && letter.is_ascii_whitespace() { place } else { Place::Code };
            }
            // `0x`: the 0 was no digit.
            (b'x' | b'X', Place::Code) if is_zero => self.half = self.half.take().is_none().then(|| unpaired(bytes)),
            _ => return self.digit(letter, bytes),
        }
        self.column += 1;
        Ok(())
    }

    fn digit(&mut self, letter: u8, bytes: &mut Vec<u8>) -> Result<(), Wrong> {
        let digit = DIGITS[usize::from(letter)];
        if digit == NO_DIGIT {
            let letter = char::from(letter);
            let letter = if letter.is_ascii_graphic() { format!("`{letter}`") } else { "a letter".to_string() };
            return Err(self.wrong(&format!("{letter} is not hexadecimal")));
        }
        self.place = Place::Code;
        self.is_zero = self.is_word_start && digit == 0;
        self.is_word_start = false;
        self.half = match self.half {
            None => Some(digit),
            Some(high) => {
                bytes.push(high << 4 | digit);
                None
            }
        };
        self.column += 1;
        Ok(())
    }

    fn end_line(&mut self) -> Result<(), Wrong> {
        self.finish()?;
        *self = HexStream::new(self.line + 1);
        Ok(())
    }

    /// Where the text ends here.
    pub fn finish(&self) -> Result<(), Wrong> {
        match (self.place, self.half) {
            (Place::Name, _) => Err(self.wrong("a name ends with a second quote, on its line")),
            (_, Some(_)) => Err(self.wrong("an odd number of hexadecimal digits: a byte has two")),
            _ => Ok(()),
        }
    }

    fn wrong(&self, what: &str) -> Wrong {
        let example = "a record is a length and a header, as 000C 00000001 0000210F F9000FFC";
        Wrong(format!("line {}, column {}: {what}; {example}", self.line, self.column))
    }
}

/// The high digit of a byte whose low digit, a 0, is taken back.
fn unpaired(bytes: &mut Vec<u8>) -> u8 {
    bytes.pop().map_or(0, |byte| byte >> 4)
}
