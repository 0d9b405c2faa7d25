//! Bytes as hexadecimal text: `#` starts a comment, spaces and carriage returns do not matter, and a quoted name belongs to
//! what starts at the next byte. A text may say first what it is: `sheet`, `trace` or `script`; of a sheet also how much:
//! `sheet of 8 functions`.

use crate::named::RECORD;

/// What a text says that it is.
const WORDS: [&str; 3] = ["sheet", "trace", "script"];

pub struct HexText {
    /// The word that it starts with, if there is one.
    pub word: Option<&'static str>,
    pub bytes: Vec<u8>,
    /// Each with how many bytes stand before it.
    pub names: Vec<(usize, String)>,
    /// How many functions a sheet's text says that it has.
    functions: Option<usize>,
}

/// What is wrong in a text: with its line, and by `--full` also with its column and an example.
#[derive(Debug)]
pub struct HexWrong {
    pub short: String,
    pub full: String,
}

/// What is wrong with a part of a line.
type Wrong<'a> = (&'a str, HexWrong);

impl HexText {
    /// What is wrong comes with its line.
    #[cfg(test)]
    pub fn read(text: &str) -> Result<HexText, String> {
        match HexText::read_as_far(text) {
            (all, None) => Ok(all),
            (_, Some(wrong)) => Err(wrong.short),
        }
    }

    /// What is wrong comes beside what was read before it.
    pub fn read_as_far(text: &str) -> (HexText, Option<HexWrong>) {
        let mut all = HexText { word: None, bytes: Vec::new(), names: Vec::new(), functions: None };
        for (number, line) in (1..).zip(text.lines()) {
            if let Err((part, HexWrong { short, full })) = all.read_line(line.trim()) {
                let column = column(line, part);
                let short = format!("line {number}: {short}");
                return (all, Some(HexWrong { short, full: format!("line {number}, column {column}: {full}") }));
            }
        }
        let lines = text.lines().count();
        let cut = all.functions.filter(|&count| all.bytes.len() != sheet_of(count)).map(|count| {
            let (wanted, is) = (sheet_of(count), all.bytes.len());
            let whole = is.saturating_sub(1) / RECORD;
            let place = format!(
                "line {lines}: it ends after {whole} whole functions and {} bytes",
                is.saturating_sub(1) % RECORD
            );
            let short =
                format!("it says {count} functions, which are {wanted} bytes, and has {is}: it is cut, or was changed");
            HexWrong { full: format!("{place}; {short}"), short }
        });
        (all, cut)
    }

    fn read_line<'a>(&mut self, mut line: &'a str) -> Result<(), Wrong<'a>> {
        if let Some(quoted) = line.strip_prefix('"') {
            let short = "a name ends with a second quote".to_string();
            let open = || (line, HexWrong { full: format!("{short}, as \"capture\""), short });
            let (name, rest) = quoted.split_once('"').ok_or_else(open)?;
            self.names.push((self.bytes.len(), name.to_string()));
            line = rest;
        }
        let line = line.split('#').next().unwrap_or("").trim();
        if let Some(count) = line.strip_prefix("sheet of ").filter(|_| self.bytes.is_empty() && self.word.is_none()) {
            let digits = count.trim_end_matches(" functions").trim_end_matches(" function");
            let wrong = || HexWrong {
                short: format!("`{line}`: a sheet is `of 8 functions`"),
                full: format!("`{count}`: how many functions a sheet has, as `sheet of 8 functions`"),
            };
            self.functions = Some(digits.parse().map_err(|_| (count, wrong()))?);
            self.word = Some("sheet");
            return Ok(());
        }
        match WORDS.into_iter().find(|word| *word == line) {
            Some(word) if self.bytes.is_empty() && self.word.is_none() => self.word = Some(word),
            _ => self.bytes.extend(spelled(line)?),
        }
        Ok(())
    }
}

/// How many bytes a sheet has.
fn sheet_of(functions: usize) -> usize {
    RECORD.saturating_mul(functions).saturating_add(1)
}

/// The letter of the line, from 1, at which a slice of it starts.
fn column(line: &str, part: &str) -> usize {
    let start = (part.as_ptr() as usize).checked_sub(line.as_ptr() as usize);
    start.and_then(|start| line.get(..start)).map_or(1, |before| before.chars().count() + 1)
}

/// The bytes that digits spell, whatever stands between them: spaces, commas, `0x`, `_`.
pub fn bytes(text: &str) -> Result<Vec<u8>, String> {
    spelled(text).map_err(|(_, wrong)| wrong.short)
}

/// The same; what is wrong comes with the word that it is about.
fn spelled(text: &str) -> Result<Vec<u8>, Wrong<'_>> {
    let mut digits = Vec::new();
    let mut odd = None;
    for word in text.split(|letter: char| letter.is_whitespace() || matches!(letter, ',' | '_' | ':')) {
        let bare = word.strip_prefix("0x").or(word.strip_prefix("0X")).unwrap_or(word);
        for letter in bare.chars() {
            let wrong = || HexWrong {
                short: format!("`{bare}` is not hexadecimal"),
                full: format!("`{word}` is not hexadecimal: bytes are digits 0 to 9 and A to F, as `4A000001`"),
            };
            digits.push(letter.to_digit(16).ok_or_else(|| (word, wrong()))? as u8);
        }
        if bare.len() % 2 != 0 && odd.is_none() {
            odd = Some(word);
        }
    }
    match odd {
        Some(word) if digits.len() % 2 != 0 => {
            let short = format!("{} hexadecimal digits: a byte has two", digits.len());
            let full =
                format!("`{word}`: {} hexadecimal digits in all, and a byte has two, as `0{word}`", digits.len());
            Err((word, HexWrong { short, full }))
        }
        _ => Ok(digits.chunks_exact(2).map(|pair| pair[0] << 4 | pair[1]).collect()),
    }
}

/// In groups of four bytes.
pub fn dwords(bytes: &[u8]) -> String {
    let group = |group: &[u8]| group.iter().map(|byte| format!("{byte:02X}")).collect::<String>();
    bytes.chunks(4).map(group).collect::<Vec<_>>().join(" ")
}

#[cfg(test)]
mod tests {
    use super::*;

    #[test]
    fn any_spacing() {
        for text in ["0001 0a0B", "00 01 0A 0b", "0x0001,0x0a0b", "00010A0B", "00_01 0a:0b"] {
            assert_eq!(bytes(text), Ok(vec![0, 1, 10, 11]), "{text}");
        }
        assert!(bytes("001").is_err() && bytes("0g").is_err());
        assert_eq!(dwords(&[0, 1, 2, 3, 0xAB]), "00010203 AB");
    }

    #[test]
    fn names_and_a_word() {
        let text = HexText::read("# a sheet\r\nsheet\r\n01\r\n\"a # b\" # its name\r\n005A # length\r\n").unwrap();
        assert_eq!((text.word, text.bytes), (Some("sheet"), vec![1, 0, 90]));
        assert_eq!(text.names, [(1, "a # b".to_string())]);
        for (text, is_whole) in
            [("sheet of 0 functions\n01", true), ("sheet of 1 function\n01", false), ("sheet of x\n01", false)]
        {
            assert_eq!(HexText::read(text).is_ok(), is_whole, "{text}");
        }
        assert_eq!(HexText::read("01\n0q").err().unwrap(), "line 2: `0q` is not hexadecimal");
    }

    #[test]
    fn places() {
        let (before, why) = HexText::read_as_far("01\n02 0q");
        assert_eq!(before.bytes, [1]);
        assert!(why.unwrap().full.starts_with("line 2, column 4: `0q` is not hexadecimal: "));
        let (_, why) = HexText::read_as_far("01\n0102 0xA 03");
        assert!(why.unwrap().full.starts_with("line 2, column 6: `0xA`"));
    }
}
