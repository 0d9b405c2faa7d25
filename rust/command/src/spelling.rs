//! How a text is spelled: UTF-8, with or without a byte order mark. What is meant as text and is spelled otherwise is told, with the
//! place and a way to spell it anew.

pub enum Spelling<'a> {
    /// No text: a board, a sheet, a trace, a script or a host record, or nothing of these.
    Bytes,
    Text(&'a str),
    /// The lines before the one that cannot be read, and why it cannot.
    Broken(&'a str, String),
}

const MARK: &[u8] = &[0xEF, 0xBB, 0xBF];

pub fn text_of(bytes: &[u8]) -> Spelling<'_> {
    if let [0xFF, 0xFE, ..] | [0xFE, 0xFF, ..] = bytes {
        return Spelling::Broken("", wide("it starts with its byte order mark"));
    }
    let bytes = bytes.strip_prefix(MARK).unwrap_or(bytes);
    if let [b' '..=b'~', 0, b' '..=b'~', 0, ..] | [0, b' '..=b'~', 0, b' '..=b'~', ..] = bytes {
        return Spelling::Broken("", wide("every other byte is 0"));
    }
    let valid = match std::str::from_utf8(bytes) {
        Ok(text) => text,
        Err(error) => std::str::from_utf8(&bytes[..error.valid_up_to()]).unwrap_or(""),
    };
    let wrong = valid.bytes().position(is_control).unwrap_or(valid.len());
    match bytes.get(wrong) {
        None if bytes.is_empty() => Spelling::Bytes,
        None => Spelling::Text(valid),
        Some(_) if !is_meant_as_text(bytes) => Spelling::Bytes,
        Some(&byte) => {
            let before = &valid[..wrong];
            let start = before.rfind('\n').map_or(0, |at| at + 1);
            let (line, column) = (before.matches('\n').count() + 1, before[start..].chars().count() + 1);
            let why = match is_control(byte) {
                true => "no letter of a text: take it out, or make the file anew".to_string(),
                false => "not UTF-8; a text in Latin-1 becomes so by `iconv -f LATIN1 -t UTF-8 OLD > NEW`".to_string(),
            };
            Spelling::Broken(&before[..start], format!("line {line}, column {column}: byte {byte:02X}h is {why}"))
        }
    }
}

fn wide(why: &str) -> String {
    format!("line 1, column 1: it is spelled in UTF-16 ({why}), and text is read in UTF-8: `iconv -f UTF-16 -t UTF-8 OLD > NEW`")
}

/// No board, sheet or trace is without one of these.
fn is_control(byte: u8) -> bool {
    byte < b' ' && !matches!(byte, b'\t' | b'\r' | b'\n')
}

/// Bytes of a board, a sheet, a trace and a script start with 0, 1 or 2; a text starts with letters, and nearly all are.
fn is_meant_as_text(bytes: &[u8]) -> bool {
    let front = &bytes[..bytes.len().min(1 << 12)];
    let is_letter = |byte: &&u8| matches!(**byte, b' '..=b'~' | b'\t' | b'\r' | b'\n');
    let letters = front.iter().filter(is_letter).count();
    !front.iter().take(3).any(|&byte| is_control(byte)) && letters * 10 >= front.len() * 8
}

#[cfg(test)]
mod tests {
    use super::*;

    fn why(bytes: &[u8]) -> String {
        match text_of(bytes) {
            Spelling::Broken(before, why) => format!("{before:?} {why}"),
            Spelling::Text(text) => format!("text {text:?}"),
            Spelling::Bytes => "bytes".into(),
        }
    }

    #[test]
    fn spellings() {
        assert_eq!(why(b"\xEF\xBB\xBFhost\n"), "text \"host\\n\"");
        assert_eq!([why(b""), why(&[1]), why(&[0, 16, 0x44]), why(&[1, 0, 30, 0, 0xFF])], ["bytes"; 4]);
        assert!(
            why(b"host\ncard 00.0 \"Caf\xE9\"\n").starts_with("\"host\\n\" line 2, column 15: byte E9h is not UTF-8")
        );
        assert!(why(b"host\ncard\x00 00.0\n").starts_with("\"host\\n\" line 2, column 5: byte 00h is no letter"));
        assert!(why(b"\xFF\xFEh\0o\0s\0t\0").contains("UTF-16"));
        assert!(why(b"h\0o\0s\0t\0").contains("UTF-16") && why(b"\0h\0o\0s\0t").contains("UTF-16"));
    }
}
