//! JSON, written only. Elsewhere this would be a well-kept library's work; no registry is at hand here, so it is small.
//!
//! [`line`] and [`Object`] write straight to an output of bytes, which the caller empties as often as it likes; nothing is kept
//! of what was written. Numbers are numbers. An address is text in hexadecimal, since not every reader of JSON has whole numbers
//! of 64 bits; an ID is text as everywhere, `03:00.0`. [`Json`] is a value that is built first.
//!
//! ```text
//! json::line(&mut out, |line| {
//!     line.number("number", 7_u64).text("kind", "MWr").address("address", 0xF810_0010);
//!     line.object("owner", |owner| {
//!         owner.number("record", 4_u16).shown("id", id).maybe("name", name);
//!     });
//! });
//! {"number": 7, "kind": "MWr", "address": "F8100010", "owner": {"record": 4, "id": "03:00.0", "name": "capture"}}
//! ```

use std::fmt;
use std::io::Write;

/// An object on a line of its own.
pub fn line(out: &mut Vec<u8>, fill: impl FnOnce(&mut Object)) {
    whole(out, fill);
    out.push(b'\n');
}

fn whole(out: &mut Vec<u8>, fill: impl FnOnce(&mut Object)) {
    out.push(b'{');
    fill(&mut Object { out, is_first: true });
    out.push(b'}');
}

/// The members of an object, each written when it is named.
pub struct Object<'a> {
    out: &'a mut Vec<u8>,
    is_first: bool,
}

impl<'a> Object<'a> {
    /// More members of an object that has some.
    pub fn after(out: &'a mut Vec<u8>) -> Object<'a> {
        Object { out, is_first: false }
    }
}

impl Object<'_> {
    fn name(&mut self, name: &str) {
        let before = if self.is_first { "\"" } else { ", \"" };
        self.is_first = false;
        self.out.extend_from_slice(before.as_bytes());
        self.out.extend_from_slice(name.as_bytes());
        self.out.extend_from_slice(b"\": ");
    }

    pub fn number(&mut self, name: &str, number: impl Into<u64>) -> &mut Self {
        self.name(name);
        write_number(self.out, number.into());
        self
    }

    pub fn text(&mut self, name: &str, text: &str) -> &mut Self {
        self.name(name);
        write_text(self.out, text);
        self
    }

    /// What can be shown, as text.
    pub fn shown(&mut self, name: &str, value: impl fmt::Display) -> &mut Self {
        self.text(name, &value.to_string())
    }

    /// Text, or null where there is none.
    pub fn maybe(&mut self, name: &str, text: Option<&str>) -> &mut Self {
        match text {
            Some(text) => self.text(name, text),
            None => self.null(name),
        }
    }

    /// In hexadecimal, without a sign before it.
    pub fn address(&mut self, name: &str, address: u64) -> &mut Self {
        self.name(name);
        let _ = write!(self.out, "\"{address:X}\"");
        self
    }

    pub fn flag(&mut self, name: &str, is: bool) -> &mut Self {
        self.name(name);
        self.out.extend_from_slice(if is { b"true" } else { b"false" });
        self
    }

    pub fn null(&mut self, name: &str) -> &mut Self {
        self.name(name);
        self.out.extend_from_slice(b"null");
        self
    }

    pub fn object(&mut self, name: &str, fill: impl FnOnce(&mut Object)) -> &mut Self {
        self.name(name);
        whole(self.out, fill);
        self
    }

    pub fn list(&mut self, name: &str, fill: impl FnOnce(&mut List)) -> &mut Self {
        self.name(name);
        self.out.push(b'[');
        fill(&mut List { out: self.out, is_first: true });
        self.out.push(b']');
        self
    }
}

/// The items of a list.
pub struct List<'a> {
    out: &'a mut Vec<u8>,
    is_first: bool,
}

impl List<'_> {
    fn next(&mut self) {
        if !self.is_first {
            self.out.extend_from_slice(b", ");
        }
        self.is_first = false;
    }

    pub fn text(&mut self, text: &str) {
        self.next();
        write_text(self.out, text);
    }

    pub fn object(&mut self, fill: impl FnOnce(&mut Object)) {
        self.next();
        whole(self.out, fill);
    }
}

fn write_number(out: &mut Vec<u8>, mut number: u64) {
    let mut digits = [0; 20];
    let mut at = digits.len();
    loop {
        at -= 1;
        digits[at] = b'0' + (number % 10) as u8;
        number /= 10;
        if number == 0 {
            break;
        }
    }
    out.extend_from_slice(&digits[at..]);
}

/// What stands between letters that need a sign before them is taken as it is.
fn write_text(out: &mut Vec<u8>, text: &str) {
    out.push(b'"');
    let (bytes, mut done) = (text.as_bytes(), 0);
    for (at, &byte) in bytes.iter().enumerate() {
        if byte >= b' ' && byte != b'"' && byte != b'\\' {
            continue;
        }
        out.extend_from_slice(&bytes[done..at]);
        done = at + 1;
        match byte {
            b'"' | b'\\' => out.extend_from_slice(&[b'\\', byte]),
            _ => drop(write!(out, "\\u{byte:04x}")),
        }
    }
    out.extend_from_slice(&bytes[done..]);
    out.push(b'"');
}

/// A value of JSON.
#[derive(Clone)]
pub enum Json {
    Null,
    Bool(bool),
    Number(u64),
    Text(String),
    List(Vec<Json>),
    /// Names and values, in this order.
    Object(Vec<(&'static str, Json)>),
}

impl Json {
    pub fn text(text: impl ToString) -> Json {
        Json::Text(text.to_string())
    }

    pub fn number(number: impl Into<u64>) -> Json {
        Json::Number(number.into())
    }
}

impl fmt::Display for Json {
    fn fmt(&self, f: &mut fmt::Formatter<'_>) -> fmt::Result {
        match self {
            Json::Null => f.write_str("null"),
            Json::Bool(value) => write!(f, "{value}"),
            Json::Number(number) => write!(f, "{number}"),
            Json::Text(text) => {
                let mut out = Vec::new();
                write_text(&mut out, text);
                f.write_str(&String::from_utf8_lossy(&out))
            }
            Json::List(items) => {
                f.write_str("[")?;
                for (index, item) in items.iter().enumerate() {
                    write!(f, "{}{item}", if index == 0 { "" } else { ", " })?;
                }
                f.write_str("]")
            }
            Json::Object(members) => {
                f.write_str("{")?;
                for (index, (name, value)) in members.iter().enumerate() {
                    write!(f, "{}\"{name}\": {value}", if index == 0 { "" } else { ", " })?;
                }
                f.write_str("}")
            }
        }
    }
}

#[cfg(test)]
mod tests {
    use super::*;

    #[test]
    fn written() {
        let names = Json::Object(vec![("name", Json::text("a \"b\"\n\\")), ("none", Json::Null)]);
        let all = Json::List(vec![Json::number(7_u16), names, Json::List(Vec::new())]);
        assert_eq!(all.to_string(), r#"[7, {"name": "a \"b\"\u000a\\", "none": null}, []]"#);
    }

    #[test]
    fn a_line() {
        let mut out = Vec::new();
        line(&mut out, |line| {
            line.number("number", u64::MAX).number("zero", 0_u8).text("name", "\"é\\\t").address("at", 0xF810_0010);
            line.flag("is", true).maybe("none", None);
            line.object("owner", |owner| {
                owner.shown("id", 7).null("x");
            });
            line.list("empty", |_| {});
            line.list("all", |all| {
                all.text("a");
                all.object(|_| {});
            });
        });
        let expected =
            r#"{"number": 18446744073709551615, "zero": 0, "name": "\"é\\\u0009", "at": "F8100010", "is": true, "#;
        let rest = r#""none": null, "owner": {"id": "7", "x": null}, "empty": [], "all": ["a", {}]}"#;
        assert_eq!(String::from_utf8(out).unwrap(), format!("{expected}{rest}\n"));
    }
}
