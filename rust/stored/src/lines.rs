//! Lines for the test programs, one request each.

use std::fmt::Write;

#[derive(Default)]
pub struct Lines(pub String);

impl Lines {
    pub fn note(&mut self, text: &str) {
        self.line(&format!("# {text}"));
    }

    pub fn board(&mut self, bytes: &[u8]) {
        self.line(format!("board {}", hex(bytes)).trim_end());
    }

    pub fn sheet(&mut self, bytes: &[u8]) {
        self.line(format!("sheet {}", hex(bytes)).trim_end());
    }

    pub fn command(&mut self, id: u16, value: u16) {
        self.line(&format!("command {id:04X} {value:04X}"));
    }

    pub fn lookup(&mut self, id: u16) {
        self.line(&format!("lookup {id:04X}"));
    }

    pub fn header(&mut self, bytes: &[u8]) {
        self.line(format!("header {}", hex(bytes)).trim_end());
    }

    /// A header that starts at a record.
    pub fn from(&mut self, record: u16, bytes: &[u8]) {
        self.line(format!("from {record:04X} {}", hex(bytes)).trim_end());
    }

    /// A line in a spelling of its own.
    pub fn raw(&mut self, text: &str) {
        self.line(text);
    }

    fn line(&mut self, text: &str) {
        self.0.push_str(text);
        self.0.push('\n');
    }
}

fn hex(bytes: &[u8]) -> String {
    let mut text = String::with_capacity(2 * bytes.len());
    for byte in bytes {
        let _ = write!(text, "{byte:02X}");
    }
    text
}
