//! How a board's functions are called in words: by record, ID, name and line.

use crate::json::Json;
use crate::tree::Record;
use cartsundial::{Board, Headers, Id, Sheet, Spares};

/// The IDs that a board's functions have, or would have, and their names and lines.
pub struct Titles<'a> {
    bytes: &'a [u8],
    /// With names and lines, where the bytes are a board.
    pub board: Option<&'a Board>,
    sheet: Option<Sheet<Vec<u8>>>,
}

impl<'a> Titles<'a> {
    pub fn new(bytes: &'a [u8], board: Option<&'a Board>) -> Titles<'a> {
        Titles { bytes, board, sheet: board.and_then(numbered) }
    }

    /// `record 4, 03:00.0 "capture", line 5`.
    pub fn title(&self, record: Record) -> String {
        let mut text = format!("record {record}, {}", self.short(record));
        if let Some(line) = self.board.and_then(|board| board.function(record)?.line) {
            text += &format!(", line {line}");
        }
        text
    }

    /// `03:00.0 "capture"`.
    pub fn short(&self, record: Record) -> String {
        let mut text = match (self.id(record), self.placed(record)) {
            (Some(id), _) => id.to_string(),
            (None, Some((0, device, function))) => format!("{device:02X}.{function}"),
            (None, Some((parent, device, function))) => format!("{device:02X}.{function} below record {parent}"),
            (None, None) => String::new(),
        };
        if let Some(name) = self.name(record) {
            text += &format!(" \"{name}\"");
        }
        text
    }

    pub fn name(&self, record: Record) -> Option<&str> {
        self.board?.function(record)?.name.as_deref()
    }

    /// The ID, where it is known. Of a board that is not lawful the records before it tell the bus, where they are lawful.
    pub fn id(&self, record: Record) -> Option<Id> {
        if let Some(sheet) = &self.sheet {
            return sheet.record(record).map(|function| function.id);
        }
        let (parent, device, function) = self.placed(record)?;
        let bus = match parent {
            0 => *self.bytes.get(3)?,
            _ => {
                let mut records = Headers::of_records(self.bytes.get(1..)?);
                records.nth(usize::from(record) - 1)?;
                let front = &self.bytes[..self.bytes.len() - records.rest().len()];
                numbered(&Board::of_bytes(front).ok()?)?.record(parent)?.buses()?.secondary
            }
        };
        Some(Id(u16::from_be_bytes([bus, device << 3 | function])))
    }

    /// Parent, device and function, as the bytes of the record say.
    fn placed(&self, record: Record) -> Option<(u16, u8, u8)> {
        let part = Headers::of_records(self.bytes.get(1..)?).nth(record.into())?;
        let &[high, low, device_function] = part.first_chunk()?;
        Some((u16::from_be_bytes([high, low]), device_function >> 3, device_function & 7))
    }

    pub fn json(&self, record: Record) -> Vec<(&'static str, Json)> {
        let line = self.board.and_then(|board| board.function(record)?.line);
        vec![
            ("record", Json::number(record)),
            ("id", self.id(record).map_or(Json::Null, Json::text)),
            ("name", self.name(record).map_or(Json::Null, Json::text)),
            ("line", line.map_or(Json::Null, |line| Json::number(line as u64))),
        ]
    }
}

/// The IDs of a board, which may find no room: its plan without BARs and spare memory, for which there is none to find.
pub fn numbered(board: &Board) -> Option<Sheet<Vec<u8>>> {
    let mut functions = board.functions().to_vec();
    for one in &mut functions {
        one.read_backs = [0; 6];
        one.spares = Spares { memory: 0, ..one.spares };
    }
    Sheet::new(board.with_functions(functions).plan().ok()?).ok()
}
