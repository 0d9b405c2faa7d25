//! The write script (request E14 of document 02): a plan as configuration writes, in the order in which boot code makes
//! them.

use crate::bar;
use crate::plan::plan;
use crate::sheet::{Record, Sheet, FULL_SHEET};

/// One write's record: a two-byte length, 12 header bytes, 4 data bytes.
pub(crate) const RECORD: usize = 18;

/// Registers, by their offset in the configuration header.
const COMMAND: u8 = 0x04;
const BARS: u8 = 0x10;
const BUSES: u8 = 0x18;
const IO_WINDOW: u8 = 0x1C;
/// Low and high memory, then the high window's upper halves.
const MEMORY_WINDOWS: [u8; 4] = [0x20, 0x24, 0x28, 0x2C];

/// First byte enables, the lowest byte's in bit 0.
const ALL_BYTES: u8 = 0b1111;
const THREE_BYTES: u8 = 0b0111;
const TWO_BYTES: u8 = 0b0011;

/// Writes the script of a board to the start of `room` and returns its length; nothing past it is written, and nothing at
/// all when the board is refused or the room is short.
pub fn script(board: &[u8], requester: u16, first_tag: u8, room: &mut [u8]) -> Result<usize, u8> {
    let mut sheet = vec![0; FULL_SHEET];
    let length = plan(board, &mut sheet)?;
    let sheet = Sheet::new(&sheet[..length]).expect("a planned sheet passes its checks");
    let Some(root) = sheet.records().next().map(|record| record.bus()) else { return Ok(0) };
    let buses =
        sheet.records().filter(|record| record.is_bridge()).map(|record| Write::new(record, BUSES, THREE_BYTES));
    let places = sheet.records().flat_map(bars_and_windows);
    let commands = sheet.records().map(|record| Write::new(record, COMMAND, TWO_BYTES));
    let writes: Vec<Write> = buses.chain(places).chain(commands).collect();
    let room = room.get_mut(..RECORD * writes.len()).ok_or(11)?;
    let mut tag = first_tag;
    for (write, record) in writes.iter().zip(room.as_chunks_mut::<RECORD>().0) {
        *record = write.record(root, requester, tag);
        tag = tag.wrapping_add(1);
    }
    Ok(room.len())
}

/// The used BARs of a record, both halves of a wide one, and all windows of a bridge, by rising offset.
fn bars_and_windows(record: Record<'_>) -> Vec<Write> {
    let slots = bar::bars(record.read_backs()).flat_map(|bar| bar.slot..bar.slot + bar.slots());
    let mut writes: Vec<Write> = slots.map(|slot| Write::new(record, BARS + 4 * slot as u8, ALL_BYTES)).collect();
    if record.is_bridge() {
        writes.push(Write::new(record, IO_WINDOW, TWO_BYTES));
        writes.extend(MEMORY_WINDOWS.map(|register| Write::new(record, register, ALL_BYTES)));
    }
    writes
}

/// A write of some bytes of one dword of a function's configuration header.
struct Write {
    id: u16,
    register: u8,
    enables: u8,
    /// In register order; bytes that are not enabled are 0.
    data: [u8; 4],
}

impl Write {
    fn new(record: Record<'_>, register: u8, enables: u8) -> Write {
        let bytes = &record.registers()[usize::from(register)..][..4];
        let data = std::array::from_fn(|byte| if enables >> byte & 1 == 1 { bytes[byte] } else { 0 });
        Write { id: record.id(), register, enables, data }
    }

    fn record(&self, root: u8, requester: u16, tag: u8) -> [u8; RECORD] {
        let mut record = [0; RECORD];
        record[1] = RECORD as u8 - 2;
        let on_root = self.id.to_be_bytes()[0] == root;
        // CfgWr0 or CfgWr1, Length 1.
        record[2] = if on_root { 0x44 } else { 0x45 };
        record[5] = 1;
        record[6..8].copy_from_slice(&requester.to_be_bytes());
        record[8] = tag;
        record[9] = self.enables;
        record[10..12].copy_from_slice(&self.id.to_be_bytes());
        record[13] = self.register;
        record[14..].copy_from_slice(&self.data);
        record
    }
}
