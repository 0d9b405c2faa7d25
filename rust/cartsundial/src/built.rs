//! A board that is built record by record, or taken from bytes.

use crate::board::{lawful, records, Spares};
use crate::{plan, what_does_not_fit, Bar, HostRecord, PlanFinding, Refusal, FULL_SHEET};
use alloc::string::String;
use alloc::vec;
use alloc::vec::Vec;

/// The command word of a function that is added: I/O, memory and bus master enabled.
pub(crate) const COMMAND: u16 = 0x0007;

/// Bit 7 of a header type: the device has more functions.
const MULTIFUNCTION: u8 = 0x80;

/// A board with its functions' names. *With the feature `alloc`.* Records are numbered from 1 in the order in which they are added; 0 is the host.
///
/// What makes it lawful is not asked here but by [`plan`](Board::plan): everything below a bridge comes right after it, and
/// what is on one bus rises by device and function.
///
/// ```
/// use cartsundial::{Bar, BarKind, Board, HostRecord, Refusal};
///
/// let mut board = Board::host(HostRecord { low: (0xF900_0000, 0xF9FF_FFFF), ..HostRecord::CLOSED });
/// let port = board.bridge(0, 0, 0)?;
/// let card = board.card(port, 0, 0, &[Bar::new(BarKind::Memory32, 4096)])?;
/// board.set_name(card, "timecode");
/// let sheet = board.plan()?;
/// assert_eq!(sheet.len(), 1 + 92 * 2);
/// assert_eq!(Board::of_bytes(&board.bytes())?.bytes(), board.bytes());
/// # Ok::<(), Refusal>(())
/// ```
#[derive(Clone, Debug, PartialEq, Eq)]
pub struct Board {
    pub(crate) version: u8,
    pub(crate) host: HostRecord,
    pub(crate) functions: Vec<BoardFunction>,
}

/// A function of a [`Board`]. *With the feature `alloc`.*
#[derive(Clone, Debug, PartialEq, Eq)]
pub struct BoardFunction {
    /// The record of the bridge just above it, or 0 for the host.
    pub parent: u16,
    /// 0 to 31.
    pub device: u8,
    /// 0 to 7.
    pub function: u8,
    /// Whether it is a bridge.
    pub is_bridge: bool,
    /// Bit 7 of its header type. On function 0 of a device with more functions it is set in any case.
    pub is_multifunction: bool,
    /// Its command word, 0007h unless it is set: I/O, memory and bus master.
    pub command: u16,
    /// Its read-backs; a bridge has the first two only.
    pub read_backs: [u32; 6],
    /// What a bridge keeps free, on a board of version 2.
    pub spares: Spares,
    /// What people call it.
    pub name: Option<String>,
    /// The line of the text that it was read from.
    pub line: Option<usize>,
}

impl Board {
    /// A board of version 1 with no functions.
    pub const fn host(host: HostRecord) -> Board {
        Board { version: 1, host, functions: Vec::new() }
    }

    /// Adds a bridge below this record, without BARs, and returns its own. A device above 31 or a function above 7 is 10.
    pub fn bridge(&mut self, parent: u16, device: u8, function: u8) -> Result<u16, Refusal> {
        self.add(parent, device, function, true, &[])
    }

    /// Adds a card below this record and returns its own. Its BARs take slots from 0 on, those of 64 bits two;
    /// [`Bar::UNUSED`] leaves one out. More than six slots, and a size that no read-back has, are 25.
    pub fn card(&mut self, parent: u16, device: u8, function: u8, bars: &[Bar]) -> Result<u16, Refusal> {
        self.add(parent, device, function, false, bars)
    }

    fn add(&mut self, parent: u16, device: u8, function: u8, is_bridge: bool, bars: &[Bar]) -> Result<u16, Refusal> {
        if device > 31 || function > 7 {
            return Err(Refusal::TooWide);
        }
        let record = u16::try_from(self.functions.len() + 1).map_err(|_| Refusal::TooManyFunctions)?;
        self.functions.push(BoardFunction {
            parent,
            device,
            function,
            is_bridge,
            is_multifunction: false,
            command: COMMAND,
            read_backs: read_backs(bars, if is_bridge { 2 } else { 6 })?,
            spares: Spares::default(),
            name: None,
            line: None,
        });
        Ok(record)
    }

    /// Gives a function its BARs: of a bridge two slots at the most. What is refused is as of [`card`](Board::card).
    ///
    /// # Panics
    /// As all of these setters, where the board has no such record.
    pub fn set_bars(&mut self, record: u16, bars: &[Bar]) -> Result<(), Refusal> {
        let one = self.function_mut(record);
        one.read_backs = read_backs(bars, if one.is_bridge { 2 } else { 6 })?;
        Ok(())
    }

    /// Gives a bridge what it keeps free; the board is of version 2 then.
    pub fn set_spares(&mut self, record: u16, spares: Spares) {
        self.version = 2;
        self.function_mut(record).spares = spares;
    }

    /// Gives a function its command word.
    pub fn set_command(&mut self, record: u16, command: u16) {
        self.function_mut(record).command = command;
    }

    /// Gives a function its name.
    pub fn set_name(&mut self, record: u16, name: &str) {
        self.function_mut(record).name = Some(name.into());
    }

    fn function_mut(&mut self, record: u16) -> &mut BoardFunction {
        &mut self.functions[usize::from(record) - 1]
    }

    /// The function with this record.
    pub fn function(&self, record: u16) -> Option<&BoardFunction> {
        self.functions.get(usize::from(record).checked_sub(1)?)
    }

    /// Its functions, in record order.
    pub fn functions(&self) -> &[BoardFunction] {
        &self.functions
    }

    /// Its host record.
    pub fn host_record(&self) -> &HostRecord {
        &self.host
    }

    /// The same functions below another host.
    pub fn with_host(&self, host: HostRecord) -> Board {
        Board { host, ..self.clone() }
    }

    /// Other functions, in this order, below the same host: their parents are records of this order.
    pub fn with_functions(&self, functions: Vec<BoardFunction>) -> Board {
        Board { version: self.version, host: self.host, functions }
    }

    /// The board that these bytes are. One that is not lawful is refused with its number, 20 to 26; that its buses or its
    /// room run out does not matter here.
    pub fn of_bytes(bytes: &[u8]) -> Result<Board, Refusal> {
        lawful(bytes)?;
        let mut board = Board { version: bytes[0], ..Board::host(HostRecord::of_board(bytes)?) };
        board.functions = records(bytes).skip(1).map(|(part, _)| BoardFunction::of_record(part)).collect();
        Ok(board)
    }

    /// Its bytes, lawful or not.
    pub fn bytes(&self) -> Vec<u8> {
        let mut bytes = vec![self.version];
        push(&mut bytes, &self.host.bytes());
        for one in &self.functions {
            push(&mut bytes, &self.record_of(one));
        }
        bytes
    }

    /// Its register sheet.
    pub fn plan(&self) -> Result<Vec<u8>, Refusal> {
        let mut sheet = vec![0; FULL_SHEET];
        let length = plan(&self.bytes(), &mut sheet)?;
        sheet.truncate(length);
        Ok(sheet)
    }

    /// What of it finds no bus numbers or no room, and what it needs; `None` where it is planned, or fails its own checks.
    pub fn what_does_not_fit(&self) -> Option<PlanFinding> {
        what_does_not_fit(&self.bytes())
    }

    fn record_of(&self, one: &BoardFunction) -> Vec<u8> {
        let is_multifunction = one.is_multifunction || self.has_more(one);
        let header_type = u8::from(one.is_bridge) | if is_multifunction { MULTIFUNCTION } else { 0 };
        let mut record = one.parent.to_be_bytes().to_vec();
        record.extend([one.device << 3 | one.function, header_type]);
        record.extend(one.command.to_be_bytes());
        let slots = if one.is_bridge { 2 } else { 6 };
        record.extend(one.read_backs[..slots].iter().flat_map(|slot| slot.to_be_bytes()));
        if one.is_bridge && self.version == 2 {
            record.extend(one.spares.bytes());
        }
        record
    }

    /// Whether it is function 0 of a device with more functions.
    pub(crate) fn has_more(&self, one: &BoardFunction) -> bool {
        let is_beside = |other: &BoardFunction| {
            (other.parent, other.device) == (one.parent, one.device) && other.function != one.function
        };
        one.function == 0 && self.functions.iter().any(is_beside)
    }
}

impl BoardFunction {
    /// From a record of a lawful board.
    fn of_record(part: &[u8]) -> BoardFunction {
        let word = |at: usize| u16::from_be_bytes([part[at], part[at + 1]]);
        let (is_bridge, command) = (part[3] & 0x7F == 1, word(4));
        let mut read_backs = [0; 6];
        let slots = part[6..].chunks_exact(4).take(if is_bridge { 2 } else { 6 });
        for (slot, bytes) in read_backs.iter_mut().zip(slots) {
            *slot = bytes.iter().fold(0, |number, &byte| number << 8 | u32::from(byte));
        }
        let end = part.get(14..).filter(|_| is_bridge).and_then(<[u8]>::first_chunk);
        BoardFunction {
            parent: word(0),
            device: part[2] >> 3,
            function: part[2] & 7,
            is_bridge,
            is_multifunction: part[3] & MULTIFUNCTION != 0,
            command,
            read_backs,
            spares: end.map_or(Spares::default(), Spares::from_bytes),
            name: None,
            line: None,
        }
    }

    /// Its BARs slot by slot, those that are not used among them. Empty where a read-back is none of a BAR.
    pub fn bars(&self) -> Vec<Bar> {
        let slots = if self.is_bridge { 2 } else { 6 };
        let mut bars = Vec::new();
        let mut slot = 0;
        while slot < slots {
            let second = self.read_backs.get(slot + 1).copied().unwrap_or(0);
            let Some(bar) = Bar::of_read_backs(self.read_backs[slot], second) else { return Vec::new() };
            slot += bar.kind.slots();
            bars.push(bar);
        }
        bars
    }
}

/// The read-backs of so many slots.
fn read_backs(bars: &[Bar], slots: usize) -> Result<[u32; 6], Refusal> {
    let mut all = [0; 6];
    let mut slot = 0;
    for bar in bars {
        let next = slot + bar.kind.slots();
        let [first, second] = bar.read_backs().filter(|_| next <= slots).ok_or(Refusal::ReadBack)?;
        all[slot] = first;
        if next == slot + 2 {
            all[slot + 1] = second;
        }
        slot = next;
    }
    Ok(all)
}

/// A record with its length before it.
fn push(bytes: &mut Vec<u8>, record: &[u8]) {
    bytes.extend((record.len() as u16).to_be_bytes());
    bytes.extend(record);
}
