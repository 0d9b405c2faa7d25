//! A function as Linux shows it: its first 64 bytes, and what the kernel knows of its BARs.

use cartsundial::{BarKind, Id, REGISTERS};

/// How many regions of BARs there are.
pub const REGIONS: usize = 6;

/// lspci shows registers in rows of so many bytes.
pub const ROW: usize = 16;
pub const ROWS: usize = REGISTERS / ROW;

#[derive(Clone, Debug)]
pub struct Found {
    pub domain: u32,
    pub id: Id,
    /// Empty where it has none.
    pub name: String,
    /// Its place among the records of the sheet that it was exported from.
    pub order: Option<usize>,
    pub registers: [u8; REGISTERS],
    /// Which rows of the registers were read.
    pub rows: [bool; ROWS],
    pub regions: [Option<Region>; REGIONS],
    /// Sizes that the boot log has; the kernel forgets those of BARs that it could not place.
    pub logged: [Option<u64>; REGIONS],
    /// Of a bridge, what the kernel says of its windows: I/O, memory, prefetchable memory.
    pub windows: [Window; 3],
    /// Bits of registers that the text says: where, which ones, and what they are.
    pub said: Vec<(usize, u8, u8)>,
    /// No line of -vv is there, of it or of another, which would say what BARs it has.
    pub is_bare: bool,
    /// There is a boot log that says what BARs were found.
    pub has_log: bool,
    /// Why it is not taken for read: what is missing, or cannot be.
    pub lacks: Vec<String>,
}

/// What the kernel says of a bridge's window.
#[derive(Clone, Copy, Debug, PartialEq, Eq)]
pub enum Window {
    Unknown,
    None,
    Some,
}

/// What the kernel says of a BAR.
#[derive(Clone, Copy, Debug)]
pub struct Region {
    pub size: u64,
    /// `None` where it is not placed.
    pub address: Option<u64>,
    /// What lspci takes it for, which it has from the register.
    pub kind: Option<BarKind>,
}

/// Whoever says it.
impl PartialEq for Region {
    fn eq(&self, other: &Region) -> bool {
        (self.size, self.address) == (other.size, other.address)
    }
}

/// Registers of a configuration header.
pub const COMMAND: usize = 0x04;
pub const HEADER_TYPE: usize = 0x0E;
pub const BARS: usize = 0x10;
pub const BUSES: usize = 0x18;

impl Found {
    pub fn new(domain: u32, id: Id, name: &str) -> Found {
        let name = name.replace('"', "'");
        Found {
            domain,
            id,
            name,
            order: None,
            registers: [0; REGISTERS],
            rows: [false; ROWS],
            regions: [None; REGIONS],
            logged: [None; REGIONS],
            windows: [Window::Unknown; 3],
            said: Vec::new(),
            is_bare: false,
            has_log: false,
            lacks: Vec::new(),
        }
    }

    pub fn lacks(&mut self, what: impl Into<String>) {
        self.lacks.push(what.into());
    }

    /// All 64 bytes were read.
    pub fn is_whole(&self) -> bool {
        self.rows == [true; ROWS]
    }

    /// A device that does not answer reads ones.
    pub fn is_gone(&self) -> bool {
        self.is_whole() && self.registers == [0xFF; REGISTERS]
    }

    pub fn header_type(&self) -> u8 {
        self.registers[HEADER_TYPE] & 0x7F
    }

    pub fn is_bridge(&self) -> bool {
        self.header_type() == 1
    }

    /// How many BARs its header has.
    pub fn slots(&self) -> usize {
        match self.header_type() {
            0 => REGIONS,
            1 => 2,
            _ => 0,
        }
    }

    pub fn bar(&self, slot: usize) -> u32 {
        u32::from_le_bytes(*self.registers[BARS + 4 * slot..].first_chunk().expect("a slot has four bytes"))
    }

    /// The bus below it, where it is a bridge that has one.
    pub fn secondary(&self) -> Option<u8> {
        Some(self.registers[BUSES + 1]).filter(|bus| self.is_bridge() && *bus != 0)
    }

    /// Whether it may be a bridge to a bus that was not read. Below one that does not answer nobody does.
    pub fn may_lead(&self) -> bool {
        !self.rows[0] || self.is_bridge() && !self.rows[1]
    }

    /// `0000:03:00.0`.
    pub fn title(&self) -> String {
        format!("{:04x}:{}", self.domain, self.id.to_string().to_ascii_lowercase())
    }

    /// Whether all that the other says, this one says too.
    pub fn covers(&self, other: &Found) -> bool {
        let row = |of: &Found, at: usize| {
            of.rows[at].then_some(ROW * at).map(|start| of.registers[start..start + ROW].to_vec())
        };
        self.lacks.is_empty()
            && !self.is_bare
            && (0..ROWS).all(|at| row(other, at).is_none_or(|bytes| row(self, at) == Some(bytes)))
            && (0..REGIONS).all(|at| other.regions[at].is_none() || other.regions[at] == self.regions[at])
    }
}

/// `[DDDD:]BB:DD.F`, of which a domain has up to eight digits.
pub fn read_address(text: &str) -> Option<(u32, Id)> {
    let (domain, id) = match text.matches(':').count() {
        1 => ("0", text),
        2 => text.split_once(':')?,
        _ => return None,
    };
    let is_number = (1..=8).contains(&domain.len()) && domain.bytes().all(|digit| digit.is_ascii_hexdigit());
    let is_whole = id.len() == "00:00.0".len() && is_number;
    let domain = u32::from_str_radix(domain, 16).ok()?;
    Some((domain, id.parse().ok().filter(|_| is_whole)?))
}
