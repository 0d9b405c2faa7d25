//! Sheets that no planner wrote, lawful or not, and headers to route over them.

#[derive(Clone)]
pub struct Record {
    pub length: u16,
    pub id: u16,
    pub read_backs: [u32; 6],
    /// The 64 bytes of the configuration header.
    pub registers: [u8; 64],
}

impl Record {
    /// A type 0 function with both spaces enabled and no BAR.
    pub fn end(id: u16) -> Record {
        let mut record = Record { length: 90, id, read_backs: [0; 6], registers: [0; 64] };
        record.registers[0x04] = 3;
        record
    }

    /// A bridge with both spaces enabled and closed windows.
    pub fn bridge(id: u16, secondary: u8, subordinate: u8) -> Record {
        let mut record = Record::end(id).set(0x0E, 1).low(0xFFF0, 0).high(0xFFF1, 1, 0, 0).io(0xF0, 0);
        record.registers[0x18..0x1B].copy_from_slice(&[(id >> 8) as u8, secondary, subordinate]);
        record
    }

    pub fn set(mut self, at: usize, byte: u8) -> Record {
        self.registers[at] = byte;
        self
    }

    pub fn command(self, command: u16) -> Record {
        let [low, high] = command.to_le_bytes();
        self.set(0x04, low).set(0x05, high)
    }

    pub fn value(self, slot: usize, value: u32) -> Record {
        self.set32(0x10 + 4 * slot, value)
    }

    pub fn read_back(mut self, slot: usize, read_back: u32) -> Record {
        self.read_backs[slot] = read_back;
        self
    }

    pub fn bar(self, slot: usize, read_back: u32, value: u32) -> Record {
        self.read_back(slot, read_back).value(slot, value)
    }

    /// A 64-bit BAR of 2^`bits` bytes; `kind` is its type bits, 4 or 12.
    pub fn wide(self, slot: usize, kind: u32, bits: u32, start: u64) -> Record {
        let mask = u64::MAX << bits;
        self.bar(slot, mask as u32 | kind, start as u32 | kind).bar(slot + 1, (mask >> 32) as u32, (start >> 32) as u32)
    }

    pub fn io(self, base: u8, limit: u8) -> Record {
        self.set(0x1C, base).set(0x1D, limit)
    }

    pub fn low(self, base: u16, limit: u16) -> Record {
        self.set16(0x20, base).set16(0x22, limit)
    }

    pub fn high(self, base: u16, limit: u16, upper_base: u32, upper_limit: u32) -> Record {
        self.set16(0x24, base).set16(0x26, limit).set32(0x28, upper_base).set32(0x2C, upper_limit)
    }

    fn set16(mut self, at: usize, value: u16) -> Record {
        self.registers[at..at + 2].copy_from_slice(&value.to_le_bytes());
        self
    }

    fn set32(mut self, at: usize, value: u32) -> Record {
        self.registers[at..at + 4].copy_from_slice(&value.to_le_bytes());
        self
    }
}

pub fn sheet(records: &[Record]) -> Vec<u8> {
    let mut bytes = vec![1];
    for record in records {
        bytes.extend(record.length.to_be_bytes());
        bytes.extend(record.id.to_be_bytes());
        bytes.extend(record.registers);
        for read_back in record.read_backs {
            bytes.extend(read_back.to_be_bytes());
        }
    }
    bytes
}

/// Byte 0 of the headers below.
pub const MRD: u8 = 0x00;
pub const MWR: u8 = 0x40;
pub const IORD: u8 = 0x02;
pub const IOWR: u8 = 0x42;
pub const CFGRD0: u8 = 0x04;
pub const CFGWR0: u8 = 0x44;
pub const CFGRD1: u8 = 0x05;
pub const CFGWR1: u8 = 0x45;
pub const CPL: u8 = 0x0A;
pub const CPLD: u8 = 0x4A;
pub const CPLLK: u8 = 0x0B;
pub const CPLDLK: u8 = 0x4B;
/// Messages, with routing 000.
pub const MSG: u8 = 0x30;
pub const MSGD: u8 = 0x70;

/// A request of one dword at an address, in the form that the address needs.
pub fn request(byte0: u8, address: u64) -> Vec<u8> {
    let mut header = vec![byte0, 0, 0, 1, 0, 0, 0x21, 0x0F];
    if address >> 32 == 0 {
        header.extend((address as u32).to_be_bytes());
    } else {
        header[0] |= 0x20;
        header.extend(address.to_be_bytes());
    }
    header
}

pub fn configuration(byte0: u8, target: u16, register: u16) -> Vec<u8> {
    let mut header = vec![byte0, 0, 0, 1, 0, 0, 0x07, 0x0F];
    header.extend(target.to_be_bytes());
    header.extend((register << 2).to_be_bytes());
    header
}

pub fn completion(byte0: u8, requester: u16) -> Vec<u8> {
    let length = byte0 >> 6;
    let mut header = vec![byte0, 0, 0, length, 0x01, 0x00, 0x00, 0x04];
    header.extend(requester.to_be_bytes());
    header.extend([0x33, 0x40]);
    header
}

/// The header with another tag, of ten bits: byte 1 bits 7 and 3, then byte 6, in a completion byte 10.
pub fn tagged(mut header: Vec<u8>, tag: u16) -> Vec<u8> {
    let is_completion = header[0] & 0x1E == CPL;
    let [high, low] = tag.to_be_bytes();
    header[1] = header[1] & 0x77 | (high & 2) << 6 | (high & 1) << 3;
    header[if is_completion { 10 } else { 6 }] = low;
    header
}

/// A message, with one dword of data if it has any; `tail` is bytes 8 to 15.
pub fn message(byte0: u8, routing: u8, code: u8, tail: u64) -> Vec<u8> {
    let length = byte0 >> 6;
    let mut header = vec![byte0 | routing, 0, 0, length, 0x02, 0x10, 0x45, code];
    header.extend(tail.to_be_bytes());
    header
}
