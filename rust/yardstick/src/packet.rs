//! A header's bytes as a packet's twenty numbers, and what the packet goes by.

/// Kind, form, TC, Attr, TD, EP, AT, Length, requester, tag, last enables, first enables, address, target, register,
/// completer, status, BCM, byte count, lower address. In place of enables and address a message has routing, code and tail.
pub type Numbers = [u64; 20];

/// Where a packet's numbers are put, if they are wanted.
pub trait Keep {
    fn keep(&mut self, numbers: impl FnOnce() -> Numbers);
}

impl Keep for Numbers {
    #[inline]
    fn keep(&mut self, numbers: impl FnOnce() -> Numbers) {
        *self = numbers();
    }
}

/// For a line of a trace, which has the kind and the owner only.
impl Keep for () {
    #[inline]
    fn keep(&mut self, _: impl FnOnce() -> Numbers) {}
}

/// A kind as it is named in a line, by its number.
pub const NAMES: [&str; 15] = [
    "MRd", "MRdLk", "MWr", "IORd", "IOWr", "CfgRd0", "CfgWr0", "CfgRd1", "CfgWr1", "Cpl", "CplD", "CplLk", "CplDLk",
    "Msg", "MsgD",
];

/// What a packet goes by.
#[derive(Clone, Copy)]
pub enum Aim {
    Memory(u64),
    Io(u64),
    Id(u16),
    /// Of a configuration request; whether it is of type 1.
    Target(u16, bool),
    Every,
    Port,
    Up,
}

#[derive(Clone, Copy)]
enum Class {
    Unknown,
    NotCarried,
    Memory,
    Io,
    Configuration,
    Completion,
    Message,
}

const MWR: u8 = 2;

/// Every Fmt and Type pair, by byte 0: its class, and the kind's number.
static PAIRS: [(Class, u8); 256] = {
    let mut pairs = [(Class::Unknown, 0); 256];
    let mut byte0 = 0;
    while byte0 < pairs.len() {
        pairs[byte0] = match byte0 {
            0x00 | 0x20 => (Class::Memory, 0),
            0x01 | 0x21 => (Class::Memory, 1),
            0x40 | 0x60 => (Class::Memory, MWR),
            0x02 => (Class::Io, 3),
            0x42 => (Class::Io, 4),
            0x04 => (Class::Configuration, 5),
            0x44 => (Class::Configuration, 6),
            0x05 => (Class::Configuration, 7),
            0x45 => (Class::Configuration, 8),
            0x0A => (Class::Completion, 9),
            0x4A => (Class::Completion, 10),
            0x0B => (Class::Completion, 11),
            0x4B => (Class::Completion, 12),
            0x30..=0x35 => (Class::Message, 13),
            0x70..=0x75 => (Class::Message, 14),
            0x4C..=0x4E | 0x6C..=0x6E | 0x80..=0x9F => (Class::NotCarried, 0),
            _ => (Class::Unknown, 0),
        };
        byte0 += 1;
    }
    pairs
};

/// Reads the header at the start of `header`: the number of its kind, and its aim; or the number of the first check that it
/// fails.
#[inline]
pub fn decode(header: &[u8], packet: &mut impl Keep) -> Result<(u8, Aim), u8> {
    let bytes: &[u8; 12] = header.first_chunk().ok_or(1)?;
    let (class, kind) = PAIRS[usize::from(bytes[0])];
    let [first, second, third] = std::array::from_fn(|n| u32::from_be_bytes(bytes.as_chunks().0[n]));
    let head = Head { kind, first, second, third };
    let aim = match class {
        Class::Memory => head.memory(header, packet),
        Class::Io => head.io(packet),
        Class::Configuration => head.configuration(packet),
        Class::Completion => head.completion(packet),
        Class::Message => head.message(header, packet),
        Class::NotCarried => Err(3),
        Class::Unknown => Err(2),
    }?;
    Ok((kind, aim))
}

/// Bytes 8 to 15, which a header of four dwords has.
fn tail(header: &[u8]) -> Result<u64, u8> {
    header.get(8..).and_then(<[u8]>::first_chunk).map(|bytes| u64::from_be_bytes(*bytes)).ok_or(1)
}

/// A header's first three dwords.
struct Head {
    kind: u8,
    first: u32,
    second: u32,
    third: u32,
}

impl Head {
    fn memory(&self, header: &[u8], packet: &mut impl Keep) -> Result<Aim, u8> {
        let has_four = self.first & 1 << 29 != 0;
        let address = if has_four { tail(header)? } else { self.third.into() };
        let has_stray_tag = (self.kind == MWR) & (self.tag_high() != 0);
        if self.has_stray_bits() || has_stray_tag || address & 3 != 0 || self.at() == 3 {
            return Err(4);
        }
        if has_four && address >> 32 == 0 {
            return Err(6);
        }
        let length = self.length();
        let (last, first) = self.enables();
        // No jumps: Lengths cannot be foreseen.
        let with_gaps = (length == 2) & (address & 4 == 0);
        let without =
            matches!(last, 0b0001 | 0b0011 | 0b0111 | 0b1111) & matches!(first, 0b1000 | 0b1100 | 0b1110 | 0b1111);
        let is_lawful =
            ((length == 1) & (last == 0)) | (with_gaps & (last != 0) & (first != 0)) | ((length > 1) & without);
        if !is_lawful {
            return Err(7);
        }
        if (address & 0xFFF) + 4 * length > 0x1000 {
            return Err(8);
        }
        let own = [last, first, address, 0, 0, 0, 0, 0, 0, 0];
        packet.keep(|| self.numbers(3 + u64::from(has_four), length, self.transaction(), own));
        Ok(Aim::Memory(address))
    }

    fn io(&self, packet: &mut impl Keep) -> Result<Aim, u8> {
        if self.has_stray_bits() || self.third & 3 != 0 {
            return Err(4);
        }
        let first = self.single()?;
        let address = self.third.into();
        packet.keep(|| self.numbers(3, 1, self.transaction(), [0, first, address, 0, 0, 0, 0, 0, 0, 0]));
        Ok(Aim::Io(address))
    }

    fn configuration(&self, packet: &mut impl Keep) -> Result<Aim, u8> {
        if self.has_stray_bits() || self.third & 0xF003 != 0 {
            return Err(4);
        }
        let first = self.single()?;
        let target = (self.third >> 16) as u16;
        let register = u64::from(self.third >> 2 & 0x3FF);
        packet.keep(|| self.numbers(3, 1, self.transaction(), [0, first, 0, target.into(), register, 0, 0, 0, 0, 0]));
        Ok(Aim::Target(target, self.kind >= 7))
    }

    fn completion(&self, packet: &mut impl Keep) -> Result<Aim, u8> {
        if self.has_stray_bits() || self.third & 0x80 != 0 || self.at() != 0 {
            return Err(4);
        }
        let length = self.length_if(self.kind & 1 == 0)?;
        let status = self.second >> 13 & 7;
        if !matches!(status, 0b000 | 0b001 | 0b010 | 0b100) {
            return Err(9);
        }
        let requester = (self.third >> 16) as u16;
        let completer = u64::from(self.second >> 16);
        let bcm = u64::from(self.second >> 12 & 1);
        let count = u64::from(self.second & 0xFFF);
        let lower = u64::from(self.third & 0x7F);
        let own = [0, 0, 0, 0, 0, completer, status.into(), bcm, count, lower];
        packet.keep(|| self.numbers(3, length, (requester.into(), self.tag(self.third)), own));
        Ok(Aim::Id(requester))
    }

    fn message(&self, header: &[u8], packet: &mut impl Keep) -> Result<Aim, u8> {
        let tail = tail(header)?;
        let routing = self.first >> 24 & 7;
        let by_address = routing == 0b001;
        if self.has_stray_bits() || self.tag_high() != 0 || self.at() != 0 || (by_address && tail & 3 != 0) {
            return Err(4);
        }
        let length = self.length_if(self.kind == 14)?;
        let own = [routing.into(), u64::from(self.second & 0xFF), tail, 0, 0, 0, 0, 0, 0, 0];
        packet.keep(|| self.numbers(4, length, self.transaction(), own));
        Ok(match routing {
            0b001 => Aim::Memory(tail),
            0b010 => Aim::Id((tail >> 48) as u16),
            0b011 => Aim::Every,
            0b100 => Aim::Port,
            _ => Aim::Up,
        })
    }

    /// Byte 1 bit 1, and TH.
    fn has_stray_bits(&self) -> bool {
        self.first & 0x3_0000 != 0
    }

    fn at(&self) -> u32 {
        self.first >> 10 & 3
    }

    /// Tag bits 9 and 8, in their places.
    fn tag_high(&self) -> u32 {
        self.first >> 14 & 0x200 | self.first >> 11 & 0x100
    }

    /// The tag, with the low eight bits in this dword.
    fn tag(&self, dword: u32) -> u64 {
        (self.tag_high() | dword >> 8 & 0xFF).into()
    }

    /// A request's requester and tag.
    fn transaction(&self) -> (u64, u64) {
        ((self.second >> 16).into(), self.tag(self.second))
    }

    /// Last and first.
    fn enables(&self) -> (u64, u64) {
        ((self.second >> 4 & 15).into(), (self.second & 15).into())
    }

    /// In dwords: code 0 is 1,024.
    fn length(&self) -> u64 {
        ((self.first & 0x3FF).wrapping_sub(1) & 0x3FF) as u64 + 1
    }

    /// Of a kind that has data or else no Length.
    fn length_if(&self, has_data: bool) -> Result<u64, u8> {
        match self.first & 0x3FF {
            _ if has_data => Ok(self.length()),
            0 => Ok(0),
            _ => Err(5),
        }
    }

    /// The first enables of I/O and configuration, where TC, Attr, AT and last enables are 0 and Length is 1.
    fn single(&self) -> Result<u64, u8> {
        if self.first & 0x0074_3FFF != 1 || self.second & 0xF0 != 0 {
            return Err(5);
        }
        Ok((self.second & 15).into())
    }

    /// The numbers that all kinds have, then those of some.
    fn numbers(&self, form: u64, length: u64, (requester, tag): (u64, u64), own: [u64; 10]) -> Numbers {
        let bits = |at: u32, mask: u32| u64::from(self.first >> at & mask);
        let mut numbers = [0; 20];
        numbers[..10].copy_from_slice(&[
            self.kind.into(),
            form,
            bits(20, 7),
            bits(16, 4) | bits(12, 3),
            bits(15, 1),
            bits(14, 1),
            bits(10, 3),
            length,
            requester,
            tag,
        ]);
        numbers[10..].copy_from_slice(&own);
        numbers
    }
}
