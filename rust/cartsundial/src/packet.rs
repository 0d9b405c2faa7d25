//! A lawful header.
//!
//! A [`Packet`] keeps a header's 12 or 16 bytes. It is made by three ways: of a header that the library judged lawful, as it is
//! or as it arrives ([`read()`], and the answers of routing); of fields, laid out here and judged by the library
//! ([`Packet::new`], through which the constructors of common packets go); of the library's twenty numbers, by its writer
//! ([`Packet::from_numbers`]). What is proved of the library makes that enough:
//!
//! - A header is judged as it is read: 0 where it is accepted, else the reader's number (`cartsundial_judge`).
//! - A header that is read is written back to its own first 12 or 16 bytes, and what the writer wrote is read back as the
//!   same packet (crates/demands/specs/Demand2.antt). So [`write()`] copies the bytes and asks nothing again.
//! - Lawful packets with the same bytes are one packet (`layout_unique` in crates/tlp/specs/RoundTrip.antt). So packets
//!   are equal exactly when their bytes are.
//! - Fields that fit their bits are, laid out, judged as the writer judges them (`fitting_layout` in
//!   crates/tlp_judge/specs/Fitting.antt). So fields get the writer's number.
//! - A packet arrives as it was read, but for a configuration request of type 1, which becomes type 0: one bit, and no rule
//!   tells the two types apart.
//!
//! A field is taken from the bytes where it is asked for, and put there by `Fields::laid_out`. No proof covers these two:
//! tests/against_plain holds each field of each header that it reads against the library's own number, and each header that it
//! makes of fields against what the library writes of the same numbers.

use crate::calls::{self, PACKET};
use crate::kind::{CompletionKind, ConfigurationKind, IoKind, MemoryKind, MessageKind};
use crate::{refused, Body, Enables, Fields, Form, Id, Kind, Refusal, Routing};
use core::fmt;

/// Half of the longest header.
const HALF: usize = Form::FourDwords.bytes() / 2;

/// Byte 0 of a configuration request of type 1.
const CFG_RD1: u8 = 0b000_00101;
const CFG_WR1: u8 = 0b010_00101;

/// A lawful packet's header. The fields that every kind has are methods; [`body`](Packet::body) has the others, to match
/// on, and [`fields`](Packet::fields) has all of them, to change and make another packet of.
///
/// It is made by three ways, each judged by the library: of a header by [`read()`], of fields by [`Packet::new`], which
/// [`memory_read`](Packet::memory_read) and the others for common packets call, and of the library's numbers by
/// [`Packet::from_numbers`].
///
/// ```
/// # use cartsundial::{read, Body, Fields, Kind, Packet, Refusal};
/// let packet = read(&[0, 0, 0, 1, 0, 0, 0x21, 0x0F, 0xF9, 0, 0x0F, 0xFC]).unwrap();
/// assert_eq!((packet.kind(), packet.length(), packet.tag()), (Kind::MRd, 1, 0x21));
/// assert!(matches!(packet.body(), Body::Memory { address: 0xF900_0FFC, .. }));
///
/// let next = Packet::new(&Fields { tag: 0x22, ..packet.fields() }).unwrap();
/// assert_eq!(next.header()[6], 0x22);
/// assert_eq!(Packet::new(&Fields { tag: 1024, ..packet.fields() }), Err(Refusal::TooWide));
/// ```
#[derive(Clone, Copy, PartialEq, Eq, Hash)]
// Aligned, so that in a `Result` the bytes are not where the refusal is, and are moved as two words.
#[repr(align(8))]
pub struct Packet {
    /// A lawful header, and zeros past its end: bytes 0 to 7, and 8 to 15.
    halves: [[u8; HALF]; 2],
}

/// Reads the header at the start of `header`. Later bytes are not looked at.
///
/// ```
/// # use cartsundial::{read, Kind, Refusal};
/// let header = [0, 0, 0, 1, 0, 0, 0x21, 0x0F, 0xF9, 0, 0x0F, 0xFC];
/// assert_eq!(read(&header).unwrap().kind(), Kind::MRd);
/// assert_eq!(read(&header[..11]), Err(Refusal::ShortHeader));
/// ```
#[inline]
pub fn read(header: &[u8]) -> Result<Packet, Refusal> {
    match calls::judge(header) {
        0 => Ok(Packet::of_accepted(header)),
        number => Err(refused(number)),
    }
}

/// Writes the packet's header at the start of `room` and returns its length, 12 or 16. Nothing past it is written.
#[inline]
pub fn write(packet: &Packet, room: &mut [u8]) -> Result<usize, Refusal> {
    let length = packet.form().bytes();
    let room = room.get_mut(..length).ok_or(Refusal::ShortRoom)?;
    // Two dwords, the third, and the last, which is the third again or the fourth: no copy of a varying length.
    let bytes = packet.halves.as_flattened();
    room[..8].copy_from_slice(&bytes[..8]);
    for at in [8, length - 4] {
        room[at..at + 4].copy_from_slice(&bytes[at..at + 4]);
    }
    Ok(length)
}

impl Packet {
    /// The packet with these fields. Where there is none, the refusal is the writer's: 10, then 4 to 9.
    #[inline]
    pub fn new(fields: &Fields) -> Result<Packet, Refusal> {
        let laid_out = Packet { halves: fields.laid_out().ok_or(Refusal::TooWide)?.map(u64::to_be_bytes) };
        // A copy is lent, so that the packet stays in registers.
        let copy = laid_out.halves;
        match calls::judge(copy.as_flattened()) {
            0 => Ok(laid_out),
            number => Err(refused(number)),
        }
    }

    /// The packet that these numbers are, in the order of [`PACKET`]. Where there is none, the refusal is the writer's: 2,
    /// 10, then 4 to 9.
    #[inline]
    pub fn from_numbers(numbers: &[u64; PACKET]) -> Result<Packet, Refusal> {
        let mut halves = [[0; HALF]; 2];
        match calls::write(numbers, halves.as_flattened_mut(), &mut [0]) {
            0 => Ok(Packet { halves }),
            number => Err(refused(number)),
        }
    }

    /// The packet of a header that the library's reader accepted: its first 12 or 16 bytes.
    #[inline]
    pub(crate) fn of_accepted(header: &[u8]) -> Packet {
        let mut bytes = [0; 2 * HALF];
        match header.first_chunk() {
            Some(front) => bytes = *front,
            // Under 16 bytes only the shorter form is accepted.
            None => bytes[..12].copy_from_slice(&header[..12]),
        }
        // As numbers, the lowest byte first, they stay in registers.
        let whole = u128::from_le_bytes(bytes);
        let (front, tail) = (whole as u64, (whole >> 64) as u64);
        let kept = match form(front as u8) {
            Form::ThreeDwords => tail & 0xFFFF_FFFF,
            Form::FourDwords => tail,
        };
        Packet { halves: [front.to_le_bytes(), kept.to_le_bytes()] }
    }

    /// The packet as it arrives at a function: configuration type 1 becomes type 0, which is bit 0 of byte 0.
    #[inline]
    pub(crate) fn arrived(mut self) -> Packet {
        let is_type1 = matches!(self.byte0(), CFG_RD1 | CFG_WR1);
        self.halves[0][0] &= !u8::from(is_type1);
        self
    }

    /// The header's 12 or 16 bytes.
    #[inline]
    pub fn header(&self) -> &[u8] {
        &self.halves.as_flattened()[..self.form().bytes()]
    }

    /// What the packet is.
    #[inline]
    pub fn kind(&self) -> Kind {
        match self.pair() {
            Pair::Memory(kind) => kind.into(),
            Pair::Io(kind) => kind.into(),
            Pair::Configuration(kind) => kind.into(),
            Pair::Completion(kind) => kind.into(),
            Pair::Message(kind, _) => kind.into(),
        }
    }

    /// The header's length. Memory requests alone have both.
    #[inline]
    pub fn form(&self) -> Form {
        form(self.byte0())
    }

    /// Traffic class, 0 to 7.
    #[inline]
    pub fn tc(&self) -> u8 {
        (self.front() >> 52) as u8 & 7
    }

    /// Attributes, 0 to 7; Attr2 is the highest bit.
    #[inline]
    pub fn attr(&self) -> u8 {
        (self.front() >> 48) as u8 & 4 | (self.front() >> 44) as u8 & 3
    }

    /// Whether a digest follows.
    #[inline]
    pub fn td(&self) -> bool {
        self.front() >> 47 & 1 != 0
    }

    /// Whether the data is poisoned.
    #[inline]
    pub fn ep(&self) -> bool {
        self.front() >> 46 & 1 != 0
    }

    /// Address type, 0 to 3.
    #[inline]
    pub fn at(&self) -> u8 {
        (self.front() >> 42) as u8 & 3
    }

    /// In dwords, 1 to 1,024; 0 for Cpl, CplLk and Msg.
    #[inline]
    pub fn length(&self) -> u16 {
        match (self.front() >> 32) as u16 & 0x3FF {
            0 if self.has_length() => 1024,
            code => code,
        }
    }

    /// Who asked.
    #[inline]
    pub fn requester(&self) -> Id {
        Id((self.transaction() >> 16) as u16)
    }

    /// 0 to 1,023; 0 to 255 of a memory write or a message, whose bits in byte 1 are 0.
    #[inline]
    pub fn tag(&self) -> u16 {
        let high = (self.front() >> 46) as u16 & 0x200 | (self.front() >> 43) as u16 & 0x100;
        high | (self.transaction() >> 8) as u16 & 0xFF
    }

    /// What the packet is, with the fields that only some kinds have.
    #[inline]
    pub fn body(&self) -> Body {
        match self.pair() {
            Pair::Memory(kind) => {
                let form = self.form();
                let address = match form {
                    Form::ThreeDwords => self.tail() >> 32,
                    Form::FourDwords => self.tail(),
                };
                Body::Memory { kind, form, enables: self.enables(), address }
            }
            Pair::Io(kind) => Body::Io { kind, enables: self.enables(), address: (self.tail() >> 32) as u32 },
            Pair::Configuration(kind) => Body::Configuration {
                kind,
                enables: self.enables(),
                target: Id((self.tail() >> 48) as u16),
                register: (self.tail() >> 34) as u16 & 0x3FF,
            },
            Pair::Completion(kind) => Body::Completion {
                kind,
                completer: Id((self.front() >> 16) as u16),
                status: (self.front() >> 13) as u8 & 7,
                bcm: self.front() >> 12 & 1 != 0,
                byte_count: self.front() as u16 & 0xFFF,
                lower_address: (self.tail() >> 32) as u8 & 0x7F,
            },
            Pair::Message(kind, routing) => {
                Body::Message { kind, routing, code: self.front() as u8, tail: self.tail() }
            }
        }
    }

    /// All fields.
    #[inline]
    pub fn fields(&self) -> Fields {
        Fields {
            tc: self.tc(),
            attr: self.attr(),
            td: self.td(),
            ep: self.ep(),
            at: self.at(),
            length: self.length(),
            requester: self.requester(),
            tag: self.tag(),
            body: self.body(),
        }
    }

    /// The packet as the library's numbers, in the order of [`PACKET`].
    pub fn to_numbers(&self) -> [u64; PACKET] {
        self.fields().to_numbers()
    }

    /// Cpl, CplLk and Msg, of the completions and messages those without data, have no Length.
    #[inline]
    fn has_length(&self) -> bool {
        const DATA: u8 = 0x40;
        const COMPLETION_OR_MESSAGE: u8 = 0x18;
        self.byte0() & DATA != 0 || self.byte0() & COMPLETION_OR_MESSAGE == 0
    }

    #[inline]
    fn pair(&self) -> Pair {
        PAIRS[usize::from(self.byte0())]
    }

    #[inline]
    fn enables(&self) -> Enables {
        Enables { last: self.front() as u8 >> 4, first: self.front() as u8 & 0xF }
    }

    /// The dword that starts with the requester's ID and the tag: the third of a completion, else the second.
    #[inline]
    fn transaction(&self) -> u32 {
        const COMPLETION: u8 = 0x08;
        if self.byte0() & COMPLETION != 0 {
            (self.tail() >> 32) as u32
        } else {
            self.front() as u32
        }
    }

    /// Fmt and Type.
    #[inline]
    fn byte0(&self) -> u8 {
        self.halves[0][0]
    }

    /// Bytes 0 to 7 as a number, the first highest.
    #[inline]
    fn front(&self) -> u64 {
        u64::from_be_bytes(self.halves[0])
    }

    /// Bytes 8 to 15.
    #[inline]
    fn tail(&self) -> u64 {
        u64::from_be_bytes(self.halves[1])
    }
}

/// The form of a header with this byte 0: Fmt's lowest bit.
#[inline]
const fn form(byte0: u8) -> Form {
    if byte0 & 0x20 == 0 {
        Form::ThreeDwords
    } else {
        Form::FourDwords
    }
}

/// What byte 0, Fmt and Type, says of a lawful header.
#[derive(Clone, Copy)]
enum Pair {
    Memory(MemoryKind),
    Io(IoKind),
    Configuration(ConfigurationKind),
    Completion(CompletionKind),
    Message(MessageKind, Routing),
}

/// Every pair by byte 0. No lawful header has a byte 0 that [`pair`] does not name.
static PAIRS: [Pair; 256] = {
    let mut pairs = [Pair::Memory(MemoryKind::MRd); 256];
    let mut byte0 = 0;
    while byte0 < 256 {
        if let Some(pair) = pair(byte0 as u8) {
            pairs[byte0] = pair;
        }
        byte0 += 1;
    }
    pairs
};

/// The data bit of Fmt and Type tell the kind.
const fn pair(byte0: u8) -> Option<Pair> {
    let has_data = byte0 & 0x40 != 0;
    Some(match (byte0 & 0x1F, has_data) {
        (0b00000, false) => Pair::Memory(MemoryKind::MRd),
        (0b00000, true) => Pair::Memory(MemoryKind::MWr),
        (0b00001, false) => Pair::Memory(MemoryKind::MRdLk),
        (0b00010, false) => Pair::Io(IoKind::IORd),
        (0b00010, true) => Pair::Io(IoKind::IOWr),
        (0b00100, false) => Pair::Configuration(ConfigurationKind::CfgRd0),
        (0b00100, true) => Pair::Configuration(ConfigurationKind::CfgWr0),
        (0b00101, false) => Pair::Configuration(ConfigurationKind::CfgRd1),
        (0b00101, true) => Pair::Configuration(ConfigurationKind::CfgWr1),
        (0b01010, false) => Pair::Completion(CompletionKind::Cpl),
        (0b01010, true) => Pair::Completion(CompletionKind::CplD),
        (0b01011, false) => Pair::Completion(CompletionKind::CplLk),
        (0b01011, true) => Pair::Completion(CompletionKind::CplDLk),
        (0b10000..=0b10101, false) => Pair::Message(MessageKind::Msg, routing(byte0)),
        (0b10000..=0b10101, true) => Pair::Message(MessageKind::MsgD, routing(byte0)),
        _ => return None,
    })
}

/// The low three bits of Type tell a message's routing.
const fn routing(byte0: u8) -> Routing {
    match byte0 & 7 {
        0 => Routing::ToRoot,
        1 => Routing::ByAddress,
        2 => Routing::ById,
        3 => Routing::Broadcast,
        4 => Routing::Local,
        _ => Routing::Gathered,
    }
}

impl TryFrom<&Fields> for Packet {
    type Error = Refusal;

    fn try_from(fields: &Fields) -> Result<Packet, Refusal> {
        Packet::new(fields)
    }
}

impl TryFrom<Fields> for Packet {
    type Error = Refusal;

    fn try_from(fields: Fields) -> Result<Packet, Refusal> {
        Packet::new(&fields)
    }
}

impl From<Packet> for Fields {
    fn from(packet: Packet) -> Fields {
        packet.fields()
    }
}

/// The fields by name.
impl fmt::Debug for Packet {
    fn fmt(&self, f: &mut fmt::Formatter<'_>) -> fmt::Result {
        let Fields { tc, attr, td, ep, at, length, requester, tag, body } = self.fields();
        f.debug_struct("Packet")
            .field("tc", &tc)
            .field("attr", &attr)
            .field("td", &td)
            .field("ep", &ep)
            .field("at", &at)
            .field("length", &length)
            .field("requester", &requester)
            .field("tag", &tag)
            .field("body", &body)
            .finish()
    }
}

/// One line: `MRd 3dw tc 0 attr 0 td 0 ep 0 at 0 length 1 requester 0000 tag 021 last 0 first F address ..`.
impl fmt::Display for Packet {
    fn fmt(&self, f: &mut fmt::Formatter<'_>) -> fmt::Result {
        let Fields { tc, attr, td, ep, at, length, requester, tag, body } = self.fields();
        let (kind, form) = (self.kind(), self.form() as u8);
        let (td, ep) = (u8::from(td), u8::from(ep));
        write!(f, "{kind:?} {form}dw tc {tc} attr {attr} td {td} ep {ep} at {at} length {length}")?;
        write!(f, " requester {:04X} tag {tag:03X}", requester.0)?;
        match body {
            Body::Memory { enables: Enables { last, first }, address, .. } => {
                write!(f, " last {last:X} first {first:X} address {address:016X}")
            }
            Body::Io { enables: Enables { last, first }, address, .. } => {
                write!(f, " last {last:X} first {first:X} address {address:016X}")
            }
            Body::Configuration { enables: Enables { last, first }, target, register, .. } => {
                write!(f, " last {last:X} first {first:X} target {:04X} register {register:03X}", target.0)
            }
            Body::Completion { completer, status, bcm, byte_count, lower_address, .. } => {
                let bcm = u8::from(bcm);
                write!(f, " completer {:04X} status {status} bcm {bcm}", completer.0)?;
                write!(f, " count {byte_count} lower {lower_address:02X}")
            }
            Body::Message { routing, code, tail, .. } => {
                write!(f, " routing {} code {code:02X} tail {tail:016X}", routing.number())
            }
        }
    }
}
