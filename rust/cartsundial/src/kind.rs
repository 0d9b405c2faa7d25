//! The kinds of packets, with the codes that they have in the first of a packet's twenty numbers.

use core::error::Error;
use core::fmt;
use core::str::FromStr;

/// What a packet is, of all kinds that are carried.
#[derive(Clone, Copy, Debug, PartialEq, Eq, PartialOrd, Ord, Hash)]
#[repr(u8)]
pub enum Kind {
    /// Memory read.
    MRd = 0,
    /// Locked memory read.
    MRdLk = 1,
    /// Memory write.
    MWr = 2,
    /// I/O read.
    IORd = 3,
    /// I/O write.
    IOWr = 4,
    /// Configuration read, type 0.
    CfgRd0 = 5,
    /// Configuration write, type 0.
    CfgWr0 = 6,
    /// Configuration read, type 1.
    CfgRd1 = 7,
    /// Configuration write, type 1.
    CfgWr1 = 8,
    /// Completion without data.
    Cpl = 9,
    /// Completion with data.
    CplD = 10,
    /// Completion without data, of a locked read.
    CplLk = 11,
    /// Completion with data, of a locked read.
    CplDLk = 12,
    /// Message without data.
    Msg = 13,
    /// Message with data.
    MsgD = 14,
}

impl Kind {
    /// Every kind, by rising code.
    pub const ALL: [Kind; 15] = [
        Kind::MRd,
        Kind::MRdLk,
        Kind::MWr,
        Kind::IORd,
        Kind::IOWr,
        Kind::CfgRd0,
        Kind::CfgWr0,
        Kind::CfgRd1,
        Kind::CfgWr1,
        Kind::Cpl,
        Kind::CplD,
        Kind::CplLk,
        Kind::CplDLk,
        Kind::Msg,
        Kind::MsgD,
    ];

    /// The first of a packet's twenty numbers, as in C's `enum cartsundial_kind`. A message has one code, whatever its
    /// routing, which is another of the twenty. (Inside the library a kind's number tells the routings apart too.)
    pub const fn code(self) -> u8 {
        self as u8
    }

    /// The kind's name, as in the lines of a trace.
    pub const fn name(self) -> &'static str {
        match self {
            Kind::MRd => "MRd",
            Kind::MRdLk => "MRdLk",
            Kind::MWr => "MWr",
            Kind::IORd => "IORd",
            Kind::IOWr => "IOWr",
            Kind::CfgRd0 => "CfgRd0",
            Kind::CfgWr0 => "CfgWr0",
            Kind::CfgRd1 => "CfgRd1",
            Kind::CfgWr1 => "CfgWr1",
            Kind::Cpl => "Cpl",
            Kind::CplD => "CplD",
            Kind::CplLk => "CplLk",
            Kind::CplDLk => "CplDLk",
            Kind::Msg => "Msg",
            Kind::MsgD => "MsgD",
        }
    }
}

/// The text is no kind's name.
#[derive(Clone, Copy, Debug, PartialEq, Eq)]
pub struct NoKind;

impl fmt::Display for NoKind {
    fn fmt(&self, f: &mut fmt::Formatter<'_>) -> fmt::Result {
        f.write_str("not a packet's kind, as MRd or CplD")
    }
}

impl Error for NoKind {}

/// `MRd`.
impl FromStr for Kind {
    type Err = NoKind;

    fn from_str(name: &str) -> Result<Kind, NoKind> {
        Kind::ALL.into_iter().find(|kind| kind.name() == name).ok_or(NoKind)
    }
}

/// `MRd`.
impl fmt::Display for Kind {
    fn fmt(&self, f: &mut fmt::Formatter<'_>) -> fmt::Result {
        f.pad(self.name())
    }
}

/// The memory requests.
#[derive(Clone, Copy, Debug, PartialEq, Eq, Hash)]
#[repr(u8)]
pub enum MemoryKind {
    /// Read.
    MRd = 0,
    /// Locked read.
    MRdLk = 1,
    /// Write.
    MWr = 2,
}

/// The I/O requests.
#[derive(Clone, Copy, Debug, PartialEq, Eq, Hash)]
#[repr(u8)]
pub enum IoKind {
    /// Read.
    IORd = 3,
    /// Write.
    IOWr = 4,
}

/// The configuration requests. Type 1 is on its way to another bus, type 0 on the target's.
#[derive(Clone, Copy, Debug, PartialEq, Eq, Hash)]
#[repr(u8)]
pub enum ConfigurationKind {
    /// Read, type 0.
    CfgRd0 = 5,
    /// Write, type 0.
    CfgWr0 = 6,
    /// Read, type 1.
    CfgRd1 = 7,
    /// Write, type 1.
    CfgWr1 = 8,
}

/// The completions.
#[derive(Clone, Copy, Debug, PartialEq, Eq, Hash)]
#[repr(u8)]
pub enum CompletionKind {
    /// Without data.
    Cpl = 9,
    /// With data.
    CplD = 10,
    /// Without data, of a locked read.
    CplLk = 11,
    /// With data, of a locked read.
    CplDLk = 12,
}

/// The messages.
#[derive(Clone, Copy, Debug, PartialEq, Eq, Hash)]
#[repr(u8)]
pub enum MessageKind {
    /// Without data.
    Msg = 13,
    /// With data.
    MsgD = 14,
}

/// How a message finds its way: the low three bits of Type.
#[derive(Clone, Copy, Debug, PartialEq, Eq, PartialOrd, Ord, Hash)]
#[repr(u8)]
pub enum Routing {
    /// To the root complex; up only.
    ToRoot = 0,
    /// By the address in the tail.
    ByAddress = 1,
    /// By the ID in the tail's upper 16 bits.
    ById = 2,
    /// From the root complex to every function.
    Broadcast = 3,
    /// No further than the port that receives it.
    Local = 4,
    /// Gathered on its way to the root complex; up only.
    Gathered = 5,
}

impl Routing {
    /// The three bits.
    pub const fn number(self) -> u8 {
        self as u8
    }
}

/// The header's length.
#[derive(Clone, Copy, Debug, PartialEq, Eq, Hash)]
#[repr(u8)]
pub enum Form {
    /// 12 bytes; of a memory request, with an address below 4 GiB.
    ThreeDwords = 3,
    /// 16 bytes: a memory request with an address of 64 bits, or a message.
    FourDwords = 4,
}

impl Form {
    /// How many bytes the header has.
    pub const fn bytes(self) -> usize {
        4 * self as usize
    }

    /// Its bit in byte 0, Fmt's lowest.
    #[inline]
    pub(crate) const fn bit(self) -> u8 {
        match self {
            Form::ThreeDwords => 0,
            Form::FourDwords => 0b001_00000,
        }
    }
}

impl MemoryKind {
    /// Fmt and Type.
    #[inline]
    pub(crate) const fn byte0(self) -> u8 {
        match self {
            MemoryKind::MRd => 0b000_00000,
            MemoryKind::MRdLk => 0b000_00001,
            MemoryKind::MWr => 0b010_00000,
        }
    }
}

impl From<MemoryKind> for Kind {
    #[inline]
    fn from(kind: MemoryKind) -> Kind {
        match kind {
            MemoryKind::MRd => Kind::MRd,
            MemoryKind::MRdLk => Kind::MRdLk,
            MemoryKind::MWr => Kind::MWr,
        }
    }
}

impl IoKind {
    /// Fmt and Type.
    #[inline]
    pub(crate) const fn byte0(self) -> u8 {
        match self {
            IoKind::IORd => 0b000_00010,
            IoKind::IOWr => 0b010_00010,
        }
    }
}

impl From<IoKind> for Kind {
    #[inline]
    fn from(kind: IoKind) -> Kind {
        match kind {
            IoKind::IORd => Kind::IORd,
            IoKind::IOWr => Kind::IOWr,
        }
    }
}

impl ConfigurationKind {
    /// Fmt and Type.
    #[inline]
    pub(crate) const fn byte0(self) -> u8 {
        match self {
            ConfigurationKind::CfgRd0 => 0b000_00100,
            ConfigurationKind::CfgWr0 => 0b010_00100,
            ConfigurationKind::CfgRd1 => 0b000_00101,
            ConfigurationKind::CfgWr1 => 0b010_00101,
        }
    }
}

impl From<ConfigurationKind> for Kind {
    #[inline]
    fn from(kind: ConfigurationKind) -> Kind {
        match kind {
            ConfigurationKind::CfgRd0 => Kind::CfgRd0,
            ConfigurationKind::CfgWr0 => Kind::CfgWr0,
            ConfigurationKind::CfgRd1 => Kind::CfgRd1,
            ConfigurationKind::CfgWr1 => Kind::CfgWr1,
        }
    }
}

impl CompletionKind {
    /// Fmt and Type.
    #[inline]
    pub(crate) const fn byte0(self) -> u8 {
        match self {
            CompletionKind::Cpl => 0b000_01010,
            CompletionKind::CplD => 0b010_01010,
            CompletionKind::CplLk => 0b000_01011,
            CompletionKind::CplDLk => 0b010_01011,
        }
    }
}

impl From<CompletionKind> for Kind {
    #[inline]
    fn from(kind: CompletionKind) -> Kind {
        match kind {
            CompletionKind::Cpl => Kind::Cpl,
            CompletionKind::CplD => Kind::CplD,
            CompletionKind::CplLk => Kind::CplLk,
            CompletionKind::CplDLk => Kind::CplDLk,
        }
    }
}

impl MessageKind {
    /// Fmt and Type.
    #[inline]
    pub(crate) const fn byte0(self) -> u8 {
        match self {
            MessageKind::Msg => 0b001_10000,
            MessageKind::MsgD => 0b011_10000,
        }
    }
}

impl From<MessageKind> for Kind {
    #[inline]
    fn from(kind: MessageKind) -> Kind {
        match kind {
            MessageKind::Msg => Kind::Msg,
            MessageKind::MsgD => Kind::MsgD,
        }
    }
}
