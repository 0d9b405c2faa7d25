//! The header codec: a TLP header read as a packet, and a packet written as a header.

use std::fmt;

/// What a packet does, numbered as in [`to_numbers`].
#[derive(Clone, Copy, Debug, PartialEq, Eq)]
#[repr(u8)]
pub enum Kind {
    MRd,
    MRdLk,
    MWr,
    IORd,
    IOWr,
    CfgRd0,
    CfgWr0,
    CfgRd1,
    CfgWr1,
    Cpl,
    CplD,
    CplLk,
    CplDLk,
    Msg,
    MsgD,
}

/// The header's length: three or four dwords.
#[derive(Clone, Copy, Debug, PartialEq, Eq)]
#[repr(u8)]
pub enum Form {
    Three = 3,
    Four = 4,
}

/// The kinds that share a layout after byte 3.
#[derive(Clone, Copy, Debug, PartialEq, Eq)]
pub(crate) enum Family {
    Memory,
    Io,
    Configuration,
    Completion,
    Message,
}

impl Kind {
    pub const ALL: [Kind; 15] = [
        Kind::MRd,
        Kind::MRdLk,
        Kind::MWr,
        Kind::IORd,
        Kind::IOWr,
        Kind::CfgRd0,
        Kind::CfgWr0,
        Kind::CfgRd1,
        Kind::CfgWr1,
        Kind::Cpl,
        Kind::CplD,
        Kind::CplLk,
        Kind::CplDLk,
        Kind::Msg,
        Kind::MsgD,
    ];

    pub(crate) const fn family(self) -> Family {
        match self {
            Kind::MRd | Kind::MRdLk | Kind::MWr => Family::Memory,
            Kind::IORd | Kind::IOWr => Family::Io,
            Kind::CfgRd0 | Kind::CfgWr0 | Kind::CfgRd1 | Kind::CfgWr1 => Family::Configuration,
            Kind::Cpl | Kind::CplD | Kind::CplLk | Kind::CplDLk => Family::Completion,
            Kind::Msg | Kind::MsgD => Family::Message,
        }
    }

    /// Cpl, CplLk and Msg carry no data and have no Length.
    const fn has_length(self) -> bool {
        !matches!(self, Kind::Cpl | Kind::CplLk | Kind::Msg)
    }

    /// The bits of a tag: non-posted requests and completions have two more, in byte 1, than posted requests.
    const fn tag_bits(self) -> u32 {
        match self {
            Kind::MWr | Kind::Msg | Kind::MsgD => 8,
            _ => 10,
        }
    }

    /// Byte 0 of the header, Fmt 7:5 and Type 4:0, where this kind is carried in this form. Of a message, whose Type
    /// 2:0 is its routing, that of routing 000.
    const fn byte0(self, form: Form) -> Option<u8> {
        let shortest = match self {
            Kind::MRd => 0b000_00000,
            Kind::MRdLk => 0b000_00001,
            Kind::MWr => 0b010_00000,
            Kind::IORd => 0b000_00010,
            Kind::IOWr => 0b010_00010,
            Kind::CfgRd0 => 0b000_00100,
            Kind::CfgWr0 => 0b010_00100,
            Kind::CfgRd1 => 0b000_00101,
            Kind::CfgWr1 => 0b010_00101,
            Kind::Cpl => 0b000_01010,
            Kind::CplD => 0b010_01010,
            Kind::CplLk => 0b000_01011,
            Kind::CplDLk => 0b010_01011,
            Kind::Msg => 0b001_10000,
            Kind::MsgD => 0b011_10000,
        };
        match (self.family(), form) {
            (Family::Memory, Form::Four) => Some(shortest | 0b001_00000),
            (Family::Message, Form::Four) => Some(shortest),
            (Family::Message, Form::Three) | (_, Form::Four) => None,
            (_, Form::Three) => Some(shortest),
        }
    }
}

/// A message's routing, Type 2:0. 000 and 101, the others that are carried, go up.
pub(crate) mod routing {
    pub const BY_ADDRESS: u8 = 0b001;
    pub const BY_ID: u8 = 0b010;
    pub const BROADCAST: u8 = 0b011;
    pub const LOCAL: u8 = 0b100;
    /// The first of the two that have no meaning, 110 and 111.
    pub const RESERVED: u8 = 0b110;
}

/// What byte 0 stands for.
#[derive(Clone, Copy)]
enum Pair {
    Unknown,
    NotCarried,
    Carried(Kind, Form),
}

/// Every Fmt and Type pair, indexed by byte 0.
static PAIRS: [Pair; 256] = pairs();

const fn pairs() -> [Pair; 256] {
    let mut pairs = [Pair::Unknown; 256];
    let mut byte0 = 0;
    while byte0 < 256 {
        let known = match (byte0 >> 5, byte0 & 31) {
            (0b010 | 0b011, 0b01100..=0b01110) => true,
            (fmt, _) => fmt == 0b100,
        };
        if known {
            pairs[byte0] = Pair::NotCarried;
        }
        byte0 += 1;
    }
    let mut i = 0;
    while i < Kind::ALL.len() {
        let kind = Kind::ALL[i];
        if let Some(byte0) = kind.byte0(Form::Three) {
            pairs[byte0 as usize] = Pair::Carried(kind, Form::Three);
        }
        if let Some(byte0) = kind.byte0(Form::Four) {
            let routings = if matches!(kind.family(), Family::Message) { routing::RESERVED } else { 1 };
            let mut routing = 0;
            while routing < routings {
                pairs[(byte0 | routing) as usize] = Pair::Carried(kind, Form::Four);
                routing += 1;
            }
        }
        i += 1;
    }
    pairs
}

/// A packet's header. A field that the kind does not have is 0.
#[derive(Clone, Copy, Debug, PartialEq, Eq)]
pub struct Packet {
    pub kind: Kind,
    pub form: Form,
    pub tc: u8,
    /// Attr2 is bit 2.
    pub attr: u8,
    pub td: bool,
    pub ep: bool,
    pub at: u8,
    /// In dwords, 1 to 1,024; 0 for Cpl, CplLk and Msg.
    pub length: u16,
    pub requester: u16,
    /// Ten bits, eight in MWr, Msg and MsgD.
    pub tag: u16,
    /// Requests.
    pub last_enables: u8,
    /// Requests.
    pub first_enables: u8,
    /// Memory and I/O.
    pub address: u64,
    /// Configuration: the target's ID.
    pub target: u16,
    /// Configuration: ten bits, the extended four high.
    pub register: u16,
    /// Completions.
    pub completer: u16,
    /// Completions.
    pub status: u8,
    /// Completions.
    pub bcm: bool,
    /// Completions.
    pub byte_count: u16,
    /// Completions.
    pub lower_address: u8,
    /// Messages: Type 2:0, 0 to 5.
    pub routing: u8,
    /// Messages: byte 7.
    pub code: u8,
    /// Messages: bytes 8 to 15 as one number, by routing an address, an ID in its top 16 bits, or anything.
    pub tail: u64,
}

/// Reads the header at the start of `header`.
pub fn read(header: &[u8]) -> Result<Packet, u8> {
    let head: &[u8; 12] = header.first_chunk().ok_or(1)?;
    let (kind, form) = match PAIRS[usize::from(head[0])] {
        Pair::Unknown => return Err(2),
        Pair::NotCarried => return Err(3),
        Pair::Carried(kind, form) => (kind, form),
    };
    let [first, second, third] =
        [0, 4, 8].map(|at| u32::from_be_bytes([head[at], head[at + 1], head[at + 2], head[at + 3]]));
    let address = match form {
        Form::Three => u64::from(third),
        Form::Four => {
            let whole: &[u8; 16] = header.first_chunk().ok_or(1)?;
            u64::from_be_bytes(std::array::from_fn(|i| whole[8 + i]))
        }
    };
    // Byte 1: bit 7 is tag bit 9 and bit 3 tag bit 8, where the tag has them. Bit 1 has no name, bit 0 is TH.
    let tag_high = (first >> 14 & 0x200 | first >> 11 & 0x100) as u16;
    if first & 0x0003_0000 != 0 || tag_high >> kind.tag_bits() != 0 {
        return Err(4);
    }
    let code = (first & 0x3FF) as u16;
    let mut packet = Packet {
        kind,
        form,
        tc: (first >> 20 & 7) as u8,
        attr: (first >> 16 & 4 | first >> 12 & 3) as u8,
        td: first & 1 << 15 != 0,
        ep: first & 1 << 14 != 0,
        at: (first >> 10 & 3) as u8,
        length: if code == 0 && kind.has_length() { 1024 } else { code },
        requester: (second >> 16) as u16,
        tag: tag_high | u16::from(head[6]),
        last_enables: (second >> 4 & 0xF) as u8,
        first_enables: (second & 0xF) as u8,
        address: 0,
        target: 0,
        register: 0,
        completer: 0,
        status: 0,
        bcm: false,
        byte_count: 0,
        lower_address: 0,
        routing: 0,
        code: 0,
        tail: 0,
    };
    match kind.family() {
        Family::Memory | Family::Io => packet.address = address,
        Family::Configuration => {
            if third & 0xF003 != 0 {
                return Err(4);
            }
            packet.target = (third >> 16) as u16;
            packet.register = (third >> 2 & 0x3FF) as u16;
        }
        Family::Completion => {
            if third & 0x80 != 0 {
                return Err(4);
            }
            packet.last_enables = 0;
            packet.first_enables = 0;
            packet.completer = (second >> 16) as u16;
            packet.status = (second >> 13 & 7) as u8;
            packet.bcm = second & 1 << 12 != 0;
            packet.byte_count = (second & 0xFFF) as u16;
            packet.requester = (third >> 16) as u16;
            packet.tag = tag_high | u16::from(head[10]);
            packet.lower_address = (third & 0x7F) as u8;
        }
        Family::Message => {
            packet.last_enables = 0;
            packet.first_enables = 0;
            packet.routing = head[0] & 7;
            packet.code = head[7];
            packet.tail = address;
        }
    }
    packet.judge()?;
    Ok(packet)
}

/// Writes the packet's 12 or 16 bytes at the start of `room` and returns their number.
pub fn write(packet: &Packet, room: &mut [u8]) -> Result<usize, u8> {
    let byte0 = packet.byte0().ok_or(2)?;
    if !packet.fits() {
        return Err(10);
    }
    packet.judge()?;
    let length = 4 * packet.form as usize;
    let room = room.get_mut(..length).ok_or(11)?;
    for (bytes, dword) in room.as_chunks_mut().0.iter_mut().zip(packet.dwords(byte0)) {
        *bytes = dword.to_be_bytes();
    }
    Ok(length)
}

impl Packet {
    /// Byte 0, where the kind is carried in this form and, for a message, with this routing.
    fn byte0(&self) -> Option<u8> {
        let byte0 = self.kind.byte0(self.form)?;
        match (self.kind.family(), self.routing) {
            (Family::Message, routing::RESERVED..=7) => None,
            (Family::Message, routing) => Some(byte0 | routing & 7),
            _ => Some(byte0),
        }
    }

    /// Whether every value fits its field, and every field that the kind does not have is 0.
    fn fits(&self) -> bool {
        let family = self.kind.family();
        let lengths = if self.kind.has_length() { 1..=1024 } else { 0..=0 };
        let common = self.tc < 8
            && self.attr < 8
            && self.at < 4
            && lengths.contains(&self.length)
            && self.tag >> self.kind.tag_bits() == 0;
        let request = self.last_enables < 16 && self.first_enables < 16;
        let no_request = self.last_enables == 0 && self.first_enables == 0;
        let no_address = self.address == 0;
        let no_target = self.target == 0 && self.register == 0;
        let no_completion =
            self.completer == 0 && self.status == 0 && !self.bcm && self.byte_count == 0 && self.lower_address == 0;
        let no_message = self.routing == 0 && self.code == 0 && self.tail == 0;
        let address = self.form == Form::Four || self.address >> 32 == 0;
        common
            && match family {
                Family::Memory | Family::Io => request && address && no_target && no_completion && no_message,
                Family::Configuration => request && no_address && self.register < 1024 && no_completion && no_message,
                Family::Message => no_request && no_address && no_target && no_completion && self.routing < 8,
                Family::Completion => {
                    no_request
                        && no_address
                        && no_target
                        && no_message
                        && self.status < 8
                        && self.byte_count < 4096
                        && self.lower_address < 128
                }
            }
    }

    /// Rules 4 to 9, as far as they speak of fields. Inlined, as is the next: a packet that is judged by a call is stored
    /// field by field and loaded whole, for which `read` waits a third of its time.
    #[inline(always)]
    fn judge(&self) -> Result<(), u8> {
        match self.kind.family() {
            Family::Memory => self.judge_memory(),
            Family::Io | Family::Configuration => {
                if self.address & 3 != 0 {
                    Err(4)
                } else if self.tc | self.attr | self.at | self.last_enables != 0 || self.length != 1 {
                    Err(5)
                } else {
                    Ok(())
                }
            }
            Family::Completion => {
                if self.at != 0 {
                    Err(4)
                } else if !self.kind.has_length() && self.length != 0 {
                    Err(5)
                } else if !matches!(self.status, 0b000 | 0b001 | 0b010 | 0b100) {
                    Err(9)
                } else {
                    Ok(())
                }
            }
            Family::Message => {
                if self.at != 0 || (self.routing == routing::BY_ADDRESS && self.tail & 3 != 0) {
                    Err(4)
                } else if !self.kind.has_length() && self.length != 0 {
                    Err(5)
                } else {
                    Ok(())
                }
            }
        }
    }

    #[inline(always)]
    fn judge_memory(&self) -> Result<(), u8> {
        if self.address & 3 != 0 || self.at == 0b11 {
            return Err(4);
        }
        if self.form == Form::Four && self.address >> 32 == 0 {
            return Err(6);
        }
        let (first, last) = (self.first_enables, self.last_enables);
        let enables = match self.length {
            1 => last == 0,
            // Gaps are for two dwords that start on an 8-byte edge.
            2 if self.address.is_multiple_of(8) => first != 0 && last != 0,
            _ => {
                matches!(first, 0b1111 | 0b1110 | 0b1100 | 0b1000) && matches!(last, 0b1111 | 0b0111 | 0b0011 | 0b0001)
            }
        };
        if !enables {
            return Err(7);
        }
        if (self.address & 0xFFF) + 4 * u64::from(self.length) > 0x1000 {
            return Err(8);
        }
        Ok(())
    }

    /// The header's dwords, of which the form has the first three or all four.
    fn dwords(&self, byte0: u8) -> [u32; 4] {
        let (attr, tag) = (u32::from(self.attr), u32::from(self.tag));
        // The code of 1,024 is 0.
        let first = u32::from(byte0) << 24
            | (tag & 0x200) << 14
            | u32::from(self.tc) << 20
            | (tag & 0x100) << 11
            | (attr & 4) << 16
            | u32::from(self.td) << 15
            | u32::from(self.ep) << 14
            | (attr & 3) << 12
            | u32::from(self.at) << 10
            | u32::from(self.length & 0x3FF);
        let transaction = u32::from(self.requester) << 16 | (tag & 0xFF) << 8;
        let request = transaction | u32::from(self.last_enables << 4 | self.first_enables);
        match self.kind.family() {
            Family::Memory | Family::Io => {
                let (upper, lower) = ((self.address >> 32) as u32, self.address as u32);
                match self.form {
                    Form::Three => [first, request, lower, 0],
                    Form::Four => [first, request, upper, lower],
                }
            }
            Family::Configuration => [first, request, u32::from(self.target) << 16 | u32::from(self.register) << 2, 0],
            Family::Completion => {
                let second = u32::from(self.completer) << 16
                    | u32::from(self.status) << 13
                    | u32::from(self.bcm) << 12
                    | u32::from(self.byte_count);
                [first, second, transaction | u32::from(self.lower_address), 0]
            }
            Family::Message => [first, transaction | u32::from(self.code), (self.tail >> 32) as u32, self.tail as u32],
        }
    }
}

/// The packet as 20 numbers: kind, form, tc, attr, td, ep, at, length, requester, tag, last enables, first enables,
/// address, target, register, completer, status, bcm, byte count, lower address. In place of enables and address a
/// message has routing, code and tail.
pub fn to_numbers(packet: &Packet) -> [u64; 20] {
    let shared = match packet.kind.family() {
        Family::Message => [packet.routing.into(), packet.code.into(), packet.tail],
        _ => [packet.last_enables.into(), packet.first_enables.into(), packet.address],
    };
    [
        packet.kind as u64,
        packet.form as u64,
        packet.tc.into(),
        packet.attr.into(),
        packet.td.into(),
        packet.ep.into(),
        packet.at.into(),
        packet.length.into(),
        packet.requester.into(),
        packet.tag.into(),
        shared[0],
        shared[1],
        shared[2],
        packet.target.into(),
        packet.register.into(),
        packet.completer.into(),
        packet.status.into(),
        packet.bcm.into(),
        packet.byte_count.into(),
        packet.lower_address.into(),
    ]
}

/// Writes the packet that [`to_numbers`] would give as `numbers`.
pub fn write_numbers(numbers: &[u64; 20], room: &mut [u8]) -> Result<usize, u8> {
    let [kind, form, tc, attr, td, ep, at, length, requester, tag, place10, place11, place12, target, register, completer, status, bcm, count, lower] =
        *numbers;
    let kind = *usize::try_from(kind).ok().and_then(|kind| Kind::ALL.get(kind)).ok_or(2)?;
    let form = match form {
        3 => Form::Three,
        4 => Form::Four,
        _ => return Err(2),
    };
    kind.byte0(form).ok_or(2)?;
    let places = [place10, place11, place12];
    let ([last, first, address], [routing, code, tail]) = match kind.family() {
        Family::Message => ([0; 3], places),
        _ => (places, [0; 3]),
    };
    if matches!(routing, 6 | 7) {
        return Err(2);
    }
    let packet = Packet {
        kind,
        form,
        tc: narrow(tc)?,
        attr: narrow(attr)?,
        td: bit(td)?,
        ep: bit(ep)?,
        at: narrow(at)?,
        length: narrow(length)?,
        requester: narrow(requester)?,
        tag: narrow(tag)?,
        last_enables: narrow(last)?,
        first_enables: narrow(first)?,
        address,
        target: narrow(target)?,
        register: narrow(register)?,
        completer: narrow(completer)?,
        status: narrow(status)?,
        bcm: bit(bcm)?,
        byte_count: narrow(count)?,
        lower_address: narrow(lower)?,
        routing: narrow(routing)?,
        code: narrow(code)?,
        tail,
    };
    write(&packet, room)
}

fn narrow<T: TryFrom<u64>>(number: u64) -> Result<T, u8> {
    T::try_from(number).map_err(|_| 10)
}

fn bit(number: u64) -> Result<bool, u8> {
    match number {
        0 => Ok(false),
        1 => Ok(true),
        _ => Err(10),
    }
}

/// One line: `MRd 3dw tc 0 ... first F address 00000000F9000FFC`, `Msg 4dw tc 0 ... routing 4 code 20 tail 00..`.
impl fmt::Display for Packet {
    fn fmt(&self, f: &mut fmt::Formatter<'_>) -> fmt::Result {
        write!(
            f,
            "{:?} {}dw tc {} attr {} td {} ep {} at {} length {} requester {:04X} tag {:03X}",
            self.kind,
            self.form as u8,
            self.tc,
            self.attr,
            u8::from(self.td),
            u8::from(self.ep),
            self.at,
            self.length,
            self.requester,
            self.tag
        )?;
        let family = self.kind.family();
        if family == Family::Completion {
            return write!(
                f,
                " completer {:04X} status {} bcm {} count {} lower {:02X}",
                self.completer,
                self.status,
                u8::from(self.bcm),
                self.byte_count,
                self.lower_address
            );
        }
        if family == Family::Message {
            return write!(f, " routing {} code {:02X} tail {:016X}", self.routing, self.code, self.tail);
        }
        write!(f, " last {:X} first {:X}", self.last_enables, self.first_enables)?;
        if family == Family::Configuration {
            write!(f, " target {:04X} register {:03X}", self.target, self.register)
        } else {
            write!(f, " address {:016X}", self.address)
        }
    }
}
