//! A packet's fields as Rust types, to make a packet of and to match on.

use crate::calls::PACKET;
use crate::kind::{CompletionKind, ConfigurationKind, Form, IoKind, MemoryKind, MessageKind, Routing};
use crate::{Id, Packet, Refusal};

/// The fields of a packet, for [`Packet::new`](crate::Packet::new). Every kind has its own fields only. A field may hold
/// a value that its bits in the header cannot: no packet is made of it then, and the refusal is 10.
#[derive(Clone, Copy, Debug, PartialEq, Eq, Hash)]
pub struct Fields {
    /// Traffic class, 3 bits.
    pub tc: u8,
    /// Attributes, 3 bits; Attr2 is the highest.
    pub attr: u8,
    /// A digest follows.
    pub td: bool,
    /// The data is poisoned.
    pub ep: bool,
    /// Address type, 2 bits.
    pub at: u8,
    /// In dwords, 1 to 1,024; 0 for Cpl, CplLk and Msg.
    pub length: u16,
    /// Who asked.
    pub requester: Id,
    /// 10 bits; 8 in a memory write or a message.
    pub tag: u16,
    /// What the packet is, with the fields of its kind.
    pub body: Body,
}

/// What a packet is, with the fields that only some kinds have.
#[derive(Clone, Copy, Debug, PartialEq, Eq, Hash)]
pub enum Body {
    /// A memory request.
    Memory {
        /// Which.
        kind: MemoryKind,
        /// Three dwords, or four for a 64-bit address.
        form: Form,
        /// The bytes that are asked for.
        enables: Enables,
        /// Where it starts, a multiple of four.
        address: u64,
    },
    /// An I/O request.
    Io {
        /// Which.
        kind: IoKind,
        /// The bytes that are asked for.
        enables: Enables,
        /// Where it starts, a multiple of four.
        address: u32,
    },
    /// A configuration request.
    Configuration {
        /// Which.
        kind: ConfigurationKind,
        /// The bytes that are asked for.
        enables: Enables,
        /// The function whose register it is.
        target: Id,
        /// 10 bits, the extended four high.
        register: u16,
    },
    /// A completion.
    Completion {
        /// Which.
        kind: CompletionKind,
        /// Who answers.
        completer: Id,
        /// 3 bits.
        status: u8,
        /// Byte count modified.
        bcm: bool,
        /// 12 bits.
        byte_count: u16,
        /// 7 bits.
        lower_address: u8,
    },
    /// A message.
    Message {
        /// Which.
        kind: MessageKind,
        /// How it finds its way.
        routing: Routing,
        /// What it says.
        code: u8,
        /// Bytes 8 to 15, the first one highest: an address, an ID in the upper 16 bits, or what the code has there.
        tail: u64,
    },
}

/// Byte enables, 4 bits each.
#[derive(Clone, Copy, Debug, PartialEq, Eq, Hash)]
pub struct Enables {
    /// Of the last dword; 0 where there is only one.
    pub last: u8,
    /// Of the first dword.
    pub first: u8,
}

impl Fields {
    /// Writes the header of the packet with these fields at the start of `room`, as [`Packet::new`](crate::Packet::new)
    /// and then [`write()`](crate::write()) do.
    #[inline]
    pub fn write(&self, room: &mut [u8]) -> Result<usize, Refusal> {
        crate::write(&Packet::new(self)?, room)
    }

    /// Bytes 0 to 7 and 8 to 15 of the header, each as a number, its first byte highest; and zeros past the end of a shorter
    /// one. None where a field holds what its bits cannot.
    #[inline]
    pub(crate) fn laid_out(&self) -> Option<[u64; 2]> {
        let Fields { tc, attr, td, ep, at, length, requester, tag, body } = *self;
        let Own { byte0, dword1, tail, fits, has_length, tag_bits } = body.laid_out(requester, tag);
        let in_range = if has_length { length.wrapping_sub(1) < 1024 } else { length == 0 };
        if !fits | !in_range | (tc > 7) | (attr > 7) | (at > 3) | (tag >> tag_bits != 0) {
            return None;
        }
        let (attr, tag) = (u64::from(attr), u64::from(tag));
        // The code of 1,024 is 0.
        let dword0 = u64::from(byte0) << 24
            | (tag & 0x200) << 14
            | u64::from(tc) << 20
            | (tag & 0x100) << 11
            | (attr & 4) << 16
            | u64::from(td) << 15
            | u64::from(ep) << 14
            | (attr & 3) << 12
            | u64::from(at) << 10
            | u64::from(length & 0x3FF);
        Some([dword0 << 32 | dword1, tail])
    }

    /// The fields as the library's numbers, in the order of [`PACKET`].
    #[inline]
    pub fn to_numbers(&self) -> [u64; PACKET] {
        let mut numbers = [0; PACKET];
        let [kind, form, tc, attr, td, ep, at, length, requester, tag, own @ ..] = &mut numbers;
        *tc = self.tc.into();
        *attr = self.attr.into();
        *td = self.td.into();
        *ep = self.ep.into();
        *at = self.at.into();
        *length = self.length.into();
        *requester = self.requester.0.into();
        *tag = self.tag.into();
        (*kind, *form) = self.body.put(own);
        numbers
    }
}

/// What a kind has of its own in a header.
struct Own {
    byte0: u8,
    /// Bytes 4 to 7, and bytes 8 to 15.
    dword1: u64,
    tail: u64,
    /// Whether each of the kind's own fields has a value that its bits can hold.
    fits: bool,
    has_length: bool,
    tag_bits: u32,
}

impl Own {
    /// Of a request that a completion answers.
    #[inline]
    fn request(byte0: u8, transaction: u64, Enables { last, first }: Enables, tail: u64, fits: bool) -> Own {
        let dword1 = transaction | u64::from(last << 4 | first & 0xF);
        Own { byte0, dword1, tail, fits: fits & (last < 16) & (first < 16), has_length: true, tag_bits: 10 }
    }
}

impl Body {
    #[inline]
    fn laid_out(&self, requester: Id, tag: u16) -> Own {
        let transaction = u64::from(requester.0) << 16 | u64::from(tag & 0xFF) << 8;
        match *self {
            Body::Memory { kind, form, enables, address } => {
                let (tail, fits) = match form {
                    Form::ThreeDwords => (address << 32, address >> 32 == 0),
                    Form::FourDwords => (address, true),
                };
                let own = Own::request(kind.byte0() | form.bit(), transaction, enables, tail, fits);
                Own { tag_bits: if matches!(kind, MemoryKind::MWr) { 8 } else { 10 }, ..own }
            }
            Body::Io { kind, enables, address } => {
                Own::request(kind.byte0(), transaction, enables, u64::from(address) << 32, true)
            }
            Body::Configuration { kind, enables, target, register } => {
                let tail = u64::from(target.0) << 48 | u64::from(register & 0x3FF) << 34;
                Own::request(kind.byte0(), transaction, enables, tail, register < 1024)
            }
            Body::Completion { kind, completer, status, bcm, byte_count, lower_address } => Own {
                byte0: kind.byte0(),
                dword1: u64::from(completer.0) << 16
                    | u64::from(status & 7) << 13
                    | u64::from(bcm) << 12
                    | u64::from(byte_count & 0xFFF),
                tail: (transaction | u64::from(lower_address & 0x7F)) << 32,
                fits: (status < 8) & (byte_count < 4096) & (lower_address < 128),
                has_length: matches!(kind, CompletionKind::CplD | CompletionKind::CplDLk),
                tag_bits: 10,
            },
            Body::Message { kind, routing, code, tail } => Own {
                byte0: kind.byte0() | routing.number(),
                dword1: transaction | u64::from(code),
                tail,
                fits: true,
                has_length: matches!(kind, MessageKind::MsgD),
                tag_bits: 8,
            },
        }
    }

    /// Puts a kind's own fields to their places among the last ten numbers, and returns the kind's and the form's.
    #[inline]
    fn put(&self, own: &mut [u64; 10]) -> (u64, u64) {
        let [last, first, address, target, register, completer, status, bcm, byte_count, lower_address] = own;
        match *self {
            Body::Memory { kind, form, enables, address: start } => {
                (*last, *first, *address) = (enables.last.into(), enables.first.into(), start);
                (kind as u64, form as u64)
            }
            Body::Io { kind, enables, address: start } => {
                (*last, *first, *address) = (enables.last.into(), enables.first.into(), start.into());
                (kind as u64, 3)
            }
            Body::Configuration { kind, enables, target: id, register: number } => {
                (*last, *first) = (enables.last.into(), enables.first.into());
                (*target, *register) = (id.0.into(), number.into());
                (kind as u64, 3)
            }
            Body::Completion {
                kind,
                completer: id,
                status: code,
                bcm: modified,
                byte_count: count,
                lower_address: low,
            } => {
                (*completer, *status, *bcm) = (id.0.into(), code.into(), modified.into());
                (*byte_count, *lower_address) = (count.into(), low.into());
                (kind as u64, 3)
            }
            // A message has its routing, code and tail where a request has its enables and address.
            Body::Message { kind, routing, code, tail } => {
                (*last, *first, *address) = (routing as u64, code.into(), tail);
                (kind as u64, 4)
            }
        }
    }
}
