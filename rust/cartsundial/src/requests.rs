//! Common packets, made of what tells them apart.

use crate::kind::{CompletionKind, ConfigurationKind, Form, IoKind, MemoryKind, MessageKind, Routing};
use crate::{Body, Enables, Fields, Id, Packet, Refusal};

/// From here on an address needs the four-dword form.
const FOUR_GIB: u64 = 1 << 32;

/// Every byte of a dword.
const WHOLE: u8 = 0xF;

/// Each takes whole dwords, and leaves at 0 what it is not given: traffic class, attributes and so on. For others, change
/// [`fields`](Packet::fields) and make a packet of them.
///
/// ```
/// use cartsundial::{Id, Packet, Refusal};
///
/// let read = Packet::memory_read(Id(0x0300), 0x21, 0xF900_0FFC, 1)?;
/// assert_eq!(read.header(), [0, 0, 0, 1, 3, 0, 0x21, 0x0F, 0xF9, 0, 0x0F, 0xFC]);
/// let answer = Packet::completion_with_data(Id(0x0100), &read, 1)?;
/// assert_eq!((answer.requester(), answer.tag()), (Id(0x0300), 0x21));
/// assert_eq!(Packet::memory_read(Id(0), 0, 0xF900_0FFC, 2), Err(Refusal::BoundaryCrossed));
/// # Ok::<(), Refusal>(())
/// ```
impl Packet {
    /// A read of so many dwords.
    pub fn memory_read(requester: Id, tag: u16, address: u64, dwords: u16) -> Result<Packet, Refusal> {
        memory(MemoryKind::MRd, requester, tag, address, dwords)
    }

    /// A write of so many dwords.
    pub fn memory_write(requester: Id, tag: u16, address: u64, dwords: u16) -> Result<Packet, Refusal> {
        memory(MemoryKind::MWr, requester, tag, address, dwords)
    }

    /// A read of an I/O dword.
    pub fn io_read(requester: Id, tag: u16, address: u32) -> Result<Packet, Refusal> {
        io(IoKind::IORd, requester, tag, address)
    }

    /// A write of an I/O dword.
    pub fn io_write(requester: Id, tag: u16, address: u32) -> Result<Packet, Refusal> {
        io(IoKind::IOWr, requester, tag, address)
    }

    /// A read of a configuration dword, by its offset in bytes: of type 0 for the root bus, which is given, and of type 1
    /// for any other.
    pub fn configuration_read(
        requester: Id,
        tag: u16,
        target: Id,
        offset: u16,
        root_bus: u8,
    ) -> Result<Packet, Refusal> {
        let kinds = [ConfigurationKind::CfgRd0, ConfigurationKind::CfgRd1];
        configuration(kinds, requester, tag, target, offset, root_bus)
    }

    /// A write of a configuration dword, as [`configuration_read`](Packet::configuration_read).
    pub fn configuration_write(
        requester: Id,
        tag: u16,
        target: Id,
        offset: u16,
        root_bus: u8,
    ) -> Result<Packet, Refusal> {
        let kinds = [ConfigurationKind::CfgWr0, ConfigurationKind::CfgWr1];
        configuration(kinds, requester, tag, target, offset, root_bus)
    }

    /// A successful completion of a request, with so many dwords, all that it waits for.
    pub fn completion_with_data(completer: Id, request: &Packet, dwords: u16) -> Result<Packet, Refusal> {
        // 4,096 bytes are code 0.
        let byte_count = dwords.wrapping_mul(4) & 0xFFF;
        completion(CompletionKind::CplD, completer, request, dwords, byte_count)
    }

    /// A successful completion of a write.
    pub fn completion_without_data(completer: Id, request: &Packet) -> Result<Packet, Refusal> {
        completion(CompletionKind::Cpl, completer, request, 0, 4)
    }

    /// A message without data.
    pub fn message(requester: Id, tag: u16, routing: Routing, code: u8, tail: u64) -> Result<Packet, Refusal> {
        Packet::new(&fields(requester, tag, 0, Body::Message { kind: MessageKind::Msg, routing, code, tail }))
    }
}

fn fields(requester: Id, tag: u16, length: u16, body: Body) -> Fields {
    Fields { tc: 0, attr: 0, td: false, ep: false, at: 0, length, requester, tag, body }
}

fn memory(kind: MemoryKind, requester: Id, tag: u16, address: u64, dwords: u16) -> Result<Packet, Refusal> {
    let form = if address < FOUR_GIB { Form::ThreeDwords } else { Form::FourDwords };
    let enables = Enables { last: if dwords == 1 { 0 } else { WHOLE }, first: WHOLE };
    Packet::new(&fields(requester, tag, dwords, Body::Memory { kind, form, enables, address }))
}

fn io(kind: IoKind, requester: Id, tag: u16, address: u32) -> Result<Packet, Refusal> {
    let enables = Enables { last: 0, first: WHOLE };
    Packet::new(&fields(requester, tag, 1, Body::Io { kind, enables, address }))
}

/// Of the two kinds the first is type 0. An offset that is no dword's is 4, as in an address.
fn configuration(
    [type0, type1]: [ConfigurationKind; 2],
    requester: Id,
    tag: u16,
    target: Id,
    offset: u16,
    root_bus: u8,
) -> Result<Packet, Refusal> {
    if !offset.is_multiple_of(4) {
        return Err(Refusal::ReservedBits);
    }
    let kind = if target.bus() == root_bus { type0 } else { type1 };
    let enables = Enables { last: 0, first: WHOLE };
    Packet::new(&fields(requester, tag, 1, Body::Configuration { kind, enables, target, register: offset / 4 }))
}

/// Lower address is that of a read's first byte, else 0.
fn completion(
    kind: CompletionKind,
    completer: Id,
    request: &Packet,
    length: u16,
    byte_count: u16,
) -> Result<Packet, Refusal> {
    let lower_address = match request.body() {
        Body::Memory { address, .. } => (address & 0x7F) as u8,
        _ => 0,
    };
    let body = Body::Completion { kind, completer, status: 0, bcm: false, byte_count, lower_address };
    Packet::new(&fields(request.requester(), request.tag(), length, body))
}
