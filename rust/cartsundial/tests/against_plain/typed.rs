//! Numbers and the Rust types, one made of the other without the library.

use cartsundial::calls::PACKET;
use cartsundial::{
    Arrival, Body, CompletionKind, ConfigurationKind, Delivery, Enables, Fields, Form, Id, IoKind, MemoryKind,
    MessageKind, Packet, Routing, Sender,
};

/// The ten numbers that every kind has, each from its own method.
pub fn common(packet: &Packet) -> [u64; 10] {
    [
        packet.kind() as u64,
        packet.form() as u64,
        packet.tc().into(),
        packet.attr().into(),
        packet.td().into(),
        packet.ep().into(),
        packet.at().into(),
        packet.length().into(),
        packet.requester().0.into(),
        packet.tag().into(),
    ]
}

/// 0 is the host.
pub fn sender_number(sender: Sender) -> u64 {
    match sender {
        Sender::Host => 0,
        Sender::Record(record) => record.into(),
    }
}

/// Whether both say the same of a packet that was routed over this sheet, or have the same number.
pub fn same_answer(
    typed: Result<Arrival, cartsundial::Refusal>,
    answer: Result<plain::Arrival, u8>,
    sheet: &[u8],
) -> bool {
    match (typed, answer) {
        (Ok(arrival), Ok(answer)) => same(&arrival, &answer, sheet),
        (Err(refusal), Err(number)) => refusal.number() == number,
        _ => false,
    }
}

/// Whether both say the same of a packet that was routed over this sheet.
pub fn same(arrival: &Arrival, answer: &plain::Arrival, sheet: &[u8]) -> bool {
    let packet = match (*arrival, answer) {
        (
            Arrival::Function(Delivery { record, id, bridges, .. }),
            plain::Arrival::Function { record: owner, bridges: crossed, packet },
        ) => {
            let same = (record, bridges) == (*owner, *crossed) && plain::id_of(sheet, record.into()) == Ok(id.0);
            same.then_some(packet)
        }
        (Arrival::Host { bridges, .. }, plain::Arrival::Host { bridges: crossed, packet }) => {
            (bridges == *crossed).then_some(packet)
        }
        (Arrival::Every { functions, .. }, plain::Arrival::Every { functions: count, packet }) => {
            (functions == *count).then_some(packet)
        }
        (Arrival::Port { .. }, plain::Arrival::Port { packet }) => Some(packet),
        _ => None,
    };
    packet.is_some_and(|packet| arrival.packet().to_numbers() == plain::to_numbers(packet))
}

/// The fields that these numbers are. `None` where the kind and form are not carried, or where a number does not fit its
/// Rust type or stands in a field that the kind does not have.
pub fn fields(numbers: &[u64; PACKET]) -> Option<Fields> {
    let [kind, form, tc, attr, td, ep, at, length, requester, tag, own @ ..] = *numbers;
    Some(Fields {
        tc: tc.try_into().ok()?,
        attr: attr.try_into().ok()?,
        td: bit(td)?,
        ep: bit(ep)?,
        at: at.try_into().ok()?,
        length: length.try_into().ok()?,
        requester: id(requester)?,
        tag: tag.try_into().ok()?,
        body: body(kind, form, own)?,
    })
}

fn body(kind: u64, form: u64, own: [u64; 10]) -> Option<Body> {
    let [last, first, address, target, register, completer, status, bcm, byte_count, lower_address] = own;
    let enables = || Some(Enables { last: last.try_into().ok()?, first: first.try_into().ok()? });
    let none = |absent: &[u64]| absent.iter().all(|&number| number == 0).then_some(());
    match (kind, form) {
        (0..=2, 3 | 4) => {
            none(&own[3..])?;
            let kind = [MemoryKind::MRd, MemoryKind::MRdLk, MemoryKind::MWr][kind as usize];
            let form = if form == 3 { Form::ThreeDwords } else { Form::FourDwords };
            Some(Body::Memory { kind, form, enables: enables()?, address })
        }
        (3..=4, 3) => {
            none(&own[3..])?;
            let kind = [IoKind::IORd, IoKind::IOWr][kind as usize - 3];
            Some(Body::Io { kind, enables: enables()?, address: address.try_into().ok()? })
        }
        (5..=8, 3) => {
            none(&own[5..])?;
            none(&[address])?;
            use ConfigurationKind::*;
            let kind = [CfgRd0, CfgWr0, CfgRd1, CfgWr1][kind as usize - 5];
            let register = register.try_into().ok()?;
            Some(Body::Configuration { kind, enables: enables()?, target: id(target)?, register })
        }
        (9..=12, 3) => {
            none(&own[..5])?;
            use CompletionKind::*;
            Some(Body::Completion {
                kind: [Cpl, CplD, CplLk, CplDLk][kind as usize - 9],
                completer: id(completer)?,
                status: status.try_into().ok()?,
                bcm: bit(bcm)?,
                byte_count: byte_count.try_into().ok()?,
                lower_address: lower_address.try_into().ok()?,
            })
        }
        (13..=14, 4) => {
            none(&own[3..])?;
            use Routing::*;
            let kind = [MessageKind::Msg, MessageKind::MsgD][kind as usize - 13];
            let routing = *[ToRoot, ByAddress, ById, Broadcast, Local, Gathered].get(usize::try_from(last).ok()?)?;
            Some(Body::Message { kind, routing, code: first.try_into().ok()?, tail: address })
        }
        _ => None,
    }
}

fn id(number: u64) -> Option<Id> {
    number.try_into().ok().map(Id)
}

fn bit(number: u64) -> Option<bool> {
    match number {
        0 => Some(false),
        1 => Some(true),
        _ => None,
    }
}
