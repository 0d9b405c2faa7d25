//! A header in words, field by field: also of one that is refused, as far as its bytes go.

use crate::hexadecimal::dwords;
use cartsundial::{read, Id, Packet, Refusal};
use std::fmt::Write;

/// What Fmt and Type say, carried or not: the name, and what it is.
fn pair(byte0: u8) -> Option<(&'static str, &'static str)> {
    let is_write = byte0 & 0x40 != 0;
    Some(match (byte0 & 0x1F, is_write) {
        _ if byte0 >> 5 == 0b100 => ("prefix", "a TLP prefix, which is not carried"),
        _ if byte0 >> 5 > 0b100 => return None,
        (0b00000, false) => ("MRd", "memory read"),
        (0b00000, true) => ("MWr", "memory write"),
        (0b00001, false) => ("MRdLk", "locked memory read"),
        (0b00010, false) => ("IORd", "I/O read"),
        (0b00010, true) => ("IOWr", "I/O write"),
        (0b00100, false) => ("CfgRd0", "configuration read, type 0"),
        (0b00100, true) => ("CfgWr0", "configuration write, type 0"),
        (0b00101, false) => ("CfgRd1", "configuration read, type 1"),
        (0b00101, true) => ("CfgWr1", "configuration write, type 1"),
        (0b01010, false) => ("Cpl", "completion without data"),
        (0b01010, true) => ("CplD", "completion with data"),
        (0b01011, false) => ("CplLk", "completion of a locked read, without data"),
        (0b01011, true) => ("CplDLk", "completion of a locked read, with data"),
        (0b01100, true) => ("FetchAdd", "AtomicOp, which is not carried"),
        (0b01101, true) => ("Swap", "AtomicOp, which is not carried"),
        (0b01110, true) => ("CAS", "AtomicOp, which is not carried"),
        (0b10000..=0b10111, false) => ("Msg", "message without data"),
        (0b10000..=0b10111, true) => ("MsgD", "message with data"),
        _ => return None,
    })
}

/// What follows byte 3, by Type.
#[derive(Clone, Copy, PartialEq, Eq)]
enum Class {
    Address,
    Configuration,
    Completion,
    Message,
    Other,
}

fn class(byte0: u8) -> Class {
    match byte0 & 0x1F {
        _ if byte0 >> 5 > 0b011 => Class::Other,
        0b00000..=0b00010 | 0b01100..=0b01110 => Class::Address,
        0b00100 | 0b00101 => Class::Configuration,
        0b01010 | 0b01011 => Class::Completion,
        0b10000..=0b10111 => Class::Message,
        _ => Class::Other,
    }
}

/// Where a header goes in one line: kind, and what it goes by.
pub fn title(packet: &Packet) -> String {
    let header = packet.header();
    let rest = match class(header[0]) {
        Class::Address => format!(" {:X}", address(header)),
        Class::Configuration => format!(" {} register {:02X}h", Id(word(header, 8)), word(header, 10) & 0xFFC),
        Class::Completion => format!(" for {} tag {:02X}", packet.requester(), packet.tag()),
        _ => format!(" code {:02X}{}", header[7], message(header[7])),
    };
    format!("{}{rest}", packet.kind())
}

/// The verdict and the fields, each on its line.
pub fn described(header: &[u8]) -> String {
    let verdict = match read(header) {
        Ok(_) => "accepted".to_string(),
        Err(refusal) => refusal.to_string(),
    };
    let mut text = format!("{}: {verdict}\n", dwords(&header[..header.len().min(16)]));
    for (name, value) in fields(header) {
        let _ = writeln!(text, "  {name:14} {value}");
    }
    text
}

pub type Fields = Vec<(&'static str, String)>;

/// The fields that the bytes reach to.
pub fn fields(header: &[u8]) -> Fields {
    let mut fields = Fields::new();
    let Some(&byte0) = header.first() else { return fields };
    let known =
        pair(byte0).map_or("no known pair of Fmt and Type".to_string(), |(name, what)| format!("{name}, {what}"));
    fields.push(("kind", known));
    fields.push(("Fmt, Type", format!("{:03b} {:05b}: {} dwords", byte0 >> 5, byte0 & 0x1F, 3 + (byte0 >> 5 & 1))));
    if class(byte0) == Class::Other {
        return fields;
    }
    if header.len() >= 4 {
        common(header, &mut fields);
    }
    match class(byte0) {
        _ if header.len() < 8 => {}
        Class::Completion => completion(header, &mut fields),
        Class::Message => sent_message(header, &mut fields),
        is => request(header, is, &mut fields),
    }
    fields
}

/// Bytes 1 to 3.
fn common(header: &[u8], fields: &mut Fields) {
    let [byte1, byte2] = [header[1], header[2]];
    let attr = byte1 & 4 | byte2 >> 4 & 3;
    fields.push(("TC, Attr, AT", format!("{}, {attr:03b}, {:02b}", byte1 >> 4 & 7, byte2 >> 2 & 3)));
    if byte2 & 0xC0 != 0 {
        let both = [(0x80, "TD, a digest follows"), (0x40, "EP, poisoned")];
        let set = both.iter().filter(|(bit, _)| byte2 & bit != 0).map(|(_, what)| *what).collect::<Vec<_>>();
        fields.push(("flags", set.join("; ")));
    }
    if byte1 & 0x03 != 0 {
        fields.push((
            "reserved",
            format!("byte 1 has bits {:02b} in 1:0, which are 0 in a header that is carried", byte1 & 3),
        ));
    }
    let code = word(header, 2) & 0x3FF;
    let has_none = matches!(header[0], 0x0A | 0x0B | 0x30..=0x37);
    let length = match code {
        0 if has_none => "none".to_string(),
        0 => "1024 dwords (code 0)".to_string(),
        1 => "1 dword".to_string(),
        code => format!("{code} dwords"),
    };
    fields.push(("Length", length));
}

/// Memory, I/O and configuration requests from byte 4 on.
fn request(header: &[u8], class: Class, fields: &mut Fields) {
    fields.push(("requester", Id(word(header, 4)).to_string()));
    fields.push(("tag", tag(header, header[6])));
    fields.push(("byte enables", format!("first {:04b}, last {:04b}", header[7] & 0xF, header[7] >> 4)));
    if header.len() < length_of(header) {
        return;
    }
    if class == Class::Configuration {
        fields.push(("target", Id(word(header, 8)).to_string()));
        fields.push(("register", format!("{:03X}h", word(header, 10) & 0xFFC)));
    } else {
        fields.push(("address", format!("{:X}", address(header))));
    }
}

fn completion(header: &[u8], fields: &mut Fields) {
    let status = header[6] >> 5;
    let word_of = match status {
        0b000 => "successful",
        0b001 => "unsupported request",
        0b010 => "configuration request retry",
        0b100 => "completer abort",
        _ => "no known status",
    };
    fields.push(("completer", Id(word(header, 4)).to_string()));
    fields.push(("status", format!("{status:03b}, {word_of}")));
    fields.push((
        "byte count",
        format!("{}{}", word(header, 6) & 0xFFF, if header[6] & 0x10 != 0 { ", BCM" } else { "" }),
    ));
    if header.len() >= 12 {
        fields.push(("requester", Id(word(header, 8)).to_string()));
        fields.push(("tag", tag(header, header[10])));
        fields.push(("lower address", format!("{:02X}", header[11] & 0x7F)));
    }
}

fn sent_message(header: &[u8], fields: &mut Fields) {
    let routing = header[0] & 7;
    let way = ["to the root complex", "by address", "by ID", "broadcast to all", "local, to the next port", "gathered"];
    let way = way.get(usize::from(routing)).copied().unwrap_or("no known routing");
    fields.push(("routing", format!("{routing:03b}, {way}")));
    fields.push(("requester", Id(word(header, 4)).to_string()));
    fields.push(("tag", tag(header, header[6])));
    fields.push(("code", format!("{:02X}{}", header[7], message(header[7]))));
    if header.len() >= 16 {
        fields.push(match routing {
            0b001 => ("address", format!("{:X}", address(header))),
            0b010 => ("target", Id(word(header, 8)).to_string()),
            _ => ("bytes 8 to 15", dwords(&header[8..16])),
        });
    }
}

/// The names of the codes that are met most.
fn message(code: u8) -> &'static str {
    match code {
        0x00 => " Unlock",
        0x14 => " PM_Active_State_Nak",
        0x18 => " PM_PME",
        0x19 => " PME_Turn_Off",
        0x1B => " PME_TO_Ack",
        0x20 => " Assert_INTA",
        0x21 => " Assert_INTB",
        0x22 => " Assert_INTC",
        0x23 => " Assert_INTD",
        0x24 => " Deassert_INTA",
        0x25 => " Deassert_INTB",
        0x26 => " Deassert_INTC",
        0x27 => " Deassert_INTD",
        0x30 => " ERR_COR",
        0x31 => " ERR_NONFATAL",
        0x33 => " ERR_FATAL",
        0x50 => " Set_Slot_Power_Limit",
        0x7E => " Vendor_Defined, type 0",
        0x7F => " Vendor_Defined, type 1",
        _ => "",
    }
}

/// All ten bits.
fn tag(header: &[u8], low: u8) -> String {
    let byte1 = u16::from(header[1]);
    format!("{:02X}", (byte1 & 0x80) << 2 | (byte1 & 0x08) << 5 | u16::from(low))
}

fn length_of(header: &[u8]) -> usize {
    if header[0] & 0x20 == 0 {
        12
    } else {
        16
    }
}

fn word(header: &[u8], at: usize) -> u16 {
    u16::from_be_bytes([header[at], header[at + 1]])
}

/// 32 or 64 bits by the form; a message's are 64.
fn address(header: &[u8]) -> u64 {
    header[8..length_of(header)].iter().fold(0, |number, &byte| number << 8 | u64::from(byte))
}

/// `refused 40: no owner`, shorter for lists: `40 no owner`.
pub fn short(refusal: Refusal) -> String {
    format!("{} {}", refusal.number(), refusal.meaning())
}

#[cfg(test)]
mod tests {
    use super::*;
    use cartsundial::{Body, Kind};

    /// What is said of a lawful header is what the packet has.
    #[test]
    fn the_packets_fields() {
        let mut seen = 0;
        for (byte0, kind) in (0..=255).flat_map(|byte0| Kind::ALL.map(|kind| (byte0, kind))) {
            let header = [byte0, 0, 0, 1, 0x12, 0x34, 0x21, 0x0F, 0, 0, 0, 2, 0xF9, 0, 0x0F, 0xFC];
            let header =
                if byte0 & 0x20 == 0 { [&header[..8], &[0xF9, 0, 0x04, 0x7C]].concat() } else { header.to_vec() };
            let Some(packet) = read(&header).ok().filter(|packet| packet.kind() == kind) else { continue };
            let fields = fields(&header);
            let has = |name: &str, value: String| {
                assert!(fields.contains(&(name, value.clone())), "{name} {value} {fields:?}")
            };
            assert!(fields[0].1.starts_with(&format!("{kind},")), "{fields:?}");
            has("requester", packet.requester().to_string());
            has("tag", format!("{:02X}", packet.tag()));
            match packet.body() {
                Body::Memory { address, .. } => has("address", format!("{address:X}")),
                Body::Io { address, .. } => has("address", format!("{address:X}")),
                Body::Configuration { target, .. } => has("target", target.to_string()),
                Body::Completion { completer, .. } => has("completer", completer.to_string()),
                Body::Message { code, .. } => has("code", format!("{code:02X}")),
            }
            seen += 1;
        }
        assert!(seen >= 15, "{seen}");
    }

    /// Any bytes have a description.
    #[test]
    fn any_bytes() {
        for byte0 in 0..=255 {
            for length in 0..17 {
                let text = described(&[byte0; 16][..length]);
                assert!(text.contains("refused") || text.contains("accepted"));
            }
        }
    }
}
