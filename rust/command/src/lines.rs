//! What names add to a line. The words of each function are made once, and put together for each header: who sent it, who gets
//! it, which BAR holds its address and where in it, or what its number means.

use crate::json::{self, Object};
use crate::letters::{put_address, put_from, put_number, Padded};
use crate::logged::Logged;
use crate::members;
use crate::named::{is_io_bar, NamedSheet};
use crate::said::Said;
use cartsundial::{Owner, Refusal, Sender};

/// By record, from 1.
pub struct Titles {
    functions: Vec<Title>,
    /// By number.
    meanings: Vec<Padded>,
}

struct Title {
    /// `03:00.0 "capture"`, and with its record `4: 03:00.0 "capture"`.
    title: Padded,
    numbered: Padded,
    /// `"who": "function", "record": 4, "id": "03:00.0", "name": "capture"`.
    members: Padded,
    bars: Vec<Held>,
}

/// A BAR and the addresses that it holds.
struct Held {
    is_io: bool,
    first: u64,
    last: u64,
    slot: u8,
}

/// The address that a header goes by.
#[derive(Clone, Copy)]
struct Address {
    is_io: bool,
    address: u64,
}

impl Titles {
    pub fn new(named: &NamedSheet) -> Titles {
        let title = |function: cartsundial::Function| {
            let record = function.record;
            let held = |placed: cartsundial::PlacedBar| {
                let (range, slot) = (placed.range(), placed.slot);
                Held { is_io: is_io_bar(&placed), first: *range.start(), last: *range.end(), slot }
            };
            let title = named.title(&function);
            let mut members = Vec::new();
            json::line(&mut members, |line| {
                line.text("who", "function").number("record", record).shown("id", function.id);
                line.maybe("name", named.name(record));
            });
            let members = members.strip_prefix(b"{").and_then(|members| members.strip_suffix(b"}\n"));
            Title {
                title: Padded::new(title.as_bytes()),
                numbered: Padded::new(format!("{record}: {title}").as_bytes()),
                members: Padded::new(members.expect("an object on a line")),
                bars: function.bars().map(held).collect(),
            }
        };
        let most = Refusal::ALL.iter().map(|refusal| refusal.number()).max().unwrap_or(0);
        let meaning =
            |number: u8| Padded::new(Refusal::try_from(u32::from(number)).map_or("", Refusal::meaning).as_bytes());
        Titles { functions: named.sheet.functions().map(title).collect(), meanings: (0..=most).map(meaning).collect() }
    }

    fn function(&self, record: u16) -> Option<&Title> {
        self.functions.get(usize::from(record).checked_sub(1)?)
    }

    /// `no owner`.
    fn put_meaning(&self, number: u32, out: &mut Vec<u8>) {
        if let Some(meaning) = self.meanings.get(number as usize) {
            meaning.put(out);
        }
    }

    /// The BAR of a record that holds the header's address, and where in it.
    fn place(&self, record: u16, address: Option<Address>) -> Option<(u8, u64)> {
        let Address { is_io, address } = address?;
        let holds = |held: &&Held| held.is_io == is_io && held.first <= address && address <= held.last;
        let held = self.function(record)?.bars.iter().find(holds)?;
        Some((held.slot, address - held.first))
    }

    /// `4 MRd owner 6: 04:00.0 "larger capture", BAR 2 + 1000`: the line, and what goes on after it.
    pub fn owner(&self, said: &Said, header: &[u8], out: &mut Vec<u8>) {
        put_from(said.text, said.length, out);
        match said.to {
            Ok(Owner::Function(record)) => {
                if let Some(title) = self.function(record) {
                    out.extend_from_slice(b": ");
                    title.title.put(out);
                }
                self.put_place(record, address_of(header), out);
            }
            Ok(_) => {}
            Err(number) => {
                out.extend_from_slice(b": ");
                self.put_meaning(number, out);
            }
        }
        out.push(b'\n');
    }

    /// `4 MWr from 3: 03:00.0 "capture" to the host, 7F3A1000`.
    pub fn both(&self, said: &Said, header: &[u8], out: &mut Vec<u8>) {
        let front = said.number.len() + 1 + said.kind.len();
        put_from(said.text, front, out);
        if let Some(sender) = said.from {
            out.extend_from_slice(b" from ");
            match sender {
                Sender::Host => out.extend_from_slice(b"the host"),
                Sender::Record(record) => self.put_function(record, out),
            }
        }
        match said.to {
            Ok(owner) => self.put_to(owner, header, out),
            Err(number) => {
                out.extend_from_slice(b" refused ");
                put_number(number.into(), out);
                out.extend_from_slice(b": ");
                self.put_meaning(number, out);
            }
        }
        out.push(b'\n');
    }

    fn put_to(&self, owner: Owner, header: &[u8], out: &mut Vec<u8>) {
        out.extend_from_slice(b" to ");
        match owner {
            Owner::Function(record) => {
                self.put_function(record, out);
                self.put_place(record, address_of(header), out);
            }
            Owner::Host => {
                out.extend_from_slice(b"the host");
                if let Some(Address { address, .. }) = address_of(header) {
                    out.extend_from_slice(b", ");
                    put_address(address, out);
                }
            }
            Owner::Every => out.extend_from_slice(b"every function"),
            Owner::Port => out.extend_from_slice(b"the port"),
        }
    }

    fn put_function(&self, record: u16, out: &mut Vec<u8>) {
        if let Some(title) = self.function(record) {
            title.numbered.put(out);
        }
    }

    /// `, BAR 2 + 1000`.
    fn put_place(&self, record: u16, address: Option<Address>, out: &mut Vec<u8>) {
        if let Some((slot, offset)) = self.place(record, address) {
            out.extend_from_slice(b", BAR ");
            out.push(b'0' + slot);
            out.extend_from_slice(b" + ");
            put_address(offset, out);
        }
    }

    /// `{"number": 4, "kind": "MRd", "address": "248001000", "to": {..}, "bar": 2, "offset": "1000"}`.
    pub fn json(&self, said: &Said, header: &[u8], logged: Option<&Logged>, out: &mut Vec<u8>) {
        out.extend_from_slice(b"{\"number\": ");
        put_from(said.text, said.number.len(), out);
        if let Some(logged) = logged {
            members::logged(&mut Object::after(out), logged);
        }
        let address = match said.is_read() {
            false => {
                out.extend_from_slice(b", \"kind\": null");
                None
            }
            true => {
                out.extend_from_slice(b", \"kind\": \"");
                put_from(&said.text[said.number.len() + 1..], said.kind.len(), out);
                out.push(b'"');
                address_of(header)
            }
        };
        if let Some(Address { address, .. }) = address {
            out.extend_from_slice(b", \"address\": \"");
            put_address(address, out);
            out.push(b'"');
        }
        if let Some(sender) = said.from {
            out.extend_from_slice(b", \"from\": {");
            match sender {
                Sender::Host => out.extend_from_slice(b"\"who\": \"host\""),
                Sender::Record(record) => self.put_members(record, out),
            }
            out.push(b'}');
        }
        match said.to {
            Ok(owner) => self.put_json_to(owner, address, out),
            Err(number) => {
                out.extend_from_slice(b", \"refused\": ");
                put_number(number.into(), out);
                out.extend_from_slice(b", \"meaning\": \"");
                self.put_meaning(number, out);
                out.push(b'"');
            }
        }
        out.extend_from_slice(b"}\n");
    }

    fn put_json_to(&self, owner: Owner, address: Option<Address>, out: &mut Vec<u8>) {
        out.extend_from_slice(b", \"to\": {");
        match owner {
            Owner::Function(record) => self.put_members(record, out),
            Owner::Host => out.extend_from_slice(b"\"who\": \"host\""),
            Owner::Every => out.extend_from_slice(b"\"who\": \"all\""),
            Owner::Port => out.extend_from_slice(b"\"who\": \"port\""),
        }
        out.push(b'}');
        let Owner::Function(record) = owner else { return };
        if let Some((slot, offset)) = self.place(record, address) {
            out.extend_from_slice(b", \"bar\": ");
            out.push(b'0' + slot);
            out.extend_from_slice(b", \"offset\": \"");
            put_address(offset, out);
            out.push(b'"');
        }
    }

    fn put_members(&self, record: u16, out: &mut Vec<u8>) {
        if let Some(title) = self.function(record) {
            title.members.put(out);
        }
    }
}

/// Of a header that was read: of a memory or I/O request, and of a message that goes by an address.
fn address_of(header: &[u8]) -> Option<Address> {
    const MEMORY: u8 = 0b00000;
    const LOCKED: u8 = 0b00001;
    const IO: u8 = 0b00010;
    const MESSAGE_BY_ADDRESS: u8 = 0b10001;
    let kind = header.first()? & 0x1F;
    if !matches!(kind, MEMORY | LOCKED | IO | MESSAGE_BY_ADDRESS) {
        return None;
    }
    let address = match header[0] & 0x20 {
        0 => u64::from(u32::from_be_bytes(*header.get(8..)?.first_chunk()?)),
        _ => u64::from_be_bytes(*header.get(8..)?.first_chunk()?),
    };
    Some(Address { is_io: kind == IO, address })
}
