//! The members that objects of JSON have in common, so that `label`, `ledger`, `route` and `diff` call one thing by one name.

use crate::json::Object;
use crate::logged::Logged;
use crate::named::{address_of, holder, NamedSheet};
use cartsundial::{Function, Owner, Packet, Refusal, Sender};

/// `"header": "400000010000020FF8100010"`: bytes in hexadecimal.
pub fn bytes(object: &mut Object, name: &str, bytes: &[u8]) {
    let digits: String = bytes.iter().map(|byte| format!("{byte:02X}")).collect();
    object.text(name, &digits);
}

/// What a log says beside a header: `"time"` and `"device"`, where it says it.
pub fn logged(object: &mut Object, logged: &Logged) {
    for (name, value) in [("time", &logged.time), ("device", &logged.device)] {
        if let Some(text) = value {
            object.text(name, text);
        }
    }
}

/// `"refused": 40, "meaning": "no owner"`.
pub fn refusal(object: &mut Object, refusal: Refusal) {
    object.number("refused", refusal.number()).text("meaning", refusal.meaning());
}

/// `"record": 4, "id": "03:00.0", "name": "capture"`; the name is null where there is none.
pub fn function(object: &mut Object, function: &Function, named: &NamedSheet) {
    object.number("record", function.record).shown("id", function.id).maybe("name", named.name(function.record));
}

/// `"to": {"who": "function", "record": 4, ..}`, `{"who": "host"}`, `{"who": "all"}` or `{"who": "port"}`.
pub fn to(object: &mut Object, owner: Owner, named: &NamedSheet) {
    object.object("to", |to| match owner {
        Owner::Function(record) => who(to, record, named),
        Owner::Host => no_function(to, "host"),
        Owner::Every => no_function(to, "all"),
        Owner::Port => no_function(to, "port"),
    });
}

/// The same for `"from"`.
pub fn from(object: &mut Object, sender: Sender, named: &NamedSheet) {
    object.object("from", |from| match sender {
        Sender::Record(record) => who(from, record, named),
        Sender::Host => no_function(from, "host"),
    });
}

fn no_function(object: &mut Object, word: &str) {
    object.text("who", word);
}

fn who(object: &mut Object, record: u16, named: &NamedSheet) {
    object.text("who", "function");
    if let Some(found) = named.sheet.record(record) {
        function(object, &found, named);
    }
}

/// `"bar": 0, "offset": "10"`, of a packet that goes to a record by its address.
pub fn place(object: &mut Object, record: u16, packet: &Packet, named: &NamedSheet) {
    if let Some((slot, offset)) = holder(named, record, packet) {
        object.number("bar", slot).address("offset", offset);
    }
}

/// `"address": "F8100010"`, of a packet that goes by one.
pub fn address(object: &mut Object, packet: &Packet) {
    if let Some((_, address)) = address_of(packet) {
        object.address("address", address);
    }
}
