//! `decode`: a header in words.

use crate::arguments::{Arguments, Options};
use crate::failure::{Answer, Failure, Verdict};
use crate::full::{is_full, FULL};
use crate::json::{self, Object};
use crate::logged::{are_followed, headers_of, Logged};
use crate::output::Lines;
use crate::{members, words};
use cartsundial::{read, Body, Enables, Form, Packet, Routing};

pub const OPTIONS: Options = Options { flags: &["--json", FULL], ..Options::NONE };

pub const HELP: &str = "\
cartsundial decode [HEADER..]

Each header field by field; of one that is refused the number with its words, and its fields as far as its bytes go. Headers
are hexadecimal in any spacing; words of up to eight digits are one header together. With - or without any they come from
standard input, one to a line, or out of a log: lines with `TLP Header:` (dmesg), `TLP Header={..}` (the tracepoint) or
`HeaderLog:` (lspci -vv) are read, all others passed over.

  --json              an object a line in place of the words
  --full              of a log also the time, and the device that logged the header

What is not hexadecimal names a file: a trace, bytes or text; lines with a header each; or a log.
";

pub fn run(arguments: &Arguments) -> Answer {
    let mut lines = Lines::new(are_followed(&arguments.files));
    let answer = decoded(arguments, &mut lines);
    lines.end()?;
    answer
}

fn decoded(arguments: &Arguments, lines: &mut Lines) -> Answer {
    let mut are_all = true;
    for logged in headers_of(&arguments.files)? {
        let logged = logged?;
        are_all &= read(&logged.header).is_ok();
        match lines.add(&if arguments.has("--json") { json(&logged) } else { text(&logged) }) {
            Err(Failure::Closed) => break,
            added => added?,
        }
    }
    Ok(Verdict::of(are_all))
}

fn text(logged: &Logged) -> Vec<u8> {
    let mut text = words::described(&logged.header);
    for (name, value) in [("logged by", &logged.device), ("logged at", &logged.time)] {
        text += &value.as_ref().filter(|_| is_full()).map_or(String::new(), |value| format!("  {name:14} {value}\n"));
    }
    text.into_bytes()
}

fn json(logged: &Logged) -> Vec<u8> {
    let mut out = Vec::new();
    json::line(&mut out, |line| {
        members::bytes(line, "header", &logged.header);
        members::logged(line, logged);
        match read(&logged.header) {
            Ok(packet) => fields(line, &packet),
            Err(refusal) => {
                members::refusal(line, refusal);
                // A header that is not read has no numbers, only words for what its bytes are.
                line.object("words", |object| {
                    for (name, value) in words::fields(&logged.header) {
                        object.text(name, &value);
                    }
                });
            }
        }
    });
    out
}

/// A packet's fields: numbers, IDs as text, addresses in hexadecimal.
fn fields(line: &mut Object, packet: &Packet) {
    let dwords: u8 = if packet.form() == Form::ThreeDwords { 3 } else { 4 };
    line.shown("kind", packet.kind()).number("dwords", dwords);
    line.number("tc", packet.tc()).number("attr", packet.attr()).number("at", packet.at());
    line.flag("td", packet.td()).flag("ep", packet.ep()).number("length", packet.length());
    line.shown("requester", packet.requester()).number("tag", packet.tag());
    match packet.body() {
        Body::Memory { enables, address, .. } => {
            byte_enables(line, enables);
            line.address("address", address);
        }
        Body::Io { enables, address, .. } => {
            byte_enables(line, enables);
            line.address("address", address.into());
        }
        Body::Configuration { enables, target, register, .. } => {
            byte_enables(line, enables);
            line.shown("target", target).number("register", 4 * register);
        }
        Body::Completion { completer, status, bcm, byte_count, lower_address, .. } => {
            line.shown("completer", completer).number("status", status).flag("bcm", bcm);
            line.number("byte_count", byte_count).number("lower_address", lower_address);
        }
        Body::Message { routing, code, tail, .. } => {
            line.number("routing", routing.number()).number("code", code);
            match routing {
                Routing::ByAddress => line.address("address", tail),
                Routing::ById => line.shown("target", cartsundial::Id((tail >> 48) as u16)),
                _ => line.address("tail", tail),
            };
        }
    }
}

fn byte_enables(line: &mut Object, enables: Enables) {
    line.number("first_be", enables.first).number("last_be", enables.last);
}
