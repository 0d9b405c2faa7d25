//! `export`: a sheet as an lspci dump with sizes, which `lspci -F` shows.

use crate::arguments::{Arguments, Options};
use crate::failure::{print, Answer, Verdict};
use crate::full::{is_full, FULL};
use crate::named::{is_io_bar, NamedSheet};
use crate::source::Source;
use cartsundial::{BarKind, Function, PlacedBar, Size, REGISTERS};
use std::fmt::Write;

pub const OPTIONS: Options = Options { flags: &[FULL], ..Options::NONE };

/// The class code: programming interface, subclass, class.
const CLASS: usize = 0x09;
const BRIDGE: [u8; 3] = [0x00, 0x04, 0x06];
const CARD: [u8; 3] = [0x00, 0x00, 0xFF];

pub const HELP: &str = "\
cartsundial export SHEET

The sheet, or the plan of a board, as an lspci dump: each function's 64 register bytes, and the sizes of its BARs. lspci -F
shows it.

  --full              a function without a class code, as on every planned sheet, gets one: a bridge 060400, a card FF0000, of no
                      defined class, so that lspci -t -F draws the tree. After an ID stands the name alone; cartsundial import
                      then keeps names, and the order of the records
";

/// The first line of a dump with names, which lspci passes over: `import` then keeps the order, and takes what follows an ID for the name.
pub const MARK: &str = "# cartsundial export: names, and records in their order";

/// Where a dump has no name.
pub const UNNAMED: &str = "-";

pub fn run(arguments: &Arguments) -> Answer {
    let [name] = arguments.exactly(["SHEET"])?;
    print(dump(&Source::read(name)?.into_sheet()?))?;
    Ok(Verdict::Accepted)
}

pub fn dump(named: &NamedSheet) -> String {
    let mut text = if is_full() { format!("{MARK}\n") } else { String::new() };
    for function in named.sheet.functions() {
        let id = function.id.to_string().to_ascii_lowercase();
        let _ = writeln!(text, "{id} {}", called(named, &function));
        for placed in function.bars() {
            let _ = writeln!(text, "\tRegion {}: {} [size={}]", placed.slot, region(&placed), Size(placed.bar.size));
        }
        for (row, bytes) in registers(&function).chunks(16).enumerate() {
            let bytes: Vec<String> = bytes.iter().map(|byte| format!("{byte:02x}")).collect();
            let _ = writeln!(text, "{:02x}: {}", 16 * row, bytes.join(" "));
        }
        text.push('\n');
    }
    text
}

/// lspci has a function's class and model there, and so has the name of a function that came from lspci. A sheet that was
/// planned has neither, so it is what it is called.
fn called(named: &NamedSheet, function: &Function) -> String {
    let kind = if function.is_bridge() { "PCI bridge" } else { "Device" };
    match named.name(function.record) {
        name if is_full() => name.unwrap_or(UNNAMED).to_string(),
        Some(name) if name.contains(": ") => name.to_string(),
        Some(name) => format!("{kind}: {name}"),
        None => format!("{kind}: unnamed"),
    }
}

fn registers(function: &Function) -> [u8; REGISTERS] {
    if is_full() {
        with_class(function)
    } else {
        *function.registers
    }
}

/// Without its class code lspci takes no bridge for one, and draws nothing below it.
fn with_class(function: &Function) -> [u8; REGISTERS] {
    let mut registers = *function.registers;
    let class = &mut registers[CLASS..CLASS + 3];
    if class == [0; 3] {
        class.copy_from_slice(if function.is_bridge() { &BRIDGE } else { &CARD });
    }
    registers
}

fn region(placed: &PlacedBar) -> String {
    if is_io_bar(placed) {
        return format!("I/O ports at {:04x}", placed.start);
    }
    let (width, kind) = match placed.bar.kind {
        BarKind::Memory64 => (64, "non-prefetchable"),
        BarKind::Memory64Prefetchable => (64, "prefetchable"),
        BarKind::Memory32Prefetchable => (32, "prefetchable"),
        _ => (32, "non-prefetchable"),
    };
    format!("Memory at {:08x} ({width}-bit, {kind})", placed.start)
}
