//! The functions of `lspci -vvx`. Registers come from the hexadecimal lines, never from the text, which is the kernel's
//! opinion; sizes from its `Region` lines. What is not whole is told of its function, and what belongs to none refuses the text.

use super::found::{read_address, Found, Region, Window, BUSES, COMMAND, REGIONS, ROW};
use crate::export::{MARK, UNNAMED};
use crate::failure::Failure;
use cartsundial::{BarKind, Size, REGISTERS};

/// One tab: with two it is a BAR of virtual functions, inside a capability.
const REGION: &str = "\tRegion ";

/// With -v every function has such a line, unless its header is of no known type.
const CONTROL: &str = "\tControl: ";
const BUS: &str = "\tBus: ";
const UNKNOWN_TYPE: &str = "\t!!! Unknown header type ";

/// The functions of a text, and what of -v its lines have.
#[derive(Default)]
struct Listing {
    functions: Vec<Entry>,
    is_inside: bool,
    /// It is what `export` wrote, in the order of its records and with their names.
    is_own: bool,
}

struct Entry {
    found: Found,
    /// A line that starts with a tab, which there is with -v only.
    has_details: bool,
    has_control: bool,
}

/// `called` is the text's name, for what refuses it.
pub fn read(called: &str, text: &str) -> Result<Vec<Found>, Failure> {
    let mut listing = Listing::default();
    for (number, line) in (1..).zip(text.lines()) {
        let line = &with_tabs(line);
        let stray = |what: String| {
            Failure::Refused(format!("{called}, line {number}: {what}; give `lspci -vvx`, as root, whole"))
        };
        listing.read_line(line).map_err(stray)?;
    }
    let is_cut = |line: &&str| line.bytes().all(|byte| byte.is_ascii_hexdigit() || matches!(byte, b':' | b'.'));
    let last = text.lines().last().filter(|line| !text.ends_with('\n') && !line.is_empty());
    if let Some(line) = last.filter(is_cut).filter(|_| !listing.is_inside && !listing.functions.is_empty()) {
        return Err(Failure::Refused(format!("{called}: it is cut in its last line, `{line}`: give it whole")));
    }
    Ok(listing.finished())
}

/// A terminal or a letter may have made eight spaces of a tab.
fn with_tabs(line: &str) -> String {
    let text = line.trim_start_matches(' ');
    let spaces = line.len() - text.len();
    format!("{}{}{text}", "\t".repeat(spaces / 8), " ".repeat(spaces % 8))
}

impl Listing {
    /// What is wrong is a line that belongs to no function.
    fn read_line(&mut self, line: &str) -> Result<(), String> {
        let first = line.split(' ').next().unwrap_or("");
        self.is_own |= line == MARK && self.functions.is_empty();
        if let Some((domain, id)) = read_address(first) {
            let name = line[first.len()..].split(" (prog-if").next().unwrap_or("").trim();
            let name = if self.is_own && name == UNNAMED { "" } else { name };
            let order = self.is_own.then_some(self.functions.len());
            let found = Found { order, ..Found::new(domain, id, name) };
            self.functions.push(Entry { found, has_details: false, has_control: false });
            self.is_inside = true;
        } else if line.trim().is_empty() || line.starts_with("===") {
            self.is_inside = false;
        } else if let Some(entry) = self.functions.last_mut().filter(|_| self.is_inside) {
            entry.read_line(line);
        } else if line.starts_with(REGION) || read_row(line).is_some() {
            let before = self.functions.last().map_or(String::new(), |entry| format!(" after {}", entry.found.title()));
            return Err(format!("a line of no function{before}: the one with its ID is missing"));
        }
        Ok(())
    }

    /// A text without any line of -v says nothing of BARs, and one with them has them for every function.
    fn finished(self) -> Vec<Found> {
        let has_details = self.functions.iter().any(|entry| entry.has_details);
        let has_control = self.functions.iter().any(|entry| entry.has_control);
        let has_bar = |found: &Found| (0..found.slots()).any(|slot| found.bar(slot) != 0);
        let has_bars = self.functions.iter().any(|entry| has_bar(&entry.found));
        let mut functions = Vec::new();
        for Entry { mut found, has_control: has_own, .. } in self.functions {
            found.is_bare = !has_details && has_bars;
            if has_control && !has_own && found.is_whole() && !found.is_gone() {
                found.lacks("its line `Control:` of -vv is missing, and so others may be");
            }
            functions.push(found);
        }
        functions
    }
}

impl Entry {
    fn read_line(&mut self, line: &str) {
        self.has_details |= line.starts_with('\t');
        self.has_control |= line.starts_with(CONTROL) || line.starts_with(UNKNOWN_TYPE);
        let found = &mut self.found;
        found.said.extend(line.strip_prefix(CONTROL).map(read_control));
        found.said.extend(line.strip_prefix(BUS).into_iter().flat_map(read_buses));
        if let Some(rest) = line.strip_prefix(REGION) {
            if let Some((number, region)) = read_region(rest) {
                if found.regions[number].is_some_and(|other| other != region) {
                    found.lacks(format!("two lines `Region {number}:` are not alike"));
                }
                found.regions[number] = Some(region);
            }
        } else if let Some(window) = read_no_window(line) {
            found.windows[window] = Window::None;
        } else if let Some((offset, bytes)) = read_row(line).filter(|(offset, _)| *offset < REGISTERS) {
            if found.rows[offset / ROW] {
                found.lacks(format!("its line `{offset:02x}:` is there twice"));
            }
            found.rows[offset / ROW] = true;
            found.registers[offset..offset + ROW].copy_from_slice(&bytes);
        }
    }
}

/// `I/O+ Mem+ BusMaster- ..`, of the command register, which is read once for text and bytes.
fn read_control(rest: &str) -> (usize, u8, u8) {
    let bits = ["I/O+ ", "Mem+ ", "BusMaster+ "].iter().enumerate();
    (COMMAND, 0b111, bits.map(|(bit, word)| u8::from(rest.contains(word)) << bit).sum())
}

/// `primary=00, secondary=01, subordinate=06, sec-latency=0`.
fn read_buses(rest: &str) -> Vec<(usize, u8, u8)> {
    let number = |word: &str| u8::from_str_radix(rest.split_once(word)?.1.get(..2)?, 16).ok();
    let words = ["primary=", "secondary=", "subordinate="].iter().enumerate();
    words.filter_map(|(at, word)| Some((BUSES + at, 0xFF, number(word)?))).collect()
}

/// Which window a line says that there is none of. It is the kernel's word where the registers say something else; a range
/// may be lspci's reading of the registers.
fn read_no_window(line: &str) -> Option<usize> {
    let (kind, range) = line.strip_prefix('\t')?.split_once(" behind bridge: ")?;
    let is_none = range.starts_with("[disabled]") || range.starts_with("None");
    ["I/O", "Memory", "Prefetchable memory"].iter().position(|window| *window == kind).filter(|_| is_none)
}

/// `10: 00 00 ..`: where it starts, and its 16 bytes of two digits each. Further than 256 bytes an offset has three digits.
fn read_row(line: &str) -> Option<(usize, [u8; ROW])> {
    let (offset, rest) = line.split_once(": ")?;
    let number = |text: &str| {
        usize::from_str_radix(text, 16).ok().filter(|_| text.bytes().all(|digit| digit.is_ascii_hexdigit()))
    };
    let offset = number(offset).filter(|start| (2..=3).contains(&offset.len()) && start.is_multiple_of(ROW))?;
    let byte = |word: &str| number(word).filter(|_| word.len() == 2).map(|byte| byte as u8);
    let bytes: Option<Vec<u8>> = rest.split_whitespace().map(byte).collect();
    Some((offset, bytes?.try_into().ok()?))
}

/// `0: Memory at f8000000 (32-bit, non-prefetchable) [size=4K]`.
fn read_region(rest: &str) -> Option<(usize, Region)> {
    let (number, rest) = rest.split_once(':')?;
    let number = number.parse().ok().filter(|number| *number < REGIONS)?;
    let (_, size) = rest.split_once("[size=")?;
    let Size(size) = size.split_once(']')?.0.parse().ok()?;
    let (what, address) = rest.split_once(" at ")?;
    let address = u64::from_str_radix(address.split(' ').next()?, 16).ok();
    let kind = if what.ends_with("I/O ports") { Some(BarKind::Io) } else { read_kind(rest) };
    Some((number, Region { size, address: address.filter(|address| *address != 0), kind }))
}

fn read_kind(region: &str) -> Option<BarKind> {
    let words = region.split_once('(')?.1.split_once(')')?.0;
    Some(match words {
        "32-bit, non-prefetchable" => BarKind::Memory32,
        "32-bit, prefetchable" => BarKind::Memory32Prefetchable,
        "64-bit, non-prefetchable" => BarKind::Memory64,
        "64-bit, prefetchable" => BarKind::Memory64Prefetchable,
        _ => return None,
    })
}

#[cfg(test)]
mod tests {
    use super::*;

    #[test]
    fn lines() {
        let text = "00:02.0 PCI bridge: Red Hat, Inc. \"port\"\r\n\
                    \tRegion 0: Memory at 20900000 (32-bit, non-prefetchable) [size=4K]\r\n\
                    \t\tRegion 2: Memory at 20900000 (64-bit, non-prefetchable) [size=16K]\r\n\
                    \tRegion 4: I/O ports at <unassigned> [disabled] [size=64]\r\n\
                    00: 86 80 c0 29 07 00 00 00 00 00 04 06 00 00 01 00\r\n\
                    40: 86 80 c0 29 07 00 00 00 00 00 04 06 00 00 01 00\r\n\
                    100: 86 80 c0 29 07 00 00 00 00 00 04 06 00 00 01 00\r\n\r\n\
                    10000:e1:00.0 0108: 8086:0a54\r\n";
        let [bridge, drive] = &read("", text).unwrap()[..] else { panic!("two functions") };
        assert_eq!((bridge.title(), &bridge.name[..]), ("0000:00:02.0".into(), "PCI bridge: Red Hat, Inc. 'port'"));
        let region = |size, address, kind| Some(Region { size, address, kind });
        assert_eq!(bridge.regions[0], region(4096, Some(0x2090_0000), Some(BarKind::Memory32)));
        assert_eq!(bridge.regions[2], None);
        assert_eq!(bridge.regions[4], region(64, None, Some(BarKind::Io)));
        assert!(bridge.is_bridge() && bridge.rows == [true, false, false, false]);
        assert_eq!((drive.domain, drive.id.0, drive.rows), (0x10000, 0xE100, [false; 4]));
    }

    /// A row is whole or none; so is a size.
    #[test]
    fn cut_lines() {
        let row = "10: 00 00 e0 fd 00 00 00 00 00 01 01 00 c0 c0 00 0f";
        assert_eq!(read_row(row).map(|row| row.0), Some(16));
        assert!((0..row.len()).all(|length| read_row(&row[..length]).is_none()));
        assert!(read_row(&row.replace("e0", "e")).is_none() && read_row(&format!("{row} 00")).is_none());
        let region = "0: Memory at f8000000 (32-bit, non-prefetchable) [size=64K]";
        assert!((0..region.len()).all(|length| read_region(&region[..length]).is_none()));
        assert_eq!(read_region(region).unwrap().1.size, 1 << 16);
    }

    #[test]
    fn lines_of_no_function() {
        for text in
            ["\tRegion 0: I/O ports at 0700 [size=64]\n", "00: 86 80 c0 29 07 00 00 00 00 00 04 06 00 00 01 00\n"]
        {
            assert!(matches!(read("", text), Err(Failure::Refused(_))), "{text}");
        }
        for text in ["0", "00:", "00:1f.", "0000:00:1f"] {
            assert!(matches!(read("", &format!("00:00.0 a\n\n{text}")), Err(Failure::Refused(_))), "{text}");
        }
        assert_eq!(read("", "00:1f.3").unwrap().len(), 1);
    }
}
