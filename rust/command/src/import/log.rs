//! The windows of root buses: from /proc/iomem and /proc/ioports, or from a boot log's `root bus resource` lines.

use super::found::{read_address, REGIONS};
use cartsundial::Id;
use std::ops::RangeInclusive;

#[derive(Default)]
pub struct Log {
    /// Of the boot log: they go before those of iomem and ioports.
    logged: Vec<Window>,
    claims: Vec<Claim>,
    buses: Vec<((u32, u8), u8)>,
    /// Lines of iomem or ioports that are zeros: who is not root sees them so.
    zeros: usize,
    /// Of each function and slot, as the boot log has them first.
    sizes: Vec<((u32, Id), usize, u64)>,
}

#[derive(Clone, Debug, PartialEq, Eq)]
pub struct Window {
    root: (u32, u8),
    pub is_io: bool,
    pub range: RangeInclusive<u64>,
}

/// A line of /proc/iomem or /proc/ioports.
struct Claim {
    is_io: bool,
    range: RangeInclusive<u64>,
    name: String,
}

impl Log {
    /// Returns whether the text has anything of it.
    pub fn read(&mut self, text: &str) -> bool {
        let before = self.lines();
        for line in text.lines() {
            if let Some((before, resource)) = line.split_once(": root bus resource [") {
                self.read_logged(before, resource);
            } else if let Some(claim) = Claim::of_line(line) {
                match claim.range == (0..=0) {
                    true => self.zeros += 1,
                    false => self.claims.push(claim),
                }
            } else {
                self.sizes.extend(read_size(line));
            }
        }
        self.lines() > before
    }

    fn lines(&self) -> usize {
        self.logged.len() + self.claims.len() + self.buses.len() + self.zeros + self.sizes.len()
    }

    /// iomem and ioports were read by somebody who is not root, and say nothing.
    pub fn is_hidden(&self) -> bool {
        self.zeros > 0 && self.claims.is_empty()
    }

    /// Whether it is below another bus: inside the buses that a boot log gives to a root bus, or with a window in iomem or ioports
    /// that lies inside another bus's.
    pub fn is_below(&self, bus: (u32, u8)) -> bool {
        let holds = |root: (u32, u8), last: u8| root.0 == bus.0 && root.1 < bus.1 && bus.1 <= last;
        let bus_of = |claim: &Claim| claim.name.strip_prefix("PCI Bus ").and_then(read_root);
        let is_inside = |claim: &Claim, other: &Claim| {
            let is_other = bus_of(other).is_some_and(|of| of.0 == bus.0 && of.1 < bus.1) && claim.is_io == other.is_io;
            is_other && other.range.contains(claim.range.start()) && other.range.contains(claim.range.end())
        };
        let own = || self.claims.iter().filter(|claim| bus_of(claim) == Some(bus));
        !self.is_root(bus)
            && (self.buses.iter().any(|(root, last)| holds(*root, *last))
                || own().any(|claim| self.claims.iter().any(|other| is_inside(claim, other))))
    }

    /// Whether the boot log names it as a root bus.
    pub fn is_root(&self, bus: (u32, u8)) -> bool {
        self.last_bus(bus).is_some() || self.logged.iter().any(|window| window.root == bus)
    }

    /// `pci_bus 0000:00`, and `mem 0x20000000-0xafffffff window]` or `bus 00-ff]`.
    fn read_logged(&mut self, before: &str, resource: &str) -> Option<()> {
        let root = read_root(before.rsplit(' ').next()?)?;
        let mut words = resource.split([' ', ']']).filter(|word| !word.is_empty());
        let (kind, range) = (words.next()?, read_range(words.next()?)?);
        match kind {
            "bus" => self.buses.push((root, u8::try_from(*range.end()).ok()?)),
            "io" | "mem" => self.logged.push(Window { root, is_io: kind == "io", range }),
            _ => {}
        }
        Some(())
    }

    /// The windows of a root bus.
    pub fn windows(&self, root: (u32, u8)) -> Vec<Window> {
        let logged: Vec<Window> = self.logged.iter().filter(|window| window.root == root).cloned().collect();
        if !logged.is_empty() {
            return logged;
        }
        let of_root = |claim: &&Claim| claim.name.strip_prefix("PCI Bus ").and_then(read_root) == Some(root);
        let window = |claim: &Claim| Window { root, is_io: claim.is_io, range: claim.range.clone() };
        self.claims.iter().filter(of_root).map(window).collect()
    }

    /// Whether it is a boot log that says what BARs were found.
    pub fn has_sizes(&self) -> bool {
        !self.sizes.is_empty()
    }

    /// The size of a function's BAR, where the log says it.
    pub fn size(&self, function: (u32, Id), slot: usize) -> Option<u64> {
        self.sizes.iter().find(|(of, number, _)| (*of, *number) == (function, slot)).map(|(_, _, size)| *size)
    }

    /// The last bus of a root bus, where the log says it.
    pub fn last_bus(&self, root: (u32, u8)) -> Option<u8> {
        self.buses.iter().find(|(of, _)| *of == root).map(|(_, last)| *last)
    }

    /// What lies fixed: neither a bus nor a function's, nor inside a function's. By ranges, not by indentation, which ends
    /// after five levels.
    pub fn fixed(&self, is_io: bool) -> Vec<RangeInclusive<u64>> {
        let of_space = || self.claims.iter().filter(move |claim| claim.is_io == is_io);
        let is_inside = |claim: &Claim| {
            of_space()
                .filter(|other| other.is_function())
                .any(|other| other.range.contains(claim.range.start()) && other.range.contains(claim.range.end()))
        };
        let is_fixed = |claim: &&Claim| !claim.name.starts_with("PCI Bus ") && !is_inside(claim);
        of_space().filter(is_fixed).map(|claim| claim.range.clone()).collect()
    }
}

impl Claim {
    /// `  fe200000-fe200fff : 0000:00:02.0`; ports have four digits.
    fn of_line(line: &str) -> Option<Claim> {
        let (range, name) = line.split_once(" : ")?;
        let is_io = range.trim().len() == "0000-0000".len();
        let range = read_range(range.trim())?;
        Some(Claim { is_io, range, name: name.trim().to_string() })
    }

    fn is_function(&self) -> bool {
        read_address(&self.name).is_some()
    }
}

/// `pci 0000:01:00.0: BAR 2 [mem 0x00000000-0x00000fff 64bit pref]`, in older logs `reg 0x18: [mem ..]`.
fn read_size(line: &str) -> Option<((u32, Id), usize, u64)> {
    let (function, rest) = line.split_once("pci ")?.1.split_once(": ")?;
    let (slot, resource) = rest.split_once('[')?;
    let slot = match slot.trim_end().trim_end_matches(':').split_once(' ')? {
        ("BAR", number) => number.parse().ok()?,
        ("reg", register) => usize::from_str_radix(register.strip_prefix("0x")?, 16).ok()?.checked_sub(0x10)? / 4,
        _ => return None,
    };
    let range = read_range(resource.split([' ', ']']).filter(|word| !word.is_empty()).nth(1)?)?;
    let size = (range.end() - range.start()).saturating_add(1);
    Some((read_address(function)?, slot, size)).filter(|_| slot < REGIONS)
}

/// `0000:00`.
fn read_root(text: &str) -> Option<(u32, u8)> {
    let (domain, bus) = text.split_once(':')?;
    Some((u32::from_str_radix(domain, 16).ok()?, u8::from_str_radix(bus, 16).ok()?))
}

fn read_range(text: &str) -> Option<RangeInclusive<u64>> {
    let (first, last) = text.split_once('-')?;
    let number = |word: &str| u64::from_str_radix(word.strip_prefix("0x").unwrap_or(word), 16).ok();
    let (first, last) = (number(first)?, number(last)?);
    (first <= last).then_some(first..=last)
}

#[cfg(test)]
mod tests {
    use super::*;

    #[test]
    fn windows_and_what_is_fixed() {
        let mut log = Log::default();
        log.read(
            "0000-0cf7 : PCI Bus 0000:00\n  0020-0021 : pic1\n20000000-afffffff : PCI Bus 0000:00\n\
             \x20 20900000-20900fff : 0000:00:02.0\n    20900000-20900fff : driver\n  fed00000-fed003ff : HPET 0\n",
        );
        let ranges = |log: &Log| log.windows((0, 0)).into_iter().map(|window| window.range).collect::<Vec<_>>();
        assert_eq!(ranges(&log), [0..=0xCF7, 0x2000_0000..=0xAFFF_FFFF]);
        assert_eq!((log.fixed(true), log.fixed(false)), (vec![0x20..=0x21], vec![0xFED0_0000..=0xFED0_03FF]));
        log.read(
            "[    0.7] pci_bus 0000:00: root bus resource [io  0x0d00-0xffff window]\n\
             [    0.7] pci_bus 0000:00: root bus resource [bus 00-7f]\n",
        );
        assert_eq!((ranges(&log), log.last_bus((0, 0))), (vec![0xD00..=0xFFFF], Some(0x7F)));
        assert!(log.is_below((0, 0x7F)) && !log.is_below((0, 0)) && !log.is_below((0, 0x80)) && !log.is_below((1, 1)));
    }

    #[test]
    fn sizes() {
        let mut log = Log::default();
        log.read(
            "[    1.2] pci 0000:01:00.0: BAR 2 [mem 0x00000000-0x1ffffffff 64bit pref]\n\
             [    1.2] pci 0000:01:00.0: BAR 2: assigned [mem 0x100000000-0x100000fff 64bit pref]\n\
             [    1.2] pci 0000:02:00.0: reg 0x18: [io  0x0000-0x001f]\n\
             [    1.2] pci 0000:02:00.0: BAR 7 [mem 0x00000000-0x00000fff]\n",
        );
        let size = |id, slot| log.size((0, Id(id)), slot);
        assert_eq!([size(0x100, 2), size(0x200, 2), size(0x200, 7)], [Some(1 << 33), Some(32), None]);
    }
}
