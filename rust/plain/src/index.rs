//! The index (request E8 of document 02): the owners of an accepted sheet in a lent slice, and the search for one.
//! docs/FORMATS.md has the layout.

use crate::audit::{audit, sound, sound_alone, widest_host};
use crate::bar;
use crate::packet;
use crate::route::{Arrival, Owners, Space};
use crate::sheet::{Record, Sheet};

/// Where segments and buckets start.
const SEGMENTS: usize = 16;
const BUCKETS: usize = 1008;

/// The keys of memory below 4 GiB end here, then those of memory and those of I/O.
const LOW_END: u64 = 1 << 32;
const MEMORY_END: u64 = 1 << 52;
const IO_END: u64 = MEMORY_END + 0x1_0000;

/// Behind the last slot's key.
const NO_KEY: u64 = 1 << 62;

/// So many keys are counted; more are quartered first.
const FEW: usize = 16;

/// Where the parts of an index for so many functions start.
#[derive(Clone, Copy)]
struct Layout {
    functions: usize,
}

impl Layout {
    fn size(self) -> usize {
        1024 + 256 * self.functions
    }

    fn segment(self, number: usize) -> usize {
        SEGMENTS + 16 * number
    }

    fn bucket(self, number: usize) -> usize {
        BUCKETS + 2 * number
    }

    fn key(self, position: usize) -> usize {
        BUCKETS + 64 * self.functions + 8 * position
    }

    fn word(self, position: usize) -> usize {
        BUCKETS + 8 + 176 * self.functions + 8 * position
    }

    /// The most slots.
    fn slots(self) -> usize {
        7 * self.functions
    }

    fn buckets(self) -> usize {
        8 * self.functions
    }
}

/// The segment of a key: low memory, high memory, I/O, IDs.
fn segment_of(key: u64) -> usize {
    [LOW_END, MEMORY_END, IO_END].iter().filter(|&&end| end <= key).count()
}

/// How a segment's keys are shared out among its buckets.
#[derive(Clone, Copy)]
struct Segment {
    base: u64,
    shift: u8,
}

impl Segment {
    const EMPTY: Segment = Segment { base: 0, shift: 0 };

    /// The bucket of a key of segment `number`. The last of a segment's buckets has none.
    fn bucket(self, layout: Layout, number: usize, key: u64) -> usize {
        let most = layout.buckets() - 2;
        let bucket = key.saturating_sub(self.base) >> (self.shift % 64);
        layout.buckets() * number + bucket.min(most as u64) as usize
    }
}

/// An address range or an ID that a function owns.
#[derive(Clone, Copy)]
struct Slot {
    key: u64,
    word: u64,
}

/// Builds the index of a sheet for a host record: 0, the audit's number, or 11 for a slice shorter than the index. Nothing
/// past the index is written, and nothing at all when it is refused.
pub fn build(host: &[u8], sheet: &[u8], index: &mut [u8]) -> u8 {
    build_after(audit(host, sheet), host, sheet, index)
}

/// The same by the number of the second verdict: for every sheet that has one owner for every address.
pub fn build_sound(host: &[u8], sheet: &[u8], index: &mut [u8]) -> u8 {
    build_after(sound(host, sheet), host, sheet, index)
}

/// The same for a sheet without a host record.
pub fn build_alone(sheet: &[u8], index: &mut [u8]) -> u8 {
    build_after(sound_alone(sheet), &widest_host(sheet), sheet, index)
}

fn build_after(verdict: u8, host: &[u8], sheet: &[u8], index: &mut [u8]) -> u8 {
    match verdict {
        0 => place(host[0], sheet, index).err().unwrap_or(0),
        number => number,
    }
}

fn place(root: u8, sheet: &[u8], index: &mut [u8]) -> Result<(), u8> {
    let sheet = Sheet::new(sheet)?;
    let layout = Layout { functions: sheet.records().count() };
    let room = index.get_mut(..layout.size()).ok_or(11)?;
    let slots = slots(root, sheet);
    let segments = segments(layout, &slots);
    let mut table = vec![0; 4 * layout.buckets()];
    for slot in &slots {
        let number = segment_of(slot.key);
        table[segments[number].bucket(layout, number, slot.key)] += 1;
    }
    let width: usize = table.iter().copied().max().unwrap_or(0);

    room.fill(0);
    let mut put = |at: usize, bytes: &[u8]| room[at..at + bytes.len()].copy_from_slice(bytes);
    put(0, &(layout.functions as u16).to_le_bytes());
    put(2, &[root]);
    put(4, &(width as u16).to_le_bytes());
    for (number, segment) in segments.iter().enumerate() {
        put(layout.segment(number), &segment.base.to_le_bytes());
        put(layout.segment(number) + 8, &[segment.shift]);
    }
    let mut earlier = 0;
    for (number, count) in table.iter().enumerate() {
        put(layout.bucket(number), &(earlier as u16).to_le_bytes());
        earlier += count;
    }
    for position in 1..=2 * layout.slots() {
        let key = slots.get(position - 1).map_or(NO_KEY, |slot| slot.key);
        put(layout.key(position), &key.to_le_bytes());
    }
    for (position, slot) in (1..).zip(&slots) {
        put(layout.word(position), &slot.word.to_le_bytes());
    }
    Ok(())
}

/// The slots of an accepted sheet, by their keys, of which no two are the same.
fn slots(root: u8, sheet: Sheet<'_>) -> Vec<Slot> {
    let mut slots = Vec::new();
    for (number, record) in (1..).zip(sheet.records()) {
        let above = Above::of(record.bus(), root, sheet);
        let slot =
            |key, exponent: u32| Slot { key, word: u64::from(exponent) | u64::from(above.bridges) << 8 | number << 16 };
        slots.push(slot(IO_END + u64::from(record.id()), 0));
        for bar in bar::bars(record.read_backs()) {
            let (space, first) = if bar.is_io { (Space::Io, MEMORY_END) } else { (Space::Memory, 0) };
            if record.command() & above.commands & space.enable() != 0 {
                let start = bar.range(record.value(&bar)).base;
                slots.push(slot(first + start, bar.mask.trailing_zeros()));
            }
        }
    }
    slots.sort_unstable_by_key(|slot| slot.key);
    slots
}

/// The bridges above a bus: how many, and the command bits that all of them have.
#[derive(Clone, Copy)]
struct Above {
    bridges: u8,
    commands: u16,
}

impl Above {
    /// Goes up from the bus. In an accepted sheet one bridge leads to it, from a bus with a lower number.
    fn of(bus: u8, root: u8, sheet: Sheet<'_>) -> Above {
        let leads_here = |record: &Record<'_>| record.is_bridge() && record.secondary() == bus;
        let bridge = sheet.records().find(leads_here).filter(|_| bus != root);
        bridge.map_or(Above { bridges: 0, commands: 0xFFFF }, |bridge| {
            let above = Above::of(bridge.bus(), root, sheet);
            Above { bridges: above.bridges + 1, commands: above.commands & bridge.command() }
        })
    }
}

/// From each segment's first key, with the least shift that puts its last key into the last bucket but one, or before.
fn segments(layout: Layout, slots: &[Slot]) -> [Segment; 4] {
    std::array::from_fn(|number| {
        let mut keys = slots.iter().map(|slot| slot.key).filter(|&key| segment_of(key) == number);
        let Some(base) = keys.next() else { return Segment::EMPTY };
        let most = layout.buckets() as u64 - 2;
        let span = keys.next_back().unwrap_or(base) - base;
        let shift = (0..64).find(|shift| span >> shift <= most).unwrap_or(63);
        Segment { base, shift }
    })
}

/// Routes the header by an index that was built, or by any bytes.
pub fn find(header: &[u8], index: &[u8]) -> Result<Arrival, u8> {
    let packet = packet::read(header)?;
    Index::new(index).route(packet)
}

/// Bytes, taken as an index.
#[derive(Clone, Copy)]
pub(crate) struct Index<'a> {
    bytes: &'a [u8],
    layout: Layout,
}

impl<'a> Index<'a> {
    /// Of no functions, where the bytes are too few for as many as they say.
    pub(crate) fn new(bytes: &'a [u8]) -> Index<'a> {
        let said = bytes.first_chunk().map_or(0, |bytes| u16::from_le_bytes(*bytes));
        let layout = Layout { functions: said.into() };
        let layout = if bytes.len() < layout.size() { Layout { functions: 0 } } else { layout };
        Index { bytes, layout }
    }

    fn u16(&self, at: usize) -> usize {
        u16::from_le_bytes([self.bytes[at], self.bytes[at + 1]]).into()
    }

    fn u64(&self, at: usize) -> u64 {
        u64::from_le_bytes(std::array::from_fn(|byte| self.bytes[at + byte]))
    }

    /// The owner of a key, by the slot found for it.
    fn owner(&self, key: u64) -> Result<(usize, u8), u8> {
        let position = self.position(key);
        let start = self.u64(self.layout.key(position));
        let word = self.u64(self.layout.word(position));
        let [exponent, bridges, record_low, record_high, ..] = word.to_le_bytes();
        let is_inside = key.checked_sub(start).is_some_and(|offset| offset >> (exponent % 64) == 0);
        match usize::from(u16::from_le_bytes([record_low, record_high])).checked_sub(1) {
            Some(index) if is_inside => Ok((index, bridges)),
            _ => Err(40),
        }
    }

    /// The last position whose key is not above, in an index that was built; there is at least one function.
    fn position(&self, key: u64) -> usize {
        let most = self.layout.slots();
        let number = segment_of(key);
        let at = self.layout.segment(number);
        let segment = Segment { base: self.u64(at), shift: self.bytes[at + 8] };
        let bucket = segment.bucket(self.layout, number, key);
        let mut position = self.u16(self.layout.bucket(bucket)).min(most);
        let mut left = self.u16(4).min(most);
        while left > FEW {
            let quarter = left / 4;
            let passed = (1..=3).filter(|times| !self.is_above(position + times * quarter, key)).count();
            position += passed * quarter;
            left -= 3 * quarter;
        }
        let reached = (1..=left).filter(|behind| !self.is_above(position + behind, key)).count();
        (position + reached).min(most)
    }

    /// Whether a position's key is above the one searched for, by at most 2^63: one yet higher counts as 0.
    fn is_above(&self, position: usize, key: u64) -> bool {
        (key + 1..=key + (1 << 63)).contains(&self.u64(self.layout.key(position)))
    }
}

impl Owners for Index<'_> {
    fn functions(&self) -> u16 {
        self.layout.functions as u16
    }

    fn root(&self) -> Option<u8> {
        (self.layout.functions > 0).then(|| self.bytes[2])
    }

    fn by_address(&self, _root: u8, space: Space, address: u64) -> Result<(usize, u8), u8> {
        match space {
            Space::Memory if address < MEMORY_END => self.owner(address),
            Space::Io if address < IO_END - MEMORY_END => self.owner(MEMORY_END + address),
            _ => Err(40),
        }
    }

    fn by_id(&self, _root: u8, id: u16) -> Result<(usize, u8), u8> {
        self.owner(IO_END + u64::from(id))
    }
}
