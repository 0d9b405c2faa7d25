//! A sheet that is checked once and then asked.

use crate::{check, functions, Function, Id, Refusal};
use core::fmt;

/// A sheet that passes its checks: 20 to 29 were asked when it was made. It is lent or owned: a slice, an array, a vector.
///
/// ```
/// use cartsundial::{Id, Refusal, Sheet};
///
/// // A function on bus 0 with a memory BAR of 4 KiB at F9000000, enabled.
/// let mut bytes = [0; 93];
/// bytes[..3].copy_from_slice(&[1, 0, 90]);
/// bytes[5 + 0x04] = 2;
/// bytes[5 + 0x10..][..4].copy_from_slice(&0xF900_0000_u32.to_le_bytes());
/// bytes[69..73].copy_from_slice(&0xFFFF_F000_u32.to_be_bytes());
///
/// let sheet = Sheet::new(&bytes)?;
/// let card = sheet.function(Id(0)).unwrap();
/// assert!(card.decodes_memory() && !card.is_bridge());
/// assert_eq!(card.bars().next().unwrap().range(), 0xF900_0000..=0xF900_0FFF);
/// assert_eq!(Sheet::new(&bytes[..92]).err(), Some(Refusal::Frame));
/// # Ok::<(), Refusal>(())
/// ```
#[derive(Clone, Copy, PartialEq, Eq)]
pub struct Sheet<S> {
    bytes: S,
}

impl<S: AsRef<[u8]>> Sheet<S> {
    /// The sheet that these bytes are: the whole slice, checked.
    pub fn new(bytes: S) -> Result<Sheet<S>, Refusal> {
        check(bytes.as_ref())?;
        Ok(Sheet { bytes })
    }

    /// Its bytes.
    pub fn bytes(&self) -> &[u8] {
        self.bytes.as_ref()
    }

    /// Its functions in its order, which is that of the board it was planned from.
    pub fn functions(&self) -> impl ExactSizeIterator<Item = Function<'_>> + Clone {
        functions::of_checked(self.bytes())
    }

    /// The function with this record, from 1.
    pub fn record(&self, record: u16) -> Option<Function<'_>> {
        self.functions().nth(usize::from(record).checked_sub(1)?)
    }

    /// The function with this ID.
    pub fn function(&self, id: Id) -> Option<Function<'_>> {
        self.functions().find(|function| function.id == id)
    }

    /// The bridge whose secondary bus this is. `None` where none leads there, or more than one.
    pub fn bridge_to(&self, bus: u8) -> Option<Function<'_>> {
        let mut bridges = self.functions().filter(|one| one.buses().is_some_and(|buses| buses.secondary == bus));
        bridges.next().filter(|_| bridges.next().is_none())
    }

    /// The bridges above a bus by their bus numbers, the nearest first.
    pub fn bridges_above(&self, bus: u8) -> impl Iterator<Item = Function<'_>> {
        // A bridge's own bus is below its secondary bus, so this ends.
        core::iter::successors(self.bridge_to(bus), |bridge| self.bridge_to(bridge.id.bus()))
    }
}

/// How many functions it has.
impl<S: AsRef<[u8]>> fmt::Debug for Sheet<S> {
    fn fmt(&self, f: &mut fmt::Formatter<'_>) -> fmt::Result {
        write!(f, "Sheet({} functions)", self.functions().len())
    }
}
