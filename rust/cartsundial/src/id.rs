//! A function's ID.

use core::error::Error;
use core::fmt;
use core::str::FromStr;

/// A function's ID: bus 8, device 5, function 3 bits.
///
/// ```
/// use cartsundial::Id;
///
/// assert_eq!(Id::new(3, 0x1F, 2), Some("03:1F.2".parse().unwrap()));
/// assert_eq!(format!("{:>9}", Id(0x0300)), "  03:00.0");
/// ```
#[derive(Clone, Copy, Debug, PartialEq, Eq, PartialOrd, Ord, Hash)]
pub struct Id(pub u16);

impl Id {
    /// Of a bus, a device and a function. `None` for a device above 31 or a function above 7.
    pub const fn new(bus: u8, device: u8, function: u8) -> Option<Id> {
        if device > 31 || function > 7 {
            return None;
        }
        Some(Id(u16::from_be_bytes([bus, device << 3 | function])))
    }

    /// The ID's bus.
    pub const fn bus(self) -> u8 {
        (self.0 >> 8) as u8
    }

    /// The ID's device, 0 to 31.
    pub const fn device(self) -> u8 {
        (self.0 >> 3 & 31) as u8
    }

    /// The ID's function, 0 to 7.
    pub const fn function(self) -> u8 {
        (self.0 & 7) as u8
    }
}

impl From<u16> for Id {
    fn from(id: u16) -> Id {
        Id(id)
    }
}

/// The text is no ID: `03:00.0`, in hexadecimal.
#[derive(Clone, Copy, Debug, PartialEq, Eq)]
pub struct NoId;

impl fmt::Display for NoId {
    fn fmt(&self, f: &mut fmt::Formatter<'_>) -> fmt::Result {
        f.write_str("not an ID: write bus:device.function in hexadecimal, as 03:00.0 or 03:1f.7")
    }
}

impl Error for NoId {}

/// `03:00.0`, or with the domain 0 before it, as `lspci -D` has it: `0000:03:00.0`.
impl FromStr for Id {
    type Err = NoId;

    fn from_str(text: &str) -> Result<Id, NoId> {
        let text = text.strip_prefix("0000:").unwrap_or(text);
        let (bus, rest) = text.split_once(':').ok_or(NoId)?;
        let (device, function) = rest.split_once('.').ok_or(NoId)?;
        Id::new(digits(bus, 2)?, digits(device, 2)?, digits(function, 1)?).ok_or(NoId)
    }
}

/// At most so many hexadecimal digits.
fn digits(text: &str, most: usize) -> Result<u8, NoId> {
    let is_number = text.len() <= most && text.bytes().all(|byte| byte.is_ascii_hexdigit());
    u8::from_str_radix(text, 16).ok().filter(|_| is_number).ok_or(NoId)
}

/// `01:00.0`.
impl fmt::Display for Id {
    fn fmt(&self, f: &mut fmt::Formatter<'_>) -> fmt::Result {
        const DIGITS: [u8; 16] = *b"0123456789ABCDEF";
        let digit = |number: u8| DIGITS[usize::from(number & 0xF)];
        let (bus, device) = (self.bus(), self.device());
        let text = [digit(bus >> 4), digit(bus), b':', digit(device >> 4), digit(device), b'.', digit(self.function())];
        f.pad(core::str::from_utf8(&text).expect("digits"))
    }
}
