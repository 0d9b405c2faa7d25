//! A number of bytes as people write it.

use core::error::Error;
use core::fmt;
use core::str::FromStr;

/// The units, each 1,024 of the one before.
const UNITS: [char; 5] = ['K', 'M', 'G', 'T', 'P'];

/// A number of bytes, as text `128`, `4K`, `64M` or `16G`: decimal, in units of 1,024.
///
/// ```
/// use cartsundial::Size;
///
/// assert_eq!("64M".parse(), Ok(Size(64 << 20)));
/// assert_eq!("4 KiB".replace(' ', "").parse(), Ok(Size(4096)));
/// assert_eq!(Size(3 << 19).to_string(), "1536K");
/// assert_eq!(format!("{:#}", Size(33 << 20)), "33 MiB");
/// ```
#[derive(Clone, Copy, Debug, PartialEq, Eq, PartialOrd, Ord, Hash)]
pub struct Size(pub u64);

/// The text is no size.
#[derive(Clone, Copy, Debug, PartialEq, Eq)]
pub struct NoSize;

impl fmt::Display for NoSize {
    fn fmt(&self, f: &mut fmt::Formatter<'_>) -> fmt::Result {
        f.write_str("not a size: write a decimal number of bytes, or one with K, M, G, T or P, as 128 or 64M")
    }
}

impl Error for NoSize {}

impl FromStr for Size {
    type Err = NoSize;

    fn from_str(text: &str) -> Result<Size, NoSize> {
        let text = text.strip_suffix('B').map_or(text, |front| front.strip_suffix('i').unwrap_or(front));
        let unit = UNITS.iter().position(|&unit| text.ends_with([unit, unit.to_ascii_lowercase()]));
        let digits = if unit.is_some() { &text[..text.len() - 1] } else { text };
        if !digits.bytes().all(|byte| byte.is_ascii_digit()) {
            return Err(NoSize);
        }
        let factor = 1 << (10 * unit.map_or(0, |unit| unit + 1));
        let number: u64 = digits.parse().map_err(|_| NoSize)?;
        number.checked_mul(factor).map(Size).ok_or(NoSize)
    }
}

/// In the largest unit that leaves nothing over. With `#` the unit is spelt out: `33 MiB`, `12 bytes`.
impl fmt::Display for Size {
    fn fmt(&self, f: &mut fmt::Formatter<'_>) -> fmt::Result {
        let mut number = self.0;
        let mut unit = None;
        for one in UNITS {
            if number == 0 || !number.is_multiple_of(1024) {
                break;
            }
            (number, unit) = (number / 1024, Some(one));
        }
        write!(f, "{number}")?;
        match (unit, f.alternate()) {
            (Some(unit), false) => write!(f, "{unit}"),
            (Some(unit), true) => write!(f, " {unit}iB"),
            (None, false) => Ok(()),
            (None, true) => f.write_str(" bytes"),
        }
    }
}
