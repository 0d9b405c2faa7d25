//! What the bridges of a board keep free, which a plan does not say: the last three bytes of their records in version 2.

/// A bridge's spare buses, and its spare low memory in MiB.
#[derive(Clone, Copy, Debug, Default, PartialEq, Eq)]
pub struct Spares {
    pub buses: u8,
    pub memory: u16,
}

const VERSION_2: u8 = 2;
const BRIDGE: usize = 17;

/// The spares of each function of a board that was planned, in record order. `None` where the bytes are no board.
pub fn read(board: &[u8]) -> Option<Vec<Spares>> {
    let (&version, mut rest) = board.split_first()?;
    let mut all = Vec::new();
    while !rest.is_empty() {
        let (length, after) = rest.split_first_chunk()?;
        let (record, after) = after.split_at_checked(u16::from_be_bytes(*length).into())?;
        all.push(match *record {
            [.., buses, high, low] if version == VERSION_2 && record.len() == BRIDGE => {
                Spares { buses, memory: u16::from_be_bytes([high, low]) }
            }
            _ => Spares::default(),
        });
        rest = after;
    }
    // The host's record comes first.
    (!all.is_empty()).then(|| all.split_off(1))
}

#[cfg(test)]
mod tests {
    use super::*;

    fn board(version: u8, bridge: &[u8]) -> Vec<u8> {
        let length = [0, bridge.len() as u8];
        [&[version, 0, 30], &[0; 30][..], &length, bridge, &[0, 30], &[7; 30]].concat()
    }

    #[test]
    fn the_last_three_bytes_of_a_bridge() {
        let bridge = [0, 0, 0, 1, 0, 7, 0, 0, 0, 0, 0, 0, 0, 0, 2, 1, 4];
        let spares = Spares { buses: 2, memory: 0x104 };
        assert_eq!(read(&board(2, &bridge)), Some(vec![spares, Spares::default()]));
        assert_eq!(read(&board(1, &bridge[..14])), Some(vec![Spares::default(); 2]));
    }

    #[test]
    fn no_board() {
        assert_eq!(read(&[]), None);
        assert_eq!(read(&[2]), None);
        assert_eq!(read(&[2, 0, 30, 0]), None);
    }
}
