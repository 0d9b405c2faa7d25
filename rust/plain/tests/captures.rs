//! Sheets that real firmware left (tests/audit): their audits, last winter's fault and memory BARs under 128 bytes among them,
//! and on which of them every address has one owner.

use std::fs;

use inputs::foreign::{request, IORD, IOWR};

/// Name, functions, the audit's number, and that of one owner for every address.
const CAPTURES: [(&str, usize, u8, u8); 7] = [
    ("ovmf-one-bridge", 6, 0, 0),
    ("ovmf-overlap", 10, 52, 52),
    ("seabios-deep-16", 29, 51, 0),
    ("seabios-flat", 18, 25, 25),
    ("seabios-one-bridge", 6, 51, 0),
    ("seabios-seed1", 10, 0, 0),
    ("seabios-seed2", 10, 0, 0),
];

fn read(name: &str, extension: &str) -> Vec<u8> {
    fs::read(format!("{}/../../tests/audit/{name}.{extension}", env!("CARGO_MANIFEST_DIR"))).unwrap()
}

#[test]
fn audits() {
    for (name, functions, number, sound) in CAPTURES {
        let (host, sheet) = (read(name, "host"), read(name, "sheet"));
        assert_eq!(sheet.len(), 1 + 92 * functions, "{name}");
        let passes = number == 0 || number >= 50;
        assert_eq!(plain::check(&sheet), if passes { 0 } else { number }, "{name}");
        assert_eq!((plain::audit(&host, &sheet), plain::sound(&host, &sheet)), (number, sound), "{name}");
    }
}

/// Memory BARs of 16 and 32 bytes are 25. With all of them of 128 bytes, where they are, the sheet passes its checks, and
/// 51 is left: a 64-bit BAR that is not prefetchable, above 4 GiB. Every address has one owner.
#[test]
fn tiny_bars() {
    let (host, mut sheet) = (read("seabios-flat", "host"), read("seabios-flat", "sheet"));
    for (record, slot, tiny) in [(2, 0, 0xFFFF_FFF0u32), (3, 1, 0xFFFF_FFE0), (5, 0, 0xFFFF_FFF0)] {
        assert_eq!(plain::audit(&host, &sheet), 25);
        let read_back = 1 + 92 * (record - 1) + 68 + 4 * slot;
        assert_eq!(sheet[read_back..read_back + 4], tiny.to_be_bytes());
        sheet[read_back..read_back + 4].copy_from_slice(&0xFFFF_FF80u32.to_be_bytes());
    }
    assert_eq!((plain::check(&sheet), plain::audit(&host, &sheet), plain::sound(&host, &sheet)), (0, 51, 0));
}

/// The I/O window of bridge 00:01.0, 6000 to 6FFF, lies over the I/O BARs of 00:01.1, 00:1F.3 and 00:1F.2 beside it.
#[test]
fn overlap() {
    let (host, mut sheet) = (read("ovmf-overlap", "host"), read("ovmf-overlap", "sheet"));
    for address in [0x6200, 0x6300, 0x6340] {
        assert_eq!(plain::route(&request(IORD, address), &sheet), Err(41), "{address:04X}");
        assert_eq!(plain::route(&request(IOWR, address), &sheet), Err(41), "{address:04X}");
    }
    // With that window closed each address has one owner, and the sheet is accepted.
    let bridge = plain::lookup(&sheet, 0x0008).unwrap();
    assert_eq!(sheet[bridge + 0x1C..bridge + 0x1E], [0x60, 0x60]);
    sheet[bridge + 0x1C..bridge + 0x1E].copy_from_slice(&[0xF0, 0x00]);
    assert_eq!(plain::audit(&host, &sheet), 0);
    for (address, record) in [(0x6200, 3), (0x6300, 10), (0x6340, 9)] {
        let header = request(IORD, address);
        let packet = plain::read(&header).unwrap();
        assert_eq!(plain::route(&header, &sheet), Ok(plain::Arrival::Function { record, bridges: 0, packet }));
    }
}
