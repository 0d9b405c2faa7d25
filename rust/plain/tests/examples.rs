//! Document 01's examples P1 to P10, and source document 001's tree.

use inputs::board::{self, memory, Board};

fn plan(board: &Board) -> Result<Vec<u8>, u8> {
    let mut room = vec![0; plain::FULL_SHEET];
    let length = plain::plan(&board.bytes(), &mut room)?;
    room.truncate(length);
    Ok(room)
}

fn hex(text: &str) -> Vec<u8> {
    let digits: String = text.split_whitespace().collect();
    (0..digits.len()).step_by(2).map(|at| u8::from_str_radix(&digits[at..at + 2], 16).unwrap()).collect()
}

fn read(text: &str) -> Result<plain::Packet, u8> {
    plain::read(&hex(text))
}

#[test]
fn p1_eleven_bytes() {
    assert_eq!(read("00 00 00 01 00 00 00 0F F9 00 00"), Err(1));
}

#[test]
fn p2_length_code_0() {
    assert_eq!(read("00 00 00 00 00 00 00 FF F9 00 00 00").unwrap().length, 1024);
    assert_eq!(read("00 00 00 00 00 00 00 FF F9 00 00 04"), Err(8));
}

#[test]
fn p3_p4_byte_enables() {
    assert!(read("40 00 00 02 00 00 00 5A F9 00 00 00").is_ok());
    assert!(read("40 00 00 02 00 00 00 A5 F9 00 00 00").is_ok());
    assert_eq!(read("40 00 00 03 00 00 00 5A F9 00 00 00"), Err(7));
}

/// Request E2: P3 is at an aligned address; its twin is 4 past an 8-byte edge.
#[test]
fn p3_twin() {
    assert_eq!(read("40 00 00 02 00 00 00 5A F9 00 00 04"), Err(7));
    assert_eq!(read("40 00 00 02 00 00 00 A5 F9 00 00 04"), Err(7));
}

#[test]
fn p5_upper_half() {
    assert_eq!(read("20 00 00 01 00 00 00 0F 00 00 00 00 F9 00 00 00"), Err(6));
    assert_eq!(read("20 00 00 01 00 00 00 0F 00 00 00 01 F9 00 00 00").unwrap().address, 0x1_F900_0000);
}

#[test]
fn p6_buses() {
    for (count, number) in [(255, None), (256, Some(30))] {
        let mut board = Board::new();
        for device_function in 0..count {
            board.add(0, device_function as u8, 0x81, &[]);
        }
        assert_eq!(plan(&board).err(), number);
    }
}

#[test]
fn p7_low_pool() {
    let mut board = Board { low: (0xF900_0000, 0xF90F_FFFF), ..Board::new() };
    board.end(0, 0, &[memory(20)]);
    assert!(plan(&board).is_ok());
    board.end(0, 8, &[memory(20)]);
    assert_eq!(plan(&board), Err(31));
}

#[test]
fn p8_no_functions() {
    let sheet = plan(&Board::new()).unwrap();
    assert_eq!(sheet, [1]);
    assert_eq!(plain::listing(&sheet), "plan 0\n");
}

#[test]
fn p9_read_back() {
    let mut board = Board::new();
    board.end(0, 0, &[0xF0FF_F000]);
    assert_eq!(plan(&board), Err(25));
}

#[test]
fn p10() {
    let bytes = hex("01 001E 00FF F9000000 F9FFFFFF 0000000240000000 000000027FFFFFFF 4000 4FFF \
         000E 0000 00 01 0003 00000000 00000000 \
         001E 0001 00 00 0003 FFFFF000 FC00000C FFFFFFFF FFFFFF01 00000000 00000000");
    assert_eq!(board::p10().bytes(), bytes);
    let sheet = plan(&board::p10()).unwrap();
    assert_eq!(
        plain::listing(&sheet),
        "plan 2\n\
         0000 bridge 00000000 00000000 00 01 01 40 40 F900 F900 4001 43F1 00000002 00000002\n\
         0100 end F9000000 4000000C 00000002 00004001 00000000 00000000\n"
    );
    let header = hex("00 00 00 01 01 00 05 0F F9 00 0F FC");
    let packet = plain::read(&header).unwrap();
    assert_eq!(plain::route(&header, &sheet), Ok(plain::Arrival::Function { record: 2, bridges: 1, packet }));
    assert_eq!(
        packet.to_string(),
        "MRd 3dw tc 0 attr 0 td 0 ep 0 at 0 length 1 requester 0100 tag 005 last 0 first F address 00000000F9000FFC"
    );
    assert_eq!(plain::route(&hex("00 00 00 01 01 00 05 0F F9 00 10 00"), &sheet), Err(40));
}

#[test]
fn document_001() {
    let sheet = plan(&board::document_001()).unwrap();
    let ranges: Vec<(u8, u8)> = sheet[1..]
        .chunks_exact(92)
        .map(|record| &record[4..68])
        .filter(|registers| registers[0x0E] == 1)
        .map(|registers| (registers[0x19], registers[0x1A]))
        .collect();
    // A, C, D, E, B, F, G, H, J, I.
    let expected = [(1, 4), (2, 4), (3, 3), (4, 4), (5, 10), (6, 10), (7, 7), (8, 9), (9, 9), (10, 10)];
    assert_eq!(ranges, expected);
}
