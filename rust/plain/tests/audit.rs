//! The audit (request E6 of document 02): each of its sentences broken alone, edges, order, and the program.

use inputs::board::{self, high, io, memory, prefetchable, Board, CLOSED_HIGH, CLOSED_IO, CLOSED_LOW};
use inputs::foreign::{request, sheet, Record, IORD, MRD};
use plain::{audit, programs, sound, Arrival};

/// The host of [`records`], whose root bus fills the pools from edge to edge.
fn host() -> Board {
    Board {
        buses: (0x20, 0x24),
        low: (0xF900_0000, 0xF96F_FFFF),
        high: (0x2_4000_0000, 0x2_405F_FFFF),
        io: (0x4000, 0x7FFF),
        ..Board::new()
    }
}

/// A bridge to buses 21 to 23, of which 23 is unused, and below it a bridge to 22; a function; a bridge to 24.
fn records() -> Vec<Record> {
    vec![
        Record::bridge(0x2000, 0x21, 0x23).low(0xF900, 0xF930).high(0x4001, 0x4031, 2, 2).io(0x40, 0x50),
        Record::bridge(0x2100, 0x22, 0x22).low(0xF900, 0xF910).high(0x4001, 0x4011, 2, 2).io(0x40, 0x40),
        Record::end(0x2200).bar(0, memory(20), 0xF900_0000).bar(1, io(8), 0x4001).wide(2, 12, 20, 0x2_4000_0000).wide(
            4,
            4,
            20,
            0xF910_0000,
        ),
        Record::end(0x2108).bar(0, prefetchable(20), 0xF920_0008).bar(1, io(12), 0x5001).wide(2, 12, 20, 0x2_4020_0000),
        Record::end(0x2008).bar(0, memory(20), 0xF940_0000).bar(1, io(12), 0x6001).wide(2, 12, 20, 0x2_4040_0000),
        Record::bridge(0x2010, 0x24, 0x24)
            .bar(0, memory(20), 0xF950_0000)
            .low(0xF960, 0xF960)
            .high(0x4051, 0x4051, 2, 2)
            .io(0x70, 0x70),
        Record::end(0x2400).bar(0, memory(20), 0xF960_0000).bar(1, io(12), 0x7001).wide(2, 12, 20, 0x2_4050_0000),
    ]
}

fn number(host: &Board, records: &[Record]) -> u8 {
    audit(&host.host(), &sheet(records))
}

/// The number with another host.
fn on(change: impl Fn(&mut Board)) -> u8 {
    let mut host = host();
    change(&mut host);
    number(&host, &records())
}

/// The number with other records.
fn of(change: impl Fn(&mut Vec<Record>)) -> u8 {
    let mut records = records();
    change(&mut records);
    number(&host(), &records)
}

/// The number with one record changed.
fn at(index: usize, change: impl Fn(Record) -> Record) -> u8 {
    of(|records| records[index] = change(records[index].clone()))
}

/// The number with one record more.
fn and(record: Record) -> u8 {
    of(|records| records.push(record.clone()))
}

/// A function's ID with another bus, and a bridge's primary bus with it.
fn moved(mut record: Record, bus: u8) -> Record {
    record.id = u16::from_be_bytes([bus, record.id as u8]);
    if record.registers[0x0E] == 1 {
        record.registers[0x18] = bus;
    }
    record
}

fn with_buses(record: Record, secondary: u8, subordinate: u8) -> Record {
    record.set(0x19, secondary).set(0x1A, subordinate)
}

#[test]
fn accepted() {
    assert_eq!(number(&host(), &records()), 0);
    // With no function nothing is asked of the pools, nor of the buses but their order.
    for board in [host(), Board::new(), Board { buses: (9, 9), ..Board::closed() }] {
        assert_eq!(audit(&board.host(), &[1]), 0);
    }
    for board in [board::p10(), board::document_001()] {
        let mut room = vec![0; plain::FULL_SHEET];
        let length = plain::plan(&board.bytes(), &mut room).unwrap();
        assert_eq!(audit(&board.host(), &room[..length]), 0);
    }
    // Bytes that no check looks at, and header type bit 7.
    for byte in [0x00, 0x06, 0x0F, 0x30, 0x3F] {
        assert_eq!(of(|records| records.iter_mut().for_each(|record| record.registers[byte] = 0xA5)), 0, "{byte:02X}");
    }
    for byte in [0x1B, 0x1E, 0x1F] {
        assert_eq!(at(5, |bridge| bridge.set(byte, 0xA5)), 0, "{byte:02X}");
    }
    assert_eq!(of(|records| records.iter_mut().for_each(|record| record.registers[0x0E] |= 0x80)), 0);
    // Any order behind the first.
    assert_eq!(of(|records| records[1..].reverse()), 0);
    assert_eq!(of(|records| records.rotate_left(4)), 0);
}

#[test]
fn host_record() {
    let (host, sheet) = (host().host(), sheet(&records()));
    // 20 before any number of the sheet, and before 26.
    for length in (0..30).chain(31..64) {
        let bytes: Vec<u8> = host.iter().copied().cycle().take(length).collect();
        for sheet in [&sheet[..], &[1], &[2], &[]] {
            assert_eq!(audit(&bytes, sheet), 20, "{length}");
        }
        assert_eq!(audit(&vec![0xFF; length], &sheet), 20, "{length}");
    }
    // 26 as on a board, before any number of the sheet.
    let unlawful: [fn(&mut Board); 11] = [
        |host| host.buses = (0x21, 0x20),
        |host| host.low.0 += 1,
        |host| host.low.1 -= 1,
        |host| host.low = (0xF908_0000, 0xF967_FFFF),
        |host| host.high.0 += 0x8_0000,
        |host| host.high.1 += 1,
        |host| host.high.0 = 0xFFF0_0000,
        |host| host.high.1 = (1 << 52) + 0xF_FFFF,
        |host| host.io.0 += 4,
        |host| host.io.1 -= 4,
        |host| host.io = (0x4800, 0x77FF),
    ];
    for change in unlawful {
        let mut board = self::host();
        change(&mut board);
        assert_eq!(plain::plan(&board.bytes(), &mut [0]), Err(26));
        for sheet in [&sheet[..], &[1], &[2], &[]] {
            assert_eq!(audit(&board.host(), sheet), 26);
        }
    }
    // The closed pools' edges are free.
    assert_eq!(audit(&Board { low: (2, 1), high: (2, 1), io: (2, 1), ..self::host() }.host(), &[1]), 0);
}

/// Every fault at once, mended one after the other: the numbers come in their order.
#[test]
fn numbers_in_turn() {
    let mut records = records();
    // 52: on the bridge's own BAR. 51: in no window. 50: on bus 23. 29, 25, 28, 27, 24.
    records.push(Record::end(0x2018).bar(0, memory(20), 0xF950_0000));
    records.push(Record::end(0x2410).bar(0, memory(20), 0xF900_0000));
    records.push(Record::end(0x2300));
    records.push(Record::bridge(0x2020, 0x24, 0x24).io(0xF1, 0));
    records.push(Record::end(0x2028).value(0, 1));
    records.push(Record::end(0x2018));
    records.push(Record::bridge(0x2030, 0x20, 0x24));
    records.push(Record::end(0x2038).set(0x0E, 2));
    let count = records.len();
    records.resize(513, Record::end(0x2040));
    let mut bytes = sheet(&records);
    bytes.push(0);
    bytes[0] = 2;
    let mut host = host();
    host.buses = (1, 0);
    assert_eq!(audit(&host.host()[..29], &bytes), 20);
    assert_eq!(audit(&host.host(), &bytes), 26);
    host.buses = (0x20, 0x24);
    assert_eq!(audit(&host.host(), &[]), 20);
    assert_eq!(audit(&host.host(), &bytes), 21);
    bytes[0] = 1;
    assert_eq!(audit(&host.host(), &bytes), 20);
    bytes.pop();
    assert_eq!(audit(&host.host(), &bytes), 22);
    records.truncate(count);
    for expected in [24, 27, 28, 25, 29, 50, 51, 52] {
        assert_eq!(number(&host, &records), expected);
        records.pop();
    }
    assert_eq!(number(&host, &records), 0);
}

/// 50, 51 and 52 are each tried over all records before the next, wherever in the sheet they are.
#[test]
fn later_records_first() {
    let stray = Record::end(0x2300);
    let outside = Record::end(0x2018).bar(0, memory(20), 0xF970_0000);
    let overlap = Record::end(0x2020).bar(0, memory(20), 0xF940_0000);
    let front = |faults: &[&Record]| {
        of(|records| {
            for fault in faults {
                records.insert(1, (*fault).clone());
            }
        })
    };
    let (overlap, outside, stray) = (&overlap, &outside, &stray);
    assert_eq!(front(&[overlap, outside, stray]), 50);
    assert_eq!(front(&[stray, outside, overlap]), 50);
    assert_eq!(front(&[overlap, outside]), 51);
    assert_eq!(front(&[outside, overlap]), 51);
    assert_eq!(front(&[overlap, stray]), 50);
    assert_eq!(front(&[stray]), 50);
    assert_eq!(front(&[outside]), 51);
    assert_eq!(front(&[overlap]), 52);
}

#[test]
fn first_record() {
    // Any function of the root bus may be first.
    assert_eq!(of(|records| records.swap(0, 4)), 0);
    assert_eq!(of(|records| records.swap(0, 5)), 0);
    assert_eq!(of(|records| records.swap(0, 1)), 50);
    assert_eq!(of(|records| records.swap(0, 6)), 50);
    // The sheet's root bus is the host's first, not another of its buses.
    assert_eq!(on(|host| host.buses.0 = 0x1F), 50);
    assert_eq!(on(|host| host.buses.0 = 0x21), 50);
    // A bridge to the root bus is on a bus that none leads to, first or not.
    let above = Record::bridge(0x1F00, 0x20, 0x24);
    assert_eq!(and(above.clone()), 50);
    assert_eq!(of(|records| records.insert(0, above.clone())), 50);
}

#[test]
fn buses_that_bridges_lead_to() {
    // Inside a bridge's range, and outside of all.
    for id in [0x2300, 0x2500, 0x1F00, 0x0000, 0xFF00] {
        assert_eq!(and(Record::end(id)), 50, "{id:04X}");
    }
    assert_eq!(of(|records| records.extend([Record::bridge(0x2110, 0x23, 0x23), Record::end(0x2300)])), 0);
    // The bridge between is missing, or leads to the bus beside.
    assert_eq!(
        of(|records| {
            records.remove(1);
        }),
        50
    );
    assert_eq!(at(1, |bridge| with_buses(bridge, 0x23, 0x23)), 50);
    assert_eq!(
        of(|records| {
            records[1] = with_buses(records[1].clone(), 0x23, 0x23);
            records[2] = moved(records[2].clone(), 0x23);
        }),
        0
    );
    // Disabled bridges lead as well.
    assert_eq!(at(1, |bridge| bridge.command(0)), 0);
}

/// Two bridges to one bus. Their ranges then also overlap as siblings', or one is outside of its parent's.
#[test]
fn two_bridges_to_one_bus() {
    assert_eq!(and(Record::bridge(0x2110, 0x22, 0x22)), 50);
    assert_eq!(and(Record::bridge(0x2018, 0x22, 0x22)), 50);
    assert_eq!(and(Record::bridge(0x2018, 0x24, 0x24)), 50);
    assert_eq!(and(Record::bridge(0x2408, 0x25, 0x25)), 50);
    // To a bus without functions.
    assert_eq!(and(Record::bridge(0x2110, 0x23, 0x23)), 0);
    let twice = [Record::bridge(0x2110, 0x23, 0x23), Record::bridge(0x2118, 0x23, 0x23)];
    assert_eq!(of(|records| records.extend(twice.clone())), 50);
}

#[test]
fn ranges_in_the_parents() {
    assert_eq!(at(1, |bridge| with_buses(bridge, 0x22, 0x23)), 0);
    // In the host's, but not in the range 21 to 23 of the bridge above.
    assert_eq!(at(1, |bridge| with_buses(bridge, 0x22, 0x24)), 50);
    assert_eq!(and(Record::bridge(0x2110, 0x24, 0x24)), 50);
    // The parent is the bridge just above: 23 is in the range of the next one up.
    let below = Record::bridge(0x2208, 0x23, 0x23);
    assert_eq!(and(below.clone()), 50);
    assert_eq!(
        of(|records| {
            records[1] = with_buses(records[1].clone(), 0x22, 0x23);
            records.push(below.clone());
        }),
        0
    );
}

#[test]
fn ranges_in_the_hosts() {
    assert_eq!(on(|host| host.buses.1 = 0x25), 0);
    assert_eq!(on(|host| host.buses.1 = 0x23), 50);
    assert_eq!(at(5, |bridge| with_buses(bridge, 0x24, 0x25)), 50);
    // The first bridge alone, to 21 to 23.
    for (last, expected) in [(0x24, 0), (0x23, 0), (0x22, 50), (0x20, 50)] {
        let host = Board { buses: (0x20, last), ..host() };
        assert_eq!(number(&host, &records()[..5]), expected, "{last:02X}");
    }
    // Up to bus FF.
    let last = Record::bridge(0xFE00, 0xFF, 0xFF);
    assert_eq!(number(&Board { buses: (0xFE, 0xFF), ..host() }, std::slice::from_ref(&last)), 0);
    assert_eq!(number(&Board { buses: (0xFE, 0xFE), ..host() }, &[last]), 50);
}

#[test]
fn ranges_of_siblings() {
    // One bus in both, and none.
    assert_eq!(at(0, |bridge| with_buses(bridge, 0x21, 0x24)), 50);
    assert_eq!(at(0, |bridge| with_buses(bridge, 0x21, 0x22)), 0);
    let pair = |one: (u8, u8), other: (u8, u8)| {
        let bridges = [Record::bridge(0x2000, one.0, one.1), Record::bridge(0x2008, other.0, other.1)];
        let host = Board { buses: (0x20, 0x2F), ..host() };
        let numbers = [number(&host, &bridges), number(&host, &[bridges[1].clone(), bridges[0].clone()])];
        assert_eq!(numbers[0], numbers[1]);
        numbers[0]
    };
    assert_eq!(pair((0x21, 0x23), (0x24, 0x2F)), 0);
    assert_eq!(pair((0x21, 0x21), (0x23, 0x23)), 0);
    assert_eq!(pair((0x21, 0x24), (0x24, 0x2F)), 50);
    assert_eq!(pair((0x21, 0x2F), (0x24, 0x24)), 50);
    assert_eq!(pair((0x21, 0x2F), (0x2F, 0x2F)), 50);
    assert_eq!(pair((0x21, 0x23), (0x21, 0x22)), 50);
    // Below another bridge too: 22, and 22 to 23.
    assert_eq!(and(Record::bridge(0x2110, 0x23, 0x23)), 0);
    assert_eq!(
        of(|records| {
            records[1] = with_buses(records[1].clone(), 0x22, 0x23);
            records.push(Record::bridge(0x2110, 0x23, 0x23));
        }),
        50
    );
}

#[test]
fn bars_in_the_window_above() {
    // The window is F9000000 to F91FFFFF, and that of the bridge above it reaches to F93FFFFF.
    assert_eq!(at(2, |end| end.value(0, 0xF920_0000)), 51);
    assert_eq!(at(2, |end| end.value(0, 0xF8F0_0000)), 51);
    assert_eq!(at(2, |end| end.value(4, 0xF930_0004)), 51);
    // Its start inside and its end not, and the other way round; 2 MiB fill the window, and so lie on the other BAR.
    assert_eq!(at(2, |end| end.bar(0, memory(22), 0xF900_0000)), 51);
    assert_eq!(at(2, |end| end.bar(0, memory(21), 0xF900_0000)), 52);
    assert_eq!(at(2, |end| end.bar(0, memory(21), 0xF900_0000).bar(4, 0, 0).bar(5, 0, 0)), 0);
    assert_eq!(
        of(|records| {
            records[1] = records[1].clone().low(0xF910, 0xF910);
            records[2] = records[2].clone().bar(0, memory(21), 0xF900_0000);
        }),
        51
    );
    // High: 2_40000000 to 2_401FFFFF.
    assert_eq!(at(2, |end| end.wide(2, 12, 20, 0x2_4010_0000)), 0);
    assert_eq!(at(2, |end| end.wide(2, 12, 20, 0x2_4020_0000)), 51);
    assert_eq!(at(2, |end| end.wide(2, 12, 20, 0x2_3FF0_0000)), 51);
    assert_eq!(at(2, |end| end.wide(2, 12, 20, 0x3_4000_0000)), 51);
    assert_eq!(at(2, |end| end.wide(2, 12, 22, 0x2_4000_0000)), 51);
    // I/O: 4000 to 4FFF.
    assert_eq!(at(2, |end| end.value(1, 0x4F01)), 0);
    assert_eq!(at(2, |end| end.value(1, 0x5001)), 51);
    assert_eq!(at(2, |end| end.value(1, 0x3F01)), 51);
    assert_eq!(at(2, |end| end.bar(1, io(13), 0x4001)), 51);
    // On the secondary bus of a bridge it is not the pool that counts.
    assert_eq!(at(6, |end| end.value(0, 0xF940_0000)), 51);
}

#[test]
fn windows_in_the_window_above() {
    for (base, limit) in [(0xF900, 0xF940), (0xF8F0, 0xF910), (0x0000, 0xFFF0), (0xF940, 0xF940)] {
        assert_eq!(at(1, |bridge| bridge.low(base, limit)), 51, "{base:04X}");
    }
    for (base, limit) in [(0x4001, 0x4041), (0x3FF1, 0x4011)] {
        assert_eq!(at(1, |bridge| bridge.high(base, limit, 2, 2)), 51, "{base:04X}");
    }
    assert_eq!(at(1, |bridge| bridge.high(0x4001, 0x4011, 2, 3)), 51);
    assert_eq!(at(1, |bridge| bridge.high(0x4001, 0x4011, 1, 2)), 51);
    assert_eq!(at(1, |bridge| bridge.high(0x4001, 0xFFF1, 2, 0xFFFF_FFFF)), 51);
    for (base, limit) in [(0x40, 0x60), (0x30, 0x40), (0x00, 0xF0)] {
        assert_eq!(at(1, |bridge| bridge.io(base, limit)), 51, "{base:02X}");
    }
    // Filling the window above, it lies on the BARs beside it.
    assert_eq!(at(1, |bridge| bridge.low(0xF900, 0xF930)), 52);
    assert_eq!(
        of(|records| {
            records[1] = records[1].clone().low(0xF900, 0xF930).high(0x4001, 0x4031, 2, 2).io(0x40, 0x50);
            records.remove(3);
        }),
        0
    );
}

#[test]
fn the_root_bus_in_the_pools() {
    // Each edge one granule further in or out.
    assert_eq!((on(|host| host.low.0 += 1 << 20), on(|host| host.low.0 -= 1 << 20)), (51, 0));
    assert_eq!((on(|host| host.low.1 -= 1 << 20), on(|host| host.low.1 += 1 << 20)), (51, 0));
    assert_eq!((on(|host| host.high.0 += 1 << 20), on(|host| host.high.0 -= 1 << 20)), (51, 0));
    assert_eq!((on(|host| host.high.1 -= 1 << 20), on(|host| host.high.1 += 1 << 20)), (51, 0));
    assert_eq!((on(|host| host.io.0 += 1 << 12), on(|host| host.io.0 -= 1 << 12)), (51, 0));
    assert_eq!((on(|host| host.io.1 -= 1 << 12), on(|host| host.io.1 += 1 << 12)), (51, 0));
    // A BAR and a window just past an edge.
    assert_eq!(at(4, |end| end.value(0, 0xF970_0000)), 51);
    assert_eq!(at(4, |end| end.value(0, 0xF8F0_0000)), 51);
    assert_eq!(at(4, |end| end.value(1, 0x8001)), 51);
    assert_eq!(at(4, |end| end.wide(2, 12, 20, 0x2_4060_0000)), 51);
    assert_eq!(at(4, |end| end.wide(2, 12, 20, 0xFFFF_FFFF_FFF0_0000)), 51);
    assert_eq!(at(4, |end| end.wide(2, 12, 63, 0x8000_0000_0000_0000)), 51);
    assert_eq!(at(5, |bridge| bridge.low(0xF960, 0xF970)), 51);
    assert_eq!(at(5, |bridge| bridge.high(0x4051, 0x4061, 2, 2)), 51);
    assert_eq!(at(5, |bridge| bridge.io(0x70, 0x80)), 51);
    // A bridge's own BAR is on the bus above.
    assert_eq!(at(5, |bridge| bridge.value(0, 0xF970_0000)), 51);
}

#[test]
fn each_kind_in_its_own_pool() {
    // 64-bit and not prefetchable: low, although the high window has room at this address.
    assert_eq!(at(2, |end| end.wide(4, 4, 20, 0x2_4010_0000)), 51);
    assert_eq!(at(2, |end| end.bar(4, 0, 0).bar(5, 0, 0)), 0);
    // 64-bit and prefetchable: high, although the low window has room.
    assert_eq!(at(2, |end| end.wide(4, 12, 20, 0xF910_0000)), 51);
    assert_eq!(at(2, |end| end.wide(4, 12, 20, 0x2_4010_0000)), 0);
    // 32-bit: low, prefetchable or not.
    assert_eq!(at(2, |end| end.bar(0, prefetchable(20), 0xF900_0008)), 0);
    // On the root bus the same. The low pool has a free place at F9700000, the high one at 2_40600000.
    let host = Board { low: (0xF900_0000, 0xF97F_FFFF), high: (0x2_4000_0000, 0x2_406F_FFFF), ..host() };
    let one = |kind, start| number(&host, &[records(), vec![Record::end(0x2018).wide(0, kind, 20, start)]].concat());
    assert_eq!((one(4, 0xF970_0000), one(4, 0x2_4060_0000)), (0, 51));
    assert_eq!((one(12, 0xF970_0000), one(12, 0x2_4060_0000)), (51, 0));
    // A prefetchable window below 4 GiB is in no high pool, though it is in the low one.
    assert_eq!(number(&host, &[Record::bridge(0x2000, 0x21, 0x21).high(0xF971, 0xF971, 0, 0)]), 51);
    assert_eq!(number(&host, &[Record::bridge(0x2000, 0x21, 0x21).high(0x4061, 0x4061, 2, 2)]), 0);
    assert_eq!(number(&host, &[Record::bridge(0x2000, 0x21, 0x21).low(0xF970, 0xF970)]), 0);
    // Low and high windows of one bridge over one address.
    let both = Record::bridge(0x2000, 0x21, 0x21).low(0xF970, 0xF970).high(0xF971, 0xF971, 0, 0);
    assert_eq!(number(&host, &[both]), 51);
}

/// One owner for every address: the same, with memory in any memory window or pool, and I/O in I/O.
#[test]
fn each_space_in_its_own() {
    let host = Board { low: (0xF900_0000, 0xF97F_FFFF), high: (0x2_4000_0000, 0x2_406F_FFFF), ..host() };
    let number = |records: &[Record]| sound(&host.host(), &sheet(records));
    let at = |index: usize, change: &dyn Fn(Record) -> Record| {
        let mut records = records();
        records[index] = change(records[index].clone());
        number(&records)
    };
    assert_eq!(number(&records()), 0);
    // A low BAR in the high window, a high one in the low window; then past both.
    assert_eq!(at(2, &|end| end.wide(4, 4, 20, 0x2_4010_0000)), 0);
    assert_eq!(at(2, &|end| end.wide(4, 12, 20, 0xF910_0000)), 0);
    assert_eq!(at(2, &|end| end.wide(4, 4, 20, 0x2_4020_0000)), 51);
    assert_eq!(at(2, &|end| end.wide(4, 12, 20, 0xF920_0000)), 51);
    // Partly in the one and partly in the other is in neither: the low pool ends where no high one can start.
    assert_eq!(at(2, &|end| end.wide(4, 12, 21, 0xF920_0000)), 51);
    // A prefetchable window in the low pool, with nothing there, and over another window of the same bridge.
    let bridge = Record::bridge(0x2000, 0x21, 0x21);
    assert_eq!(number(&[bridge.clone().high(0xF971, 0xF971, 0, 0)]), 0);
    assert_eq!(number(&[bridge.clone().high(0xF981, 0xF981, 0, 0)]), 51);
    assert_eq!(number(&[bridge.low(0xF970, 0xF970).high(0xF971, 0xF971, 0, 0)]), 52);
    // Memory never lies in an I/O window, nor I/O in one of memory.
    assert_eq!(number(&[Record::end(0x2000).bar(0, memory(12), 0x5000)]), 51);
    let only_low = Board { low: (0, 0xF_FFFF), io: CLOSED_IO, ..host.clone() };
    assert_eq!(sound(&only_low.host(), &sheet(&[Record::end(0x2000).bar(0, io(8), 0x5001)])), 51);
    // All other numbers are the audit's.
    assert_eq!(sound(&host.host()[..29], &sheet(&records())), 20);
    assert_eq!(at(1, &|bridge| with_buses(bridge, 0x23, 0x23)), 50);
    assert_eq!(at(2, &|end| end.set(0x0E, 2)), 24);
}

#[test]
fn below_a_closed_window() {
    // The one spelling of document 01, and others: base one granule above the limit.
    for (base, limit) in [(0xFFF0, 0x0000), (0xF910, 0xF900), (0xF960, 0xF950), (0x0010, 0x0000)] {
        assert_eq!(at(5, |bridge| bridge.low(base, limit)), 51, "{base:04X}");
        assert_eq!(
            of(|records| {
                records[5] = records[5].clone().low(base, limit);
                records[6] = records[6].clone().bar(0, 0, 0);
            }),
            0,
            "{base:04X}"
        );
    }
    for (base, limit, upper_base, upper_limit) in
        [(0xFFF1, 0x0001, 0, 0), (0x4061, 0x4051, 2, 2), (0x4051, 0x4051, 3, 2), (0xFFF1, 0x0001, 0xFFFF_FFFF, 0)]
    {
        assert_eq!(at(5, |bridge| bridge.high(base, limit, upper_base, upper_limit)), 51, "{base:04X}");
        assert_eq!(
            of(|records| {
                records[5] = records[5].clone().high(base, limit, upper_base, upper_limit);
                records[6] = records[6].clone().bar(2, 0, 0).bar(3, 0, 0);
            }),
            0,
            "{base:04X}"
        );
    }
    for (base, limit) in [(0xF0, 0x00), (0x80, 0x70), (0x10, 0x00)] {
        assert_eq!(at(5, |bridge| bridge.io(base, limit)), 51, "{base:02X}");
        assert_eq!(
            of(|records| {
                records[5] = records[5].clone().io(base, limit);
                records[6] = records[6].clone().bar(1, 0, 0);
            }),
            0,
            "{base:02X}"
        );
    }
    // A window inside a closed one. Zeros are no closed window: they open the first granule.
    assert_eq!(at(0, |bridge| bridge.low(0xFFF0, 0x0000)), 51);
    assert_eq!(at(5, |bridge| bridge.low(0x0000, 0x0000)), 51);
    assert_eq!(number(&host(), &[Record::bridge(0x2000, 0x21, 0x21).low(0, 0)]), 51);
    assert_eq!(number(&host(), &[Record::bridge(0x2000, 0x21, 0x21).io(0, 0)]), 51);
    assert_eq!(number(&host(), &[Record::bridge(0x2000, 0x21, 0x21).high(1, 1, 0, 0)]), 51);
    assert_eq!(number(&host(), &[Record::bridge(0x2000, 0x21, 0x21)]), 0);
}

#[test]
fn in_a_closed_pool() {
    assert_eq!(on(|host| host.low = CLOSED_LOW), 51);
    assert_eq!(on(|host| host.high = CLOSED_HIGH), 51);
    assert_eq!(on(|host| host.io = CLOSED_IO), 51);
    // Base above last and the item between: from the base on, and up to the last.
    assert_eq!(on(|host| host.io = (0x4000, 0x3FFF)), 51);
    assert_eq!(on(|host| host.io = (0x8000, 0x7FFF)), 51);
    // No item of the kind.
    let closed = Board { buses: (0x20, 0x24), ..Board::closed() };
    let bare = [Record::bridge(0x2000, 0x21, 0x23), Record::bridge(0x2100, 0x22, 0x22), Record::end(0x2200)];
    assert_eq!(number(&closed, &bare), 0);
    for item in [Record::end(0x2008).bar(0, memory(7), 0), Record::end(0x2008).bar(0, io(2), 1)] {
        assert_eq!(number(&closed, &[&bare[..], &[item]].concat()), 51);
    }
    for window in [bare[0].clone().low(0xF900, 0xF900), bare[0].clone().io(0x40, 0x40)] {
        assert_eq!(number(&closed, &[window]), 51);
    }
}

#[test]
fn at_address_0() {
    // A BAR that was never placed is at 0, which a pool may start at.
    assert_eq!(at(4, |end| end.value(0, 0)), 51);
    assert_eq!(at(4, |end| end.value(1, 1)), 51);
    let host = Board { low: (0, 0xF_FFFF), io: (0, 0xFFF), ..host() };
    let end = Record::end(0x2000).bar(0, memory(19), 0).bar(1, io(11), 1);
    assert_eq!(number(&host, std::slice::from_ref(&end)), 0);
    assert_eq!(number(&host, &[end.clone(), Record::end(0x2008).bar(0, memory(7), 0)]), 52);
    assert_eq!(number(&host, &[end, Record::end(0x2008).bar(0, io(2), 1)]), 52);
}

#[test]
fn bars_on_one_bus() {
    // The function's own. The first ends at F947FFFF.
    let own = |value| at(4, |end| end.bar(0, memory(19), 0xF940_0000).bar(4, memory(12), value));
    assert_eq!((own(0xF948_0000), own(0xF94F_F000)), (0, 0));
    assert_eq!((own(0xF940_0000), own(0xF947_F000), own(0xF941_0000)), (52, 52, 52));
    // I/O, 6000 to 60FF, then one of 4 bytes.
    let own = |value| at(4, |end| end.bar(1, io(8), 0x6001).bar(4, io(2), value));
    assert_eq!((own(0x6101), own(0x6FFD)), (0, 0));
    assert_eq!((own(0x6001), own(0x60FD)), (52, 52));
    // High, 2_40400000 to 2_4047FFFF.
    let own = |start| at(4, |end| end.wide(2, 12, 19, 0x2_4040_0000).wide(4, 12, 7, start));
    assert_eq!((own(0x2_4048_0000), own(0x2_4047_FF80)), (0, 52));
    // 64-bit and 32-bit ones in the low pool.
    assert_eq!(at(2, |end| end.wide(4, 4, 20, 0xF900_0000)), 52);
    // Another function's, on this bus and on another.
    assert_eq!(and(Record::end(0x2018).bar(0, memory(12), 0xF940_0000)), 52);
    assert_eq!(and(Record::end(0x2018).bar(0, memory(12), 0xF94F_F000)), 52);
    assert_eq!(and(Record::end(0x2018).bar(0, memory(20), 0xF940_0000)), 52);
    assert_eq!(and(Record::end(0x2110).bar(0, memory(20), 0xF930_0000)), 0);
    assert_eq!(and(Record::end(0x2110).bar(0, memory(20), 0xF920_0000)), 52);
    assert_eq!(and(Record::end(0x2208).bar(0, io(8), 0x4101)), 0);
    assert_eq!(and(Record::end(0x2208).bar(0, io(8), 0x4001)), 52);
}

#[test]
fn bars_and_windows_on_one_bus() {
    // F9300000 is in the first bridge's window and in none below: free on bus 21, taken on the root bus.
    assert_eq!(and(Record::end(0x2110).bar(0, memory(12), 0xF930_0000)), 0);
    assert_eq!(and(Record::end(0x2018).bar(0, memory(12), 0xF930_0000)), 52);
    assert_eq!(and(Record::end(0x2018).bar(0, memory(12), 0xF93F_F000)), 52);
    assert_eq!(and(Record::end(0x2018).wide(0, 12, 12, 0x2_4030_0000)), 52);
    assert_eq!(at(4, |end| end.bar(1, io(2), 0x5FFD)), 52);
    assert_eq!(at(4, |end| end.bar(1, io(2), 0x6001)), 0);
    assert_eq!(at(4, |end| end.bar(1, io(2), 0x6FFD)), 0);
    assert_eq!(at(4, |end| end.bar(1, io(2), 0x7001)), 52);
    // A window one granule larger, over the BAR next to it.
    assert_eq!(at(0, |bridge| bridge.low(0xF900, 0xF940)), 52);
    assert_eq!(at(0, |bridge| bridge.high(0x4001, 0x4041, 2, 2)), 52);
    assert_eq!(at(0, |bridge| bridge.io(0x40, 0x60)), 52);
    // A bridge's own BAR and its own windows.
    assert_eq!(at(5, |bridge| bridge.value(0, 0xF960_0000)), 52);
    assert_eq!(at(5, |bridge| bridge.low(0xF950, 0xF960)), 52);
    assert_eq!(at(5, |bridge| bridge.bar(1, memory(7), 0xF960_0000)), 52);
    assert_eq!(at(5, |bridge| bridge.bar(1, memory(7), 0xF950_0000)), 52);
    assert_eq!(at(5, |bridge| bridge.bar(0, memory(19), 0xF950_0000).bar(1, memory(19), 0xF958_0000)), 0);
    assert_eq!(at(5, |bridge| bridge.bar(1, io(2), 0x7001)), 52);
    assert_eq!(at(5, |bridge| bridge.bar(0, high(20)[0], 0x4050_000C).bar(1, high(20)[1], 2)), 52);
}

#[test]
fn windows_on_one_bus() {
    let roomy =
        Board { low: (0xF900_0000, 0xF9FF_FFFF), high: (0x2_4000_0000, 0x2_4FFF_FFFF), io: (0, 0xFFFF), ..host() };
    let bridge = |index: u8| Record::bridge(0x2000 + 8 * u16::from(index), 0x21 + index, 0x21 + index);
    let pair = |one: Record, other: Record| number(&roomy, &[one, other]);
    let low = |one: (u16, u16), other: (u16, u16)| pair(bridge(0).low(one.0, one.1), bridge(1).low(other.0, other.1));
    assert_eq!(low((0xF900, 0xF910), (0xF920, 0xF930)), 0);
    assert_eq!(low((0xF920, 0xF930), (0xF900, 0xF910)), 0);
    assert_eq!(low((0xF900, 0xF910), (0xF910, 0xF930)), 52);
    assert_eq!(low((0xF910, 0xF930), (0xF900, 0xF910)), 52);
    assert_eq!(low((0xF900, 0xF9F0), (0xF950, 0xF950)), 52);
    assert_eq!(low((0xF950, 0xF950), (0xF950, 0xF950)), 52);
    let high = |one: (u16, u16), other: (u16, u16)| {
        pair(bridge(0).high(one.0, one.1, 2, 2), bridge(1).high(other.0, other.1, 2, 2))
    };
    assert_eq!(high((0x4001, 0x4011), (0x4021, 0x4031)), 0);
    assert_eq!(high((0x4001, 0x4021), (0x4021, 0x4031)), 52);
    let io = |one: (u8, u8), other: (u8, u8)| pair(bridge(0).io(one.0, one.1), bridge(1).io(other.0, other.1));
    assert_eq!(io((0x00, 0x10), (0x20, 0xF0)), 0);
    assert_eq!(io((0x00, 0x20), (0x20, 0xF0)), 52);
    assert_eq!(io((0xF0, 0xF0), (0x00, 0xE0)), 0);
    // Closed ones are nowhere, also if their registers are alike or lie across an open one.
    assert_eq!(low((0xF910, 0xF900), (0xF910, 0xF900)), 0);
    assert_eq!(low((0xF930, 0xF900), (0xF910, 0xF920)), 0);
}

/// Memory and I/O are two spaces: the same numbers are other places.
#[test]
fn one_space() {
    let host = Board { low: (0, 0xF_FFFF), io: (0, 0xFFFF), ..host() };
    let end = Record::end(0x2000).bar(0, memory(12), 0x4000).bar(1, io(12), 0x4001);
    assert_eq!(number(&host, std::slice::from_ref(&end)), 0);
    assert_eq!(number(&host, &[end.clone(), Record::bridge(0x2008, 0x21, 0x21).io(0x50, 0xF0)]), 0);
    assert_eq!(number(&host, &[end, Record::bridge(0x2008, 0x21, 0x21).io(0x40, 0xF0)]), 52);
}

/// What is disabled counts as much as what is enabled.
#[test]
fn enables() {
    for command in [0, 1, 2, 3, 0xFFFC, 0xFFFF] {
        let all = |change: &dyn Fn(&mut Vec<Record>)| {
            of(|records| {
                change(records);
                records.iter_mut().for_each(|record| *record = record.clone().command(command));
            })
        };
        assert_eq!(all(&|_| ()), 0);
        assert_eq!(all(&|records| records.push(Record::end(0x2300))), 50);
        assert_eq!(all(&|records| records[2] = records[2].clone().value(0, 0xF920_0000)), 51);
        assert_eq!(all(&|records| records[2] = records[2].clone().value(1, 0x5001)), 51);
        assert_eq!(all(&|records| records[5] = records[5].clone().value(0, 0xF940_0000)), 52);
        assert_eq!(all(&|records| records[4] = records[4].clone().value(1, 0x7001)), 52);
        // One of the two.
        assert_eq!(and(Record::end(0x2018).bar(0, memory(12), 0xF940_0000).command(command)), 52);
    }
}

/// 255 bridges in a row, all windows one within the other, and a function behind the last.
#[test]
fn bridges_in_a_row() {
    let host = Board { buses: (0, 255), low: (0xF900_0000, 0xF90F_FFFF), io: (0x4000, 0x4FFF), ..host() };
    let mut records: Vec<Record> = (0..255)
        .map(|bus: u8| Record::bridge(u16::from(bus) << 8, bus + 1, 255).low(0xF900, 0xF900).io(0x40, 0x40))
        .collect();
    records.push(Record::end(0xFF00).bar(0, memory(20), 0xF900_0000).bar(1, io(12), 0x4001));
    assert_eq!(number(&host, &records), 0);
    let bytes = sheet(&records);
    for header in [request(MRD, 0xF900_0000), request(MRD, 0xF90F_FFFC), request(IORD, 0x4FFC)] {
        let packet = plain::read(&header).unwrap();
        assert_eq!(plain::route(&header, &bytes), Ok(Arrival::Function { record: 256, bridges: 255, packet }));
    }
    // The hundredth window is elsewhere, or closed.
    let mut other = records.clone();
    other[99] = other[99].clone().low(0xF910, 0xF910);
    assert_eq!(number(&host, &other), 51);
    other[99] = other[99].clone().low(0xFFF0, 0x0000);
    assert_eq!(number(&host, &other), 51);
    // The hundredth bridge's range ends before the next one's.
    records[99] = with_buses(records[99].clone(), 100, 254);
    assert_eq!(number(&host, &records), 50);
}

#[test]
fn the_program() {
    let (host, sheet) = (host().host(), sheet(&records()));
    let printed = |host: &[u8], sheet: &[u8]| String::from_utf8(programs::audit(&[host, sheet].concat())).unwrap();
    assert_eq!(printed(&host, &sheet), "accepted\n");
    assert_eq!(printed(&host, &[1]), "accepted\n");
    // All that there is, is the host record.
    for length in 0..30 {
        assert_eq!(printed(&host[..length], &[]), "refused 20\n");
    }
    // No sheet; another version; half a record.
    assert_eq!(printed(&host, &[]), "refused 20\n");
    assert_eq!(printed(&host, &[2]), "refused 21\n");
    assert_eq!(printed(&host, &sheet[..50]), "refused 20\n");
    assert_eq!(printed(&[0xFF; 30], &sheet), "refused 26\n");
    assert_eq!(printed(&host, &self::sheet(&records()[1..])), "refused 50\n");
}
