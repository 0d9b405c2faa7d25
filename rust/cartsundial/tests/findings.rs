//! Who fails an audit, in words.

use cartsundial::{audit_where, HostRecord, Place, Pool, Refusal};
use std::fs;

fn audited(name: &str) -> String {
    let read = |extension: &str| {
        fs::read(format!("{}/../../tests/audit/{name}.{extension}", env!("CARGO_MANIFEST_DIR"))).unwrap()
    };
    let host = HostRecord::from_bytes(read("host").as_slice().try_into().unwrap());
    audit_where(&host, &read("sheet")).map_or_else(|finding| finding.to_string(), |()| "accepted".to_string())
}

#[test]
fn captured_sheets() {
    assert_eq!(audited("ovmf-one-bridge"), "accepted");
    // The first of three BARs in the bridge's window.
    assert_eq!(
        audited("ovmf-overlap"),
        "52 overlap: record 2 (00:01.0) I/O window 6000-6FFF and record 3 (00:01.1) BAR 1 6200-62FF"
    );
    // A prefetchable window below 4 GiB.
    assert_eq!(audited("seabios-one-bridge"), "51 place: record 2 (00:02.0) high window F8000000-FBFFFFFF");
}

/// Two bridges on bus 0, records 1 and 2, both to buses 01-02; then the second on bus 4, which nobody leads to.
#[test]
fn buses() {
    let mut sheet = vec![1];
    for id in [[0x00, 0x00], [0x00, 0x08]] {
        let mut record = [0; 92];
        record[..4].copy_from_slice(&[0, 90, id[0], id[1]]);
        record[4 + 0x0E] = 1;
        record[4 + 0x19..][..2].copy_from_slice(&[1, 2]);
        record[4 + 0x1C] = 0xF0;
        record[4 + 0x20..][..2].copy_from_slice(&[0xF0, 0xFF]);
        record[4 + 0x24..][..4].copy_from_slice(&[0xF1, 0xFF, 0x01, 0x00]);
        sheet.extend(record);
    }
    let finding = audit_where(&HostRecord::CLOSED, &sheet).unwrap_err();
    assert_eq!(finding.refusal, Refusal::NotTree);
    assert_eq!(
        finding.to_string(),
        "50 bus tree: record 1 (00:00.0) bus registers 01-02 and record 2 (00:01.0) bus registers 01-02"
    );
    sheet[1 + 92 + 2] = 4;
    sheet[1 + 92 + 4 + 0x18..][..3].copy_from_slice(&[4, 5, 5]);
    let finding = audit_where(&HostRecord::CLOSED, &sheet).unwrap_err();
    assert_eq!(finding.to_string(), "50 bus tree: record 2 (04:01.0)");
    sheet[0] = 2;
    let finding = audit_where(&HostRecord::CLOSED, &sheet).unwrap_err();
    assert_eq!((finding.to_string().as_str(), finding.party), ("21 version not 1, of a board neither 1 nor 2", None));
}

#[test]
fn places_by_number() {
    for number in 0..=10 {
        assert_eq!(Place::from_number(number).unwrap().number(), number);
    }
    assert_eq!(Place::from_number(7), Some(Place::Window(Pool::High)));
    assert_eq!(Place::from_number(11), None);
}
