//! Request E12 of document 02, sentence by sentence.

use plain::ledger::{complete, count, open, Completed, PLACES};

/// Byte 0 of each non-posted request.
const MRD: u8 = 0x00;
const MRDLK: u8 = 0x01;
const IORD: u8 = 0x02;
const IOWR: u8 = 0x42;
const CFGRD: [u8; 2] = [0x04, 0x05];
const CFGWR: [u8; 2] = [0x44, 0x45];
const MWR: u8 = 0x40;
/// And of each completion.
const CPL: u8 = 0x0A;
const CPLD: u8 = 0x4A;
const CPLLK: u8 = 0x0B;
const CPLDLK: u8 = 0x4B;

const SUCCESS: u8 = 0b000;
const UNSUPPORTED: u8 = 0b001;
const RETRY: u8 = 0b010;
const ABORT: u8 = 0b100;

/// A request of one dword by 12:06.4.
fn request(byte0: u8, tag: u16) -> [u8; 12] {
    [byte0, tag_bits(tag), 0, 1, 0x12, 0x34, tag as u8, 0x0F, 0, 0, 0, 0]
}

/// A memory read of so many dwords, under tag 7.
fn read(dwords: u16) -> [u8; 12] {
    let mut header = request(MRD, 7);
    header[2..4].copy_from_slice(&(dwords % 1024).to_be_bytes());
    header[7] = if dwords == 1 { 0x0F } else { 0xFF };
    header
}

fn completion(byte0: u8, tag: u16, status: u8, dwords: u16) -> [u8; 12] {
    let [high, low] = (dwords % 1024).to_be_bytes();
    [byte0, tag_bits(tag), high, low, 0, 1, status << 5, 4, 0x12, 0x34, tag as u8, 0]
}

/// Tag bit 9 is byte 1's bit 7, and tag bit 8 its bit 3.
fn tag_bits(tag: u16) -> u8 {
    (tag >> 2 & 0x80 | tag >> 5 & 0x08) as u8
}

const EMPTY: [u64; PLACES] = [0; PLACES];

/// A ledger with this request open.
fn opened(header: &[u8]) -> [u64; PLACES] {
    let mut ledger = EMPTY;
    assert_eq!(open(&mut ledger, header), Ok(()));
    assert_eq!(count(&ledger), 1);
    ledger
}

/// What becomes of a ledger with this request open by this completion.
fn completed(request: &[u8], completion: &[u8]) -> Result<Completed, u8> {
    let mut ledger = opened(request);
    let before = ledger;
    let answer = complete(&mut ledger, completion);
    assert!(answer.is_ok() || ledger == before);
    assert_eq!(count(&ledger), usize::from(answer != Ok(Completed::Closed)));
    answer
}

#[test]
fn what_can_be_opened_and_completed_with() {
    for byte0 in [MRD, MRDLK, IORD, IOWR, CFGRD[0], CFGRD[1], CFGWR[0], CFGWR[1]] {
        let mut ledger = opened(&request(byte0, 7));
        assert_eq!(complete(&mut ledger, &request(byte0, 7)), Err(60));
    }
    for byte0 in [CPL, CPLD, CPLLK, CPLDLK] {
        let header = completion(byte0, 7, SUCCESS, u16::from(byte0 & 0x40 != 0));
        assert_eq!((open(&mut EMPTY.clone(), &header), complete(&mut EMPTY.clone(), &header)), (Err(60), Err(63)));
    }
    let message = [0x30, 0, 0, 0, 0, 0, 0, 0x18, 0, 0, 0, 0, 0, 0, 0, 0];
    for header in [&request(MWR, 7)[..], &message] {
        assert_eq!((open(&mut EMPTY.clone(), header), complete(&mut EMPTY.clone(), header)), (Err(60), Err(60)));
    }
    // The header's number comes first.
    assert_eq!((open(&mut EMPTY.clone(), &[0; 11]), complete(&mut EMPTY.clone(), &[0; 11])), (Err(1), Err(1)));
}

#[test]
fn keys() {
    let mut ledger = opened(&request(MRD, 7));
    assert_eq!(open(&mut ledger, &request(CFGWR[0], 7)), Err(61));
    // Ten bits of the tag, sixteen of the requester.
    for tag in (0..10).map(|bit| 7 ^ 1 << bit) {
        assert_eq!(complete(&mut ledger, &completion(CPLD, tag, SUCCESS, 1)), Err(63));
        assert_eq!(open(&mut ledger, &request(IORD, tag)), Ok(()));
    }
    for bit in 0..16 {
        let mut other = request(IORD, 7);
        other[4 + bit / 8] ^= 1 << (bit % 8);
        assert_eq!(open(&mut ledger, &other), Ok(()));
    }
    assert_eq!(count(&ledger), 27);
}

#[test]
fn a_full_ledger() {
    let mut ledger = EMPTY;
    for tag in 0..256 {
        assert_eq!(open(&mut ledger, &request(MRD, tag)), Ok(()));
    }
    assert_eq!(open(&mut ledger, &request(MRD, 255)), Err(61));
    assert_eq!(open(&mut ledger, &request(MRD, 256)), Err(62));
    assert_eq!(complete(&mut ledger, &completion(CPLD, 99, SUCCESS, 1)), Ok(Completed::Closed));
    assert_eq!(open(&mut ledger, &request(MRD, 256)), Ok(()));
    assert_eq!(open(&mut ledger, &request(MRD, 99)), Err(62));
    assert_eq!(count(&ledger), 256);
}

#[test]
fn successes() {
    let forms = [(CPL, 0), (CPLD, 1), (CPLLK, 0), (CPLDLK, 1)];
    let closes = |byte0, right| {
        for (form, dwords) in forms {
            let answer = completed(&request(byte0, 7), &completion(form, 7, SUCCESS, dwords));
            assert_eq!(answer, if form == right { Ok(Completed::Closed) } else { Err(64) }, "{byte0:02X} {form:02X}");
        }
    };
    [MRD, IORD, CFGRD[0], CFGRD[1]].into_iter().for_each(|byte0| closes(byte0, CPLD));
    [IOWR, CFGWR[0], CFGWR[1]].into_iter().for_each(|byte0| closes(byte0, CPL));
    closes(MRDLK, CPLDLK);
}

/// An unsuccessful completion closes in any form, retry only a configuration request.
#[test]
fn other_statuses() {
    for byte0 in [MRD, MRDLK, IORD, IOWR, CFGRD[0], CFGRD[1], CFGWR[0], CFGWR[1]] {
        for (form, dwords) in [(CPL, 0), (CPLD, 9), (CPLLK, 0), (CPLDLK, 9)] {
            for status in [UNSUPPORTED, ABORT] {
                let answer = completed(&request(byte0, 7), &completion(form, 7, status, dwords));
                assert_eq!(answer, Ok(Completed::Closed));
            }
            let answer = completed(&request(byte0, 7), &completion(form, 7, RETRY, dwords));
            let is_configuration = CFGRD.contains(&byte0) || CFGWR.contains(&byte0);
            assert_eq!(answer, if is_configuration { Ok(Completed::Closed) } else { Err(64) });
        }
    }
}

#[test]
fn a_read_in_parts() {
    let part = |dwords| completion(CPLD, 7, SUCCESS, dwords);
    let mut ledger = opened(&read(1024));
    assert_eq!(complete(&mut ledger, &part(1000)), Ok(Completed::Open(24)));
    assert_eq!(complete(&mut ledger, &part(25)), Err(65));
    // 64 before 65.
    assert_eq!(complete(&mut ledger, &completion(CPLDLK, 7, SUCCESS, 25)), Err(64));
    assert_eq!(complete(&mut ledger, &part(23)), Ok(Completed::Open(1)));
    assert_eq!(complete(&mut ledger, &part(1)), Ok(Completed::Closed));
    assert_eq!(complete(&mut ledger, &part(1)), Err(63));
    assert_eq!(ledger, EMPTY);
    let mut ledger = opened(&read(8));
    assert_eq!(complete(&mut ledger, &part(4)), Ok(Completed::Open(4)));
    assert_eq!(complete(&mut ledger, &completion(CPL, 7, ABORT, 0)), Ok(Completed::Closed));
}
