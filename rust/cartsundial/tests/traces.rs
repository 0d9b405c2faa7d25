//! A trace's lines by the types: what each says, record numbers that wrap, empty slices, and a small stack.

use cartsundial::{
    calls, lines, plan, Annotator, Engine, Id, Kind, Label, NoKind, NoLabel, Owner, Refusal, Sender, FULL_SHEET,
    LONGEST_LINE,
};
use inputs::board::{self, memory};
use inputs::foreign::{configuration, message, request, sheet, Record, CFGRD1, IOWR, MRD, MSG};
use inputs::trace;
use std::thread;

fn p10() -> Vec<u8> {
    let mut sheet = vec![0; FULL_SHEET];
    let length = plan(&board::p10().bytes(), &mut sheet).unwrap();
    sheet.truncate(length);
    sheet
}

/// Over P10's sheet: owner 2, no owner, a refused header, every function, the port, and a kind that arrives as another.
fn headers() -> [Vec<u8>; 6] {
    [
        request(MRD, 0xF900_0FFC),
        request(IOWR, 0x4100),
        request(MRD, 0xF900_0FFD),
        message(MSG, 0b011, 0x19, 0),
        message(MSG, 0b100, 0x20, 0),
        configuration(CFGRD1, 0x0100, 0),
    ]
}

#[test]
fn labels() {
    let owned = |number, kind, owner| Label::Owned { number, kind, sender: None, owner };
    let refused = |number, kind, refusal| Label::Refused { number, kind, sender: None, refusal };
    let trace = trace::of(&headers());
    let labels: Vec<Label> = lines(&p10(), &trace[..trace.len() - 1]).map(|line| line.label()).collect();
    assert_eq!(
        labels,
        [
            owned(1, Kind::MRd, Owner::Function(2)),
            refused(2, Some(Kind::IOWr), Refusal::NoOwner),
            refused(3, None, Refusal::ReservedBits),
            owned(4, Kind::Msg, Owner::Every),
            owned(5, Kind::Msg, Owner::Port),
            Label::Cut,
        ]
    );
    let last = lines(&p10(), &trace).last().unwrap();
    assert_eq!((&*last, last.label()), ("6 CfgRd1 owner 2", owned(6, Kind::CfgRd1, Owner::Function(2))));
    assert_eq!(format!("{last:>18}|{last:?}"), "  6 CfgRd1 owner 2|\"6 CfgRd1 owner 2\"");
    // A sheet that fails its checks is refused header by header.
    assert_eq!(lines(&[], &trace).next().unwrap().label(), refused(1, Some(Kind::MRd), Refusal::Frame));
    for (trace, label) in [(&[][..], Label::NoTrace(Refusal::Frame)), (&[2, 0], Label::NoTrace(Refusal::Version))] {
        assert!(lines(&p10(), trace).map(|line| line.label()).eq([label]));
    }
    assert!(lines(&p10(), &[1]).next().is_none());
}

#[test]
fn kinds_by_name() {
    for kind in Kind::ALL {
        assert_eq!((kind.name(), kind.to_string()), (&*format!("{kind:?}"), format!("{kind:?}")));
        assert_eq!(kind.name().parse(), Ok(kind));
    }
    assert_eq!("mrd".parse::<Kind>(), Err(NoKind));
}

#[test]
fn no_lines() {
    assert_eq!("refused 20".parse(), Ok(Label::NoTrace(Refusal::Frame)));
    for text in [
        "",
        "cut ",
        "refused",
        "refused 12",
        "1 MRd",
        "1 MRd owner",
        "1 MRd owner 2 3",
        "1 - owner 2",
        "x MRd refused 40",
        // The host gets only what has a sender, and a header that is not read has none.
        "1 MRd owner host",
        "1 MRd from host",
        "1 MRd from host owner 2",
        "1 MRd from all to 2",
        "1 - from host refused 4",
        "1 MRd from host to 2 3",
    ] {
        assert_eq!(text.parse::<Label>(), Err(NoLabel), "{text}");
    }
}

#[test]
fn both_ends_in_words() {
    let owned = |number, kind, sender, owner| Label::Owned { number, kind, sender: Some(sender), owner };
    let refused =
        |number, kind, sender, refusal| Label::Refused { number, kind: Some(kind), sender: Some(sender), refusal };
    for (text, label) in [
        ("4 MWr from 3 to host", owned(4, Kind::MWr, Sender::Record(3), Owner::Host)),
        ("6 MRd from host to 4", owned(6, Kind::MRd, Sender::Host, Owner::Function(4))),
        ("8 Msg from host to all", owned(8, Kind::Msg, Sender::Host, Owner::Every)),
        ("9 Msg from 3 to port", owned(9, Kind::Msg, Sender::Record(3), Owner::Port)),
        ("7 MWr from 3 refused 44", refused(7, Kind::MWr, Sender::Record(3), Refusal::NoBusMaster)),
        ("3 MRd from host refused 40", refused(3, Kind::MRd, Sender::Host, Refusal::NoOwner)),
    ] {
        assert_eq!((text.parse(), label.to_string()), (Ok(label), text.to_string()));
    }
}

/// The lines with both ends that are as long as any.
#[test]
fn longest_with_both_ends() {
    let mut annotator = Annotator::after(u64::MAX - 1);
    let header = configuration(CFGRD1, 0x0100, 0);
    let mut room = [0; LONGEST_LINE];
    let piece = &trace::of(&[&header[..]])[1..];
    let length = annotator.feed(Engine::both_ends(Id(0), &[1]), piece, &mut room).unwrap();
    assert_eq!(&room[..length], b"18446744073709551615 CfgRd1 from host refused 40\n");
    assert!(length <= LONGEST_LINE);
}

/// These lines are as long as any.
#[test]
fn numbers_wrap() {
    let mut state = [2, 0, u64::MAX - 2, 0, 0, 0];
    let header = configuration(CFGRD1, 0x0100, 0);
    let records = &trace::of(&[&header[..], &header, &header])[1..];
    let mut room = [0; 120];
    let mut written = [0];
    assert_eq!(calls::annotate(&mut state, &[], records, &mut room, &mut written), 0);
    let lines = "18446744073709551614 CfgRd1 refused 20\n18446744073709551615 CfgRd1 refused 20\n0 CfgRd1 refused 20\n";
    assert_eq!(&room[..written[0] as usize], lines.as_bytes());
    assert!(lines.lines().all(|line| line.len() < LONGEST_LINE));
    assert_eq!(state, [2, 0, 0, 0, 0, 0]);
}

#[test]
fn empty_slices() {
    let mut annotator = Annotator::new();
    assert_eq!(annotator.feed(&[], &[], &mut []), Ok(0));
    assert_eq!(annotator, Annotator::new());
    assert_eq!(annotator.finish(&mut []), Err(Refusal::ShortRoom));
    assert_eq!(annotator.feed(&[], &[1], &mut []), Ok(0));
    assert_eq!(annotator.finish(&mut []), Ok(0));
    assert_eq!(annotator.record_number(), 0);
    // A short state is 11 and no state 10, before the rest; then 11 for the lines, or for how many they are.
    assert_eq!(calls::annotate(&mut [], &[], &[], &mut [], &mut []), 11);
    assert_eq!(calls::annotate(&mut [5, 0, 0, 0, 0], &[], &[], &mut [], &mut []), 11);
    assert_eq!(calls::annotate(&mut [5, 0, 0, 0, 0, 0], &[], &[], &mut [], &mut []), 10);
    assert_eq!(calls::annotate(&mut [0; 6], &[], &[], &mut [], &mut []), 11);
    for (numbers, number) in [(&mut [][..], 11), (&mut [5; 5], 11), (&mut [5; 6], 10), (&mut [0; 6], 11)] {
        assert_eq!(calls::label(numbers, &[], &[], &mut [], &mut []), number);
    }
    assert_eq!(calls::label(&mut [0; 6], &[], &[], &mut [], &mut [7]), 0);
    assert_eq!(calls::annotate_end(&[], &mut [], &mut []), 11);
    assert_eq!(calls::annotate_end(&[4, 0, 0, 0, 0, 0], &mut [], &mut []), 10);
    assert_eq!(calls::annotate_end(&[2, 0, 0, 0, 0, 0], &mut [], &mut []), 11);
    assert_eq!(calls::annotate_end(&[2, 0, 0, 0, 0, 0], &mut [], &mut [7]), 0);
}

/// With both ends: a host's ID above FFFFh before all else, then as the others; and the lines of plain Rust, cut anywhere.
#[test]
fn both_ends() {
    for host_id in [0x10000, u64::MAX] {
        assert_eq!(calls::follow(host_id, &mut [], &[], &[], &mut [], &mut []), 10);
    }
    for (numbers, number) in [(&mut [][..], 11), (&mut [5; 5], 11), (&mut [5; 6], 10), (&mut [0; 6], 11)] {
        assert_eq!(calls::follow(0xFFFF, numbers, &[], &[], &mut [], &mut []), number);
    }
    let header = configuration(CFGRD1, 0x0100, 0);
    let trace = trace::of(&[&header[..], &header[..4]]);
    let expected = plain::follow(0, &[1], &trace).unwrap();
    for cut in 0..=trace.len() {
        let (mut state, mut room, mut written, mut lines) = ([0; 6], [0; 102], [0], Vec::<u8>::new());
        for piece in [&trace[..cut], &trace[cut..]] {
            assert_eq!(calls::follow(0, &mut state, &[1], piece, &mut room, &mut written), 0);
            lines.extend(&room[..written[0] as usize]);
        }
        assert_eq!(lines, expected.as_bytes());
    }
}

/// Room that is said to be enough for any piece is: for records of no bytes after the last byte of one, and after half of
/// its length.
#[test]
fn room_for_any_piece() {
    let zeros = [0; 64];
    for start in [[4, 1, u64::MAX - 40, 16, 0, 0], [3, 0, u64::MAX - 40, 16, 0, 0], [2, 0, u64::MAX - 40, 16, 0, 0]] {
        for length in 0..=zeros.len() {
            let mut room = vec![0; Annotator::room_for(length)];
            let (mut state, mut written) = (start, [0]);
            assert_eq!(calls::annotate(&mut state, &[], &zeros[..length], &mut room, &mut written), 0);
            assert!(written[0] <= room.len() as u64);
        }
    }
    assert_eq!(Annotator::room_for(usize::MAX), usize::MAX);
}

/// 64 KiB for any call, and 16 for what the thread's library takes and for the frames around the call.
const SMALL_STACK: usize = (64 + 16) << 10;

/// A sheet with 255 bridges in a row.
#[test]
fn deep_on_a_small_stack() {
    let bridge = |bus: u8| Record::bridge(u16::from_be_bytes([bus, 0]), bus + 1, 255).low(0xF900, 0xF970);
    let mut records: Vec<Record> = (0..255).map(bridge).collect();
    records.push(Record::end(0xFF00).bar(0, memory(20), 0xF920_0000));
    let (sheet, trace) = (sheet(&records), trace::of(&[request(MRD, 0xF920_0000)]));
    let line = move || lines(&sheet, &trace).next().map(|line| line.to_string());
    let line = thread::Builder::new().stack_size(SMALL_STACK).spawn(line).unwrap().join().unwrap();
    assert_eq!(line.as_deref(), Some("1 MRd owner 256"));
}

/// `lines` feeds as many records as it has room for: at every count around that, with records of every length, cut anywhere.
#[test]
fn pieces_of_whole_records() {
    for count in [0, 1, 63, 64, 65, 127, 128, 129, 200] {
        let headers: Vec<Vec<u8>> = (0..count).map(|number| vec![0; number * 7 % 41]).collect();
        let trace = trace::of(&headers);
        for cut in 0..trace.len().min(100) {
            let trace = &trace[..trace.len() - cut];
            let expected = plain::annotate(&[1], trace);
            assert!(lines(&[1], trace).map(|line| line.to_string()).eq(expected.lines()), "{count} less {cut}");
        }
    }
    let long = trace::of(&[vec![0; 65_535], vec![0; 65_535], vec![]]);
    assert!(lines(&[1], &long).map(|line| line.to_string()).eq(plain::annotate(&[1], &long).lines()));
}

/// After `refused 21` nothing of a trace is read, however long it is: a GiB of it takes no time.
#[test]
fn nothing_after_another_version() {
    let mut trace = vec![0; 1 << 30];
    trace[0] = 7;
    let mut lines = lines(&[1], &trace);
    assert_eq!(&*lines.next().unwrap(), "refused 21");
    assert!(lines.next().is_none());
    assert!(format!("{lines:?}").len() < 300);
}
