//! A board's text: to bytes and back, its errors with their lines; and sheets that are asked, held against the plain plan.

use cartsundial::{plan_where, Bar, BarKind, Board, HostRecord, Refusal, Sheet, Size, Spares};
use inputs::random::Random;
use inputs::trees;

const RECORDER: &str = "\
host buses 00-FF low F8000000+64M high 240000000+1G io 4000+4K
bridge 00.0 \"root port\"
  bridge 00.0 \"switch, up\" mem32 128K
    bridge 00.0
      card 00.0 \"capture\" mem32 64K, -, mem64p 64M, command 0006
    bridge 01.0
      card 00.0 mem32 64K, -, mem64p 128M, command 0006
    bridge 02.0 spare 2 buses, spare 4M
      card 00.0 \"timecode\" mem32 4K, io 32, command 0003
";

/// The example of the documents, without its names.
#[test]
fn the_recorder() {
    let board: Board = RECORDER.parse().unwrap();
    assert_eq!(board.bytes(), include_bytes!("../../../docs/example/board"));
    assert_eq!(board.to_string(), RECORDER);
    assert_eq!(board.function(2).unwrap().name.as_deref(), Some("switch, up"));
    assert_eq!((board.function(4).unwrap().line, board.function(9)), (Some(5), None));
}

/// Every lawful board has a text, from which its bytes come back.
#[test]
fn both_ways() {
    let mut random = Random::new(51);
    for _ in 0..4_000 {
        let bytes = trees::lawful(&mut random).bytes();
        let board = Board::of_bytes(&bytes).unwrap();
        assert_eq!(board.bytes(), bytes);
        let text = board.to_string();
        let again: Board = text.parse().unwrap_or_else(|error| panic!("{error}\n{text}"));
        assert_eq!(again.bytes(), bytes, "{text}");
        assert_eq!(again.to_string(), text);
    }
}

#[test]
fn spellings() {
    let spelled = "# a comment\r\n\r\n  host low 0xE000_0000-E3FFFFFF, high 16G+4G  # and another\r\n\tbridge 0.0\r\n\t\tcard 1f.7 \
                   \"a # b\" io16 256, multi # end\r\n";
    let board: Board = spelled.parse().unwrap();
    assert_eq!(
        board.to_string(),
        "host buses 00-FF low E0000000+64M high 400000000+4G\nbridge 00.0\n  card 1F.7 \"a # b\" io16 256, multi\n"
    );
    assert!(Board::is_text(spelled) && !Board::is_text("01 00 1E") && !Board::is_text(""));
}

#[test]
fn errors_have_their_lines() {
    for (text, line, what) in [
        ("", 1, "starts with `host`"),
        ("card 00.0", 1, "starts with `host`"),
        ("host buses 0-255", 1, "hexadecimal"),
        ("host low 16G+1M", 1, "below 4 GiB"),
        ("host low F0000000-E0000000", 1, "above its end"),
        ("host rom 0-1", 1, "buses, low, high and io"),
        ("host low", 1, "a range"),
        ("host\nhost", 2, "one host"),
        ("host\n\ncard 20.0", 3, "1F.7"),
        ("host\ncard 00.0 \"gpu", 2, "second quote"),
        ("host\ncard 00.0 mem32 16M io 128", 2, "a comma"),
        ("host\ncard 00.0 mem128 16M", 2, "a BAR is"),
        ("host\ncard 00.0 mem32 3M", 2, "power of two"),
        ("host\ncard 00.0 mem32 8G", 2, "power of two"),
        ("host\ncard 00.0 mem64 1M, mem64 1M, mem64 1M, io 4", 2, "six slots"),
        ("host\nbridge 00.0 mem64 1M, io 4", 2, "two slots"),
        ("host\ncard 00.0 spare 2 buses", 2, "only a bridge"),
        ("host\nbridge 00.0 spare 300 buses", 2, "0 to 255"),
        ("host\nbridge 00.0 spare 3K", 2, "whole MiB"),
        ("host\ncard 00.0\n  card 00.0", 3, "nothing is below a card"),
        ("host\nbridge 00.0\n    card 00.0\n  card 01.0", 4, "indented"),
        ("host\nslot 00.0", 2, "`bridge` or `card`"),
    ] {
        let error = text.parse::<Board>().unwrap_err();
        assert_eq!(error.line, line, "{text}");
        assert!(error.what.contains(what), "{text}: {error}");
    }
}

/// Line, column, the item, and what is expected there.
#[test]
fn errors_have_their_places() {
    for (text, place, item, what) in [
        ("", (1, 1), "", "starts with `host`"),
        ("card 00.0", (1, 1), "card", "starts with `host`"),
        ("host buses 0-255", (1, 12), "0-255", "hexadecimal, 00 to FF, as `buses 00-1F`"),
        ("host buses 1F-00", (1, 12), "1F-00", "the first bus is above the last"),
        ("host low 16G+1M", (1, 10), "16G+1M", "below 4 GiB"),
        ("host low F0000000-E0000000", (1, 10), "F0000000-E0000000", "above its end"),
        ("host low E0000000+64X", (1, 19), "64X", "not a size"),
        ("host low E0000000", (1, 10), "E0000000", "first-last or first+size, as `low E0000000+64M`"),
        ("host rom 0-1", (1, 6), "rom", "buses, low, high, io and version"),
        ("host low", (1, 9), "", "`low` has a range after it, as `low E0000000+64M`"),
        ("host \"box\"", (1, 7), "box", "a host has no name"),
        ("host version 3", (1, 14), "3", "version 1 or 2"),
        ("host\nhost", (2, 1), "host", "one host"),
        ("host\n\ncard 20.0", (3, 6), "20.0", "1F.7"),
        ("host\ncard 00.+1", (2, 6), "00.+1", "1F.7"),
        ("host\ncard", (2, 5), "", "device and function are expected"),
        ("host\ncard 00.0 \"gpu", (2, 11), "\"gpu", "second quote"),
        ("host\n\"gpu\" card 00.0", (2, 1), "", "a line starts with `bridge` or `card`"),
        ("host\ncard 00.0 mem32 4K \"gpu\"", (2, 11), "mem32 4K", "right after the device"),
        ("host\ncard 00.0 mem32 16M io 128", (2, 11), "mem32 16M io 128", "a comma"),
        ("host\ncard 00.0 \"\u{e4}\", mem128 16M", (2, 16), "mem128", "a BAR is"),
        ("host\ncard 00.0 mem32", (2, 11), "mem32", "its size after it, as `mem32 16M`"),
        ("host\ncard 00.0 mem32 16Q", (2, 17), "16Q", "not a size"),
        ("host\ncard 00.0 -, command 12345", (2, 22), "12345", "hexadecimal, 0000 to FFFF, as `command 0006`"),
        ("host\ncard 00.0 command", (2, 11), "command", "as `command 0006`"),
        ("host\ncard 00.0 spare 2 buses", (2, 11), "spare 2 buses", "only a bridge"),
        ("host\nbridge 00.0 spare 300 buses", (2, 19), "300", "0 to 255"),
        ("host\nbridge 00.0 spare 3K", (2, 19), "3K", "whole MiB"),
        ("host\nbridge 00.0 spare", (2, 13), "spare", "`spare 2 buses` or `spare 4M`"),
        ("host\ncard 00.0\n  card 00.0", (3, 3), "card", "below the card of line 2"),
        (
            "host\nbridge 00.0\n    card 00.0\n  card 01.0",
            (4, 3),
            "card",
            "indented by 2, and the lines that it could be beside by 4, or 0",
        ),
        ("host\nbridge 00.0\n  card 00.0\n \tcard 01.0", (4, 2), "\t", "a tab among spaces"),
        ("host\nbridge 00.0\n  card 00.0\n\tcard 01.0", (4, 1), "\t", "line 3 by spaces"),
        ("host\nslot 00.0", (2, 1), "slot", "`bridge` or `card`"),
    ] {
        let error = Board::read_strictly(text).unwrap_err();
        let full = error.full();
        assert_eq!(((error.line, error.column), &error.item[..], error.refusal), (place, item, None), "{text}: {full}");
        assert!(error.expected.contains(what), "{text}: {full}");
    }
}

/// A size that no BAR has is 25, whatever is wrong with it, and the nearest ones are told.
#[test]
fn sizes_of_bars() {
    for (text, what) in [
        ("card 00.0 mem32 3M", "`mem32 2M` or `mem32 4M`"),
        ("card 00.0 mem64p 63M", "`mem64p 32M` or `mem64p 64M`"),
        ("card 00.0 mem32 8G", "at most 2G, as `mem32 2G`"),
        ("card 00.0 mem32 3G", "at most 2G"),
        ("card 00.0 mem32 8", "8 bytes, and a memory BAR has at least 128, as `mem32 128`"),
        ("card 00.0 mem64 0", "0 bytes, and a memory BAR has at least 128, as `mem64 128`"),
        ("card 00.0 io 2", "2 bytes, and an I/O BAR has at least 4, as `io 4`"),
        ("card 00.0 io 48", "`io 32` or `io 64`"),
        ("card 00.0 io 64K", "at most 32K"),
        ("card 00.0 mem64 1M, mem64 1M, mem64 1M, io 4", "it needs slot 6, and there are 6, from 0 on"),
        ("bridge 00.0 mem64 1M, io 4", "it needs slot 2, and there are 2"),
    ] {
        let error = format!("host\n{text}").parse::<Board>().unwrap_err();
        assert_eq!((error.line, error.refusal), (2, Some(Refusal::ReadBack)), "{text}: {error}");
        assert!(error.expected.contains(what) && text.ends_with(&error.item), "{text}: {}", error.full());
    }
    // These have a read-back, so the planner's own check refuses them, with the same number.
    for size in [16, 32, 64] {
        let board: Board = format!("host\ncard 00.0 mem64 {size}").parse().unwrap();
        assert_eq!(board.plan(), Err(Refusal::ReadBack));
    }
}

/// What only a strict reader refuses is read as it always was.
#[test]
fn slips() {
    for text in [
        "host \"box\"",
        "host\n\"gpu\" card 00.0",
        "host\ncard 00.+1",
        "host rom closed",
        "host\nbridge 00.0\n  card 00.0\n\tbridge 01.0",
    ] {
        assert_eq!(text.parse::<Board>().is_ok(), !text.contains('\t'), "{text}");
        assert!(Board::read_strictly(text).is_err(), "{text}");
    }
}

/// What was read before an error, and command words in the spellings that are met.
#[test]
fn as_far_as_it_goes() {
    let error = "host\nbridge 00.0 \"a\"\n  card 00.0 mem32 4K\n  card 01.0 mem32 5K".parse::<Board>().unwrap_err();
    let before = error.before.unwrap().to_string();
    assert_eq!(before, "host buses 00-FF\nbridge 00.0 \"a\"\n  card 00.0 mem32 4K\n");
    assert_eq!("host low".parse::<Board>().unwrap_err().before, None);
    for word in ["6", "0006", "0x6", "0X0006", "6h"] {
        let board: Board = format!("host\ncard 00.0 command {word}").parse().unwrap();
        assert_eq!(board.function(1).unwrap().command, 6, "{word}");
    }
}

/// What the builder refuses, and what it leaves to the planner.
#[test]
fn built() {
    let mut board = Board::host(HostRecord { io: (0x1000, 0x1FFF), ..HostRecord::CLOSED });
    assert_eq!(board.card(0, 32, 0, &[]), Err(Refusal::TooWide));
    assert_eq!(board.card(0, 0, 0, &[Bar::new(BarKind::Memory32, 3)]), Err(Refusal::ReadBack));
    let bridge = board.bridge(0, 1, 0).unwrap();
    board.set_spares(bridge, Spares { buses: 1, memory: 0 });
    let card = board.card(bridge, 0, 0, &[Bar::UNUSED, Bar::new(BarKind::Io, 128)]).unwrap();
    assert_eq!((bridge, card), (1, 2));
    let sheet = Sheet::new(board.plan().unwrap()).unwrap();
    let ids: Vec<String> = sheet.functions().map(|function| function.id.to_string()).collect();
    assert_eq!(ids, ["00:01.0", "01:00.0"]);
    let placed = sheet.record(2).unwrap().bars().next().unwrap();
    assert_eq!((placed.slot, placed.range()), (1, 0x1000..=0x107F));
    assert_eq!(sheet.record(1).unwrap().windows().unwrap().io, Some(0x1000..=0x1FFF));
    assert_eq!(sheet.bridges_above(1).map(|bridge| bridge.record).collect::<Vec<_>>(), [1]);
    // A second card in the same place.
    board.card(bridge, 0, 0, &[]).unwrap();
    assert_eq!(board.plan(), Err(Refusal::Order));
    assert_eq!(plan_where(&board.bytes()).unwrap_err().party.map(|party| party.record), Some(3));
}

/// A board's own answer is that of its bytes.
#[test]
fn what_does_not_fit() {
    let text = "host low F8000000+32M\ncard 00.0 mem32 1M\ncard 01.0 mem32 16M\nbridge 02.0\n  card 00.0 mem32 4K";
    let mut board: Board = text.parse().unwrap();
    assert_eq!(
        board.what_does_not_fit().unwrap().to_string(),
        "31 low pool full: record 3 (00:02.0) low window ends past it; needs 33 MiB, has 32 MiB; \
         most room is lost to alignment before record 2 (00:01.0) BAR 0"
    );
    board.set_bars(1, &[]).unwrap();
    assert_eq!(board.what_does_not_fit(), None);
    assert_eq!(plan_where(&board.bytes()).map(|needs| needs.low), Ok(17 << 20));
}

/// Over planned sheets, each BAR lies in the window of its pool of the bridge just above it.
#[test]
fn sheets_that_are_asked() {
    let mut random = Random::new(52);
    let mut bars = 0;
    for _ in 0..2_000 {
        let Ok(sheet) = Board::of_bytes(&trees::lawful(&mut random).bytes()).unwrap().plan() else { continue };
        let sheet = Sheet::new(sheet).unwrap();
        for function in sheet.functions() {
            assert_eq!(sheet.function(function.id), Some(function));
            let Some(bridge) = sheet.bridge_to(function.id.bus()) else { continue };
            let windows = bridge.windows().unwrap();
            for placed in function.bars() {
                use cartsundial::Pool::*;
                let window = match placed.bar.kind.pool().unwrap() {
                    Low => &windows.low,
                    High => &windows.high,
                    Io => &windows.io,
                };
                let (window, range) = (window.clone().unwrap(), placed.range());
                assert!(window.contains(range.start()) && window.contains(range.end()));
                bars += 1;
            }
        }
    }
    assert!(bars > 1_000, "{bars}");
}

#[test]
fn sizes() {
    for (text, size) in [("0", 0), ("128", 128), ("4K", 4096), ("1536K", 3 << 19), ("16G", 1 << 34), ("8192P", 1 << 63)]
    {
        assert_eq!(text.parse(), Ok(Size(size)));
        assert_eq!(Size(size).to_string(), text);
    }
    for text in ["", "K", "4X", "-1", "16384P", "1.5M", "0x10"] {
        assert!(text.parse::<Size>().is_err(), "{text}");
    }
}
