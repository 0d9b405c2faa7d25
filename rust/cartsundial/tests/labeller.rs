//! The annotator as an `io::Write`: pieces of any size, over sheets and by indexes, and a writer that takes part of what it
//! is given, or nothing.

use cartsundial::{lines, Annotator, Engine, HostRecord, Index, Label, Labeller, Line, Refusal, FULL_INDEX};
use inputs::board::{self, Board};
use inputs::random::Random;
use inputs::{labels, registers, trace};
use std::io::{self, ErrorKind, Write};

/// Takes some bytes at a time, and sometimes gives an error and takes none.
struct Faulty {
    random: Random,
    taken: Vec<u8>,
    errors: u32,
}

impl Write for Faulty {
    fn write(&mut self, bytes: &[u8]) -> io::Result<usize> {
        let kind = match self.random.below(6) {
            0 => ErrorKind::Interrupted,
            1 => ErrorKind::WouldBlock,
            2 => ErrorKind::BrokenPipe,
            3 => return Ok(0),
            _ => {
                let length = bytes.len().min(1 + self.random.below(30) as usize);
                self.taken.extend(&bytes[..length]);
                return Ok(length);
            }
        };
        self.errors += 1;
        Err(kind.into())
    }

    fn flush(&mut self) -> io::Result<()> {
        Ok(())
    }
}

/// A writer of which so many bytes are left.
struct Short {
    taken: Vec<u8>,
    left: usize,
}

impl Write for Short {
    fn write(&mut self, bytes: &[u8]) -> io::Result<usize> {
        let length = bytes.len().min(self.left);
        if length == 0 {
            return Err(ErrorKind::StorageFull.into());
        }
        self.taken.extend(&bytes[..length]);
        self.left -= length;
        Ok(length)
    }

    fn flush(&mut self) -> io::Result<()> {
        Ok(())
    }
}

fn sheet_and_trace(random: &mut Random) -> (Vec<u8>, Vec<u8>) {
    let sheet = registers::foreign(random);
    let trace = trace::any(&sheet, random);
    (sheet, trace)
}

#[test]
fn pieces_of_any_size() {
    let mut random = Random::new(21);
    for _ in 0..2000 {
        let (sheet, trace) = sheet_and_trace(&mut random);
        let mut labeller = Labeller::new(&sheet, Vec::new());
        for piece in trace::pieces(&trace, &mut random) {
            labeller.write_all(piece).unwrap();
        }
        let whole = labeller.annotator().record_number();
        labeller.finish().unwrap();
        assert_eq!(labeller.into_inner(), plain::annotate(&sheet, &trace).as_bytes());
        assert_eq!(whole, lines(&sheet, &trace).filter(is_of_record).count() as u64);
    }
}

fn is_of_record(line: &Line) -> bool {
    !matches!(line.label(), Label::NoTrace(_) | Label::Cut)
}

/// Whatever the writer does, and whoever tries again: no line is lost, and none comes twice.
#[test]
fn faults_of_the_writer() {
    let mut random = Random::new(22);
    let mut errors = 0;
    for _ in 0..2000 {
        let (sheet, trace) = sheet_and_trace(&mut random);
        let out = Faulty { random: Random::new(random.word()), taken: Vec::new(), errors: 0 };
        let mut labeller = Labeller::new(&sheet, out);
        for piece in trace::pieces(&trace, &mut random) {
            let mut rest = piece;
            while !rest.is_empty() {
                if let Ok(length) = labeller.write(rest) {
                    rest = &rest[length..];
                }
            }
        }
        if random.chance(1, 2) {
            while labeller.flush().is_err() {}
            let mut room = vec![0; Annotator::room_for(trace.len())];
            let length = plain::Annotator::new().feed(&sheet, &trace, &mut room).unwrap();
            assert!(labeller.get_ref().taken == room[..length]);
        }
        while labeller.finish().is_err() {}
        assert!(labeller.get_ref().taken == plain::annotate(&sheet, &trace).as_bytes());
        errors += labeller.into_inner().errors;
    }
    assert!(errors > 1000, "{errors}");
}

/// More lines than any other bytes give: records of no bytes, in one piece of 64 KiB.
#[test]
fn records_of_no_bytes() {
    let trace = trace::of(&[[]; 1 << 15]);
    let mut labeller = Labeller::new(&[], Vec::new());
    assert_eq!(labeller.write(&trace).unwrap(), 4096);
    labeller.write_all(&trace[4096..]).unwrap();
    labeller.finish().unwrap();
    let lines = String::from_utf8(labeller.into_inner()).unwrap();
    assert_eq!(lines.lines().count(), 1 << 15);
    assert_eq!(lines.lines().last(), Some("32768 - refused 1"));
    assert_eq!(lines, plain::annotate(&[], &trace));
}

#[test]
fn ends() {
    for (trace, lines) in [(&[][..], "refused 20\n"), (&[1], ""), (&[2], "refused 21\n"), (&[1, 0], "cut\n")] {
        let mut labeller = Labeller::new(&[1], Vec::new());
        labeller.write_all(trace).unwrap();
        for _ in 0..2 {
            labeller.finish().unwrap();
            assert_eq!(labeller.get_ref(), lines.as_bytes());
        }
        assert_eq!(labeller.write(&[1]).unwrap_err().kind(), ErrorKind::InvalidInput);
        assert_eq!(labeller.into_inner(), lines.as_bytes());
    }
}

/// Wherever the writer fails, the lines that it did not take are there after the error, and so is the last one.
#[test]
fn finish_again() {
    let trace = [1, 0, 0, 0, 0, 0];
    let lines = plain::annotate(&[], &trace);
    assert!(lines.ends_with("cut\n"));
    for left in 0..lines.len() {
        let mut labeller = Labeller::new(&[], Short { taken: Vec::new(), left });
        labeller.write_all(&trace).unwrap();
        assert_eq!(labeller.finish().unwrap_err().kind(), ErrorKind::StorageFull);
        assert_eq!(labeller.get_ref().taken, &lines.as_bytes()[..left]);
        labeller.get_mut().left = usize::MAX;
        labeller.finish().unwrap();
        assert_eq!(labeller.into_inner().taken, lines.as_bytes());
    }
}

fn host_of(board: &Board) -> HostRecord {
    HostRecord::from_bytes(board.host()[..].try_into().unwrap())
}

/// A full sheet with its index, and headers for it.
fn full() -> (Index<Vec<u8>, Vec<u8>>, Vec<u8>) {
    let board = labels::board(512, 16);
    let mut sheet = vec![0; plain::FULL_SHEET];
    assert_eq!(plain::plan(&board.bytes(), &mut sheet), Ok(plain::FULL_SHEET));
    let trace = trace::of(&labels::headers(&sheet, 3000));
    (Index::new(&host_of(&board), sheet).unwrap(), trace)
}

/// Over the sheet, by its index, and by the index again: one labeller, the same lines.
#[test]
fn either_engine() {
    let (index, trace) = full();
    let expected = plain::annotate(index.sheet(), &trace[..20_000]);
    let mut random = Random::new(23);
    for by in [Engine::from(index.sheet()), Engine::from(&index), (&index).into()] {
        let mut labeller = Labeller::new(by, Vec::new());
        trace::pieces(&trace[..20_000], &mut random).into_iter().for_each(|piece| labeller.write_all(piece).unwrap());
        labeller.finish().unwrap();
        assert!(labeller.into_inner() == expected.as_bytes(), "{by:?}");
        assert!(lines(by, &trace[..20_000]).map(|line| line.to_string()).eq(expected.lines()), "{by:?}");
    }
}

/// A few lines' worth, however large the sheet and the index are.
#[test]
fn debug_is_short() {
    let (index, trace) = full();
    let mut labeller = Labeller::new(&index, io::sink());
    labeller.write_all(&trace).unwrap();
    let texts = [format!("{index:?}"), format!("{labeller:?}"), format!("{:?}", lines(&index, &trace))];
    assert!(texts.iter().all(|text| text.len() < 300), "{texts:?}");
    assert!(texts[0].contains("47105") && texts[1].contains("132096"), "{texts:?}");
}

/// Long after another version's byte nothing is fed any more, and all is taken.
#[test]
fn other_version() {
    let mut trace = vec![0; 1 << 20];
    trace[0] = 2;
    let mut labeller = Labeller::new(&[1], Vec::new());
    assert_eq!(labeller.write(&trace).unwrap(), 4096);
    assert!(labeller.annotator().is_of_other_version());
    assert_eq!(labeller.write(&trace).unwrap(), trace.len());
    labeller.finish().unwrap();
    assert_eq!(labeller.into_inner(), b"refused 21\n");
}

/// A sheet's length does not tell how much is allocated: no more than the largest index.
#[test]
fn index_of_any_length() {
    let host = host_of(&board::p10());
    for length in [0, 1, 93, 47_105, 47_106, 1 << 28] {
        assert_eq!(Index::new(&host, vec![0; length]).unwrap_err().number(), if length == 0 { 20 } else { 21 });
    }
    let (index, _) = full();
    assert_eq!(index.bytes().len(), FULL_INDEX);
    let longer = [index.sheet(), &[0; 92]].concat();
    assert_eq!(Index::new(&host, longer).err(), Some(Refusal::Frame));
}
