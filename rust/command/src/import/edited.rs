//! The stored texts of lspci cut, stripped, reordered and spelt in other ways: each function is refused, or what is made of it is
//! what the whole text makes of it.

use super::found::read_address;
use super::log::Log;
use super::roots::{self, Root, Taken};
use super::{lspci, once, Notes};
use crate::failure::Failure;
use crate::named::RECORD;
use std::collections::{BTreeMap, BTreeSet};
use std::fs;
use std::path::Path;

/// What came out: root buses, and what was told.
type Read = Result<(Vec<Taken>, Notes), Failure>;

fn read(text: &str) -> Read {
    let mut notes = Notes::new();
    let functions = once(lspci::read("text", text)?, &mut notes);
    let taken = roots::all(functions, &[], &Log::default(), &mut notes);
    Ok((taken, notes))
}

fn texts() -> Vec<(String, String)> {
    let folder = Path::new(concat!(env!("CARGO_MANIFEST_DIR"), "/../../tests/command/linux"));
    let files = fs::read_dir(folder).unwrap().map(|file| file.unwrap().path());
    let mut files: Vec<_> = files.filter(|file| file.extension().is_some_and(|ending| ending == "lspci")).collect();
    files.sort();
    let text =
        |file: &Path| fs::read_to_string(file).unwrap().replace("08 00 00 00 00 00 00 00", "00 00 00 00 00 00 00 00");
    files.iter().map(|file| (file.file_name().unwrap().to_string_lossy().into_owned(), text(file))).collect()
}

fn taken(read: &Read) -> impl Iterator<Item = &Root> {
    read.iter().flat_map(|(taken, _)| taken.iter().filter_map(|(_, root)| root.as_ref().ok()))
}

/// A whole text: of each function its record, the root buses, and the lines of the boards without what a bridge keeps free for
/// functions that may be missing.
struct Whole {
    records: BTreeMap<(u32, [u8; 2]), Vec<u8>>,
    roots: BTreeSet<(u32, u8)>,
    lines: BTreeSet<String>,
}

fn records(root: &Root) -> impl Iterator<Item = ((u32, [u8; 2]), Vec<u8>)> + '_ {
    root.sheet[1..].chunks(RECORD).map(|record| ((root.domain, [record[2], record[3]]), record.to_vec()))
}

fn lines(root: &Root) -> Vec<String> {
    let line = |line: &str| line.split(" spare ").next().unwrap().trim().trim_end_matches(',').to_string();
    root.board.to_string().lines().skip(1).map(line).collect()
}

impl Whole {
    fn of(text: &str) -> Whole {
        let read = read(text);
        let roots: Vec<&Root> = taken(&read).collect();
        assert!(!roots.is_empty() && read.as_ref().is_ok_and(|(all, _)| all.len() == roots.len()));
        Whole {
            records: roots.iter().flat_map(|root| records(root)).collect(),
            roots: roots.iter().map(|root| (root.domain, root.bus)).collect(),
            lines: roots.iter().flat_map(|root| lines(root)).collect(),
        }
    }

    /// How many functions are taken, each as of the whole text.
    fn holds(&self, text: &str, what: &str) -> usize {
        let read = read(text);
        for root in taken(&read) {
            assert!(self.roots.contains(&(root.domain, root.bus)), "{what}: {}", root.title());
            for (id, record) in records(root) {
                assert_eq!(self.records.get(&id), Some(&record), "{what}: {id:?}");
            }
            for line in lines(root) {
                assert!(self.lines.contains(&line), "{what}: {line}");
            }
        }
        taken(&read).map(Root::len).sum()
    }

    fn is_same(&self, text: &str, what: &str) {
        assert_eq!(self.holds(text, what), self.records.len(), "{what}");
    }

    /// Refused, as a whole or of a function, with these words.
    fn is_refused(&self, text: &str, words: &str, what: &str) {
        match read(text) {
            Err(Failure::Refused(message)) => assert!(message.contains(words), "{what}: {message}"),
            Err(other) => panic!("{what}: {other:?}"),
            Ok((taken, notes)) => {
                assert!(taken.iter().any(|(_, root)| root.is_err()), "{what}");
                assert!(notes.iter().any(|note| note.contains(words)), "{what}: {words}: {notes:?}");
            }
        }
    }
}

fn is_row(line: &str) -> bool {
    line.as_bytes().get(2) == Some(&b':') && line.as_bytes().get(3) == Some(&b' ') && !line.contains('.')
}

/// The functions' blocks.
fn blocks(text: &str) -> Vec<&str> {
    text.split("\n\n").map(str::trim_end).filter(|block| !block.is_empty()).collect()
}

fn title(block: &str) -> String {
    format!("0000:{}", block.split(' ').next().unwrap())
}

#[test]
fn cut() {
    for (name, text) in texts() {
        let whole = Whole::of(&text);
        let starts = text.match_indices('\n').map(|(at, _)| at + 1);
        for length in starts.chain((0..text.len()).step_by(11)).filter(|at| text.is_char_boundary(*at)) {
            whole.holds(&text[..length], &format!("{name}, {length} bytes"));
        }
        // Inside the last function: it is named, or the text is.
        let last = text.trim_end().rfind("\n\n").unwrap() + 2;
        let end = text.trim_end().len();
        let id = title(&text[last..]);
        for length in last + 1..end {
            let words = if length < last + 7 { "it is cut in its last line" } else { &id };
            whole.is_refused(&text[..length], words, &format!("{name}, {length} bytes"));
        }
        whole.is_same(&text[..end], &name);
    }
}

#[test]
fn stripped() {
    for (name, text) in texts() {
        let whole = Whole::of(&text);
        let lines: Vec<&str> = text.lines().collect();
        for (number, line) in lines.iter().enumerate() {
            let what = format!("{name} without {line}");
            let rest = [&lines[..number], &lines[number + 1..]].concat().join("\n") + "\n";
            whole.holds(&rest, &what);
            if is_row(line) {
                let header =
                    lines[..number].iter().rfind(|line| read_address(line.split(' ').next().unwrap()).is_some());
                whole.is_refused(&rest, &format!("{}: 48 of its 64 bytes", title(header.unwrap())), &what);
                whole.is_refused(&rest, &line[..3], &what);
            }
        }
        let without = |is_out: &dyn Fn(&str) -> bool| -> String {
            lines.iter().filter(|line| !is_out(line)).map(|line| format!("{line}\n")).collect()
        };
        for (what, text) in [
            ("none of its 64 bytes", without(&is_row)),
            ("the lines `20:`, `30:` are missing", without(&|line| line.starts_with("20:") || line.starts_with("30:"))),
            ("a line of no function", without(&|line| read_address(line.split(' ').next().unwrap()).is_some())),
        ] {
            whole.is_refused(&text, what, &name);
            assert_eq!(whole.holds(&text, &name), 0, "{name} {what}");
        }
        let bare = without(&|line| line.starts_with('\t'));
        whole.is_refused(&bare, "its lines of -vv are missing", &name);
        assert_eq!(whole.holds(&bare, &name), 0, "{name}");
    }
}

/// Each BAR without its size is told by its function and slot.
#[test]
fn without_a_size() {
    let mut refused = 0;
    for (name, text) in texts() {
        let whole = Whole::of(&text);
        for block in blocks(&text) {
            for line in block.lines().filter(|line| line.starts_with("\tRegion ") && !line.contains("[virtual]")) {
                let words = format!("{}: BAR {}: its register is ", title(block), &line[8..9]);
                let no_size = line.split(" [size=").next().unwrap();
                for other in [block.replace(&format!("{line}\n"), ""), block.replace(line, no_size)] {
                    let text = text.replace(block, &other);
                    whole.is_refused(&text, &words, &format!("{name}: {line}"));
                    refused += 1;
                }
            }
        }
    }
    assert!(refused > 500, "{refused}");
}

#[test]
fn spelt_otherwise() {
    for (name, text) in texts() {
        let whole = Whole::of(&text);
        let lines = |of: &dyn Fn(&str) -> String| -> String { text.lines().map(|line| of(line) + "\n").collect() };
        let upper = |line: &str| match line.split_once(' ') {
            _ if is_row(line) => line.to_uppercase(),
            Some((id, rest)) if read_address(id).is_some() => format!("{} {rest}", id.to_uppercase()),
            _ => line.to_string(),
        };
        let more = |line: &str, last: usize| match line.starts_with("30: ") {
            true => {
                (4..=last).fold(line.to_string(), |all, row| format!("{all}\n{:02x}:{}", 16 * row, " 5a".repeat(16)))
            }
            false => line.to_string(),
        };
        let domain = |line: &str| match read_address(line.split(' ').next().unwrap()) {
            Some(_) => format!("0000:{line}"),
            None => line.to_string(),
        };
        let mut blocks = blocks(&text);
        blocks.reverse();
        let reversed = blocks.join("\n\n");
        let list: String = blocks.iter().map(|block| format!("{}\n", block.lines().next().unwrap())).collect();
        blocks.rotate_left(3);
        for (what, text) in [
            ("CRLF", text.replace('\n', "\r\n")),
            ("spaces for tabs", text.replace('\t', "        ")),
            ("upper case", lines(&upper)),
            ("-xxx", lines(&|line| more(line, 15))),
            ("-xxxx", lines(&|line| more(line, 255))),
            ("-D", lines(&domain)),
            ("reversed", reversed),
            ("rotated", blocks.join("\n\n") + "\n\n"),
            ("every function twice", format!("{text}\n{text}")),
            ("after a list of them", format!("{list}\n{text}")),
        ] {
            whole.is_same(&text, &format!("{name}: {what}"));
        }
    }
}

/// A line of another function in its place, and a function with another's bytes, are not taken for it.
#[test]
fn mixed() {
    for (name, text) in texts() {
        let whole = Whole::of(&text);
        let blocks = blocks(&text);
        for (one, other) in blocks.iter().zip(&blocks[1..]) {
            let what = format!("{name}: {} and {}", title(one), title(other));
            let [first, second] = [one, other].map(|block| block.lines().collect::<Vec<_>>());
            // The second one's ID is lost: its lines follow the first one's.
            let joined = format!("{one}\n{}", second[1..].join("\n"));
            whole.is_refused(&text.replace(&format!("{one}\n\n{other}"), &joined), "there twice", &what);
            // There twice, and not alike.
            let row = first.iter().find(|line| line.starts_with("00: ")).unwrap();
            let changed = one.replace(row, &format!("00:{}", " 5a".repeat(16)));
            let words = format!("{}: it is there twice, and not alike", title(one));
            whole.is_refused(&format!("{text}\n{changed}\n"), &words, &what);
        }
    }
}

#[test]
fn gone() {
    for (name, text) in texts() {
        let whole = Whole::of(&text);
        for block in blocks(&text) {
            let header = block.lines().next().unwrap();
            let rows: String = (0..4).map(|row| format!("\n{row}0:{}", " ff".repeat(16))).collect();
            let gone = format!("{header} (rev ff) (prog-if ff)\n\t!!! Unknown header type 7f{rows}");
            let text = text.replace(block, &gone);
            whole.is_refused(&text, &format!("{}: it does not answer", title(block)), &name);
            whole.holds(&text, &name);
        }
    }
}

/// Text and bytes of -vv are of one reading.
#[test]
fn text_and_bytes() {
    let text = "00:02.0 PCI bridge: a port\n\tControl: I/O+ Mem+ BusMaster+ SpecCycle-\n\
                \tRegion 0: Memory at fde00000 (32-bit, non-prefetchable) [size=4K]\n\
                \tBus: primary=00, secondary=01, subordinate=01, sec-latency=0\n\
                00: 36 1b 0c 00 07 05 10 00 00 00 04 06 00 00 01 00\n\
                10: 00 00 e0 fd 00 00 00 00 00 01 01 00 c0 c0 00 00\n\
                20: c0 fd d0 fd a1 fe b1 fe 00 00 00 00 00 00 00 00\n\
                30: 00 00 00 00 54 00 00 00 00 00 00 00 0b 01 02 00\n\n\
                01:00.0 Ethernet controller: a card\n\tControl: I/O- Mem+ BusMaster- SpecCycle-\n\
                \tRegion 0: Memory at fdc00000 (32-bit, non-prefetchable) [size=128K]\n\
                \tRegion 1: Memory at fdc40000 (32-bit, non-prefetchable) [size=128K]\n\
                00: 86 80 d3 10 02 05 10 00 00 00 00 02 00 00 00 00\n\
                10: 00 00 c0 fd 00 00 c4 fd 00 00 00 00 00 00 00 00\n\
                20: 00 00 00 00 00 00 00 00 00 00 00 00 86 80 00 00\n\
                30: 00 00 c0 fd c8 00 00 00 00 00 00 00 0b 01 00 00\n";
    let whole = Whole::of(text);
    for (from, to, words) in [
        ("BusMaster+", "BusMaster-", "do not agree at 04h"),
        ("subordinate=01", "subordinate=02", "do not agree at 1ah"),
        ("\tControl: I/O- Mem+ BusMaster- SpecCycle-\n", "", "01:00.0: its line `Control:`"),
        ("(32-bit, non-", "(64-bit, non-", "BAR 0: its register is one of mem32, its line `Region 0:` of mem64"),
        ("Memory at fde00000 (32-bit, non-prefetchable)", "I/O ports at fde00000", "of io"),
        ("10: 00 00 e0", "10: 02 00 e0", "of type 01"),
        ("[size=4K]", "[size=3K]", "no mem32 BAR has 3K"),
        ("fde00000 (", "fdf00000 (", "BAR 0: its register has it at fde00000, the kernel at fdf00000"),
    ] {
        whole.is_refused(&text.replacen(from, to, 1), words, from);
    }
    // A host bridge that translates has all of them elsewhere.
    whole.is_same(&text.replace("Memory at fd", "Memory at 6fd"), "translated");
}
