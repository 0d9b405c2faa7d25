//! Both ends of packets: who sends them, and who gets them.

use crate::indexes;
use crate::lent::{hex, Lent};
use crate::sheets;
use crate::tally::{Call, Tally};
use crate::traces;
use crate::typed;
use cartsundial::{calls, Id};
use inputs::board::MOST_ABOVE;
use inputs::random::Random;
use inputs::{cards, ends, foreign, header, trace};
use plain::{Kind, Sender, Sent};

pub fn compare(random: &mut Random, rounds: u64, tally: &mut Tally) {
    for _ in 0..25_000 * rounds {
        let mut sheet = sheets::any_for_ends(random);
        cards::enable(&mut sheet, random);
        let host_id = ends::host_id(&sheet, random);
        for _ in 0..12 {
            let _ = sent(host_id.into(), &ends::header(host_id, &sheet, random), &sheet, random, tally);
        }
        // Command words as rewritten since.
        sheets::any_command(&mut sheet, random, tally);
        let _ = sent(host_id.into(), &ends::header(host_id, &sheet, random), &sheet, random, tally);
        let _ = sent(host_id.into(), &header::any(random), &sheet, random, tally);
        let _ = sent(ends::no_host_id(&sheet, random), &ends::header(host_id, &sheet, random), &sheet, random, tally);
    }
    traces::compare_ends(random, rounds, tally);
    for _ in 0..3_000 * rounds {
        let mut sheet = sheets::of_other_kinds(random);
        cards::enable(&mut sheet, random);
        let host_id = ends::host_id(&sheet, random);
        for _ in 0..12 {
            let _ = sent(host_id.into(), &ends::header(host_id, &sheet, random), &sheet, random, tally);
        }
    }
}

/// Completions between two cards of a planned board with 0 to 64 bridges between them, both ways; the furthest that there can
/// be; and from the deepest card up. Then packets over sheets that real firmware left.
pub fn chosen(random: &mut Random, tally: &mut Tally) {
    let mut room = vec![0; plain::FULL_SHEET];
    for bridges in 0..=2 * MOST_ABOVE {
        let up = bridges.min(MOST_ABOVE);
        let (board, start, owner) = cards::apart(up, bridges - up);
        let length = plain::plan(&board.bytes(), &mut room).expect("a board with room");
        for (from, to) in [(start, owner), (owner, start)] {
            between(from, to, bridges, &room[..length], random, tally);
        }
    }
    let furthest = cards::furthest();
    let last = (furthest.len() / 92) as u16;
    between(cards::FURTHEST_START, last, 255, &furthest, random, tally);
    for record in [cards::FURTHEST_START, last] {
        let id = plain::id_of(&furthest, record.into()).expect("a record");
        let up = set_sender(foreign::message(foreign::MSG, 0b000, 0x18, 0), id);
        assert!(sent(NOBODY.into(), &up, &furthest, random, tally).is_ok());
    }
    // With its own numbers, so that those of the other parts stay.
    let random = &mut Random::new(15);
    for (_, mut sheet) in indexes::captures() {
        cards::enable(&mut sheet, random);
        let host_id = ends::host_id(&sheet, random);
        for _ in 0..1_000 {
            let _ = sent(host_id.into(), &ends::header(host_id, &sheet, random), &sheet, random, tally);
        }
        let trace = trace::any_sent(host_id, &sheet, random);
        traces::follow(host_id, &sheet, &trace, random, tally);
    }
}

/// The host's own ID where no function has it.
const NOBODY: u16 = 0xFFFE;

fn set_sender(mut header: Vec<u8>, id: u16) -> Vec<u8> {
    header[4..6].copy_from_slice(&id.to_be_bytes());
    header
}

/// A completion from one record to another, so many bridges away.
fn between(from: u16, to: u16, bridges: usize, sheet: &[u8], random: &mut Random, tally: &mut Tally) {
    let [sender, target] = [from, to].map(|record| plain::id_of(sheet, record.into()).expect("a record"));
    let header = set_sender(foreign::completion(foreign::CPLD, target), sender);
    let answer = sent(NOBODY.into(), &header, sheet, random, tally).expect("a delivery");
    let arrival = answer.arrival;
    assert_eq!(answer.sender, Sender::Record(from));
    assert!(matches!(arrival, plain::Arrival::Function { record, bridges: crossed, .. }
        if record == to && usize::from(crossed) == bridges));
}

/// Asks the library and plain, and returns plain's answer.
pub fn sent(host_id: u64, header: &[u8], sheet: &[u8], random: &mut Random, tally: &mut Tally) -> Result<Sent, u8> {
    let asked = Asked { host_id, header, sheet };
    let sender = plain::sender(host_id, header, sheet);
    asked.sender(sender, random, tally);
    let answer = plain::sent(host_id, header, sheet);
    let numbers = answer.map(|sent| sent.numbers());
    let length = numbers.as_ref().map_or(calls::SENT, Vec::len);
    asked.route(&numbers, Lent::answer(length, random), random, tally);
    // A broadcast's answer alone is longer than a packet's.
    if length > calls::SENT {
        for length in [length, length - 1, length + 1, calls::SENT] {
            asked.route(&numbers, Lent::numbers(length, random), random, tally);
        }
    }
    if let Ok(host_id) = u16::try_from(host_id) {
        asked.typed(Id(host_id), sender, answer);
        // The types lend room for the whole answer.
        answer.iter().for_each(|sent| count(header, sent, tally));
    }
    answer
}

fn count(header: &[u8], sent: &Sent, tally: &mut Tally) {
    let kind = plain::read(header).expect("a header that was routed").kind;
    match (sent.sender, kind) {
        (Sender::Host, _) => tally.arrived(&sent.arrival),
        (_, Kind::MRd | Kind::MRdLk | Kind::MWr | Kind::IORd | Kind::IOWr) => tally.climbed(&sent.arrival),
        _ => tally.climbed_by_id(&sent.arrival),
    }
}

/// What is asked.
struct Asked<'a> {
    host_id: u64,
    header: &'a [u8],
    sheet: &'a [u8],
}

impl std::fmt::Display for Asked<'_> {
    fn fmt(&self, f: &mut std::fmt::Formatter<'_>) -> std::fmt::Result {
        write!(f, "for host {:X} {} over {}", self.host_id, hex(self.header), hex(self.sheet))
    }
}

impl Asked<'_> {
    fn sender(&self, sender: Result<Sender, u8>, random: &mut Random, tally: &mut Tally) {
        let given = Lent::answer(1, random);
        self.call(Call::Sender, calls::sender, &sender.map(|sender| [sender.number()]), given, random, tally);
    }

    fn route(&self, numbers: &Result<Vec<u64>, u8>, given: Lent<u64>, random: &mut Random, tally: &mut Tally) {
        self.call(Call::RouteSent, calls::route_sent, numbers, given, random, tally);
    }

    /// Asks the library, with this slice for its answer.
    fn call(
        &self,
        call: Call,
        ask: fn(u64, &[u8], &[u8], &mut [u64]) -> u32,
        answer: &Result<impl AsRef<[u64]>, u8>,
        mut given: Lent<u64>,
        random: &mut Random,
        tally: &mut Tally,
    ) {
        let mut header = Lent::holding(self.header, random);
        let mut sheet = Lent::holding(self.sheet, random);
        let before = (header.clone(), sheet.clone());
        let (number, given_then) = given.expected(answer);
        let returned = ask(self.host_id, header.slice(), sheet.slice(), given.slice());
        tally.count(call, returned);
        assert_eq!(returned, number, "{call:?} {self}");
        assert!(given == given_then && (&header, &sheet) == (&before.0, &before.1), "{call:?} {self}: what was lent");
    }

    /// The types say the same.
    fn typed(&self, host_id: Id, sender: Result<Sender, u8>, answer: Result<Sent, u8>) {
        let typed = cartsundial::sender(host_id, self.header, self.sheet);
        let same = typed.map(typed::sender_number).map_err(|refusal| refusal.number()) == sender.map(Sender::number);
        assert!(same, "{self}: {typed:?}, {sender:?}");
        let typed = cartsundial::sent(host_id, self.header, self.sheet);
        let arrival = typed::same_answer(typed.map(|sent| sent.arrival), answer.map(|sent| sent.arrival), self.sheet);
        let sender =
            typed.map(|sent| typed::sender_number(sent.sender)).ok() == answer.map(|sent| sent.sender.number()).ok();
        assert!(arrival && sender, "{self}: {typed:?}, {answer:?}");
    }
}
