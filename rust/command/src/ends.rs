//! Both ends of a packet with names, and the table of who sent how much to whom.

use crate::named::{address_of, NamedSheet};
use crate::said::Said;
use crate::tally::at;
use crate::words::short;
use cartsundial::{sender as sender_of, sent, Arrival, Id, Owner, Packet, Refusal, Sender, Sent};

/// Who sent a packet, and who gets it as what, or why nobody does.
pub type Both = (Sender, Result<(Owner, Packet), Refusal>);

/// Of a header that is read, over a sheet that is checked.
pub fn both(header: &[u8], host_id: Id, named: &NamedSheet) -> Option<Both> {
    let sheet = named.sheet.bytes();
    let sender = sender_of(host_id, header, sheet).ok()?;
    let to = sent(host_id, header, sheet).map(|Sent { arrival, .. }| {
        let owner = match arrival {
            Arrival::Function(delivery) => Owner::Function(delivery.record),
            Arrival::Host { .. } => Owner::Host,
            Arrival::Every { .. } => Owner::Every,
            _ => Owner::Port,
        };
        (owner, *arrival.packet())
    });
    Some((sender, to))
}

/// `from the host to 4: 03:00.0 "capture", BAR 0 + 10`; `from the host, no owner` where it is refused.
pub fn words((sender, arrived): &Both, named: &NamedSheet) -> String {
    let from = from(*sender, named);
    match arrived {
        Err(refusal) => format!("from {from}, {}", refusal.meaning()),
        Ok((owner, packet)) => {
            let place = place(*owner, packet, named).map_or(String::new(), |place| format!(", {place}"));
            format!("from {from} to {}{place}", to(*owner, named))
        }
    }
}

fn record(record: u16, named: &NamedSheet) -> String {
    format!("{record}: {}", named.title_of(record))
}

fn from(sender: Sender, named: &NamedSheet) -> String {
    match sender {
        Sender::Host => "the host".to_string(),
        Sender::Record(number) => record(number, named),
    }
}

fn to(owner: Owner, named: &NamedSheet) -> String {
    match owner {
        Owner::Function(number) => record(number, named),
        Owner::Host => "the host".to_string(),
        Owner::Every => "every function".to_string(),
        Owner::Port => "the port".to_string(),
    }
}

/// The BAR that holds the packet's address; of what goes to the host the address itself.
fn place(owner: Owner, packet: &Packet, named: &NamedSheet) -> Option<String> {
    match owner {
        Owner::Function(number) => named.place(number, packet),
        Owner::Host => address_of(packet).map(|(_, address)| format!("{address:X}")),
        Owner::Every | Owner::Port => None,
    }
}

/// The table's order: the host, the records, who is not known; and of receivers the host, the records, every function, the port,
/// and then the numbers.
const HOST: usize = 0;
const NOBODY: usize = LAST_RECORD + 1;
const EVERY: usize = LAST_RECORD + 1;
const PORT: usize = EVERY + 1;
const REFUSED: usize = PORT + 1;

/// The greatest record of any sheet.
const LAST_RECORD: usize = 512;

#[derive(Clone, Copy, Default)]
struct Count {
    packets: u64,
    /// Of requests with a Length, four for each dword.
    bytes: u64,
}

/// Sender by receiver. A row is there where its sender has sent something.
#[derive(Default)]
pub struct Ends(Vec<Vec<Count>>);

impl Ends {
    pub fn count(&mut self, said: &Said, header: &[u8]) {
        let from = match said.from {
            Some(Sender::Host) => HOST,
            Some(Sender::Record(record)) => usize::from(record).min(LAST_RECORD),
            None => NOBODY,
        };
        let to = match said.to {
            Ok(Owner::Host) => HOST,
            Ok(Owner::Function(record)) => usize::from(record).min(LAST_RECORD),
            Ok(Owner::Every) => EVERY,
            Ok(Owner::Port) => PORT,
            Err(number) => REFUSED + number as usize,
        };
        let count = at(at(&mut self.0, from), to);
        count.packets += 1;
        if said.is_read() {
            count.bytes += bytes_of(header);
        }
    }

    pub fn add(&mut self, other: &Ends) {
        for ((from, to), count) in other.all() {
            let sum = at(at(&mut self.0, from), to);
            sum.packets += count.packets;
            sum.bytes += count.bytes;
        }
    }

    pub fn is_empty(&self) -> bool {
        self.0.is_empty()
    }

    /// Those that have sent something to each other.
    fn all(&self) -> impl Iterator<Item = ((usize, usize), &Count)> {
        let rows = self.0.iter().enumerate();
        rows.flat_map(|(from, row)| row.iter().enumerate().map(move |(to, count)| ((from, to), count)))
            .filter(|(_, count)| count.packets > 0)
    }

    /// A line for each two, after a head.
    pub fn shown(&self, named: &NamedSheet) -> String {
        let rows: Vec<_> =
            self.all().map(|((from, to), count)| (sender(from, named), receiver(to, named), count)).collect();
        let width = rows.iter().map(|(from, ..)| from.chars().count()).max().unwrap_or(0).max(4);
        let packets: u64 = rows.iter().map(|(.., count)| count.packets).sum();
        let mut text = format!("{packets} headers\n{:>12} {:>14}  {:width$}  to\n", "packets", "bytes", "from");
        for (from, to, Count { packets, bytes }) in rows {
            text += &format!("{packets:>12} {bytes:>14}  {from:width$}  {to}\n");
        }
        text
    }
}

/// Of a header that was read: of a memory, I/O or configuration request four for each dword of its Length.
fn bytes_of(header: &[u8]) -> u64 {
    match header {
        [kind, _, high, low, ..] if matches!(kind & 0x1F, 0b00000..=0b00010 | 0b00100 | 0b00101) => {
            match u64::from(high & 3) << 8 | u64::from(*low) {
                0 => 4 * 1024,
                length => 4 * length,
            }
        }
        _ => 0,
    }
}

fn sender(from: usize, named: &NamedSheet) -> String {
    match from {
        HOST => "the host".to_string(),
        NOBODY => "-".to_string(),
        number => record(number as u16, named),
    }
}

fn receiver(to: usize, named: &NamedSheet) -> String {
    match to {
        HOST => "the host".to_string(),
        EVERY => "every function".to_string(),
        PORT => "the port".to_string(),
        number if number < EVERY => record(number as u16, named),
        number => {
            let number = (number - REFUSED) as u32;
            let meaning = Refusal::try_from(number).map_or_else(|_| number.to_string(), short);
            format!("refused {meaning}")
        }
    }
}
