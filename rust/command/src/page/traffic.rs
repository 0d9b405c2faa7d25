//! A trace on the page: packets by sender and receiver, over record numbers, and refused ones by number. The lines are the proved
//! program's, `follow`. However long the trace is, little is kept of it: counts in at most 128 stretches of records, and from each
//! stretch the first few packets.

use super::html::{counted, escaped};
use crate::failure::Failure;
use crate::hexadecimal::dwords;
use crate::json::Json;
use crate::named::NamedSheet;
use crate::parts::{Part, Parts, Range};
use crate::source::called;
use crate::trace::Feed;
use crate::words::title;
use cartsundial::{read, Annotator, Engine, Headers, Id, Label, Owner, Refusal, Sender};
use std::collections::BTreeMap;
use std::fmt::Write;

/// The most stretches of records.
const STRETCHES: usize = 128;
/// A trace up to this length is listed whole; of a longer one, so many of each pair and stretch are.
const WHOLE: usize = 4096;
const FEW: usize = 4;
/// The most pairs of a sender and a receiver; packets of others are counted together.
const MOST_PAIRS: usize = 400;
/// How many bytes are fed at a time.
const PIECE: usize = 4096;

/// Who sent it, the host first; a header that is not read has no sender.
#[derive(Clone, Copy, Debug, PartialEq, Eq, PartialOrd, Ord)]
enum From {
    Host,
    Record(u16),
    Nobody,
}

/// Who got it, or the number that it has.
#[derive(Clone, Copy, Debug, PartialEq, Eq, PartialOrd, Ord)]
enum To {
    Host,
    Record(u16),
    Every,
    Port,
    Refused(Refusal),
}

struct Kept {
    number: u64,
    title: String,
    place: String,
    header: String,
}

#[derive(Default)]
struct Lane {
    packets: u64,
    stretches: Vec<u64>,
    kept: Vec<Kept>,
}

pub struct Traffic<'a> {
    named: &'a NamedSheet,
    prefix: &'a str,
    file: String,
    host_id: Id,
    lanes: BTreeMap<(From, To), Lane>,
    packets: u64,
    /// Packets of pairs that have no lane any more.
    others: u64,
    /// How many records a stretch has.
    width: u64,
    /// Everything is still kept.
    is_whole: bool,
    kept: usize,
    /// How the trace ends, where it is no whole one.
    end: Option<String>,
}

impl<'a> Traffic<'a> {
    pub fn read(file: &str, named: &'a NamedSheet, prefix: &'a str, host_id: Id) -> Result<Traffic<'a>, Failure> {
        let mut traffic = Traffic::empty(called(file), named, prefix, host_id);
        let (mut parts, mut part) = (Parts::new(Feed::open(file)?, Range::ALL), Part::default());
        let by = Engine::both_ends(host_id, named.sheet.bytes());
        while parts.next(&mut part)? {
            traffic.take(&part, by);
        }
        traffic.end = match parts.last_label() {
            Some(Label::NoTrace(refusal)) => return Err(Failure::refused(called(file), refusal)),
            Some(_) => Some("It ends inside a record, of which nothing is shown.".to_string()),
            None => None,
        };
        Ok(traffic)
    }

    fn empty(file: &str, named: &'a NamedSheet, prefix: &'a str, host_id: Id) -> Traffic<'a> {
        let (file, lanes) = (file.to_string(), BTreeMap::new());
        Traffic {
            named,
            prefix,
            file,
            host_id,
            lanes,
            packets: 0,
            others: 0,
            width: 1,
            is_whole: true,
            kept: 0,
            end: None,
        }
    }

    pub fn is_cut(&self) -> bool {
        self.end.is_some()
    }

    fn take(&mut self, part: &Part, by: Engine) {
        let mut annotator = Annotator::after(part.before);
        let mut room = vec![0; Annotator::room_for(PIECE)];
        let mut headers = Headers::of_records(&part.bytes);
        let mut rest = Vec::new();
        for piece in part.bytes.chunks(PIECE) {
            let length = annotator.feed(by, piece, &mut room).expect("there is room for the lines of a piece");
            rest.extend_from_slice(&room[..length]);
            let text = String::from_utf8_lossy(&rest).into_owned();
            for line in text.lines() {
                if let (Ok(label), Some(header)) = (line.parse(), headers.next()) {
                    self.count(&label, header);
                }
            }
            rest.clear();
        }
    }

    fn count(&mut self, label: &Label, header: &[u8]) {
        let (number, sender, to) = match label {
            Label::Owned { number, sender, owner, .. } => (*number, sender, To::of(*owner)),
            Label::Refused { number, sender, refusal, .. } => (*number, sender, To::Refused(*refusal)),
            _ => return,
        };
        self.packets += 1;
        while (number - 1) / self.width >= STRETCHES as u64 {
            self.widen();
        }
        let key = (From::of(*sender), to);
        if !self.lanes.contains_key(&key) && self.lanes.len() >= MOST_PAIRS {
            self.others += 1;
            return;
        }
        let stretch = ((number - 1) / self.width) as usize;
        let lane = self.lanes.entry(key).or_default();
        lane.packets += 1;
        lane.stretches.resize(lane.stretches.len().max(stretch + 1), 0);
        lane.stretches[stretch] += 1;
        if self.is_whole || lane.stretches[stretch] <= FEW as u64 {
            lane.kept.push(Kept::of(number, header, key.1, self.named));
            self.kept += 1;
        }
        if self.is_whole && self.kept > WHOLE {
            self.is_whole = false;
            self.prune();
        }
    }

    /// Two stretches become one.
    fn widen(&mut self) {
        self.width *= 2;
        for lane in self.lanes.values_mut() {
            lane.stretches = lane.stretches.chunks(2).map(|two| two.iter().sum()).collect();
        }
        if !self.is_whole {
            self.prune();
        }
    }

    /// Keeps the first few of each stretch.
    fn prune(&mut self) {
        for lane in self.lanes.values_mut() {
            let mut of = (u64::MAX, 0);
            lane.kept.retain(|kept| {
                let stretch = (kept.number - 1) / self.width;
                of = if of.0 == stretch { (stretch, of.1 + 1) } else { (stretch, 1) };
                of.1 <= FEW
            });
        }
        self.kept = self.lanes.values().map(|lane| lane.kept.len()).sum();
    }

    /// `4: 03:00.0 "capture"`, with a link to the tree.
    fn record(&self, record: u16) -> String {
        let title = escaped(self.named.title_of(record));
        format!("<a href=\"#{}{record}\">{title}</a>", self.prefix)
    }

    fn from(&self, from: From) -> String {
        match from {
            From::Host => "the host".to_string(),
            From::Record(record) => self.record(record),
            From::Nobody => "<span title=\"the header is not read\">nobody</span>".to_string(),
        }
    }

    fn to(&self, to: To) -> String {
        match to {
            To::Host => "the host".to_string(),
            To::Record(record) => self.record(record),
            To::Every => "every function".to_string(),
            To::Port => "the port".to_string(),
            To::Refused(refusal) => format!("<span class=\"refused\">refused {}</span>", refusal.number()),
        }
    }

    /// The same as plain text.
    fn pair(&self, (from, to): (From, To)) -> String {
        let from = match from {
            From::Host => "the host".to_string(),
            From::Record(record) => self.named.title_of(record),
            From::Nobody => "nobody".to_string(),
        };
        match to {
            To::Host => format!("from {from} to the host"),
            To::Record(record) => format!("from {from} to {}", self.named.title_of(record)),
            To::Every => format!("from {from} to every function"),
            To::Port => format!("from {from} to the port"),
            To::Refused(refusal) => format!("from {from}, refused {}: {}", refusal.number(), refusal.meaning()),
        }
    }

    pub fn json(&self) -> Json {
        let lanes = self.lanes.iter().map(|(key, lane)| {
            let kept = lane.kept.iter().map(|kept| {
                let Kept { number, title, place, header } = kept;
                Json::List(vec![Json::number(*number), Json::text(title), Json::text(place), Json::text(header)])
            });
            let mut members = vec![
                ("title", Json::text(self.pair(*key))),
                ("packets", Json::number(lane.packets)),
                ("kept", Json::List(kept.collect())),
            ];
            if let To::Refused(refusal) = key.1 {
                members.push(("refused", Json::number(refusal.number())));
            }
            Json::Object(members)
        });
        Json::Object(vec![
            ("packets", Json::number(self.packets)),
            ("width", Json::number(self.width)),
            ("stretches", Json::number(self.stretches() as u64)),
            ("lanes", Json::List(lanes.collect())),
        ])
    }

    fn stretches(&self) -> usize {
        (self.packets.div_ceil(self.width) as usize).max(1)
    }

    pub fn html(&self) -> String {
        let mut html = format!(
            "<p>{} of <span class=\"mono\">{}</span>, over this sheet, with the host's own ID {}. Each has one sender, the host or the \
             function that its header names, and one receiver or a number: these lines are the proved program's. {}</p>\n",
            counted(self.packets, "packet"),
            escaped(super::short(&self.file)),
            self.host_id,
            match self.is_whole {
                true => "All of them are listed here.".to_string(),
                false => format!(
                    "Of each pair the first {FEW} of every {} records are listed here; <code>cartsundial label --both</code> lists all.",
                    self.width
                ),
            }
        );
        if self.others > 0 {
            let _ = write!(
                html,
                "<p class=\"note\">{} of pairs after the first {MOST_PAIRS} are not shown.</p>\n",
                counted(self.others, "packet")
            );
        }
        if let Some(end) = &self.end {
            let _ = write!(html, "<p class=\"note\">{end}</p>\n");
        }
        html + &self.matrix() + &self.over_records() + &self.refused() + LIST
    }

    fn matrix(&self) -> String {
        let mut rows: Vec<From> = self.lanes.keys().map(|(from, _)| *from).collect();
        rows.dedup();
        let mut columns: Vec<To> = self.lanes.keys().map(|(_, to)| *to).collect();
        columns.sort();
        columns.dedup();
        let most = self.lanes.values().map(|lane| lane.packets).max().unwrap_or(1) as f64;
        let mut html = "<h3>By sender and receiver</h3>\n<div class=\"wide\" tabindex=\"0\" role=\"region\" \
             aria-label=\"Packets by sender and receiver\">\
             <table class=\"matrix\"><thead><tr><th scope=\"col\">from \\ to</th>"
            .to_string();
        for to in &columns {
            let _ = write!(html, "<th scope=\"col\">{}</th>", self.to(*to));
        }
        html += "</tr></thead><tbody>\n";
        for from in rows {
            let _ = write!(html, "<tr><th scope=\"row\">{}</th>", self.from(from));
            for to in &columns {
                let at = self.lanes.keys().position(|key| *key == (from, *to));
                let Some((at, lane)) = at.map(|at| (at, &self.lanes[&(from, *to)])) else {
                    html += "<td></td>";
                    continue;
                };
                let heat = (lane.packets as f64).ln_1p() / most.ln_1p();
                let _ = write!(
                    html,
                    "<td><button type=\"button\" class=\"count\" data-lane=\"{at}\" style=\"--heat:{heat:.2}\" \
                     aria-label=\"{}: {}\">{}</button></td>",
                    escaped(self.pair((from, *to))),
                    counted(lane.packets, "packet"),
                    lane.packets
                );
            }
            html += "</tr>\n";
        }
        html + "</tbody></table></div>\n"
    }

    fn over_records(&self) -> String {
        let stretches = self.stretches();
        let last = self.packets;
        let mut html = format!(
            "<h3>Over record numbers</h3>\n<div class=\"wide\" tabindex=\"0\" role=\"region\" aria-label=\"Packets over record numbers\">\
             <table class=\"lanes\"><thead><tr><th scope=\"col\">pair</th><th scope=\"col\">packets</th>\
             <th scope=\"col\"><span class=\"ends\"><span>record 1</span><span>{last}</span></span></th></tr></thead><tbody>\n"
        );
        let most = self.lanes.values().flat_map(|lane| lane.stretches.iter().copied()).max().unwrap_or(1).max(1);
        for (at, (key, lane)) in self.lanes.iter().enumerate() {
            let title = escaped(self.pair(*key));
            let mut marks = String::new();
            for (k, &count) in lane.stretches.iter().enumerate().filter(|(_, count)| **count > 0) {
                let height = 2.0 + 8.0 * (count as f64 / most as f64);
                let _ =
                    write!(marks, "<rect x=\"{k}\" y=\"{:.1}\" width=\"1\" height=\"{height:.1}\"/>", 10.0 - height);
            }
            let refused = if matches!(key.1, To::Refused(_)) { " class=\"refused\"" } else { "" };
            let _ = writeln!(
                html,
                "<tr{refused}><th scope=\"row\">{} <span aria-hidden=\"true\">&rarr;</span> {}</th>\
                 <td><button type=\"button\" class=\"count\" data-lane=\"{at}\" aria-label=\"{title}: {}\">{}</button></td>\
                 <td><svg data-lane=\"{at}\" viewBox=\"0 0 {stretches} 10\" preserveAspectRatio=\"none\" role=\"img\" \
                 aria-label=\"{title}, over the records\">{marks}</svg></td></tr>",
                self.from(key.0),
                self.to(key.1),
                counted(lane.packets, "packet"),
                lane.packets,
            );
        }
        html + "</tbody></table></div>\n"
    }

    fn refused(&self) -> String {
        let mut numbers: BTreeMap<u8, (&'static str, u64)> = BTreeMap::new();
        for ((_, to), lane) in &self.lanes {
            if let To::Refused(refusal) = to {
                numbers.entry(refusal.number()).or_insert((refusal.meaning(), 0)).1 += lane.packets;
            }
        }
        if numbers.is_empty() {
            return "<p>No packet is refused.</p>\n".to_string();
        }
        let mut html = "<h3>Refused</h3>\n<table class=\"numbers\"><thead><tr><th scope=\"col\">number</th><th scope=\"col\">packets</th>\
             <th scope=\"col\">words</th></tr></thead><tbody>\n"
            .to_string();
        for (number, (meaning, packets)) in numbers {
            let _ = writeln!(
                html,
                "<tr><th scope=\"row\">{number}</th><td><button type=\"button\" class=\"count\" data-refused=\"{number}\" \
                 aria-label=\"refused {number}: {}\">{packets}</button></td><td>{}</td></tr>",
                counted(packets, "packet"),
                escaped(meaning)
            );
        }
        html + "</tbody></table>\n"
    }
}

/// Where a click lists packets.
const LIST: &str = "\
<section class=\"listed\" aria-labelledby=\"listed-title\" hidden>
<h3 id=\"listed-title\" tabindex=\"-1\">Packets</h3>
<form class=\"between\"><label>records from <input name=\"from\" inputmode=\"numeric\" size=\"8\"></label>
<label>to <input name=\"to\" inputmode=\"numeric\" size=\"8\"></label> <button>show</button></form>
<p class=\"how-many\" role=\"status\"></p>
<div class=\"wide\" tabindex=\"0\" role=\"region\" aria-label=\"Listed packets\"><table><thead><tr><th scope=\"col\">record</th>\
<th scope=\"col\">packet</th><th scope=\"col\">where</th><th scope=\"col\">header</th></tr></thead><tbody></tbody></table></div>
<button type=\"button\" class=\"more\" hidden>more</button>
</section>
";

impl Kept {
    fn of(number: u64, header: &[u8], to: To, named: &NamedSheet) -> Kept {
        let packet = read(header).ok();
        let place = match to {
            To::Record(record) => packet.and_then(|packet| named.place(record, &packet)).unwrap_or_default(),
            To::Refused(refusal) => format!("refused {}: {}", refusal.number(), refusal.meaning()),
            _ => String::new(),
        };
        let title = packet.map_or("not read".to_string(), |packet| title(&packet));
        Kept { number, title, place, header: dwords(&header[..header.len().min(16)]) }
    }
}

impl From {
    fn of(sender: Option<Sender>) -> From {
        match sender {
            Some(Sender::Host) => From::Host,
            Some(Sender::Record(record)) => From::Record(record),
            None => From::Nobody,
        }
    }
}

impl To {
    fn of(owner: Owner) -> To {
        match owner {
            Owner::Function(record) => To::Record(record),
            Owner::Host => To::Host,
            Owner::Every => To::Every,
            Owner::Port => To::Port,
        }
    }
}

#[cfg(test)]
mod tests {
    use super::*;
    use crate::source::Source;

    fn recorder() -> NamedSheet {
        let path = concat!(env!("CARGO_MANIFEST_DIR"), "/../../tests/command/recorder.txt");
        Source::read(path).unwrap().into_sheet().unwrap()
    }

    /// However long it is, every packet is counted once, and little is kept.
    #[test]
    fn long_traces() {
        let named = recorder();
        let write = [0x40, 0, 0, 1, 0, 0, 0, 0x0F, 0xF8, 0x10, 0, 0x10];
        let refused = [0x40, 0, 0, 2, 0, 0, 0, 0x0F, 0xF8, 0x10, 0, 0x10];
        for count in [1, 127, 128, 129, 4096, 4097, 100_000_u64] {
            let mut traffic = Traffic::empty("trace", &named, "a", Id(0));
            let by = Engine::both_ends(Id(0), named.sheet.bytes());
            let records: Vec<u8> = (0..count)
                .flat_map(|k| [&[0, 12][..], if k % 10 == 9 { &refused[..] } else { &write[..] }].concat())
                .collect();
            traffic.take(&Part { bytes: records, ..Part::default() }, by);
            let lanes: Vec<&Lane> = traffic.lanes.values().collect();
            assert_eq!(traffic.packets, count);
            assert_eq!(lanes.iter().map(|lane| lane.packets).sum::<u64>(), count);
            assert_eq!(lanes.iter().flat_map(|lane| &lane.stretches).sum::<u64>(), count);
            assert_eq!(traffic.is_whole, count <= 4096, "{count}");
            let kept = lanes.iter().map(|lane| lane.kept.len()).sum::<usize>();
            assert_eq!(kept, traffic.kept);
            assert!(if traffic.is_whole { kept as u64 == count } else { kept <= lanes.len() * STRETCHES * FEW });
            assert!(lanes.iter().all(|lane| lane.kept.windows(2).all(|two| two[0].number < two[1].number)));
        }
    }
}
