//! Why a board is not planned: whom its number is about, what it needs of its host, before whom most room is lost, and what would let it
//! be planned. Number, whom and needs are the proved finding; IDs, names and lines are looked up beside it. What would let it be planned,
//! what is wrong in the bytes, and what to do are told by `--full`.

use crate::explain::remedy;
use crate::fits::{Fits, Order, MOST_TRIED};
use crate::full::is_full;
use crate::json::Json;
use crate::listing::{key, word};
use crate::titles::{numbered, Titles};
use crate::tree::{self, Record};
use crate::unlawful;
use crate::without::LeftOut;
use cartsundial::{plan_where, Bar, Board, Headers, HostRecord, Id, Place, PlanFinding, PlanParty, Pool, Size};

/// No pool reaches so far, and what is needed is not counted on much further.
const PAST_POOLS: u64 = 1 << 52;

/// How many cards are named one by one that may be left out; JSON has all.
const MOST_NAMED: usize = 12;

pub struct Unfit<'a> {
    finding: PlanFinding,
    bytes: &'a [u8],
    titles: Titles<'a>,
    /// What the board's text says beside its host.
    host_comment: Option<String>,
    left_out: &'a [LeftOut],
    fits: Option<Fits>,
    /// The bridges from the root bus down, and last whose BAR or spare memory makes the item so large.
    chain: Option<(Vec<Record>, Large)>,
}

/// What makes a window large.
#[derive(Clone, Copy)]
enum Large {
    Bar(usize, Bar),
    Spare(u64),
}

impl<'a> Unfit<'a> {
    /// Of a board that is not planned.
    pub fn new(
        bytes: &'a [u8],
        board: Option<&'a Board>,
        host_comment: Option<String>,
        left_out: &'a [LeftOut],
    ) -> Unfit<'a> {
        let finding = plan_where(bytes).expect_err("a board that is not planned is refused");
        // It may say why a pool is as small as it is.
        let host_comment = host_comment.filter(|_| Pool::short_by(finding.refusal).is_some());
        let lawful = board.filter(|_| is_full() && finding.needs.is_some());
        let fits = lawful.map(|board| Fits::new(board, &finding));
        let chain = lawful.and_then(|board| chain(board, &finding));
        Unfit { finding, bytes, titles: Titles::new(bytes, board), host_comment, left_out, fits, chain }
    }

    pub fn text(&self) -> String {
        let mut lines = vec![self.finding.refusal.to_string()];
        lines.extend(self.left_out.iter().map(|one| format!("  left out: {one}")));
        lines.extend(self.finding.party.as_ref().map(|party| format!("  {}", self.about(party))));
        if is_full() && self.fits.is_none() {
            lines.extend(unlawful::of_board(self.bytes, &self.finding, &self.titles).map(|what| format!("  {what}")));
        }
        lines.extend(self.chain_text().map(|chain| format!("  {chain}")));
        lines.extend(self.rooms().iter().map(|room| format!("  {}", room.line())));
        let lost = self.finding.lost_before.as_ref();
        lines.extend(lost.map(|party| format!("  most room is lost to alignment before {}", self.titled(party))));
        lines.extend(self.host_comment.as_ref().map(|comment| format!("  the host's line says: {comment}")));
        lines.extend(self.fits.iter().flat_map(|fits| self.fits_text(fits)).map(|line| format!("  {line}")));
        lines.extend(is_full().then(|| format!("  {}", remedy(self.finding.refusal))));
        lines.join("\n") + "\n"
    }

    /// `the largest part of it: 00:01.0 "port B" > 01:02.0 "port 2" > record 7, 02:00.0 "cap 3", line 9: BAR 0 (mem64p 8G)`.
    fn chain_text(&self) -> Option<String> {
        let (records, large) = self.chain.as_ref()?;
        let (last, bridges) = records.split_last()?;
        let mut names: Vec<String> = bridges.iter().map(|&record| self.titles.short(record)).collect();
        names.push(self.titles.title(*last));
        let what = match large {
            Large::Bar(slot, bar) => format!("BAR {slot} ({} {})", bar.kind, Size(bar.size)),
            Large::Spare(bytes) => format!("spare {}", Size(*bytes)),
        };
        Some(format!("the largest part of it: {}: {what}", names.join(" > ")))
    }

    fn fits_text(&self, fits: &Fits) -> Vec<String> {
        let mut lines = Vec::new();
        lines.extend(fits.host.map(|host| format!("fits if the host has {}", self.host_text(&host))));
        if fits.no_spares {
            lines.push("fits if no bridge keeps spare buses or memory".into());
        }
        for &record in fits.without.iter().take(MOST_NAMED) {
            lines.push(format!("fits without {}", self.part(record)));
        }
        if fits.without.len() > MOST_NAMED {
            lines.push(format!("and without any one of {} more: --json has them", fits.without.len() - MOST_NAMED));
        }
        match &fits.together[..] {
            [] if fits.without.is_empty() => {
                lines.push("no part was found to leave out with which the rest fits".into())
            }
            [] => {}
            together => {
                lines.push("no one part is enough to leave out; fits without these together:".into());
                lines.extend(together.iter().map(|&record| format!("  {}", self.part(record))));
            }
        }
        lines.extend(self.order_text(&fits.order));
        lines
    }

    fn order_text(&self, order: &Order) -> Vec<String> {
        let pair =
            |(one, other): &(Record, Record)| format!("{} and {}", self.titles.title(*one), self.titles.title(*other));
        match order {
            Order::Never => Vec::new(),
            Order::Found(pairs, tried) => {
                let all: Vec<String> = pairs.iter().map(pair).collect();
                let found = format!("found as order {tried} of at most {MOST_TRIED}");
                vec![format!("fits with the places of {} exchanged ({found})", all.join(", then of "))]
            }
            Order::NotFound(tried) => {
                vec![format!("no other order was found that fits: {tried} were tried, of at most {MOST_TRIED}")]
            }
        }
    }

    /// `record 4, 03:00.0 "switch", line 5, and 3 functions with it`.
    fn part(&self, record: Record) -> String {
        let title = self.titles.title(record);
        match self.titles.board.map_or(1, |board| tree::unit(board, record).len()) {
            ..=1 => title,
            2 => format!("{title}, and 1 function with it"),
            count => format!("{title}, and {} functions with it", count - 1),
        }
    }

    /// What of the host has to be more: `low E0000000+65M`.
    fn host_text(&self, host: &HostRecord) -> String {
        let Some(has) = self.finding.host else { return String::new() };
        let mut words = Vec::new();
        if host.buses != has.buses {
            words.push(format!("buses {:02X}-{:02X}", host.buses.0, host.buses.1));
        }
        for pool in Pool::ALL {
            let Some(range) = host.pool(pool).filter(|range| Some(range) != has.pool(pool).as_ref()) else { continue };
            let (first, size) = (*range.start(), Size(range.end() - range.start() + 1));
            let word = key(pool);
            words.push(match (has.pool(pool), pool) {
                (None, _) => {
                    format!("{word} {first:X}+{size}, or that much from another multiple of {}", self.align(pool))
                }
                (Some(_), Pool::Io) => format!("{word} {first:04X}+{size}"),
                (Some(_), _) => format!("{word} {first:08X}+{size}"),
            });
        }
        words.join(", and ")
    }

    fn align(&self, pool: Pool) -> Size {
        Size(self.finding.needs.map_or(0, |needs| needs.align(pool)))
    }

    pub fn json(&self) -> Json {
        let PlanFinding { refusal, party, lost_before, .. } = &self.finding;
        let rooms = self.rooms();
        let counts = |of: fn(&Room) -> Option<u64>| match rooms.len() {
            0 => Json::Null,
            _ => Json::Object(rooms.iter().filter_map(|room| Some((room.member(), Json::number(of(room)?)))).collect()),
        };
        let place = |party: &PlanParty| ("place", place(party).map_or(Json::Null, Json::text));
        let lost = lost_before.as_ref().map_or(Json::Null, |party| {
            let about = Json::text(self.titled(party));
            Json::Object(vec![("record", Json::number(party.record)), place(party), ("about", about)])
        });
        let mut members = vec![
            ("refused", Json::number(refusal.number())),
            ("meaning", Json::text(refusal.meaning())),
            ("record", party.map_or(Json::Null, |party| Json::number(party.record))),
            party.as_ref().map_or(("place", Json::Null), place),
            ("about", party.as_ref().map_or(Json::Null, |party| Json::text(self.about(party)))),
            ("needs", counts(|room| Some(room.needs))),
            ("align", counts(|room| room.align)),
            ("has", counts(|room| Some(room.has))),
            ("lost_before", lost),
        ];
        members.extend(self.host_comment.as_ref().map(|comment| ("host_comment", Json::text(comment))));
        let is_own = is_full() && self.fits.is_none();
        let faults = unlawful::of_board(self.bytes, &self.finding, &self.titles);
        members.extend(faults.filter(|_| is_own).map(|what| ("fault", Json::text(what))));
        members.extend(self.chain_json().map(|chain| ("chain", chain)));
        members.extend(self.fits.as_ref().map(|fits| ("fits_if", self.fits_json(fits))));
        members.extend(is_full().then(|| ("remedy", Json::text(refusal.remedy()))));
        members.extend(LeftOut::json(self.left_out));
        Json::Object(members)
    }

    fn chain_json(&self) -> Option<Json> {
        let (records, large) = self.chain.as_ref()?;
        let members = |record: &Record| self.titles.json(*record);
        let mut all: Vec<_> = records.iter().map(members).collect();
        all.last_mut()?.extend(match large {
            Large::Bar(slot, bar) => vec![
                ("slot", Json::number(*slot as u64)),
                ("kind", Json::text(bar.kind)),
                ("size", Json::number(bar.size)),
            ],
            Large::Spare(bytes) => vec![("spare", Json::number(*bytes))],
        });
        Some(Json::List(all.into_iter().map(Json::Object).collect()))
    }

    fn fits_json(&self, fits: &Fits) -> Json {
        let part = |record: &Record| {
            let mut members = self.titles.json(*record);
            let count = self.titles.board.map_or(1, |board| tree::unit(board, *record).len());
            members.push(("functions", Json::number(count as u64)));
            Json::Object(members)
        };
        let one = |record: &Record| Json::Object(self.titles.json(*record));
        let pair = |(first, second): &(Record, Record)| Json::List(vec![one(first), one(second)]);
        let order = match &fits.order {
            Order::Never => Json::Null,
            Order::Found(pairs, tried) => Json::Object(vec![
                ("exchanged", Json::List(pairs.iter().map(pair).collect())),
                ("tried", Json::number(*tried as u64)),
            ]),
            Order::NotFound(tried) => {
                Json::Object(vec![("exchanged", Json::Null), ("tried", Json::number(*tried as u64))])
            }
        };
        Json::Object(vec![
            ("host", fits.host.map_or(Json::Null, |host| Json::text(self.host_text(&host)))),
            ("no_spares", Json::Bool(fits.no_spares)),
            ("without", Json::List(fits.without.iter().map(part).collect())),
            ("without_together", Json::List(fits.together.iter().map(part).collect())),
            ("order", order),
        ])
    }

    /// Whom the number is about, and where it does not fit.
    fn about(&self, party: &PlanParty) -> String {
        let titled = self.titled(party);
        match (Pool::short_by(self.finding.refusal), self.finding.host) {
            (Some(pool), Some(host)) if host.room(pool) > 0 => format!("{titled} ends past the {} pool", word(pool)),
            (Some(pool), _) => format!("{titled} finds the {} pool closed", word(pool)),
            (None, _) => self.small(party).map_or(titled.clone(), |what| format!("{titled}: {what}")),
        }
    }

    /// Of a BAR that is too small its size, which `--full` tells on a line of its own.
    fn small(&self, party: &PlanParty) -> Option<String> {
        bar_at(self.titles.board, party).filter(|_| !is_full()).and_then(unlawful::too_small)
    }

    /// `record 4, 03:00.0 "capture", line 5: BAR 0`, by `--full` with `(mem32 64K)` after it.
    fn titled(&self, party: &PlanParty) -> String {
        let text = if is_full() { self.titles.title(party.record) } else { self.title(party) };
        let size = bar_at(self.titles.board, party).filter(|_| is_full() && self.finding.needs.is_some());
        match (place(party), size) {
            (Some(place), Some(bar)) => format!("{text}: {place} ({} {})", bar.kind, Size(bar.size)),
            (Some(place), None) => format!("{text}: {place}"),
            (None, _) => text,
        }
    }

    /// By the finding's own ID, or the records before it.
    fn title(&self, party: &PlanParty) -> String {
        let mut text = format!("record {}, ", party.record);
        match id_of(party, self.bytes) {
            Some(id) => text += &id.to_string(),
            None => text += &format!("{:02x}.{} below record {}", party.device, party.function, party.parent),
        }
        if let Some(name) = self.titles.name(party.record) {
            text += &format!(" \"{name}\"");
        }
        if let Some(line) = self.titles.board.and_then(|board| board.function(party.record)?.line) {
            text += &format!(", line {line}");
        }
        text
    }

    /// Nothing for a board that fails its own checks.
    fn rooms(&self) -> Vec<Room> {
        let (Some(needs), Some(host)) = (self.finding.needs, self.finding.host) else { return Vec::new() };
        let buses = Room { pool: None, needs: needs.buses.into(), align: None, has: host.bus_numbers().into() };
        let pools = Pool::ALL.map(|pool| Room {
            pool: Some(pool),
            needs: needs.of(pool),
            align: Some(needs.align(pool)),
            has: host.room(pool),
        });
        [buses].into_iter().chain(pools).collect()
    }
}

/// The ID that a function has, or would have. Of a function below a bridge the records before it tell the bus, where they are a lawful
/// board; it is the one below its parent there.
fn id_of(party: &PlanParty, bytes: &[u8]) -> Option<Id> {
    if party.parent == 0 {
        return party.id;
    }
    let mut records = Headers::of_records(bytes.get(1..)?);
    records.nth(usize::from(party.record) - 1)?;
    let front = &bytes[..bytes.len() - records.rest().len()];
    let bus = numbered(&Board::of_bytes(front).ok()?)?.record(party.parent)?.buses()?.secondary;
    Some(Id(u16::from_be_bytes([bus, party.device << 3 | party.function])))
}

/// The BAR that is meant.
fn bar_at(board: Option<&Board>, party: &PlanParty) -> Option<Bar> {
    let Place::Bar(wanted) = party.place else { return None };
    let mut slot = 0;
    board?.function(party.record)?.bars().into_iter().find(|bar| {
        slot += bar.kind.slots();
        slot - bar.kind.slots() == usize::from(wanted)
    })
}

/// Of a window that ends past its pool: down to the one below it without whose BAR, or spare memory, the board would need least, by the
/// proved call; the largest of those, and the first.
fn chain(board: &Board, finding: &PlanFinding) -> Option<(Vec<Record>, Large)> {
    let party = finding.party.filter(|party| matches!(party.place, Place::Window(_)))?;
    let pool = Pool::short_by(finding.refusal)?;
    let is_below = |record: &Record| tree::above(board, *record).contains(&party.record);
    let mut least: Option<((u64, u64), Record, Large)> = None;
    for record in tree::records(board).filter(|record| *record == party.record || is_below(record)) {
        for large in larges(board, record, pool, record != party.record) {
            let key = (needs_without(board, record, large, pool), u64::MAX - large.bytes());
            if least.as_ref().is_none_or(|(before, ..)| key < *before) {
                least = Some((key, record, large));
            }
        }
    }
    let (_, record, large) = least?;
    let mut records = vec![record];
    records.extend(tree::above(board, record).into_iter().take_while(|_| record != party.record));
    records.reverse();
    Some((records, large))
}

impl Large {
    fn bytes(self) -> u64 {
        match self {
            Large::Bar(_, bar) => bar.size,
            Large::Spare(bytes) => bytes,
        }
    }
}

/// What a function has in a pool; of the bridge whose window it is, only its spare memory.
fn larges(board: &Board, record: Record, pool: Pool, has_bars: bool) -> Vec<Large> {
    let Some(one) = board.function(record) else { return Vec::new() };
    let spare = u64::from(one.spares.memory) << 20;
    let mut slot = 0;
    let mut all = Vec::new();
    for bar in one.bars().into_iter().filter(|_| has_bars) {
        if bar.kind.pool() == Some(pool) {
            all.push(Large::Bar(slot, bar));
        }
        slot += bar.kind.slots();
    }
    all.extend((pool == Pool::Low && spare > 0).then_some(Large::Spare(spare)));
    all
}

/// What the board needs of a pool without that.
fn needs_without(board: &Board, record: Record, large: Large, pool: Pool) -> u64 {
    let mut functions = board.functions().to_vec();
    let one = &mut functions[usize::from(record) - 1];
    match large {
        Large::Bar(slot, bar) => one.read_backs[slot..slot + bar.kind.slots()].fill(0),
        Large::Spare(_) => one.spares.memory = 0,
    }
    match plan_where(&board.with_functions(functions).bytes()) {
        Ok(needs) => needs.of(pool),
        Err(finding) => finding.needs.map_or(u64::MAX, |needs| needs.of(pool)),
    }
}

/// What a board needs of a pool, or of the bus numbers, and what its host has.
struct Room {
    pool: Option<Pool>,
    needs: u64,
    /// Of a closed pool: its bytes are enough from any multiple of this.
    align: Option<u64>,
    has: u64,
}

impl Room {
    /// `low pool: needs 65M, has 64M: too little`; `high pool: needs 8G at a multiple of 8G, is closed: too little`.
    fn line(&self) -> String {
        let Some(pool) = self.pool else {
            return format!("bus numbers: needs {}, has {}{}", self.needs, self.has, self.verdict());
        };
        let needs = match (self.needs, self.align) {
            (0, _) => "nothing".to_string(),
            (PAST_POOLS.., _) => "more than any pool has".to_string(),
            (bytes, Some(align)) if self.has == 0 => format!("{} at a multiple of {}", Size(bytes), Size(align)),
            (bytes, _) => Size(bytes).to_string(),
        };
        let has = match self.has {
            0 => "is closed".to_string(),
            bytes => format!("has {}", Size(bytes)),
        };
        format!("{} pool: needs {needs}, {has}{}", word(pool), self.verdict())
    }

    fn verdict(&self) -> &'static str {
        if self.needs > self.has {
            ": too little"
        } else {
            ""
        }
    }

    fn member(&self) -> &'static str {
        self.pool.map_or("buses", key)
    }
}

/// A BAR or a window; nothing where the function as a whole is meant.
fn place(party: &PlanParty) -> Option<Place> {
    Some(party.place).filter(|place| *place != Place::Id)
}
