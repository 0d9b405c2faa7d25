//! The three address maps, to scale: a row for each depth, the root bus first, and in a window what lies in it. What is drawn has its
//! sums: used by BARs, kept free, lost to alignment, free.

use super::html::escaped;
use super::machine::Machine;
use super::tree::{class, word};
use crate::listing::range;
use cartsundial::{Function, Place, Pool, Size};
use std::fmt::Write;
use std::ops::RangeInclusive;

#[derive(Clone, Copy, Debug, PartialEq, Eq)]
enum What {
    Bar {
        record: u16,
        slot: u8,
    },
    Window {
        record: u16,
    },
    Spare {
        record: u16,
    },
    /// Nobody's, in a window or before an item.
    Lost,
    /// Nobody's, and room for more.
    Free,
}

/// Addresses with one use, and their row.
#[derive(Clone, Debug, PartialEq, Eq)]
struct Part {
    what: What,
    first: u64,
    last: u64,
    row: usize,
    /// It ends past its pool, or lies outside what is above it.
    is_over: bool,
}

impl Part {
    fn size(&self) -> u64 {
        (self.last - self.first).saturating_add(1)
    }
}

#[derive(Clone, Copy, Debug, Default, PartialEq, Eq)]
struct Sums {
    used: u64,
    spare: u64,
    lost: u64,
    free: u64,
    over: u64,
}

pub struct Map<'a> {
    machine: &'a Machine,
    prefix: &'a str,
    pool: Pool,
    /// The pool's addresses, where the host is known; of a closed one nothing.
    host: Option<RangeInclusive<u64>>,
    /// Everything that is drawn lies in it: the pool, and what ends past it.
    whole: RangeInclusive<u64>,
    parts: Vec<Part>,
}

impl<'a> Map<'a> {
    /// `None` where the pool is closed and nothing lies there.
    pub fn new(machine: &'a Machine, prefix: &'a str, pool: Pool) -> Option<Map<'a>> {
        let host = machine.host.and_then(|host| host.pool(pool));
        let mut parts = Parts { machine, pool, functions: machine.functions(), all: Vec::new() };
        let items = parts.on_buses_without_bridge();
        let ends = items.iter().map(|item| item.last).max();
        let starts = items.iter().map(|item| item.first).min();
        let first = match (&host, starts) {
            (Some(range), starts) => (*range.start()).min(starts.unwrap_or(u64::MAX)),
            // A closed pool of a refused board is drawn from 0 on.
            (None, Some(starts)) if machine.refused.is_none() => starts,
            (None, Some(_)) => 0,
            (None, None) => return None,
        };
        let last = ends.into_iter().chain(host.as_ref().map(|range| *range.end())).max()?;
        parts.lay(items, first..=last, host.as_ref().map_or(0, |range| *range.end()), 0);
        let Parts { all, .. } = parts;
        let mut map = Map { machine, prefix, pool, host, whole: first..=last, parts: all };
        map.mark_over();
        Some(map)
    }

    /// What ends past the pool, or has no pool.
    fn mark_over(&mut self) {
        let is_short = self.machine.refused.is_some();
        let end = self.host.as_ref().map(|range| *range.end());
        for part in &mut self.parts {
            part.is_over |= is_short && part.what != What::Free && end.is_none_or(|end| part.last > end);
        }
    }

    fn sums(&self) -> Sums {
        let mut sums = Sums::default();
        for part in &self.parts {
            match part.what {
                What::Bar { .. } => sums.used += part.size(),
                What::Spare { .. } => sums.spare += part.size(),
                What::Lost => sums.lost += part.size(),
                What::Free => sums.free += part.size(),
                What::Window { .. } => {}
            }
        }
        let end = self.host.as_ref().map_or(*self.whole.start(), |range| range.end().saturating_add(1));
        if self.machine.refused.is_some() {
            sums.over = self.whole.end().saturating_add(1).saturating_sub(end);
        }
        sums
    }

    /// The part of the map that something lies in, with an edge of a pool that is too small.
    fn used(&self) -> RangeInclusive<u64> {
        let is_used = |part: &&Part| part.what != What::Free;
        let last = self.parts.iter().filter(is_used).map(|part| part.last).max().unwrap_or(*self.whole.end());
        let first = self.parts.iter().filter(is_used).map(|part| part.first).min().unwrap_or(*self.whole.start());
        first..=last
    }

    /// `lost to alignment` of a plan; of a sheet nobody says why there is room in a window.
    fn lost_word(&self) -> &'static str {
        if self.machine.is_board {
            "lost to alignment"
        } else {
            "open and not used"
        }
    }

    pub fn html(&self) -> String {
        let sums = self.sums();
        let id = format!("{}map-{}", self.prefix, class(self.pool));
        let words = [
            ("bar", "used by BARs", sums.used),
            ("spare", "spare", sums.spare),
            ("lost", self.lost_word(), sums.lost),
            ("free", "free", sums.free),
            ("over", "past the pool", sums.over),
        ];
        let shown: Vec<_> = words.iter().filter(|(kind, _, bytes)| *bytes > 0 || *kind == "bar").collect();
        let legend: String = shown
            .iter()
            .map(|(kind, text, bytes)| {
                format!("<li><i class=\"mark {} {kind}\"></i>{text} {}</li>", class(self.pool), sum(*bytes))
            })
            .collect();
        let said: Vec<String> = shown.iter().map(|(_, text, bytes)| format!("{text} {}", Size(*bytes))).collect();
        let title = match &self.host {
            Some(host) => format!("<span class=\"mono\">{}</span>", range(self.pool, host)),
            None if self.machine.host.is_some() => "closed".to_string(),
            None => format!("what lies there: <span class=\"mono\">{}</span>", range(self.pool, &self.whole)),
        };
        let used = self.used();
        let rows = self.parts.iter().map(|part| part.row).max().unwrap_or(0) + 1;
        let mut html = format!(
            "<figure class=\"map {pool}\" id=\"{id}\" data-base=\"{:X}\" data-size=\"{}\" data-from=\"{}\" \
             data-to=\"{}\" style=\"--rows:{rows}\">\n\
             <figcaption><h4>{word} pool</h4> {title}</figcaption>\n<ul class=\"legend\" aria-label=\"Sums\">{legend}</ul>\n",
            self.whole.start(),
            self.span(),
            used.start() - self.whole.start(),
            (used.end() - self.whole.start()).saturating_add(1),
            pool = class(self.pool),
            word = title_case(word(self.pool)),
        );
        let _ = write!(
            html,
            "<div class=\"whole\" role=\"img\" aria-label=\"The whole {} pool to scale: {}\">{}{}<i class=\"view\"></i></div>\n",
            word(self.pool),
            said.join(", "),
            self.strip(),
            self.edge()
        );
        let _ = write!(
            html,
            "<div class=\"rows\" role=\"group\" aria-label=\"{} pool, by depth: windows zoom in, BARs lead to the tree\">{}{}</div>\n\
             <div class=\"axis mono\"><span class=\"first\"></span>\
             <button type=\"button\" class=\"back\" hidden>whole pool</button><span class=\"last\"></span></div>\n{}</figure>\n",
            title_case(word(self.pool)),
            self.blocks(),
            self.edge(),
            self.table()
        );
        html
    }

    fn span(&self) -> u64 {
        (self.whole.end() - self.whole.start()).saturating_add(1)
    }

    /// `data-at`, `data-size`, and where it is without a script.
    fn place(&self, first: u64, size: u64) -> String {
        let (at, span) = (first - self.whole.start(), self.span() as f64);
        let (left, width) = (100.0 * at as f64 / span, 100.0 * size as f64 / span);
        format!("data-at=\"{at}\" data-size=\"{size}\" style=\"left:{left:.4}%;width:{width:.4}%")
    }

    /// Where a pool that is too small ends.
    fn edge(&self) -> String {
        if self.machine.refused.is_none() || self.sums().over == 0 {
            return String::new();
        }
        let end = self.host.as_ref().map_or(*self.whole.start(), |range| range.end().saturating_add(1));
        format!("<i class=\"edge\" {}\"></i>", self.place(end, 0))
    }

    /// The lowest uses, without windows, in one row.
    fn strip(&self) -> String {
        let mut html = String::new();
        for part in self.parts.iter().filter(|part| !matches!(part.what, What::Window { .. })) {
            let _ =
                write!(html, "<i class=\"part {}\" {}\"></i>", self.style(part), self.place(part.first, part.size()));
        }
        html
    }

    fn style(&self, part: &Part) -> String {
        let kind = match part.what {
            What::Bar { .. } => "bar",
            What::Window { .. } => "window",
            What::Spare { .. } => "spare",
            What::Lost => "lost",
            What::Free => "free",
        };
        let over = if part.is_over { " over" } else { "" };
        let party = if self.is_party(part) { " party" } else { "" };
        format!("{} {kind}{over}{party}", class(self.pool))
    }

    fn is_party(&self, part: &Part) -> bool {
        match part.what {
            What::Bar { record, slot } => self.machine.is_party(record, Place::Bar(slot)),
            What::Window { record } => self.machine.is_party(record, Place::Window(self.pool)),
            _ => false,
        }
    }

    /// `03:00.0 "capture"` of a record.
    fn title_of(&self, record: u16) -> String {
        self.machine.named.as_ref().map_or(String::new(), |named| named.title_of(record))
    }

    fn name(&self, part: &Part) -> String {
        match part.what {
            What::Bar { record, slot } => format!("{} BAR {slot}", self.title_of(record)),
            What::Window { record } => format!("{} window", self.title_of(record)),
            What::Spare { record } => format!("{} spare", self.title_of(record)),
            What::Lost => self.lost_word().to_string(),
            What::Free => "free".to_string(),
        }
    }

    /// Inside the part there is room for the name alone, or for the ID where there is none.
    fn label(&self, part: &Part) -> String {
        let short = |record: u16| match self.machine.name(record) {
            Some(name) => name.to_string(),
            None => self.title_of(record),
        };
        match part.what {
            What::Bar { record, slot } => format!("{} BAR {slot}", short(record)),
            What::Window { record } => short(record),
            What::Spare { record } => format!("{} spare", short(record)),
            What::Lost | What::Free => self.name(part),
        }
    }

    /// `F8100000-F810FFFF  64K`, and where it does not fit that it does not.
    fn lies(&self, part: &Part) -> String {
        let over = match (part.is_over, self.is_party(part)) {
            (_, true) => ": does not fit",
            (true, _) => ": past the pool",
            _ => "",
        };
        format!("{}{over}", range(self.pool, &(part.first..=part.last)))
    }

    fn blocks(&self) -> String {
        let mut html = String::new();
        for part in &self.parts {
            let style = self.style(part);
            let place = self.place(part.first, part.size());
            let (name, label, lies) = (escaped(self.name(part)), escaped(self.label(part)), self.lies(part));
            let start = format!("class=\"part {style}\" {place};--row:{}\" title=\"{name}: {lies}\"", part.row);
            let _ = match part.what {
                What::Window { record } => writeln!(
                    html,
                    "<button type=\"button\" {start} data-record=\"{record}\" aria-label=\"{name}, {lies}: zoom\">{label}</button>"
                ),
                What::Bar { record, .. } => writeln!(
                    html,
                    "<a href=\"#{}{record}\" {start} data-record=\"{record}\" aria-label=\"{name}, {lies}\">{label}</a>",
                    self.prefix
                ),
                What::Free => Ok(()),
                _ => writeln!(html, "<span {start} aria-hidden=\"true\">{label}</span>"),
            };
        }
        html
    }

    /// The same for those who do not see it.
    fn table(&self) -> String {
        let mut rows = String::new();
        for part in &self.parts {
            let text = range(self.pool, &(part.first..=part.last));
            let (addresses, size) = text.split_once("  ").unwrap_or((&text, ""));
            let said = self.lies(part).split_once(": ").map_or(String::new(), |(_, said)| format!(", {said}"));
            let _ = writeln!(
                rows,
                "<tr><td class=\"mono\">{addresses}</td><td>{size}</td><td style=\"padding-left:{}em\">{}{said}</td></tr>",
                part.row + 1,
                escaped(self.name(part))
            );
        }
        format!(
            "<details class=\"list\"><summary>As a table</summary><div class=\"wide\"><table><thead><tr><th scope=\"col\">Addresses</th>\
             <th scope=\"col\">Size</th><th scope=\"col\">What</th></tr></thead><tbody>\n{rows}</tbody></table></div></details>\n"
        )
    }
}

/// A sum in few letters, `16.0M`, with all of its bytes beside it.
fn sum(bytes: u64) -> String {
    let exact = Size(bytes).to_string();
    if exact.len() <= 5 {
        return format!("<b>{exact}</b>");
    }
    let (mut number, mut unit) = (bytes as f64, "");
    for one in ["K", "M", "G", "T", "P"] {
        if number < 1000.0 {
            break;
        }
        (number, unit) = (number / 1024.0, one);
    }
    format!("<b title=\"{exact}\">about {number:.1}{unit}</b>")
}

fn title_case(text: &str) -> String {
    let (first, rest) = text.split_at(1);
    first.to_uppercase() + rest
}

/// The parts of a map, as they are laid out.
struct Parts<'a> {
    machine: &'a Machine,
    pool: Pool,
    functions: Vec<Function<'a>>,
    all: Vec<Part>,
}

/// A BAR or a window.
struct Item {
    what: What,
    first: u64,
    last: u64,
}

impl Parts<'_> {
    fn items(&self, is_there: impl Fn(&Function) -> bool) -> Vec<Item> {
        let mut items = Vec::new();
        for function in self.functions.iter().filter(|one| is_there(one)) {
            let record = function.record;
            for placed in function.bars() {
                let (pool, lies) = self.machine.bar(&placed);
                if pool == self.pool {
                    items.push(Item {
                        what: What::Bar { record, slot: placed.slot },
                        first: *lies.start(),
                        last: *lies.end(),
                    });
                }
            }
            for (_, lies) in self.machine.windows(function).into_iter().filter(|(pool, _)| *pool == self.pool) {
                items.push(Item { what: What::Window { record }, first: *lies.start(), last: *lies.end() });
            }
        }
        items.sort_by_key(|item| (item.first, item.last));
        items
    }

    /// Those of the root bus, and of buses that no bridge leads to.
    fn on_buses_without_bridge(&self) -> Vec<Item> {
        self.items(|function| self.machine.parent(function).is_none())
    }

    /// The items of a bus inside these addresses, what is below them, and what is between them. After `end` on the root bus there is
    /// no room any more.
    fn lay(&mut self, items: Vec<Item>, inside: RangeInclusive<u64>, end: u64, row: usize) {
        let mut next = Some(*inside.start());
        for Item { what, first, last } in items {
            if let Some(gap) = next.filter(|&start| start < first) {
                self.gap(gap..=first - 1, row, false);
            }
            let is_over = !inside.contains(&first) || !inside.contains(&last) || next.is_none_or(|start| first < start);
            self.all.push(Part { what, first, last, row, is_over });
            if let What::Window { record } = what {
                self.below(record, first..=last, row + 1);
            }
            next = next.and_then(|start| Some(start.max(last.checked_add(1)?)));
        }
        match next {
            Some(start) if row == 0 && start <= end => {
                self.all.push(Part { what: What::Free, first: start, last: end, row, is_over: false });
            }
            Some(start) if row > 0 && start <= *inside.end() => self.gap(start..=*inside.end(), row, false),
            _ => {}
        }
    }

    /// What is on the bus below a bridge, in one of its windows.
    fn below(&mut self, record: u16, window: RangeInclusive<u64>, row: usize) {
        let bridge = self.functions[usize::from(record) - 1];
        let buses = bridge.buses();
        let mut items = self.items(|one| buses.is_some_and(|buses| one.id.bus() == buses.secondary));
        // Firmware may open two memory windows below 4 GiB: an item is drawn in the one that it starts in.
        items.retain(|item| window.contains(&item.first));
        let spare = self.machine.spare_memory(&bridge).filter(|_| self.pool == Pool::Low);
        if let Some(spare) = spare.filter(|spare| window.contains(spare.start())) {
            items.push(Item { what: What::Spare { record }, first: *spare.start(), last: *spare.end() });
        }
        self.lay(items, window, 0, row);
    }

    /// Between items of a plan, room is lost to alignment; on a foreign root bus it is free.
    fn gap(&mut self, gap: RangeInclusive<u64>, row: usize, is_free: bool) {
        let is_free = is_free || row == 0 && !self.machine.is_board;
        let what = if is_free { What::Free } else { What::Lost };
        self.all.push(Part { what, first: *gap.start(), last: *gap.end(), row, is_over: false });
    }
}

/// The maps of a machine, each pool's, with a line for a closed one.
pub fn html(machine: &Machine, prefix: &str) -> String {
    let mut html = String::new();
    for pool in Pool::ALL {
        html += &match Map::new(machine, prefix, pool) {
            Some(map) => map.html(),
            None if machine.host.is_some() => {
                format!("<p class=\"map\"><b>{} pool</b>: closed, and nothing wants it.</p>\n", title_case(word(pool)))
            }
            None => format!("<p class=\"map\"><b>{} pool</b>: nothing lies there.</p>\n", title_case(word(pool))),
        };
    }
    html
}
