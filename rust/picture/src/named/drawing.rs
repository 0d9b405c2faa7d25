//! Where things stand: one column for each function, or bus, with nothing below it, and each bridge over the middle of
//! the columns below it. A bus reaches over the functions on it. What has one depth stands at one height. Lengths are
//! whole pixels, so one plan has one picture.

use super::entry::Entry;
use super::tree::{Bus, Place};
use super::Drawn;
use crate::svg::Svg;

const MARGIN: usize = 15;
/// Between columns.
const GAP: usize = 12;
/// A column is at least so wide, and the picture without its margins as wide as three of them.
const LEAST_COLUMN: usize = 282;
const LEAST_WIDTH: usize = 3 * LEAST_COLUMN + 2 * GAP;
/// The length of a connecting line.
const LINE: usize = 10;
const HOST_WIDTH: usize = 76;
const HOST_HEIGHT: usize = 26;
const BUS_HEIGHT: usize = 22;
/// In a function's box: the height of its first line, of an entry and of what is left below, and the room on each side.
const HEAD: usize = 28;
const ROW: usize = 20;
const FOOT: usize = 8;
const SIDE: usize = 12;
/// In an entry: the size of its mark, where its label and its addresses start, and the room for kind and size.
const MARK: usize = 9;
const LABEL: usize = 15;
const ADDRESS: usize = 72;
const SIZE: usize = 90;
/// A name of more letters is cut.
const LONGEST_NAME: usize = 40;
const LEGEND_HEIGHT: usize = 30;
/// The style of what is kept free, beside that of a window, and of names.
const STYLES: &str = ".spare { stroke-dasharray: 2.4 1.8 }\n.called { font-weight: 600; fill: #1f2328 }\n";

/// The picture of a plan, as the text of an SVG file.
pub fn draw(plan: &[Drawn]) -> String {
    let root = Bus::root(plan);
    let mut drawing = Drawing::new(plan, root.as_ref());
    drawing.host();
    if let Some(root) = &root {
        drawing.bus(root, 0, 0);
    }
    drawing.legend();
    drawing.finish(&format!("A plan of {} functions", plan.len()))
}

struct Drawing {
    columns: usize,
    column_width: usize,
    /// Where the buses of each depth are, and after the last depth the legend.
    tops: Vec<usize>,
    svg: Svg,
}

impl Drawing {
    fn new(plan: &[Drawn], root: Option<&Bus>) -> Drawing {
        let mut rows = Vec::new();
        if let Some(root) = root {
            count_rows(root, 0, &mut rows);
        }
        let mut tops = vec![MARGIN + HOST_HEIGHT + LINE];
        for count in rows {
            let box_height = count.map_or(0, |count| HEAD + count * ROW + FOOT + LINE);
            tops.push(tops[tops.len() - 1] + BUS_HEIGHT + LINE + box_height);
        }
        Drawing {
            columns: root.map_or(1, Bus::columns),
            column_width: plan.iter().map(width_needed).fold(LEAST_COLUMN, usize::max),
            tops,
            svg: Svg::default(),
        }
    }

    /// How wide so many columns are, with the gaps between them.
    fn span(&self, columns: usize) -> usize {
        columns * (self.column_width + GAP) - GAP
    }

    /// How wide the picture is without its margins.
    fn width(&self) -> usize {
        self.span(self.columns).max(LEAST_WIDTH)
    }

    /// Where a box starts that is one column wide and stands over the middle of so many.
    fn left(&self, column: usize, columns: usize) -> usize {
        let start = MARGIN + (self.width() - self.span(self.columns)) / 2;
        start + column * (self.column_width + GAP) + (self.span(columns) - self.column_width) / 2
    }

    fn host(&mut self) {
        let middle = self.left(0, self.columns) + self.column_width / 2;
        self.svg.rectangle("host", [middle - HOST_WIDTH / 2, MARGIN], [HOST_WIDTH, HOST_HEIGHT], 6);
        self.svg.text("name middle", middle, baseline(MARGIN, HOST_HEIGHT), "host");
    }

    /// A bus, the line that leads down to it, and everything on it and below.
    fn bus(&mut self, bus: &Bus, column: usize, depth: usize) {
        let columns = bus.columns();
        let first = bus.places.first().map_or(1, Place::columns);
        let last = bus.places.last().map_or(1, Place::columns);
        let left = self.left(column, first);
        let right = self.left(column + columns - last, last) + self.column_width;
        let top = self.tops[depth];
        self.svg.line(self.left(column, columns) + self.column_width / 2, top - LINE, top);
        self.svg.rectangle("bus", [left, top], [right - left, BUS_HEIGHT], 4);
        self.svg.text("name", left + SIDE, baseline(top, BUS_HEIGHT), format_args!("bus {:02X}", bus.number));
        let mut next = column;
        for place in &bus.places {
            self.place(place, next, depth);
            next += place.columns();
        }
    }

    /// A function, the line that leads down to it, and what is below.
    fn place(&mut self, place: &Place, column: usize, depth: usize) {
        let left = self.left(column, place.columns());
        let top = self.tops[depth] + BUS_HEIGHT + LINE;
        let bottom = self.tops[depth + 1] - LINE;
        let class = if place.below.is_some() { "bridge" } else { "end" };
        self.svg.line(left + self.column_width / 2, top - LINE, top);
        self.svg.rectangle(class, [left, top], [self.column_width, bottom - top], 4);
        self.svg.text("mono id", left + SIDE, baseline(top, HEAD), place.drawn.function.id);
        self.svg.text("called", left + SIDE + ADDRESS, baseline(top, HEAD), name(place.drawn));
        if let Some(role) = role(place.drawn) {
            self.svg.text("kind right", left + self.column_width - SIDE, baseline(top, HEAD), role);
        }
        for (k, entry) in Entry::all(place.drawn).iter().enumerate() {
            self.entry(entry, left + SIDE, baseline(top + HEAD + k * ROW, ROW));
        }
        if let Some(below) = &place.below {
            self.bus(below, column, depth + 1);
        }
    }

    fn entry(&mut self, entry: &Entry, left: usize, baseline: usize) {
        self.svg.rectangle(entry.mark(), [left, baseline - MARK], [MARK, MARK], 1);
        self.svg.text("", left + LABEL, baseline, entry.label());
        self.svg.text("mono", left + ADDRESS, baseline, entry.addresses());
        if let Some(size) = entry.size() {
            self.svg.text("kind right", left + self.column_width - 2 * SIDE, baseline, size);
        }
    }

    fn legend(&mut self) {
        // The mark, what it means, and the room for that.
        let marks = [
            ("io", "I/O", 20),
            ("low", "memory below 4 GiB", 122),
            ("high", "high memory", 78),
            ("any", "BAR", 28),
            ("any window", "open window", 80),
            ("any window spare", "spare room", 68),
        ];
        let baseline = baseline(self.tops[self.tops.len() - 1], LEGEND_HEIGHT);
        let mut left = MARGIN + SIDE;
        for (mark, meaning, room) in marks {
            self.svg.rectangle(mark, [left, baseline - MARK], [MARK, MARK], 1);
            self.svg.text("", left + LABEL, baseline, meaning);
            left += LABEL + room + 18;
        }
        self.svg.text("right", MARGIN + self.width() - SIDE, baseline, "closed windows are left out");
    }

    fn finish(self, title: &str) -> String {
        let width = self.width() + 2 * MARGIN;
        let height = self.tops[self.tops.len() - 1] + LEGEND_HEIGHT + MARGIN / 2;
        self.svg.finish(title, [width, height], STYLES)
    }
}

/// Where text of 12 pixels stands to be in the middle of a height.
fn baseline(top: usize, height: usize) -> usize {
    top + height / 2 + 4
}

/// Where a bridge leads to.
fn role(drawn: &Drawn) -> Option<String> {
    let buses = drawn.function.buses()?;
    Some(format!("buses {:02X}–{:02X}", buses.secondary, buses.subordinate))
}

/// What people call it; without a name, what it is.
fn name(drawn: &Drawn) -> String {
    let is = if drawn.function.is_bridge() { "bridge" } else { "card" };
    let name = drawn.name.filter(|name| !name.is_empty()).unwrap_or(is);
    match name.char_indices().nth(LONGEST_NAME) {
        Some((end, _)) => format!("{}…", &name[..end]),
        None => name.to_string(),
    }
}

/// For each depth the most entries that a function there has; `None` where all buses are empty.
fn count_rows(bus: &Bus, depth: usize, rows: &mut Vec<Option<usize>>) {
    if rows.len() == depth {
        rows.push(None);
    }
    for place in &bus.places {
        rows[depth] = rows[depth].max(Some(Entry::all(place.drawn).len()));
        if let Some(below) = &place.below {
            count_rows(below, depth + 1, rows);
        }
    }
}

/// How wide a function's box has to be. A digit of the widest usual fixed-width font takes 7.3 pixels, a letter of a name 7.
fn width_needed(drawn: &Drawn) -> usize {
    let needed = |entry: &Entry| {
        let addresses = (entry.addresses().chars().count() * 73).div_ceil(10);
        ADDRESS + addresses + entry.size().map_or(0, |_| SIZE)
    };
    let entries = Entry::all(drawn).iter().map(needed).max().unwrap_or(0);
    let letters = name(drawn).chars().count() + role(drawn).map_or(0, |role| role.chars().count());
    let title = ADDRESS + 7 * letters + SIDE;
    entries.max(title) + 2 * SIDE
}

#[cfg(test)]
mod tests {
    use super::*;
    use cartsundial::{Board, Sheet};

    fn svg(text: &str) -> String {
        let board: Board = text.parse().unwrap();
        let sheet = Sheet::new(board.plan().unwrap()).unwrap();
        let drawn: Vec<Drawn> = sheet
            .functions()
            .zip(board.functions())
            .map(|(function, one)| Drawn { function, name: one.name.as_deref(), spares: one.spares })
            .collect();
        draw(&drawn)
    }

    fn texts(board: &str) -> Vec<String> {
        let text = |line: &str| Some(line.strip_prefix("<text")?.split(['>', '<']).nth(1)?.to_string());
        svg(board).lines().filter_map(text).collect()
    }

    const HOST: &str = "host buses 00-FF low F9000000+16M high 240000000+1G io 4000-4FFF\n";

    #[test]
    fn from_the_host_down() {
        let texts =
            texts(&format!("{HOST}bridge 00.0 \"port\"\n  card 00.0 \"a <b> & c\" mem32 4K, mem64p 64M, io 256\n"));
        let legend = texts.iter().rposition(|text| text == "I/O").unwrap();
        #[rustfmt::skip]
        assert_eq!(texts[..legend], [
            "host",
            "bus 00",
            "00:00.0", "port", "buses 01–01",
            "I/O", "4000–4FFF", "4K",
            "memory", "F9000000–F90FFFFF", "1M",
            "high", "2_40000000–2_43FFFFFF", "64M",
            "bus 01",
            "01:00.0", "a &lt;b&gt; &amp; c",
            "BAR 0", "F9000000–F9000FFF", "mem32 4K",
            "BAR 1–2", "2_40000000–2_43FFFFFF", "mem64p 64M",
            "BAR 3", "4000–40FF", "io 256",
        ]);
    }

    #[test]
    fn spare_room() {
        let texts = texts(&format!("{HOST}bridge 00.0 spare 2 buses, spare 1M\n  card 00.0 mem32 4K\n"));
        for text in ["F9100000–F91FFFFF", "buses 02–03"] {
            assert!(texts.iter().any(|one| one == text), "{text} {texts:?}");
        }
    }

    #[test]
    fn a_bus_with_nothing_on_it() {
        let texts = texts(&format!("{HOST}bridge 00.0\n"));
        assert_eq!(texts[..6], ["host", "bus 00", "00:00.0", "bridge", "buses 01–01", "bus 01"]);
    }

    #[test]
    fn long_names_are_cut() {
        let texts = texts(&format!("{HOST}card 00.0 \"{}\"\n", "ü".repeat(60)));
        assert!(texts.contains(&format!("{}…", "ü".repeat(40))));
    }

    #[test]
    fn no_functions_no_bus() {
        assert_eq!(texts(HOST)[..2], ["host", "I/O"]);
    }
}
