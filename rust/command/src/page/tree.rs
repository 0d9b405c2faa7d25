//! The tree from the host down, as nested lists: each function with its BARs, each bridge with its windows and what is below it.

use super::html::escaped;
use super::machine::Machine;
use crate::listing::range;
use cartsundial::{Function, Place, Pool};
use std::fmt::Write;

/// More functions than this, and bridges on the third level and below are closed at first.
const MANY: usize = 96;

pub struct Tree<'a> {
    machine: &'a Machine,
    functions: Vec<Function<'a>>,
    /// The bridge above each function.
    parents: Vec<Option<u16>>,
    /// Put before a record's number in an element's id.
    prefix: &'a str,
}

impl<'a> Tree<'a> {
    pub fn new(machine: &'a Machine, prefix: &'a str) -> Tree<'a> {
        let functions = machine.functions();
        let parents = functions.iter().map(|one| machine.parent(one)).collect();
        Tree { machine, functions, parents, prefix }
    }

    pub fn html(&self) -> String {
        let root = self.functions.first().map(|first| first.id.bus());
        let is_root = |one: &Function| Some(one.id.bus()) == root;
        let top = |is_wanted: &dyn Fn(&Function) -> bool| -> Vec<usize> {
            let all = 0..self.functions.len();
            all.filter(|&k| self.parents[k].is_none() && is_wanted(&self.functions[k])).collect()
        };
        let mut html = format!("<div class=\"host\"><h3>host</h3> {}</div>\n", self.host());
        let roots = top(&is_root);
        if roots.is_empty() {
            html += "<p>No function is on the root bus.</p>\n";
        }
        html += &self.list(&roots, root.map_or(String::new(), |bus| format!("bus {bus:02X}, the root bus")), 0);
        let elsewhere = top(&|one| !is_root(one));
        if !elsewhere.is_empty() {
            html += "<p class=\"note\">No bridge leads to the buses of these functions, or more than one does:</p>\n";
            html += &self.list(&elsewhere, "other buses".into(), 0);
        }
        html
    }

    fn host(&self) -> String {
        let Some(host) = self.machine.host else { return "<span class=\"note\">its pools are not known</span>".into() };
        let mut text = format!("<span>buses {:02X}-{:02X}</span>", host.buses.0, host.buses.1);
        for (pool, word) in [(Pool::Low, "low"), (Pool::High, "high"), (Pool::Io, "I/O")] {
            let pool_text = host.pool(pool).map_or("closed".to_string(), |all| range(pool, &all).replace("  ", ", "));
            let _ = write!(
                text,
                " <span class=\"pool {}\">{word} <span class=\"mono\">{pool_text}</span></span>",
                class(pool)
            );
        }
        text
    }

    fn list(&self, members: &[usize], label: String, depth: usize) -> String {
        if members.is_empty() {
            return String::new();
        }
        let mut html = format!(
            "<ul class=\"tree\" aria-label=\"{label}\">\n<li class=\"bus\" aria-hidden=\"true\">{label}</li>\n"
        );
        for &member in members {
            html += &self.function(member, depth);
        }
        html + "</ul>\n"
    }

    fn function(&self, member: usize, depth: usize) -> String {
        let function = &self.functions[member];
        let record = function.record;
        let id = format!("{}{record}", self.prefix);
        let kind = if function.is_bridge() { "bridge" } else { "card" };
        let party = if self.machine.is_party(record, Place::Id) { " over" } else { "" };
        let start = format!("<li id=\"{id}\" class=\"function {kind}{party}\" tabindex=\"-1\">");
        let body = self.items(function);
        let Some(buses) = function.buses() else {
            return format!("{start}<div class=\"title\">{}</div>{body}</li>\n", self.title(function));
        };
        let below: Vec<usize> = (0..self.functions.len()).filter(|&k| self.parents[k] == Some(record)).collect();
        let is_open = depth < 2 || self.functions.len() <= MANY;
        let list = self.list(&below, format!("bus {:02X}", buses.secondary), depth + 1);
        let open = if is_open { " open" } else { "" };
        format!(
            "{start}<details{open}><summary class=\"title\">{}</summary>{body}{list}</details></li>\n",
            self.title(function)
        )
    }

    /// ID, name, what it is, and its command word.
    fn title(&self, function: &Function) -> String {
        let name =
            self.machine.name(function.record).map_or(String::new(), |name| format!(" <b>{}</b>", escaped(name)));
        let what = match function.buses() {
            Some(buses) => format!("bridge to buses {:02X}-{:02X}", buses.secondary, buses.subordinate),
            None => "card".to_string(),
        };
        let bits = [(1, "I/O"), (2, "memory"), (4, "master")];
        let on: Vec<&str> =
            bits.iter().filter(|(bit, _)| function.command() & bit != 0).map(|(_, word)| *word).collect();
        let on = if on.is_empty() { "nothing on".to_string() } else { on.join(", ") };
        format!(
            "<span class=\"mono id\">{}</span>{name} <span class=\"what\">record {}, {what}, command {:04X}: {on}</span>",
            function.id,
            function.record,
            function.command()
        )
    }

    /// The table of BARs, windows and what is kept free.
    fn items(&self, function: &Function) -> String {
        let mut rows = String::new();
        for placed in function.bars() {
            let (pool, lies) = self.machine.bar(&placed);
            let party = self.machine.is_party(function.record, Place::Bar(placed.slot));
            rows += &row(&format!("BAR {}", placed.slot), &placed.bar.kind.to_string(), pool, "bar", &lies, party);
        }
        for (pool, lies) in self.machine.windows(function) {
            let party = self.machine.is_party(function.record, Place::Window(pool));
            rows += &row("window", word(pool), pool, "window", &lies, party);
        }
        if let Some(lies) = self.machine.spare_memory(function) {
            rows += &row("spare", "low", Pool::Low, "spare", &lies, false);
        }
        if let Some(buses) = self.machine.spare_buses(function) {
            let (first, last) = (buses.start(), buses.end());
            rows += &format!(
                "<tr><th scope=\"row\"><i class=\"mark any spare\"></i>spare</th><td>buses</td>\
                 <td class=\"mono\">{first:02X}-{last:02X}</td><td>{}</td></tr>\n",
                last - first + 1
            );
        }
        if rows.is_empty() {
            return String::new();
        }
        let title = escaped(self.machine.title(function));
        format!("<table class=\"items\" aria-label=\"BARs and windows of {title}\">\n<tbody>\n{rows}</tbody></table>\n")
    }
}

fn row(
    name: &str,
    kind: &str,
    pool: Pool,
    class_of: &str,
    lies: &std::ops::RangeInclusive<u64>,
    is_party: bool,
) -> String {
    let text = range(pool, lies);
    let (addresses, size) = text.split_once("  ").unwrap_or((&text, ""));
    // On a narrow screen a line may end between two addresses, and not in one.
    let addresses = addresses.replace('-', "-<wbr>");
    let (over, said) = if is_party { (" class=\"over\"", " does not fit") } else { ("", "") };
    format!(
        "<tr{over}><th scope=\"row\"><i class=\"mark {} {class_of}\"></i>{name}</th><td>{kind}</td>\
         <td class=\"mono\">{addresses}</td><td>{size}{said}</td></tr>\n",
        class(pool)
    )
}

/// The style of what is of a pool.
pub fn class(pool: Pool) -> &'static str {
    match pool {
        Pool::Low => "low",
        Pool::High => "high",
        Pool::Io => "io",
    }
}

pub fn word(pool: Pool) -> &'static str {
    match pool {
        Pool::Low => "low",
        Pool::High => "high",
        Pool::Io => "I/O",
    }
}
