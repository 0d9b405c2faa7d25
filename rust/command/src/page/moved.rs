//! Two boxes beside each other: what moved, by the comparison of `diff`.

use super::html::{counted, escaped};
use super::machine::Machine;
use crate::diff::{compared, Told};
use std::fmt::Write;

pub struct Moved<'a> {
    boxes: [&'a Machine; 2],
    /// The functions that are different; `None` where a box is refused, and so has no sheet.
    told: Option<Vec<Told>>,
}

impl<'a> Moved<'a> {
    pub fn new(before: &'a Machine, after: &'a Machine) -> Moved<'a> {
        let sheet = |one: &'a Machine| one.named.as_ref().filter(|_| one.refused.is_none());
        let told = sheet(before).zip(sheet(after)).map(|(before, after)| compared(before, after));
        Moved { boxes: [before, after], told }
    }

    /// Marks for the trees: the records of a box that are different.
    pub fn records(&self, is_after: bool) -> Vec<u16> {
        let told = self.told.iter().flatten();
        told.filter_map(|told| if is_after { told.after } else { told.before }).collect()
    }

    pub fn html(&self, prefixes: [&str; 2]) -> String {
        let [before, after] = self.boxes.map(|one| escaped(&one.file));
        let Some(told) = &self.told else {
            return "<p>A box that is refused has no sheet: nothing is compared.</p>\n".into();
        };
        let different = told.iter().filter(|one| one.before.is_some()).count();
        let same = counted((self.boxes[0].functions().len() - different) as u64, "function");
        if told.is_empty() {
            return format!("<p>Nothing moved: {same}, the same in both.</p>\n");
        }
        let mut html = format!(
            "<p>{}; {same} the same in both. A function is the same one by its name, where that is there once on both sides, else by its \
             way down from the root bus.</p>\n<div class=\"wide\" tabindex=\"0\" role=\"region\" aria-label=\"What moved\">\
             <table class=\"moved\"><thead><tr><th scope=\"col\"></th><th scope=\"col\">{before}</th><th scope=\"col\">{after}</th>\
             <th scope=\"col\">what</th></tr></thead><tbody>\n",
            sums(told)
        );
        for one in told {
            let cells = [(one.before, 0), (one.after, 1)].map(|(record, at)| match record {
                Some(record) => format!(
                    "<td><a href=\"#{}{record}\">{}</a></td>",
                    prefixes[at],
                    escaped(title(self.boxes[at], record))
                ),
                None => "<td>not there</td>".to_string(),
            });
            let lines: String = one.lines.iter().map(|line| format!("<li>{}</li>", escaped(line))).collect();
            let _ = writeln!(
                html,
                "<tr><th scope=\"row\">{}</th>{}{}<td><ul class=\"mono\">{lines}</ul></td></tr>",
                one.word, cells[0], cells[1]
            );
        }
        html + "</tbody></table></div>\n"
    }
}

/// `3 moved, 1 went`.
fn sums(told: &[Told]) -> String {
    let count = |word: &str| told.iter().filter(|one| one.word == word).count();
    let words = ["moved", "changed", "went", "appeared"].into_iter().filter(|word| count(word) > 0);
    words.map(|word| format!("{} {word}", count(word))).collect::<Vec<_>>().join(", ")
}

fn title(machine: &Machine, record: u16) -> String {
    machine.named.as_ref().map_or(String::new(), |named| named.title_of(record))
}
