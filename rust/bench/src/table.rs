//! Tables as docs/BENCHMARK.md has them: a row a call, a column an input. A cell is a time and, in brackets, a ratio.

use crate::measure::Times;

/// What is not timed for an input.
pub const NONE: &str = "";

/// The first line, and the one that aligns.
pub fn head(first: &str, columns: &[String]) {
    println!();
    row(first, columns);
    println!("|---|{}", "---:|".repeat(columns.len()));
}

pub fn row(name: &str, cells: &[String]) {
    println!("| {name} | {} |", cells.join(" | "));
}

/// The proved side's time, and its ratio to the plain one's.
pub fn cell(times: &Times) -> String {
    beside(times.proved, times.plain)
}

/// A time, and its ratio to another.
pub fn beside(time: f64, other: f64) -> String {
    format!("{} ({:.2})", figure(time), time / other)
}

/// Three figures or more, thousands apart.
pub fn figure(time: f64) -> String {
    if time < 100.0 {
        return format!("{time:.1}");
    }
    apart(&format!("{time:.0}"))
}

/// Digits with a comma before each three from the end.
pub fn apart(digits: &str) -> String {
    let mut text = String::new();
    for (at, digit) in digits.chars().enumerate() {
        if at > 0 && (digits.len() - at).is_multiple_of(3) {
            text.push(',');
        }
        text.push(digit);
    }
    text
}
