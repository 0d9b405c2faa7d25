//! One table of the numbers: docs/NUMBERS.md says of each what `Refusal` says. The C header is held against it in c_header.rs.

use cartsundial::Refusal;
use std::fs;

/// A row: number, C, Rust, means, what to do.
fn rows() -> Vec<[String; 5]> {
    let page = fs::read_to_string(concat!(env!("CARGO_MANIFEST_DIR"), "/../../docs/NUMBERS.md")).unwrap();
    let cells = |line: &str| -> Option<[String; 5]> {
        let cells: Vec<String> = line.strip_prefix("| ")?.strip_suffix(" |")?.split(" | ").map(plain).collect();
        cells.try_into().ok()
    };
    page.lines().filter_map(cells).filter(|cells| cells[0].parse::<u8>().is_ok()).collect()
}

/// Without links: `[the layout](FORMATS.md#layout)` is `the layout`.
fn plain(text: &str) -> String {
    let mut plain = String::new();
    let mut rest = text;
    while let Some((before, after)) = rest.split_once('[') {
        let (words, link) = after.split_once("](").unwrap();
        plain += before;
        plain += words;
        rest = link.split_once(')').unwrap().1;
    }
    plain + rest
}

fn in_capitals(name: &str) -> String {
    let letter = |(at, letter): (usize, char)| match (at, letter.is_uppercase()) {
        (1.., true) => format!("_{letter}"),
        _ => letter.to_uppercase().to_string(),
    };
    name.char_indices().map(letter).collect()
}

#[test]
fn every_number() {
    let expected: Vec<[String; 5]> = Refusal::ALL
        .iter()
        .map(|refusal| {
            let name = refusal.name();
            let [c, rust] = [in_capitals(name), name.to_string()].map(|name| format!("`{name}`"));
            [refusal.number().to_string(), c, rust, refusal.means().into(), refusal.remedy().into()]
        })
        .collect();
    assert_eq!(rows(), expected);
}

/// None is without words, and each says something of its own.
#[test]
fn words() {
    for refusal in Refusal::ALL {
        for words in [refusal.meaning(), refusal.means(), refusal.cause(), refusal.remedy(), refusal.example()] {
            assert!(words.len() > 5 && words.trim() == words && !words.contains("  "), "{refusal}: {words}");
        }
        let others = Refusal::ALL.iter().filter(|other| other != &refusal);
        assert!(others.clone().all(|other| other.remedy() != refusal.remedy()), "{refusal}");
        assert!(others.clone().all(|other| other.example() != refusal.example()), "{refusal}");
    }
}
