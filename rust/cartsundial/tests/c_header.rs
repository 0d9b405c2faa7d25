//! The archive, the C header and this crate are of one version and have the same names and numbers.

use cartsundial::{
    calls, index_length, HostRecord, Kind, Refusal, FULL_INDEX, FULL_SCRIPT, FULL_SHEET, LONGEST_LINE, REGISTERS,
};
use std::fs;

fn header() -> String {
    fs::read_to_string(concat!(env!("CARGO_MANIFEST_DIR"), "/../../include/cartsundial.h")).unwrap()
}

/// The enumerators of one of the header's enumerations, in its order, without their first word, and their numbers. One may be
/// said to be the same as one before it.
fn enumerators(name: &str) -> Vec<(String, u64)> {
    let header = header();
    let start = format!("\nenum cartsundial_{name} {{\n");
    let body = header.split_once(&start).unwrap().1.split_once("};").unwrap().0;
    let without_comments = body.split("/*").map(|part| part.split_once("*/").map_or(part, |(_, code)| code));
    let code: String = without_comments.collect();
    let mut all: Vec<(String, u64)> = Vec::new();
    for (name, number) in code.split(',').filter_map(|entry| entry.split_once('=')) {
        let word = |text: &str| text.trim().strip_prefix("CARTSUNDIAL_").map(String::from);
        let before = || all.iter().find(|(before, _)| Some(before) == word(number).as_ref()).unwrap().1;
        let number = number.trim().parse().unwrap_or_else(|_| before());
        all.push((word(name).unwrap(), number));
    }
    all
}

/// `NoOwner` as `NO_OWNER`.
fn in_capitals(name: &str) -> String {
    let between = |(place, letter): (usize, char)| if place > 0 && letter.is_uppercase() { "_" } else { "" };
    name.char_indices().flat_map(|at| between(at).chars().chain(at.1.to_uppercase()).collect::<Vec<_>>()).collect()
}

#[test]
fn one_version() {
    let header = header();
    let part = |name: &str| -> u32 {
        let define = format!("#define CARTSUNDIAL_VERSION_{name} ");
        header.lines().find_map(|line| line.strip_prefix(&define)).unwrap().parse().unwrap()
    };
    let number = 10_000 * part("MAJOR") + 100 * part("MINOR") + part("PATCH");
    assert_eq!((calls::version(), calls::VERSION), (number, number));
}

/// Every refusal has one name: `NoOwner` here, `CARTSUNDIAL_E_NO_OWNER` there.
#[test]
fn names_of_refusals() {
    let here =
        Refusal::ALL.iter().map(|refusal| (format!("E_{}", in_capitals(refusal.name())), refusal.number().into()));
    let accepted = ("ACCEPTED".to_string(), 0);
    assert_eq!(enumerators("number"), [accepted].into_iter().chain(here).collect::<Vec<_>>());
    for other in ["kind", "routing", "field", "size", "offset"] {
        assert!(enumerators(other).iter().all(|(name, _)| !name.starts_with("E_")), "{other}");
    }
}

/// The words of each number and the names of kinds, as the header's functions have them.
#[test]
fn in_words() {
    let header = header();
    let cases = |name: &str| -> Vec<(String, String)> {
        let body = header.split_once(&format!("{name}(")).unwrap().1.split_once("default:").unwrap().0;
        let case = |line: &str| {
            let (name, words) = line.trim().strip_prefix("case CARTSUNDIAL_")?.split_once(": return \"")?;
            Some((name.to_string(), words.strip_suffix("\";")?.to_string()))
        };
        body.lines().filter_map(case).collect()
    };
    let accepted = ("ACCEPTED".to_string(), "accepted".to_string());
    let refusals = Refusal::ALL.iter().map(|one| (format!("E_{}", in_capitals(one.name())), one.meaning().to_string()));
    assert_eq!(cases("cartsundial_refusal_words"), [accepted].into_iter().chain(refusals).collect::<Vec<_>>());
    let kinds = Kind::ALL.map(|kind| (format!("KIND_{}", kind.name().to_uppercase()), kind.name().to_string()));
    assert_eq!(cases("cartsundial_kind_name"), kinds);
}

/// Each twice: `CARTSUNDIAL_KIND_MRD`, and shorter `CARTSUNDIAL_MRD`.
#[test]
fn names_of_kinds() {
    let short = Kind::ALL.map(|kind| (kind.name().to_uppercase(), u64::from(kind.code())));
    let long = short.clone().map(|(name, code)| (format!("KIND_{name}"), code));
    assert_eq!(enumerators("kind"), [long, short].concat());
}

/// Every call of the header is in the manual, cartsundial(3).
#[test]
fn manual() {
    let page = concat!(env!("CARGO_MANIFEST_DIR"), "/../../man/cartsundial.3");
    let page = fs::read_to_string(page).unwrap();
    let header = header();
    let prototypes = header.split("uint32_t cartsundial_").skip(1).filter_map(|rest| rest.split_once('('));
    let names: Vec<&str> = prototypes.map(|(name, _)| name).collect();
    assert!(names.len() >= 22, "{names:?}");
    for name in names {
        assert!(page.contains(&format!("\n.Fo cartsundial_{name}\n")), "man/cartsundial.3 has no {name}");
    }
}

#[test]
fn sizes() {
    for (name, size) in enumerators("size") {
        let here = match &*name {
            "FUNCTIONS" => (FULL_SHEET - 1) / 92,
            "BRIDGES_ABOVE" => 32,
            "BOARD_BYTES" => 3 + HostRecord::BYTES + 512 * 32,
            "RECORD_BYTES" => 4 + REGISTERS + 24,
            "SCRIPT_WRITES" => FULL_SCRIPT / 18,
            "SCRIPT_WRITE_BYTES" => 2 + 12 + 4,
            "INDEX_FRONT_BYTES" => index_length(0),
            "INDEX_FUNCTION_BYTES" => index_length(1) - index_length(0),
            "HEADER_BYTES" => 16,
            "SHEET_BYTES" => FULL_SHEET,
            "SCRIPT_BYTES" => FULL_SCRIPT,
            "HOST_BYTES" => HostRecord::BYTES,
            "REGISTER_BYTES" => REGISTERS,
            "ROUTE_NUMBERS" => calls::ROUTE,
            "ANY_ROUTE_NUMBERS" => calls::ANY_ROUTE,
            "SENT_NUMBERS" => calls::SENT,
            "ANY_SENT_NUMBERS" => calls::ANY_SENT,
            "INDEX_BYTES" => FULL_INDEX,
            "TRACE_NUMBERS" => calls::TRACE,
            "LINE_BYTES" => 40,
            "FOLLOW_LINE_BYTES" => LONGEST_LINE,
            "LEDGER_NUMBERS" => calls::LEDGER,
            other => panic!("{other}"),
        };
        assert_eq!(here as u64, size, "{name}");
    }
}

/// The answer of `cartsundial_plan_where` has as many numbers as here, and a name for each.
#[test]
fn what_does_not_fit() {
    let places = enumerators("plan_who");
    assert!((0..=calls::PLAN_WHO as u64).eq(places.iter().map(|(_, place)| *place)), "{places:?}");
    assert_eq!(places[calls::PLAN_WHO].0, "PLAN_WHO_NUMBERS");
}
