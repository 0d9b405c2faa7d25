//! Sheets judged for host records: the audit, and one owner for every address.

use crate::lent::{hex, Lent};
use crate::tally::{Call, Tally};
use cartsundial::{calls, HostRecord, Party};
use inputs::audit;
use inputs::random::Random;
use std::fs;

pub fn compare(random: &mut Random, rounds: u64, tally: &mut Tally) {
    for _ in 0..150_000 * rounds {
        let (host, sheet) = audit::any(random, plan);
        judge(&host, &sheet, random, tally);
    }
    // Every planned sheet is accepted; with one register moved by one granule, as the two agree. With its ranges of other
    // kinds, where they are, it is sound.
    for _ in 0..10_000 * rounds {
        let (host, mut sheet) = audit::planned(random, plan);
        assert_eq!(judge(&host, &sheet, random, tally), [0, 0], "planned: {} for {}", hex(&sheet), hex(&host));
        for _ in 0..4 {
            let before = sheet.clone();
            audit::move_register(&mut sheet, random);
            judge(&host, &sheet, random, tally);
            sheet = before;
        }
        audit::change_kinds(&mut sheet, random);
        assert_eq!(judge(&host, &sheet, random, tally)[1], 0, "other kinds: {} for {}", hex(&sheet), hex(&host));
    }
}

/// The runs of tests/audit, and the sheets there that real firmware left.
pub fn chosen(random: &mut Random, tally: &mut Tally) {
    for (_, input) in stored::audits() {
        let (host, sheet) = input.split_at(input.len().min(HostRecord::BYTES));
        judge(host, sheet, random, tally);
    }
    for name in stored::CAPTURES {
        let read = |extension: &str| {
            fs::read(format!("{}/../../tests/audit/{name}.{extension}", env!("CARGO_MANIFEST_DIR"))).unwrap()
        };
        judge(&read("host"), &read("sheet"), random, tally);
    }
}

fn plan(board: &[u8]) -> Option<Vec<u8>> {
    let mut room = vec![0; plain::FULL_SHEET];
    let length = plain::plan(board, &mut room).ok()?;
    room.truncate(length);
    Some(room)
}

/// Judges by both, and returns the audit's number and the other verdict's.
fn judge(host: &[u8], sheet: &[u8], random: &mut Random, tally: &mut Tally) -> [u8; 2] {
    let numbers = [plain::audit(host, sheet), plain::sound(host, sheet)];
    let mut given = Lent::holding(host, random);
    let given_before = given.clone();
    let mut lent = Lent::holding(sheet, random);
    let lent_before = lent.clone();
    let of = || format!("{} for {}", hex(sheet), hex(host));
    let returned = [calls::audit(given.slice(), lent.slice()), calls::sound(given.slice(), lent.slice())];
    tally.count(Call::Audit, returned[0]);
    tally.count(Call::Sound, returned[1]);
    assert_eq!(returned, numbers.map(u32::from), "audit, sound {}", of());
    let same = given == given_before && lent == lent_before;
    assert!(same, "audit, sound {}: what was lent", of());
    // Every accepted sheet is sound. Any number of the audit but 51 is the other verdict's too.
    assert!(numbers[0] == numbers[1] || numbers[0] == 51, "{numbers:?} {}", of());
    tally.judged(numbers[0], numbers[1]);

    // Without a host record it is sound where it is for some host: for this one, say.
    let alone = plain::sound_alone(sheet);
    let returned = calls::sound_alone(lent.slice());
    tally.count(Call::SoundAlone, returned);
    assert_eq!(returned, alone.into(), "sound alone {}", hex(sheet));
    assert!(lent == lent_before && (numbers[1] != 0 || alone == 0), "sound alone {}", of());
    let typed = cartsundial::sound_alone(sheet).map_or_else(|refusal| refusal.number(), |()| 0);
    assert_eq!(typed, alone, "sound alone {}", hex(sheet));

    let found = name(host, sheet, numbers[0], random, tally);
    if let Ok(bytes) = host.try_into() {
        let record = HostRecord::from_bytes(bytes);
        assert_eq!(record.bytes(), *bytes);
        let typed = [cartsundial::audit(&record, sheet), cartsundial::sound(&record, sheet)];
        let typed = typed.map(|verdict| verdict.map_or_else(|refusal| refusal.number(), |()| 0));
        assert_eq!(typed, numbers, "audit, sound {}", of());
        let named = cartsundial::audit_where(&record, sheet).err();
        let party = |party: Option<&Party>| party.map_or([0; 2], |party| [party.record.into(), party.place.number()]);
        let both = named.as_ref().map_or([[0; 2]; 2], |one| [party(one.party.as_ref()), party(one.other.as_ref())]);
        assert_eq!(both.concat(), found, "who fails {}", of());
        assert_eq!(named.map_or(0, |one| one.refusal.number()), numbers[0], "who fails {}", of());
    }
    numbers
}

/// Who fails, by both, in a slice of any length; returns plain Rust's four numbers.
fn name(host: &[u8], sheet: &[u8], number: u8, random: &mut Random, tally: &mut Tally) -> [u64; calls::WHO] {
    let plain::Finding { number: again, party, other } = plain::audit_where(host, sheet);
    assert_eq!(again, number);
    let found = [party.record as u64, party.place.into(), other.record as u64, other.place.into()];
    let who: Vec<u64> = (0..random.below(7)).map(|_| random.word()).collect();
    let mut after = who.clone();
    let returned = calls::audit_where(host, sheet, &mut after);
    tally.count(Call::AuditWhere, returned);
    let (expected, left) = match who.get(calls::WHO..) {
        Some(rest) => (number.into(), [&found[..], rest].concat()),
        None => (if number == 0 { calls::SHORT } else { number.into() }, who),
    };
    assert_eq!((returned, after), (expected, left), "who fails {} for {}", hex(sheet), hex(host));
    found
}
