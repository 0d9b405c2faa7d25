//! The command against the stored runs of the proved programs: tests/plan, tests/script, tests/annotate, tests/label and
//! tests/audit. What it prints in their form is the same, byte for byte, by one job and by four; and every input that is
//! refused has the same number.

mod run;

use cartsundial::{sound, HostRecord};
use run::{folder, repository, run, Ran};
use std::fs;
use std::path::PathBuf;

/// The stored inputs of a program with this ending, and what it answers.
fn stored(program: &str, ending: &str) -> Vec<(PathBuf, Vec<u8>)> {
    let mut all = Vec::new();
    for entry in fs::read_dir(repository().join("tests").join(program)).unwrap() {
        let path = entry.unwrap().path();
        if path.extension().is_some_and(|found| found == ending) {
            let answer = fs::read(path.with_extension("out")).unwrap();
            all.push((path, answer));
        }
    }
    assert!(!all.is_empty());
    all
}

/// The number of an answer `refused N`, of which nothing else is printed.
fn number(answer: &[u8]) -> Option<u8> {
    std::str::from_utf8(answer).ok()?.strip_prefix("refused ")?.trim_end().parse().ok()
}

/// Refused with this number, or not taken for what it should be: no board or no sheet at all.
fn is_refused(ran: &Ran, number: u8) -> bool {
    let text = String::from_utf8_lossy(&ran.out).into_owned() + &ran.error;
    text.contains(&format!("refused {number}: ")) && ran.status == 1 || ran.status == 2
}

#[test]
fn plans() {
    let mut refused = 0;
    for (board, answer) in stored("plan", "board") {
        let ran = run(&["plan", board.to_str().unwrap(), "--lines"], b"");
        match number(&answer) {
            Some(number) => {
                assert!(is_refused(&ran, number), "{}: {}", board.display(), ran.error);
                refused += usize::from(ran.status == 1);
            }
            None => assert!(ran.out == answer && ran.status == 0, "{}", board.display()),
        }
    }
    assert!(refused > 5, "{refused}");
}

#[test]
fn scripts() {
    let folder = folder("scripts");
    let (board_file, script) = (folder.join("board"), folder.join("script"));
    for (input, answer) in stored("script", "in") {
        let bytes = fs::read(&input).unwrap();
        let Some(([high, low, tag], board)) = bytes.split_first_chunk().filter(|_| number(&answer).is_none()) else {
            continue;
        };
        fs::write(&board_file, board).unwrap();
        let requester = cartsundial::Id(u16::from_be_bytes([*high, *low])).to_string();
        let (board, out, tag) = (board_file.to_str().unwrap(), script.to_str().unwrap(), tag.to_string());
        let ran = run(&["plan", board, "--script", out, "--requester", &requester, "--tag", &tag], b"");
        assert_eq!(ran.status, 0, "{}: {}", input.display(), ran.error);
        assert!(fs::read(&script).unwrap() == answer, "{}", input.display());
    }
}

/// The trace goes in by a file, as text, and by standard input.
fn labelled(name: &str, sheet: &[u8], trace: &[u8], host: Option<&[u8]>, answer: &[u8]) -> usize {
    let folder = folder(name);
    let [sheet_file, trace_file, host_file] = ["sheet", "trace", "host"].map(|part| folder.join(part));
    fs::write(&sheet_file, sheet).unwrap();
    fs::write(&trace_file, trace).unwrap();
    fs::write(&host_file, host.unwrap_or(&[])).unwrap();
    let [sheet, file, host_file] = [&sheet_file, &trace_file, &host_file].map(|path| path.to_str().unwrap());
    let mut same = 0;
    for (trace_name, jobs) in [(file, "1"), (file, "4"), ("-", "1"), ("-", "4")] {
        let mut arguments = vec!["label", sheet, trace_name, "--jobs", jobs];
        if host.is_some() {
            arguments.extend(["--host", host_file]);
        }
        let ran = run(&arguments, trace);
        match ran.status {
            // A trace that looks like something else is not labelled.
            2 => {}
            _ => {
                let refused = number(answer).is_some_and(|number| is_refused(&ran, number));
                // The program asks the audit, the command the second verdict: then its lines are those without a host.
                let is_sound = number(answer) == Some(51) && ran.status == 0;
                let sound = is_sound && ran.out == run(&["label", sheet, trace_name], trace).out;
                assert!(ran.out == answer || refused || sound, "{name}: {}", ran.error);
                same += usize::from(ran.out == answer);
            }
        }
    }
    same
}

#[test]
fn annotated() {
    let mut same = 0;
    for (input, answer) in stored("annotate", "in") {
        let bytes = fs::read(&input).unwrap();
        let Some((length, rest)) = bytes.split_first_chunk() else { continue };
        let Some((sheet, trace)) = rest.split_at_checked(u16::from_be_bytes(*length).into()) else { continue };
        // Over a sheet that fails its checks the program goes on, the command does not.
        if cartsundial::check(sheet).is_ok() {
            same += labelled("annotate", sheet, trace, None, &answer);
        }
    }
    assert!(same >= 40, "{same}");
}

#[test]
fn labels() {
    let mut same = 0;
    for (input, answer) in stored("label", "in") {
        let bytes = fs::read(&input).unwrap();
        let Some((host, rest)) = bytes.split_at_checked(30) else { continue };
        let Some((length, rest)) = rest.split_first_chunk() else { continue };
        let Some((sheet, trace)) = rest.split_at_checked(u16::from_be_bytes(*length).into()) else { continue };
        same += labelled("label", sheet, trace, Some(host), &answer);
    }
    assert!(same >= 40, "{same}");
}

/// Whether every address has one owner, as the command prints it and the call says; with 50 to 52, who breaks the rule.
fn is_second_verdict_sound(ran: &Ran, host: &HostRecord, sheet: &[u8]) -> bool {
    let text = String::from_utf8_lossy(&ran.out);
    let (_, second) = text.split_once("one owner for every address: ").unwrap();
    let verdict = sound(host, sheet);
    if let Err(refusal) = verdict {
        assert!(second.starts_with(&format!("{refusal}\n")), "{text}");
        assert!(refusal.number() < 50 || text.contains(&format!("\n  {}: ", refusal.number())), "{text}");
    } else {
        assert_eq!(second, "yes\n");
    }
    verdict.is_ok()
}

/// The verdict with its number, and for 50 to 52 who breaks the rule: the list that is not proved never misses one. Likewise
/// the second verdict, which is the call's.
#[test]
fn audits() {
    let folder = folder("audits");
    let (mut accepted, mut named, mut sound_alone) = (0, 0, 0);
    let whole = stored("audit", "in").into_iter().map(|(input, answer)| (fs::read(input).unwrap(), answer));
    let halves = stored("audit", "host").into_iter().map(|(host, answer)| {
        ([fs::read(&host).unwrap(), fs::read(host.with_extension("sheet")).unwrap()].concat(), answer)
    });
    for (bytes, answer) in whole.chain(halves) {
        let Some((host, sheet)) = bytes.split_at_checked(30) else { continue };
        let record = HostRecord::from_bytes(host.try_into().unwrap());
        let files = [folder.join("host"), folder.join("sheet")];
        fs::write(&files[0], host).unwrap();
        fs::write(&files[1], sheet).unwrap();
        let [host, sheet] = [0, 1].map(|file: usize| files[file].to_str().unwrap());
        let ran = run(&["audit", sheet, "--host", host], b"");
        let is_sound = ran.status < 2 && is_second_verdict_sound(&ran, &record, &bytes[30..]);
        sound_alone += u32::from(is_sound && ran.status == 1);
        let Some(number) = number(&answer) else {
            assert!(ran.out.starts_with(b"accepted: ") && ran.status == 0, "{}", ran.error);
            accepted += 1;
            continue;
        };
        assert!(is_refused(&ran, number), "{number}: {}", ran.error);
        if ran.status == 1 && number >= 50 {
            assert!(String::from_utf8_lossy(&ran.out).contains(&format!("\n  {number}: ")), "{number}");
            named += 1;
        }
    }
    assert!(accepted >= 5 && named >= 10 && sound_alone >= 2, "{accepted} {named} {sound_alone}");
}
