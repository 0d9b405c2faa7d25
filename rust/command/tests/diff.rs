//! `diff`: nothing is different from itself, in whatever form; and what was changed is told, of both sides.

mod run;

use run::{folder, repository, run};
use std::fs;

fn status(arguments: &[&str]) -> i32 {
    let ran = run(&[&["diff"], arguments].concat(), b"");
    assert!(ran.status < 2 || ran.out.is_empty(), "{arguments:?}");
    ran.status
}

/// A board, its sheet, the sheet's text, the lspci dump of it, and what import makes of that, are the same.
#[test]
fn in_every_form() {
    for board in ["tests/command/recorder.txt", "docs/example/board", "tests/plan/tree-001.board"] {
        let folder = folder("diff");
        let [sheet, text, dump] = ["box.sheet", "box.txt", "box.lspci"].map(|name| folder.join(name));
        let [sheet, text, dump] = [&sheet, &text, &dump].map(|file| file.to_str().unwrap());
        assert_eq!(run(&["plan", board, "--sheet", sheet], b"").status, 0);
        assert_eq!(run(&["plan", board, "--sheet", text], b"").status, 0);
        fs::write(dump, run(&["export", board, "--full"], b"").out).unwrap();
        for form in [board, sheet, text, dump] {
            assert_eq!((status(&[board, form]), status(&[form, board, "--quiet"])), (0, 0), "{board} {form}");
        }
    }
}

/// What went on one side appeared on the other; JSON has a line for each, and --quiet none.
#[test]
fn both_ways() {
    let machine = |name: &str| format!("tests/command/linux/{name}.lspci");
    let files = ["deep-linux", "deep-ovmf", "switch-seabios", "hotplug-realloc", "noio-ovmf"].map(machine);
    for [one, other] in files.iter().flat_map(|one| files.iter().map(move |other| [&one[..], &other[..]])) {
        let count = |arguments: &[&str], word: &str| {
            let ran = run(&[&["diff", "--json"], arguments].concat(), b"");
            String::from_utf8(ran.out).unwrap().matches(&format!("\"is\": \"{word}\"")).count()
        };
        let counts = |arguments: &[&str]| ["went", "appeared", "moved", "changed"].map(|word| count(arguments, word));
        let [went, appeared, moved, changed] = counts(&[one, other]);
        assert_eq!(counts(&[other, one]), [appeared, went, moved, changed], "{one} {other}");
        let is_same = went + appeared + moved + changed == 0;
        assert_eq!((status(&[one, other]), is_same), (i32::from(!is_same), one == other), "{one} {other}");
        assert!(run(&["diff", one, other, "--quiet"], b"").out.is_empty());
    }
}

/// Trouble is 2: a file that is not there, one that is refused, a machine that was not read.
#[test]
fn trouble() {
    let board = "tests/command/recorder.txt";
    for other in ["no-such-file", "tests/command/full.txt", "docs/example/trace", "tests/command/linux/spellings.lspci"]
    {
        let ran = run(&["diff", board, other], b"");
        assert_eq!((ran.status, ran.out.len()), (2, 0), "{other}");
        assert!(ran.error.contains(other), "{}", ran.error);
    }
    let bytes = fs::read(repository().join(board)).unwrap();
    assert_eq!(run(&["diff", "-", board], &bytes).status, 0);
    assert_eq!(run(&["diff", "-", "-"], &bytes).status, 2);
}
