//! What completes the command in bash, zsh and fish: every subcommand and option of the help is there, and bash, and fish where it
//! is, complete them.

mod run;

use run::{folder, repository, run};
use std::fs;
use std::io::ErrorKind;
use std::process::Command;

const SHELLS: [&str; 3] = ["bash", "zsh", "fish"];

fn printed(arguments: &[&str]) -> String {
    let ran = run(arguments, b"");
    assert_eq!(ran.status, 0, "{arguments:?}: {}", ran.error);
    String::from_utf8(ran.out).unwrap()
}

fn subcommands() -> Vec<String> {
    let help = printed(&["--help"]);
    help.split("\n\n").nth(1).unwrap().lines().map(|line| line.split_whitespace().next().unwrap().to_string()).collect()
}

/// `--names`, wherever a help has it first on a line, or on its first line.
fn options(subcommand: &str) -> Vec<String> {
    let help = printed(&[subcommand, "--help"]);
    let first = help.lines().next().unwrap().split(|letter: char| letter != '-' && !letter.is_ascii_lowercase());
    let listed = help.lines().filter(|line| line.starts_with("  --")).filter_map(|line| line.trim().split(' ').next());
    first.filter(|word| word.starts_with("--")).chain(listed).map(String::from).collect()
}

#[test]
fn everything_is_there() {
    for shell in SHELLS {
        let script = printed(&["completions", shell]);
        for subcommand in subcommands() {
            assert!(script.contains(&subcommand), "{shell}: {subcommand}");
            for option in options(&subcommand) {
                let option = if shell == "fish" { option.replacen("--", "-l ", 1) } else { option };
                let own =
                    script.lines().filter(|line| shell != "fish" || line.contains(&format!("from {subcommand}'")));
                assert!(own.into_iter().any(|line| line.contains(&option)), "{shell}: {subcommand} {option}");
            }
        }
    }
    assert_eq!(run(&["completions", "tcsh"], b"").status, 2);
}

/// What bash offers after these words.
fn offered(words: &[&str]) -> Vec<String> {
    let file = folder("completions").join("bash");
    fs::write(&file, printed(&["completions", "bash"])).unwrap();
    let line = "source \"$1\"; shift; COMP_WORDS=(cartsundial \"$@\"); COMP_CWORD=$#; _cartsundial; printf '%s\\n' \"${COMPREPLY[@]}\"";
    let output = Command::new("bash")
        .args(["--norc", "-c", line, "bash"])
        .arg(&file)
        .args(words)
        .current_dir(repository())
        .output()
        .unwrap();
    assert!(output.stderr.is_empty(), "{words:?}: {}", String::from_utf8_lossy(&output.stderr));
    let text = String::from_utf8(output.stdout).unwrap();
    text.lines().filter(|line| !line.is_empty()).map(String::from).collect()
}

#[test]
fn in_bash() {
    let all = offered(&[""]);
    assert!(subcommands().iter().all(|name| all.contains(name)) && all.contains(&"help".to_string()), "{all:?}");
    for subcommand in subcommands() {
        let offered = offered(&[&subcommand, "--"]);
        assert!(options(&subcommand).iter().all(|option| offered.contains(option)), "{subcommand}: {offered:?}");
    }
    assert_eq!(offered(&["pl"]), ["plan"]);
    assert_eq!(offered(&["plan", "--li"]), ["--lines"]);
    assert_eq!(offered(&["plan", "tests/command/recorder.t"]), ["tests/command/recorder.txt"]);
    assert_eq!(offered(&["plan", "--sheet", "Makef"]), ["Makefile"]);
    assert_eq!(offered(&["plan", "--sheet", "=", "Makef"]), ["Makefile"]);
    assert_eq!(offered(&["route", "--from", ""]), [""; 0], "an ID is not listed");
    assert_eq!(offered(&["completions", ""]), SHELLS);
    assert_eq!(offered(&["help", "imp"]), ["import"]);
    // A name with a space is one.
    let folder = folder("completions");
    fs::write(folder.join("a box.txt"), "").unwrap();
    let start = format!("{}/a b", folder.display());
    assert_eq!(offered(&["show", &start]), [format!("{start}ox.txt")]);
}

/// Of the other two, where they are there, that they read it; fish also tells what it would offer.
#[test]
fn in_other_shells() {
    let run_in = |shell: &str, arguments: &[&str]| match Command::new(shell).args(arguments).output() {
        Err(error) if error.kind() == ErrorKind::NotFound => None,
        output => Some(output.unwrap()),
    };
    for shell in ["zsh", "fish"] {
        let file = folder("completions").join(shell);
        fs::write(&file, printed(&["completions", shell])).unwrap();
        let read = run_in(shell, &["-n", file.to_str().unwrap()]);
        assert!(read.is_none_or(|output| output.status.success() && output.stderr.is_empty()), "{shell}");
        let asked = format!("source '{}'; complete -C 'cartsundial pla'", file.display());
        if let Some(output) = run_in(shell, &["-c", &asked]).filter(|_| shell == "fish") {
            assert!(output.stdout.starts_with(b"plan\t"), "{}", String::from_utf8_lossy(&output.stderr));
        }
    }
}
