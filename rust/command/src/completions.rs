//! `completions`: what a shell needs to complete the command, made of the tables that the command itself reads: the names of
//! subcommands, the options that each takes, and the words of its help.

use crate::arguments::{Arguments, Options};
use crate::failure::{print, Answer, Failure, Verdict};
use crate::{Subcommand, HELP as MAIN_HELP, SUBCOMMANDS};
use cartsundial::{Kind, Refusal};
use std::fmt::Write;

pub const OPTIONS: Options = Options::NONE;

pub const HELP: &str = "\
cartsundial completions bash | zsh | fish

What a shell needs to complete subcommands, options and files, on standard output. make install puts it where the three look for it;
elsewhere, in ~/.bashrc: source <(cartsundial completions bash)
";

const SHELLS: [&str; 3] = ["bash", "zsh", "fish"];

/// What can stand in a place.
enum Value {
    File,
    Words(Vec<String>),
    /// Nothing that can be listed: an ID, a count.
    Free,
}

pub fn run(arguments: &Arguments) -> Answer {
    let [shell] = arguments.exactly(["the name of a shell: bash, zsh or fish"])?;
    print(match shell {
        "bash" => bash(),
        "zsh" => zsh(),
        "fish" => fish(),
        _ => return Err(Failure::Usage(format!("{shell}: completions are for bash, zsh and fish"))),
    })?;
    Ok(Verdict::Accepted)
}

/// What follows an option that has a value.
fn value_of(option: &str) -> Value {
    match option {
        "--host" | "--names" | "--sheet" | "--script" | "--svg" | "--html" | "--out" | "-o" | "--beside" => Value::File,
        "--kind" => Value::Words(Kind::ALL.map(|kind| kind.name().to_string()).to_vec()),
        "--number" => Value::Words(numbers()),
        _ => Value::Free,
    }
}

/// What a subcommand takes beside options.
fn operand_of(name: &str) -> Value {
    let words = |words: &[&str]| Value::Words(words.iter().map(|word| word.to_string()).collect());
    match name {
        "completions" => words(&SHELLS),
        "help" => words(&SUBCOMMANDS.iter().map(|one| one.name).collect::<Vec<_>>()),
        "explain" => Value::Words(numbers()),
        _ => Value::File,
    }
}

fn numbers() -> Vec<String> {
    Refusal::ALL.iter().map(|refusal| refusal.number().to_string()).collect()
}

/// The subcommands, and `help`, with what the list of them says.
fn subcommands() -> Vec<(&'static str, String)> {
    let named = |line: &&'static str, name: &str| line.split_whitespace().next() == Some(name);
    let words = |name: &str| MAIN_HELP.lines().find(|line| named(line, name)).and_then(|line| line.get(28..));
    let mut all: Vec<(&str, String)> =
        SUBCOMMANDS.iter().map(|one| (one.name, words(one.name).unwrap_or("").trim().to_string())).collect();
    all.push(("help", "what a subcommand takes".to_string()));
    all
}

/// An option in the words of its help, up to the first that ends a thought.
fn described(subcommand: &Subcommand, option: &str) -> String {
    let is_it = |line: &&str| line.trim_start().split(' ').next() == Some(option) && line.starts_with("  --");
    let line = subcommand.help.lines().find(is_it).and_then(|line| line.get(22..)).unwrap_or("");
    let end = ["; ", ": ", ". ", " ("].into_iter().filter_map(|end| line.find(end)).min().unwrap_or(line.len());
    line[..end].trim().trim_end_matches(',').to_string()
}

/// With what is told of the command in the places of the capital letters.
const BASH: &str = "\
# cartsundial completions bash
_cartsundial() {
    local word=${COMP_WORDS[COMP_CWORD]} before=${COMP_WORDS[COMP_CWORD - 1]} subcommand=${COMP_WORDS[1]} options=
    COMPREPLY=()
    # Bash takes --out=x for three words.
    if [ \"$word\" = = ]; then
        word=
    elif [ \"$before\" = = ]; then
        before=${COMP_WORDS[COMP_CWORD - 2]}
    fi
    if [ \"$COMP_CWORD\" -eq 1 ]; then
        _cartsundial_words '@NAMES --help --version'
        return
    fi
    case \"$subcommand $before\" in
@VALUES    esac
    case $subcommand in
@OPTIONS    esac
    if [[ $word == -?* ]]; then
        _cartsundial_words \"$options\"
        return
    fi
    case $subcommand in
@OPERANDS    esac
    _cartsundial_files
}

_cartsundial_words() {
    mapfile -t COMPREPLY < <(compgen -W \"$1\" -- \"$word\")
}

_cartsundial_files() {
    compopt -o filenames 2>/dev/null
    mapfile -t COMPREPLY < <(compgen -f -- \"$word\")
}

complete -F _cartsundial cartsundial
";

fn bash() -> String {
    let names: Vec<&str> = subcommands().iter().map(|(name, _)| *name).collect();
    let (mut options, mut values, mut operands) = (String::new(), String::new(), String::new());
    for one in SUBCOMMANDS {
        let all: Vec<&str> = one.options.all().chain(["--help"]).collect();
        let _ = writeln!(options, "    {}) options='{}' ;;", one.name, all.join(" "));
        for option in one.options.values {
            let _ = writeln!(values, "    '{} {option}') {}return ;;", one.name, bash_value(&value_of(option)));
        }
    }
    for name in &names {
        if let value @ Value::Words(_) = operand_of(name) {
            let _ = writeln!(operands, "    {name}) {}return ;;", bash_value(&value));
        }
    }
    let filled = BASH.replace("@NAMES", &names.join(" ")).replace("@VALUES", &values);
    filled.replace("@OPTIONS", &options).replace("@OPERANDS", &operands)
}

fn bash_value(value: &Value) -> String {
    match value {
        Value::File => "_cartsundial_files; ".to_string(),
        Value::Words(words) => format!("_cartsundial_words '{}'; ", words.join(" ")),
        Value::Free => String::new(),
    }
}

const ZSH: &str = "\
#compdef cartsundial
# cartsundial completions zsh
_cartsundial() {
    local -a subcommands
    subcommands=(
@NAMES    )
    if (( CURRENT == 2 )); then
        _describe subcommand subcommands
        [[ $words[2] == -* ]] && compadd -- --help --version
        return
    fi
    shift words
    (( CURRENT-- ))
    case $words[1] in
@CASES    esac
}
if [[ $funcstack[1] == _cartsundial ]]; then
    _cartsundial \"$@\"
else
    compdef _cartsundial cartsundial
fi
";

fn zsh() -> String {
    let named = |(name, words): &(&str, String)| format!("        '{name}:{}'\n", zsh_words(words));
    let names: String = subcommands().iter().map(named).collect();
    let mut cases = String::new();
    for one in SUBCOMMANDS {
        let _ = writeln!(cases, "    {})\n        _arguments -S '--help[what it takes]' \\", one.name);
        for option in one.options.all() {
            let is_value = one.options.values.contains(&option);
            let (equals, value) = if is_value { ("=", zsh_value(&value_of(option))) } else { ("", String::new()) };
            let more = if one.options.more.contains(&option) { "*" } else { "" };
            let words = zsh_words(&described(one, option));
            let _ = writeln!(cases, "            '{more}{option}{equals}[{words}]{value}' \\");
        }
        let _ = writeln!(cases, "            '*{}'\n        ;;", zsh_value(&operand_of(one.name)));
    }
    let _ = writeln!(cases, "    help) _arguments '*{}' ;;", zsh_value(&operand_of("help")));
    ZSH.replace("@NAMES", &names).replace("@CASES", &cases)
}

/// What _describe and _arguments would take for a sign of theirs.
fn zsh_words(words: &str) -> String {
    let is_sign = |letter: char| matches!(letter, '[' | ']' | ':' | '\\');
    let escaped: String =
        words.chars().flat_map(|letter| is_sign(letter).then_some('\\').into_iter().chain([letter])).collect();
    escaped.replace('\'', "'\\''")
}

fn zsh_value(value: &Value) -> String {
    match value {
        Value::File => ":file:_files".to_string(),
        Value::Words(words) => format!(":word:({})", words.join(" ")),
        Value::Free => ":value:".to_string(),
    }
}

fn fish() -> String {
    let quoted = |text: &str| text.replace('\\', "\\\\").replace('\'', "\\'");
    let mut text = "# cartsundial completions fish\ncomplete -c cartsundial -f\n".to_string();
    for (name, words) in subcommands() {
        let _ = writeln!(text, "complete -c cartsundial -n __fish_use_subcommand -a {name} -d '{}'", quoted(&words));
    }
    for name in ["help", "version"] {
        let _ = writeln!(text, "complete -c cartsundial -n __fish_use_subcommand -l {name}");
    }
    for one in SUBCOMMANDS {
        let start = format!("complete -c cartsundial -n '__fish_seen_subcommand_from {}'", one.name);
        let _ = writeln!(text, "{start} {}", fish_value(&operand_of(one.name), ""));
        let _ = writeln!(text, "{start} -l help -d 'what it takes'");
        for option in one.options.all() {
            let is_value = one.options.values.contains(&option);
            let value = if is_value { fish_value(&value_of(option), "-r ") } else { String::new() };
            let words = quoted(&described(one, option));
            let _ = writeln!(text, "{start} -l {} {value} -d '{words}'", option.trim_start_matches('-'));
        }
    }
    let _ = writeln!(
        text,
        "complete -c cartsundial -n '__fish_seen_subcommand_from help' {}",
        fish_value(&operand_of("help"), "")
    );
    text
}

fn fish_value(value: &Value, required: &str) -> String {
    match value {
        Value::File => format!("{required}-F"),
        Value::Words(words) => format!("{required}-f -a '{}'", words.join(" ")),
        Value::Free => format!("{required}-f"),
    }
}

#[cfg(test)]
mod tests {
    use super::*;

    /// Every option of a table stands in the help of its subcommand, with words that completions show; none is only there.
    #[test]
    fn one_table() {
        for one in SUBCOMMANDS {
            let listed = one.help.lines().filter_map(|line| line.strip_prefix("  --")?.split(' ').next());
            let mut listed: Vec<String> = listed.map(|name| format!("--{name}")).collect();
            let first = one.help.lines().next().unwrap();
            let mut options: Vec<&str> = one.options.all().collect();
            listed.sort();
            options.sort_unstable();
            for option in &options {
                let is_there = listed.iter().any(|name| name == option) || first.contains(option);
                assert!(is_there, "{}: {option} is not in its help", one.name);
            }
            for option in &listed {
                assert!(options.contains(&&option[..]), "{}: {option} is only in its help", one.name);
                assert!(!described(one, option).is_empty(), "{} {option}", one.name);
            }
            let said = subcommands().into_iter().find(|(name, _)| *name == one.name);
            assert!(said.is_some_and(|(_, words)| !words.is_empty()), "{} is not in the list of subcommands", one.name);
        }
    }
}
