//! `explain`: what a number means, what leads to it, what to do, and an example. All of it is the library's table.

use crate::arguments::{Arguments, Options};
use crate::failure::{print, Answer, Failure, Verdict};
use crate::json::Json;
use cartsundial::Refusal;

pub const OPTIONS: Options = Options { flags: &["--json"], ..Options::NONE };

pub const HELP: &str = "\
cartsundial explain [NUMBER..] [--json]

What a number means by which something is refused, what most often leads to it, what to do, and an example. Without a number
all of them, a line each.

  --json              one object a number, on a line each
";

/// The width of a line in words.
const WIDTH: usize = 100;

/// What to do, as it stands after a number.
pub fn remedy(refusal: Refusal) -> String {
    format!("what to do: {} (cartsundial explain {})", refusal.remedy(), refusal.number())
}

pub fn run(arguments: &Arguments) -> Answer {
    let all = match &arguments.files[..] {
        [] => Refusal::ALL.to_vec(),
        given => given.iter().map(|number| read(number)).collect::<Result<_, _>>()?,
    };
    let shown = |refusal: &Refusal| match (arguments.has("--json"), arguments.files.is_empty()) {
        (true, _) => format!("{}\n", json(*refusal)),
        (false, true) => format!("{:>2}  {}\n", refusal.number(), refusal.meaning()),
        (false, false) => explained(*refusal),
    };
    print(all.iter().map(shown).collect::<String>())?;
    Ok(Verdict::Accepted)
}

/// `26`; also `refused 26:` as it is printed, and the names of C and Rust.
fn read(text: &str) -> Result<Refusal, Failure> {
    let word = text.trim().trim_start_matches("refused ").trim_end_matches(':');
    let plain = |name: &str| name.replace('_', "").to_ascii_lowercase();
    let bare = plain(word.strip_prefix("CARTSUNDIAL_E_").unwrap_or(word.strip_prefix("Refusal::").unwrap_or(word)));
    let of_name = Refusal::ALL.iter().copied().find(|refusal| plain(refusal.name()) == bare);
    word.parse().ok().or(of_name).ok_or_else(|| {
        let why = "no number of a refusal; `cartsundial explain` lists them, and 0 is accepted";
        Failure::Usage(format!("{text}: {why}"))
    })
}

fn explained(refusal: Refusal) -> String {
    let mut text = format!("{} {}: {}\n", refusal.number(), refusal.name(), refusal.meaning());
    for (title, words) in [("means", refusal.means()), ("cause", refusal.cause()), ("what to do", refusal.remedy())] {
        text += &paragraph(title, words);
    }
    match refusal.example() {
        run if run.contains("cartsundial ") => text + &format!("  {:12}{run}\n", "example"),
        words => text + &paragraph("example", words),
    }
}

/// A title, and words in lines of one width beside it.
fn paragraph(title: &str, words: &str) -> String {
    let mut lines = vec![String::new()];
    for word in words.split(' ') {
        let line = lines.last_mut().expect("there is a line");
        match line.len() + 1 + word.len() {
            _ if line.is_empty() => line.push_str(word),
            ..=WIDTH => *line += &format!(" {word}"),
            _ => lines.push(word.to_string()),
        }
    }
    let titles = std::iter::once(title).chain(std::iter::repeat(""));
    lines.iter().zip(titles).map(|(line, title)| format!("  {title:12}{line}\n")).collect()
}

fn json(refusal: Refusal) -> Json {
    Json::Object(vec![
        ("number", Json::number(refusal.number())),
        ("name", Json::text(refusal.name())),
        ("words", Json::text(refusal.meaning())),
        ("means", Json::text(refusal.means())),
        ("cause", Json::text(refusal.cause())),
        ("remedy", Json::text(refusal.remedy())),
        ("example", Json::text(refusal.example())),
    ])
}
