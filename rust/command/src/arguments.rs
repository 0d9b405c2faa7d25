//! The arguments of a subcommand. Elsewhere this would be a well-kept library's work; no registry is at hand here, so it is
//! small: flags, options with a value (`--jobs 4` or `--jobs=4`), and the rest. What the tables say would do nothing is an error.

use crate::failure::Failure;

/// The options that a subcommand takes: what is read here, and what completions offer.
pub struct Options {
    /// Without a value.
    pub flags: &'static [&'static str],
    /// With one.
    pub values: &'static [&'static str],
    /// Those of the values that may be given more than once.
    pub more: &'static [&'static str],
    /// An option, and those of which one has to be there, or it does nothing.
    pub needs: &'static [(&'static str, &'static [&'static str])],
    /// Options of which only one can be given.
    pub apart: &'static [&'static [&'static str]],
}

impl Options {
    /// A subcommand without options.
    pub const NONE: Options = Options { flags: &[], values: &[], more: &[], needs: &[], apart: &[] };

    pub fn all(&self) -> impl Iterator<Item = &'static str> {
        self.flags.iter().chain(self.values).copied()
    }
}

pub struct Arguments {
    flags: Vec<String>,
    values: Vec<(String, String)>,
    /// What is no option: files, headers. `-` is among them, and after `--` everything.
    pub files: Vec<String>,
}

impl Arguments {
    pub fn read(words: &[String], options: &Options) -> Result<Arguments, Failure> {
        let mut arguments = Arguments { flags: Vec::new(), values: Vec::new(), files: Vec::new() };
        let mut words = words.iter();
        while let Some(word) = words.next() {
            if word == "--" {
                arguments.files.extend(words.cloned());
                break;
            }
            if !word.starts_with("--") && !options.all().any(|option| option == word) {
                arguments.files.push(word.clone());
                continue;
            }
            let (option, value) = word.split_once('=').map_or((&word[..], None), |(name, value)| (name, Some(value)));
            if options.flags.contains(&option) && value.is_none() {
                arguments.flags.push(option.to_string());
            } else if options.values.contains(&option) {
                let value = value.map(str::to_string).or_else(|| words.next().cloned());
                let value = value.ok_or_else(|| Failure::Usage(format!("{option} has a value after it")))?;
                arguments.values.push((option.to_string(), value));
            } else {
                return Err(unknown(word, option, options));
            }
        }
        arguments.refuse_idle(options)?;
        Ok(arguments)
    }

    /// Refuses what the tables say would do nothing: one option without another, two in one place.
    fn refuse_idle(&self, options: &Options) -> Result<(), Failure> {
        let given = |option: &&&str| self.is_given(option);
        let idle = options
            .needs
            .iter()
            .find(|(option, needed)| self.is_given(option) && !needed.iter().any(|one| self.is_given(one)));
        if let Some((option, needed)) = idle {
            return Err(Failure::Usage(format!("{option} is for {}", needed.join(" or "))));
        }
        for together in options.apart {
            let both: Vec<&str> = together.iter().filter(given).copied().collect();
            if let [one, other, ..] = both[..] {
                return Err(Failure::Usage(format!("{one} and {other} do not go together: leave one out")));
            }
        }
        Ok(())
    }

    fn is_given(&self, option: &str) -> bool {
        self.has(option) || self.value(option).is_some()
    }

    pub fn has(&self, flag: &str) -> bool {
        self.flags.iter().any(|given| given == flag)
    }

    /// The value of an option; of one that is given more than once the last.
    pub fn value(&self, option: &str) -> Option<&str> {
        self.values.iter().rfind(|(given, _)| given == option).map(|(_, value)| &value[..])
    }

    /// All values of an option that may be given more than once.
    pub fn values(&self, option: &str) -> Vec<&str> {
        self.values.iter().filter(|(given, _)| given == option).map(|(_, value)| &value[..]).collect()
    }

    /// Whatever is read: the files, and those that options name. What is no file among them, as a header, is none by its name.
    pub fn inputs(&self) -> Vec<String> {
        let named = ["--host", "--names", "--beside"].into_iter().filter_map(|option| self.value(option));
        self.files.iter().cloned().chain(named.map(String::from)).collect()
    }

    /// Exactly these files.
    pub fn exactly<const N: usize>(&self, names: [&str; N]) -> Result<[&str; N], Failure> {
        let files: Vec<&str> = self.files.iter().map(String::as_str).collect();
        files.try_into().map_err(|_| Failure::Usage(format!("it takes {}", names.join(" and "))))
    }

    /// A file, and after it one or more others.
    pub fn first_and_others(&self, names: [&str; 2]) -> Result<(&str, &[String]), Failure> {
        match self.files.split_first() {
            Some((first, others)) => Ok((first, others)),
            None => Err(Failure::Usage(format!("it takes {} and then {}", names[0], names[1]))),
        }
    }
}

fn unknown(word: &str, option: &str, options: &Options) -> Failure {
    if options.flags.contains(&option) {
        return Failure::Usage(format!("{word}: {option} has no value"));
    }
    match nearest(option, options.all().chain(["--help"])) {
        Some(meant) => Failure::Usage(format!("{word}: no such option here; {meant}?")),
        None => Failure::Usage(format!("{word}: no such option here")),
    }
}

/// The one of these that was probably meant: at most two letters are other ones, more or fewer, or at the start all are the same.
pub fn nearest<'a>(word: &str, among: impl Iterator<Item = &'a str>) -> Option<&'a str> {
    let close = |one: &&str| distance(word, one) <= if word.len() < 6 { 1 } else { 2 };
    let mut close: Vec<&str> = among.filter(|one| close(one) || word.len() > 3 && one.starts_with(word)).collect();
    close.sort_by_key(|one| distance(word, one));
    close.first().copied()
}

/// How many letters are put in, taken out, replaced or exchanged with the next to make one word of the other.
fn distance(one: &str, other: &str) -> usize {
    let (one, other): (Vec<char>, Vec<char>) = (one.chars().collect(), other.chars().collect());
    let mut rows = vec![vec![0; other.len() + 1]; one.len() + 1];
    for i in 0..=one.len() {
        for j in 0..=other.len() {
            let least = |rows: &Vec<Vec<usize>>| {
                let replaced = rows[i - 1][j - 1] + usize::from(one[i - 1] != other[j - 1]);
                let is_exchange = i > 1 && j > 1 && one[i - 1] == other[j - 2] && one[i - 2] == other[j - 1];
                let exchanged = if is_exchange { rows[i - 2][j - 2] + 1 } else { usize::MAX };
                replaced.min(rows[i - 1][j] + 1).min(rows[i][j - 1] + 1).min(exchanged)
            };
            rows[i][j] = if i == 0 || j == 0 { i + j } else { least(&rows) };
        }
    }
    rows[one.len()][other.len()]
}

#[cfg(test)]
mod tests {
    use super::*;

    const OPTIONS: Options = Options {
        flags: &["--json", "--lspci"],
        values: &["--script", "--requester", "--leave-out"],
        more: &["--leave-out"],
        needs: &[("--requester", &["--script"])],
        apart: &[&["--json", "--lspci"]],
    };

    fn told(words: &str) -> String {
        let words: Vec<String> = words.split(' ').map(String::from).collect();
        match Arguments::read(&words, &OPTIONS) {
            Ok(arguments) => format!("{} files", arguments.files.len()),
            Err(Failure::Usage(message)) => message,
            Err(_) => panic!("not of usage"),
        }
    }

    #[test]
    fn an_option_that_does_nothing() {
        for (words, expected) in [
            ("board --json", "1 files"),
            ("board --script=x --requester 00:00.0", "1 files"),
            ("board --requester 00:00.0", "--requester is for --script"),
            ("board --lspci --json", "--json and --lspci do not go together: leave one out"),
            ("board --script x --script y", "1 files"),
            ("board --leave-out 1 --leave-out 2", "1 files"),
            ("board --json=1", "--json=1: --json has no value"),
            ("board --jsno", "--jsno: no such option here; --json?"),
            ("board --leave 1", "--leave: no such option here; --leave-out?"),
            ("board -j", "2 files"),
            ("board - -- -j", "3 files"),
            ("board --script", "--script has a value after it"),
        ] {
            assert_eq!(told(words), expected, "{words}");
        }
    }

    #[test]
    fn what_was_meant() {
        let names = ["plan", "label", "ledger", "import", "export"];
        let meant = |word| nearest(word, names.into_iter());
        assert_eq!(
            [meant("lable"), meant("imprt"), meant("x"), meant("ledgers")],
            [Some("label"), Some("import"), None, Some("ledger")]
        );
    }
}
