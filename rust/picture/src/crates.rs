//! The text of crates.txt: groups of crates, a comment over each group, and for each crate what it is built on.

/// A crate, its group, and the listed crates that it is built on.
#[derive(Debug, PartialEq, Eq)]
pub struct Crate {
    pub name: String,
    pub group: usize,
    pub on: Vec<usize>,
}

#[derive(Debug, PartialEq, Eq)]
pub struct Crates {
    pub groups: Vec<String>,
    pub crates: Vec<Crate>,
}

impl Crates {
    /// A name that is not listed is a crate of the kit and left out, as is the word for a static library behind a name.
    pub fn read(text: &str) -> Result<Crates, String> {
        let mut groups = Vec::new();
        let mut lines = Vec::new();
        for block in text.split("\n\n") {
            let crates = block.lines().filter(|line| !line.starts_with('#') && !line.is_empty());
            lines.extend(crates.map(|line| (groups.len(), line)));
            if lines.last().is_some_and(|(group, _)| *group == groups.len()) {
                groups.push(title(block));
            }
        }
        let named = |(group, line): (usize, &str)| {
            let (name, on) = line.split_once(':').ok_or(format!("no colon in {line:?}"))?;
            let name = name.strip_suffix(" staticlib").unwrap_or(name);
            Ok((name.to_string(), group, on.split_whitespace().map(str::to_string).collect()))
        };
        let named: Vec<(String, usize, Vec<String>)> = lines.into_iter().map(named).collect::<Result<_, String>>()?;
        let place = |name: &String| named.iter().position(|(other, ..)| other == name);
        let crates = named.iter().map(|(name, group, on)| Crate {
            name: name.clone(),
            group: *group,
            on: on.iter().filter_map(place).collect(),
        });
        Ok(Crates { groups, crates: crates.collect() })
    }
}

/// The first words of the comment over a group.
fn title(block: &str) -> String {
    let comment = block.lines().find_map(|line| line.strip_prefix('#')).unwrap_or("");
    comment.split([':', ';', '.', ',']).next().unwrap_or("").trim().to_string()
}

#[cfg(test)]
mod tests {
    use super::*;

    #[test]
    fn groups_and_what_crates_are_built_on() {
        let text = "# A head.\n\n# Bytes.\nendian:\ntext: endian\n\n# A plan: read,\n# and printed.\nplan staticlib: text libc\n";
        let crates = Crates::read(text).unwrap();
        assert_eq!(crates.groups, ["Bytes", "A plan"]);
        let found =
            |at: usize| (crates.crates[at].name.as_str(), crates.crates[at].group, crates.crates[at].on.clone());
        assert_eq!([found(0), found(1), found(2)], [("endian", 0, vec![]), ("text", 0, vec![0]), ("plan", 1, vec![1])]);
    }

    #[test]
    fn a_line_that_names_no_crate() {
        assert!(Crates::read("endian\n").is_err());
        assert_eq!(Crates::read(""), Ok(Crates { groups: vec![], crates: vec![] }));
    }
}
