//! Names of items, attachments, flags, times and variables, from a names file: `item 7 toothbrush`, a name a line.

use crate::lines::{BadLine, Line, lines};
use std::collections::HashMap;

/// What can have a name.
#[derive(Debug, Copy, Clone, PartialEq, Eq, Hash)]
pub enum Kind {
    Item,
    Atc,
    Flag,
    Time,
    Variable,
}

impl Kind {
    const ALL: [Self; 5] = [
        Self::Item,
        Self::Atc,
        Self::Flag,
        Self::Time,
        Self::Variable,
    ];

    /// The word that stands for it in every file and setting.
    pub fn word(self) -> &'static str {
        match self {
            Self::Item => "item",
            Self::Atc => "atc",
            Self::Flag => "flag",
            Self::Time => "time",
            Self::Variable => "var",
        }
    }

    pub fn of(word: &str) -> Option<Self> {
        Self::ALL.into_iter().find(|kind| kind.word() == word)
    }
}

/// Names and their numbers; both are unique within a kind.
#[derive(Debug, Default)]
pub struct Names {
    numbers: HashMap<(Kind, String), i32>,
    names: HashMap<(Kind, i32), String>,
}

/// Whether a word is written as a number, right or wrong, and so cannot be a name.
pub fn is_number(word: &str) -> bool {
    word.starts_with(|c: char| c == '-' || c == '+' || c.is_ascii_digit())
}

/// A name begins with a letter or `_`, so that it is no number, and has none of the signs that the files give a meaning.
fn is_name(word: &str) -> bool {
    let first = word.chars().next();
    first.is_some_and(|c| c.is_alphabetic() || c == '_')
        && word
            .chars()
            .all(|c| c.is_alphanumeric() || matches!(c, '_' | '-' | '.'))
}

impl Names {
    /// Reads a names file.
    pub fn read(text: &str) -> Result<Self, BadLine> {
        let mut names = Self::default();
        for line in lines(text) {
            names.add(&line)?;
        }
        Ok(names)
    }

    fn add(&mut self, line: &Line) -> Result<(), BadLine> {
        let [kind, number, name] = line.words[..] else {
            return Err(line.bad("a kind, a number and a name are due, as in `item 7 toothbrush`"));
        };
        let kind = Kind::of(kind).ok_or_else(|| {
            line.bad(format!("`{kind}` is none of item, atc, flag, time and var"))
        })?;
        let number = number
            .parse()
            .map_err(|_| line.bad(format!("`{number}` is not a number")))?;
        if !is_name(name) {
            let due = "a name begins with a letter and has letters, digits, `_`, `-` and `.`";
            return Err(line.bad(format!("`{name}`: {due}")));
        }
        let twice = |what: String| line.bad(format!("{what} was named before"));
        if self.names.insert((kind, number), name.into()).is_some() {
            return Err(twice(format!("{} {number}", kind.word())));
        }
        if self.numbers.insert((kind, name.into()), number).is_some() {
            return Err(twice(format!("another {} `{name}`", kind.word())));
        }
        Ok(())
    }

    /// The name of a number, if it has one.
    pub fn name(&self, kind: Kind, number: i32) -> Option<&str> {
        self.names.get(&(kind, number)).map(String::as_str)
    }

    /// The name, or else the number: a word that [`Names::number`] takes.
    pub fn word(&self, kind: Kind, number: i32) -> String {
        self.name(kind, number)
            .map_or_else(|| number.to_string(), str::to_owned)
    }

    /// The number and behind it the name, if it has one.
    pub fn label(&self, kind: Kind, number: i32) -> String {
        match self.name(kind, number) {
            Some(name) => format!("{number} {name}"),
            None => number.to_string(),
        }
    }

    /// What a word stands for: a number as it is written, or the number of a name.
    pub fn number(&self, kind: Kind, word: &str) -> Result<String, String> {
        if is_number(word) {
            return Ok(word.to_owned());
        }
        let number = self.numbers.get(&(kind, word.to_owned()));
        number
            .map(i32::to_string)
            .ok_or_else(|| format!("there is no {} with the name `{word}`", kind.word()))
    }
}

#[cfg(test)]
mod tests {
    use super::{Kind, Names};

    #[test]
    fn both_ways() {
        let names = Names::read("item 7 toothbrush\nflag 7 met_telly\nflag -3 odd\n").unwrap();
        assert_eq!(names.label(Kind::Item, 7), "7 toothbrush");
        assert_eq!(names.label(Kind::Atc, 7), "7");
        assert_eq!(names.number(Kind::Flag, "met_telly"), Ok("7".into()));
        assert_eq!(names.number(Kind::Flag, "odd"), Ok("-3".into()));
        assert_eq!(names.number(Kind::Flag, "007"), Ok("007".into()));
        let why = names.number(Kind::Flag, "toothbrush").unwrap_err();
        assert_eq!(why, "there is no flag with the name `toothbrush`");
    }

    #[test]
    fn wrong_lines() {
        let bad = |text: &str| Names::read(text).unwrap_err();
        assert_eq!(bad("item 7").line, 1);
        assert_eq!(bad("\nitem 7 a b").line, 2);
        assert_eq!(
            bad("thing 7 a").why,
            "`thing` is none of item, atc, flag, time and var"
        );
        assert_eq!(bad("item x a").why, "`x` is not a number");
        assert_eq!(bad("item 7 a\nitem 7 b").why, "item 7 was named before");
        assert_eq!(
            bad("item 7 a\nitem 8 a").why,
            "another item `a` was named before"
        );
        for name in ["7", "-", "a=b", "a:b", "a<b"] {
            assert_eq!(bad(&format!("item 7 {name}")).line, 1, "{name}");
        }
    }
}
