//! What a command says in the end: text and a status, or why it was not done.

use crate::lines::BadLine;
use std::fmt;

/// How a command that was done ended.
#[derive(Debug, Copy, Clone, PartialEq, Eq)]
pub enum Status {
    /// Status 0.
    Done,
    /// It said no, or found a difference: status 1.
    No,
}

impl Status {
    /// No where something was found.
    pub fn no_where(found: bool) -> Self {
        if found { Self::No } else { Self::Done }
    }
}

/// Why a command was not done: status 2. It is said on standard error.
#[derive(Debug)]
pub struct Failure(String);

impl Failure {
    pub fn new(why: impl Into<String>) -> Self {
        Self(why.into())
    }

    /// With the file, or the argument, that it is about.
    pub fn of(file: &str, why: impl fmt::Display) -> Self {
        Self(format!("{file}: {why}"))
    }

    /// A line of a file.
    pub fn at(file: &str, bad: &BadLine) -> Self {
        Self::of(file, format!("line {}: {}", bad.line, bad.why))
    }
}

/// How many signs of a failure are said; a text without line ends may be in it.
const MOST: usize = 600;

/// Whether a sign would break a line, turn a terminal over or hide: controls, and marks that reorder text or have no width.
pub fn is_unseen(sign: char) -> bool {
    let hides = matches!(sign, '\u{200B}'..='\u{200F}' | '\u{2028}'..='\u{202E}' | '\u{2060}'..='\u{206F}' | '\u{FEFF}');
    sign.is_control() || hides
}

/// One line, whatever a file or an argument had in it: unseen signs by their numbers, and the middle of what is too long left out.
impl fmt::Display for Failure {
    fn fmt(&self, f: &mut fmt::Formatter<'_>) -> fmt::Result {
        let many = self.0.chars().count();
        for (i, sign) in self.0.chars().enumerate() {
            if many > MOST && (MOST / 2..many - MOST / 2).contains(&i) {
                if i == MOST / 2 {
                    f.write_str(" .. ")?;
                }
            } else if is_unseen(sign) {
                write!(f, "{}", sign.escape_unicode())?;
            } else {
                write!(f, "{sign}")?;
            }
        }
        Ok(())
    }
}

/// What a command says.
#[derive(Debug)]
pub struct Said {
    /// For standard output.
    pub text: String,
    pub status: Status,
    /// A refusal that came after there was something to print, as of a run that was stopped.
    pub failure: Option<Failure>,
}

impl Said {
    pub fn new(text: String, status: Status) -> Self {
        Self {
            text,
            status,
            failure: None,
        }
    }

    pub fn done(text: String) -> Self {
        Self::new(text, Status::Done)
    }
}

/// What each command answers.
pub type Answer = Result<Said, Failure>;

#[cfg(test)]
mod tests {
    use super::Failure;

    #[test]
    fn one_line() {
        let told = Failure::of("a\nb\u{1b}[31m\u{202e}", "é").to_string();
        assert_eq!(told, "a\\u{a}b\\u{1b}[31m\\u{202e}: é");
        let told = Failure::of("x", "y".repeat(10_000) + "z").to_string();
        assert_eq!(told.len(), 604);
        assert!(
            told.starts_with("x: yyy") && told.ends_with("yyz"),
            "{told}"
        );
    }
}
