//! Lines of the small text files: words apart, comments and blank lines dropped.

/// A line that says something.
#[derive(Debug, PartialEq, Eq)]
pub struct Line<'a> {
    /// Counted from 1, dropped lines too.
    pub number: usize,
    pub words: Vec<&'a str>,
}

impl Line<'_> {
    pub fn bad(&self, why: impl Into<String>) -> BadLine {
        BadLine {
            line: self.number,
            why: why.into(),
        }
    }
}

/// What is wrong in which line.
#[derive(Debug, PartialEq, Eq)]
pub struct BadLine {
    pub line: usize,
    pub why: String,
}

/// The words of a line up to one that begins with `#`, which is a comment to the line's end.
fn words(line: &str) -> Vec<&str> {
    let all = line.split_whitespace();
    all.take_while(|word| !word.starts_with('#')).collect()
}

/// The lines that say something.
pub fn lines(text: &str) -> impl Iterator<Item = Line<'_>> {
    let all = text.lines().enumerate().map(|(i, line)| Line {
        number: i + 1,
        words: words(line),
    });
    all.filter(|line| !line.words.is_empty())
}

#[cfg(test)]
mod tests {
    use super::lines;

    #[test]
    fn comments_and_blank_lines_are_dropped_and_counted() {
        let text = "# the week\n\n item 7  toothbrush # blue\r\nflag 40 met#telly";
        let told: Vec<_> = lines(text).map(|line| (line.number, line.words)).collect();
        let due = [
            (3, vec!["item", "7", "toothbrush"]),
            (4, vec!["flag", "40", "met#telly"]),
        ];
        assert_eq!(told, due);
    }
}
