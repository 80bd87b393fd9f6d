//! Tables of text: columns side by side, numbers to the right.

/// How a column stands.
#[derive(Debug, Copy, Clone, PartialEq, Eq)]
pub enum Side {
    Left,
    Right,
}

/// A table: a heading and rows of as many cells.
#[derive(Debug)]
pub struct Table {
    sides: Vec<Side>,
    rows: Vec<Vec<String>>,
}

impl Table {
    pub fn new(heading: &[(&str, Side)]) -> Self {
        Self {
            sides: heading.iter().map(|(_, side)| *side).collect(),
            rows: vec![heading.iter().map(|(word, _)| (*word).to_owned()).collect()],
        }
    }

    pub fn push<const N: usize>(&mut self, row: [String; N]) {
        self.rows.push(row.into());
    }

    fn width(&self, column: usize) -> usize {
        let cells = self.rows.iter().filter_map(|row| row.get(column));
        cells.map(|cell| cell.chars().count()).max().unwrap_or(0)
    }

    /// The lines of the table, without blanks at their ends.
    pub fn text(&self) -> String {
        let widths: Vec<usize> = (0..self.sides.len()).map(|c| self.width(c)).collect();
        let mut text = String::new();
        for row in &self.rows {
            let cells = row.iter().zip(&self.sides).zip(&widths);
            let cells = cells.map(|((cell, side), width)| match side {
                Side::Left => format!("{cell:<width$}"),
                Side::Right => format!("{cell:>width$}"),
            });
            let line = cells.collect::<Vec<_>>().join("  ");
            text += line.trim_end();
            text.push('\n');
        }
        text
    }
}

/// A number with its thousands apart.
pub fn grouped(number: usize) -> String {
    let digits = number.to_string();
    let mut text = String::new();
    for (i, digit) in digits.chars().enumerate() {
        if i > 0 && (digits.len() - i).is_multiple_of(3) {
            text.push(',');
        }
        text.push(digit);
    }
    text
}

#[cfg(test)]
mod tests {
    use super::{Side, Table, grouped};

    #[test]
    fn columns() {
        let mut table = Table::new(&[("slot", Side::Right), ("item", Side::Left)]);
        table.push(["3".into(), "7 é".into()]);
        table.push(["12".into(), String::new()]);
        assert_eq!(table.text(), "slot  item\n   3  7 é\n  12\n");
    }

    #[test]
    fn thousands() {
        let told = [0, 999, 1_000, 65_536, 1_234_567].map(grouped);
        assert_eq!(told, ["0", "999", "1,000", "65,536", "1,234,567"]);
    }
}
