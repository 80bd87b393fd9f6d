//! Pieces of HTML: whatever comes in as text is escaped.

use crate::said::is_unseen;

/// Text as it may stand between tags and in attributes.
pub fn escape(text: &str) -> String {
    let mut out = String::with_capacity(text.len());
    for sign in text.chars() {
        match sign {
            '&' => out += "&amp;",
            '<' => out += "&lt;",
            '>' => out += "&gt;",
            '"' => out += "&quot;",
            '\'' => out += "&#39;",
            // What is not seen, or turns other text round, has no place on paper.
            sign if is_unseen(sign) => out.push('\u{FFFD}'),
            sign => out.push(sign),
        }
    }
    out
}

/// An element with HTML inside.
fn around(name: &str, inner: &str) -> String {
    format!("<{name}>{inner}</{name}>")
}

/// An element with text inside.
pub fn element(name: &str, text: &str) -> String {
    around(name, &escape(text))
}

fn row(cell: &str, cells: &[String]) -> String {
    let cells: String = cells.iter().map(|text| element(cell, text)).collect();
    around("tr", &cells) + "\n"
}

/// A table with a heading; its columns have the widths, in hundredths of the page.
pub fn table(heading: &[(&str, usize)], rows: &[Vec<String>]) -> String {
    let columns = heading.iter().map(|(_, width)| width);
    let columns: String = columns
        .map(|width| format!("<col style=\"width:{width}%\">"))
        .collect();
    let words: Vec<String> = heading.iter().map(|(word, _)| (*word).to_owned()).collect();
    let head = around("thead", &row("th", &words));
    let body: String = rows.iter().map(|cells| row("td", cells)).collect();
    let body = around("tbody", &body);
    around(
        "table",
        &format!("{}{head}\n{body}", around("colgroup", &columns)),
    ) + "\n"
}

/// A list of lines, or a sentence where there are none.
pub fn list(lines: &[String], none: &str) -> String {
    if lines.is_empty() {
        return element("p", none) + "\n";
    }
    let lines: String = lines
        .iter()
        .map(|line| element("li", line) + "\n")
        .collect();
    around("ul", &lines) + "\n"
}

#[cfg(test)]
mod tests {
    use super::{escape, list, table};

    #[test]
    fn escaped() {
        assert_eq!(
            escape("<b a=\"1\" c='2'>&\u{7}é\u{202E}"),
            "&lt;b a=&quot;1&quot; c=&#39;2&#39;&gt;&amp;\u{FFFD}é\u{FFFD}"
        );
    }

    #[test]
    fn pieces() {
        let told = table(&[("a<", 30), ("b", 70)], &[vec!["1".into(), "&".into()]]);
        let due = "<table><colgroup><col style=\"width:30%\"><col style=\"width:70%\"></colgroup>\
            <thead><tr><th>a&lt;</th><th>b</th></tr>\n</thead>\n\
            <tbody><tr><td>1</td><td>&amp;</td></tr>\n</tbody></table>\n";
        assert_eq!(told, due);
        assert_eq!(list(&[], "none"), "<p>none</p>\n");
        assert_eq!(list(&["x".into()], "none"), "<ul><li>x</li>\n</ul>\n");
    }
}
