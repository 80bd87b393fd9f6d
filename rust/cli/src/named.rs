//! The shop's text with names: a thin layer over the printed form, which the library reads.
//!
//! A line is as it is printed, slot, item, limit and requirements, but that an item may stand by its name, and a requirement as
//! `flag:met_telly` or `!item:7`. Blank lines, comments behind `#` and further blanks are dropped. Each line left becomes one
//! line of the printed form; what is a number goes there as it is written, so that the library alone judges it.

use crate::lines::{BadLine, Line, lines};
use crate::names::{Kind, Names, is_number};
use crate::words;
use locustkeno::{BadText, Item, Shop};

/// The letter of a kind of requirement in the printed form.
fn letter(kind: Kind, missing: bool) -> Option<char> {
    let letter = match kind {
        Kind::Item => 'I',
        Kind::Atc => 'A',
        Kind::Flag => 'F',
        Kind::Time | Kind::Variable => return None,
    };
    Some(if missing {
        letter.to_ascii_lowercase()
    } else {
        letter
    })
}

/// A requirement of the text with names in the printed form; a letter and a number are left to the library.
fn requirement(word: &str, names: &Names) -> Result<String, String> {
    let Some((kind, which)) = word.split_once(':') else {
        return match word.strip_prefix(['I', 'i', 'A', 'a', 'F', 'f']) {
            Some(number) if is_number(number) => Ok(word.to_owned()),
            _ => Err(format!(
                "`{word}` is no requirement, as `F40`, `flag:40` or `!item:toothbrush` is"
            )),
        };
    };
    let (kind, missing) = match kind.strip_prefix('!') {
        Some(kind) => (kind, true),
        None => (kind, false),
    };
    let found = Kind::of(kind).and_then(|kind| Some((kind, letter(kind, missing)?)));
    let (kind, letter) =
        found.ok_or_else(|| format!("`{word}` asks for none of item, atc and flag"))?;
    Ok(format!("{letter}{}", names.number(kind, which)?))
}

/// The word at a place of a line in the printed form.
fn printed_word(place: usize, word: &str, names: &Names) -> Result<String, String> {
    match place {
        1 if word != "-" && !is_number(word) => names.number(Kind::Item, word),
        0..=2 => Ok(word.to_owned()),
        _ => requirement(word, names),
    }
}

fn printed_line(line: &Line, names: &Names) -> Result<String, BadLine> {
    let words = line.words.iter().enumerate();
    let words = words.map(|(place, word)| printed_word(place, word, names));
    let words: Result<Vec<String>, String> = words.collect();
    words
        .map(|words| words.join(" "))
        .map_err(|why| line.bad(why))
}

/// What the library's refusal says of the text: the line as it stands there; past the last one, the line behind it.
fn told(bad: BadText, printed: &str, lines: &[Line]) -> BadLine {
    let behind = lines.last().map_or(1, |last| last.number + 1);
    let at = bad.line.saturating_sub(1);
    let Some(line) = lines.get(at) else {
        let why = BadText { line: 0, ..bad }.to_string();
        return BadLine { line: behind, why };
    };
    let found = if printed.lines().nth(at) == Some(&bad.found) {
        line.words.join(" ")
    } else {
        bad.found
    };
    line.bad(
        BadText {
            line: 0,
            found,
            ..bad
        }
        .to_string(),
    )
}

/// Reads a shop from its text, with names or without.
pub fn read(text: &str, names: &Names) -> Result<Shop, BadLine> {
    let lines: Vec<Line> = lines(text).collect();
    let mut printed = String::new();
    for line in &lines {
        printed += &printed_line(line, names)?;
        printed.push('\n');
    }
    printed
        .parse()
        .map_err(|bad: BadText| told(bad, &printed, &lines))
}

/// The text of a shop with names; without any, [`Shop`]'s own printing is the text.
pub fn write(shop: &Shop, names: &Names) -> String {
    let mut text = String::from("# slot item limit requirements\n");
    for (i, slot) in shop.slots().iter().enumerate() {
        let item = slot
            .item
            .map_or_else(|| "-".into(), |Item(n)| names.word(Kind::Item, n.into()));
        text += &format!("{i} {item} {}", slot.limit);
        for one in &slot.requirements {
            text += &format!(" {}", words::token(*one, names));
        }
        text.push('\n');
    }
    text
}

#[cfg(test)]
mod tests {
    use super::{read, write};
    use crate::names::Names;
    use locustkeno::Shop;

    fn names() -> Names {
        Names::read("item 7 toothbrush\nflag 40 met_telly\nflag -5 odd\natc 1 hose").unwrap()
    }

    fn shop() -> Shop {
        let mut text = String::from("0 7 3 f40 F-5 A1 i9\n1 8 -4 F2147483647\n");
        (2..20).for_each(|i| text += &format!("{i} - 0\n"));
        text.parse().unwrap()
    }

    #[test]
    fn with_names_and_back() {
        let text = write(&shop(), &names());
        let head = "# slot item limit requirements\n0 toothbrush 3 !flag:met_telly flag:odd atc:hose !item:9\n";
        assert!(text.starts_with(head), "{text}");
        assert_eq!(read(&text, &names()), Ok(shop()));
        assert_eq!(
            read(&write(&shop(), &Names::default()), &Names::default()),
            Ok(shop())
        );
        assert_eq!(read(&shop().to_string(), &names()), Ok(shop()));
    }

    #[test]
    fn lines_are_those_of_the_text() {
        let bad = |text: &str| read(text, &names()).unwrap_err();
        let told = bad("# a\n\n0 7 3\n\n1 comb 3\n");
        assert_eq!(
            (told.line, told.why.as_str()),
            (5, "there is no item with the name `comb`")
        );
        let told = bad("# a\n0 7 3\n# b\n2 toothbrush 0\n");
        assert_eq!(told.line, 4);
        assert!(told.why.starts_with("`2 toothbrush 0`"), "{}", told.why);
        assert_eq!(bad("0 7 3\n1 7 03\n").line, 2);
        assert_eq!(
            bad("0 7 3 time:2").why,
            "`time:2` asks for none of item, atc and flag"
        );
        assert_eq!(
            bad("0 7 3 !flag:x").why,
            "there is no flag with the name `x`"
        );
        for word in ["met_telly", "!f40", "F", "fx"] {
            let why = format!("`{word}` is no requirement, as ");
            assert!(bad(&format!("0 7 3 F1 {word}")).why.starts_with(&why));
        }
        assert_eq!(bad("0 7 3 flag:04").line, 1);
        assert_eq!(bad("0 7 3\n").line, 2);
        assert_eq!(bad("").line, 1);
        assert_eq!(bad(&format!("{}\n20 - 0\n", shop())).line, 22);
    }
}

#[cfg(test)]
mod random {
    use super::{read, write};
    use crate::names::{Kind, Names};
    use locustkeno::{Atc, Item, Requirement, Shop, Slot};

    /// Numbers that are the same ones in every run.
    struct Random(u64);

    impl Random {
        fn below(&mut self, bound: u64) -> u64 {
            let mixed = self.0.wrapping_mul(6_364_136_223_846_793_005);
            self.0 = mixed.wrapping_add(1_442_695_040_888_963_407);
            (self.0 >> 33) % bound
        }

        fn requirement(&mut self) -> Requirement {
            let id = self.below(12) as u16;
            let flag = self.below(60) as i32 - 20;
            match self.below(6) {
                0 => Requirement::HaveItem(Item(id)),
                1 => Requirement::MissingItem(Item(id)),
                2 => Requirement::HaveAtc(Atc(id)),
                3 => Requirement::MissingAtc(Atc(id)),
                4 => Requirement::HaveFlag(flag),
                _ => Requirement::MissingFlag(flag.wrapping_mul(50_000_000)),
            }
        }

        fn slot(&mut self) -> Slot {
            let many = self.below(15);
            Slot {
                item: (self.below(4) > 0).then(|| Item(self.below(12) as u16)),
                limit: self.below(65_536) as u16 as i16,
                requirements: (0..many).map(|_| self.requirement()).collect(),
            }
        }
    }

    /// About half of all small numbers have a name.
    fn names(random: &mut Random) -> Names {
        let mut text = String::new();
        for kind in [Kind::Item, Kind::Atc, Kind::Flag] {
            for number in (0..40).filter(|_| random.below(2) == 0) {
                text += &format!("{} {number} n{number}.{}\n", kind.word(), kind.word());
            }
        }
        Names::read(&text).unwrap()
    }

    #[test]
    fn shops_with_names_and_back() {
        let mut random = Random(35);
        for _ in 0..300 {
            let names = names(&mut random);
            let shop = Shop::with_slots((0..20).map(|_| random.slot()));
            assert_eq!(read(&write(&shop, &names), &names), Ok(shop.clone()));
            assert_eq!(read(&shop.to_string(), &names), Ok(shop));
        }
    }

    /// A text with one sign changed is refused by a line that it has or the one behind, or is a shop that prints and reads back.
    #[test]
    fn damaged_texts() {
        let mut random = Random(53);
        let names = names(&mut random);
        let shop = Shop::with_slots((0..20).map(|_| random.slot()));
        let signs: Vec<char> = write(&shop, &names).chars().collect();
        let mut refused = 0;
        for _ in 0..2_000 {
            let mut damaged = signs.clone();
            let at = random.below(signs.len() as u64) as usize;
            damaged[at] = char::from(random.below(128) as u8);
            let text: String = damaged.into_iter().collect();
            match read(&text, &names) {
                Ok(shop) => assert_eq!(read(&write(&shop, &names), &names), Ok(shop)),
                Err(bad) => {
                    refused += 1;
                    assert!((1..=text.lines().count() + 1).contains(&bad.line), "{text}");
                }
            }
        }
        assert!((500..2_000).contains(&refused), "{refused}");
    }
}
