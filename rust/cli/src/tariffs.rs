//! Tariffs from a file: `price toothbrush 250`, `others 10`, `discount 100`, one a line.

use crate::lines::{BadLine, Line, lines};
use crate::names::{Kind, Names};
use locustkeno::{Sheet, Tariff};

/// What a file has said so far.
struct Prices<'a> {
    of: Vec<Option<u16>>,
    others: Option<u16>,
    discount: Option<u16>,
    names: &'a Names,
}

/// A number of 16 bits; whether it is a price or a discount is the library's to say (refusal 24).
fn number(word: &str) -> Result<u16, String> {
    word.parse()
        .map_err(|_| format!("`{word}` is no price and no discount"))
}

/// Sets what may be said once.
fn once(place: &mut Option<u16>, word: &str) -> Result<(), String> {
    match place.replace(number(word)?) {
        None => Ok(()),
        Some(_) => Err("was said before".into()),
    }
}

impl Prices<'_> {
    fn add(&mut self, line: &Line) -> Result<(), String> {
        match line.words[..] {
            ["price", item, coins] => {
                let item = self.names.number(Kind::Item, item)?;
                let at: Option<usize> = item.parse().ok();
                let place = at.and_then(|at| self.of.get_mut(at));
                once(
                    place.ok_or_else(|| format!("item {item} is not on the sheet"))?,
                    coins,
                )
            }
            ["others", coins] => once(&mut self.others, coins),
            ["discount", discount] => once(&mut self.discount, discount),
            _ => Err("`price ITEM COINS`, `others COINS` or `discount THOUSANDTHS` is due".into()),
        }
    }
}

/// Reads a tariff: a price for each item of the sheet, by `others` for those that are not named, and a discount, 0 where none is said.
pub fn read(text: &str, sheet: &Sheet, names: &Names) -> Result<Tariff, BadLine> {
    let mut prices = Prices {
        of: vec![None; sheet.items()],
        others: None,
        discount: None,
        names,
    };
    for line in lines(text) {
        prices.add(&line).map_err(|why| line.bad(why))?;
    }
    let others = prices.others;
    let all: Option<Vec<u16>> = prices.of.iter().map(|price| price.or(others)).collect();
    let all = all.ok_or_else(|| BadLine {
        line: text.lines().count() + 1,
        why: "an item has no price: name it, or say `others COINS`".into(),
    })?;
    Ok(Tariff::new(all, prices.discount.unwrap_or(0)))
}

#[cfg(test)]
mod tests {
    use super::read;
    use crate::names::Names;
    use locustkeno::{Item, Sheet, Tariff};

    fn told(text: &str) -> Result<Tariff, (usize, String)> {
        let sheet = Sheet::new(&[None; 4], 0, [0, 1, 2].map(Item));
        let names = Names::read("item 3 comb").unwrap();
        read(text, &sheet, &names).map_err(|bad| (bad.line, bad.why))
    }

    #[test]
    fn prices() {
        let text = "# today\nprice comb 250\nothers 10\nprice 0 5\ndiscount 100\n";
        assert_eq!(told(text), Ok(Tariff::new([5, 10, 10, 250], 100)));
        assert_eq!(told("others 30001"), Ok(Tariff::new([30_001; 4], 0)));
    }

    #[test]
    fn wrong_lines() {
        let bad = |text| told(text).unwrap_err();
        assert_eq!(bad("price comb 1\n").0, 2);
        assert_eq!(bad("price 4 1"), (1, "item 4 is not on the sheet".into()));
        assert_eq!(
            bad("price soap 1").1,
            "there is no item with the name `soap`"
        );
        assert_eq!(bad("others 1\nothers 2"), (2, "was said before".into()));
        assert_eq!(bad("others -1").1, "`-1` is no price and no discount");
        assert_eq!(bad("cost 1").0, 1);
    }
}
