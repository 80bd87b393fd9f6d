//! The page to print and sign.

use crate::commands::version;
use crate::html::{element, escape, list, table};
use crate::names::Names;
use crate::pressing::{Pressing, Verdict};
use crate::sha256::sha256;
use crate::words;
use locustkeno::{Preview, Refused, Slot};

/// Black on white, on A4 and on letter; cells wrap, and no row is torn.
const STYLE: &str = "
@page { margin: 15mm; }
body { max-width: 180mm; margin: 0 auto; color: #000; background: #fff; font: 10pt/1.35 sans-serif; }
h1 { font-size: 15pt; margin: 0 0 3mm; overflow-wrap: anywhere; }
h2 { font-size: 12pt; margin: 5mm 0 2mm; break-after: avoid; }
table { width: 100%; table-layout: fixed; border-collapse: collapse; margin: 0 0 3mm; }
th, td { border: 1px solid #000; padding: 0.7mm 1.5mm; text-align: left; vertical-align: top; overflow-wrap: anywhere; }
th { border-bottom-width: 2px; }
thead { display: table-header-group; }
tr, li { break-inside: avoid; }
p, li { overflow-wrap: anywhere; }
.no { border: 3px solid #000; padding: 2mm; font-weight: bold; }
.bytes td + td { font: 9pt/1.5 monospace; }
.sign { break-inside: avoid; }
.sign td { height: 14mm; }
";

/// A save that the page is to show.
pub struct Previewed {
    pub name: String,
    /// What it holds.
    pub settings: Vec<String>,
    /// What the shop means for it, or that its run is stopped.
    pub seen: Result<Preview, Refused>,
}

impl Previewed {
    /// The save's name and all that it holds.
    fn line(&self) -> String {
        let held = match &self.settings[..] {
            [] => "nothing".into(),
            settings => settings.join(", "),
        };
        format!("{}: {held}", self.name)
    }
}

/// What a slot is under a save.
fn cell(seen: &Result<Preview, Refused>, slot: usize) -> String {
    match seen.map(|seen| seen.pairs[slot]) {
        Err(refused) => format!("refused {}", refused.number()),
        Ok((item, _)) if item < 0 => "hidden".into(),
        Ok((_, count)) => count.to_string(),
    }
}

/// All that is on the page.
pub struct Page<'a> {
    pub new: &'a Pressing<'a>,
    /// The last pressing and what changed since.
    pub old: Option<(&'a Pressing<'a>, Vec<String>)>,
    pub verdict: Verdict,
    pub previews: Vec<Previewed>,
    pub names: &'a Names,
}

/// How many saves stand side by side.
const ABREAST: usize = 4;

/// Where the check says no.
const NO: &str = "<p class=\"no\">Do not sign: what is printed may not be what runs.</p>\n";

/// Where it does not.
const YES: &str = "<p>What is printed is what runs.</p>\n";

impl Page<'_> {
    /// Which bytes this page is about.
    fn bytes(&self) -> Result<String, Refused> {
        let image = sha256(&self.new.stage.script.write()?);
        let mut rows = vec![
            ("file", self.new.file.to_owned()),
            ("SHA-256 of the file", sha256(&self.new.bytes)),
            ("SHA-256 of the image", image),
            ("setup block", self.new.stage.setup.to_string()),
            ("made by", version()),
        ];
        if let Some((old, _)) = &self.old {
            rows.push(("last pressing", old.file.to_owned()));
            rows.push(("SHA-256 of the last", sha256(&old.bytes)));
        }
        let rows: Vec<Vec<String>> = rows
            .into_iter()
            .map(|(what, is)| vec![what.into(), is])
            .collect();
        let rows = table(&[("what", 25), ("is", 75)], &rows);
        Ok(format!("<div class=\"bytes\">\n{rows}</div>\n"))
    }

    /// The slots; those that changed are marked by a word, which paper without colour shows as well.
    fn slots(&self) -> String {
        let slots = self.new.shop.slots();
        let before = self.old.as_ref().map(|(old, _)| old.shop.slots());
        let row = |(i, slot): (usize, &Slot)| {
            let was = before.as_ref().map(|before| &before[i]);
            let changed = was.is_some_and(|was| !words::changes(was, slot, self.names).is_empty());
            vec![
                i.to_string(),
                words::item(slot.item, self.names),
                slot.limit.to_string(),
                words::requirements(slot, self.names),
                if changed { "changed" } else { "" }.into(),
            ]
        };
        let rows: Vec<Vec<String>> = slots.iter().enumerate().map(row).collect();
        let heading = [
            ("slot", 7),
            ("item", 25),
            ("limit", 8),
            ("requirements", 46),
            ("since the last", 14),
        ];
        table(&heading, &rows)
    }

    fn changes(&self) -> String {
        match &self.old {
            Some((_, changes)) => list(changes, "No slot changed."),
            None => list(&[], "No last pressing was given."),
        }
    }

    /// Some saves side by side, a row for each slot with an item.
    fn abreast(&self, previews: &[Previewed]) -> String {
        let mut heading = vec![("slot", 7), ("item", 25)];
        heading.extend(previews.iter().map(|one| (one.name.as_str(), 68 / ABREAST)));
        let slots = self.new.shop.slots();
        let filled = slots
            .iter()
            .enumerate()
            .filter(|(_, slot)| slot.item.is_some());
        let rows = filled.map(|(i, slot)| {
            let mut row = vec![i.to_string(), words::item(slot.item, self.names)];
            row.extend(previews.iter().map(|one| cell(&one.seen, i)));
            row
        });
        table(&heading, &rows.collect::<Vec<_>>())
    }

    fn previews(&self) -> String {
        if self.previews.is_empty() {
            return list(&[], "No save was given.");
        }
        let parts = self.previews.chunks(ABREAST);
        let tables: String = parts.map(|part| self.abreast(part)).collect();
        let held: Vec<String> = self.previews.iter().map(Previewed::line).collect();
        tables + &list(&held, "")
    }

    fn findings(&self) -> String {
        list(&self.verdict.lines(self.names), "Nothing was found.")
    }

    /// What the check says, for the top of the page and for the place of the signature, which may be on another sheet.
    fn says(&self) -> &'static str {
        if self.verdict.says_no() { NO } else { YES }
    }

    /// The whole page.
    pub fn text(&self) -> Result<String, Refused> {
        let title = format!("Shop of {}", self.new.file);
        let parts = [
            ("What is signed", self.bytes()?),
            ("Slots", self.slots()),
            ("Changed since the last pressing", self.changes()),
            ("Under these saves", self.previews()),
            ("Findings", self.findings()),
        ];
        let parts = parts
            .map(|(head, part)| element("h2", head) + "\n" + &part)
            .concat();
        let blank = vec![vec![String::new(); 3]];
        let sign = table(&[("name", 35), ("date", 20), ("signature", 45)], &blank);
        Ok(format!(
            "<!DOCTYPE html>\n<html lang=\"en\">\n<head>\n<meta charset=\"utf-8\">\n\
            <title>{title}</title>\n<style>{STYLE}</style>\n</head>\n<body>\n\
            <h1>{title}</h1>\n{says}{parts}<div class=\"sign\">\n<h2>Signed</h2>\n{says}{sign}</div>\n</body>\n</html>\n",
            title = escape(&title),
            says = self.says(),
        ))
    }
}
