//! Slots in words: for tables, for the text with names, and what changed between two slots.

use crate::names::{Kind, Names};
use locustkeno::{Atc, Finding, Found, Item, Requirement, Slot};

/// Whether it asks for something missing, of which kind, and which one.
fn parts(requirement: Requirement) -> (bool, Kind, i32) {
    match requirement {
        Requirement::HaveItem(Item(n)) => (false, Kind::Item, n.into()),
        Requirement::MissingItem(Item(n)) => (true, Kind::Item, n.into()),
        Requirement::HaveAtc(Atc(n)) => (false, Kind::Atc, n.into()),
        Requirement::MissingAtc(Atc(n)) => (true, Kind::Atc, n.into()),
        Requirement::HaveFlag(n) => (false, Kind::Flag, n),
        Requirement::MissingFlag(n) => (true, Kind::Flag, n),
    }
}

/// An exclamation mark before what has to be missing.
fn sign(missing: bool) -> &'static str {
    if missing { "!" } else { "" }
}

/// A requirement for a reader: `!flag 40 met_telly`.
pub fn requirement(requirement: Requirement, names: &Names) -> String {
    let (missing, kind, number) = parts(requirement);
    let label = names.label(kind, number);
    format!("{}{} {label}", sign(missing), kind.word())
}

/// A requirement as a word of the text with names: `!flag:met_telly`.
pub fn token(requirement: Requirement, names: &Names) -> String {
    let (missing, kind, number) = parts(requirement);
    let word = names.word(kind, number);
    format!("{}{}:{word}", sign(missing), kind.word())
}

/// An item for a reader: `7 toothbrush`, or `-`.
pub fn item(item: Option<Item>, names: &Names) -> String {
    item.map_or_else(|| "-".into(), |Item(n)| names.label(Kind::Item, n.into()))
}

/// The item of a pair that a run or a preview left; below 0 the slot is hidden.
pub fn left(item: i32, names: &Names) -> String {
    if item < 0 {
        "hidden".into()
    } else {
        names.label(Kind::Item, item)
    }
}

/// The requirements of a slot for a reader.
pub fn requirements(slot: &Slot, names: &Names) -> String {
    let all = slot.requirements.iter();
    let words: Vec<String> = all.map(|one| requirement(*one, names)).collect();
    words.join(", ")
}

/// A slot for a reader: `7 toothbrush, limit 3, if flag 40 met_telly`.
pub fn slot(slot: &Slot, names: &Names) -> String {
    if *slot == Slot::default() {
        return "empty".into();
    }
    let item = match slot.item {
        None => "no item".into(),
        some => item(some, names),
    };
    let mut words = format!("{item}, limit {}", slot.limit);
    if !slot.requirements.is_empty() {
        words += &format!(", if {}", requirements(slot, names));
    }
    words
}

/// A finding as the library says it, and behind it the name of what it is about, if that has one.
pub fn finding(finding: &Finding, names: &Names) -> String {
    let about = match finding.what {
        Found::Contradiction { requirement, .. } | Found::RequiresItself { requirement, .. } => {
            let (_, kind, number) = parts(requirement);
            Some((kind, number))
        }
        Found::FlagOutside { flag, .. } => Some((Kind::Flag, flag)),
        _ => None,
    };
    let name = about.and_then(|(kind, number)| Some((kind, number, names.name(kind, number)?)));
    match name {
        Some((kind, number, name)) => format!("{finding} ({} {number} is {name})", kind.word()),
        None => finding.to_string(),
    }
}

/// What changed from one slot to another, a line each; an entry given twice counts once, in any order.
pub fn changes(old: &Slot, new: &Slot, names: &Names) -> Vec<String> {
    let mut told = Vec::new();
    if old.item != new.item {
        let (was, is) = (item(old.item, names), item(new.item, names));
        told.push(format!("item {was} -> {is}"));
    }
    if old.limit != new.limit {
        told.push(format!("limit {} -> {}", old.limit, new.limit));
    }
    let gone = old.requirements.iter();
    let gone = gone.filter(|one| !new.requirements.contains(one));
    told.extend(gone.map(|one| format!("no longer requires {}", requirement(*one, names))));
    let come = new.requirements.iter();
    let come = come.filter(|one| !old.requirements.contains(one));
    told.extend(come.map(|one| format!("now requires {}", requirement(*one, names))));
    told
}

#[cfg(test)]
mod tests {
    use super::{changes, slot, token};
    use crate::names::Names;
    use locustkeno::Slot;

    fn names() -> Names {
        Names::read("item 7 toothbrush\nflag 40 met_telly").unwrap()
    }

    #[test]
    fn in_words() {
        let given: Slot = "7 3 f40 A1 i2".parse().unwrap();
        let told = "7 toothbrush, limit 3, if !flag 40 met_telly, atc 1, !item 2";
        assert_eq!(slot(&given, &names()), told);
        let tokens: Vec<String> = given
            .requirements
            .iter()
            .map(|r| token(*r, &names()))
            .collect();
        assert_eq!(tokens, ["!flag:met_telly", "atc:1", "!item:2"]);
        assert_eq!(slot(&Slot::default(), &names()), "empty");
        assert_eq!(
            slot(&"- 5 F1".parse().unwrap(), &names()),
            "no item, limit 5, if flag 1"
        );
    }

    #[test]
    fn what_changed() {
        let (old, new) = ("7 3 F1 F2 F2", "- 3 F2 F40");
        let told = changes(&old.parse().unwrap(), &new.parse().unwrap(), &names());
        let due = [
            "item 7 toothbrush -> -",
            "no longer requires flag 1",
            "now requires flag 40 met_telly",
        ];
        assert_eq!(told, due);
        let told = changes(
            &"7 3 F2 F1".parse().unwrap(),
            &"7 3 F1 F2 F1".parse().unwrap(),
            &names(),
        );
        assert_eq!(told, [""; 0]);
    }
}
