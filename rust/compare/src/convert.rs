//! The oracle's plain records as those of the library.

use locustkeno::{Atc, Item, Requirement, Sheet, Shop, ShopArrays, Slot};
use oracle::plain;

/// The library's sheet.
pub fn sheet(sheet: &plain::Sheet) -> Sheet {
    let atc_of: Vec<Option<Atc>> = sheet.atc_of.iter().map(|a| a.map(Atc)).collect();
    Sheet::new(&atc_of, sheet.atcs, sheet.timers.map(Item))
}

fn requirement(requirement: plain::Requirement) -> Requirement {
    match requirement {
        plain::Requirement::HaveItem(n) => Requirement::HaveItem(Item(n)),
        plain::Requirement::MissingItem(n) => Requirement::MissingItem(Item(n)),
        plain::Requirement::HaveAtc(n) => Requirement::HaveAtc(Atc(n)),
        plain::Requirement::MissingAtc(n) => Requirement::MissingAtc(Atc(n)),
        plain::Requirement::HaveFlag(n) => Requirement::HaveFlag(n),
        plain::Requirement::MissingFlag(n) => Requirement::MissingFlag(n),
    }
}

/// The library's slot.
pub fn slot(slot: &plain::Slot) -> Slot {
    Slot {
        item: slot.item.map(Item),
        limit: slot.limit,
        requirements: slot.requirements.iter().map(|r| requirement(*r)).collect(),
    }
}

/// A shop's words, which tell more than its equality does, and its slots in words, entry by entry.
pub fn exact(shop: &Shop) -> (ShopArrays, String) {
    (shop.arrays().clone(), format!("{shop:?}"))
}
