//! What a user of unplug's `shop` writes, with the sheet, the loader and the setup block added and nothing else.

use locustkeno::{Atc, BlockId, Item, Loader, NUM_SLOTS, Requirement, Script, Sheet, Shop, Slot};
use std::collections::HashSet;
use std::error::Error;

type Done = Result<(), Box<dyn Error>>;

const SETUP: BlockId = BlockId::new(0);

/// Ten items, of which item 9 has the second of two attachments.
fn sheet() -> Sheet {
    let mut atc_of = [None; 10];
    atc_of[9] = Some(Atc(1));
    Sheet::new(&atc_of, 2, [Item(0), Item(1), Item(2)])
}

/// A shop as a tool reads it from its own file.
fn imported() -> Shop {
    let flags = [12, 3, 7];
    let slots = (3..9).map(|id| Slot {
        item: Some(Item(id)),
        limit: 5,
        requirements: flags.iter().map(|f| Requirement::HaveFlag(*f)).collect(),
    });
    Shop::with_slots(slots)
}

#[test]
fn an_empty_shop() {
    let shop = Shop::new();
    assert_eq!(shop, Shop::default());
    assert_eq!(shop.slots().len(), NUM_SLOTS);
    assert!(shop.slots().iter().all(|slot| *slot == Slot::new()));
    assert!(shop.slots()[0].requirements.is_empty());
}

#[test]
fn compiled_and_parsed() -> Done {
    let mut script = Script::new();
    let shop = imported();
    shop.compile(&mut script, &sheet(), Loader::Disc, SETUP)?;
    assert_eq!(Shop::parse(&script, &sheet(), SETUP)?, shop);
    Ok(())
}

/// The recompile of unplug's users: parse, change slots in place, compile.
#[test]
fn changed_in_place() -> Done {
    let mut script = Script::new();
    imported().compile(&mut script, &sheet(), Loader::Disc, SETUP)?;
    let mut shop = Shop::parse(&script, &sheet(), SETUP)?;
    for slot in shop.slots_mut() {
        if slot.item == Some(Item(4)) {
            slot.limit = 10;
            slot.requirements.insert(Requirement::MissingItem(Item(5)));
            slot.requirements.remove(&Requirement::HaveFlag(3));
        }
    }
    shop.slots_mut()[19] = Slot {
        item: Some(Item(9)),
        limit: 1,
        ..Slot::new()
    };
    shop.slots_mut().swap(0, 10);
    shop.compile(&mut script, &sheet(), Loader::Disc, SETUP)?;
    let read = Shop::parse(&script, &sheet(), SETUP)?;
    assert_eq!(read, shop);
    assert_eq!(
        (&read.slots()[0], read.slots()[10].item),
        (&Slot::new(), Some(Item(3)))
    );
    let slot = &read.slots()[1];
    assert_eq!(slot.limit, 10);
    let expected = HashSet::from([
        Requirement::HaveFlag(12),
        Requirement::HaveFlag(7),
        Requirement::MissingItem(Item(5)),
    ]);
    assert_eq!(slot.requirements, expected);
    Ok(())
}

/// A slot's requirements are equal however they were put in.
#[test]
fn requirements_are_a_set() {
    let of = |entries: &[Requirement]| {
        let mut slot = Slot::new();
        slot.requirements.extend(entries.iter().copied());
        slot
    };
    let (f1, f2) = (Requirement::HaveFlag(1), Requirement::HaveFlag(2));
    assert_eq!(of(&[f2, f1]), of(&[f1, f2]));
    assert_eq!(of(&[f2, f1, f2]), of(&[f1, f2]));
    assert_ne!(of(&[f2, f1]), of(&[f1]));
    assert_ne!(of(&[f1]), of(&[f2]));
    assert_eq!(
        Shop::with_slots([of(&[f2, f1])]),
        Shop::with_slots([of(&[f1, f2])])
    );
    let mut slot = of(&[f1]);
    assert!(!slot.requirements.insert(f1));
    assert!(slot.requirements.contains(&f1) && !slot.requirements.remove(&f2));
    let set: HashSet<Requirement> = slot.requirements.iter().copied().collect();
    slot.requirements = set.into();
    assert_eq!(slot.requirements.len(), 1);
}

/// Contradicting requirements are dropped with `negate`, as unplug's parser does.
#[test]
fn negated() {
    let item = Requirement::HaveItem(Item(3));
    let atc = Requirement::MissingAtc(Atc(1));
    assert_eq!(item.negate(), Requirement::MissingItem(Item(3)));
    assert_eq!(atc.negate(), Requirement::HaveAtc(Atc(1)));
    let flag = Requirement::MissingFlag(4);
    for one in [item, atc, flag] {
        assert_ne!(one.negate(), one);
        assert_eq!(one.negate().negate(), one);
    }
    let mut slot = Slot::new();
    slot.requirements.extend([item, flag, item.negate(), atc]);
    let opposite: HashSet<_> = slot.requirements.iter().map(|r| r.negate()).collect();
    slot.requirements.retain(|r| !opposite.contains(r));
    assert_eq!(slot.requirements, [atc, flag]);
}

/// What an export writes: requirements in a fixed order.
#[test]
fn exported() {
    let shop = imported();
    let mut lines = Vec::new();
    for (index, slot) in shop.slots().iter().enumerate() {
        let Some(item) = slot.item else { continue };
        let mut requirements: Vec<_> = slot.requirements.iter().copied().collect();
        requirements.sort_unstable();
        lines.push(format!("{index}: {item:?} {} {requirements:?}", slot.limit));
    }
    assert_eq!(lines.len(), 6);
    assert_eq!(
        lines[0],
        "0: Item(3) 5 [HaveFlag(3), HaveFlag(7), HaveFlag(12)]"
    );
}

/// Where there is no shop, `?` hands on an error with a sentence.
#[test]
fn errors() {
    let read = || -> Result<Shop, Box<dyn Error>> {
        Ok(Shop::parse(
            &Script::new(),
            &sheet(),
            BlockId::try_from(7usize)?,
        )?)
    };
    let error = read().unwrap_err().to_string();
    assert_eq!(error, "the number given is not a block (refusal 6)");
}
