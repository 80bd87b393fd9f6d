//! The slots of a shop in place: whatever is changed by hand or by the library, both forms of it are the same shop.

use locustkeno::{
    Content, ENTRIES, Edit, Item, Loader, Refusal, Requirement, Right, Rights, Save, Script, Sheet,
    Shop, Slot,
};

fn sheet() -> Sheet {
    Sheet::new(&[None; 8], 0, [Item(0), Item(1), Item(2)])
}

fn flags(count: i32) -> Slot {
    Slot {
        item: Some(Item(7)),
        limit: 3,
        requirements: (0..count).map(Requirement::HaveFlag).collect(),
    }
}

#[test]
fn the_library_sees_each_change() {
    let mut shop = Shop::new();
    let save = Save::new(&sheet()).with_item(Item(7), 1);
    for limit in [3, 5, 9] {
        let slot = &mut shop.slots_mut()[4];
        (slot.item, slot.limit) = (Some(Item(7)), limit);
        let seen = shop.preview(&sheet(), &save).unwrap();
        assert_eq!(seen.pairs[4], (7, i32::from(limit) - 1));
        assert_eq!(shop.arrays().limits[4], limit);
    }
    shop.slots_mut()[4] = Slot::new();
    assert_eq!(shop.arrays(), Shop::new().arrays());
}

/// To look at a shop, also to change it and leave it, changes nothing: one that is refused stays refused.
#[test]
fn over_fourteen_entries_stay() {
    let many = flags(300);
    let mut shop = Shop::with_slots([many.clone()]);
    assert_eq!(shop.slots()[0].requirements.len(), 300);
    assert_eq!(shop.slots_mut()[0], many);
    assert_eq!(shop.check(&sheet()), Err(Refusal::BadShop.into()));
    // Another slot, and another field of this one, are edited.
    let mut rights = Rights::default();
    for slot in [0, 1] {
        rights.give(0, slot, Right::ChangeLimit);
        rights.give(0, slot, Right::See);
        let content = Content::Limit(9);
        shop.edit(&sheet(), &rights, 0, &Edit { slot, content })
            .unwrap();
    }
    assert_eq!((shop.slots()[0].limit, shop.slots()[1].limit), (9, 9));
    assert_eq!(*shop.slots()[0].requirements, *many.requirements);
    let shown = shop.shown_to(&rights, 0).unwrap();
    assert_eq!(*shown.slots()[0].requirements, *many.requirements);
    assert_eq!(shop.check(&sheet()), Err(Refusal::BadShop.into()));
    let slot = &mut shop.slots_mut()[0];
    slot.requirements.truncate(ENTRIES);
    assert!(shop.check(&sheet()).is_ok());
}

/// Repeats count as entries, also where they come by `push` and make no other set.
#[test]
fn repeats_are_entries() {
    let mut shop = Shop::with_slots([flags(14)]);
    let mut script = Script::new();
    assert_eq!(shop.compile(&mut script, &sheet(), Loader::Disc, 0), Ok(()));
    let before = shop.clone();
    shop.slots_mut()[0]
        .requirements
        .push(Requirement::HaveFlag(0));
    assert_eq!(shop, before);
    let again = shop.compile(&mut script, &sheet(), Loader::Disc, 0);
    assert_eq!(again, Err(Refusal::BadShop.into()));
    assert!(
        !shop.slots_mut()[0]
            .requirements
            .insert(Requirement::HaveFlag(1))
    );
    assert_eq!(shop.slots()[0].requirements.len(), 15);
}

/// An edit by the library and one by hand, by turns.
#[test]
fn edits_by_turns() {
    let mut rights = Rights::default();
    for right in [Right::ChangeItem, Right::ChangeRequirements] {
        rights.give(2, 0, right);
    }
    let edit = |content| Edit { slot: 0, content };
    let mut shop = Shop::new();
    let item = edit(Content::Item(Some(Item(5))));
    shop.edit(&sheet(), &rights, 2, &item).unwrap();
    shop.slots_mut()[0].limit = 4;
    let given = [2, 1, 1].map(Requirement::HaveFlag);
    let requirements = edit(Content::Requirements(given.into()));
    shop.edit(&sheet(), &rights, 2, &requirements).unwrap();
    let slot = &shop.slots()[0];
    assert_eq!((slot.item, slot.limit), (Some(Item(5)), 4));
    assert_eq!(*slot.requirements, given);
    shop.slots_mut()[0].requirements.clear();
    let item = edit(Content::Item(None));
    shop.edit(&sheet(), &rights, 2, &item).unwrap();
    let left = Slot {
        limit: 4,
        ..Slot::new()
    };
    assert_eq!(shop.slots()[0], left);
    assert_eq!(shop.arrays(), Shop::with_slots([left]).arrays());
}

/// One shop may be compiled by several threads, each the first to ask for its arrays.
#[test]
fn shared_by_threads() {
    let mut shop = Shop::new();
    shop.slots_mut()[0] = flags(3);
    std::thread::scope(|scope| {
        for _ in 0..4 {
            scope.spawn(|| {
                let mut script = Script::new();
                shop.compile(&mut script, &sheet(), Loader::Disc, 0)
                    .unwrap();
                assert_eq!(Shop::parse(&script, &sheet(), 0).unwrap(), shop);
            });
        }
    });
}

#[test]
#[should_panic(expected = "slot 20 is none of a shop's 20")]
fn no_pair_past_the_last() {
    let _ = Save::new(&sheet()).pair(20);
}

#[test]
#[should_panic(expected = "flag 2048 is none of the save's 2048")]
fn no_flag_past_the_last() {
    let _ = Save::new(&sheet()).with_flag(2_048);
}
