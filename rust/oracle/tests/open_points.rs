//! The open points of document 01: whether the original agrees with the reading that was taken.
//!
//! The name of each test says which it is. In the bytes, `P` is a sheet of three items and setup 0.

mod paper;

use oracle::calls;
use oracle::image::Refusal;
use oracle::plain::{Block, Requirement, Slot};
use oracle::rules::{self, InUse};
use oracle::slots;
use paper::{bytes, one_return, only_first, printed, sheet, slot};

const P: &str = "03 00 00 00 00 00 01 02 00";

/// What document 01's reading prints and what the original alone prints, first lines only.
fn both(rest: &str) -> (String, String) {
    let input = bytes(&format!("{P} {rest}"));
    let read = slots::read(&input).unwrap();
    let alone = calls::parse(&read.sheet, &read.script, read.setup as usize).unwrap();
    let first = |text: String| text.lines().next().unwrap().to_string();
    (first(printed(&input)), first(slots::print(&Ok(alone))))
}

fn agree(rest: &str, line: &str) {
    assert_eq!(both(rest), (line.to_string(), line.to_string()));
}

#[test]
fn differs_an_imm32_id_is_cut_by_the_original() {
    let item = "02 01 01 03 0F 0C 80 80 08 00 02 00 01 01 02 00 0B D8 09 0B 00 00 00";
    assert_eq!(both(item), ("0 - 0".to_string(), "0 - 0 i0".to_string()));
}

#[test]
fn differs_an_imm32_attachment_id_is_cut_by_the_original() {
    // One attachment; the setup tests `atc[65536]` and goes on to a hiding block.
    let input = bytes(
        "03 01 00 00 00 00 01 02 00 02 01 01 03 10 0C 80 80 08 00 02 00 01 01 02 00 0B D8 09 0B 00 00 00",
    );
    assert_eq!(printed(&input), only_first("0 - 0"));
    let read = slots::read(&input).unwrap();
    let alone = calls::parse(&read.sheet, &read.script, 0).unwrap();
    assert_eq!(alone[0].requirements, [Requirement::MissingAtc(0)]);
}

#[test]
fn agrees_a_written_item_id_is_cut() {
    agree(
        "01 01 02 02 00 0B B0 09 0C 82 80 08 02 00 0B D8 09 0B 02 00 00",
        "0 1 1",
    );
}

#[test]
fn differs_a_number_past_the_last_block_is_linked_by_the_original() {
    for setup in 1..=21 {
        let mut script = one_return();
        assert_eq!(calls::compile(&sheet(), &mut script, setup, &[]), Ok(()));
        assert_eq!(script.blocks.len(), 22);
        let refused = InUse::new(one_return()).compile(&sheet(), setup, &[]);
        assert_eq!(refused, Err(Refusal(6)));
    }
    assert!(calls::compile(&sheet(), &mut one_return(), 22, &[]).is_err());
}

#[test]
fn differs_a_block_not_code_gets_blocks_pushed_by_the_original() {
    for block in [Block::Placeholder, Block::Data] {
        let mut script = one_return();
        script.blocks.push(block);
        let mut in_use = InUse::new(script.clone());
        assert_eq!(in_use.compile(&sheet(), 1, &[]), Err(Refusal(7)));
        assert_eq!(in_use.script, script);
        assert!(calls::compile(&sheet(), &mut script, 1, &[]).is_err());
        assert_eq!(script.blocks.len(), 23);
    }
}

#[test]
fn differs_an_appended_block_is_linked_by_the_original() {
    let mut in_use = InUse::new(one_return());
    assert_eq!(in_use.compile(&sheet(), 0, &[]), Ok(()));
    let mut script = in_use.script.clone();
    // 17 comes before 8 (document 02, A.2).
    for shop in [vec![], vec![slot(99, 1, &[])]] {
        assert_eq!(in_use.compile(&sheet(), 1, &shop), Err(Refusal(17)));
    }
    assert_eq!(in_use.script, script);
    assert_eq!(calls::compile(&sheet(), &mut script, 1, &[]), Ok(()));
    assert_eq!(script.blocks.len(), 43);
}

#[test]
fn agrees_contradictions_drop_within_one_condition_only() {
    agree(
        "03 01 01 03 0D 0B 02 00 02 03 01 01 02 00 0B D8 09 0B 00 00 00 01 01 02 00 0B D8 09 0B 00 00 00",
        "0 - 0 F1 f1",
    );
}

#[test]
fn agrees_an_unreadable_value_leaves_the_earlier_one() {
    agree(
        "01 01 03 02 00 0B B0 09 0B 02 02 00 0B D8 09 0B 0A 02 00 0B D8 09 12 00 00",
        "0 1 5",
    );
}

#[test]
fn agrees_not_under_a_comparison_is_not_looked_into() {
    let hidden = "00 02 00 01 01 02 00 0B D8 09 0B 00 00 00";
    agree(
        &format!("02 01 01 03 01 06 0D 0B 02 0B 00 {hidden}"),
        "0 - 0",
    );
    // The hiding block adds the negation of HaveFlag 1.
    agree(
        &format!("02 01 01 03 00 00 0D 0B 02 0B 00 0B 00 {hidden}"),
        "0 - 0 f1",
    );
    // 0 counts only on the right.
    agree(&format!("02 01 01 03 01 0B 00 0D 0B 02 {hidden}"), "0 - 0");
}

#[test]
fn agrees_the_parser_follows_next_and_else() {
    // The If names block 0 as its else target, the block has block 1 as its else.
    agree(
        "03 01 01 03 0D 0B 02 00 03 02 01 01 02 00 0B D8 09 0B 00 00 00 01 00 00 00",
        "0 - 0 F1",
    );
}

#[test]
fn agrees_at_limit_1_an_attachment_item_keeps_its_own_item_test() {
    let entries = [Requirement::HaveItem(0), Requirement::HaveAtc(0)];
    let mut script = one_return();
    calls::compile(&sheet(), &mut script, 0, &[slot(0, 1, &entries)]).unwrap();
    let read = calls::parse(&sheet(), &script, 0).unwrap();
    assert_eq!(read[0], slot(0, 1, &entries[..1]));
}

#[test]
fn agrees_an_itemless_slot_loses_its_requirements() {
    let mut script = one_return();
    let itemless = Slot {
        requirements: vec![Requirement::HaveFlag(1)],
        ..Slot::default()
    };
    calls::compile(&sheet(), &mut script, 0, &[itemless]).unwrap();
    assert_eq!(
        calls::parse(&sheet(), &script, 0).unwrap(),
        vec![Slot::default(); 20]
    );
}

#[test]
fn by_document_01_equal_timers_are_refusal_1() {
    assert_eq!(printed(&bytes("03 00 00 00 00 01 01")), "refused 1\n");
    assert_eq!(printed(&bytes("03 00 00 00 00 01")), "refused 2\n");
}

#[test]
fn by_document_01_refusal_8_judges_an_itemless_slot() {
    let itemless = Slot {
        requirements: vec![Requirement::HaveItem(8)],
        ..Slot::default()
    };
    assert_eq!(rules::check_shop(&sheet(), &[itemless]), Err(Refusal(8)));
}

#[test]
fn by_document_01_of_10_and_11_the_first_met() {
    // Block 0 hides under 15 flags (or 14) and goes on to a placeholder.
    let chain = |flags: usize| {
        let tests: String = (0..flags)
            .map(|f| format!(" 0D 0B {:02X}", 2 * f))
            .collect();
        let ands = "09 ".repeat(flags - 1);
        format!("{P} 03 01 01 03 {ands} {tests} 00 02 00 01 01 02 00 0B D8 09 0B 00 03 00 00")
    };
    assert_eq!(printed(&bytes(&chain(15))), "refused 11\n");
    assert_eq!(printed(&bytes(&chain(14))), "refused 10\n");
}

#[test]
fn by_document_01_a_list_keeps_what_an_emptied_block_held() {
    let mut script = one_return();
    let Block::Code(code) = &mut script.blocks[0] else {
        unreachable!()
    };
    // 41 commands are added by each of two empty shops.
    code.commands = vec![oracle::plain::Command::Other; 16_384 - 82];
    let mut in_use = InUse::new(script);
    assert_eq!(in_use.compile(&sheet(), 0, &[]), Ok(()));
    assert_eq!(in_use.compile(&sheet(), 0, &[]), Ok(()));
    assert_eq!(in_use.compile(&sheet(), 0, &[]), Err(Refusal(9)));
}
