/* A shop compiled, run, read back and previewed through the structs of the header; compiled as C and as C++. Exit status 0: all as due. */
#include "locustkeno.h"

#include <stdio.h>
#include <string.h>

static lk_script script;
static uint8_t image[LK_MOST_IMAGE];
static uint16_t moved[LK_BLOCKS];

static int failed;

static void expect(int holds, const char *what) {
    if (!holds) {
        printf("not so: %s\n", what);
        failed = 1;
    }
}

/* User 0 changes the item of slot 0 and sees nothing, user 1 sees slot 0 and changes nothing. */
static void expect_rights(const lk_sheet *sheet, const lk_shop *start) {
    static lk_rights rights;
    lk_shop shop = *start;
    lk_shop seen;

    lk_rights_give(&rights, 0, 0, LK_CHANGE_ITEM);
    lk_rights_give(&rights, 1, 0, LK_SEE);
    expect(lk_shop_edit_item(sheet, &rights, &shop, 0, 0, 6) == LK_ACCEPTED && shop.items[0] == 6, "an edit of the item");
    expect(lk_shop_edit_item(sheet, &rights, &shop, 0, 0, 8) == LK_BAD_SHOP && shop.items[0] == 6, "8 by the new item");
    expect(lk_shop_edit_limit(sheet, &rights, &shop, 0, 0, 9) == LK_NO_RIGHT, "21 for the limit");
    expect(lk_shop_edit_requirements(sheet, &rights, &shop, 16, 0, shop.codes, 1) == LK_NO_USER, "20 for user 16");
    seen = shop;
    expect(lk_shop_show(&rights, &seen, 1) == LK_ACCEPTED && seen.items[0] == 6 && seen.lens[0] == 1, "user 1 sees slot 0");
    seen = shop;
    expect(lk_shop_show(&rights, &seen, 0) == LK_ACCEPTED && seen.items[0] == -1 && seen.lens[0] == 0, "user 0 sees nothing");
}

/* The file of a stage: the script with a sheet of eight items, and setup block 0; then with an item too few for Timer15. */
static void expect_stage(const lk_sheet *sheet) {
    static lk_stage stage, back;
    static uint8_t file[LK_STAGE_BYTES + 1], again[LK_STAGE_BYTES];
    lk_written written;

    stage.sheet = *sheet;
    stage.script = script;
    written = lk_stage_write(&stage, file, LK_STAGE_BYTES);
    expect(written.refusal == LK_ACCEPTED && file[0] == 8 && file[12] == 2 && file[13] == 0, "a stage written");
    expect(lk_stage_read(&back, file, written.len) == LK_ACCEPTED && back.setup == 0, "a stage read");
    expect(back.sheet.items == 8 && back.sheet.timer15 == 2 && back.script.blocks == script.blocks, "it is the same");
    expect(lk_stage_write(&back, again, written.len).len == written.len && memcmp(file, again, written.len) == 0, "the same file");
    expect(lk_stage_write(&back, again, written.len - 1).refusal == LK_SLICE_SHORT, "16 in a byte less");
    expect(lk_stage_write(&back, again, 13).refusal == LK_SLICE_SHORT, "16 in the heading");
    expect(lk_stage_read(&back, file, written.len - 1) == LK_BAD_IMAGE, "2 where the image is cut");
    expect(lk_stage_read(&back, file, 13) == LK_BAD_IMAGE && back.sheet.items == 0, "2 where the heading is cut");
    expect(lk_stage_read(&back, file, sizeof file) == LK_OVER_LIMIT, "3 for a byte more than a file may have");
    stage.sheet.timer15 = 8;
    expect(lk_stage_write(&stage, file, LK_STAGE_BYTES).refusal == LK_BAD_SHEET, "1 by Timer15");
}

/* The text of a shop read back word for word; one byte less is told by line and reason, and nothing is written. */
static void expect_text(const lk_shop *start) {
    static uint8_t text[LK_TEXT];
    lk_shop shop = LK_EMPTY_SHOP;
    lk_text_read read;
    const uint32_t len = lk_shop_print(start, text);

    expect(len > 12 && memcmp(text, "0 7 3 f40\n1 -", 13) == 0, "a printed shop");
    read = lk_shop_read(text, len - 1, &shop);
    expect(read.reason == LK_TEXT_NO_END && read.line == LK_SLOTS && shop.items[0] == -1, "6 in line 20 without its end");
    read = lk_shop_read(text, len, &shop);
    expect(read.reason == LK_TEXT_READ && read.line == 0, "a shop's text read");
    expect(memcmp(shop.items, start->items, sizeof shop.items) == 0 && memcmp(shop.limits, start->limits, sizeof shop.limits) == 0 &&
               memcmp(shop.codes, start->codes, sizeof shop.codes) == 0 && memcmp(shop.lens, start->lens, sizeof shop.lens) == 0,
           "the same shop");
}

int main(void) {
    static const uint8_t attached[8] = {0};
    static const uint32_t roots[] = {0};
    const lk_sheet sheet = {attached, 8, 0, 0, 1, 2};
    static lk_save save;
    lk_shop shop = LK_EMPTY_SHOP;
    lk_shop read = LK_EMPTY_SHOP;
    lk_ran ran;
    lk_previewed seen;
    lk_written written;
    static const uint16_t prices[8] = {1, 1, 1, 1, 1, 1, 1, 1};
    static lk_lines bill;
    static lk_checked told;

    lk_shop_slot(&shop, 0, 7, 3);
    expect(lk_shop_require(&shop, 0, lk_requirement(LK_MISSING_FLAG, 40)), "room for a requirement");
    expect_text(&shop);
    told = lk_shop_check(&sheet, &shop);
    expect(told.refusal == LK_ACCEPTED && told.slots[0].verdict == LK_FAITHFUL && told.slots[0].limit == 3, "what is printed is what runs");
    lk_script_new(&script);
    expect(lk_script_compile(&sheet, &script, 0, &shop, LK_DISC) == LK_ACCEPTED, "compiled");
    expect(script.blocks == 26 && script.compiles == 1, "25 blocks appended");
    expect(lk_script_compile(&sheet, &script, 1, &shop, LK_DISC) == LK_BORN_LATER, "17 at an appended block");
    save.items[7] = 1;
    seen = lk_shop_preview(&sheet, &shop, &save);
    ran = lk_script_run(&sheet, &script, 0, &save, LK_BUDGET);
    expect(ran.refusal == LK_ACCEPTED && ran.entered == 24, "run of 24 blocks");
    expect(save.vars[LK_ITEM_FIRST] == 7 && save.vars[LK_COUNT_FIRST] == 2, "two are left");
    expect(seen.refusal == LK_ACCEPTED && seen.items[0] == 7 && seen.counts[0] == 2, "the preview agrees");
    expect(lk_save_bill(&sheet, &save, prices, 8, 500, save.vars + LK_COUNT_FIRST, &bill) == LK_ACCEPTED, "billed");
    expect(bill.total == 1 && bill.items[0] == -1 && bill.slots[0] == 1, "a line for each slot, hidden ones first");
    expect(bill.items[19] == 7 && bill.slots[19] == 0 && bill.coins[19] == 1, "two pieces at half a coin");
    expect(lk_save_bill(&sheet, &save, prices, 7, 500, save.vars + LK_COUNT_FIRST, &bill) == LK_BAD_TARIFF, "24 for a price too few");
    expect(lk_script_parse(&sheet, &script, 0, &read) == LK_ACCEPTED, "parsed");
    expect(memcmp(read.items, shop.items, sizeof read.items) == 0 && memcmp(read.limits, shop.limits, sizeof read.limits) == 0,
           "items and limits read back");
    expect(memcmp(read.codes, shop.codes, sizeof read.codes) == 0 && memcmp(read.lens, shop.lens, sizeof read.lens) == 0,
           "requirements read back");
    expect(lk_script_reclaim(&script, roots, 1, moved) == LK_ACCEPTED && moved[0] == 1, "reclaimed");
    written = lk_script_write(&script, image, sizeof image);
    expect(written.refusal == LK_ACCEPTED && written.len > 0, "written");
    expect(lk_script_read(&script, image, written.len) == LK_ACCEPTED && script.blocks == 26, "read again");
    expect(lk_script_write(&script, image, written.len - 1).refusal == LK_SLICE_SHORT, "16 in a byte less");
    expect(strcmp(lk_message(LK_NO_ROOM), "the compile would pass a limit of the script") == 0, "a sentence for 9");
    expect_rights(&sheet, &shop);
    expect_stage(&sheet);
    return failed;
}
