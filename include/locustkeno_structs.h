/* The calls of locustkeno.h over plain structs: what travels together is one struct. Everything here is static inline and only hands
 * memory over; no call allocates. locustkeno.h includes this file. */
#ifndef LOCUSTKENO_STRUCTS_H
#define LOCUSTKENO_STRUCTS_H

#ifdef __cplusplus
extern "C" {
#endif

#define LK_VERSION "0.2.0"

/* What a save has, what a sheet may have, the blocks that a compiled shop's run enters at most, and the bytes that every image fits in. */
#define LK_FLAGS 2048
#define LK_TIMES 8
#define LK_VARIABLES 1024
#define LK_MOST_ATCS 64
#define LK_BUDGET 82
#define LK_MOST_IMAGE 360453

/* The variables from which on a slot's item and count are kept. */
#define LK_ITEM_FIRST 600
#define LK_COUNT_FIRST 620

/* Refusals by name; docs/REFUSALS.md says what to do about each. */
enum {
    LK_ACCEPTED = 0,
    LK_BAD_SHEET = 1,
    LK_BAD_IMAGE = 2,
    LK_OVER_LIMIT = 3,
    LK_TOO_DEEP = 4,
    LK_NO_SUCH_LINK = 5,
    LK_NOT_BLOCK = 6,
    LK_NOT_CODE = 7,
    LK_BAD_SHOP = 8,
    LK_NO_ROOM = 9,
    LK_PARSE_NOT_CODE = 10,
    LK_PARSE_TOO_MANY = 11,
    LK_BAD_SAVE = 12,
    LK_MET_OTHER = 13,
    LK_NO_NEXT = 14,
    LK_BUDGET_SPENT = 15,
    LK_SLICE_SHORT = 16,
    LK_BORN_LATER = 17,
    LK_BAD_ROOTS = 18,
    LK_DEMO_FULL = 19,
    LK_NO_USER = 20,
    LK_NO_RIGHT = 21,
    LK_BAD_WALK = 22,
    LK_NO_FLAG = 23,
    LK_BAD_TARIFF = 24,
    LK_BAD_BASKET = 25,
    LK_TOO_MANY_WISHES = 26,
    LK_NO_SUCH_WISH = 27,
    LK_BAD_MONEY = 28
};

/* A sentence for a refusal, "accepted" for 0. */
static inline const char *lk_message(unsigned refusal) {
    static const char *const sentences[] = {
        "accepted",
        "the sheet breaks a range",
        "the image is cut short, has a bad number or an unknown code, or bytes are left over",
        "the script passes a limit",
        "an expression is deeper than 64",
        "a block is named that is not there",
        "the number given is not a block",
        "the block given is not code",
        "the shop has an id outside the sheet, or over 14 entries in a slot",
        "the compile would pass a limit of the script",
        "the parse reaches a block that is not code",
        "the parse reads a 15th requirement for a slot",
        "the save has a wrong length or value",
        "the run meets a block that is not code, or an unknown command, target or expression",
        "the run needs a next block and there is none",
        "the run's budget is spent",
        "the slice is too short for the image",
        "the block given was appended by a compile",
        "over 256 roots are given, or one that is not a block",
        "the compile would pass a limit of the demo loader",
        "there is no such user",
        "there is no such slot, or the user may not change that field of it",
        "there are no saves or over 64, or a block that is led to has a link that does not go to a lower number",
        "the run would read a flag outside 0 to 2,047",
        "a price or the discount is out of range, or there is not exactly one price for each item",
        "a number of the basket is below 0, above its count, or above 0 where the item is not on the sheet",
        "over 1,000 wishes are given",
        "a wished slot is not there",
        "the money is above 1,000,000 coins",
    };
    return refusal < sizeof sentences / sizeof sentences[0] ? sentences[refusal] : "no refusal";
}

/* For each of items ids its atc + 1, or 0; the count of atcs; the items of the three timers. */
typedef struct {
    const uint8_t *attached;
    size_t items;
    uint16_t atcs, timer5, timer10, timer15;
} lk_sheet;

/* A script in memory with its kept counts, birth marks and count of accepted compiles: over half a megabyte, so no local variable. */
typedef struct {
    uint16_t ws[LK_NODE_WORDS];
    int32_t val[LK_VALUES];
    uint16_t cw[LK_COMMAND_WORDS];
    uint16_t bw[LK_BLOCK_WORDS];
    uint32_t births[LK_BLOCKS];
    uint16_t nodes, commands, blocks;
    uint32_t compiles;
} lk_script;

/* Twenty slots. A zeroed one has item 0 in every slot: begin with LK_EMPTY_SHOP. */
typedef struct {
    int32_t items[LK_SLOTS];
    int16_t limits[LK_SLOTS];
    uint64_t codes[LK_SLOTS * LK_ENTRIES];
    uint8_t lens[LK_SLOTS];
} lk_shop;

#define LK_EMPTY_SHOP                                                                                                  \
    {                                                                                                                  \
        {-1, -1, -1, -1, -1, -1, -1, -1, -1, -1, -1, -1, -1, -1, -1, -1, -1, -1, -1, -1}, {0}, {0}, { 0 }              \
    }

/* A save: of items and held only as many count as the sheet has items and atcs. A zeroed one is fine. */
typedef struct {
    int16_t items[LK_MOST_ITEMS];
    uint8_t held[LK_MOST_ATCS];
    uint8_t flags[LK_FLAGS];
    int16_t times[LK_TIMES];
    int32_t vars[LK_VARIABLES];
} lk_save;

/* Kinds of requirements, in their sorting order. */
enum { LK_HAVE_ITEM, LK_MISSING_ITEM, LK_HAVE_ATC, LK_MISSING_ATC, LK_HAVE_FLAG, LK_MISSING_FLAG };

static inline uint64_t lk_requirement(unsigned kind, int32_t number) {
    return ((uint64_t)kind << 32) + (uint64_t)((int64_t)number + 2147483648LL);
}

/* Puts an item and a limit into slot i, which loses its requirements. */
static inline void lk_shop_slot(lk_shop *shop, size_t i, int32_t item, int16_t limit) {
    shop->items[i] = item;
    shop->limits[i] = limit;
    shop->lens[i] = 0;
}

/* One requirement more for slot i. 0 where the slot has LK_ENTRIES already: then nothing changes. */
static inline int lk_shop_require(lk_shop *shop, size_t i, uint64_t requirement) {
    if (LK_ENTRIES <= shop->lens[i]) {
        return 0;
    }
    shop->codes[i * LK_ENTRIES + shop->lens[i]] = requirement;
    shop->lens[i]++;
    return 1;
}

/* The lengths of a save's slices: never more than a save here has. A sheet with more is refused (1) before the save is looked at. */
static inline size_t lk_items_of(const lk_sheet *sheet) {
    return sheet->items < LK_MOST_ITEMS ? sheet->items : LK_MOST_ITEMS;
}

static inline size_t lk_atcs_of(const lk_sheet *sheet) {
    return sheet->atcs < LK_MOST_ATCS ? sheet->atcs : LK_MOST_ATCS;
}

static inline uint8_t lk_keep(lk_script *script, lk_kept kept) {
    script->nodes = kept.nodes;
    script->commands = kept.commands;
    script->blocks = kept.blocks;
    script->compiles = kept.compiles;
    return kept.refusal;
}

/* Each of these answers the refusal or 0. */

static inline uint8_t lk_script_read(lk_script *script, const uint8_t *bytes, size_t len) {
    return lk_keep(script, lk_read(bytes, len, script->ws, script->val, script->cw, script->bw, script->births));
}

/* A script of one block that returns. */
static inline void lk_script_new(lk_script *script) {
    static const uint8_t one_return[] = {1, 1, 1, 0, 0, 0};
    (void)lk_script_read(script, one_return, sizeof one_return);
}

static inline lk_written lk_script_write(const lk_script *script, uint8_t *out, size_t len) {
    return lk_write(script->ws, script->val, script->cw, script->bw, script->nodes, script->commands, script->blocks, out,
                    len);
}

static inline lk_ran lk_script_run(const lk_sheet *sheet, const lk_script *script, uint32_t start, lk_save *save,
                                   uint32_t budget) {
    return lk_run(sheet->attached, sheet->items, sheet->atcs, sheet->timer5, sheet->timer10, sheet->timer15, script->ws,
                  script->val, script->cw, script->bw, script->nodes, script->commands, script->blocks, start,
                  save->items, lk_items_of(sheet), save->held, lk_atcs_of(sheet), save->flags, LK_FLAGS, save->times,
                  LK_TIMES, save->vars, LK_VARIABLES, budget);
}

static inline uint8_t lk_script_compile(const lk_sheet *sheet, lk_script *script, uint32_t setup, const lk_shop *shop,
                                        uint8_t loader) {
    return lk_keep(script, lk_compile(sheet->attached, sheet->items, sheet->atcs, sheet->timer5, sheet->timer10,
                                      sheet->timer15, script->ws, script->val, script->cw, script->bw, script->births,
                                      script->nodes, script->commands, script->blocks, script->compiles, loader, setup,
                                      shop->items, shop->limits, shop->codes, shop->lens));
}

static inline uint8_t lk_script_reclaim(lk_script *script, const uint32_t *roots, size_t len, uint16_t moved[LK_BLOCKS]) {
    return lk_keep(script, lk_reclaim(script->ws, script->val, script->cw, script->bw, script->births, script->nodes,
                                      script->commands, script->blocks, script->compiles, roots, len, moved));
}

static inline uint8_t lk_script_parse(const lk_sheet *sheet, const lk_script *script, uint32_t setup, lk_shop *shop) {
    return lk_parse(sheet->attached, sheet->items, sheet->atcs, sheet->timer5, sheet->timer10, sheet->timer15, script->ws,
                    script->val, script->cw, script->bw, script->nodes, script->commands, script->blocks, setup,
                    shop->items, shop->limits, shop->codes, shop->lens);
}

static inline lk_previewed lk_shop_preview(const lk_sheet *sheet, const lk_shop *shop, const lk_save *save) {
    return lk_preview(sheet->attached, sheet->items, sheet->atcs, sheet->timer5, sheet->timer10, sheet->timer15,
                      shop->items, shop->limits, shop->codes, shop->lens, save->items, lk_items_of(sheet), save->held,
                      lk_atcs_of(sheet), save->flags, LK_FLAGS, save->times, LK_TIMES, save->vars, LK_VARIABLES);
}

/* The rights of each user in each slot. A zeroed one gives nobody any. */
typedef struct {
    uint8_t bytes[LK_USERS * LK_SLOTS];
} lk_rights;

/* Gives a user that is there a right in a slot that is there; nobody else gets any. */
static inline void lk_rights_give(lk_rights *rights, uint32_t user, uint32_t slot, uint8_t right) {
    if (user < LK_USERS && slot < LK_SLOTS) {
        rights->bytes[LK_SLOTS * user + slot] |= right;
    }
}

/* The three edits, one for each field. */

static inline uint8_t lk_shop_edit(const lk_sheet *sheet, const lk_rights *rights, lk_shop *shop, uint32_t user, uint32_t slot,
                                   uint8_t field, int32_t item, int16_t limit, const uint64_t entries[LK_ENTRIES],
                                   uint8_t len) {
    return lk_edit(sheet->attached, sheet->items, sheet->atcs, sheet->timer5, sheet->timer10, sheet->timer15,
                   rights->bytes, shop->items, shop->limits, shop->codes, shop->lens, user, slot, field, item, limit,
                   entries, len);
}

static inline uint8_t lk_shop_edit_item(const lk_sheet *sheet, const lk_rights *rights, lk_shop *shop, uint32_t user,
                                        uint32_t slot, int32_t item) {
    static const uint64_t none[LK_ENTRIES] = {0};
    return lk_shop_edit(sheet, rights, shop, user, slot, LK_ITEM, item, 0, none, 0);
}

static inline uint8_t lk_shop_edit_limit(const lk_sheet *sheet, const lk_rights *rights, lk_shop *shop, uint32_t user,
                                         uint32_t slot, int16_t limit) {
    static const uint64_t none[LK_ENTRIES] = {0};
    return lk_shop_edit(sheet, rights, shop, user, slot, LK_LIMIT, -1, limit, none, 0);
}

static inline uint8_t lk_shop_edit_requirements(const lk_sheet *sheet, const lk_rights *rights, lk_shop *shop, uint32_t user,
                                                uint32_t slot, const uint64_t entries[LK_ENTRIES], uint8_t len) {
    return lk_shop_edit(sheet, rights, shop, user, slot, LK_REQUIREMENTS, -1, 0, entries, len);
}

/* The shop becomes what the user is shown of it: show a copy. */
static inline uint8_t lk_shop_show(const lk_rights *rights, lk_shop *shop, uint32_t user) {
    return lk_show(rights->bytes, shop->items, shop->limits, shop->codes, shop->lens, user);
}

/* What to know of the shop before it is signed. */
static inline lk_checked lk_shop_check(const lk_sheet *sheet, const lk_shop *shop) {
    return lk_check(sheet->attached, sheet->items, sheet->atcs, sheet->timer5, sheet->timer10, sheet->timer15, shop->items,
                    shop->limits, shop->codes, shop->lens);
}

/* The shop of a text. Refused, the shop stays as it was. */
static inline lk_text_read lk_shop_read(const uint8_t *text, size_t text_len, lk_shop *shop) {
    return lk_read_shop(text, text_len, shop->items, shop->limits, shop->codes, shop->lens);
}

/* The text of a shop and how long it is, 0 where there is none. */
static inline uint32_t lk_shop_print(const lk_shop *shop, uint8_t out[LK_TEXT]) {
    return lk_print_shop(shop->items, shop->limits, shop->codes, shop->lens, out);
}

/* The bill of a basket by its lines, and their sum. */
typedef struct {
    int32_t items[LK_SLOTS];
    uint8_t slots[LK_SLOTS];
    uint64_t coins[LK_SLOTS];
    uint64_t total;
} lk_lines;

/* Refused, the lines stay as they were, and the total is 0. */
static inline uint8_t lk_save_bill(const lk_sheet *sheet, const lk_save *save, const uint16_t *prices, size_t prices_len,
                                   uint16_t discount, const int32_t basket[LK_SLOTS], lk_lines *bill) {
    const lk_billed billed =
        lk_bill(sheet->attached, sheet->items, sheet->atcs, sheet->timer5, sheet->timer10, sheet->timer15, save->items,
                lk_items_of(sheet), save->held, lk_atcs_of(sheet), save->flags, LK_FLAGS, save->times, LK_TIMES,
                save->vars, LK_VARIABLES, prices, prices_len, discount, basket, bill->items, bill->slots, bill->coins);
    bill->total = billed.total;
    return billed.refusal;
}

/* A stage as its file has it. The sheet points to attached beside it, so a copy's sheet has to be pointed there anew. */
typedef struct {
    uint8_t attached[LK_MOST_ITEMS];
    lk_sheet sheet;
    uint32_t setup;
    lk_script script;
} lk_stage;

/* Refused (3, 1, 2 by the heading; 2 to 5 by the image), the stage is not to be used. */
static inline uint8_t lk_stage_read(lk_stage *stage, const uint8_t *bytes, size_t len) {
    const lk_headed head = lk_read_heading(bytes, len, stage->attached);
    stage->sheet.attached = stage->attached;
    stage->sheet.items = head.items;
    stage->sheet.atcs = head.atcs;
    stage->sheet.timer5 = head.timer5;
    stage->sheet.timer10 = head.timer10;
    stage->sheet.timer15 = head.timer15;
    stage->setup = head.setup;
    return head.refusal ? head.refusal : lk_script_read(&stage->script, bytes + head.at, len - head.at);
}

/* Any stage that may be a file fits LK_STAGE_BYTES. Refused (1, 16 by the heading; 2 to 5, 16 by the script), what out holds is
 * not to be used. */
static inline lk_written lk_stage_write(const lk_stage *stage, uint8_t *out, size_t len) {
    const lk_sheet *sheet = &stage->sheet;
    lk_written written = lk_write_heading(sheet->attached, sheet->items, sheet->atcs, sheet->timer5, sheet->timer10,
                                          sheet->timer15, stage->setup, out, len);
    const size_t at = written.len;
    if (written.refusal == 0) {
        written = lk_script_write(&stage->script, out + at, len - at);
        written.len += written.refusal ? 0 : at;
    }
    return written;
}

#ifdef __cplusplus
}
#endif

#endif
