/* The calls of the static library liblocustkeno.a.
 *
 * Every call answers with a refusal's number from documents 01 and 02, or 0. A slice is a pointer and a length; where the
 * length is 0 the pointer must still not be null. What is written to must not overlap anything else that is handed in.
 * No call keeps a pointer, allocates, or has any state of its own: threads may call at the same time on different memory.
 * On the largest and nastiest scripts 32 kilobytes of stack were enough for lk_read, lk_preview, lk_edit, lk_show and lk_bill, 160
 * for lk_write, lk_run and lk_compile, 512 for lk_parse and lk_run_all, 768 for lk_reclaim (rust/locustkeno/tests/stack.rs).
 *
 * A script is four arrays and three kept counts:
 *   ws   nodes: code, left operand, right operand at 3n, 3n + 1, 3n + 2
 *   val  the number of an Imm node
 *   cw   commands: code, two expressions, a block at 4c ..; of a Set the fourth is 0 for a target Variable, else 1
 *   bw   blocks: kind, first command, how many, next + 1, else + 1 at 5b ..
 * Beside them lie the birth marks, births: for each block 0 if it was read or built at the start, else the ordinal of the
 * accepted compile that appended it; and the count of accepted compiles, which stays at 4,294,967,295. Only lk_read, lk_compile
 * and lk_reclaim take them. Marks past the count of blocks mean nothing. An image carries no marks: lk_read starts anew.
 * A sheet is attached (for each item its atc + 1, or 0), the count of atcs and the three timers' items.
 * A save is items (a count for each item), held (0 or 1 for each atc), flags, times and vars.
 */
#ifndef LOCUSTKENO_H
#define LOCUSTKENO_H

#include <stddef.h>
#include <stdint.h>

#ifdef __cplusplus
extern "C" {
#endif

#define LK_NODE_WORDS 98304
#define LK_VALUES 32768
#define LK_COMMAND_WORDS 65536
#define LK_BLOCK_WORDS 20480
#define LK_BLOCKS 4096
#define LK_ROOTS 256
#define LK_DEMO_BLOCKS 512
#define LK_DEMO_COMMANDS 2048
#define LK_DISC 0
#define LK_DEMO 1
#define LK_SLOTS 20
#define LK_ENTRIES 14
#define LK_USERS 16
#define LK_MOST_ITEMS 512

/* The refusal or 0, the kept counts of the script and the count of its accepted compiles; all counts are 0 where a read is
 * refused. */
typedef struct {
    uint8_t refusal;
    uint16_t nodes, commands, blocks;
    uint32_t compiles;
} lk_kept;

/* The refusal or 0, and the length of the image or heading in bytes. */
typedef struct {
    uint8_t refusal;
    size_t len;
} lk_written;

/* The refusal or 0, and the count of blocks entered. */
typedef struct {
    uint8_t refusal;
    uint32_t entered;
} lk_ran;

/* The script of an image. Refused (2 to 5), the arrays are all zero. Births and the count of compiles are 0 either way. */
lk_kept lk_read(const uint8_t *bytes, size_t bytes_len, uint16_t ws[LK_NODE_WORDS], int32_t val[LK_VALUES],
                uint16_t cw[LK_COMMAND_WORDS], uint16_t bw[LK_BLOCK_WORDS], uint32_t births[LK_BLOCKS]);

/* The image of a script into out. Refused (2 to 5, 16), out stays as it was; so do the bytes past the image. It is quickest
 * where out has 5 + 16 bytes a block + 6 a command + 6 a node, which is enough for any accepted script. */
lk_written lk_write(const uint16_t ws[LK_NODE_WORDS], const int32_t val[LK_VALUES], const uint16_t cw[LK_COMMAND_WORDS],
                    const uint16_t bw[LK_BLOCK_WORDS], uint16_t nodes, uint16_t commands, uint16_t blocks, uint8_t *out,
                    size_t out_len);

/* Runs the blocks from start on. Refused by 1 to 12 it enters no block and writes nothing; refused by 13 to 15 or 23, vars
 * keeps what was written until then. 23: a flag outside 0 to 2,047 is read, met in evaluation order alongside 13; every other
 * read outside the save gives 0. */
lk_ran lk_run(const uint8_t *attached, size_t attached_len, uint16_t atcs, uint16_t timer5, uint16_t timer10,
              uint16_t timer15, const uint16_t ws[LK_NODE_WORDS], const int32_t val[LK_VALUES],
              const uint16_t cw[LK_COMMAND_WORDS], const uint16_t bw[LK_BLOCK_WORDS], uint16_t nodes, uint16_t commands,
              uint16_t blocks, uint32_t start, const int16_t *items, size_t items_len, const uint8_t *held,
              size_t held_len, const uint8_t *flags, size_t flags_len, const int16_t *times, size_t times_len,
              int32_t *vars, size_t vars_len, uint32_t budget);

/* Runs the blocks from setup on for 1 to LK_LANES saves, each with a budget of 4,096, and reads each block once that at least
 * one of the runs enters: read says how many those are. The parts of the saves lie one behind another: items has saves times the
 * sheet's items, held saves times its atcs, flags saves times 2,048, times saves times 8 and vars saves times 1,024 numbers. Of
 * save j the refusal and the count go to refusals[j] and entered[j]; places from saves on are left alone. Refused, nothing is
 * written and read is 0. 12: a slice of another length, or a value that some save may not have, also past the 64th. 22, after
 * 12: no saves or over LK_LANES, or a block that links lead to from setup has a link that does not go to a lower number. */
#define LK_LANES 64

typedef struct {
    uint8_t refusal;
    uint32_t read;
} lk_walked;

lk_walked lk_run_all(const uint8_t *attached, size_t attached_len, uint16_t atcs, uint16_t timer5, uint16_t timer10,
                     uint16_t timer15, const uint16_t ws[LK_NODE_WORDS], const int32_t val[LK_VALUES],
                     const uint16_t cw[LK_COMMAND_WORDS], const uint16_t bw[LK_BLOCK_WORDS], uint16_t nodes,
                     uint16_t commands, uint16_t blocks, uint32_t setup, uint32_t saves, const int16_t *items,
                     size_t items_len, const uint8_t *held, size_t held_len, const uint8_t *flags, size_t flags_len,
                     const int16_t *times, size_t times_len, int32_t *vars, size_t vars_len, uint8_t refusals[LK_LANES],
                     uint32_t entered[LK_LANES]);

/* Drops every block that is no root and that no root reaches by next, else or command targets. Survivors keep their order and
 * birth marks, and links follow. The counts are what the survivors hold, so that the freed places serve the next lk_compile;
 * the count of compiles stays. moved tells for each old block its new number + 1, or 0 where it is gone; past the old blocks it
 * is 0. What lies past the new counts in the other arrays stays as it was. No roots at all leave no block, roots may repeat, and
 * placeholder and data may be roots. Refused (18, then 2 to 5), nothing is written and the counts are those handed in.
 * 18: over LK_ROOTS roots, or one that is not a block. */
lk_kept lk_reclaim(uint16_t ws[LK_NODE_WORDS], int32_t val[LK_VALUES], uint16_t cw[LK_COMMAND_WORDS],
                   uint16_t bw[LK_BLOCK_WORDS], uint32_t births[LK_BLOCKS], uint16_t nodes, uint16_t commands,
                   uint16_t blocks, uint32_t compiles, const uint32_t *roots, size_t roots_len, uint16_t moved[LK_BLOCKS]);

/* A shop is four arrays: items (-1 for none; a number that no item can have stands for an item that no sheet has),
 * limits, LK_ENTRIES codes of requirements for each slot, and how many of them are given (over LK_ENTRIES is refusal 8).
 * A code is kind * 2^32 + number + 2^31, the kinds 0 to 5 being HaveItem, MissingItem, HaveAtc, MissingAtc, HaveFlag and
 * MissingFlag. */

/* The refusal or 0, the pair of each slot, and what variable 0 ends as. */
typedef struct {
    uint8_t refusal;
    int32_t items[LK_SLOTS], counts[LK_SLOTS];
    int32_t temp;
} lk_previewed;

/* Compiles a shop and links it at block setup; the blocks that it appends bear the new count of compiles. loader is
 * LK_DISC, or any other number for the demo. Refused (1 to 7, 17, 8, 9, 19 in this order), nothing is written and the
 * counts are those handed in. 17: the mark of the setup block is not 0. 19: the result passes a limit of the demo,
 * LK_DEMO_BLOCKS blocks or LK_DEMO_COMMANDS commands. */
lk_kept lk_compile(const uint8_t *attached, size_t attached_len, uint16_t atcs, uint16_t timer5, uint16_t timer10,
                   uint16_t timer15, uint16_t ws[LK_NODE_WORDS], int32_t val[LK_VALUES], uint16_t cw[LK_COMMAND_WORDS],
                   uint16_t bw[LK_BLOCK_WORDS], uint32_t births[LK_BLOCKS], uint16_t nodes, uint16_t commands,
                   uint16_t blocks, uint32_t compiles, uint8_t loader, uint32_t setup,
                   const int32_t items[LK_SLOTS], const int16_t limits[LK_SLOTS],
                   const uint64_t codes[LK_SLOTS * LK_ENTRIES], const uint8_t lens[LK_SLOTS]);

/* The arrays of a shop from any number of slots, each with LK_ENTRIES codes. As many slots are given as there are items;
 * what another slice lacks of them is 0. Slots past LK_SLOTS are dropped unchecked, missing ones are empty. */
void lk_with_slots(const int32_t *items, size_t items_len, const int16_t *limits, size_t limits_len,
                   const uint64_t *codes, size_t codes_len, const uint8_t *lens, size_t lens_len,
                   int32_t to_items[LK_SLOTS], int16_t to_limits[LK_SLOTS], uint64_t to_codes[LK_SLOTS * LK_ENTRIES],
                   uint8_t to_lens[LK_SLOTS]);

/* The shop that starts at block setup, its requirements sorted, each once. Refused (1 to 7, 10, 11), an empty shop. */
uint8_t lk_parse(const uint8_t *attached, size_t attached_len, uint16_t atcs, uint16_t timer5, uint16_t timer10,
                 uint16_t timer15, const uint16_t ws[LK_NODE_WORDS], const int32_t val[LK_VALUES],
                 const uint16_t cw[LK_COMMAND_WORDS], const uint16_t bw[LK_BLOCK_WORDS], uint16_t nodes,
                 uint16_t commands, uint16_t blocks, uint32_t setup, int32_t items[LK_SLOTS], int16_t limits[LK_SLOTS],
                 uint64_t codes[LK_SLOTS * LK_ENTRIES], uint8_t lens[LK_SLOTS]);

/* What a shop means under a save, with refusals 1, 8 and 12, and 23 where lk_run of the compiled shop is answered 23: where a
 * slot with an item has a flag outside 0 to 2,047. Refused it has no pairs, and variable 0 as in the save. */
lk_previewed lk_preview(const uint8_t *attached, size_t attached_len, uint16_t atcs, uint16_t timer5, uint16_t timer10,
                        uint16_t timer15, const int32_t items[LK_SLOTS], const int16_t limits[LK_SLOTS],
                        const uint64_t codes[LK_SLOTS * LK_ENTRIES], const uint8_t lens[LK_SLOTS], const int16_t *counts,
                        size_t counts_len, const uint8_t *held, size_t held_len, const uint8_t *flags, size_t flags_len,
                        const int16_t *times, size_t times_len, const int32_t *vars, size_t vars_len);

/* Rights are a byte for each user and slot, that of user u and slot s at LK_SLOTS * u + s: the sum of what the user may do with
 * the slot. Every byte is one; its higher bits mean nothing. */
#define LK_SEE 1
#define LK_CHANGE_ITEM 2
#define LK_CHANGE_LIMIT 4
#define LK_CHANGE_REQUIREMENTS 8

/* The field of an edit. */
#define LK_ITEM 0
#define LK_LIMIT 1
#define LK_REQUIREMENTS 2

/* An edit of one field of a slot by a user. Of item (-1 for none), limit and the len entries the one counts that field names;
 * it is stored as it is given. Refused (1, 20, 21, 8 in this order), nothing is written; accepted, the words of that field of
 * that slot and no others. 20: a user that is not below LK_USERS. 21: a slot that is not below LK_SLOTS, a field above
 * LK_REQUIREMENTS, or no right to change that field; LK_SEE is not needed. 8 judges the new content and nothing of the shop. */
uint8_t lk_edit(const uint8_t *attached, size_t attached_len, uint16_t atcs, uint16_t timer5, uint16_t timer10,
                uint16_t timer15, const uint8_t rights[LK_USERS * LK_SLOTS], int32_t items[LK_SLOTS],
                int16_t limits[LK_SLOTS], uint64_t codes[LK_SLOTS * LK_ENTRIES], uint8_t lens[LK_SLOTS], uint32_t user,
                uint32_t slot, uint8_t field, int32_t item, int16_t limit, const uint64_t entries[LK_ENTRIES], uint8_t len);

/* The arrays of a shop become those of the shop as a user sees it: every word of a slot with LK_SEE stays, every other slot
 * becomes an empty one, its LK_ENTRIES codes 0. Refused (20), an empty shop. */
uint8_t lk_show(const uint8_t rights[LK_USERS * LK_SLOTS], int32_t items[LK_SLOTS], int16_t limits[LK_SLOTS],
                uint64_t codes[LK_SLOTS * LK_ENTRIES], uint8_t lens[LK_SLOTS], uint32_t user);

/* The bill (document 02, A.11 and A.12). */

/* The refusal or 0, and the total in coins, 0 where the bill is refused. */
typedef struct {
    uint8_t refusal;
    uint64_t total;
} lk_billed;

/* The bill of a basket, made from the save as lk_run left it. A tariff is a price of 0 to 30,000 coins for each item and a
 * discount of 0 to 1,000 thousandths. A basket is the number taken from each slot. A line is number * price * (1,000 - discount)
 * / 1,000, rounded half up to a whole coin. The three arrays get the twenty lines, each slot once: by the item number that the
 * run left, as a signed number, slots of equal number by slot number. Refused (1, 12, 24, 25 in this order), they stay as they
 * were. 24: a price or the discount is out of range, or there is not exactly one price for each item. 25: a number is below 0,
 * above its slot's count, or above 0 where the slot's item is not on the sheet. */
lk_billed lk_bill(const uint8_t *attached, size_t attached_len, uint16_t atcs, uint16_t timer5, uint16_t timer10,
                  uint16_t timer15, const int16_t *items, size_t items_len, const uint8_t *held, size_t held_len,
                  const uint8_t *flags, size_t flags_len, const int16_t *times, size_t times_len, const int32_t *vars,
                  size_t vars_len, const uint16_t *prices, size_t prices_len, uint16_t discount,
                  const int32_t basket[LK_SLOTS], int32_t to_items[LK_SLOTS], uint8_t to_slots[LK_SLOTS],
                  uint64_t to_coins[LK_SLOTS]);

/* The refusal or 0, the subjects of a slot, and in how many combinations of their answers it is listed and hidden. */
typedef struct {
    uint8_t refusal, subjects;
    uint32_t listed, hidden;
} lk_settings_of;

/* How many settings list a slot, which is given by its item (as in the arrays of a shop), limit, codes and how many of them
 * are given. Each subject of its requirements (an item held, an atc held, a flag) is a yes or no, at coerced limit 1 also
 * the acquired one, and for a timer whether time[2] is its rate; the slot is listed where its item variable gets the item.
 * listed + hidden is 2 to the subjects, which are at most 16. No item: no subjects, 0 and 1. Refused (1, 8), every number
 * is 0. 32 kilobytes of stack are enough (rust/locustkeno/tests/settings.rs). */
lk_settings_of lk_settings(const uint8_t *attached, size_t attached_len, uint16_t atcs, uint16_t timer5, uint16_t timer10,
                           uint16_t timer15, int32_t item, int16_t limit, const uint64_t codes[LK_ENTRIES], uint8_t len);

/* The shopper (document 02, A.13). */

#define LK_WISHES 1000

/* What a step answers; any other answer is the refusal that stopped its run, 23. */
#define LK_BOUGHT 0
#define LK_SOLD_OUT 1
#define LK_TOO_DEAR 2

/* The refusal or 0, how many steps were made, and the money left. */
typedef struct {
    uint8_t refusal;
    uint16_t steps;
    uint32_t money;
} lk_shopped;

/* A step for each wished slot, in the shop of the four arrays, which is compiled into a script of one block: the step runs it with
 * a budget of 82 and takes one piece of the wished slot if its count is above 0 and one piece's line, as in lk_bill, fits the
 * money. The item's count rises by 1, or its atc becomes 1 where it has one. A step whose run is stopped by 23 is the last. Each
 * step's answer and the coins paid are told from the first place on; places past the last step stay as they were. Refused (1, 8,
 * 12, 24, 26, 27, 28 in this order, before the first step), nothing is written. 26: over LK_WISHES wishes. 27: a wished slot past
 * the last. 28: money above 1,000,000. 768 kilobytes of stack were enough. */
lk_shopped lk_shopper(const uint8_t *attached, size_t attached_len, uint16_t atcs, uint16_t timer5, uint16_t timer10,
                      uint16_t timer15, const int32_t wares[LK_SLOTS], const int16_t limits[LK_SLOTS],
                      const uint64_t codes[LK_SLOTS * LK_ENTRIES], const uint8_t lens[LK_SLOTS], int16_t *items,
                      size_t items_len, uint8_t *held, size_t held_len, const uint8_t *flags, size_t flags_len,
                      const int16_t *times, size_t times_len, int32_t *vars, size_t vars_len, const uint16_t *prices,
                      size_t prices_len, uint16_t discount, uint32_t money, const uint8_t *wishes, size_t wishes_len,
                      uint8_t answers[LK_WISHES], uint32_t coins[LK_WISHES]);

/* The check of a shop before it is signed. */

/* The verdict on a slot. */
#define LK_FAITHFUL 0
#define LK_PAIR 1
#define LK_OWN 2
#define LK_OUTSIDE 3

/* How often a slot is listed. */
#define LK_SOMETIMES 0
#define LK_NEVER 1
#define LK_ALWAYS 2

/* What is told of a slot. verdict: LK_FAITHFUL, what is printed (the slot read back, in normal form) means under every save that
 * fits the sheet what runs; LK_PAIR, a requirement stands beside its negation; LK_OWN, at limit 1 the Have of what the slot
 * sells, its attachment or else the item, is required; LK_OUTSIDE, asked first, a flag is in no save, and every run stops there
 * (23). entry: the place of the first entry concerned. limit: the one that will be used, 0 without an item. doubled: how many
 * entries were given before. lost: how many requirements a slot without an item loses. listed: by the settings of lk_settings.
 * With LK_PAIR and LK_OWN, a save that has what the first settings codes name, and is 0 everywhere else, lists the item by what is
 * printed and hides it by what runs; all other codes are 0. */
typedef struct {
    uint8_t verdict, entry, limit, doubled, lost, listed, settings;
    uint64_t codes[LK_ENTRIES];
} lk_finding;

/* The refusal or 0, and what is told of each slot. */
typedef struct {
    uint8_t refusal;
    lk_finding slots[LK_SLOTS];
} lk_checked;

/* Where every slot is LK_FAITHFUL, what is printed is what runs: after lk_compile of that shop, lk_preview of what lk_parse reads
 * there answers what lk_run leaves. Refused (1, 8), every number is 0. 64 kilobytes of stack are enough
 * (rust/locustkeno/tests/checks.rs). */
lk_checked lk_check(const uint8_t *attached, size_t attached_len, uint16_t atcs, uint16_t timer5, uint16_t timer10,
                    uint16_t timer15, const int32_t items[LK_SLOTS], const int16_t limits[LK_SLOTS],
                    const uint64_t codes[LK_SLOTS * LK_ENTRIES], const uint8_t lens[LK_SLOTS]);

/* The file of a stage: a sheet, the number of its setup block and an image, as the program slots reads them (docs/FORMAT.md). */

#define LK_STAGE_BYTES 65536

/* The refusal or 0, the items and atcs of the sheet, its three timers' items, the setup number, and where the image begins. */
typedef struct {
    uint8_t refusal;
    uint16_t items, atcs, timer5, timer10, timer15;
    uint32_t setup;
    size_t at;
} lk_headed;

/* What stands before the image: attached gets the atc + 1 or 0 of each item, and stays as it was past the items. The image is the
 * bytes from at on. Refused (3 where there are over LK_STAGE_BYTES, before all else; 1 and 2 as the numbers come), every number of
 * the answer and of attached is 0. */
lk_headed lk_read_heading(const uint8_t *bytes, size_t bytes_len, uint8_t attached[LK_MOST_ITEMS]);

/* The same bytes from a sheet and a setup number into out; len is where the image goes. Refused (1, then 16), out stays as it was;
 * so do the bytes past the heading. A heading takes at most 526 bytes. */
lk_written lk_write_heading(const uint8_t *attached, size_t attached_len, uint16_t atcs, uint16_t timer5, uint16_t timer10,
                            uint16_t timer15, uint32_t setup, uint8_t *out, size_t out_len);

/* A shop as text: twenty lines, as the program slots prints them (docs/FORMAT.md). */

/* The bytes that the text of any shop fits into. */
#define LK_TEXT 16384

/* Why a line is none, in the order in which a line is read: its slot's number, its item, its limit, a requirement, more
 * requirements than LK_ENTRIES, something else than a blank or the line's end, and text behind the last line. */
#define LK_TEXT_READ 0
#define LK_TEXT_NO_SLOT 1
#define LK_TEXT_NO_ITEM 2
#define LK_TEXT_NO_LIMIT 3
#define LK_TEXT_NO_REQUIREMENT 4
#define LK_TEXT_MANY_REQUIREMENTS 5
#define LK_TEXT_NO_END 6
#define LK_TEXT_MORE 7

/* LK_TEXT_READ and 0, or the reason and the line, counted from 1. */
typedef struct {
    uint8_t reason, line;
} lk_text_read;

/* The shop of a text, any bytes. Refused, the arrays stay as they were. 64 kilobytes of stack are enough for this call and the
 * next (rust/locustkeno/tests/text.rs). */
lk_text_read lk_read_shop(const uint8_t *text, size_t text_len, int32_t items[LK_SLOTS], int16_t limits[LK_SLOTS],
                          uint64_t codes[LK_SLOTS * LK_ENTRIES], uint8_t lens[LK_SLOTS]);

/* The text of a shop from the start of out on, and how long it is; the bytes behind it stay. Where a slot has more requirements
 * than LK_ENTRIES there is no text: 0, and out stays as it was. */
uint32_t lk_print_shop(const int32_t items[LK_SLOTS], const int16_t limits[LK_SLOTS],
                       const uint64_t codes[LK_SLOTS * LK_ENTRIES], const uint8_t lens[LK_SLOTS], uint8_t out[LK_TEXT]);

#ifdef __cplusplus
}
#endif

#include "locustkeno_structs.h"

#endif
