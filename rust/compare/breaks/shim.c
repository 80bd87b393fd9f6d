/* The library's calls over functions that were compiled for a Rattle program: there a slice is a pointer to a pointer
 * and a length, and an answer is written through the first argument. */
#include "locustkeno.h"

typedef struct {
    const void *at;
    size_t len;
} slice;

void inner_lk_read(lk_kept *, slice *, uint16_t *, int32_t *, uint16_t *, uint16_t *, uint32_t *);
void inner_lk_write(lk_written *, const uint16_t *, const int32_t *, const uint16_t *, const uint16_t *, uint16_t, uint16_t,
                    uint16_t, slice *);
void inner_lk_run(lk_ran *, slice *, uint16_t, uint16_t, uint16_t, uint16_t, const uint16_t *, const int32_t *,
                  const uint16_t *, const uint16_t *, uint16_t, uint16_t, uint16_t, uint32_t, slice *, slice *, slice *,
                  slice *, slice *, uint32_t);

lk_kept lk_read(const uint8_t *bytes, size_t bytes_len, uint16_t *ws, int32_t *val, uint16_t *cw, uint16_t *bw,
                uint32_t *births) {
    slice s = {bytes, bytes_len};
    lk_kept answer;
    inner_lk_read(&answer, &s, ws, val, cw, bw, births);
    return answer;
}

lk_written lk_write(const uint16_t *ws, const int32_t *val, const uint16_t *cw, const uint16_t *bw, uint16_t nodes,
                    uint16_t commands, uint16_t blocks, uint8_t *out, size_t out_len) {
    slice s = {out, out_len};
    lk_written answer;
    inner_lk_write(&answer, ws, val, cw, bw, nodes, commands, blocks, &s);
    return answer;
}

lk_ran lk_run(const uint8_t *attached, size_t attached_len, uint16_t atcs, uint16_t timer5, uint16_t timer10,
              uint16_t timer15, const uint16_t *ws, const int32_t *val, const uint16_t *cw, const uint16_t *bw,
              uint16_t nodes, uint16_t commands, uint16_t blocks, uint32_t start, const int16_t *items, size_t items_len,
              const uint8_t *held, size_t held_len, const uint8_t *flags, size_t flags_len, const int16_t *times,
              size_t times_len, int32_t *vars, size_t vars_len, uint32_t budget) {
    slice a = {attached, attached_len}, i = {items, items_len}, h = {held, held_len}, f = {flags, flags_len};
    slice t = {times, times_len}, v = {vars, vars_len};
    lk_ran answer;
    inner_lk_run(&answer, &a, atcs, timer5, timer10, timer15, ws, val, cw, bw, nodes, commands, blocks, start, &i, &h, &f,
                 &t, &v, budget);
    return answer;
}

void inner_lk_compile(lk_kept *, slice *, uint16_t, uint16_t, uint16_t, uint16_t, uint16_t *, int32_t *, uint16_t *,
                      uint16_t *, uint32_t *, uint16_t, uint16_t, uint16_t, uint32_t, uint8_t, uint32_t, const int32_t *,
                      const int16_t *, const uint64_t *, const uint8_t *);
uint8_t inner_lk_parse(slice *, uint16_t, uint16_t, uint16_t, uint16_t, const uint16_t *, const int32_t *,
                       const uint16_t *, const uint16_t *, uint16_t, uint16_t, uint16_t, uint32_t, int32_t *, int16_t *,
                       uint64_t *, uint8_t *);
void inner_lk_preview(lk_previewed *, slice *, uint16_t, uint16_t, uint16_t, uint16_t, const int32_t *, const int16_t *,
                      const uint64_t *, const uint8_t *, slice *, slice *, slice *, slice *, slice *);

lk_kept lk_compile(const uint8_t *attached, size_t attached_len, uint16_t atcs, uint16_t timer5, uint16_t timer10,
                   uint16_t timer15, uint16_t *ws, int32_t *val, uint16_t *cw, uint16_t *bw, uint32_t *births,
                   uint16_t nodes, uint16_t commands, uint16_t blocks, uint32_t compiles, uint8_t loader,
                   uint32_t setup, const int32_t *items, const int16_t *limits, const uint64_t *codes, const uint8_t *lens) {
    slice a = {attached, attached_len};
    lk_kept answer;
    inner_lk_compile(&answer, &a, atcs, timer5, timer10, timer15, ws, val, cw, bw, births, nodes, commands, blocks,
                     compiles, loader, setup, items, limits, codes, lens);
    return answer;
}

uint8_t lk_parse(const uint8_t *attached, size_t attached_len, uint16_t atcs, uint16_t timer5, uint16_t timer10,
                 uint16_t timer15, const uint16_t *ws, const int32_t *val, const uint16_t *cw, const uint16_t *bw,
                 uint16_t nodes, uint16_t commands, uint16_t blocks, uint32_t setup, int32_t *items, int16_t *limits,
                 uint64_t *codes, uint8_t *lens) {
    slice a = {attached, attached_len};
    return inner_lk_parse(&a, atcs, timer5, timer10, timer15, ws, val, cw, bw, nodes, commands, blocks, setup, items,
                          limits, codes, lens);
}

lk_previewed lk_preview(const uint8_t *attached, size_t attached_len, uint16_t atcs, uint16_t timer5, uint16_t timer10,
                        uint16_t timer15, const int32_t *items, const int16_t *limits, const uint64_t *codes,
                        const uint8_t *lens, const int16_t *counts, size_t counts_len, const uint8_t *held,
                        size_t held_len, const uint8_t *flags, size_t flags_len, const int16_t *times, size_t times_len,
                        const int32_t *vars, size_t vars_len) {
    slice a = {attached, attached_len}, c = {counts, counts_len}, h = {held, held_len}, f = {flags, flags_len};
    slice t = {times, times_len}, v = {vars, vars_len};
    lk_previewed answer;
    inner_lk_preview(&answer, &a, atcs, timer5, timer10, timer15, items, limits, codes, lens, &c, &h, &f, &t, &v);
    return answer;
}

void inner_lk_with_slots(slice *, slice *, slice *, slice *, int32_t *, int16_t *, uint64_t *, uint8_t *);

void lk_with_slots(const int32_t *items, size_t items_len, const int16_t *limits, size_t limits_len,
                   const uint64_t *codes, size_t codes_len, const uint8_t *lens, size_t lens_len, int32_t *to_items,
                   int16_t *to_limits, uint64_t *to_codes, uint8_t *to_lens) {
    slice i = {items, items_len}, l = {limits, limits_len}, c = {codes, codes_len}, n = {lens, lens_len};
    inner_lk_with_slots(&i, &l, &c, &n, to_items, to_limits, to_codes, to_lens);
}

void inner_lk_reclaim(lk_kept *, uint16_t *, int32_t *, uint16_t *, uint16_t *, uint32_t *, uint16_t, uint16_t, uint16_t,
                      uint32_t, slice *, uint16_t *);

lk_kept lk_reclaim(uint16_t *ws, int32_t *val, uint16_t *cw, uint16_t *bw, uint32_t *births, uint16_t nodes,
                   uint16_t commands, uint16_t blocks, uint32_t compiles, const uint32_t *roots, size_t roots_len,
                   uint16_t *moved) {
    slice r = {roots, roots_len};
    lk_kept answer;
    inner_lk_reclaim(&answer, ws, val, cw, bw, births, nodes, commands, blocks, compiles, &r, moved);
    return answer;
}

uint8_t inner_lk_edit(slice *, uint16_t, uint16_t, uint16_t, uint16_t, const uint8_t *, int32_t *, int16_t *, uint64_t *,
                      uint8_t *, uint32_t, uint32_t, uint8_t, int32_t, int16_t, const uint64_t *, uint8_t);
uint8_t inner_lk_show(const uint8_t *, int32_t *, int16_t *, uint64_t *, uint8_t *, uint32_t);

uint8_t lk_edit(const uint8_t *attached, size_t attached_len, uint16_t atcs, uint16_t timer5, uint16_t timer10,
                uint16_t timer15, const uint8_t *rights, int32_t *items, int16_t *limits, uint64_t *codes, uint8_t *lens,
                uint32_t user, uint32_t slot, uint8_t field, int32_t item, int16_t limit, const uint64_t *entries,
                uint8_t len) {
    slice a = {attached, attached_len};
    return inner_lk_edit(&a, atcs, timer5, timer10, timer15, rights, items, limits, codes, lens, user, slot, field, item,
                         limit, entries, len);
}

uint8_t lk_show(const uint8_t *rights, int32_t *items, int16_t *limits, uint64_t *codes, uint8_t *lens, uint32_t user) {
    return inner_lk_show(rights, items, limits, codes, lens, user);
}
