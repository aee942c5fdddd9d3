/* Uses every export from C, through include/poruwhina.h. The expected answers were computed by hand: "example N" is an example of
 * the reference, "edge" one of its edges. Prints a line for each wrong answer, then the totals; exits with 1 if one is wrong. tests/c/run
 * builds and runs it. */
#include "poruwhina.h"

#include <stdio.h>
#include <string.h>

static int checks, wrong;

#define CHECK(holds) check((holds), #holds, __LINE__)

static void check(bool holds, const char *what, int line) {
    checks++;
    if (!holds) {
        wrong++;
        printf("calls.c:%d: %s\n", line, what);
    }
}

/* A = 1,0,1,1,0,1 */
static const uint8_t A[1] = {0x2D};
static const pw_mask MASK_A = {0, 6, 0, 0, 0};

/* An output of 24 bytes that no call wrote is all 0xEE. */
enum { OUT = 24 };
static uint8_t out[OUT];

static void clean(void) { memset(out, 0xEE, OUT); }

/* Returns whether the output holds these bytes, then zeros up to byte `end`, and unchanged bytes after that. */
static bool holds(const uint8_t *front, size_t n, size_t end) {
    for (size_t i = 0; i < OUT; i++)
        if (out[i] != (i < n ? front[i] : i < end ? 0x00 : 0xEE)) return false;
    return true;
}

/* Returns whether the output holds one frozen word, which begins with a single byte. */
static bool holds_word(uint8_t first) { return holds(&first, 1, 8); }

static bool untouched(void) { return holds(NULL, 0, 0); }

static bool is_mask(pw_mask m, size_t start, size_t length, size_t zeros, uint8_t known) {
    return m.start == start && m.length == length && m.zeros == zeros && m.known == known;
}

/* The numbers of a record, as they are passed. */
#define BUILDER(b) (b).length, (b).word, (b).ones
#define CURSOR(c) (c).start, (c).length, (c).place

static bool is_builder(pw_builder b, size_t length, uint64_t word, size_t ones) {
    return b.length == length && b.word == word && b.ones == ones;
}

static bool is_cursor(pw_cursor c, size_t start, size_t length, size_t place, uint8_t masked) {
    return c.start == start && c.length == length && c.place == place && c.masked == masked;
}

static bool is_step(pw_step_answer s, uint64_t value, size_t count, size_t place) {
    return s.refusal == 0 && s.found && s.value == value && s.count == count && s.place == place;
}

static bool is_end(pw_step_answer s, size_t place) { return s.refusal == 0 && !s.found && s.place == place; }

static bool is_at(pw_position_answer p, size_t value) { return p.refusal == 0 && p.found && p.value == value; }

static bool is_missing(pw_position_answer p) { return p.refusal == 0 && !p.found; }

static bool is_bit(pw_nth_answer a, uint32_t value) { return a.refusal == 0 && a.found && a.value == value && a.ones == 0; }

static bool has_only(pw_nth_answer a, uint32_t ones) { return a.refusal == 0 && !a.found && a.value == 0 && a.ones == ones; }

/* Returns whether an append to a new builder freezes to these first flags. */
static bool freezes_to(pw_builder_answer a, uint8_t first) {
    if (a.refusal != 0 || !untouched()) return false;
    pw_mask_answer frozen = pw_freeze(BUILDER(a.builder), out, OUT, 0);
    bool right = frozen.refusal == 0 && frozen.mask.known == 1 && holds_word(first);
    clean();
    return right;
}

/* Tests a planner's edit, by pointer: the builder keeps its serial. With equal serials the edit gives 14, else the larger one wins. */
static void superseding(void) {
    const uint8_t stored[3] = {0, 0xF0, 0x0F};
    pw_mask first = pw_try_new(stored, 3, 12, 12).mask;
    first.serial = 6;
    pw_serial_builder b = pw_serial_builder_new(6);
    CHECK(pw_serial_extend_constant(&b, out, OUT, 1, false) == 0 && pw_serial_extend_constant(&b, out, OUT, 7, true) == 0);
    CHECK(pw_serial_push(&b, out, OUT, false) == 0 && pw_serial_extend_constant(&b, out, OUT, 3, false) == 0);
    CHECK(pw_serial_push(&b, out, 0, false) == 9 && b.serial == 6 && b.builder.length == 12);
    pw_mask second = pw_serial_freeze(&b, out, OUT).mask;
    CHECK(second.serial == 6 && second.length == 12);
    pw_part_answer part = pw_superseding(first, stored, 3, second, out, OUT);
    CHECK(part.refusal == PW_REFUSED_SERIAL_CONFLICT && !part.second && part.from == 0 && part.to == 0 && part.mask.length == 0);
    second.serial = 7;
    part = pw_superseding(first, stored, 3, second, out, OUT);
    CHECK(part.refusal == 0 && part.second && part.from == 0 && part.to == 2 && part.mask.serial == 7 && part.mask.length == 12);
    first.serial = 8;
    part = pw_superseding(first, stored, 3, second, out, OUT);
    CHECK(part.refusal == 0 && !part.second && part.from == 1 && part.to == 3 && part.mask.start == 4 && part.mask.serial == 8);
    pw_mask other = pw_try_new(stored, 3, 0, 12).mask;
    CHECK(pw_or(other, stored, 3, first, stored, 3, out, OUT).mask.serial == 8);
    CHECK(pw_and(first, stored, 3, other, stored, 3, out, OUT).mask.serial == 8);
    clean();
}

static void words(void) {
    const uint8_t nine[9] = {1, 2, 3, 4, 5, 6, 7, 8, 9};
    CHECK(pw_load_padded_le_u64(nine, 9) == 0x0807060504030201);
    CHECK(pw_load_padded_le_u64(A, 1) == 0x2D);
    CHECK(pw_load_padded_le_u64(NULL, 0) == 0);
    CHECK(pw_merge_reversed(0xFF00, 0x2D, 8) == 0x2D000000000000FF);
    CHECK(pw_merge_reversed(0xFF00, 0x2D, 0) == 0xFF00);
    CHECK(pw_merge_reversed(0xFF00, 0x2D, 64) == 0xFF00);
    CHECK(is_bit(pw_nth_set_bit_u64(0x2D, 2), 3));
    CHECK(has_only(pw_nth_set_bit_u64(0x2D, 4), 4));
    CHECK(has_only(pw_nth_set_bit_u64(UINT64_MAX, UINT64_MAX), 64));
    CHECK(has_only(pw_nth_set_bit_u64(0, 0), 0));
    CHECK(is_bit(pw_nth_set_bit_u32(0x80000000, 0), 31));
    CHECK(has_only(pw_nth_set_bit_u32(0x80000000, 1), 1));
    CHECK(has_only(pw_nth_set_bit_u32(UINT32_MAX, 32), 32));
}

static void spans(void) {
    uint8_t ones[24];
    memset(ones, 0xFF, sizeof ones);
    pw_split_answer s = pw_aligned_new(ones, 24, 0, 192, 1);
    CHECK(s.refusal == 0 && s.prefix == 0xFFFFFFFFFFFFFF && s.prefix_len == 56);
    CHECK(s.bulk_start == 7 && s.bulk_len == 2 && s.suffix == 0xFF && s.suffix_len == 8);
    CHECK(pw_aligned_new(NULL, 0, SIZE_MAX, 0, SIZE_MAX).refusal == 0);

    CHECK(pw_count_zeros(A, 1, 0, 6, 7).value == 2 && pw_count_zeros(A, 1, 2, 7, 0).refusal == PW_REFUSED_OUTSIDE_BYTES);
    CHECK(pw_leading_zeros(A, 1, 1, 5, 0).value == 1);
    CHECK(pw_leading_ones(A, 1, 2, 4, 0).value == 2);
    CHECK(pw_trailing_zeros(A, 1, 0, 5, 0).value == 1);
    CHECK(pw_trailing_ones(A, 1, 0, 4, 0).value == 2);
    CHECK(pw_count_zeros(NULL, 0, 9, 0, 8).refusal == 0 && pw_trailing_ones(NULL, 0, 9, 0, 8).refusal == 0);

    pw_spans_answer two = pw_split_at_unchecked(A, 1, 0, 6, 2);
    CHECK(two.refusal == 0 && two.first_start == 0 && two.first_length == 2 && two.second_start == 2 && two.second_length == 4);
    CHECK(pw_get_u32(A, 1, 0, 6, 2).value == 0x0B);
    CHECK(pw_get_u32(A, 1, 0, 6, SIZE_MAX).refusal == 0 && pw_get_u32(A, 1, 0, 6, SIZE_MAX).value == 0);

    /* example 4 */
    CHECK(is_at(pw_nth_set_bit_idx(A, 1, 0, 6, 2, 0), 3));
    CHECK(is_missing(pw_nth_set_bit_idx(A, 1, 0, 6, 4, 0)));
    CHECK(is_at(pw_nth_set_bit_idx_rev(A, 1, 0, 6, 1, 5), 2));
    CHECK(is_at(pw_nth_set_bit_idx_rev(A, 1, 0, 6, 3, 900), 0));
}

static void chunks(void) {
    const uint8_t bytes[9] = {0xFF, 0xFF, 0xFF, 0xFF, 0xFF, 0xFF, 0xFF, 0xFF, 0x2D};
    pw_cursor c = pw_chunks_new_exact(bytes, 9, 70).cursor;
    CHECK(is_cursor(c, 0, 70, 0, 1));
    pw_step_answer s = pw_chunks_next(CURSOR(c), bytes, 9);
    CHECK(is_step(s, UINT64_MAX, 0, 1));
    CHECK(is_end(pw_chunks_next(c.start, c.length, s.place, bytes, 9), 1));
    s = pw_chunks_remainder(CURSOR(c), bytes, 9);
    CHECK(is_step(s, 0x2D, 6, 0));
    CHECK(is_step(pw_chunks_remainder(0, 70, 1, bytes, 9), 0x2D, 6, 1));
    c = pw_chunks_new(bytes, 9, 4, 64).cursor;
    CHECK(is_step(pw_chunks_next(CURSOR(c), bytes, 9), 0xDFFFFFFFFFFFFFFF, 0, 1));
}

static void builders(void) {
    const bool flags[6] = {true, false, true, true, false, true};
    pw_builder_answer a = {0, pw_builder_new()};
    CHECK(is_builder(a.builder, 0, 0, 0));
    clean();
    for (int i = 0; i < 6; i++) a = pw_push(BUILDER(a.builder), out, OUT, flags[i]);
    CHECK(a.refusal == 0 && is_builder(a.builder, 6, 0x2D, 0) && untouched());
    pw_mask_answer frozen = pw_freeze(BUILDER(a.builder), out, OUT, 0); /* example 1 */
    CHECK(frozen.refusal == 0 && is_mask(frozen.mask, 0, 6, 2, 1) && holds_word(0x2D));

    clean(); /* example 5 */
    const uint8_t full[9] = {0xFF, 0xFF, 0xFF, 0xFF, 0xFF, 0xFF, 0xFF, 0xFF, 0x01};
    a = pw_extend_constant(0, 0, 0, out, OUT, 60, true);
    a = pw_extend_constant(BUILDER(a.builder), out, OUT, 5, true);
    CHECK(a.refusal == 0 && is_builder(a.builder, 65, 1, 64) && holds(full, 8, 8));
    frozen = pw_freeze(BUILDER(a.builder), out, OUT, 0);
    CHECK(frozen.refusal == 0 && is_mask(frozen.mask, 0, 65, 0, 1) && holds(full, 9, 16));
    pw_validity_answer valid = pw_into_opt_validity(BUILDER(a.builder), out, OUT, 0);
    CHECK(valid.refusal == 0 && !valid.present && holds(full, 9, 16));

    clean();
    pw_builder none = pw_builder_new();
    const uint32_t strict[2] = {5, 4}, past[3] = {5, 6, 0};
    CHECK(freezes_to(pw_push_word_with_len_unchecked(BUILDER(none), out, OUT, 0x2D, 6), 0x2D));
    CHECK(freezes_to(pw_extend_from_slice(BUILDER(none), out, OUT, A, 1, 2, 4), 0x0B));
    CHECK(freezes_to(pw_extend_each_repeated_from_slice_unchecked(BUILDER(none), out, OUT, A, 1, 2, 4, 2), 0xCF)); /* example 11 */
    CHECK(freezes_to(pw_subslice_extend_from_bitmap(BUILDER(none), out, OUT, MASK_A, A, 1, 2, 4), 0x0B));
    CHECK(freezes_to(pw_gather_extend_from_slice(BUILDER(none), out, OUT, A, 1, 0, 6, strict, 2), 0x01));
    CHECK(freezes_to(pw_opt_gather_extend_from_slice(BUILDER(none), out, OUT, A, 1, 0, 6, past, 3), 0x05)); /* example 10 */
    CHECK(pw_gather_extend_from_slice(BUILDER(none), out, OUT, A, 1, 0, 6, past, 3).refusal == PW_REFUSED_OUTSIDE_MASK);
    CHECK(pw_gather_extend_from_slice(BUILDER(none), out, OUT, A, 1, 0, 6, NULL, 0).refusal == 0 && untouched());

    frozen = pw_freeze(BUILDER(none), NULL, 0, 0); /* example 6 */
    CHECK(frozen.refusal == 0 && is_mask(frozen.mask, 0, 0, 0, 1));
    valid = pw_into_opt_validity(BUILDER(none), NULL, 0, 0);
    CHECK(valid.refusal == 0 && !valid.present);
    valid = pw_into_opt_validity(1, 0, 0, out, OUT, 0);
    CHECK(valid.refusal == 0 && valid.present && is_mask(valid.mask, 0, 1, 1, 1) && holds_word(0));
}

static void masks(void) {
    CHECK(is_mask(pw_bitmap_new(), 0, 0, 0, 1));
    clean(); /* edge: a 65-flag result in 16 bytes passes */
    pw_mask_answer zeroed = pw_new_zeroed(65, out, 16);
    CHECK(zeroed.refusal == 0 && is_mask(zeroed.mask, 0, 65, 65, 1) && holds(NULL, 0, 16));

    pw_mask_answer made = pw_try_new(A, 1, 0, 6);
    CHECK(made.refusal == 0 && is_mask(made.mask, 0, 6, 0, 0));
    pw_mask_answer cut = pw_slice(made.mask, A, 1, 2, 4); /* example 2 */
    CHECK(cut.refusal == 0 && is_mask(cut.mask, 2, 4, 0, 0));
    pw_zeros_answer zeros = pw_unset_bits(cut.mask, A, 1);
    CHECK(zeros.refusal == 0 && zeros.zeros == 1 && is_mask(zeros.mask, 2, 4, 1, 1));
    CHECK(pw_try_new(NULL, 0, 0, 0).refusal == 0 && pw_try_new(NULL, 0, 0, 0).mask.known == 1);

    uint8_t half[25]; /* example 12, with every other flag set */
    memset(half, 0x55, sizeof half);
    pw_mask of_100 = {0, 100, 50, 1, 0}, of_200 = {0, 200, 100, 1, 0};
    CHECK(is_mask(pw_slice(of_100, half, 25, 0, 68).mask, 0, 68, 34, 1));
    CHECK(is_mask(pw_slice(of_100, half, 25, 0, 67).mask, 0, 67, 0, 0));
    CHECK(is_mask(pw_slice(of_200, half, 25, 0, 160).mask, 0, 160, 80, 1));
    CHECK(is_mask(pw_slice(of_200, half, 25, 0, 159).mask, 0, 159, 0, 0));

    const uint8_t shifted[1] = {0xB4}; /* A, starting at bit 2 */
    pw_mask from_2 = {2, 6, 2, 1, 0};
    CHECK(pw_eq(MASK_A, A, 1, from_2, shifted, 1).value);
    CHECK(pw_eq(MASK_A, A, 1, cut.mask, A, 1).refusal == 0 && !pw_eq(MASK_A, A, 1, cut.mask, A, 1).value);
    CHECK(pw_num_edges(MASK_A, A, 1).value == 4); /* example 9 */
    CHECK(pw_num_intersections_with(MASK_A, A, 1, from_2, shifted, 1).value == 4);
}

static void combinations(void) {
    const uint8_t lhs[1] = {0x0C}, rhs[1] = {0x0A}; /* 0,0,1,1 and 0,1,0,1 */
    pw_mask_answer (*const calls[5])(pw_mask, const uint8_t *, size_t, pw_mask, const uint8_t *, size_t, uint8_t *, size_t) = {
        pw_and, pw_and_not, pw_or, pw_or_not, pw_xor};
    const uint8_t table[5] = {0x08, 0x04, 0x0E, 0x0D, 0x06};
    const pw_mask four = {0, 4, 0, 0, 0}, three = {0, 3, 0, 0, 0};
    for (int i = 0; i < 5; i++) {
        clean();
        pw_mask_answer a = calls[i](four, lhs, 1, four, rhs, 1, out, OUT);
        CHECK(a.refusal == 0 && is_mask(a.mask, 0, 4, 0, 0) && holds_word(table[i]));
        clean();
        a = calls[i](four, lhs, 1, three, rhs, 1, out, OUT);
        CHECK(a.refusal == PW_REFUSED_UNEQUAL_LENGTHS && is_mask(a.mask, 0, 0, 0, 0) && untouched());
    }
    clean();
    const uint8_t low[1] = {0x01}, high[1] = {0x04}; /* example 7 */
    CHECK(pw_or_not(three, high, 1, three, low, 1, out, OUT).refusal == 0 && holds_word(0x06));
    clean();
    CHECK(pw_not(four, lhs, 1, out, OUT).refusal == 0 && holds_word(0x03));

    const uint8_t by[1] = {0x05}, yes[1] = {0x03}, no[1] = {0x0E}; /* example 8 */
    clean();
    CHECK(pw_select(four, by, 1, four, yes, 1, four, no, 1, out, OUT).refusal == 0 && holds_word(0x0B));
    clean();
    CHECK(pw_select_constant(four, by, 1, four, yes, 1, false, out, OUT).refusal == 0 && holds_word(0x01));
    clean();
    CHECK(pw_select_constant(four, by, 1, four, yes, 1, true, out, OUT).refusal == 0 && holds_word(0x0B));
}

static void cursors(void) {
    const size_t runs[3][2] = {{0, 1}, {2, 2}, {5, 1}}, positions[4] = {0, 2, 3, 5};
    pw_cursor c = pw_slices_new(MASK_A, A, 1).cursor; /* example 3 */
    CHECK(is_cursor(c, 0, 6, 0, 1));
    for (int i = 0; i < 3; i++) {
        pw_step_answer s = pw_slices_next(CURSOR(c), A, 1);
        CHECK(is_step(s, runs[i][0], runs[i][1], runs[i][0] + runs[i][1]));
        c.place = s.place;
    }
    CHECK(is_end(pw_slices_next(CURSOR(c), A, 1), 6));

    c = pw_iter_new(A, 1, 0, 6).cursor;
    CHECK(is_step(pw_iter_next(CURSOR(c), A, 1), 1, 0, 1));
    CHECK(is_step(pw_iter_nth(CURSOR(c), A, 1, 4), 0, 0, 5));
    CHECK(is_end(pw_iter_nth(CURSOR(c), A, 1, SIZE_MAX), 6));
    CHECK(is_step(pw_take_leading_ones(CURSOR(c), A, 1), 0, 1, 1));
    CHECK(is_step(pw_take_leading_zeros(CURSOR(c), A, 1), 0, 0, 0));
    CHECK(is_cursor(pw_iter_new(NULL, 0, 9, 0).cursor, 0, 0, 0, 1));

    c = pw_true_idx_new(6, true, MASK_A, A, 1).cursor;
    for (int i = 0; i < 4; i++) {
        pw_step_answer s = pw_true_idx_next(CURSOR(c), c.masked, A, 1);
        CHECK(is_step(s, positions[i], 0, positions[i] + 1));
        c.place = s.place;
    }
    CHECK(is_end(pw_true_idx_next(CURSOR(c), c.masked, A, 1), 6));
    c = pw_true_idx_new(2, false, MASK_A, NULL, 0).cursor;
    CHECK(is_cursor(c, 0, 2, 0, 0) && is_step(pw_true_idx_next(CURSOR(c), c.masked, NULL, 0), 0, 0, 1));
}

/* An output of positions that no call wrote is all 99. */
enum { ROOM = 6 };
static uint32_t room[ROOM];

static pw_step_answer positions_of(pw_cursor c, const uint8_t *bytes, size_t n, size_t many) {
    for (int i = 0; i < ROOM; i++) room[i] = 99;
    return pw_true_idx_next_chunk(CURSOR(c), c.masked, bytes, n, room, many);
}

/* Returns whether the output holds these positions, and after them unchanged entries. */
static bool has(const uint32_t *positions, size_t n) {
    for (size_t i = 0; i < ROOM; i++)
        if (room[i] != (i < n ? positions[i] : 99)) return false;
    return true;
}

static void position_chunks(void) {
    const uint32_t ones[4] = {0, 2, 3, 5}, last[1] = {5}, all[3] = {0, 1, 2}, from_4[3] = {4, 5, 6};
    pw_cursor c = pw_true_idx_new(6, true, MASK_A, A, 1).cursor;
    CHECK(is_step(positions_of(c, A, 1, 3), 0, 3, 4) && has(ones, 3)); /* full, with one more to come */
    CHECK(is_step(positions_of(c, A, 1, 4), 0, 4, 6) && has(ones, 4)); /* exactly full */
    CHECK(is_step(positions_of(c, A, 1, 6), 0, 4, 6) && has(ones, 4)); /* room for two more */
    CHECK(is_step(positions_of(c, A, 1, 0), 0, 0, 0) && has(NULL, 0));
    CHECK(is_step(pw_true_idx_next_chunk(CURSOR(c), c.masked, A, 1, NULL, 0), 0, 0, 0));
    c.place = 4;
    CHECK(is_step(positions_of(c, A, 1, 2), 0, 1, 6) && has(last, 1));
    CHECK(is_step(positions_of(c, A, 1, 0), 0, 0, 4) && has(NULL, 0));
    c.place = 6;
    CHECK(is_step(positions_of(c, A, 1, 2), 0, 0, 6) && has(NULL, 0));

    const uint8_t long_run[10] = {0, 0, 0, 0, 0, 0, 0, 0xE0, 0x07, 0}; /* ones at bits 61 to 66, the mask starts at bit 3 */
    const uint32_t across[6] = {58, 59, 60, 61, 62, 63};
    pw_cursor from_3 = {3, 77, 0, 1};
    CHECK(is_step(positions_of(from_3, long_run, 10, 6), 0, 6, 64) && has(across, 6));
    CHECK(is_step(positions_of(from_3, long_run, 10, 5), 0, 5, 63) && has(across, 5));
    from_3.place = 59;
    CHECK(is_step(positions_of(from_3, long_run, 10, 6), 0, 5, 77) && has(across + 1, 5));

    c = pw_true_idx_new(7, false, MASK_A, NULL, 0).cursor; /* without a mask */
    CHECK(is_step(positions_of(c, NULL, 0, 3), 0, 3, 3) && has(all, 3));
    c.place = 4;
    CHECK(is_step(positions_of(c, NULL, 0, 6), 0, 3, 7) && has(from_4, 3));
    CHECK(is_step(positions_of(c, NULL, 0, 3), 0, 3, 7) && has(from_4, 3));

    pw_cursor refused[5] = {{0, 6, 7, 1}, {3, 6, 0, 1}, {0, PW_FLAG_LIMIT + 1, 0, 1}, {0, 6, 7, 0}, {PW_FLAG_LIMIT + 1, 6, 9, 0}};
    const uint8_t numbers[5] = {PW_REFUSED_OUTSIDE_MASK, PW_REFUSED_OUTSIDE_BYTES, PW_REFUSED_ABOVE_LIMIT, PW_REFUSED_OUTSIDE_MASK,
                                PW_REFUSED_ABOVE_LIMIT};
    for (int i = 0; i < 5; i++) {
        pw_step_answer s = positions_of(refused[i], A, 1, ROOM);
        CHECK(s.refusal == numbers[i] && !s.found && s.value == 0 && s.count == 0 && s.place == refused[i].place && has(NULL, 0));
    }
    pw_cursor outside = {3, 6, 0, 0}; /* without a mask the bytes are not checked */
    CHECK(is_step(positions_of(outside, A, 1, 3), 0, 3, 3) && has(all, 3));
}

/* Tests a grid of 3 rows and 4 columns, grids without flags, and their refusals. */
static void grids(void) {
    const uint8_t grid[2] = {0x68, 0xD1}; /* from bit 3: 1,0,1,1 and 0,1,0,0 and 0,1,0,1 */
    const pw_mask mask = {3, 12, 0, 0, 7};
    const uint32_t by_row[3] = {1, 3, 2}, by_column[4] = {2, 1, 2, 1};
    pw_mask_answer row = pw_grid_row(mask, grid, 2, 3, 4, 1);
    CHECK(row.refusal == 0 && is_mask(row.mask, 7, 4, 0, 0) && row.mask.serial == 7);
    clean();
    pw_mask_answer column = pw_grid_column(mask, grid, 2, 3, 4, 1, out, 8);
    CHECK(column.refusal == 0 && is_mask(column.mask, 0, 3, 0, 0) && column.mask.serial == 7);
    CHECK(holds_word(0x06));
    clean();
    pw_mask_answer turned = pw_grid_transpose(mask, grid, 2, 3, 4, out, 8);
    CHECK(turned.refusal == 0 && is_mask(turned.mask, 0, 12, 0, 0) && turned.mask.serial == 7);
    uint8_t back[8];
    CHECK(pw_grid_transpose(turned.mask, out, 8, 4, 3, back, 8).refusal == 0);
    CHECK(pw_eq(mask, grid, 2, turned.mask, back, 8).value && out[8] == 0xEE);
    for (int i = 0; i < ROOM; i++) room[i] = 99;
    pw_number_answer counted = pw_grid_row_zeros(mask, grid, 2, 3, 4, room, ROOM);
    CHECK(counted.refusal == 0 && counted.value == 3 && has(by_row, 3));
    for (int i = 0; i < ROOM; i++) room[i] = 99;
    counted = pw_grid_column_zeros(mask, grid, 2, 3, 4, room, 4);
    CHECK(counted.refusal == 0 && counted.value == 4 && has(by_column, 4));

    const pw_mask none = {0, 0, 0, 0, 0}; /* no flags: any number of rows, or of columns */
    const size_t most = (size_t)1 << 60;
    CHECK(pw_grid_row(none, NULL, 0, most, 0, most - 1).refusal == 0);
    CHECK(pw_grid_row(none, NULL, 0, most, 0, most).refusal == PW_REFUSED_OUTSIDE_MASK);
    turned = pw_grid_transpose(none, NULL, 0, 0, most, NULL, 0);
    CHECK(turned.refusal == 0 && is_mask(turned.mask, 0, 0, 0, 1));
    for (int i = 0; i < ROOM; i++) room[i] = 99;
    CHECK(pw_grid_row_zeros(none, NULL, 0, most, 0, room, ROOM).refusal == PW_REFUSED_OUTPUT_TOO_SMALL && has(NULL, 0));
    /* the product of these is 12 only modulo 2^64 */
    CHECK(pw_grid_row(mask, grid, 2, ((size_t)1 << 63) + 6, 2, 0).refusal == PW_REFUSED_NOT_A_GRID);

    clean();
    CHECK(pw_grid_column(mask, grid, 2, 3, 4, 4, out, 8).refusal == PW_REFUSED_OUTSIDE_MASK);
    CHECK(pw_grid_column(mask, grid, 2, 3, 4, 3, out, 7).refusal == PW_REFUSED_OUTPUT_TOO_SMALL);
    CHECK(pw_grid_transpose(mask, grid, 2, 4, 4, out, 7).refusal == PW_REFUSED_NOT_A_GRID);
    CHECK(pw_grid_column_zeros(mask, grid, 2, 3, 4, room, 3).refusal == PW_REFUSED_OUTPUT_TOO_SMALL && has(NULL, 0));
    CHECK(untouched());
}

enum { PLACES = 6 };
static int32_t places[PLACES];

/* Returns whether the places hold these ends, and are unchanged after them. */
static bool has_ends(const int32_t *ends, size_t n) {
    bool right = true;
    for (size_t i = 0; i < PLACES; i++) {
        if (places[i] != (i < n ? ends[i] : -99)) right = false;
        places[i] = -99;
    }
    return right;
}

/* Tests run ends that are read and written, and refusals, after which neither output is written. */
static void run_ends(void) {
    const int32_t ends[3] = {2, 3, 7}, written[3] = {2, 3, 5}, furthest[2] = {3, INT32_MAX};
    const uint8_t values[1] = {0x28}, two[1] = {0x01}; /* from bit 3: 1,0,1; 1,0 */
    const pw_mask runs = {3, 3, 0, 0, 7}, both = {0, 2, 0, 0, 7}, none = {0, 0, 0, 0, 7};
    has_ends(NULL, 0);
    clean();
    pw_mask_answer read = pw_from_run_ends(ends, 3, runs, values, 1, 5, out, 8);
    CHECK(read.refusal == 0 && is_mask(read.mask, 0, 5, 0, 0) && read.mask.serial == 7);
    CHECK(holds_word(0x1B)); /* 1,1,0,1,1 */
    uint8_t again[9] = {0, 0, 0, 0, 0, 0, 0, 0, 0xEE};
    pw_mask_answer wrote = pw_to_run_ends(read.mask, out, 8, places, PLACES, again, 9);
    CHECK(wrote.refusal == 0 && is_mask(wrote.mask, 0, 3, 0, 0) && wrote.mask.serial == 7);
    CHECK(again[0] == 0x05 && again[7] == 0 && again[8] == 0xEE && has_ends(written, 3));
    CHECK(pw_to_run_ends(MASK_A, A, 1, places, 5, again, 8).mask.length == 5 && again[0] == 0x15);
    has_ends(NULL, 0);

    clean();
    CHECK(pw_from_run_ends(furthest, 2, both, two, 1, 4, out, 8).refusal == 0 && holds_word(0x07));
    clean();
    read = pw_from_run_ends(ends, 2, both, two, 1, 0, NULL, 0); /* length 0: with rising ends, and with none */
    CHECK(read.refusal == 0 && is_mask(read.mask, 0, 0, 0, 1) && read.mask.serial == 7);
    CHECK(pw_from_run_ends(NULL, 0, none, NULL, 0, 0, NULL, 0).refusal == 0);
    wrote = pw_to_run_ends(none, NULL, 0, NULL, 0, NULL, 0);
    CHECK(wrote.refusal == 0 && is_mask(wrote.mask, 0, 0, 0, 1) && wrote.mask.serial == 7);

    const int32_t broken[5][2] = {{0, 5}, {-1, 5}, {3, 3}, {5, 3}, {3, 4}};
    for (int i = 0; i < 5; i++) CHECK(pw_from_run_ends(broken[i], 2, both, two, 1, 5, out, 8).refusal == PW_REFUSED_BROKEN_RUN_ENDS);
    CHECK(pw_from_run_ends(ends, 3, both, two, 1, 5, out, 8).refusal == PW_REFUSED_BROKEN_RUN_ENDS);
    CHECK(pw_from_run_ends(NULL, 0, none, NULL, 0, 1, out, 8).refusal == PW_REFUSED_BROKEN_RUN_ENDS);
    /* of several checks that fail: 1, then 2, then 13, then 3, then 9 */
    const pw_mask counted = {0, 2, 0, 1, 7};
    CHECK(pw_from_run_ends(broken[3], 2, counted, two, 0, PW_FLAG_LIMIT + 1, out, 7).refusal == PW_REFUSED_ABOVE_LIMIT);
    CHECK(pw_from_run_ends(broken[3], 2, counted, two, 0, 5, out, 7).refusal == PW_REFUSED_OUTSIDE_BYTES);
    CHECK(pw_from_run_ends(broken[3], 2, counted, two, 1, 5, out, 7).refusal == PW_REFUSED_BROKEN_RUN_ENDS);
    CHECK(pw_from_run_ends(ends, 2, counted, two, 1, 3, out, 7).refusal == PW_REFUSED_FALSE_COUNT);
    CHECK(pw_from_run_ends(ends, 2, both, two, 1, 3, out, 7).refusal == PW_REFUSED_OUTPUT_TOO_SMALL);
    CHECK(pw_to_run_ends(counted, two, 1, places, 1, out, 7).refusal == PW_REFUSED_FALSE_COUNT);
    CHECK(pw_to_run_ends(both, two, 1, places, 1, out, 8).refusal == PW_REFUSED_OUTPUT_TOO_SMALL);
    wrote = pw_to_run_ends(both, two, 1, places, 2, out, 7);
    CHECK(wrote.refusal == PW_REFUSED_OUTPUT_TOO_SMALL && is_mask(wrote.mask, 0, 0, 0, 0) && wrote.mask.serial == 0);
    CHECK(untouched() && has_ends(NULL, 0));
}

static void at_one_index(void) {
    const uint8_t other[1] = {0x04};
    CHECK(pw_and_not_at(true, MASK_A, A, 1, true, MASK_A, other, 1, 0).value);
    CHECK(!pw_and_not_at(true, MASK_A, A, 1, true, MASK_A, other, 1, 2).value);
    CHECK(pw_and_not_at(false, MASK_A, NULL, 0, true, MASK_A, other, 1, 1).value);
    CHECK(pw_and_not_at(false, MASK_A, NULL, 0, false, MASK_A, NULL, 0, SIZE_MAX).value);
    CHECK(pw_and_not_at(true, MASK_A, A, 1, true, MASK_A, other, 1, 6).refusal == PW_REFUSED_OUTSIDE_MASK);
    CHECK(pw_and_not_at(true, MASK_A, A, 1, false, MASK_A, NULL, 0, 6).refusal == PW_REFUSED_OUTSIDE_MASK);
}

static void dispatch(void) {
    const uint8_t revoked[1] = {0x04}; /* truck 2 */
    CHECK(pw_may_reassign(true, MASK_A, A, 1, true, MASK_A, revoked, 1, 0).value);
    CHECK(!pw_may_reassign(true, MASK_A, A, 1, true, MASK_A, revoked, 1, 1).value);
    CHECK(!pw_may_reassign(true, MASK_A, A, 1, true, MASK_A, revoked, 1, 2).value);
    CHECK(!pw_may_reassign(false, MASK_A, NULL, 0, true, MASK_A, revoked, 1, 1).value); /* no permission mask: no truck */
    CHECK(pw_may_reassign(false, MASK_A, NULL, 0, true, MASK_A, revoked, 1, 6).refusal == PW_REFUSED_OUTSIDE_MASK);
    CHECK(pw_may_reassign(true, MASK_A, A, 1, false, MASK_A, NULL, 0, 2).value);
    CHECK(pw_may_reassign(false, MASK_A, NULL, 0, false, MASK_A, NULL, 0, SIZE_MAX).refusal == 0);
    CHECK(!pw_may_reassign(false, MASK_A, NULL, 0, false, MASK_A, NULL, 0, SIZE_MAX).value);
    CHECK(pw_may_reassign(true, MASK_A, A, 1, true, MASK_A, revoked, 1, 6).refusal == PW_REFUSED_OUTSIDE_MASK);
}

/* Tests offers where trucks 0, 2, 3, 5 are permitted and truck 2 is revoked: from a cursor, going round to truck 0. */
static void offering(void) {
    const uint8_t revoked[1] = {0x04};
    pw_offer_answer got = pw_offer(true, MASK_A, A, 1, true, MASK_A, revoked, 1, 1);
    CHECK(got.refusal == 0 && got.found && got.truck == 3 && got.cursor == 4 && got.windows == 1);
    got = pw_offer(true, MASK_A, A, 1, true, MASK_A, revoked, 1, 6);
    CHECK(got.found && got.truck == 0 && got.cursor == 1 && got.windows == 1);
    got = pw_offer(true, MASK_A, A, 1, true, MASK_A, A, 1, 3);
    CHECK(got.refusal == 0 && !got.found && got.truck == 0 && got.cursor == 3 && got.windows == 2);
    got = pw_offer(false, MASK_A, NULL, 0, true, MASK_A, revoked, 1, SIZE_MAX);
    CHECK(got.refusal == 0 && !got.found && got.cursor == SIZE_MAX && got.windows == 0);
    got = pw_offer(true, MASK_A, A, 1, false, MASK_A, NULL, 0, 7);
    CHECK(got.refusal == PW_REFUSED_OUTSIDE_MASK && !got.found && got.cursor == 7 && got.windows == 0);
    pw_next_answer next = pw_next_and_not(MASK_A, A, 1, true, MASK_A, revoked, 1, 4);
    CHECK(next.refusal == 0 && next.found && next.position == 5 && next.windows == 1);
    next = pw_next_and_not(MASK_A, A, 1, false, MASK_A, NULL, 0, 6);
    CHECK(next.found && next.position == 0 && next.windows == 1);
    CHECK(pw_next_and_not(MASK_A, A, 1, false, MASK_A, NULL, 0, 7).refusal == PW_REFUSED_OUTSIDE_MASK);
}

/* Tests a window of width 2 with three minutes and three trucks. */
static void activity(void) {
    uint64_t kept[256];
    uint32_t counts[64], counted[64];
    memset(kept, 0xEE, sizeof kept);
    memset(counts, 0xEE, sizeof counts);
    pw_window_answer w = pw_activity_new(kept, counts, 0);
    CHECK(w.refusal == PW_REFUSED_IMPOSSIBLE_WINDOW && w.place == 0 && w.fill == 0 && w.width == 0);
    w = pw_activity_new(kept, counts, 257);
    CHECK(w.refusal == PW_REFUSED_IMPOSSIBLE_WINDOW && kept[0] == 0xEEEEEEEEEEEEEEEE && counts[63] == 0xEEEEEEEE);
    w = pw_activity_new(kept, counts, 2);
    CHECK(w.refusal == 0 && w.place == 0 && w.fill == 0 && w.width == 2);
    bool zero = true;
    for (size_t i = 0; i < 256; i++) zero = zero && kept[i] == 0 && counts[i % 64] == 0;
    CHECK(zero);
    w = pw_activity_push_minute(kept, counts, w.place, w.fill, w.width, 5);
    CHECK(w.refusal == 0 && w.place == 1 && w.fill == 1 && w.width == 2 && kept[0] == 5);
    w = pw_activity_push_minute(kept, counts, w.place, w.fill, w.width, 1);
    CHECK(w.refusal == 0 && w.place == 0 && w.fill == 2 && counts[0] == 2 && counts[1] == 0 && counts[2] == 1);
    w = pw_activity_push_minute(kept, counts, w.place, w.fill, w.width, 2); /* the first minute is dropped */
    CHECK(w.refusal == 0 && w.place == 1 && w.fill == 2 && kept[0] == 2 && kept[1] == 1);
    CHECK(pw_activity_counts(kept, counts, w.place, w.fill, w.width, counted) == 0);
    CHECK(counted[0] == 1 && counted[1] == 1 && counted[2] == 0 && counted[63] == 0);
    counts[63] = UINT32_MAX; /* a wrong count; below, a word at an unused place */
    CHECK(pw_activity_counts(kept, counts, 1, 2, 2, counted) == PW_REFUSED_IMPOSSIBLE_WINDOW && counted[63] == 0);
    w = pw_activity_push_minute(kept, counts, 1, 2, 2, 9);
    CHECK(w.refusal == PW_REFUSED_IMPOSSIBLE_WINDOW && w.place == 1 && w.fill == 2 && w.width == 2);
    CHECK(kept[1] == 1 && counts[0] == 1 && counts[63] == UINT32_MAX);
    counts[63] = 0;
    kept[255] = 1;
    CHECK(pw_activity_counts(kept, counts, 1, 2, 2, counted) == PW_REFUSED_IMPOSSIBLE_WINDOW);
}

/* Tests each number, with the nearest arguments that pass; a refusal returns the record unchanged and writes nothing. */
static void refusals(void) {
    clean();
    CHECK(pw_extend_constant(0, 0, 0, out, OUT, PW_FLAG_LIMIT + 1, true).refusal == PW_REFUSED_ABOVE_LIMIT);
    CHECK(pw_extend_constant(0, 0, 0, out, OUT, PW_FLAG_LIMIT, true).refusal == PW_REFUSED_OUTPUT_TOO_SMALL);
    CHECK(pw_try_new(A, 1, 2, 6).refusal == 0); /* edge */
    pw_mask_answer made = pw_try_new(A, 1, 2, 7);
    CHECK(made.refusal == PW_REFUSED_OUTSIDE_BYTES && is_mask(made.mask, 0, 0, 0, 0));
    pw_mask counted = {0, 6, 7, 255, 0};
    pw_zeros_answer zeros = pw_unset_bits(counted, A, 1);
    CHECK(zeros.refusal == PW_REFUSED_FALSE_COUNT && is_mask(zeros.mask, 0, 6, 7, 255)); /* unchanged */
    counted.zeros = 3; /* a stale count: A has two zeros */
    CHECK(pw_unset_bits(counted, A, 1).refusal == PW_REFUSED_FALSE_COUNT);
    counted.zeros = 2;
    CHECK(pw_unset_bits(counted, A, 1).refusal == 0 && pw_unset_bits(counted, A, 1).zeros == 2);
    pw_builder_answer b = pw_push(1, 2, 0, out, OUT, true);
    CHECK(b.refusal == PW_REFUSED_IMPOSSIBLE_BUILDER && is_builder(b.builder, 1, 2, 0));
    pw_mask five = {0, 5, 0, 0, 0};
    CHECK(pw_and(MASK_A, A, 1, five, A, 1, out, OUT).refusal == PW_REFUSED_UNEQUAL_LENGTHS);
    made = pw_slice(MASK_A, A, 1, 3, 4);
    CHECK(made.refusal == PW_REFUSED_OUTSIDE_MASK && is_mask(made.mask, 0, 6, 0, 0));
    const pw_mask odd = {3, 6, 77, 0, 0}; /* the number of an unknown count is not read, and is returned */
    made = pw_slice(odd, A, 1, 0, 1);
    CHECK(made.refusal == PW_REFUSED_OUTSIDE_BYTES && is_mask(made.mask, 3, 6, 77, 0));
    zeros = pw_unset_bits(odd, A, 1);
    CHECK(zeros.refusal == PW_REFUSED_OUTSIDE_BYTES && zeros.zeros == 0 && is_mask(zeros.mask, 3, 6, 77, 0));
    pw_mask low = {0, 6, 1, 1, 0}; /* one zero too few: both of A are cut off, and 3 comes before 7 */
    CHECK(pw_slice(low, A, 1, 0, 1).refusal == PW_REFUSED_FALSE_COUNT);
    CHECK(pw_count_zeros(A, 1, 0, 6, 8).refusal == PW_REFUSED_ADDRESS_REMAINDER); /* edge */
    CHECK(pw_new_zeroed(65, out, 15).refusal == PW_REFUSED_OUTPUT_TOO_SMALL); /* edge */
    pw_cursor past = {0, 6, 7, 1};
    pw_step_answer s = pw_slices_next(CURSOR(past), A, 1);
    CHECK(s.refusal == PW_REFUSED_OUTSIDE_MASK && !s.found && s.place == 7);
    s = pw_chunks_remainder(CURSOR(past), A, 1);
    CHECK(s.refusal == PW_REFUSED_OUTSIDE_MASK && !s.found && s.place == 7);
    CHECK(untouched());
}

int main(void) {
    CHECK(pw_interface() != 0);
    superseding();
    words();
    spans();
    chunks();
    builders();
    masks();
    combinations();
    cursors();
    position_chunks();
    grids();
    run_ends();
    at_one_index();
    dispatch();
    offering();
    activity();
    refusals();
    printf("%d checks, %d wrong\n", checks, wrong);
    return wrong != 0;
}
