/* Uses the functions that include/poruwhina.h defines itself: texts, sizes and versions, cursors and builders by pointer, the import of a
 * counted mask, and cuts. Prints a line for each wrong answer, then the totals; exits with 1 if one is wrong. It is also compiled as C++.
 * tests/c/run builds and runs it. */
#include "poruwhina.h"

#include <stdio.h>
#include <string.h>

static int checks, wrong;

#define CHECK(holds) check((holds), #holds, __LINE__)

static void check(bool holds, const char *what, int line) {
    checks++;
    if (!holds) {
        wrong++;
        printf("helpers.c:%d: %s\n", line, what);
    }
}

/* A = 1,0,1,1,0,1, then ones */
static const uint8_t A[8] = {0xED, 0xFF, 0xFF, 0xFF, 0xFF, 0xFF, 0xFF, 0xFF};

static pw_mask mask_of(size_t start, size_t length) {
    pw_mask m = {start, length, 0, 0, 0};
    return m;
}

static bool is_mask(pw_mask m, size_t start, size_t length, size_t zeros, uint8_t known, uint32_t serial) {
    return m.start == start && m.length == length && m.zeros == zeros && m.known == known && m.serial == serial;
}

static void texts(void) {
    CHECK(strcmp(pw_refusal_text(0), "accepted") == 0);
    CHECK(strcmp(pw_refusal_text(PW_REFUSED_OUTSIDE_BYTES), "start + length is above 8 * the bytes lent") == 0);
    CHECK(strcmp(pw_refusal_text(PW_REFUSED_NOT_A_GRID), "rows * columns is not the length of the mask") == 0);
    CHECK(strcmp(pw_refusal_text(10), pw_refusal_text(255)) == 0);
    for (int at = 1; at < 256; at++)
        for (int other = 0; other < at; other++)
            if (strcmp(pw_refusal_text((uint8_t)at), pw_refusal_text(255)) != 0)
                CHECK(strcmp(pw_refusal_text((uint8_t)at), pw_refusal_text((uint8_t)other)) != 0);
}

static void sizes_and_versions(void) {
    static const size_t flags[] = {0, 1, 63, 64, 65, 128, PW_FLAG_LIMIT, SIZE_MAX};
    static const size_t bytes[] = {0, 8, 8, 8, 16, 16, 524288, 0x2000000000000000};
    for (size_t i = 0; i < sizeof flags / sizeof *flags; i++) CHECK(PW_FROZEN_BYTES(flags[i]) == bytes[i]);
    uint8_t out[PW_FROZEN_BYTES(65)];
    CHECK(sizeof out == 16 && PW_FROZEN_BYTES(1 + 64) == 16);
    CHECK(pw_new_zeroed(65, out, PW_FROZEN_BYTES(65)).refusal == 0);
    CHECK(pw_new_zeroed(65, out, PW_FROZEN_BYTES(64)).refusal == PW_REFUSED_OUTPUT_TOO_SMALL);
    unsigned part[3];
    CHECK(sscanf(PW_VERSION, "%u.%u.%u", &part[0], &part[1], &part[2]) == 3);
    CHECK(pw_interface() == PW_INTERFACE);
}

static void cursors(void) {
    pw_cursor runs = pw_slices_new(mask_of(0, 6), A, 8).cursor;
    static const size_t found[3][2] = {{0, 1}, {2, 2}, {5, 1}};
    for (size_t i = 0; i < 3; i++) {
        pw_step_answer run = pw_cursor_slices_next(&runs, A, 8);
        CHECK(run.found && run.value == found[i][0] && run.count == found[i][1] && runs.place == run.place);
    }
    CHECK(!pw_cursor_slices_next(&runs, A, 8).found && runs.place == 6 && runs.start == 0 && runs.length == 6);
    pw_cursor flags = pw_iter_new(A, 8, 1, 5).cursor; /* 0,1,1,0,1 */
    CHECK(pw_cursor_iter_next(&flags, A, 8).value == 0 && flags.place == 1);
    CHECK(pw_cursor_take_leading_ones(&flags, A, 8).count == 2 && flags.place == 3);
    CHECK(pw_cursor_take_leading_zeros(&flags, A, 8).count == 1 && flags.place == 4);
    CHECK(pw_cursor_iter_nth(&flags, A, 8, 1).found == false && flags.place == 5);
    flags.place = 7; /* past its end: refused, and it stays */
    CHECK(pw_cursor_iter_next(&flags, A, 8).refusal == PW_REFUSED_OUTSIDE_MASK && flags.place == 7);
    pw_cursor ones = pw_true_idx_new(6, true, mask_of(0, 6), A, 8).cursor;
    CHECK(pw_cursor_true_idx_next(&ones, A, 8).value == 0 && ones.place == 1);
    uint32_t positions[4] = {9, 9, 9, 9};
    CHECK(pw_cursor_true_idx_next_chunk(&ones, A, 8, positions, 4).count == 3 && positions[0] == 2 && positions[2] == 5);
    CHECK(positions[3] == 9 && ones.place == 6);
    pw_cursor all = pw_true_idx_new(3, false, mask_of(0, 0), NULL, 0).cursor; /* no mask: every position */
    CHECK(pw_cursor_true_idx_next_chunk(&all, NULL, 0, positions, 4).count == 3 && positions[1] == 1);
    pw_cursor words = pw_chunks_new(A, 8, 0, 64).cursor;
    CHECK(pw_cursor_chunks_next(&words, A, 8).value == 0xFFFFFFFFFFFFFFED && words.place == 1);
    CHECK(pw_cursor_chunks_remainder(&words, A, 8).count == 0 && words.place == 1);
}

static void builders(void) {
    uint8_t out[8];
    pw_serial_builder b = pw_serial_builder_new(9);
    CHECK(pw_serial_extend_constant(&b, out, 8, 3, true) == 0 && pw_serial_push(&b, out, 8, false) == 0);
    CHECK(pw_serial_extend_constant(&b, out, 8, 61, true) == PW_REFUSED_OUTPUT_TOO_SMALL && b.builder.length == 4);
    pw_mask_answer made = pw_serial_freeze(&b, out, 8);
    CHECK(made.refusal == 0 && is_mask(made.mask, 0, 4, 1, 1, 9) && out[0] == 7 && out[7] == 0);
}

static void imports(void) {
    pw_mask_answer made = pw_import(A, 8, 0, 6, 2, 7);
    CHECK(made.refusal == 0 && is_mask(made.mask, 0, 6, 2, 1, 7));
    made = pw_import(A, 8, 0, 6, 1, 7);
    CHECK(made.refusal == PW_REFUSED_FALSE_COUNT && is_mask(made.mask, 0, 0, 0, 0, 0));
    made = pw_import(A, 8, 60, 5, 0, 7);
    CHECK(made.refusal == PW_REFUSED_OUTSIDE_BYTES && is_mask(made.mask, 0, 0, 0, 0, 0));
    CHECK(pw_import(A, 8, 0, PW_FLAG_LIMIT + 1, 0, 7).refusal == PW_REFUSED_ABOVE_LIMIT);
    CHECK(pw_import(NULL, 0, 0, 0, 0, 7).refusal == 0 && pw_import(NULL, 0, 0, 0, 1, 7).refusal == PW_REFUSED_FALSE_COUNT);
}

static void cuts(void) {
    const pw_mask whole = mask_of(0, 6);
    pw_mask pit = pw_bitmap_new();
    CHECK(pw_cut(whole, A, 8, 4, 3, &pit) == PW_REFUSED_OUTSIDE_MASK && pit.length == 0);
    CHECK(pw_slice(whole, A, 8, 4, 3).mask.length == 6); /* what its warning says */
    CHECK(pw_cut(whole, A, 8, 2, 3, &pit) == 0 && pit.start == 2 && pit.length == 3);
    CHECK(pw_cut(pit, A, 8, 1, 1, &pit) == 0 && pit.start == 3 && pit.length == 1); /* the mask itself may be written */
    pit = pw_bitmap_new();
    CHECK(pw_cut_row(whole, A, 8, 2, 3, 2, &pit) == PW_REFUSED_OUTSIDE_MASK && pit.length == 0);
    CHECK(pw_cut_row(whole, A, 8, 2, 4, 1, &pit) == PW_REFUSED_NOT_A_GRID && pit.length == 0);
    CHECK(pw_grid_row(whole, A, 8, 2, 3, 2).mask.length == 6);
    CHECK(pw_cut_row(whole, A, 8, 2, 3, 1, &pit) == 0 && pit.start == 3 && pit.length == 3);
    const pw_mask counted = {0, 6, 0, 1, 0}; /* a false count: a refused answer says 0 zeros, and no mask where that means all ones */
    CHECK(pw_unset_bits(counted, A, 8).refusal == PW_REFUSED_FALSE_COUNT && pw_unset_bits(counted, A, 8).zeros == 0);
    CHECK(pw_count_zeros(A, 8, 0, 65, 0).refusal == PW_REFUSED_OUTSIDE_BYTES && pw_count_zeros(A, 8, 0, 65, 0).value == 0);
    uint8_t out[8];
    pw_validity_answer none = pw_into_opt_validity(3, 8, 0, out, 8, 0); /* bit 3 of a word of three flags */
    CHECK(none.refusal == PW_REFUSED_IMPOSSIBLE_BUILDER && !none.present);
}

int main(void) {
    texts();
    sizes_and_versions();
    cursors();
    builders();
    imports();
    cuts();
    printf("%d checks, %d wrong\n", checks, wrong);
    return wrong != 0;
}
