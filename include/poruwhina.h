/* The calls of Poruwhina for C, x86-64 only. A release has the library in lib/; in the repository bindings/library makes it,
 * target/staticlib/libporuwhina.a.
 *
 * Flag j of a buffer is bit j mod 8 of byte j div 8, least significant bit first; a word is 64 flags, little-endian. A span is a start
 * bit and a length in flags over a buffer. The frozen bytes of n flags are 8 * ceil(n / 64) bytes that begin with the flags; all bits
 * after these are 0.
 *
 * A buffer is a pointer and the number of its elements, which must exist; the pointer may be NULL only if that number is 0. The library
 * cannot check it, and AddressSanitizer does not see reads and writes inside the library, which is compiled without it; valgrind does. A
 * buffer that is written must not overlap any other buffer of the call, so that no output may be an input's bytes; each call names those
 * that it means. Buffers that are only read may overlap. Nothing is allocated, kept or freed, and there is no state between calls: a
 * record is passed and returned by value, and any numbers in it are allowed. A builder and a cursor are passed as their numbers, which are
 * quicker to pass from call to call than a record; functions that take them by pointer are below the calls.
 *
 * Each call checks its arguments. It returns in `refusal` 0, or one of the numbers listed for it, and has then written nothing. If
 * several checks fail, `refusal` is the number that comes first in the list of refusals below. On refusal the answer has what the call
 * would have changed, unchanged: a mask, a builder, a cursor's place, the cursor of an offer, a window's numbers. Every other field is
 * then 0. A program that does not test `refusal` may then go on with more trucks than it asked for: where that is so, the comment of the
 * call ends with a warning. pw_cut and pw_cut_row cut a mask and write it only if they are accepted.
 *
 * Each call that takes a mask whose count is known counts its zeros again, and refuses a count that is not exact. A record that this
 * library returned may be passed without its count (`known` 0), with the bytes that it belongs to: this changes no answer except the
 * counts in returned records, and nothing is counted again. Pass a record from elsewhere with its count: without it a false count is not
 * found; pw_import passes it so. Do not keep the count of a mask made from a builder that may be damaged: check 4 does not count the
 * buffer's ones, so that `pw_freeze` may return a false count for it, and `pw_into_opt_validity` a false count or none.
 *
 * An array in a prototype must have as many elements as the prototype states. */
#ifndef PORUWHINA_H
#define PORUWHINA_H

#include <stdbool.h>
#include <stddef.h>
#include <stdint.h>

#ifdef __cplusplus
extern "C" {
#endif

/* ---- numbers */

/* The largest start and length, in flags. */
#define PW_FLAG_LIMIT 4194304

/* The size in bytes of the frozen bytes of n flags, for arrays and for what is allocated: n is read twice. */
#define PW_FROZEN_BYTES(n) (((size_t)(n) / 64 + ((size_t)(n) % 64 != 0)) * 8)

/* In front of a function whose result must not be ignored: the compiler warns, where it is GCC or Clang. */
#if defined(__GNUC__)
#define PW_MUST_USE __attribute__((warn_unused_result))
#else
#define PW_MUST_USE
#endif

/* ---- written by tests/declarations.py from include/refusals.txt and crates/capi: change it there */

/* The numbers of refusals, each with the check that failed, in the order of the checks: of several that fail, the first one here. */

/* The width of the window of minutes is not 1 to 256, or no run of minutes at its width leaves the window. */
#define PW_REFUSED_IMPOSSIBLE_WINDOW 16
/* A start or a length is above 4,194,304: of a span, mask, cursor, builder or inner piece, a stated length, or a resulting start or
 * length. */
#define PW_REFUSED_ABOVE_LIMIT 1
/* start + length is above 8 * the bytes lent. */
#define PW_REFUSED_OUTSIDE_BYTES 2
/* An end of 0 or below, one that is not above the end before it, a last end below the length, no runs for a length above 0, or a
 * number of values that is not the number of ends. */
#define PW_REFUSED_BROKEN_RUN_ENDS 13
/* A known zero count is not the number of zeros among the flags. Each call that takes a mask counts a known one again. */
#define PW_REFUSED_FALSE_COUNT 3
/* Two masks with equal serials have different flags or lengths. */
#define PW_REFUSED_SERIAL_CONFLICT 14
/* The builder is not possible: its word has a bit set at or above length mod 64, its ones are above 64 * (length div 64), or its
 * buffer has fewer than 8 * (length div 64) bytes. */
#define PW_REFUSED_IMPOSSIBLE_BUILDER 4
/* The masks combined, or a mask and the length stated for it, differ in length. */
#define PW_REFUSED_UNEQUAL_LENGTHS 5
/* rows * columns, computed exactly, is not the length of the mask. */
#define PW_REFUSED_NOT_A_GRID 12
/* A slice's end, a split point or a cursor's place is above the length, an index or a truck is not below it, a row or a column is not
 * below the number of rows or of columns, or a pushed word has more than 64 flags or a bit set after them. */
#define PW_REFUSED_OUTSIDE_MASK 6
/* When a slice recounts, the known count is below the zeros cut off, or the rest of it is above the new length. No call returns this
 * number: a known count is exact, since check 3 comes first. */
#define PW_REFUSED_COUNT_NOT_OF_SLICE 7
/* The address remainder is above 7. */
#define PW_REFUSED_ADDRESS_REMAINDER 8
/* The output, or the builder's buffer, has fewer than 8 * ceil(new length / 64) bytes, or the output of counts or of run ends has
 * fewer places than there are counts or runs. */
#define PW_REFUSED_OUTPUT_TOO_SMALL 9

/* Returns what a refusal means, in the words that the Rust crate prints; for 0, that the call was accepted. */
static inline const char *pw_refusal_text(uint8_t refusal) {
    switch (refusal) {
    case 0:
        return "accepted";
    case PW_REFUSED_IMPOSSIBLE_WINDOW:
        return "the width is not 1 to 256, or no run of minutes leaves the window";
    case PW_REFUSED_ABOVE_LIMIT:
        return "a start or a length is above 4,194,304";
    case PW_REFUSED_OUTSIDE_BYTES:
        return "start + length is above 8 * the bytes lent";
    case PW_REFUSED_BROKEN_RUN_ENDS:
        return "the run ends do not rise from above 0 to the length or above it, or are not as many as their values";
    case PW_REFUSED_FALSE_COUNT:
        return "a known zero count is not the number of zeros";
    case PW_REFUSED_SERIAL_CONFLICT:
        return "the masks have equal serials and different flags";
    case PW_REFUSED_IMPOSSIBLE_BUILDER:
        return "the builder is not possible: its word, ones or buffer do not fit its length";
    case PW_REFUSED_UNEQUAL_LENGTHS:
        return "the masks combined, or a mask and the length stated for it, are not equal in length";
    case PW_REFUSED_NOT_A_GRID:
        return "rows * columns is not the length of the mask";
    case PW_REFUSED_OUTSIDE_MASK:
        return "the inner piece does not lie in its mask";
    case PW_REFUSED_COUNT_NOT_OF_SLICE:
        return "the known count is below the zeros cut off, or the rest above the new length";
    case PW_REFUSED_ADDRESS_REMAINDER:
        return "the address remainder is above 7";
    case PW_REFUSED_OUTPUT_TOO_SMALL:
        return "the output does not hold 8 * ceil(new length / 64) bytes, or all counts or ends";
    default:
        return "no refusal has this number";
    }
}

/* ---- records */

/* A mask: a span of its bytes, its zero count, and the serial of the revocation list that it was drawn up under. `zeros` is read only
 * if `known` is not 0; an unknown count is returned as 0. */
typedef struct {
    size_t start;
    size_t length;
    size_t zeros;
    uint8_t known;
    uint32_t serial;
} pw_mask;

/* A builder: its length, the word in progress and the number of ones in the finished words, which are in its buffer. It has no serial,
 * since no append changes it: the caller keeps the serial with the builder and passes it to pw_freeze and pw_into_opt_validity. */
typedef struct {
    size_t length;
    uint64_t word;
    size_t ones;
} pw_builder;

/* A cursor: a span and the next place in it, counted in flags, or in words for pw_chunks_. `masked` is 0 for a cursor that
 * pw_true_idx_new makes without a mask, else 1; only pw_true_idx_next and pw_true_idx_next_chunk read it. */
typedef struct {
    size_t start;
    size_t length;
    size_t place;
    uint8_t masked;
} pw_cursor;

/* A number. */
typedef struct {
    uint8_t refusal;
    size_t value;
} pw_number_answer;

/* A flag, or the answer yes or no. */
typedef struct {
    uint8_t refusal;
    bool value;
} pw_flag_answer;

/* A position, if `found`; else `value` is 0. */
typedef struct {
    uint8_t refusal;
    bool found;
    size_t value;
} pw_position_answer;

/* The position of a set bit of a word in `value`, if `found`; else the number of set bits of the word in `ones`. */
typedef struct {
    uint8_t refusal;
    bool found;
    uint32_t value;
    uint32_t ones;
} pw_nth_answer;

/* A position, if `found`, and the number of windows of 32 flags read. */
typedef struct {
    uint8_t refusal;
    bool found;
    size_t position;
    size_t windows;
} pw_next_answer;

/* A truck, if `found`; the cursor for the next call; and the number of windows of 32 flags read. */
typedef struct {
    uint8_t refusal;
    bool found;
    size_t truck;
    size_t cursor;
    size_t windows;
} pw_offer_answer;

/* A mask. */
typedef struct {
    uint8_t refusal;
    pw_mask mask;
} pw_mask_answer;

/* A mask, if `present`. If `present` is false and `refusal` is 0, all flags are set, or there are none. */
typedef struct {
    uint8_t refusal;
    bool present;
    pw_mask mask;
} pw_validity_answer;

/* The number of zeros of a mask, and the mask with that count stored. */
typedef struct {
    uint8_t refusal;
    size_t zeros;
    pw_mask mask;
} pw_zeros_answer;

/* The winner of two masks. It is the second one if `second` is true, else the first. Its bytes are those of the slice passed with it
 * that are numbered `from` up to, not including, `to`; `mask` is its record over them. On refusal they are an empty part of the first
 * slice. */
typedef struct {
    uint8_t refusal;
    bool second;
    size_t from;
    size_t to;
    pw_mask mask;
} pw_part_answer;

/* The builder after the append, unchanged on refusal. */
typedef struct {
    uint8_t refusal;
    pw_builder builder;
} pw_builder_answer;

/* A new cursor. */
typedef struct {
    uint8_t refusal;
    pw_cursor cursor;
} pw_cursor_answer;

/* The item that a cursor returns, if `found`, and the cursor's new place; its start and length do not change. `value` is a word, a
 * run's start, a flag as 0 or 1, or a position; `count` is a run's length, the number of flags of a remainder, of flags counted or of
 * positions written. */
typedef struct {
    uint8_t refusal;
    bool found;
    uint64_t value;
    size_t count;
    size_t place;
} pw_step_answer;

/* A span split in three: the lengths are in flags, `bulk_start` is a byte of the buffer, `bulk_len` is a number of words. */
typedef struct {
    uint8_t refusal;
    uint64_t prefix;
    size_t prefix_len;
    size_t bulk_start;
    size_t bulk_len;
    uint64_t suffix;
    size_t suffix_len;
} pw_split_answer;

/* Two spans. */
typedef struct {
    uint8_t refusal;
    size_t first_start;
    size_t first_length;
    size_t second_start;
    size_t second_length;
} pw_spans_answer;

/* A window of minutes without its arrays: the place of its next word, the number of words that it has, and its width. */
typedef struct {
    uint8_t refusal;
    size_t place;
    size_t fill;
    size_t width;
} pw_window_answer;

/* ---- The calls of words. They refuse nothing. */

/* Loads the first eight bytes of `part` as a little-endian word, padding a shorter slice with zeros. */
uint64_t pw_load_padded_le_u64(const uint8_t *part, size_t part_len);

/* Returns 64 flags: those of `current` starting at `offset`, then the low flags of `next`. An offset of 0, or of 64 or more, returns
 * `current`. */
uint64_t pw_merge_reversed(uint64_t current, uint64_t next, size_t offset);

/* Returns in `value` the position of set bit `n` of the word `w`, counting from 0. If at most `n` bits are set, `found` is false and
 * `ones` is the number of set bits. Refuses nothing. */
pw_nth_answer pw_nth_set_bit_u64(uint64_t w, uint64_t n);

/* Returns in `value` the position of set bit `n` of the 32-bit word `w`, counting from 0. If at most `n` bits are set, `found` is
 * false and `ones` is the number of set bits. Refuses nothing. */
pw_nth_answer pw_nth_set_bit_u32(uint32_t w, uint32_t n);

/* ---- The calls over spans without a mask: the aligned split, the counts, a span split in two, 32 flags as a number. */

/* Splits a span into a prefix, whole words at addresses divisible by 8, and a suffix. `address` is the address of the first byte
 * modulo 8. A span that lies in eight bytes is all prefix. With length 0 every field is 0, without any check. Refuses with 1, 2, 8;
 * every other field is then 0. */
pw_split_answer pw_aligned_new(const uint8_t *bytes, size_t bytes_len, size_t start, size_t length, size_t address);

/* Counts the zeros of a span. `address` is the address of the first byte modulo 8; the count does not depend on it. With length 0
 * returns 0 without any check. Refuses with 1, 2, 8; every other field is then 0. WARNING: a refused answer says 0 zeros, which is
 * what a span of ones has: test `refusal` first. */
pw_number_answer pw_count_zeros(const uint8_t *bytes, size_t bytes_len, size_t start, size_t length, size_t address);

/* Counts the zeros before the first set flag of a span, or the whole length if no flag is set. `address` is the address of the first
 * byte modulo 8; the count does not depend on it. With length 0 returns 0 without any check. Refuses with 1, 2, 8; every other field
 * is then 0. */
pw_number_answer pw_leading_zeros(const uint8_t *bytes, size_t bytes_len, size_t start, size_t length,
    size_t address);

/* Counts the ones before the first zero of a span, or the whole length if every flag is set. `address` is the address of the first
 * byte modulo 8; the count does not depend on it. With length 0 returns 0 without any check. Refuses with 1, 2, 8; every other field
 * is then 0. */
pw_number_answer pw_leading_ones(const uint8_t *bytes, size_t bytes_len, size_t start, size_t length,
    size_t address);

/* Counts the zeros after the last set flag of a span, or the whole length if no flag is set. `address` is the address of the first
 * byte modulo 8; the count does not depend on it. With length 0 returns 0 without any check. Refuses with 1, 2, 8; every other field
 * is then 0. */
pw_number_answer pw_trailing_zeros(const uint8_t *bytes, size_t bytes_len, size_t start, size_t length,
    size_t address);

/* Counts the ones after the last zero of a span, or the whole length if every flag is set. `address` is the address of the first byte
 * modulo 8; the count does not depend on it. With length 0 returns 0 without any check. Refuses with 1, 2, 8; every other field is
 * then 0. */
pw_number_answer pw_trailing_ones(const uint8_t *bytes, size_t bytes_len, size_t start, size_t length,
    size_t address);

/* Returns two spans: the first `at` flags, and the flags starting at `at`. `at` may equal the length; above it the call is refused
 * with 6. Refuses with 1, 2, 6; every other field is then 0. */
pw_spans_answer pw_split_at_unchecked(const uint8_t *bytes, size_t bytes_len, size_t start, size_t length,
    size_t at);

/* Returns 32 flags starting at `index`, the first in the lowest bit, with zeros past the end of the span. `index` may be any number.
 * Refuses with 1, 2; every other field is then 0. */
pw_number_answer pw_get_u32(const uint8_t *bytes, size_t bytes_len, size_t start, size_t length, size_t index);

/* ---- The searches for the n-th set flag of a span. */

/* Returns the position of the n-th set flag at or after `from`, counting from 0. `found` is false if at most `n` flags are set there.
 * `from` may exceed the length. Refuses with 1, 2; every other field is then 0. */
pw_position_answer pw_nth_set_bit_idx(const uint8_t *bytes, size_t bytes_len, size_t start, size_t length, size_t n,
    size_t from);

/* Returns the position of the n-th set flag before `end`, counting down from 0: number 0 is the set flag nearest to `end`. `found` is
 * false if at most `n` flags are set there. `end` may exceed the length. Refuses with 1, 2; every other field is then 0. */
pw_position_answer pw_nth_set_bit_idx_rev(const uint8_t *bytes, size_t bytes_len, size_t start, size_t length,
    size_t n, size_t end);

/* ---- The words of a span, and the flags after the last whole one. */

/* Returns a cursor at the first word of a span. Refuses with 1, 2; every other field is then 0. */
pw_cursor_answer pw_chunks_new(const uint8_t *bytes, size_t bytes_len, size_t start, size_t length);

/* Returns a cursor at the first word of the first `length` flags of `bytes`. Refuses with 1, 2; every other field is then 0. */
pw_cursor_answer pw_chunks_new_exact(const uint8_t *bytes, size_t bytes_len, size_t length);

/* Returns the next word in `value` and moves the cursor one word on. After the last whole word `found` is false and the cursor does
 * not move. Refuses with 1, 2, 6; `place` is unchanged, and every other field is 0. */
pw_step_answer pw_chunks_next(size_t start, size_t length, size_t place, const uint8_t *bytes, size_t bytes_len);

/* Returns the last length mod 64 flags of the span as a word in `value`, zero above them, and their number in `count`. `found` is
 * true. The result does not depend on the place, and the cursor does not move. Refuses with 1, 2, 6; `place` is unchanged, and every
 * other field is 0. */
pw_step_answer pw_chunks_remainder(size_t start, size_t length, size_t place, const uint8_t *bytes,
    size_t bytes_len);

/* ---- The builder. Each append writes finished words to `buf`, leaves its other bytes unchanged, and returns the builder after it;
 * pw_freeze and pw_into_opt_validity write the frozen bytes at the start of `buf`. */

/* Returns a builder with no flags. */
pw_builder pw_builder_new(void);

/* Appends `flag`. Refuses with 1, 4, 9; the builder is unchanged. */
pw_builder_answer pw_push(size_t length, uint64_t word, size_t ones, uint8_t *buf, size_t buf_len, bool flag);

/* Appends `n` copies of `flag`. Refuses with 1, 4, 9; the builder is unchanged. */
pw_builder_answer pw_extend_constant(size_t length, uint64_t word, size_t ones, uint8_t *buf, size_t buf_len,
    size_t n, bool flag);

/* Appends the lowest `n` bits of `flags`, bit 0 first. `n` must be at most 64, and all higher bits 0. Refuses with 1, 4, 6, 9; the
 * builder is unchanged. */
pw_builder_answer pw_push_word_with_len_unchecked(size_t length, uint64_t word, size_t ones, uint8_t *buf,
    size_t buf_len, uint64_t flags, size_t n);

/* Appends the `n` flags of `bytes` that start at bit `start`. Refuses with 1, 2, 4, 9; the builder is unchanged. No byte of `buf` may
 * be one of `bytes`. */
pw_builder_answer pw_extend_from_slice(size_t length, uint64_t word, size_t ones, uint8_t *buf, size_t buf_len,
    const uint8_t *bytes, size_t bytes_len, size_t start, size_t n);

/* Appends `repeats` copies of each of the `n` flags of `bytes` that start at bit `start`, one flag after the other. Refuses with 1, 2,
 * 4, 9; the builder is unchanged. No byte of `buf` may be one of `bytes`. */
pw_builder_answer pw_extend_each_repeated_from_slice_unchecked(size_t length, uint64_t word, size_t ones,
    uint8_t *buf, size_t buf_len, const uint8_t *bytes, size_t bytes_len, size_t start, size_t n, size_t repeats);

/* Appends the `n` flags of `mask` that start at its flag `start`. Refuses with 1, 2, 3, 4, 6, 9; the builder is unchanged. No byte of
 * `buf` may be one of `bytes`. */
pw_builder_answer pw_subslice_extend_from_bitmap(size_t length, uint64_t word, size_t ones, uint8_t *buf,
    size_t buf_len, pw_mask mask, const uint8_t *bytes, size_t bytes_len, size_t start, size_t n);

/* Appends, for each index in `idxs`, that flag of the `n` flags of `bytes` that start at bit `start`. Each index must be below `n`.
 * Refuses with 1, 2, 4, 6, 9; the builder is unchanged. No byte of `buf` may be one of `bytes` or `idxs`. */
pw_builder_answer pw_gather_extend_from_slice(size_t length, uint64_t word, size_t ones, uint8_t *buf,
    size_t buf_len, const uint8_t *bytes, size_t bytes_len, size_t start, size_t n, const uint32_t *idxs,
    size_t idxs_len);

/* Appends, for each index in `idxs`, that flag of the `n` flags of `bytes` that start at bit `start`, or 0 if the index is `n` or
 * more. Refuses with 1, 2, 4, 9; the builder is unchanged. No byte of `buf` may be one of `bytes` or `idxs`. */
pw_builder_answer pw_opt_gather_extend_from_slice(size_t length, uint64_t word, size_t ones, uint8_t *buf,
    size_t buf_len, const uint8_t *bytes, size_t bytes_len, size_t start, size_t n, const uint32_t *idxs,
    size_t idxs_len);

/* Writes the frozen bytes of the builder's flags at the start of `buf` and returns the mask over them, with its zero count known from
 * `ones` and `word`, and with the builder's `serial`, which the caller kept. The builder is not returned: it does not change. Refuses
 * with 1, 4, 9; every other field is then 0. */
pw_mask_answer pw_freeze(size_t length, uint64_t word, size_t ones, uint8_t *buf, size_t buf_len, uint32_t serial);

/* Writes the frozen bytes of the builder's flags at the start of `buf` and returns the mask that pw_freeze returns, or no mask if all
 * flags are set, also if there are no flags. As in Arrow, no mask means all ones here; in pw_may_reassign no permission mask means no
 * truck: end the builder of a permission mask with pw_freeze. Refuses with 1, 4, 9; every other field is then 0. WARNING: a refused
 * answer has no mask, which otherwise means all ones: test `refusal` first. */
pw_validity_answer pw_into_opt_validity(size_t length, uint64_t word, size_t ones, uint8_t *buf, size_t buf_len,
    uint32_t serial);

/* ---- The calls that make, slice, count and compare masks. */

/* Returns the mask of no flags, its zero count known as 0. */
pw_mask pw_bitmap_new(void);

/* Writes the frozen bytes of `length` zeros at the start of `out` and returns the mask over them, its zero count known. Refuses with
 * 1, 9; every other field is then 0. */
pw_mask_answer pw_new_zeroed(size_t length, uint8_t *out, size_t out_len);

/* Returns the mask of the `length` flags of `bytes` that start at bit `start`. Its zero count is unknown, or known as 0 if `length` is
 * 0. Refuses with 1, 2; every other field is then 0. */
pw_mask_answer pw_try_new(const uint8_t *bytes, size_t bytes_len, size_t start, size_t length);

/* Returns the mask of the `length` flags of `mask` that start at its flag `offset`, over the same bytes. Its zero count may be unknown
 * although that of `mask` is known. Refuses with 1, 2, 3, 6, 7; the mask is unchanged, every field of it. WARNING: a refused answer
 * has `mask` whole, with all its flags: test `refusal` first, or call pw_cut. */
pw_mask_answer pw_slice(pw_mask mask, const uint8_t *bytes, size_t bytes_len, size_t offset, size_t length);

/* Returns the number of zeros of `mask`, and the mask with that count stored. Refuses with 1, 2, 3; the mask is unchanged, every field
 * of it, and `zeros` is 0. WARNING: a refused answer has `mask` unchanged, and says 0 zeros, which is what a mask of ones has: test
 * `refusal` first. */
pw_zeros_answer pw_unset_bits(pw_mask mask, const uint8_t *bytes, size_t bytes_len);

/* Returns whether two masks have equal lengths and equal flags. Unequal lengths are not refused, and serials are ignored. Refuses with
 * 1, 2, 3; every other field is then 0. */
pw_flag_answer pw_eq(pw_mask lhs, const uint8_t *lhs_bytes, size_t lhs_bytes_len, pw_mask rhs,
    const uint8_t *rhs_bytes, size_t rhs_bytes_len);

/* Counts the flags of a mask that differ from the next flag. Refuses with 1, 2, 3; every other field is then 0. */
pw_number_answer pw_num_edges(pw_mask mask, const uint8_t *bytes, size_t bytes_len);

/* Counts the flags that are set in both of two masks of equal lengths. Refuses with 1, 2, 3, 5; every other field is then 0. */
pw_number_answer pw_num_intersections_with(pw_mask lhs, const uint8_t *lhs_bytes, size_t lhs_bytes_len, pw_mask rhs,
    const uint8_t *rhs_bytes, size_t rhs_bytes_len);

/* ---- Which of two masks supersedes the other. The C interface has no references: the part of the bytes is returned as the slice that
 * it is of, its first byte and the byte past its last. */

/* Returns the winner of two masks of one operator, the one with the larger serial, over the part of its bytes that holds it. With
 * equal serials and equal flags the first wins; with equal serials and different flags the call is refused with 14. Both masks are
 * checked, the loser too. Refuses with 1, 2, 3, 14; every other field is then 0. */
pw_part_answer pw_superseding(pw_mask first, const uint8_t *first_bytes, size_t first_bytes_len, pw_mask second,
    const uint8_t *second_bytes, size_t second_bytes_len);

/* ---- The combinations of masks of equal lengths. The mask returned has start 0 and the largest of their serials. */

/* Writes which flags are set in both masks, as frozen bytes at the start of `out`, and returns the mask over them. Refuses with 1, 2,
 * 3, 5, 9; every other field is then 0. No byte of `out` may be one of `lhs_bytes` or `rhs_bytes`. */
pw_mask_answer pw_and(pw_mask lhs, const uint8_t *lhs_bytes, size_t lhs_bytes_len, pw_mask rhs,
    const uint8_t *rhs_bytes, size_t rhs_bytes_len, uint8_t *out, size_t out_len);

/* Writes which flags are set in the first mask and not in the second, as frozen bytes at the start of `out`, and returns the mask over
 * them. Refuses with 1, 2, 3, 5, 9; every other field is then 0. No byte of `out` may be one of `lhs_bytes` or `rhs_bytes`. */
pw_mask_answer pw_and_not(pw_mask lhs, const uint8_t *lhs_bytes, size_t lhs_bytes_len, pw_mask rhs,
    const uint8_t *rhs_bytes, size_t rhs_bytes_len, uint8_t *out, size_t out_len);

/* Writes which flags are set in at least one of two masks, as frozen bytes at the start of `out`, and returns the mask over them.
 * Refuses with 1, 2, 3, 5, 9; every other field is then 0. No byte of `out` may be one of `lhs_bytes` or `rhs_bytes`. */
pw_mask_answer pw_or(pw_mask lhs, const uint8_t *lhs_bytes, size_t lhs_bytes_len, pw_mask rhs,
    const uint8_t *rhs_bytes, size_t rhs_bytes_len, uint8_t *out, size_t out_len);

/* Writes which flags are set in the first mask or not set in the second, as frozen bytes at the start of `out`, and returns the mask
 * over them. Refuses with 1, 2, 3, 5, 9; every other field is then 0. No byte of `out` may be one of `lhs_bytes` or `rhs_bytes`. */
pw_mask_answer pw_or_not(pw_mask lhs, const uint8_t *lhs_bytes, size_t lhs_bytes_len, pw_mask rhs,
    const uint8_t *rhs_bytes, size_t rhs_bytes_len, uint8_t *out, size_t out_len);

/* Writes which flags differ between two masks, as frozen bytes at the start of `out`, and returns the mask over them. Refuses with 1,
 * 2, 3, 5, 9; every other field is then 0. No byte of `out` may be one of `lhs_bytes` or `rhs_bytes`. */
pw_mask_answer pw_xor(pw_mask lhs, const uint8_t *lhs_bytes, size_t lhs_bytes_len, pw_mask rhs,
    const uint8_t *rhs_bytes, size_t rhs_bytes_len, uint8_t *out, size_t out_len);

/* Writes each flag of a mask inverted, as frozen bytes at the start of `out`, and returns the mask over them. Refuses with 1, 2, 3, 9;
 * every other field is then 0. No byte of `out` may be one of `bytes`. */
pw_mask_answer pw_not(pw_mask mask, const uint8_t *bytes, size_t bytes_len, uint8_t *out, size_t out_len);

/* Writes the flag of `truthy` where the selector's is set, else that of `falsy`, as frozen bytes at the start of `out`, and returns
 * the mask over them. Refuses with 1, 2, 3, 5, 9; every other field is then 0. No byte of `out` may be one of `selector_bytes`,
 * `truthy_bytes` or `falsy_bytes`. */
pw_mask_answer pw_select(pw_mask selector, const uint8_t *selector_bytes, size_t selector_bytes_len, pw_mask truthy,
    const uint8_t *truthy_bytes, size_t truthy_bytes_len, pw_mask falsy, const uint8_t *falsy_bytes,
    size_t falsy_bytes_len, uint8_t *out, size_t out_len);

/* Writes the flag of `truthy` where the selector's is set, else `flag`, as frozen bytes at the start of `out`, and returns the mask
 * over them. Refuses with 1, 2, 3, 5, 9; every other field is then 0. No byte of `out` may be one of `selector_bytes` or
 * `truthy_bytes`. */
pw_mask_answer pw_select_constant(pw_mask selector, const uint8_t *selector_bytes, size_t selector_bytes_len,
    pw_mask truthy, const uint8_t *truthy_bytes, size_t truthy_bytes_len, bool flag, uint8_t *out, size_t out_len);

/* ---- A mask as a grid of rows and columns: flag r * columns + c is row r, column c. Neither number is a length: check 1 is not made
 * of them. Their product is exact: no two numbers wrap to a mask's length. */

/* Returns the mask of row `row`, over the same bytes: what pw_slice returns for the `columns` flags that start at flag row * columns.
 * Refusal 12 means that rows * columns is not the length of `mask`, 6 that `row` is not below `rows`. The start of a row is put to
 * check 1 only if there is such a row. Refuses with 1, 2, 3, 12, 6, 7; the mask is unchanged, every field of it. WARNING: a refused
 * answer has `mask` whole, with all its flags: test `refusal` first, or call pw_cut_row. */
pw_mask_answer pw_grid_row(pw_mask mask, const uint8_t *bytes, size_t bytes_len, size_t rows, size_t columns,
    size_t row);

/* Writes the frozen bytes of column `column`, of `rows` flags, at the start of `out` and returns the mask over them. Its zero count is
 * unknown, or known as 0 if there are no rows; its serial is that of `mask`. Refusal 12 means that rows * columns is not the length of
 * `mask`, 6 that `column` is not below `columns`. Refuses with 1, 2, 3, 12, 6, 9; every other field is then 0. No byte of `out` may be
 * one of `bytes`. */
pw_mask_answer pw_grid_column(pw_mask mask, const uint8_t *bytes, size_t bytes_len, size_t rows, size_t columns,
    size_t column, uint8_t *out, size_t out_len);

/* Writes the frozen bytes of the grid with rows and columns exchanged at the start of `out`, with flag r * columns + c of `mask` as
 * flag c * rows + r, and returns the mask over them. Its zero count is unknown, or known as 0 if there are no flags; its serial is
 * that of `mask`. Refusal 12 means that rows * columns is not the length of `mask`. Refuses with 1, 2, 3, 12, 9; every other field is
 * then 0. No byte of `out` may be one of `bytes`. */
pw_mask_answer pw_grid_transpose(pw_mask mask, const uint8_t *bytes, size_t bytes_len, size_t rows, size_t columns,
    uint8_t *out, size_t out_len);

/* Writes the number of zeros of each row at the start of `counts` and returns how many counts are written, `rows`; the rest of
 * `counts` is unchanged. Refusal 12 means that rows * columns is not the length of `mask`, 9 that `counts` has fewer than `rows`
 * places. Refuses with 1, 2, 3, 12, 9; every other field is then 0. No byte of `counts` may be one of `bytes`. */
pw_number_answer pw_grid_row_zeros(pw_mask mask, const uint8_t *bytes, size_t bytes_len, size_t rows,
    size_t columns, uint32_t *counts, size_t counts_len);

/* Writes the number of zeros of each column at the start of `counts` and returns how many counts are written, `columns`; the rest of
 * `counts` is unchanged. Refusal 12 means that rows * columns is not the length of `mask`, 9 that `counts` has fewer than `columns`
 * places. Refuses with 1, 2, 3, 12, 9; every other field is then 0. No byte of `counts` may be one of `bytes`. */
pw_number_answer pw_grid_column_zeros(pw_mask mask, const uint8_t *bytes, size_t bytes_len, size_t rows,
    size_t columns, uint32_t *counts, size_t counts_len);

/* ---- A mask as run ends and a mask of their values, as Arrow's run-end encoded arrays have them. Ends are numbers of 32 bits with a
 * sign, and any such number gets an answer. */

/* Writes the frozen bytes of `length` flags at the start of `out` and returns the mask over them: flag p is the value of the first run
 * whose end is above p. `values`, with its `bytes`, has the value of each run. The zero count is unknown, or known as 0 if `length` is
 * 0; the serial is that of `values`. Refusal 13 means that an end is 0 or below or not above the one before it, that the last one is
 * below `length`, that there are no ends for a length above 0, or that `values` does not have as many flags as there are ends. Only
 * the last end is held to the length: ends above it pass. Refuses with 1, 2, 13, 3, 9; every other field is then 0. No byte of `out`
 * may be one of `ends` or `bytes`. */
pw_mask_answer pw_from_run_ends(const int32_t *ends, size_t ends_len, pw_mask values, const uint8_t *bytes,
    size_t bytes_len, size_t length, uint8_t *out, size_t out_len);

/* Writes the fewest runs that have the flags of `mask`: where each run ends at the start of `ends`, and the frozen bytes of the runs'
 * flags at the start of `out`. Returns the mask of these flags, over `out`: its length is the number of runs, which is 0 for a mask of
 * no flags, and the last end is the length of `mask`. Its zero count is unknown, or known as 0 if there are no runs; its serial is
 * that of `mask`. Refusal 9 means that `ends` has fewer places than there are runs, or `out` fewer than 8 * ceil(runs / 64) bytes;
 * neither is then written. Refuses with 1, 2, 3, 9; every other field is then 0. No byte of `ends` may be one of `bytes` or `out`. No
 * byte of `out` may be one of `bytes`. */
pw_mask_answer pw_to_run_ends(pw_mask mask, const uint8_t *bytes, size_t bytes_len, int32_t *ends, size_t ends_len,
    uint8_t *out, size_t out_len);

/* ---- The cursors over runs, flags and positions. A step that finds nothing moves the cursor to the length. */

/* Returns a cursor before the first run of ones of a mask. Refuses with 1, 2, 3; every other field is then 0. */
pw_cursor_answer pw_slices_new(pw_mask mask, const uint8_t *bytes, size_t bytes_len);

/* Returns the next run of ones, its start in `value` and its length in `count`, and moves the cursor past it. If there is no further
 * run, `found` is false and the place is the length. Refuses with 1, 2, 6; `place` is unchanged, and every other field is 0. */
pw_step_answer pw_slices_next(size_t start, size_t length, size_t place, const uint8_t *bytes, size_t bytes_len);

/* Returns a cursor before the first flag of a span. With length 0 its start, length and place are 0, without any check. Refuses with
 * 1, 2; every other field is then 0. */
pw_cursor_answer pw_iter_new(const uint8_t *bytes, size_t bytes_len, size_t start, size_t length);

/* Returns the next flag, 0 or 1, in `value` and moves the cursor past it. At the end `found` is false and the cursor does not move.
 * Refuses with 1, 2, 6; `place` is unchanged, and every other field is 0. */
pw_step_answer pw_iter_next(size_t start, size_t length, size_t place, const uint8_t *bytes, size_t bytes_len);

/* Skips `n` flags, returns the following one, 0 or 1, in `value` and moves the cursor past it. If there is no such flag, `found` is
 * false and the place is the length. Refuses with 1, 2, 6; `place` is unchanged, and every other field is 0. */
pw_step_answer pw_iter_nth(size_t start, size_t length, size_t place, const uint8_t *bytes, size_t bytes_len,
    size_t n);

/* Counts the ones from the cursor up to the next zero, or to the end, returns their number in `count` and moves the cursor past them.
 * `found` is true, also if `count` is 0. Refuses with 1, 2, 6; `place` is unchanged, and every other field is 0. */
pw_step_answer pw_take_leading_ones(size_t start, size_t length, size_t place, const uint8_t *bytes,
    size_t bytes_len);

/* Counts the zeros from the cursor up to the next one, or to the end, returns their number in `count` and moves the cursor past them.
 * `found` is true, also if `count` is 0. Refuses with 1, 2, 6; `place` is unchanged, and every other field is 0. */
pw_step_answer pw_take_leading_zeros(size_t start, size_t length, size_t place, const uint8_t *bytes,
    size_t bytes_len);

/* Returns a cursor before the first position of a one in a mask of `length` flags. If `present` is false there is no mask: its record
 * and bytes are not read, the cursor has every position below `length`, as in Arrow, and 1 is the only refusal. In pw_may_reassign no
 * permission mask means no truck. Refuses with 1, 2, 3, 5; every other field is then 0. */
pw_cursor_answer pw_true_idx_new(size_t length, bool present, pw_mask mask, const uint8_t *bytes, size_t bytes_len);

/* Returns the next position of a one in `value` and moves the cursor past it. If there is no further one, `found` is false and the
 * place is the length. If `masked` is 0 there is no mask: every position is returned, and refusal 2 does not occur. Refuses with 1, 2,
 * 6; `place` is unchanged, and every other field is 0. */
pw_step_answer pw_true_idx_next(size_t start, size_t length, size_t place, uint8_t masked, const uint8_t *bytes,
    size_t bytes_len);

/* Writes the next positions of ones at the start of `out`, as many as there are and it has room for, and returns their number in
 * `count`. They are what as many calls of pw_true_idx_next return; the rest of `out` is unchanged. The cursor moves past the last of
 * them, or to the length if `out` is not filled; if `out` is empty it does not move. `found` is true. If `masked` is 0 there is no
 * mask: every position is written, and refusal 2 does not occur. Refuses with 1, 2, 6; `place` is unchanged, and every other field is
 * 0. No byte of `out` may be one of `bytes`. */
pw_step_answer pw_true_idx_next_chunk(size_t start, size_t length, size_t place, uint8_t masked,
    const uint8_t *bytes, size_t bytes_len, uint32_t *out, size_t out_len);

/* ---- The combination `and_not` at one index. */

/* Returns whether the flag at `index` is set in the first mask and not in the second. If `first_present` is false there is no first
 * mask, which means all ones; if `second_present` is false there is no second mask, which means all zeros. The record and bytes of an
 * absent mask are not read. Refusal 5 occurs only with both masks; without any mask nothing is refused. Refuses with 1, 2, 3, 5, 6;
 * every other field is then 0. */
pw_flag_answer pw_and_not_at(bool first_present, pw_mask first, const uint8_t *first_bytes, size_t first_bytes_len,
    bool second_present, pw_mask second, const uint8_t *second_bytes, size_t second_bytes_len, size_t index);

/* ---- The search for a flag that is set in one mask and not in another. */

/* Returns the first position at or after `from` that is set in the first mask and not in the second, else the first such position from
 * 0; `found` is false if there is no such position. If `second_present` is false there is no second mask, which means all zeros: its
 * record and bytes are not read, and refusal 5 does not occur. `windows` counts the windows of 32 flags read: they begin at `from` and
 * every 32 flags after it, below the length, then at 0 and every 32 flags after it, below `from`; the last one read holds the
 * position, or all are read. A `from` equal to the length is allowed; above it the call is refused with 6. Refuses with 1, 2, 3, 5, 6;
 * every other field is then 0. */
pw_next_answer pw_next_and_not(pw_mask first, const uint8_t *first_bytes, size_t first_bytes_len,
    bool second_present, pw_mask second, const uint8_t *second_bytes, size_t second_bytes_len, size_t from);

/* ---- Dispatch. */

/* Returns whether truck number `truck` may be reassigned: its flag is set in the permission mask and not in the revocation mask. If
 * `permitted` is false there is no permission mask, and the answer is no for every truck; if `revoked` is false there is no revocation
 * mask, and no truck is revoked. The record and bytes of an absent mask are not read. Refusal 5 occurs only with both masks; without
 * any mask nothing is refused. No permission mask is the opposite of no mask from pw_into_opt_validity or in pw_true_idx_new, which
 * means all ones: end the builder of a permission mask with pw_freeze. Refuses with 1, 2, 3, 5, 6; every other field is then 0. */
pw_flag_answer pw_may_reassign(bool permitted, pw_mask permission, const uint8_t *permission_bytes,
    size_t permission_bytes_len, bool revoked, pw_mask revocation, const uint8_t *revocation_bytes,
    size_t revocation_bytes_len, size_t truck);

/* ---- The next truck that dispatch offers. */

/* Returns the first truck at or after `cursor` that is permitted and not revoked, else the first such truck from 0, and in `cursor`
 * the number after that truck, for the next call. If there is no such truck, `found` is false and `cursor` is unchanged. `windows`
 * counts windows of 32 flags as pw_next_and_not does, at most ceil(length / 32) + 1. If `permitted` is false there is no permission
 * mask: no truck is found, and `windows` is 0. If `revoked` is false there is no revocation mask, and no truck is revoked. The record
 * and bytes of an absent mask are not read. Refusal 5 occurs only with both masks; 6 only with a permission mask, if `cursor` is above
 * its length. Refuses with 1, 2, 3, 5, 6; `cursor` is unchanged, and every other field is 0. */
pw_offer_answer pw_offer(bool permitted, pw_mask permission, const uint8_t *permission_bytes,
    size_t permission_bytes_len, bool revoked, pw_mask revocation, const uint8_t *revocation_bytes,
    size_t revocation_bytes_len, size_t cursor);

/* ---- The window of minutes: in how many of the last minutes each truck was busy. */

/* Writes an empty window, all words and counts 0, to both arrays and returns its numbers. It keeps the words of the last `width`
 * minutes; `width` must be 1 to 256. Refuses with 16; every other field is then 0, and both arrays stay as they are. No byte of
 * `words` may be one of `counts`. */
pw_window_answer pw_activity_new(uint64_t words[256], uint32_t counts[64], size_t width);

/* Writes `word`, whose bit j is the flag of truck j in the next minute, into the window, updates the counts and returns the new
 * numbers. The oldest word is replaced if the window already has `width` words. `place`, `fill` and `width` are those that the call
 * before returned. Refuses with 16; the window is unchanged: place, fill, width and both arrays. No byte of `words` may be one of
 * `counts`. */
pw_window_answer pw_activity_push_minute(uint64_t words[256], uint32_t counts[64], size_t place, size_t fill,
    size_t width, uint64_t word);

/* Writes to `out`, for each of the 64 flags, the number of kept words that have it set. Returns 0, or the number of the refusal.
 * `place`, `fill` and `width` are those that the call before returned. Refuses with 16; `out` then stays as it is. No byte of `out`
 * may be one of `words` or `counts`. */
uint8_t pw_activity_counts(const uint64_t words[256], const uint32_t counts[64], size_t place, size_t fill,
    size_t width, uint32_t out[64]);

/* ---- A builder with its serial, by pointer: so that no serial is lost between a builder and its mask. */

/* A builder and the serial that its mask will have. */
typedef struct {
    pw_builder builder;
    uint32_t serial;
} pw_serial_builder;

/* Returns a builder with no flags and this serial. */
static inline pw_serial_builder pw_serial_builder_new(uint32_t serial) {
    pw_serial_builder b = {pw_builder_new(), serial};
    return b;
}

/* Calls pw_push with the builder and its serial, and returns 0, or the number of a refusal, after which the builder is unchanged. */
static inline uint8_t pw_serial_push(pw_serial_builder *b, uint8_t *buf, size_t buf_len, bool flag) {
    pw_builder_answer a = pw_push(b->builder.length, b->builder.word, b->builder.ones, buf, buf_len, flag);
    b->builder = a.builder;
    return a.refusal;
}

/* Calls pw_extend_constant with the builder and its serial, and returns 0, or the number of a refusal, after which the builder is
 * unchanged. */
static inline uint8_t pw_serial_extend_constant(pw_serial_builder *b, uint8_t *buf, size_t buf_len, size_t n,
    bool flag) {
    pw_builder_answer a = pw_extend_constant(b->builder.length, b->builder.word, b->builder.ones, buf, buf_len, n, flag);
    b->builder = a.builder;
    return a.refusal;
}

/* Calls pw_push_word_with_len_unchecked with the builder and its serial, and returns 0, or the number of a refusal, after which the
 * builder is unchanged. */
static inline uint8_t pw_serial_push_word_with_len_unchecked(pw_serial_builder *b, uint8_t *buf, size_t buf_len,
    uint64_t flags, size_t n) {
    pw_builder_answer a = pw_push_word_with_len_unchecked(b->builder.length, b->builder.word, b->builder.ones, buf, buf_len,
        flags, n);
    b->builder = a.builder;
    return a.refusal;
}

/* Calls pw_extend_from_slice with the builder and its serial, and returns 0, or the number of a refusal, after which the builder is
 * unchanged. */
static inline uint8_t pw_serial_extend_from_slice(pw_serial_builder *b, uint8_t *buf, size_t buf_len,
    const uint8_t *bytes, size_t bytes_len, size_t start, size_t n) {
    pw_builder_answer a = pw_extend_from_slice(b->builder.length, b->builder.word, b->builder.ones, buf, buf_len, bytes,
        bytes_len, start, n);
    b->builder = a.builder;
    return a.refusal;
}

/* Calls pw_extend_each_repeated_from_slice_unchecked with the builder and its serial, and returns 0, or the number of a refusal, after
 * which the builder is unchanged. */
static inline uint8_t pw_serial_extend_each_repeated_from_slice_unchecked(pw_serial_builder *b, uint8_t *buf,
    size_t buf_len, const uint8_t *bytes, size_t bytes_len, size_t start, size_t n, size_t repeats) {
    pw_builder_answer a = pw_extend_each_repeated_from_slice_unchecked(b->builder.length, b->builder.word, b->builder.ones,
        buf, buf_len, bytes, bytes_len, start, n, repeats);
    b->builder = a.builder;
    return a.refusal;
}

/* Calls pw_subslice_extend_from_bitmap with the builder and its serial, and returns 0, or the number of a refusal, after which the
 * builder is unchanged. */
static inline uint8_t pw_serial_subslice_extend_from_bitmap(pw_serial_builder *b, uint8_t *buf, size_t buf_len,
    pw_mask mask, const uint8_t *bytes, size_t bytes_len, size_t start, size_t n) {
    pw_builder_answer a = pw_subslice_extend_from_bitmap(b->builder.length, b->builder.word, b->builder.ones, buf, buf_len,
        mask, bytes, bytes_len, start, n);
    b->builder = a.builder;
    return a.refusal;
}

/* Calls pw_gather_extend_from_slice with the builder and its serial, and returns 0, or the number of a refusal, after which the
 * builder is unchanged. */
static inline uint8_t pw_serial_gather_extend_from_slice(pw_serial_builder *b, uint8_t *buf, size_t buf_len,
    const uint8_t *bytes, size_t bytes_len, size_t start, size_t n, const uint32_t *idxs, size_t idxs_len) {
    pw_builder_answer a = pw_gather_extend_from_slice(b->builder.length, b->builder.word, b->builder.ones, buf, buf_len,
        bytes, bytes_len, start, n, idxs, idxs_len);
    b->builder = a.builder;
    return a.refusal;
}

/* Calls pw_opt_gather_extend_from_slice with the builder and its serial, and returns 0, or the number of a refusal, after which the
 * builder is unchanged. */
static inline uint8_t pw_serial_opt_gather_extend_from_slice(pw_serial_builder *b, uint8_t *buf, size_t buf_len,
    const uint8_t *bytes, size_t bytes_len, size_t start, size_t n, const uint32_t *idxs, size_t idxs_len) {
    pw_builder_answer a = pw_opt_gather_extend_from_slice(b->builder.length, b->builder.word, b->builder.ones, buf, buf_len,
        bytes, bytes_len, start, n, idxs, idxs_len);
    b->builder = a.builder;
    return a.refusal;
}

/* Calls pw_freeze with the builder and its serial, and returns its answer. The builder does not change. */
static inline pw_mask_answer pw_serial_freeze(const pw_serial_builder *b, uint8_t *buf, size_t buf_len) {
    return pw_freeze(b->builder.length, b->builder.word, b->builder.ones, buf, buf_len, b->serial);
}

/* Calls pw_into_opt_validity with the builder and its serial, and returns its answer. The builder does not change. */
static inline pw_validity_answer pw_serial_into_opt_validity(const pw_serial_builder *b, uint8_t *buf,
    size_t buf_len) {
    return pw_into_opt_validity(b->builder.length, b->builder.word, b->builder.ones, buf, buf_len, b->serial);
}

/* ---- Cursors by pointer. Each function calls the export of its name with the cursor's numbers, stores the place of the answer in the
 * cursor, and returns the answer: after a refusal, and where nothing is `found`, a loop over `found` ends. */

/* Calls pw_chunks_next and moves the cursor, which a refusal leaves where it is. */
static inline pw_step_answer pw_cursor_chunks_next(pw_cursor *cursor, const uint8_t *bytes, size_t bytes_len) {
    pw_step_answer a = pw_chunks_next(cursor->start, cursor->length, cursor->place, bytes, bytes_len);
    cursor->place = a.place;
    return a;
}

/* Calls pw_chunks_remainder and moves the cursor, which a refusal leaves where it is. */
static inline pw_step_answer pw_cursor_chunks_remainder(pw_cursor *cursor, const uint8_t *bytes, size_t bytes_len) {
    pw_step_answer a = pw_chunks_remainder(cursor->start, cursor->length, cursor->place, bytes, bytes_len);
    cursor->place = a.place;
    return a;
}

/* Calls pw_slices_next and moves the cursor, which a refusal leaves where it is. */
static inline pw_step_answer pw_cursor_slices_next(pw_cursor *cursor, const uint8_t *bytes, size_t bytes_len) {
    pw_step_answer a = pw_slices_next(cursor->start, cursor->length, cursor->place, bytes, bytes_len);
    cursor->place = a.place;
    return a;
}

/* Calls pw_iter_next and moves the cursor, which a refusal leaves where it is. */
static inline pw_step_answer pw_cursor_iter_next(pw_cursor *cursor, const uint8_t *bytes, size_t bytes_len) {
    pw_step_answer a = pw_iter_next(cursor->start, cursor->length, cursor->place, bytes, bytes_len);
    cursor->place = a.place;
    return a;
}

/* Calls pw_iter_nth and moves the cursor, which a refusal leaves where it is. */
static inline pw_step_answer pw_cursor_iter_nth(pw_cursor *cursor, const uint8_t *bytes, size_t bytes_len, size_t n) {
    pw_step_answer a = pw_iter_nth(cursor->start, cursor->length, cursor->place, bytes, bytes_len, n);
    cursor->place = a.place;
    return a;
}

/* Calls pw_take_leading_ones and moves the cursor, which a refusal leaves where it is. */
static inline pw_step_answer pw_cursor_take_leading_ones(pw_cursor *cursor, const uint8_t *bytes, size_t bytes_len) {
    pw_step_answer a = pw_take_leading_ones(cursor->start, cursor->length, cursor->place, bytes, bytes_len);
    cursor->place = a.place;
    return a;
}

/* Calls pw_take_leading_zeros and moves the cursor, which a refusal leaves where it is. */
static inline pw_step_answer pw_cursor_take_leading_zeros(pw_cursor *cursor, const uint8_t *bytes, size_t bytes_len) {
    pw_step_answer a = pw_take_leading_zeros(cursor->start, cursor->length, cursor->place, bytes, bytes_len);
    cursor->place = a.place;
    return a;
}

/* Calls pw_true_idx_next and moves the cursor, which a refusal leaves where it is. */
static inline pw_step_answer pw_cursor_true_idx_next(pw_cursor *cursor, const uint8_t *bytes, size_t bytes_len) {
    pw_step_answer a = pw_true_idx_next(cursor->start, cursor->length, cursor->place, cursor->masked, bytes, bytes_len);
    cursor->place = a.place;
    return a;
}

/* Calls pw_true_idx_next_chunk and moves the cursor, which a refusal leaves where it is. */
static inline pw_step_answer pw_cursor_true_idx_next_chunk(pw_cursor *cursor, const uint8_t *bytes,
    size_t bytes_len, uint32_t *out, size_t out_len) {
    pw_step_answer a = pw_true_idx_next_chunk(cursor->start, cursor->length, cursor->place, cursor->masked, bytes,
        bytes_len, out, out_len);
    cursor->place = a.place;
    return a;
}

/* ---- Masks from elsewhere, and cuts: a refusal leaves no mask with more flags than were asked for. */

/* Returns the mask of the `length` flags of `bytes` that start at bit `start`, of which a record from elsewhere states `zeros` and
 * `serial`, with the count known. The zeros are counted: a count that is not exact is refused. Refuses with 1, 2, 3; every other field
 * is then 0. */
static inline pw_mask_answer pw_import(const uint8_t *bytes, size_t bytes_len, size_t start, size_t length,
    size_t zeros, uint32_t serial) {
    pw_mask_answer made = {0, {start, length, zeros, 1, serial}};
    pw_mask none = {0, 0, 0, 0, 0};
    made.refusal = pw_unset_bits(made.mask, bytes, bytes_len).refusal;
    if (made.refusal != 0) made.mask = none;
    return made;
}

/* Writes to `out` the mask that pw_slice returns, and returns 0; or returns the number of its refusal, and writes nothing. Give `out`
 * a mask of no flags before, pw_bitmap_new(), so that no refusal that is overlooked leaves flags in it. */
PW_MUST_USE
static inline uint8_t pw_cut(pw_mask mask, const uint8_t *bytes, size_t bytes_len, size_t offset, size_t length,
    pw_mask *out) {
    pw_mask_answer a = pw_slice(mask, bytes, bytes_len, offset, length);
    if (a.refusal == 0) *out = a.mask;
    return a.refusal;
}

/* Writes to `out` the mask that pw_grid_row returns, and returns 0; or returns the number of its refusal, and writes nothing. Give
 * `out` a mask of no flags before, pw_bitmap_new(), so that no refusal that is overlooked leaves flags in it. */
PW_MUST_USE
static inline uint8_t pw_cut_row(pw_mask mask, const uint8_t *bytes, size_t bytes_len, size_t rows, size_t columns,
    size_t row, pw_mask *out) {
    pw_mask_answer a = pw_grid_row(mask, bytes, bytes_len, rows, columns, row);
    if (a.refusal == 0) *out = a.mask;
    return a.refusal;
}

/* ---- version */

/* The version of this file and of the library that it belongs to. */
#define PW_VERSION "0.1.0"

/* The version of the interface: it is raised if a declaration changes so that a program has to change with it. */
#define PW_INTERFACE 4

/* The version of the interface that a library has. A program that includes this file refers to it, so that a library of another
 * version does not link, where the compiler is GCC or Clang. */
uint32_t pw_interface_4(void);
#if defined(__GNUC__)
#if defined(__has_attribute)
#if __has_attribute(retain)
__attribute__((retain))
#endif
#endif
__attribute__((used)) static uint32_t (*const pw_interface)(void) = pw_interface_4;
#endif

#ifdef __cplusplus
}
#endif

#endif
