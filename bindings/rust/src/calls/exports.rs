//! The exports of the static library. Written by tests/declarations.py from crates/capi.

use super::records::*;

unsafe extern "C" {
    pub fn pw_load_padded_le_u64(part: *const u8, part_len: usize) -> u64;
    pub fn pw_merge_reversed(current: u64, next: u64, offset: usize) -> u64;
    pub fn pw_nth_set_bit_u64(w: u64, n: u64) -> NthAnswer;
    pub fn pw_nth_set_bit_u32(w: u32, n: u32) -> NthAnswer;
    pub fn pw_aligned_new(bytes: *const u8, bytes_len: usize, start: usize, length: usize, address: usize) -> SplitAnswer;
    pub fn pw_count_zeros(bytes: *const u8, bytes_len: usize, start: usize, length: usize, address: usize) -> NumberAnswer;
    pub fn pw_leading_zeros(bytes: *const u8, bytes_len: usize, start: usize, length: usize, address: usize) -> NumberAnswer;
    pub fn pw_leading_ones(bytes: *const u8, bytes_len: usize, start: usize, length: usize, address: usize) -> NumberAnswer;
    pub fn pw_trailing_zeros(bytes: *const u8, bytes_len: usize, start: usize, length: usize, address: usize) -> NumberAnswer;
    pub fn pw_trailing_ones(bytes: *const u8, bytes_len: usize, start: usize, length: usize, address: usize) -> NumberAnswer;
    pub fn pw_split_at_unchecked(bytes: *const u8, bytes_len: usize, start: usize, length: usize, at: usize) -> SpansAnswer;
    pub fn pw_get_u32(bytes: *const u8, bytes_len: usize, start: usize, length: usize, index: usize) -> NumberAnswer;
    pub fn pw_nth_set_bit_idx(bytes: *const u8, bytes_len: usize, start: usize, length: usize, n: usize, from: usize) -> PositionAnswer;
    pub fn pw_nth_set_bit_idx_rev(bytes: *const u8, bytes_len: usize, start: usize, length: usize, n: usize, end: usize) -> PositionAnswer;
    pub fn pw_chunks_new(bytes: *const u8, bytes_len: usize, start: usize, length: usize) -> CursorAnswer;
    pub fn pw_chunks_new_exact(bytes: *const u8, bytes_len: usize, length: usize) -> CursorAnswer;
    pub fn pw_chunks_next(start: usize, length: usize, place: usize, bytes: *const u8, bytes_len: usize) -> StepAnswer;
    pub fn pw_chunks_remainder(start: usize, length: usize, place: usize, bytes: *const u8, bytes_len: usize) -> StepAnswer;
    pub fn pw_builder_new() -> Builder;
    pub fn pw_push(length: usize, word: u64, ones: usize, buf: *mut u8, buf_len: usize, flag: bool) -> BuilderAnswer;
    pub fn pw_extend_constant(length: usize, word: u64, ones: usize, buf: *mut u8, buf_len: usize, n: usize, flag: bool) -> BuilderAnswer;
    pub fn pw_push_word_with_len_unchecked(
        length: usize, word: u64, ones: usize, buf: *mut u8, buf_len: usize, flags: u64, n: usize,
    ) -> BuilderAnswer;
    pub fn pw_extend_from_slice(
        length: usize, word: u64, ones: usize, buf: *mut u8, buf_len: usize, bytes: *const u8, bytes_len: usize, start: usize, n: usize,
    ) -> BuilderAnswer;
    pub fn pw_extend_each_repeated_from_slice_unchecked(
        length: usize, word: u64, ones: usize, buf: *mut u8, buf_len: usize, bytes: *const u8, bytes_len: usize, start: usize, n: usize,
        repeats: usize,
    ) -> BuilderAnswer;
    pub fn pw_subslice_extend_from_bitmap(
        length: usize, word: u64, ones: usize, buf: *mut u8, buf_len: usize, mask: Mask, bytes: *const u8, bytes_len: usize, start: usize,
        n: usize,
    ) -> BuilderAnswer;
    pub fn pw_gather_extend_from_slice(
        length: usize, word: u64, ones: usize, buf: *mut u8, buf_len: usize, bytes: *const u8, bytes_len: usize, start: usize, n: usize,
        idxs: *const u32, idxs_len: usize,
    ) -> BuilderAnswer;
    pub fn pw_opt_gather_extend_from_slice(
        length: usize, word: u64, ones: usize, buf: *mut u8, buf_len: usize, bytes: *const u8, bytes_len: usize, start: usize, n: usize,
        idxs: *const u32, idxs_len: usize,
    ) -> BuilderAnswer;
    pub fn pw_freeze(length: usize, word: u64, ones: usize, buf: *mut u8, buf_len: usize, serial: u32) -> MaskAnswer;
    pub fn pw_into_opt_validity(length: usize, word: u64, ones: usize, buf: *mut u8, buf_len: usize, serial: u32) -> ValidityAnswer;
    pub fn pw_bitmap_new() -> Mask;
    pub fn pw_new_zeroed(length: usize, out: *mut u8, out_len: usize) -> MaskAnswer;
    pub fn pw_try_new(bytes: *const u8, bytes_len: usize, start: usize, length: usize) -> MaskAnswer;
    pub fn pw_slice(mask: Mask, bytes: *const u8, bytes_len: usize, offset: usize, length: usize) -> MaskAnswer;
    pub fn pw_unset_bits(mask: Mask, bytes: *const u8, bytes_len: usize) -> ZerosAnswer;
    pub fn pw_eq(
        lhs: Mask, lhs_bytes: *const u8, lhs_bytes_len: usize, rhs: Mask, rhs_bytes: *const u8, rhs_bytes_len: usize,
    ) -> FlagAnswer;
    pub fn pw_num_edges(mask: Mask, bytes: *const u8, bytes_len: usize) -> NumberAnswer;
    pub fn pw_num_intersections_with(
        lhs: Mask, lhs_bytes: *const u8, lhs_bytes_len: usize, rhs: Mask, rhs_bytes: *const u8, rhs_bytes_len: usize,
    ) -> NumberAnswer;
    pub fn pw_superseding(
        first: Mask, first_bytes: *const u8, first_bytes_len: usize, second: Mask, second_bytes: *const u8, second_bytes_len: usize,
    ) -> PartAnswer;
    pub fn pw_and(
        lhs: Mask, lhs_bytes: *const u8, lhs_bytes_len: usize, rhs: Mask, rhs_bytes: *const u8, rhs_bytes_len: usize, out: *mut u8,
        out_len: usize,
    ) -> MaskAnswer;
    pub fn pw_and_not(
        lhs: Mask, lhs_bytes: *const u8, lhs_bytes_len: usize, rhs: Mask, rhs_bytes: *const u8, rhs_bytes_len: usize, out: *mut u8,
        out_len: usize,
    ) -> MaskAnswer;
    pub fn pw_or(
        lhs: Mask, lhs_bytes: *const u8, lhs_bytes_len: usize, rhs: Mask, rhs_bytes: *const u8, rhs_bytes_len: usize, out: *mut u8,
        out_len: usize,
    ) -> MaskAnswer;
    pub fn pw_or_not(
        lhs: Mask, lhs_bytes: *const u8, lhs_bytes_len: usize, rhs: Mask, rhs_bytes: *const u8, rhs_bytes_len: usize, out: *mut u8,
        out_len: usize,
    ) -> MaskAnswer;
    pub fn pw_xor(
        lhs: Mask, lhs_bytes: *const u8, lhs_bytes_len: usize, rhs: Mask, rhs_bytes: *const u8, rhs_bytes_len: usize, out: *mut u8,
        out_len: usize,
    ) -> MaskAnswer;
    pub fn pw_not(mask: Mask, bytes: *const u8, bytes_len: usize, out: *mut u8, out_len: usize) -> MaskAnswer;
    pub fn pw_select(
        selector: Mask, selector_bytes: *const u8, selector_bytes_len: usize, truthy: Mask, truthy_bytes: *const u8,
        truthy_bytes_len: usize, falsy: Mask, falsy_bytes: *const u8, falsy_bytes_len: usize, out: *mut u8, out_len: usize,
    ) -> MaskAnswer;
    pub fn pw_select_constant(
        selector: Mask, selector_bytes: *const u8, selector_bytes_len: usize, truthy: Mask, truthy_bytes: *const u8,
        truthy_bytes_len: usize, flag: bool, out: *mut u8, out_len: usize,
    ) -> MaskAnswer;
    pub fn pw_grid_row(mask: Mask, bytes: *const u8, bytes_len: usize, rows: usize, columns: usize, row: usize) -> MaskAnswer;
    pub fn pw_grid_column(
        mask: Mask, bytes: *const u8, bytes_len: usize, rows: usize, columns: usize, column: usize, out: *mut u8, out_len: usize,
    ) -> MaskAnswer;
    pub fn pw_grid_transpose(
        mask: Mask, bytes: *const u8, bytes_len: usize, rows: usize, columns: usize, out: *mut u8, out_len: usize,
    ) -> MaskAnswer;
    pub fn pw_grid_row_zeros(
        mask: Mask, bytes: *const u8, bytes_len: usize, rows: usize, columns: usize, counts: *mut u32, counts_len: usize,
    ) -> NumberAnswer;
    pub fn pw_grid_column_zeros(
        mask: Mask, bytes: *const u8, bytes_len: usize, rows: usize, columns: usize, counts: *mut u32, counts_len: usize,
    ) -> NumberAnswer;
    pub fn pw_from_run_ends(
        ends: *const i32, ends_len: usize, values: Mask, bytes: *const u8, bytes_len: usize, length: usize, out: *mut u8, out_len: usize,
    ) -> MaskAnswer;
    pub fn pw_to_run_ends(
        mask: Mask, bytes: *const u8, bytes_len: usize, ends: *mut i32, ends_len: usize, out: *mut u8, out_len: usize,
    ) -> MaskAnswer;
    pub fn pw_slices_new(mask: Mask, bytes: *const u8, bytes_len: usize) -> CursorAnswer;
    pub fn pw_slices_next(start: usize, length: usize, place: usize, bytes: *const u8, bytes_len: usize) -> StepAnswer;
    pub fn pw_iter_new(bytes: *const u8, bytes_len: usize, start: usize, length: usize) -> CursorAnswer;
    pub fn pw_iter_next(start: usize, length: usize, place: usize, bytes: *const u8, bytes_len: usize) -> StepAnswer;
    pub fn pw_iter_nth(start: usize, length: usize, place: usize, bytes: *const u8, bytes_len: usize, n: usize) -> StepAnswer;
    pub fn pw_take_leading_ones(start: usize, length: usize, place: usize, bytes: *const u8, bytes_len: usize) -> StepAnswer;
    pub fn pw_take_leading_zeros(start: usize, length: usize, place: usize, bytes: *const u8, bytes_len: usize) -> StepAnswer;
    pub fn pw_true_idx_new(length: usize, present: bool, mask: Mask, bytes: *const u8, bytes_len: usize) -> CursorAnswer;
    pub fn pw_true_idx_next(start: usize, length: usize, place: usize, masked: u8, bytes: *const u8, bytes_len: usize) -> StepAnswer;
    pub fn pw_true_idx_next_chunk(
        start: usize, length: usize, place: usize, masked: u8, bytes: *const u8, bytes_len: usize, out: *mut u32, out_len: usize,
    ) -> StepAnswer;
    pub fn pw_and_not_at(
        first_present: bool, first: Mask, first_bytes: *const u8, first_bytes_len: usize, second_present: bool, second: Mask,
        second_bytes: *const u8, second_bytes_len: usize, index: usize,
    ) -> FlagAnswer;
    pub fn pw_next_and_not(
        first: Mask, first_bytes: *const u8, first_bytes_len: usize, second_present: bool, second: Mask, second_bytes: *const u8,
        second_bytes_len: usize, from: usize,
    ) -> NextAnswer;
    pub fn pw_may_reassign(
        permitted: bool, permission: Mask, permission_bytes: *const u8, permission_bytes_len: usize, revoked: bool, revocation: Mask,
        revocation_bytes: *const u8, revocation_bytes_len: usize, truck: usize,
    ) -> FlagAnswer;
    pub fn pw_offer(
        permitted: bool, permission: Mask, permission_bytes: *const u8, permission_bytes_len: usize, revoked: bool, revocation: Mask,
        revocation_bytes: *const u8, revocation_bytes_len: usize, cursor: usize,
    ) -> OfferAnswer;
    pub fn pw_activity_new(words: *mut [u64; 256], counts: *mut [u32; 64], width: usize) -> WindowAnswer;
    pub fn pw_activity_push_minute(
        words: *mut [u64; 256], counts: *mut [u32; 64], place: usize, fill: usize, width: usize, word: u64,
    ) -> WindowAnswer;
    pub fn pw_activity_counts(
        words: *const [u64; 256], counts: *const [u32; 64], place: usize, fill: usize, width: usize, out: *mut [u32; 64],
    ) -> u8;
    pub fn pw_interface_4() -> u32;
}

/// A library of another version has no such symbol, and does not link.
#[used]
static INTERFACE: unsafe extern "C" fn() -> u32 = pw_interface_4;
