//! The calls that the model's function of their name answers. Written by tests/model_arms.py from compare/model and
//! docs/REQUESTS.md.

use crate::arguments::Args;
use crate::calls::{Lents, Output, Reply, plainly};
use model::{builder, combine, dispatch, grids, loops, mask, next, run_ends, spans, superseding, words};

/// Returns the answer of the call if a function of the model has its name.
pub fn answer(name: &str, a: &mut Args, l: &mut Lents) -> Option<Reply> {
    of_builder(name, a, l)
        .or_else(|| of_combine(name, a, l))
        .or_else(|| of_dispatch(name, a, l))
        .or_else(|| of_grids(name, a, l))
        .or_else(|| of_loops(name, a, l))
        .or_else(|| of_mask(name, a, l))
        .or_else(|| of_next(name, a, l))
        .or_else(|| of_run_ends(name, a, l))
        .or_else(|| of_spans(name, a, l))
        .or_else(|| of_superseding(name, a, l))
        .or_else(|| of_words(name, a, l))
}

fn of_builder(name: &str, a: &mut Args, l: &mut Lents) -> Option<Reply> {
    Some(match name {
        "push" => plainly(builder::push(a.builder(), l.o, a.flag()), 0, Output::Bytes),
        "extend_constant" => plainly(builder::extend_constant(a.builder(), l.o, a.number(), a.flag()), 0, Output::Bytes),
        "push_word_with_len_unchecked" => {
            plainly(builder::push_word_with_len_unchecked(a.builder(), l.o, a.word(), a.number()), 0, Output::Bytes)
        }
        "extend_from_slice" => plainly(builder::extend_from_slice(a.builder(), l.o, a.span(l.x)), 0, Output::Bytes),
        "extend_each_repeated_from_slice_unchecked" => {
            plainly(builder::extend_each_repeated_from_slice_unchecked(a.builder(), l.o, a.span(l.x), a.number()), 0, Output::Bytes)
        }
        "subslice_extend_from_bitmap" => {
            plainly(builder::subslice_extend_from_bitmap(a.builder(), l.o, a.lent(l.x), a.number(), a.number()), 0, Output::Bytes)
        }
        "gather_extend_from_slice" => plainly(builder::gather_extend_from_slice(a.builder(), l.o, a.span(l.x), l.i), 0, Output::Bytes),
        "opt_gather_extend_from_slice" => {
            plainly(builder::opt_gather_extend_from_slice(a.builder(), l.o, a.span(l.x), l.i), 0, Output::Bytes)
        }
        _ => return None,
    })
}

fn of_combine(name: &str, a: &mut Args, l: &mut Lents) -> Option<Reply> {
    Some(match name {
        "not" => plainly(combine::not(a.lent(l.x), l.o), 0, Output::Bytes),
        "select" => plainly(combine::select(a.lent(l.x), a.lent(l.y), a.lent(l.z), l.o), 0, Output::Bytes),
        "select_constant" => plainly(combine::select_constant(a.lent(l.x), a.lent(l.y), a.flag(), l.o), 0, Output::Bytes),
        "and_not_at" => plainly(combine::and_not_at(a.lent_or_none(l.x), a.lent_or_none(l.y), a.number()), 0, Output::None),
        _ => return None,
    })
}

fn of_dispatch(name: &str, a: &mut Args, l: &mut Lents) -> Option<Reply> {
    Some(match name {
        "may_reassign" => plainly(dispatch::may_reassign(a.lent_or_none(l.x), a.lent_or_none(l.y), a.number()), 0, Output::None),
        _ => return None,
    })
}

fn of_grids(name: &str, a: &mut Args, l: &mut Lents) -> Option<Reply> {
    Some(match name {
        "grid_row" => plainly(grids::grid_row(a.lent(l.x), a.number(), a.number(), a.number()), 0, Output::None),
        "grid_column" => plainly(grids::grid_column(a.lent(l.x), a.number(), a.number(), a.number(), l.o), 0, Output::Bytes),
        "grid_transpose" => plainly(grids::grid_transpose(a.lent(l.x), a.number(), a.number(), l.o), 0, Output::Bytes),
        "grid_row_zeros" => plainly(grids::grid_row_zeros(a.lent(l.x), a.number(), a.number(), l.i), 0, Output::Numbers),
        "grid_column_zeros" => plainly(grids::grid_column_zeros(a.lent(l.x), a.number(), a.number(), l.i), 0, Output::Numbers),
        _ => return None,
    })
}

fn of_loops(name: &str, a: &mut Args, l: &mut Lents) -> Option<Reply> {
    Some(match name {
        "fill" => plainly(loops::fill(a.flag(), a.number(), l.o), 0, Output::Bytes),
        "fill_whole" => plainly(loops::fill_whole(a.flag(), a.number(), l.o), 0, Output::Bytes),
        _ => return None,
    })
}

fn of_mask(name: &str, a: &mut Args, l: &mut Lents) -> Option<Reply> {
    Some(match name {
        "new_zeroed" => plainly(mask::new_zeroed(a.number(), l.o), 0, Output::Bytes),
        "try_new" => plainly(mask::try_new(a.span(l.x)), 0, Output::None),
        "slice" => plainly(mask::slice(a.lent(l.x), a.number(), a.number()), 0, Output::None),
        "unset_bits" => plainly(mask::unset_bits(a.lent(l.x)), 0, Output::None),
        "eq" => plainly(mask::eq(a.lent(l.x), a.lent(l.y)), 0, Output::None),
        "num_edges" => plainly(mask::num_edges(a.lent(l.x)), 0, Output::None),
        "num_intersections_with" => plainly(mask::num_intersections_with(a.lent(l.x), a.lent(l.y)), 0, Output::None),
        _ => return None,
    })
}

fn of_next(name: &str, a: &mut Args, l: &mut Lents) -> Option<Reply> {
    Some(match name {
        "next_and_not" => plainly(next::next_and_not(a.lent(l.x), a.lent_or_none(l.y), a.number()), 2, Output::None),
        "offer" => plainly(next::offer(a.lent_or_none(l.x), a.lent_or_none(l.y), a.number()), 3, Output::None),
        _ => return None,
    })
}

fn of_run_ends(name: &str, a: &mut Args, l: &mut Lents) -> Option<Reply> {
    Some(match name {
        "from_run_ends" => plainly(run_ends::from_run_ends(l.e, a.lent(l.x), a.number(), l.o), 0, Output::Bytes),
        "to_run_ends" => plainly(run_ends::to_run_ends(a.lent(l.x), l.e, l.o), 0, Output::EndsAndBytes),
        _ => return None,
    })
}

fn of_spans(name: &str, a: &mut Args, l: &mut Lents) -> Option<Reply> {
    Some(match name {
        "split_at_unchecked" => plainly(spans::split_at_unchecked(a.span(l.x), a.number()), 0, Output::None),
        "get_u32" => plainly(spans::get_u32(a.span(l.x), a.number()), 0, Output::None),
        "nth_set_bit_idx" => plainly(spans::nth_set_bit_idx(a.span(l.x), a.number(), a.number()), 1, Output::None),
        "nth_set_bit_idx_rev" => plainly(spans::nth_set_bit_idx_rev(a.span(l.x), a.number(), a.number()), 1, Output::None),
        _ => return None,
    })
}

fn of_superseding(name: &str, a: &mut Args, l: &mut Lents) -> Option<Reply> {
    Some(match name {
        "superseding_part" => plainly(superseding::superseding_part(a.lent(l.x), a.lent(l.y)), 0, Output::None),
        "superseding" => plainly(superseding::superseding(a.lent(l.x), a.lent(l.y)), 0, Output::None),
        _ => return None,
    })
}

fn of_words(name: &str, a: &mut Args, l: &mut Lents) -> Option<Reply> {
    Some(match name {
        "load_padded_le_u64" => plainly(words::load_padded_le_u64(l.x), 0, Output::None),
        "merge_reversed" => plainly(words::merge_reversed(a.word(), a.word(), a.number()), 0, Output::None),
        "word_from" => plainly(words::word_from(l.x, a.number()), 0, Output::None),
        "byte_word" => plainly(words::byte_word(l.x, a.number()), 0, Output::None),
        "store_at" => plainly(words::store_at(l.o, a.number(), a.word()), 0, Output::Bytes),
        "store_whole" => plainly(words::store_whole(l.o, a.number(), a.word()), 0, Output::Bytes),
        "low_flags" => plainly(words::low_flags(a.word(), a.number()), 0, Output::None),
        "shr_or_zero" => plainly(words::shr_or_zero(a.word(), a.number()), 0, Output::None),
        "shl_or_zero" => plainly(words::shl_or_zero(a.word(), a.number()), 0, Output::None),
        "concat_low" => plainly(words::concat_low(a.word(), a.number(), a.word()), 0, Output::None),
        "constant_flags" => plainly(words::constant_flags(a.flag(), a.number()), 0, Output::None),
        "ones_below" => plainly(words::ones_below(a.word(), a.number()), 0, Output::None),
        "none_from" => plainly(words::none_from(a.word(), a.number()), 0, Output::None),
        "leading_in_word" => plainly(words::leading_in_word(a.flag(), a.word(), a.number()), 0, Output::None),
        "trailing_in_word" => plainly(words::trailing_in_word(a.flag(), a.word(), a.number()), 0, Output::None),
        _ => return None,
    })
}
