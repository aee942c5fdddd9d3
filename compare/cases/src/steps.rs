//! The steps of the histories.
//!
//! A step is a letter and three numbers x, y and z of three digits; 999 means one past the flag limit. The bytes of `lent` serve all.
//!
//!     t  try_new: y flags starting at x of the history's own bytes, instead of the new builder that a history starts with
//!     l  unset_bits of an imported mask: y flags starting at x of the history's own bytes, with count z: 0 unknown, 1 exact, and three
//!        stale ones, which are refused, so that the history has not begun: 2 one zero too many, 3 none, 4 all
//!     p  push: flag x of the lent bytes; m push_mut: flag x too
//!     c  extend_constant: x flags, all of them y
//!     w  push_word_with_len_unchecked: y flags starting at x; if z is not 0, the word has 64 flags, also those past y
//!     e  extend_from_slice: y flags starting at x
//!     r  extend_each_repeated_from_slice_unchecked: y flags starting at x, each z times
//!     b  subslice_extend_from_bitmap: y flags starting at x of the mask of 200 flags that starts at 32, counted if z is not 0
//!     g  gather_extend_from_slice: of the 100 flags starting at z those at the y indices x, x + 1, ..
//!     h  opt_gather_extend_from_slice: as g, with 0 for an index of 100 or more
//!     f  freeze     v  into_opt_validity     s  slice: y flags starting at x     u  unset_bits
//!     a and, d and_not, o or, q or_not, x xor, n not, i select, j and k select_constant with 0 and with 1
//!     y grid_row, z grid_column: number z of a grid of x rows and y columns; ^ grid_transpose of such a grid
//!     < to_run_ends: the history goes on with the flags of the runs
//!     > from_run_ends of x flags: by the ends last written, one for each flag; if y is not 0, by the ends y, 2 y, 3 y ..
//!
//! Each digit of z is the mask of one argument of a combination: 0 the history's own; then, over the lent bytes and as long as the own
//! one, 1 starting at x, 2 starting at x and counted, 3 starting at y, 4 starting at y and counted; and two that are refused, 5 starting
//! at x with one more flag, 6 starting at x with a stale count, one zero too many. A capital letter is the call of the small letter with
//! only the first eight bytes of its output lent.

/// Forty that end in one list.
pub const ONE_LIST: [&str; 40] = [
    "e037100000 f000000000",
    "e037050000 e700100000 e087050000 v000000000",
    "p037000000 m038000000 w039062000 p101000000 m102000000 e103034000 f000000000",
    "w037065000 w037064000 w101036001 w101036000 f000000000",
    "b005030000 b150051000 b035070001 F000000000 v000000000",
    "r037012001 r049001008 r037100000 r037100999 r057080001 f000000000",
    "g037050000 g051050037 g007050080 f000000000",
    "h009095028 h000005132 v000000000",
    "e037012000 c008001000 c003000000 c004001000 c999001000 E064064000 e064073000 f000000000",
    "c000001000 m037000000 h001020037 b026030001 w088010000 r098001005 P103000000 g066034037 W037001000 V000000000 f000000000",
    "t037100000",
    "t200100000 t999001000 t000256000 s037100000",
    "t030200000 s150051000 s007100000 u000000000",
    "e000200000 E037100000 f000000000 s037100000",
    "e030110000 f000000000 s007100000",
    "e000256000 f000000000 s020200000 u000000000 s010150000 s007100000 u000000000",
    "e037100000 f000000000 s000100000 s050051000 s999000000 s000999000",
    "t037101000 u000000000 s000100000 s000101000 u000000000 s000100000",
    "c030001000 e037100000 c020000000 v000000000 s010140000 s020100000",
    "b000150000 b000050000 f000000000 s005145000 u000000000 s000131000 s000100000",
    "t037100000 n000000000 n000000000",
    "t037100000 x100000010 x100000050 u000000000 x100000020",
    "t037100000 a512000010 o256000020 o700000020 d256000010 q512000020 x256000010",
    "t037100000 q256000100 q256000200 d512000100 d512000200",
    "t037100000 a000000000 A000000000 o000000000 J000000000 j000000000 k000000000 a037000020",
    "t037100000 x000000000 u000000000 o037000020",
    "t150100000 i037000012",
    "t037100000 i120000100 i512256024 j512000010 k512000200 n000000000 k256000010",
    "t037100000 d100000010 d100000060 i100037135 i100037130",
    "t020200000 n000000000 s150051000 s017100000 K512000010 n000000000",
    "t037100000 A512000010 a512000050 a700000010 a999000010 a512000060 a512000010",
    "e037100000 f000000000 N000000000 n000000000 n000000000",
    "c100001000 f000000000 a037000010",
    "c100000000 v000000000 O037000010 o037000010",
    "c100001000 f000000000 x256000020 x037000010 n000000000",
    "e000256000 f000000000 n000000000 s037150000 u000000000 s000100000 I037000011 q256000100",
    "p037000000 e038099000 f000000000 i037100041 u000000000 i100037031 s001100000 i100037130 i100037103",
    "t010200000 x010000020 u000000000 s050120000 s020100000 x037000010",
    "w037064000 e101040000 f000000000 s000104000 k000000000 n000000000 s004100000 o037000020 u000000000 s000100000",
    "t040100000 a256000010 u000000000 q037000100 x512000010 x037000010 n000000000 x512000020",
];

/// Five that begin with an imported mask and end in that list.
pub const IMPORTED: [&str; 5] = [
    "l037100001",
    "l037100002 l037100003 l037100004 l037100000 u000000000",
    "l030200001 s150051000 s007100000",
    "l037100001 x100000010 x100000060 u000000000 x100000020",
    "l020200000 n000000000 s017100000 K512000010 n000000000",
];

/// Six that end in it by way of grids.
pub const GRIDS: [&str; 6] = [
    "t037100000 ^010010000 ^010010000",
    "t037100000 ^004025000 ^999001000 ^003025000 z025004004 ^025004000 y001100000 u000000000",
    "t037200000 y002100000 y002100001",
    "t037200000 u000000000 ^002100000 Z100002000 z100002002 y100002100 z100002000",
    "l037100001 y001100000 ^050002000 ^002050000",
    "e037100000 f000000000 ^020005000 n000000000 ^005020000 n000000000",
];

/// Six that end in it by way of run ends.
pub const RUN_ENDS: [&str; 6] = [
    "t037100000 <000000000 >100000000",
    "t037100000 u000000000 <000000000 n000000000 >100000000 n000000000",
    "t037101000 >100001000 >999001000 >101001000",
    "e037100000 f000000000 >200002000 z100002001",
    "l037100001 <000000000 >101000000 u000000000 >100000000 y001100000",
    "t037150000 <000000000 >999000000 >100000000",
];

/// Lists of zeros, which freeze alike.
pub const ZEROS: [&str; 6] = [
    "c001000000 f000000000",
    "c002000000 f000000000",
    "t037001000 x000000000",
    "t000064000 a256000020 s000002000",
    "e256064000 v000000000 s001063000",
    "e512064000 f000000000 n000000000",
];

/// Lists that end in zeros, which freeze alike.
pub const ZEROS_BEHIND: [&str; 4] =
    ["e037100000 f000000000", "e037100000 c001000000 f000000000", "e037100000 r256014002 v000000000", "e037101000 f000000000 s000100000"];
