//! A request: the arguments of a call. One record serves all calls; each takes from it what its shape names.

use model::{Builder, Cursor, Lent, Mask, Span};
use std::ops::{Deref, DerefMut};

/// Lent bytes. Up to 7 others lie before them, so that they begin at any address, and some after them.
#[derive(Clone, Default)]
pub struct Bytes {
    room: Vec<u8>,
    before: usize,
    many: usize,
}

impl Bytes {
    /// Returns a copy of the bytes with `before` others, at most 7, before them.
    pub fn new(bytes: &[u8], before: usize) -> Self {
        Self { room: [&[0xEE; 7][..before], bytes, &[0xEE; 8]].concat(), before, many: bytes.len() }
    }

    /// Cuts the lent bytes to the first `many`; the rest then lie outside.
    pub fn truncate(&mut self, many: usize) {
        self.many = self.many.min(many);
    }

    /// Returns the bytes before and after the lent ones.
    pub fn outside(&self) -> (&[u8], &[u8]) {
        (&self.room[..self.before], &self.room[self.before + self.many..])
    }
}

impl Deref for Bytes {
    type Target = [u8];

    fn deref(&self) -> &[u8] {
        &self.room[self.before..self.before + self.many]
    }
}

impl DerefMut for Bytes {
    fn deref_mut(&mut self) -> &mut [u8] {
        &mut self.room[self.before..self.before + self.many]
    }
}

impl PartialEq for Bytes {
    fn eq(&self, other: &Self) -> bool {
        **self == **other
    }
}

impl std::fmt::Debug for Bytes {
    fn fmt(&self, f: &mut std::fmt::Formatter<'_>) -> std::fmt::Result {
        (**self).fmt(f)
    }
}

/// A mask or a span with the bytes lent for it.
#[derive(Clone, Debug, PartialEq, Default)]
pub struct Piece {
    pub mask: Mask,
    pub bytes: Bytes,
}

impl Piece {
    /// Returns the mask with its bytes.
    pub fn lent(&self) -> Lent<'_> {
        Lent { mask: self.mask, bytes: &self.bytes }
    }

    /// Returns whether the span lies in its bytes.
    pub fn inside(&self) -> bool {
        self.mask.start as u128 + self.mask.length as u128 <= 8 * self.bytes.len() as u128
    }
}

/// The arguments of a call, as its shape names them.
#[derive(Clone, Debug, PartialEq, Default)]
pub struct Request {
    pub pieces: [Piece; 3],
    /// Whether the mask of a piece is present, if the call may be without it.
    pub present: [bool; 2],
    /// The place of a cursor over the first piece, and whether it has a mask.
    pub place: usize,
    pub masked: bool,
    pub builder: Builder,
    /// The output, or the builder's buffer, as it is lent.
    pub out: Bytes,
    /// The call's numbers, in the order of its arguments.
    pub n: usize,
    pub m: usize,
    pub words: [u64; 2],
    pub idxs: Vec<u32>,
    pub flag: bool,
}

impl Request {
    /// Returns the mask of piece i with its bytes.
    pub fn lent(&self, i: usize) -> Lent<'_> {
        self.pieces[i].lent()
    }

    /// Returns the span of the first piece.
    pub fn span(&self) -> Span<'_> {
        self.lent(0).span()
    }

    /// Returns the bytes of the first piece.
    pub fn bytes(&self) -> &[u8] {
        &self.pieces[0].bytes
    }

    /// Returns the cursor over the first piece.
    pub fn cursor(&self) -> Cursor {
        let Mask { start, length, .. } = self.pieces[0].mask;
        Cursor { start, length, place: self.place, masked: self.masked }
    }

    /// Returns the mask of piece i with its bytes, if it is present.
    pub fn optional(&self, i: usize) -> Option<Lent<'_>> {
        self.present[i].then(|| self.lent(i))
    }
}

/// What a call's numbers are.
#[derive(Clone, Copy, Debug, PartialEq, Eq)]
pub enum Args {
    None,
    /// n is the remainder of the first byte's address.
    Address,
    /// n is a position of any size: an index, or how many places to skip.
    Position,
    /// n is a position in the mask: a split point, a truck.
    Inside,
    /// n is how many set flags to skip, m where to begin.
    Search,
    /// n is a stated length.
    Length,
    /// n is the stated length of the first mask, or near it.
    SameLength,
    /// n and m are the offset and the length of a piece of the first mask.
    Inner,
    /// The flags of words[0] up to n.
    Word,
    /// n is how many times each flag is appended.
    Repeats,
    /// The indices of a gather.
    Indices,
    /// n is the offset at which both words are merged.
    Merge,
    /// n is the number of a set bit of words[0].
    Nth,
}

/// The kind of the first piece: bytes with a span, with a mask, or with a cursor.
#[derive(Clone, Copy, Debug, PartialEq, Eq)]
pub enum Kind {
    Span,
    Mask,
    Cursor,
}

/// The kind of what is lent to be written.
#[derive(Clone, Copy, Debug, PartialEq, Eq)]
pub enum Target {
    None,
    Output,
    Builder,
    /// Entries of 32 bits, which the request has as four bytes each, little-endian; fewer bytes at its end are not lent.
    Entries,
}

/// What a call takes.
#[derive(Clone, Copy, Debug)]
pub struct Shape {
    pub pieces: usize,
    pub kind: Kind,
    pub target: Target,
    pub args: Args,
    /// Whether the call takes a flag.
    pub flag: bool,
    /// How many of the masks may be absent.
    pub optional: usize,
    /// Whether the cursor may be without a mask.
    pub maskless: bool,
}

impl Shape {
    pub const NOTHING: Shape =
        Shape { pieces: 0, kind: Kind::Span, target: Target::None, args: Args::None, flag: false, optional: 0, maskless: false };
    pub const SPAN: Shape = Shape { pieces: 1, ..Shape::NOTHING };
    pub const CURSOR: Shape = Shape { kind: Kind::Cursor, ..Shape::SPAN };
    pub const BUILDER: Shape = Shape { target: Target::Builder, ..Shape::NOTHING };

    pub const fn masks(pieces: usize) -> Shape {
        Shape { pieces, kind: Kind::Mask, ..Shape::NOTHING }
    }

    pub const fn args(self, args: Args) -> Shape {
        Shape { args, ..self }
    }

    pub const fn writes(self) -> Shape {
        Shape { target: Target::Output, ..self }
    }

    pub const fn writes_entries(self) -> Shape {
        Shape { target: Target::Entries, ..self }
    }

    pub const fn flag(self) -> Shape {
        Shape { flag: true, ..self }
    }

    pub const fn optional(self, optional: usize) -> Shape {
        Shape { optional, ..self }
    }

    /// Returns the shape with one piece, from which a builder's append reads.
    pub const fn from(self, kind: Kind) -> Shape {
        Shape { pieces: 1, kind, ..self }
    }

    pub const fn maskless(self) -> Shape {
        Shape { maskless: true, ..self }
    }
}
