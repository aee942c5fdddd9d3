//! Histories: a builder, then a mask, through many calls, refused ones included. Each call is compared by itself. After each call the
//! library's state is compared with the reference list and with a builder or bitmap of the original after equal calls.

use crate::choices::{Choices, Random};
use crate::compare::{Counts, Difference, compare};
use crate::damage::damage;
use crate::generate::{arguments, generate, output, piece};
use crate::listed::Met;
use crate::request::{Bytes, Kind, Piece, Request, Target};
use crate::style::Style;
use crate::table::Call;
use crate::theirs::{self, Theirs};
use crate::wide::Wide;
use model::{Answer, Builder, Mask, State, flag_at, frozen, frozen_size, word_flags, zeros};
use original::bitmap::{Bitmap, BitmapBuilder};

/// The state of a history, in the library and in the original.
enum Stage {
    Building(Builder, BitmapBuilder),
    Masked(Mask, Bitmap),
    /// `into_opt_validity` returned none: the history has ended.
    Over,
}

/// A history: its state, and the reference list.
pub struct History<'a> {
    calls: &'a [Call],
    stage: Stage,
    /// The builder's buffer, then the mask's bytes.
    bytes: Bytes,
    list: Vec<bool>,
}

/// A call of a history: its number in the table, and its request.
pub struct Step {
    pub call: usize,
    pub request: Request,
}

impl<'a> History<'a> {
    /// Starts a history, mostly with a new builder, else with a mask.
    pub fn new(calls: &'a [Call], random: &mut Random) -> Self {
        let mut style = Wide { random, longest: 1_000 };
        if style.random.once_in(4) {
            let Piece { mask, bytes } = piece(Kind::Span, style.length(), &mut style);
            let zeros = zeros(&model::Lent { mask, bytes: &bytes }.flags());
            // as `try_new` returns it, or an imported mask with its count
            let known = mask.length == 0 || style.random.once_in(2);
            let mask = Mask { zeros: known.then_some(zeros), ..mask };
            let lent = model::Lent { mask, bytes: &bytes };
            let (list, bitmap) = (lent.flags(), theirs::bitmap(lent));
            return Self { calls, stage: Stage::Masked(mask, bitmap), bytes, list };
        }
        let many = style.one_of(&[0, 8, 16, 40, 200, 1_000]);
        let stage = Stage::Building(Builder::default(), BitmapBuilder::new());
        Self { calls, stage, bytes: Bytes::new(&style.fill(many), style.address()), list: Vec::new() }
    }

    /// Returns whether the history has ended.
    pub fn over(&self) -> bool {
        matches!(self.stage, Stage::Over)
    }

    /// Chooses the next call and its arguments other than the state.
    pub fn next_step(&self, random: &mut Random) -> Step {
        let ends = random.once_in(8);
        let fits = |call: &Call| match (&self.stage, &call.theirs) {
            (Stage::Building(..), Theirs::Append(_)) => !ends,
            (Stage::Building(..), Theirs::Finish(_)) => ends,
            (Stage::Masked(..), _) => call.shape.kind == Kind::Mask && call.shape.target != Target::Builder,
            _ => false,
        };
        let these: Vec<usize> = (0..self.calls.len()).filter(|&i| fits(&self.calls[i])).collect();
        let call = random.one_of(&these);
        let shape = self.calls[call].shape;
        let mut request = generate(shape, &mut Wide { random, longest: 1_000 });
        let damaged = random.once_in(6);
        if damaged {
            damage(&mut request, random);
        }
        self.lend(&mut request, shape.pieces, random);
        if !damaged && shape.kind == Kind::Mask {
            let length = request.pieces[0].mask.length;
            arguments(shape, length, &mut request, &mut Wide { random, longest: 1_000 });
        }
        Step { call, request }
    }

    /// Puts the state into a request: the builder with its buffer, or the mask in one of the places. The other masks have its length and
    /// an unknown or a true count, and now and then any count, which the call refuses if it is false.
    fn lend(&self, request: &mut Request, pieces: usize, random: &mut Random) {
        match self.stage {
            Stage::Building(builder, _) => {
                request.builder = builder;
                request.out = self.bytes.clone();
            }
            Stage::Masked(mask, _) => {
                let place = random.below(pieces);
                let mut style = Wide { random, longest: 1_000 };
                for i in 0..pieces {
                    request.pieces[i] = if i == place { self.piece(mask) } else { true_piece(mask.length, &mut style) };
                    if i != place && style.random.once_in(16) {
                        request.pieces[i].mask.zeros = Some(style.random.below(mask.length + 2));
                    }
                }
                if !request.out.is_empty() && !style.random.once_in(8) {
                    request.out = output(frozen_size(mask.length as u128) as usize, &mut style);
                }
            }
            Stage::Over => {}
        }
    }

    fn piece(&self, mask: Mask) -> Piece {
        Piece { mask, bytes: self.bytes.clone() }
    }

    /// Makes the call on all sides and compares the new state with the list and the original.
    pub fn take(&mut self, step: &Step, counts: &mut Counts, met: &mut Met) -> Result<(), Difference> {
        let call = &self.calls[step.call];
        let (answer, out) = compare(call, &step.request, counts, met)?;
        if answer.refusal != 0 {
            return Ok(());
        }
        let stage = std::mem::replace(&mut self.stage, Stage::Over);
        self.stage = match stage {
            Stage::Building(_, builder) => self.built(call, &step.request, answer.state, builder, out),
            Stage::Masked(mask, bitmap) => self.masked(call, &step.request, (mask, answer.state), bitmap, out),
            Stage::Over => Stage::Over,
        };
        self.held()
    }

    fn built(&mut self, call: &Call, request: &Request, state: State, mut builder: BitmapBuilder, out: Bytes) -> Stage {
        self.bytes = out;
        match (&call.theirs, state) {
            (Theirs::Append(append), State::Builder(ours)) => {
                append(request, &mut builder);
                self.list.extend(appended(call, request));
                Stage::Building(ours, builder)
            }
            (Theirs::Finish(finish), State::Mask(mask)) => Stage::Masked(mask, finish(builder).expect("a mask")),
            (Theirs::Finish(finish), State::None) => {
                assert!(finish(builder).is_none() && zeros(&self.list) == 0, "none where not all flags are set");
                Stage::Over
            }
            _ => panic!("an answer of another kind"),
        }
    }

    fn masked(&mut self, call: &Call, request: &Request, (mask, state): (Mask, State), mut bitmap: Bitmap, out: Bytes) -> Stage {
        let State::Mask(ours) = state else {
            return Stage::Masked(mask, bitmap);
        };
        match call.theirs {
            Theirs::Combine(combine) => {
                self.list = combined(call, request, &self.piece(mask), &self.list);
                let place = |piece: &Piece| *piece == self.piece(mask);
                let masks = request.pieces[..call.shape.pieces].iter();
                let masks: Vec<Bitmap> =
                    masks.map(|piece| if place(piece) { bitmap.clone() } else { theirs::bitmap(piece.lent()) }).collect();
                self.bytes = out;
                return Stage::Masked(ours, combine(request, &masks));
            }
            // The only other calls that return a mask are `slice` and `unset_bits`.
            _ if call.name == "slice" => {
                bitmap.slice(request.n, request.m);
                self.list = self.list[request.n..request.n + request.m].to_vec();
            }
            _ => assert_eq!(bitmap.unset_bits(), zeros(&self.list), "the original's count"),
        }
        Stage::Masked(ours, bitmap)
    }

    /// Compares the library's state with the list and with the original.
    fn held(&self) -> Result<(), Difference> {
        let (flags, known, same) = match &self.stage {
            Stage::Over => return Ok(()),
            Stage::Building(builder, theirs) => {
                let word = word_flags(builder.word).into_iter().take(builder.length % 64);
                let flags: Vec<bool> = (0..64 * (builder.length / 64)).map(|j| flag_at(&self.bytes, j)).chain(word).collect();
                let ones = builder.ones + builder.word.count_ones() as usize;
                (flags, Some(builder.length - ones), theirs.len() == builder.length && theirs.set_bits() == ones)
            }
            Stage::Masked(mask, theirs) => {
                let flags = self.piece(*mask).lent().flags();
                let same = theirs::mask(theirs) == *mask && theirs.iter().eq(flags.iter().copied());
                (flags, mask.zeros, same)
            }
        };
        if !same {
            return Err(Difference("the original has come to another state".to_string()));
        }
        if flags != self.list || known.is_some_and(|known| known != zeros(&self.list)) {
            return Err(Difference("the reference list is another".to_string()));
        }
        Ok(())
    }
}

/// Returns a mask with an unknown or a true count.
fn true_piece(length: usize, style: &mut impl Style) -> Piece {
    let mut other = piece(Kind::Span, length, style);
    if style.flip() {
        other.mask.zeros = Some(zeros(&other.lent().flags()));
    }
    other
}

/// Returns the flags that a call appends: those that it leaves in a new builder.
fn appended(call: &Call, request: &Request) -> Vec<bool> {
    let alone = Request { builder: Builder::default(), ..request.clone() };
    let mut out = vec![0; 1 << 16];
    let answer = (call.model)(&alone, &mut out);
    let State::Builder(builder) = answer.state else { panic!("no builder") };
    assert_eq!(answer.refusal, 0, "a new builder refuses what the history's took");
    let finished = (0..64 * (builder.length / 64)).map(|j| flag_at(&out, j));
    finished.chain(word_flags(builder.word).into_iter().take(builder.length % 64)).collect()
}

/// Returns the flags of a combination with the reference list in each place of the history's mask.
fn combined(call: &Call, request: &Request, own: &Piece, list: &[bool]) -> Vec<bool> {
    let mut plain = request.clone();
    for piece in plain.pieces.iter_mut().filter(|piece| *piece == own) {
        *piece = Piece { mask: Mask { start: 0, length: list.len(), zeros: None, serial: 0 }, bytes: Bytes::new(&frozen(list), 0) };
    }
    let mut out = request.out.clone();
    let Answer { state: State::Mask(mask), .. } = (call.model)(&plain, &mut out) else { panic!("no mask") };
    Piece { mask, bytes: out }.lent().flags()
}
