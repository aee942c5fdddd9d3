//! Every call over a span or of a stated length, at the limit and at one more flag, with bytes and outputs for them, on all three sides.

use driver::choices::Random;
use driver::compare::{Counts, compare};
use driver::generate::generate;
use driver::listed::Met;
use driver::request::{Args, Bytes, Request, Target};
use driver::style::Style;
use driver::table::{Call, calls};
use driver::wide::Wide;
use model::{Builder, LIMIT, Mask};

/// Returns a request in which each piece, or each stated length, has `length` flags. An append gets a builder with no flags.
fn long(call: &Call, length: usize, random: &mut Random) -> Request {
    let shape = call.shape;
    let mut style = Wide { random, longest: LIMIT };
    let mut request = generate(shape, &mut style);
    for piece in &mut request.pieces[..shape.pieces] {
        piece.mask = Mask { start: 0, length, zeros: None, serial: 0 };
        piece.bytes = Bytes::new(&style.fill(length / 8 + 1), style.address());
    }
    request.present = [true; 2];
    request.place = 0;
    match shape.args {
        Args::Length | Args::SameLength => request.n = length,
        Args::Inner => (request.n, request.m) = (0, length),
        Args::Inside => request.n = length - 1,
        Args::Address | Args::Repeats => request.n = 1,
        Args::Position | Args::Search => (request.n, request.m) = (length / 4, length / 2),
        _ => {}
    }
    if shape.target == Target::Builder {
        request.builder = Builder::default();
    }
    if shape.target != Target::None {
        let many = if shape.target == Target::Entries { 4 * length } else { length.div_ceil(64) * 8 };
        request.out = Bytes::new(&style.fill(many), style.address());
    }
    request
}

#[test]
fn the_limit_passes_and_one_more_is_refused() {
    let mut random = Random::new(1, 0);
    let calls = calls();
    let lengthy = calls.iter().filter(|call| call.shape.pieces > 0 || call.shape.args == Args::Length);
    for call in lengthy.filter(|call| call.name != "load_padded_le_u64") {
        let (mut counts, mut met) = (Counts::default(), Met::default());
        for (length, refusal) in [(LIMIT, 0), (LIMIT + 1, 1)] {
            let request = long(call, length, &mut random);
            let answer = compare(call, &request, &mut counts, &mut met).unwrap_or_else(|d| panic!("{} {length}: {}", call.name, d.0));
            assert_eq!(answer.0.refusal, refusal, "{} {length}", call.name);
        }
        assert_eq!(counts.theirs, 1, "{}: the original was not asked", call.name);
    }
}
