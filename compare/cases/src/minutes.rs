//! The window of minutes: runs of minutes at widths around a word and around the largest, its counts, and records that no run leaves.
//!
//! The arrays of a window are lent as bytes, little-endian: its 256 words, then its 64 counts.

use crate::arguments::Args;
use crate::calls::{Lents, Output, Reply};
use crate::file::File;
use crate::patterns::MAX;
use crate::token::{Token, list};
use model::activity::{self, Window};

const WIDTHS: [u64; 6] = [1, 2, 63, 64, 255, 256];

/// The first word of a run and the step from each to the next: words that look drawn, no flag, all flags, and few.
const RUNS: [(u64, u64); 4] = [(0x0123_4567_89AB_CDEF, 0x9E37_79B9_7F4A_7C15), (0, 0), (MAX, 0), (1, 1)];

/// Returns the answer of the call if its name is that of a call of the window.
pub fn answer(name: &str, a: &mut Args, l: &mut Lents) -> Option<Reply> {
    let (window, refusal) = match name {
        "ActivityWindow::new" => activity::new(a.number()),
        "push_minute" => {
            let window = window(a, l.o);
            activity::push_minute(&window, a.word())
        }
        "push_minutes" => {
            let (window, first, step, many) = (window(a, l.o), a.word(), a.word(), a.word());
            pushed(window, (0..many).map(|k| first.wrapping_add(k.wrapping_mul(step))))
        }
        "counts" => {
            let (counts, refusal) = activity::counts(&window(a, l.x));
            l.i.copy_from_slice(&counts);
            return Some(Reply { tokens: vec![Token::Number(refusal.into())], output: Output::Numbers });
        }
        _ => return None,
    };
    l.o.copy_from_slice(&arrays(&window));
    let numbers = [refusal.into(), window.place as u64, window.fill as u64, window.width as u64];
    Some(Reply { tokens: numbers.map(Token::Number).to_vec(), output: Output::Bytes })
}

/// Pushes minutes up to the first that is refused, and returns the window and the number.
fn pushed(mut window: Window, words: impl Iterator<Item = u64>) -> (Window, u8) {
    for word in words {
        let (next, refusal) = activity::push_minute(&window, word);
        if refusal != 0 {
            return (next, refusal);
        }
        window = next;
    }
    (window, 0)
}

/// Reads a window from its arrays and from three arguments.
fn window(a: &mut Args, bytes: &[u8]) -> Window {
    let (words, counts) = bytes.split_at(2048);
    Window {
        words: words.chunks(8).map(|word| u64::from_le_bytes(word.try_into().unwrap())).collect(),
        counts: counts.chunks(4).map(|count| u32::from_le_bytes(count.try_into().unwrap())).collect(),
        place: a.number(),
        fill: a.number(),
        width: a.number(),
    }
}

/// Returns the arrays of a window as bytes.
fn arrays(window: &Window) -> Vec<u8> {
    let words = window.words.iter().flat_map(|word| word.to_le_bytes());
    words.chain(window.counts.iter().flat_map(|count| count.to_le_bytes())).collect()
}

pub fn write(f: &mut File) {
    f.note("the window of minutes: new windows");
    f.lend_numbers(&[7; 64]);
    f.lend('o', &[0xAA; 2304]);
    for width in [1, 256, 0, 257] {
        f.ask(&format!("ActivityWindow::new {width}"));
    }
    f.ask(&format!("ActivityWindow::new 0..260,{}", list(&[1 << 32, 1 << 63, MAX])));
    f.note("the window of minutes: runs");
    for width in WIDTHS {
        for (first, step) in RUNS {
            run(f, width, first, step);
        }
    }
    f.note("the window of minutes: place, fill and width, with no flag set");
    f.lend('o', &[0; 2304]);
    let numbers = list(&[0, 1, 2, 3, 64, 255, 256, 257, 1 << 32, MAX]);
    f.ask(&format!("push_minute {numbers} {numbers} {numbers} 5"));
    f.note("the window of minutes: records that are wrong at one place");
    damaged(f, &activity::left_by(4, &[3, 5, 9, 1, 7]));
    damaged(f, &activity::left_by(4, &[3, 5]));
    damaged(f, &activity::left_by(256, &[MAX; 256]));
    damaged(f, &activity::left_by(256, &[MAX; 255]));
}

/// Pushes one minute fewer than the width, then two more one by one, then many; asks for the counts after each.
fn run(f: &mut File, width: u64, first: u64, step: u64) {
    f.lend('o', &[0xAA; 2304]);
    f.ask(&format!("ActivityWindow::new {width}"));
    let mut word = first;
    for many in [width - 1, 1, 1, width, 3 * width + 1, 3000] {
        let record = numbers(f);
        let (first, step) = (Token::Number(word), Token::Number(step));
        match many {
            1 => f.ask(&format!("+ push_minute {record} {first}")),
            _ => f.ask(&format!("+ push_minutes {record} {first} {step} {many}")),
        }
        assert_eq!(f.last[0], Token::Number(0));
        let Token::Number(step) = step else { continue };
        word = word.wrapping_add(many.wrapping_mul(step));
        counted(f);
    }
}

/// Returns the place, the fill and the width in the last call's answer.
fn numbers(f: &File) -> String {
    f.last[1..].iter().map(Token::to_string).collect::<Vec<String>>().join(" ")
}

/// Asks for the counts of the window that the last call left, and keeps that call's answer as the last one.
fn counted(f: &mut File) {
    let (last, record) = (f.last.clone(), numbers(f));
    f.lend_left('x');
    f.ask(&format!("counts {record}"));
    f.last = last;
}

/// Asks for the window, then for it with each of its numbers wrong, a stray word or a false count, which come back unchanged.
fn damaged(f: &mut File, good: &Window) {
    let mut records = vec![good.clone()];
    for width in [0, 257, usize::MAX] {
        records.push(Window { width, ..good.clone() });
    }
    for place in [good.place + 1, good.width, usize::MAX] {
        records.push(Window { place, ..good.clone() });
    }
    for fill in [good.fill - 1, good.fill + 1, good.width + 1, usize::MAX] {
        records.push(Window { fill, ..good.clone() });
    }
    for at in [good.fill, good.width, 255].into_iter().filter(|&at| at >= good.fill && at < 256) {
        let mut record = good.clone();
        record.words[at] = 1 << 63;
        records.push(record);
    }
    for (truck, count) in [(0, good.counts[0] + 1), (0, good.counts[0] - 1), (63, good.counts[63] + 1), (5, 257), (63, u32::MAX)] {
        let mut record = good.clone();
        record.counts[truck] = count;
        records.push(record);
    }
    for record in records {
        f.lend('o', &arrays(&record));
        let numbers = [record.place, record.fill, record.width].map(|number| Token::Number(number as u64).to_string()).join(" ");
        f.ask(&format!("push_minute {numbers} 6"));
        f.ask(&format!("push_minutes {numbers} 6 1 3"));
        f.lend('x', &arrays(&record));
        f.ask(&format!("counts {numbers}"));
    }
}
