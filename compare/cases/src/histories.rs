//! Histories: forty that end in one list, as spans of bytes, as whole words and parts of them, by every append, slice and combination,
//! from other lists too, with refused calls in between; five that begin with an imported mask and end in the same list; six that end in it
//! by way of grids, and six by way of run ends; and ten whose lists freeze to equal bytes and differ in length.

use crate::file::File;
use crate::patterns::{MOST, low, paint, zeros};
use crate::steps::{GRIDS, IMPORTED, ONE_LIST, RUN_ENDS, ZEROS, ZEROS_BEHIND};
use crate::token::{Token, show};

/// Returns the lent bytes: 256 flags that look drawn, 256 zeros, 256 ones.
fn lent() -> Vec<u8> {
    [paint(27, 32), paint(0, 32), paint(1, 32)].concat()
}

pub fn write(f: &mut File) {
    f.note("histories: forty that end in one list");
    let target: Vec<String> = ONE_LIST.iter().map(|steps| told(f, steps)).collect();
    assert!(target.iter().all(|told| *told == target[0]), "a history that ends in another list");
    f.note("histories: five that begin with an imported mask and end in the same list");
    assert!(IMPORTED.iter().all(|steps| told(f, steps) == target[0]), "an imported history that ends in another list");
    f.note("histories: six that end in it by way of grids");
    assert!(GRIDS.iter().all(|steps| told(f, steps) == target[0]), "a history by way of grids that ends in another list");
    f.note("histories: six that end in it by way of run ends");
    assert!(RUN_ENDS.iter().all(|steps| told(f, steps) == target[0]), "a history by way of run ends that ends in another list");
    for (note, group) in [("lists of zeros", &ZEROS[..]), ("lists that end in zeros", &ZEROS_BEHIND)] {
        f.note(&format!("histories: {note}, which freeze alike and differ in length"));
        let lists: Vec<String> = group.iter().map(|steps| told(f, steps)).collect();
        let (bytes, _) = lists[0].split_once(' ').unwrap();
        assert!(lists.iter().all(|told| told.split_once(' ').unwrap().0 == bytes), "a history that freezes otherwise");
        assert_ne!(lists[0], lists[1]);
    }
}

/// A history that is being written.
struct History<'a> {
    f: &'a mut File,
    lent: Vec<u8>,
    /// The mask, its bytes in `own`, and in `other` the bytes that the next combination writes to.
    mask: [Token; 3],
    own: Vec<u8>,
    other: Vec<u8>,
    begun: bool,
}

/// Writes a history and returns the frozen bytes and the length that it ends in.
fn told(f: &mut File, steps: &str) -> String {
    f.note(steps);
    f.lend('o', &paint(27, 32));
    let mut h = History { f, lent: lent(), mask: [Token::Unknown; 3], own: paint(27, 32), other: paint(27, 32), begun: false };
    for step in steps.split(' ') {
        let numbers = [&step[1..4], &step[4..7], &step[7..10]].map(|digits| match digits.parse().expect("three digits") {
            999 => MOST + 1,
            number => number,
        });
        let letter = step.chars().next().expect("a letter");
        h.step(letter.to_ascii_lowercase(), if letter.is_ascii_uppercase() { " o:8" } else { "" }, numbers);
    }
    h.end()
}

impl History<'_> {
    fn step(&mut self, letter: char, size: &str, [x, y, z]: [u64; 3]) {
        match letter {
            't' => {
                let own = self.own.clone();
                self.f.lend('x', &own);
                self.f.ask(&format!("try_new {x} {y}"));
                self.took(false);
            }
            'l' => {
                let own = self.own.clone();
                self.f.lend('x', &own);
                let exact = zeros(&own, x, y);
                let count = if z == 0 { "?".to_string() } else { show([exact, exact + 1, 0, y][z as usize - 1]) };
                self.f.ask(&format!("unset_bits {x} {y} {count}"));
                assert_eq!(self.f.last[0] == Token::Number(3), z > 1, "a stale count");
                self.took(false);
            }
            's' | 'u' => {
                let own = self.own.clone();
                self.f.lend('x', &own);
                let mask = self.own_mask();
                self.f.ask(&if letter == 's' { format!("slice {mask} {x} {y}") } else { format!("unset_bits {mask}") });
                self.took(false);
            }
            'y' | 'z' | '^' => self.grid(letter, size, [x, y, z]),
            '<' => self.write_run_ends(),
            '>' => self.read_run_ends(x, y),
            'f' | 'v' => {
                self.f.ask(&format!("+ {} @3{size}", if letter == 'f' { "freeze" } else { "into_opt_validity" }));
                self.took(true);
            }
            'p' | 'm' | 'c' | 'w' | 'e' | 'r' | 'b' | 'g' | 'h' => self.append(letter, size, [x, y, z]),
            _ => self.combine(letter, size, [x, y, z]),
        }
    }

    /// Returns the mask's three tokens, as `@3` if the last answer ends in them.
    fn own_mask(&self) -> String {
        if self.f.last.len() > 3 && self.f.last[self.f.last.len() - 3..] == self.mask {
            return "@3".to_string();
        }
        self.mask.map(|token| token.to_string()).join(" ")
    }

    /// Takes the mask from the last answer, and its bytes if the call wrote them; nothing after a refusal.
    fn took(&mut self, written: bool) {
        if self.f.last[0] != Token::Number(0) {
            return;
        }
        self.mask.copy_from_slice(&self.f.last[self.f.last.len() - 3..]);
        if written {
            self.own = self.f.left.clone();
            self.f.lend_left('x');
        }
    }

    fn append(&mut self, letter: char, size: &str, [x, y, z]: [u64; 3]) {
        if !self.begun {
            self.f.ask("BitmapBuilder::new");
        }
        let lent = self.lent.clone();
        self.f.lend('x', &lent);
        let word = |n: u64| (0..n.min(64)).map(|j| u64::from(model::flag_at(&lent, (x + j) as usize)) << j).sum::<u64>();
        let counted = if z != 0 { show(zeros(&lent, 32, 200)) } else { "?".to_string() };
        if letter == 'g' || letter == 'h' {
            self.f.lend_numbers(&(x..x + y).map(|index| index as u32).collect::<Vec<u32>>());
        }
        let call = match letter {
            'p' => format!("push @3 {}", word(1)),
            'm' => format!("push_mut @3 {}", word(1)),
            'c' => format!("extend_constant @3 {x} {y}"),
            'w' => format!("push_word_with_len_unchecked @3 {} {y}", show(if z != 0 { word(64) } else { low(word(64), y) })),
            'e' => format!("extend_from_slice @3 {x} {y}"),
            'r' => format!("extend_each_repeated_from_slice_unchecked @3 {x} {y} {z}"),
            'b' => format!("subslice_extend_from_bitmap @3 32 200 {counted} {x} {y}"),
            'g' => format!("gather_extend_from_slice @3 {z} 100"),
            _ => format!("opt_gather_extend_from_slice @3 {z} 100"),
        };
        self.f.ask(&format!("{}{call}{size}", if self.begun { "+ " } else { "" }));
        self.begun = true;
    }

    /// Lends the bytes of argument k of a combination as x, y or z, and returns its mask.
    fn argument(&mut self, k: usize, kind: u64, x: u64, y: u64) -> String {
        let letter = ['x', 'y', 'z'][k];
        let bytes = if kind == 0 { self.own.clone() } else { self.lent.clone() };
        self.f.lend(letter, &bytes);
        let Token::Number(length) = self.mask[1] else { panic!("no length") };
        let start = if kind == 3 || kind == 4 { y } else { x };
        let inside = start + length <= 8 * bytes.len() as u64;
        match kind {
            0 => self.own_mask(),
            2 | 4 if inside => format!("{start} {length} {}", zeros(&bytes, start, length)),
            5 => format!("{start} {} ?", length + 1),
            6 if inside => format!("{start} {length} {}", zeros(&bytes, start, length) + 1),
            _ => format!("{start} {length} ?"),
        }
    }

    fn combine(&mut self, letter: char, size: &str, [x, y, z]: [u64; 3]) {
        let (name, many, flag) = match letter {
            'a' => ("and", 2, ""),
            'd' => ("and_not", 2, ""),
            'o' => ("or", 2, ""),
            'q' => ("or_not", 2, ""),
            'x' => ("xor", 2, ""),
            'n' => ("not", 1, ""),
            'i' => ("select", 3, ""),
            'j' => ("select_constant", 2, " 0"),
            'k' => ("select_constant", 2, " 1"),
            _ => panic!("no step: {letter}"),
        };
        let kinds = [z / 100, z / 10 % 10, z % 10];
        let masks: Vec<String> = (0..many).map(|k| self.argument(k, kinds[k], x, y)).collect();
        let other = self.other.clone();
        self.f.lend('o', &other);
        self.f.ask(&format!("{name} {}{flag}{size}", masks.join(" ")));
        if self.f.last[0] == Token::Number(0) {
            self.other = self.own.clone();
            self.took(true);
        }
    }

    fn grid(&mut self, letter: char, size: &str, [rows, columns, number]: [u64; 3]) {
        let (own, other) = (self.own.clone(), self.other.clone());
        self.f.lend('x', &own);
        self.f.lend('o', &other);
        let grid = format!("{} {rows} {columns}", self.own_mask());
        self.f.ask(&match letter {
            'y' => format!("grid_row {grid} {number}"),
            'z' => format!("grid_column {grid} {number}{size}"),
            _ => format!("grid_transpose {grid}{size}"),
        });
        if self.f.last[0] == Token::Number(0) && letter != 'y' {
            self.other = own;
        }
        self.took(letter != 'y');
    }

    fn write_run_ends(&mut self) {
        self.f.lend_ends(&[-7; 160]);
        let mask = self.own_mask();
        self.over_own(&format!("to_run_ends {mask}"));
    }

    fn read_run_ends(&mut self, length: u64, each: u64) {
        let Token::Number(runs) = self.mask[1] else { panic!("no length") };
        match each {
            0 => self.f.lend_left_ends(),
            _ => self.f.lend_ends(&(1..=runs).map(|k| (k * each) as i32).collect::<Vec<i32>>()),
        }
        let mask = self.own_mask();
        self.over_own(&format!("from_run_ends {mask} {length} e:{runs}"));
    }

    /// Makes a call that reads the history's mask and writes another one to the other bytes.
    fn over_own(&mut self, request: &str) {
        let (own, other) = (self.own.clone(), self.other.clone());
        self.f.lend('x', &own);
        self.f.lend('o', &other);
        self.f.ask(request);
        if self.f.last[0] == Token::Number(0) {
            self.other = own;
        }
        self.took(true);
    }

    /// Asks for the frozen bytes, the zeros, the runs, flags and positions by their numbers, and 100 flags as a grid of 4 rows, as run ends
    /// and as the values of 100 runs of two flags; returns the frozen bytes and the length.
    fn end(&mut self) -> String {
        let own = self.own.clone();
        self.f.lend('x', &own);
        let mask = self.mask.map(|token| token.to_string()).join(" ");
        let (start, length) = (self.mask[0], self.mask[1]);
        self.f.lend('o', &paint(7, 32));
        self.f.ask("BitmapBuilder::new");
        self.f.ask(&format!("subslice_extend_from_bitmap @3 {mask} 0 {length}"));
        self.f.ask("+ freeze @3");
        let frozen = self.f.left.iter().map(|byte| format!("{byte:02x}")).collect::<String>();
        self.f.ask(&format!("unset_bits {mask}"));
        self.f.ask("SlicesIterator::new @3");
        while self.f.last[1] != Token::Missing {
            self.f.ask("SlicesIterator::next @3");
        }
        self.f.ask(&format!("BitmapIter::new {start} {length}"));
        self.f.ask("nth @3 0..103,xffffffffffffffff");
        for name in ["nth_set_bit_idx", "nth_set_bit_idx_rev"] {
            self.f.ask(&format!("{name} {start} {length} 0..60 0,37,64,{length},xffffffffffffffff"));
        }
        if length == Token::Number(100) {
            self.f.lend_numbers(&[7; 26]);
            self.f.ask(&format!("grid_row {mask} 4 25 0..5"));
            self.f.ask(&format!("grid_column {mask} 4 25 0..26"));
            self.f.ask(&format!("grid_transpose {mask} 4 25"));
            self.f.ask(&format!("grid_row_zeros {mask} 4 25"));
            self.f.ask(&format!("grid_column_zeros {mask} 4 25"));
            self.f.lend_ends(&(1..=101).map(|k| 2 * k).collect::<Vec<i32>>());
            self.f.ask(&format!("to_run_ends {mask} s:0,7"));
            self.f.ask(&format!("from_run_ends {mask} 199 e:100"));
        }
        format!("{frozen} {length}")
    }
}
