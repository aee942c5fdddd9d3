//! `compare --seed N --requests M [--call NAME] [--index I]` makes requests by chance, `compare --every [--call NAME]` every short one.
//!
//! Prints each difference that is on no list, with its input, then what was compared; exits with 1 if there was one.

use driver::choices::{Choices, Every, Random};
use driver::compare::{Counts, Difference, compare, guarded};
use driver::damage::damage;
use driver::generate::generate;
use driver::history::History;
use driver::listed::{Listed, Met};
use driver::request::Request;
use driver::short::Short;
use driver::table::{Call, calls};
use driver::wide::Wide;
use model::LIMIT;
use std::time::Instant;

/// The number of differences after which a run stops.
const ENOUGH: usize = 10;

struct Options {
    seed: u64,
    requests: u64,
    call: Option<String>,
    index: Option<u64>,
    every: bool,
}

fn options() -> Options {
    let mut options = Options { seed: 1, requests: 1_000_000, call: None, index: None, every: false };
    let mut words = std::env::args().skip(1);
    let number = |word: Option<String>| word.and_then(|word| word.parse().ok()).unwrap_or_else(|| usage());
    while let Some(word) = words.next() {
        match word.as_str() {
            "--seed" => options.seed = number(words.next()),
            "--requests" => options.requests = number(words.next()),
            "--call" => options.call = words.next(),
            "--index" => options.index = Some(number(words.next())),
            "--every" => options.every = true,
            _ => usage(),
        }
    }
    options
}

fn usage() -> ! {
    eprintln!("compare --seed N --requests M [--call NAME] [--index I]\ncompare --every [--call NAME]");
    std::process::exit(2)
}

/// The counts of a run so far.
struct Run {
    calls: Vec<Call>,
    counts: Vec<Counts>,
    met: Met,
    histories: u64,
    differences: usize,
}

impl Run {
    /// Returns the counts of all calls together.
    fn all(&self) -> Counts {
        self.counts.iter().fold(Counts::default(), |sum, counts| Counts {
            requests: sum.requests + counts.requests,
            theirs: sum.theirs + counts.theirs,
            refused: std::array::from_fn(|number| sum.refused[number] + counts.refused[number]),
        })
    }

    fn report(&mut self, place: &str, call: usize, request: &Request, difference: Difference) {
        self.differences += 1;
        println!("DIFFERENCE {} at {place}\n{}\ninput {request:x?}\n", self.calls[call].name, difference.0);
    }

    fn single(&mut self, place: &str, call: usize, request: &Request) {
        let (counts, met) = (&mut self.counts[call], &mut self.met);
        if let Err(difference) = guarded(|| compare(&self.calls[call], request, counts, met)) {
            self.report(place, call, request, difference);
        }
    }

    /// Makes every short request of a call.
    fn every(&mut self, call: usize) {
        let mut every = Every::default();
        let shape = self.calls[call].shape;
        loop {
            let request = generate(shape, &mut Short::new(shape, &mut every));
            self.single("every short request", call, &request);
            if !every.advance() || self.differences >= ENOUGH {
                return;
            }
        }
    }

    /// Makes a history of up to 20 calls.
    fn history(&mut self, place: &str, random: &mut Random) {
        self.histories += 1;
        let calls = std::mem::take(&mut self.calls);
        let mut failed = None;
        let mut history = History::new(&calls, random);
        for _ in 0..=random.below(20) {
            if history.over() {
                break;
            }
            let step = history.next_step(random);
            if let Err(difference) = guarded(|| history.take(&step, &mut self.counts[step.call], &mut self.met)) {
                failed = Some((step, difference));
                break;
            }
        }
        drop(history);
        self.calls = calls;
        if let Some((step, difference)) = failed {
            self.report(place, step.call, &step.request, difference);
        }
    }

    /// Makes request number `index` of a seed, or a history in its place. Requests are of the calls `these`; histories need all calls.
    fn chance(&mut self, seed: u64, index: u64, these: &[usize]) {
        let random = &mut Random::new(seed, index);
        let place = &format!("--seed {seed} --index {index}");
        if these.len() == self.calls.len() && random.once_in(20) {
            return self.history(place, random);
        }
        let call = random.one_of(these);
        let shape = self.calls[call].shape;
        let mut request = match random.below(8) {
            0 => generate(shape, &mut Short::new(shape, random)),
            _ => generate(shape, &mut Wide { random, longest: LIMIT }),
        };
        if random.once_in(4) {
            damage(&mut request, random);
        }
        self.single(place, call, &request)
    }

    fn print(&self, seconds: f64) {
        println!("{:42}{:>10}{:>10}  refused by 1 to 9", "call", "requests", "original");
        let rows = self.calls.iter().zip(&self.counts).filter(|(_, counts)| counts.requests > 0);
        rows.for_each(|(call, counts)| print_row(call.name, counts));
        print_row("all", &self.all());
        println!("\n{} histories", self.histories);
        for (listed, text) in Listed::ALL {
            println!("listed difference met {:>8} times: {text}", self.met.count(listed));
        }
        println!("{} requests in {seconds:.1} s, {} unlisted differences", self.all().requests, self.differences);
    }
}

fn print_row(name: &str, counts: &Counts) {
    let refused: String = counts.refused[1..].iter().map(|many| format!("{many:>9}")).collect();
    println!("{name:42}{:>10}{:>10}{refused}", counts.requests, counts.theirs);
}

fn main() {
    let options = options();
    std::panic::set_hook(Box::new(|_| {}));
    let calls = calls();
    let these: Vec<usize> = (0..calls.len()).filter(|&i| options.call.as_deref().is_none_or(|name| name == calls[i].name)).collect();
    if these.is_empty() {
        usage();
    }
    let begun = Instant::now();
    let mut run = Run { counts: vec![Counts::default(); calls.len()], calls, met: Met::default(), histories: 0, differences: 0 };
    if options.every {
        these.iter().for_each(|&call| run.every(call));
    } else if let Some(index) = options.index {
        run.chance(options.seed, index, &these);
    } else {
        let mut index = 0;
        while run.all().requests < options.requests && run.differences < ENOUGH {
            run.chance(options.seed, index, &these);
            index += 1;
        }
    }
    run.print(begun.elapsed().as_secs_f64());
    std::process::exit(i32::from(run.differences > 0))
}
