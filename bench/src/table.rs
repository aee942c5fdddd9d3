//! The markdown table of two runs of the driver: one built for the baseline target, one for the machine's own.

use std::fs;

use crate::cases::{SIZES, STARTS};

const BEGIN: &str = "<!-- the table of bench/run begins -->";
const END: &str = "<!-- the table of bench/run ends -->";

/// One line of the driver: nanoseconds per call of each side that is present.
struct Line {
    case: [String; 3],
    length: usize,
    ours: f64,
    original: Option<f64>,
    plain: Option<f64>,
}

fn lines(file: &str) -> Vec<Line> {
    let text = fs::read_to_string(file).unwrap_or_else(|error| panic!("{file}: {error}"));
    text.lines().map(line).collect()
}

fn line(text: &str) -> Line {
    let fields: Vec<&str> = text.split('\t').collect();
    let [call, kind, at, length, ours, original, plain] = fields[..] else { panic!("not a line of the driver: {text}") };
    Line {
        case: [call.into(), kind.into(), at.into()],
        length: length.parse().unwrap(),
        ours: ours.parse().unwrap(),
        original: original.parse().ok(),
        plain: plain.parse().ok(),
    }
}

/// Returns the text of a time: one decimal below 10, else a whole number with commas between thousands.
fn nanoseconds(value: f64) -> String {
    if value < 9.95 {
        return format!("{value:.1}");
    }
    let digits = format!("{value:.0}");
    let mut text = String::new();
    for (i, digit) in digits.chars().enumerate() {
        if i > 0 && (digits.len() - i).is_multiple_of(3) {
            text.push(',');
        }
        text.push(digit);
    }
    text
}

fn ratio(ours: f64, other: Option<f64>) -> String {
    other.map_or("-".into(), |other| format!("{:.2}", ours / other))
}

/// Returns a cell: ours in nanoseconds, then the ratios to the original at baseline, to the original at native, and to the plain loop at
/// baseline.
fn cell(baseline: &Line, native: Option<&Line>) -> String {
    let to_native = native.map_or("-".into(), |native| ratio(native.ours, native.original));
    let to_original = ratio(baseline.ours, baseline.original);
    format!("{}: {to_original} / {to_native} / {}", nanoseconds(baseline.ours), ratio(baseline.ours, baseline.plain))
}

fn table(baseline: &[Line], native: &[Line]) -> String {
    let mut text = String::from("| call | flags | start bit | 40 | 1,000 | 65,536 | 4,194,304 |\n|---|---|---|---|---|---|---|\n");
    let mut cases: Vec<&[String; 3]> = baseline.iter().map(|line| &line.case).collect();
    cases.dedup();
    for case in cases {
        let cells = SIZES.map(|length| {
            let of = |lines: &'_ [Line]| lines.iter().position(|line| line.case == *case && line.length == length);
            let other = of(native).map(|i| &native[i]);
            of(baseline).map_or(String::new(), |i| cell(&baseline[i], other))
        });
        text += &format!("| {} | {} |\n", case.join(" | "), cells.join(" | "));
    }
    text
}

/// Returns the table of the calls on grids: a line for each call and grid, a cell for each start bit.
fn grids(baseline: &[Line], native: &[Line]) -> String {
    let starts = STARTS.map(|start| format!("start bit {start}")).join(" | ");
    let mut text = format!("| call | rows x columns | {starts} |\n|---|---|---|---|\n");
    let mut cases: Vec<[&str; 2]> = baseline.iter().map(|line| [line.case[0].as_str(), line.case[1].as_str()]).collect();
    cases.sort_by_key(|case| case[0]);
    cases.dedup();
    for [call, kind] in cases {
        let cells = STARTS.map(|start| {
            let case = [call.to_string(), kind.to_string(), start.to_string()];
            let of = |lines: &'_ [Line]| lines.iter().position(|line| line.case == case);
            of(baseline).map_or(String::new(), |i| cell(&baseline[i], of(native).map(|i| &native[i])))
        });
        text += &format!("| {call} | {kind} | {} |\n", cells.join(" | "));
    }
    text
}

/// Returns the tables of the lines in two files, that of grids by itself, and how busy the machine was.
pub fn make(baseline: &str, native: &str) -> String {
    let parts = |file: &str| lines(file).into_iter().partition::<Vec<Line>, _>(|line| line.case[0].starts_with("grid_"));
    let ((of_grids, others), (of_grids_native, others_native)) = (parts(baseline), parts(native));
    let shown = if of_grids.is_empty() { String::new() } else { format!("\n{}", grids(&of_grids, &of_grids_native)) };
    format!("{}{shown}\n{}\n", table(&others, &others_native), load())
}

fn load() -> String {
    let text = fs::read_to_string("/proc/loadavg").unwrap_or_default();
    let averages: Vec<&str> = text.split_whitespace().take(3).collect();
    let processors = std::thread::available_parallelism().map_or(0, usize::from);
    format!("Load averages at the end of the runs: {}; processors: {processors}.", averages.join(", "))
}

/// Writes the table between the two marks of a document.
pub fn write(document: &str, table: &str) {
    let text = fs::read_to_string(document).unwrap_or_else(|error| panic!("{document}: {error}"));
    let (before, rest) = text.split_once(BEGIN).expect("the document has the first mark");
    let (_, after) = rest.split_once(END).expect("the document has the second mark");
    fs::write(document, format!("{before}{BEGIN}\n{table}{END}{after}")).unwrap();
}
