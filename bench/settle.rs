//! Settles hours with the scan and times it, beside a linked library of the
//! same settles where there is one. Build and run it by bench/settle.py.
//!
//!     settle LOG..            the outcome of each log, as the program profile writes it
//!     settle --times LOG..    the time of one settle of each log
//!
//! A log has one O line and then F lines, all of them good.

mod settle_baseline;

use settle_baseline::{settle_words, Octets, Prime, ANSWER, CONTRADICTION, PART, WHOLE};
use std::hint::black_box;
use std::time::Instant;

const ROUNDS: usize = 60;
const ROUND_SECONDS: f64 = 0.01;

// The other side. Words and answers are those of `settle_words`.
#[cfg(library)]
extern "C" {
    fn prime_settle(hour: *const u16, hour_len: usize, answer: *mut u16, answer_len: usize);
    fn octets_settle(hour: *const u16, hour_len: usize, answer: *mut u16, answer_len: usize);
}

/// An hour as words: the width, then for each row the number of its terms, its
/// sum, and a minute and a weight for each term.
struct Hour {
    name: String,
    octets: bool,
    words: Vec<u16>,
}

type Answer = [u16; ANSWER];
type Settle = fn(&Hour) -> Answer;

fn rust_settle(hour: &Hour) -> Answer {
    let mut answer = [0; ANSWER];
    if hour.octets {
        settle_words::<Octets>(&hour.words, &mut answer);
    } else {
        settle_words::<Prime>(&hour.words, &mut answer);
    }
    answer
}

#[cfg(library)]
fn library_settle(hour: &Hour) -> Answer {
    let mut answer = [0; ANSWER];
    let settle = if hour.octets { octets_settle } else { prime_settle };
    unsafe {
        settle(hour.words.as_ptr(), hour.words.len(), answer.as_mut_ptr(), answer.len());
    }
    answer
}

#[cfg(library)]
const SIDES: &[(&str, Settle)] = &[("library", library_settle), ("plain Rust", rust_settle)];
#[cfg(not(library))]
const SIDES: &[(&str, Settle)] = &[("plain Rust", rust_settle)];

fn read_log(path: &str) -> Hour {
    let text = std::fs::read_to_string(path).expect("a log");
    let mut hour = Hour { name: path.to_string(), octets: false, words: Vec::new() };
    for line in text.lines() {
        let fields: Vec<&str> = line.split(',').collect();
        let numbers =
            |from: usize| fields[from..].iter().map(|field| field.parse::<u16>().unwrap());
        if fields[0] == "O" {
            hour.octets = fields[1] == "B";
            hour.words.extend(numbers(2));
        } else {
            hour.words.push((fields.len() / 2 - 1) as u16);
            hour.words.extend(numbers(1));
        }
    }
    hour
}

/// How many rows the words hold.
fn row_count(words: &[u16]) -> usize {
    let (mut at, mut count) = (1, 0);
    while at < words.len() {
        at += 2 + 2 * usize::from(words[at]);
        count += 1;
    }
    count
}

fn line_of(hour: &Hour, answer: &Answer) -> String {
    let (head, count) = match answer[0] {
        WHOLE => ("solved,whole", usize::from(hour.words[0])),
        PART => ("solved,part", usize::from(hour.words[0])),
        CONTRADICTION => ("contradiction", row_count(&hour.words)),
        kind => panic!("{}: an answer of kind {kind}", hour.name),
    };
    let words = answer[1..3 + count].iter().map(u16::to_string).collect::<Vec<_>>();
    format!("{head},{}", words.join(","))
}

/// Nanoseconds per settle of a round of so many settles.
fn round(settle: Settle, hour: &Hour, settles: usize) -> f64 {
    let start = Instant::now();
    for _ in 0..settles {
        black_box(settle(black_box(hour)));
    }
    start.elapsed().as_secs_f64() * 1e9 / settles as f64
}

/// How many settles a round takes; this also warms the caches.
fn settles_of_round(settle: Settle, hour: &Hour) -> usize {
    let time = (0..5).map(|_| round(settle, hour, 1)).fold(f64::INFINITY, f64::min);
    (ROUND_SECONDS * 1e9 / time).ceil() as usize
}

fn median(mut times: Vec<f64>) -> f64 {
    times.sort_by(f64::total_cmp);
    (times[(times.len() - 1) / 2] + times[times.len() / 2]) / 2.0
}

/// Times all sides in turn and prints a line.
fn compare(hour: &Hour) {
    let settles: Vec<usize> = SIDES.iter().map(|side| settles_of_round(side.1, hour)).collect();
    let mut times = vec![Vec::new(); SIDES.len()];
    for _ in 0..ROUNDS {
        for (side, (_, settle)) in SIDES.iter().enumerate() {
            times[side].push(round(*settle, hour, settles[side]));
        }
    }
    let medians: Vec<f64> = times.into_iter().map(median).collect();
    let texts = SIDES.iter().zip(&medians).map(|((name, _), time)| format!("{name} {time:.0} ns"));
    let mut text = texts.collect::<Vec<_>>().join(", ");
    if let [library, rust] = medians[..] {
        text += &format!(", ratio {:.2}", library / rust);
    }
    println!("{}: {text}", hour.name);
}

fn main() {
    let mut paths: Vec<String> = std::env::args().skip(1).collect();
    let timed = paths.first().is_some_and(|word| word == "--times");
    if timed {
        paths.remove(0);
    }
    for path in &paths {
        let hour = read_log(path);
        let answers: Vec<Answer> = SIDES.iter().map(|(_, settle)| settle(&hour)).collect();
        if answers.iter().any(|answer| *answer != answers[0]) {
            panic!("{path}: the two sides give different answers");
        }
        if timed {
            compare(&hour);
        } else {
            println!("{}", line_of(&hour, &answers[0]));
        }
    }
}
