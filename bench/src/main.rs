//! Measures the unit's library beside libmarpa and a plain version, over the same books and words, in one run.

mod books;
mod plain;
mod unit;

use books::{Book, Case, cases};
use std::io::Write;
use std::process::{Command, Stdio};
use std::time::Instant;
use unit::PressAnswer;

/// How many times each is measured; the fastest counts.
const TURNS: usize = 11;

/// Nanoseconds a word, for one number of rounds over some words.
fn timed(words: usize, rounds: u32, run: impl Fn(u32)) -> f64 {
    let clock = |rounds| {
        let from = Instant::now();
        run(rounds);
        from.elapsed().as_nanos() as f64
    };
    // what is done once is taken off
    let once = clock(0);
    (clock(rounds) - once) / (f64::from(rounds) * words as f64)
}

fn plain_rounds(book: &Book, keys: &[u16], count: u32) -> Vec<PressAnswer> {
    let mut answers = vec![PressAnswer::default(); keys.len()];
    let mut draft = plain::Draft::open(book);
    for _ in 0..count {
        for (key, place) in keys.iter().zip(&mut answers) {
            let items = draft
                .press(plain::bit(*key))
                .expect("a lit key whose items fit");
            *place = PressAnswer {
                items,
                lit: draft.lit().count_ones(),
            };
        }
        for _ in keys {
            draft.rub_out();
        }
    }
    answers
}

/// What libmarpa tells of some words: nanoseconds a word, and how many keys it expects after each.
struct Marpa {
    nanos: f64,
    /// nanoseconds of three calls from Perl that only look a number up
    calls: f64,
    lit: Vec<u32>,
}

fn marpa_rounds(book: &Book, keys: &[u16], count: u32) -> Marpa {
    let mut asked = format!("{} {} {} {count}\n", book.parts, book.keys, book.start);
    for rule in &book.rules {
        let right: Vec<String> = rule.right.iter().map(u16::to_string).collect();
        asked += &format!("{} {}\n", rule.left, right.join(" "));
    }
    let words: Vec<String> = keys.iter().map(u16::to_string).collect();
    asked += &format!("\n{}\n", words.join(" "));
    let mut perl = Command::new("perl")
        .arg(concat!(env!("CARGO_MANIFEST_DIR"), "/marpa.pl"))
        .stdin(Stdio::piped())
        .stdout(Stdio::piped())
        .spawn()
        .expect("perl runs");
    perl.stdin
        .take()
        .expect("a pipe")
        .write_all(asked.as_bytes())
        .expect("perl reads");
    let said = perl.wait_with_output().expect("perl ends");
    assert!(said.status.success(), "libmarpa refuses the book or a key");
    let said = String::from_utf8(said.stdout).expect("figures");
    let mut lines = said.lines();
    let mut line = || lines.next().expect("three lines");
    Marpa {
        nanos: line().parse().expect("a figure"),
        calls: line().parse().expect("a figure"),
        lit: line()
            .split_whitespace()
            .map(|figure| figure.parse().expect("a figure"))
            .collect(),
    }
}

/// The fastest of some times, and how far the middle one lies above it, in hundredths.
fn fastest(mut times: Vec<f64>) -> (f64, f64) {
    times.sort_by(f64::total_cmp);
    let (fastest, middle) = (times[0], times[times.len() / 2]);
    (fastest, 100.0 * (middle - fastest) / fastest)
}

fn agreed(case: &Case) {
    let proved = unit::rounds(&case.book.text(), &case.words, 1);
    assert_eq!(
        proved,
        plain_rounds(&case.book, &case.words, 1),
        "the plain version answers otherwise"
    );
    let lit: Vec<u32> = proved.iter().map(|answer| answer.lit).collect();
    assert_eq!(
        lit,
        marpa_rounds(&case.book, &case.words, 1).lit,
        "libmarpa expects other keys"
    );
    println!(
        "{}: {} words, {} items, the three agree on each word",
        case.name,
        proved.len(),
        proved[proved.len() - 1].items
    );
}

fn measure(case: &Case, words: usize) {
    let keys = &case.words[..words];
    let text = case.book.text();
    // as many rounds as take some hundredths of a second
    let first = timed(words, 2, |count| {
        drop(plain_rounds(&case.book, keys, count))
    })
    .max(1.0);
    let rounds = ((3e7 / (first * words as f64)) as u32).clamp(2, 20_000);
    let mut times = [vec![], vec![], vec![]];
    for _ in 0..TURNS {
        times[0].push(timed(words, rounds, |count| {
            drop(unit::rounds(&text, keys, count))
        }));
        times[1].push(timed(words, rounds, |count| {
            drop(plain_rounds(&case.book, keys, count))
        }));
        times[2].push(marpa_rounds(&case.book, keys, rounds.div_ceil(20).max(2)).nanos);
    }
    let [(proved, a), (plain, b), (marpa, c)] = times.map(fastest);
    println!(
        "| {} | {words} | {proved:.0} (+{a:.0} %) | {plain:.0} (+{b:.0} %) | {marpa:.0} (+{c:.0} %) | {:.2} | {:.1} |",
        case.name,
        proved / plain,
        marpa / proved
    );
}

/// How long the first reading of the longest prefix that is a programme takes.
fn measure_reading(case: &Case) {
    const COUNT: u32 = 20;
    let text = case.book.text();
    let Some(size) = unit::readings(&text, &case.words, 1) else {
        println!("| {} | none of the fronts is a programme | | |", case.name);
        return;
    };
    let times = (0..TURNS).map(|_| {
        timed(1, COUNT, |count| {
            unit::readings(&text, &case.words, count);
        })
    });
    let (nanos, above) = fastest(times.collect());
    println!(
        "| {} | {} | {} | {:.0} (+{above:.0} %) |",
        case.name,
        size.words,
        size.moves,
        nanos / 1000.0
    );
}

fn main() {
    let cases = cases();
    cases.iter().for_each(agreed);
    println!(
        "\n| book | words | unit, ns a word | plain Rust | libmarpa | unit / plain | libmarpa / unit |"
    );
    println!("|---|---|---|---|---|---|---|");
    for case in &cases {
        for words in [25, 50, 100] {
            measure(case, words);
        }
    }
    let calls = (0..TURNS).map(|_| marpa_rounds(&cases[0].book, &cases[0].words, 50).calls);
    let (calls, above) = fastest(calls.collect());
    println!(
        "\nof libmarpa's figures, three calls from Perl a word: {calls:.0} ns (+{above:.0} %)"
    );
    println!("\n| book | words | moves | the unit's first reading, µs |");
    println!("|---|---|---|---|");
    cases.iter().for_each(measure_reading);
}
