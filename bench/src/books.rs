//! The books and the words that are measured.

use crate::plain::{Draft, bit};

#[derive(Clone)]
pub struct Rule {
    pub left: u16,
    pub right: Vec<u16>,
}

/// A book whose keys are all spelled, 33 by aa, 34 by ab and on.
#[derive(Clone)]
pub struct Book {
    pub parts: u16,
    pub keys: u16,
    pub start: u16,
    pub rules: Vec<Rule>,
}

/// A book with the keys that are pressed by its rules.
pub struct Case {
    pub name: &'static str,
    pub book: Book,
    pub words: Vec<u16>,
}

fn line(text: &str) -> String {
    format!("{text:<33}\n")
}

impl Book {
    fn of(parts: u16, keys: u16, rules: &[(u16, &[u16])]) -> Book {
        let rules = rules.iter().map(|(left, right)| Rule {
            left: *left,
            right: right.to_vec(),
        });
        Book {
            parts,
            keys,
            start: 1,
            rules: rules.collect(),
        }
    }

    /// The text form, which the unit reads.
    pub fn text(&self) -> String {
        let mut text = line(&format!(
            "H{:>4}{:>4}{:>4}{:>4}",
            self.parts,
            self.keys,
            self.start,
            self.rules.len()
        ));
        for rule in &self.rules {
            let right: String = rule
                .right
                .iter()
                .map(|symbol| format!("{symbol:>4}"))
                .collect();
            text += &line(&format!("R{:>4}{:>4}{right}", rule.left, rule.right.len()));
        }
        for key in 0..self.keys {
            let letters: String = [key / 26, key % 26]
                .iter()
                .map(|at| char::from(b'a' + *at as u8))
                .collect();
            text += &line(&format!("K{:>4}{:>4}{letters}", 33 + key, 0));
        }
        text
    }
}

/// Numbers from a fixed seed (xorshift).
struct Numbers(u64);

impl Numbers {
    fn below(&mut self, bound: u64) -> u64 {
        self.0 ^= self.0 << 13;
        self.0 ^= self.0 >> 7;
        self.0 ^= self.0 << 17;
        (self.0 >> 11) % bound
    }
}

/// The works book; the words are those of a programme of cycles in cycles.
fn works() -> Case {
    let book = Book::of(
        2,
        5,
        &[
            (1, &[2]),
            (1, &[1, 2]),
            (2, &[33, 35]),
            (2, &[34, 35]),
            (2, &[36, 35, 1, 37]),
        ],
    );
    let turn = [
        36, 35, 33, 35, 34, 35, 36, 35, 33, 35, 34, 35, 37, 33, 35, 37, 33, 35, 34, 35,
    ];
    Case {
        name: "works book",
        book,
        words: turn.into_iter().cycle().take(100).collect(),
    }
}

/// One part over one key, which joins with itself: every way to pair 100 words.
fn ambiguous() -> Case {
    Case {
        name: "1 -> 33, 1 -> 1 1",
        book: Book::of(1, 1, &[(1, &[33]), (1, &[1, 1])]),
        words: vec![33; 100],
    }
}

/// A rule of the generated book: two to six symbols, a key in front of each rule of one part but the last.
fn drawn_rule(numbers: &mut Numbers, left: u16) -> Rule {
    let size = 2 + numbers.below(4);
    let symbol = |numbers: &mut Numbers| match numbers.below(3) {
        0 => 1 + numbers.below(32) as u16,
        _ => 33 + numbers.below(32) as u16,
    };
    Rule {
        left,
        right: (0..size).map(|_| symbol(numbers)).collect(),
    }
}

/// 32 parts, 32 keys and 128 rules; each part has a rule of one key, so every part has a programme, and no other rule has one
/// symbol, so there is no unit cycle.
fn generated() -> Case {
    let mut numbers = Numbers(0x9e37_79b9_7f4a_7c15);
    let mut rules = vec![];
    for part in 1..=32 {
        rules.push(Rule {
            left: part,
            right: vec![32 + part],
        });
        for _ in 0..3 {
            rules.push(drawn_rule(&mut numbers, part));
        }
    }
    let book = Book {
        parts: 32,
        keys: 32,
        start: 1,
        rules,
    };
    let words = walk(&mut numbers, &book);
    Case {
        name: "32 parts, 128 rules",
        book,
        words,
    }
}

/// 100 keys, each drawn from the lit ones.
fn walk(numbers: &mut Numbers, book: &Book) -> Vec<u16> {
    let mut draft = Draft::open(book);
    let mut words = vec![];
    while words.len() < 100 {
        let lit: Vec<u16> = (33..=64)
            .filter(|key| draft.lit() & bit(*key) != 0)
            .collect();
        let key = lit[numbers.below(lit.len() as u64) as usize];
        draft.press(bit(key)).expect("a lit key whose items fit");
        words.push(key);
    }
    words
}

pub fn cases() -> [Case; 3] {
    [works(), ambiguous(), generated()]
}
