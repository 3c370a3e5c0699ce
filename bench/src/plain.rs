//! The draft's algorithm in plain Rust, with nothing proved: a left-corner chart with a set of the symbols that may start
//! after each word, marks against double entries, and the rules by the symbols at their places.

use crate::books::Book;

const MOST_PLACES: usize = 60_000;
const MOST_WORDS: usize = 100;
const KEYS: u64 = u64::MAX << 32;

#[derive(Clone, Copy, Debug, Default, PartialEq, Eq)]
pub struct Item {
    rule: u16,
    done: u16,
    start: u16,
    end: u16,
}

/// What is kept of a word: what may start after it, the starts of its unfinished items, and where its items stand, these in
/// front.
#[derive(Clone, Copy, Default)]
struct Record {
    wanted: u64,
    starts: u128,
    from: usize,
    waiting: usize,
    past: usize,
}

/// Why a key is not taken.
#[derive(Clone, Copy, Debug, PartialEq, Eq)]
pub enum Refusal {
    Full,
    Dark,
    Crowded,
}

struct Rule {
    left: u16,
    body: Vec<u16>,
}

/// The starts of the marked items of one rule with one number of symbols done, and in which press they were marked.
#[derive(Clone, Copy, Default)]
struct Marks {
    press: u64,
    starts: u128,
}

/// Symbols 1 to 64 as a mask: symbol c stands at bit c - 1.
pub fn bit(symbol: u16) -> u64 {
    1 << (symbol - 1)
}

pub struct Draft {
    /// rules count from 1; none stands at 0
    rules: Vec<Rule>,
    keys: u16,
    start: u16,
    corners: [u64; 65],
    /// for each place of a right side the rules that have a symbol there, by symbol
    having: [Vec<Vec<u16>>; 6],
    records: [Record; MOST_WORDS],
    held: usize,
    chart: Vec<Item>,
    top: usize,
    /// which items stand in the new column, a row for each rule and number of symbols done
    marks: Vec<[Marks; 6]>,
    press: u64,
}

impl Draft {
    pub fn open(book: &Book) -> Draft {
        let mut rules = vec![Rule {
            left: 0,
            body: vec![],
        }];
        let mut having: [Vec<Vec<u16>>; 6] = Default::default();
        having.fill(vec![vec![]; 65]);
        for (number, rule) in (1..).zip(&book.rules) {
            for (place, symbol) in rule.right.iter().enumerate() {
                having[place][usize::from(*symbol)].push(number);
            }
            rules.push(Rule {
                left: rule.left,
                body: rule.right.clone(),
            });
        }
        Draft {
            corners: corners_of(book),
            marks: vec![[Marks::default(); 6]; rules.len()],
            press: 0,
            rules,
            keys: book.keys,
            start: book.start,
            having,
            records: [Record::default(); MOST_WORDS],
            held: 0,
            chart: vec![Item::default(); MOST_PLACES],
            top: 0,
        }
    }

    fn wanted(&self, words: usize) -> u64 {
        match words.checked_sub(1) {
            Some(last) => self.records[last].wanted,
            None => self.corners[usize::from(self.start)],
        }
    }

    pub fn lit(&self) -> u64 {
        self.wanted(self.held) & KEYS
    }

    fn used(&self) -> usize {
        self.held
            .checked_sub(1)
            .map_or(0, |last| self.records[last].past)
    }

    fn marked(&self, rule: u16, done: u16) -> u128 {
        let row = self.marks[usize::from(rule)][usize::from(done - 1)];
        if row.press == self.press {
            row.starts
        } else {
            0
        }
    }

    fn enter(&mut self, item: Item) -> Result<(), Refusal> {
        let starts = self.marked(item.rule, item.done);
        if starts >> item.start & 1 == 1 {
            return Ok(());
        }
        if self.top == self.chart.len() {
            return Err(Refusal::Crowded);
        }
        self.marks[usize::from(item.rule)][usize::from(item.done - 1)] = Marks {
            press: self.press,
            starts: starts | 1 << item.start,
        };
        self.chart[self.top] = item;
        self.top += 1;
        Ok(())
    }

    /// Whether all rules with the symbol behind their first place are advanced past it, for all of some starts.
    fn is_advanced(&self, symbol: u16, starts: u128) -> bool {
        (1..6).all(|done: u16| {
            let rules = &self.having[usize::from(done)][usize::from(symbol)];
            rules
                .iter()
                .all(|rule| starts & !self.marked(*rule, done + 1) == 0)
        })
    }

    /// Enters all that follows from a symbol that spans from after so many words to the new one.
    fn span(&mut self, symbol: u16, start: u16) -> Result<(), Refusal> {
        let end = self.held as u16 + 1;
        let wanted = self.wanted(usize::from(start));
        for at in 0..self.having[0][usize::from(symbol)].len() {
            let rule = self.having[0][usize::from(symbol)][at];
            if wanted & bit(self.rules[usize::from(rule)].left) != 0 {
                self.enter(Item {
                    rule,
                    done: 1,
                    start,
                    end,
                })?;
            }
        }
        let Some(last) = usize::from(start).checked_sub(1) else {
            return Ok(());
        };
        let record = self.records[last];
        if self.is_advanced(symbol, record.starts) {
            return Ok(());
        }
        for at in record.from..record.waiting {
            let item = self.chart[at];
            if self.rules[usize::from(item.rule)].body[usize::from(item.done)] == symbol {
                self.enter(Item {
                    done: item.done + 1,
                    end,
                    ..item
                })?;
            }
        }
        Ok(())
    }

    fn is_finished(&self, item: Item) -> bool {
        usize::from(item.done) == self.rules[usize::from(item.rule)].body.len()
    }

    /// Enters all that follows from the keys that the new word matches.
    fn fill(&mut self, matched: u64) -> Result<(), Refusal> {
        self.press += 1;
        for key in 33..33 + self.keys {
            if matched & bit(key) != 0 {
                self.span(key, self.held as u16)?;
            }
        }
        let mut spanned = [0u64; MOST_WORDS];
        let mut at = self.used();
        while at < self.top {
            let item = self.chart[at];
            at += 1;
            if !self.is_finished(item) {
                continue;
            }
            let part = self.rules[usize::from(item.rule)].left;
            if spanned[usize::from(item.start)] & bit(part) == 0 {
                self.span(part, item.start)?;
                spanned[usize::from(item.start)] |= bit(part);
            }
        }
        Ok(())
    }

    fn settle(&mut self) -> Record {
        let from = self.used();
        let mut wanted = 0;
        let mut starts = 0;
        let mut waiting = from;
        for at in from..self.top {
            let item = self.chart[at];
            if let Some(next) = self.rules[usize::from(item.rule)]
                .body
                .get(usize::from(item.done))
            {
                wanted |= self.corners[usize::from(*next)];
                starts |= 1 << item.start;
                self.chart.swap(waiting, at);
                waiting += 1;
            }
        }
        Record {
            wanted,
            starts,
            from,
            waiting,
            past: self.top,
        }
    }

    fn cut(&mut self, from: usize) {
        self.chart[from..self.top].fill(Item::default());
        self.top = from;
    }

    /// Presses a word by the keys that it matches.
    pub fn press(&mut self, matched: u64) -> Result<usize, Refusal> {
        if self.held >= MOST_WORDS {
            return Err(Refusal::Full);
        }
        if self.lit() & matched == 0 {
            return Err(Refusal::Dark);
        }
        let from = self.top;
        if let Err(refusal) = self.fill(matched) {
            self.cut(from);
            return Err(refusal);
        }
        self.records[self.held] = self.settle();
        self.held += 1;
        Ok(self.top)
    }

    pub fn rub_out(&mut self) {
        if let Some(last) = self.held.checked_sub(1) {
            self.cut(self.records[last].from);
            self.records[last] = Record::default();
            self.held = last;
        }
    }
}

/// The symbols that a span of each symbol may begin with.
fn corners_of(book: &Book) -> [u64; 65] {
    let mut corners = [0; 65];
    for symbol in 1..=64 {
        let mut mask = bit(symbol);
        loop {
            let grown = book.rules.iter().filter(|rule| mask & bit(rule.left) != 0);
            let grown = grown.fold(mask, |all, rule| all | bit(rule.right[0]));
            if grown == mask {
                break;
            }
            mask = grown;
        }
        corners[usize::from(symbol)] = mask;
    }
    corners
}
