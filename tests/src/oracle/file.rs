//! Document 01, "Yards, rules, rule files" and "A file is judged in text order": the reader, outcomes 1 to 4. Document
//! 02, 2026-05: sizes of 1.

use super::model::{Entry, Rule, Set};

/// 1: "a byte does not fit, the file ends early, or bytes are left over".
const FORM: u8 = 1;
/// 2: "a well-formed number outside its limit".
const LIMIT: u8 = 2;
/// 3: "a variable out of place".
const VARIABLE: u8 = 3;
/// 4: "twins".
const DUPLICATES: u8 = 4;

const LINE_FEED: u8 = 10;

/// A text and how far it is judged.
struct Text<'a> {
    bytes: &'a [u8],
    at: usize,
}

impl Text<'_> {
    fn next(&self) -> Option<u8> {
        self.bytes.get(self.at).copied()
    }

    /// The next byte has to be this one.
    fn byte(&mut self, byte: u8) -> Result<(), u8> {
        if self.next() != Some(byte) {
            return Err(FORM);
        }
        self.at += 1;
        Ok(())
    }

    fn key(&mut self, key: &str) -> Result<(), u8> {
        key.bytes().try_for_each(|byte| self.byte(byte))
    }

    /// "A number is 0, or one to three digits with the first not 0", and the byte that ends it.
    fn number(&mut self, end: u8) -> Result<u32, u8> {
        let from = self.at;
        while self.next().is_some_and(|byte| byte.is_ascii_digit()) {
            self.at += 1;
        }
        let digits = &self.bytes[from..self.at];
        let formed = digits == b"0" || ((1..=3).contains(&digits.len()) && digits[0] != b'0');
        if !formed {
            return Err(FORM);
        }
        self.byte(end)?;
        Ok(digits.iter().fold(0, |number, &digit| 10 * number + u32::from(digit - b'0')))
    }

    /// A number with its limits: judged for 1, then for 2.
    fn limited(&mut self, end: u8, least: u32, most: u32) -> Result<u32, u8> {
        let number = self.number(end)?;
        if (least..=most).contains(&number) {
            Ok(number)
        } else {
            Err(LIMIT)
        }
    }

    /// "An entry is a constant below its position's size, or `x` and a position number j; j not from 1 to the number of positions gives 2."
    fn entry(&mut self, end: u8, i: usize, sizes: &[u8]) -> Result<Entry, u8> {
        if self.next() == Some(b'x') {
            self.at += 1;
            Ok(Entry::Place(self.limited(end, 1, sizes.len() as u32)? as usize - 1))
        } else {
            Ok(Entry::Value(self.limited(end, 0, u32::from(sizes[i]) - 1)? as u8))
        }
    }

    /// `if`: "`xj` .. needs equal sizes, j at most i, and `xj` itself at j." Document 02: "At a position of size 1 both
    /// lines must hold 0, and a variable there is out of place, number 3": its own too. A constant other than 0 is not
    /// below that size.
    fn condition(&mut self, sizes: &[u8]) -> Result<Vec<Entry>, u8> {
        let mut line = vec![];
        for i in 0..sizes.len() {
            let entry = self.entry(ending(i, sizes.len()), i, sizes)?;
            line.push(entry);
            if let Entry::Place(j) = entry {
                if sizes[i] == 1 || j > i || sizes[j] != sizes[i] || line[j] != Entry::Place(j) {
                    return Err(VARIABLE);
                }
            }
        }
        Ok(line)
    }

    /// `then`: "`xj` .. needs equal sizes and `xj` at j in the `if` line." At a position of size 1 a variable is out of
    /// place here too.
    fn effect(&mut self, sizes: &[u8], condition: &[Entry]) -> Result<Vec<Entry>, u8> {
        let mut line = vec![];
        for i in 0..sizes.len() {
            let entry = self.entry(ending(i, sizes.len()), i, sizes)?;
            if let Entry::Place(j) = entry {
                if sizes[i] == 1 || sizes[j] != sizes[i] || condition[j] != Entry::Place(j) {
                    return Err(VARIABLE);
                }
            }
            line.push(entry);
        }
        Ok(line)
    }

    fn rule(&mut self, sizes: &[u8]) -> Result<Rule, u8> {
        self.key("cost=")?;
        let cost = self.limited(LINE_FEED, 0, 255)?;
        self.key("if=")?;
        let condition = self.condition(sizes)?;
        self.key("then=")?;
        let effect = self.effect(sizes, &condition)?;
        Ok(Rule { cost, condition, effect })
    }
}

/// The byte that ends item i of a comma list of so many.
fn ending(i: usize, items: usize) -> u8 {
    if i + 1 == items {
        LINE_FEED
    } else {
        b','
    }
}

/// The set of a file without a fault, else the outcome.
pub fn read(bytes: &[u8]) -> Result<Set, u8> {
    let mut text = Text { bytes, at: 0 };
    text.key("positions=")?;
    let positions = text.limited(LINE_FEED, 1, 16)? as usize;
    text.key("sizes=")?;
    let mut sizes = vec![];
    for i in 0..positions {
        // document 01: "a size from 2 to 16"; document 02: "An always blocked bay is now written with size 1."
        sizes.push(text.limited(ending(i, positions), 1, 16)? as u8);
    }
    text.key("rules=")?;
    let number = text.limited(LINE_FEED, 1, 31)?;
    let mut rules = vec![];
    for _ in 0..number {
        rules.push(text.rule(&sizes)?);
    }
    if text.next().is_some() {
        return Err(FORM);
    }
    // "Twins come last."
    if (0..rules.len()).any(|later| (0..later).any(|earlier| rules[later].is_duplicate_of(&rules[earlier]))) {
        return Err(DUPLICATES);
    }
    Ok(Set { sizes, rules })
}
