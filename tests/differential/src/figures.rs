//! W-210: the figures of a collection, by the words of the request. The reference has no
//! part in it.

use crate::calls::Answer;
use crate::generate::{kept, records, Generator, Kept, Reading};
use crate::met::Met;
use crate::rows;
use std::cmp::Ordering::{Equal, Greater, Less};
use std::fmt;

/// "They stand in 14,344 lent bytes [..]: the stores so far, then for codes 0 to 255 these
/// seven in order, 8 bytes each, low byte first."
pub const FIGURES: usize = 14_344;
const CODES: usize = 256;

/// A code's numbers: "how many characters there are, the total of black dots, the least and
/// greatest width, the sum of delta X, and the mean delta X as quotient and remainder".
pub type OfACode = [u64; 7];
const COUNT: usize = 0;
const DOTS: usize = 1;
const LEAST: usize = 2;
const GREATEST: usize = 3;
const SUM: usize = 4;
const MEAN: usize = 5;
const REST: usize = 6;

/// What is bounded, and its bound for each character of a code: "its dots by at most
/// 262,144 times and its sum by at most 32,767 times that bound".
const BOUNDED: [(usize, &str, u64); 3] = [
    (COUNT, "a count", 1),
    (DOTS, "dots", 262_144),
    (SUM, "a sum", 32_767),
];

/// "each store raises a code's count by at most (length - 12) / 108, rounded down"
fn most_characters(length: usize) -> u64 {
    (length as u64 - 12) / 108
}

/// What so many stores "allow at 65,536 bytes", for each character's bound.
fn allowed(stores: u64, each: u64) -> u64 {
    stores * most_characters(65_536) * each
}

/// Figures as numbers.
#[derive(Clone, PartialEq)]
pub struct Figures {
    pub stores: u64,
    pub codes: Vec<OfACode>,
}

impl Figures {
    /// Nothing for bytes of another length.
    pub fn of(bytes: &[u8]) -> Option<Figures> {
        if bytes.len() != FIGURES {
            return None;
        }
        let number = |eight: &[u8]| {
            let higher = |number: u64, &byte: &u8| number << 8 | u64::from(byte);
            eight.iter().rev().fold(0, higher)
        };
        let code = |numbers: &[u8]| -> OfACode {
            std::array::from_fn(|which| number(&numbers[8 * which..8 * which + 8]))
        };
        Some(Figures {
            stores: number(&bytes[..8]),
            codes: bytes[8..].chunks_exact(56).map(code).collect(),
        })
    }

    pub fn zero() -> Figures {
        Figures {
            stores: 0,
            codes: vec![[0; 7]; CODES],
        }
    }

    pub fn bytes(&self) -> Vec<u8> {
        let numbers = std::iter::once(&self.stores).chain(self.codes.iter().flatten());
        numbers.flat_map(|number| number.to_le_bytes()).collect()
    }

    /// The codes and the entries of `BOUNDED` with a number "above what the stores so far
    /// allow"; of at most 64 stores.
    fn above(&self) -> Vec<(usize, usize)> {
        let mut found = Vec::new();
        for (entry, (which, _, each)) in BOUNDED.iter().enumerate() {
            let most = allowed(self.stores, *each);
            let above = |code: &usize| self.codes[*code][*which] > most;
            found.extend((0..CODES).filter(above).map(|code| (code, entry)));
        }
        found
    }

    /// "2 for figures of another length, the 65th store, or a count, dots or sum handed in
    /// above what the stores so far allow"
    fn refusal(figures: Option<&Figures>) -> u32 {
        match figures {
            Some(figures) if figures.stores < 64 && figures.above().is_empty() => 0,
            _ => 2,
        }
    }
}

/// Figures for a report: the codes that have any.
pub struct Shown<'a>(pub &'a [u8]);

impl fmt::Display for Shown<'_> {
    fn fmt(&self, f: &mut fmt::Formatter) -> fmt::Result {
        write!(f, "figures of {} bytes", self.0.len())?;
        let Some(figures) = Figures::of(self.0) else {
            return Ok(());
        };
        write!(f, ", {} stores so far", figures.stores)?;
        let codes = figures.codes.iter().enumerate();
        for (code, numbers) in codes.filter(|(_, numbers)| **numbers != [0; 7]).take(8) {
            write!(f, ", code {code} {numbers:?}")?;
        }
        Ok(())
    }
}

/// A character as telling and drawing give it.
pub struct Drawn {
    pub code: u32,
    pub width: u64,
    pub delta_x: u64,
    pub picture: Vec<u8>,
}

/// The numbers of a code that has these characters. "A code with no character has 0 in
/// every figure."
fn of_code(characters: &[&Drawn]) -> OfACode {
    let widths = characters.iter().map(|drawn| drawn.width);
    let black = |drawn: &&Drawn| -> u64 {
        let ones = drawn.picture.iter().map(|byte| byte.count_ones());
        u64::from(ones.sum::<u32>())
    };
    let mut numbers = [0; 7];
    if characters.is_empty() {
        return numbers;
    }
    let sum: u64 = characters.iter().map(|drawn| drawn.delta_x).sum();
    let count = characters.len() as u64;
    numbers[COUNT] = count;
    numbers[DOTS] = characters.iter().map(black).sum();
    numbers[LEAST] = widths.clone().min().unwrap_or(0);
    numbers[GREATEST] = widths.max().unwrap_or(0);
    numbers[SUM] = sum;
    numbers[MEAN] = sum / count;
    numbers[REST] = sum % count;
    numbers
}

/// The figures "of all their characters together".
pub fn together<'a>(stores: usize, characters: impl Iterator<Item = &'a Drawn>) -> Figures {
    let mut by_code: Vec<Vec<&Drawn>> = vec![Vec::new(); CODES];
    for drawn in characters {
        by_code[drawn.code as usize].push(drawn);
    }
    Figures {
        stores: stores as u64,
        codes: by_code.iter().map(|all| of_code(all)).collect(),
    }
}

/// How many characters of each code a store has.
fn counts_of(store: &[u8]) -> [u64; CODES] {
    let mut counts = [0; CODES];
    for code in records(store).iter().filter_map(|record| record.code) {
        counts[code as usize] += 1;
    }
    counts
}

/// A code's numbers before a store is added, with those that the store has of it.
fn joined(before: &OfACode, added: &OfACode) -> OfACode {
    let mut after = *before;
    for which in [COUNT, DOTS, SUM] {
        after[which] += added[which];
    }
    // "a least width of 0 handed in counts as none"
    if before[LEAST] == 0 || added[LEAST] < before[LEAST] {
        after[LEAST] = added[LEAST];
    }
    after[GREATEST] = before[GREATEST].max(added[GREATEST]);
    after[MEAN] = after[SUM] / after[COUNT];
    after[REST] = after[SUM] % after[COUNT];
    after
}

/// A call on a store: what was handed in, and what it left.
pub struct Added<'a> {
    pub store: &'a [u8],
    pub before: &'a [u8],
    pub answer: &'a Answer,
    pub after: &'a [u8],
}

impl Added<'_> {
    /// That it is refused exactly by the request's list, and otherwise leaves what it says.
    /// `alone` are the figures of the store added to zeros.
    pub fn check(&self, alone: &[u8]) -> Result<(), String> {
        let before = Figures::of(self.before);
        let expected = Figures::refusal(before.as_ref());
        if self.answer.refusal != expected {
            return Err(format!("but by the request it is {expected}"));
        }
        let (Some(before), 0) = (before, expected) else {
            return Ok(());
        };
        let (Some(after), Some(alone)) = (Figures::of(self.after), Figures::of(alone)) else {
            return Err("but the figures have another length".into());
        };
        if after.stores != before.stores + 1 || alone.stores != 1 {
            return Err(format!("but there are {} stores", after.stores));
        }
        for (code, count) in counts_of(self.store).into_iter().enumerate() {
            let numbers = [&before, &after, &alone].map(|figures| &figures.codes[code]);
            self.check_code(count, numbers)
                .map_err(|what| format!("but code {code} {what}: {numbers:?}"))?;
        }
        Ok(())
    }

    /// Of a code with so many characters in the store.
    fn check_code(&self, count: u64, numbers: [&OfACode; 3]) -> Result<(), String> {
        let [before, after, alone] = numbers;
        if alone[COUNT] != count {
            return Err(format!("has {count} characters in the store"));
        }
        // "Codes a store lacks keep their bytes"
        if count == 0 {
            return match before == after && *alone == [0; 7] {
                true => Ok(()),
                false => Err("is not the store's".into()),
            };
        }
        for (which, name, each) in BOUNDED {
            let most = most_characters(self.store.len()) * each;
            let raised = after[which].checked_sub(before[which]);
            if raised.is_none_or(|raised| raised > most) {
                return Err(format!("has {name} raised by {raised:?}, at most {most}"));
            }
        }
        match *after == joined(before, alone) {
            true => Ok(()),
            false => Err("is not what it was with the store's".into()),
        }
    }

    /// Counts what is worth having met.
    pub fn met(&self, met: &mut Met) {
        let before = Figures::of(self.before);
        match (self.answer.refusal, before, Figures::of(self.after)) {
            (1, before, _) => self.met_beside_no_store(before.as_ref(), met),
            (2, None, _) => met.situation(match self.before.len() < FIGURES {
                true => "figures, 2 for a shorter length",
                false => "figures, 2 for a longer length",
            }),
            (2, Some(before), _) => self.met_refused(&before, met),
            (0, Some(before), Some(after)) => {
                met_kept(self.store, met);
                self.met_added(&before, &after, met);
            }
            _ => {}
        }
    }

    fn met_beside_no_store(&self, before: Option<&Figures>, met: &mut Met) {
        match before {
            None => met.situation("figures, 1 beside figures of another length"),
            Some(_) if Figures::refusal(before) == 2 => {
                met.situation("figures, 1 beside numbers above their bounds");
            }
            Some(_) => {}
        }
    }

    fn met_refused(&self, before: &Figures, met: &mut Met) {
        if before.stores > 64 {
            met.situation("figures, 2 for more than 64 stores so far");
            return;
        }
        let above = before.above();
        if before.stores == 64 && above.is_empty() {
            met.situation("figures, 2 for the 65th store alone");
        }
        let [(code, entry)] = above[..] else {
            return;
        };
        if before.stores == 64 {
            return;
        }
        let (which, name, each) = BOUNDED[entry];
        if before.stores == 0 {
            met.situation("figures, 2 for a number above 0 before the first store");
        } else if before.codes[code][which] == allowed(before.stores, each) + 1 {
            met.situation(&format!("figures, 2 for {name} one above the bound"));
        }
        if counts_of(self.store)[code] == 0 {
            met.situation(&format!(
                "figures, 2 for {name} in a code that the store lacks"
            ));
        }
    }

    fn met_added(&self, before: &Figures, after: &Figures, met: &mut Met) {
        if before.stores == 63 {
            met.situation("figures, the 64th store");
        }
        let has = counts_of(self.store).map(|count| count > 0);
        for code in (0..CODES).filter(|&code| before.codes[code] != [0; 7] || has[code]) {
            let numbers = &before.codes[code];
            for (which, name, each) in BOUNDED {
                if before.stores > 0 && numbers[which] == allowed(before.stores, each) {
                    met.situation(&format!("figures, {name} handed in at the bound"));
                }
            }
            match has[code] {
                true => self.met_code(numbers, &after.codes[code], met),
                false => met.situation("figures, numbers of a code that the store lacks"),
            }
        }
    }

    /// Of a code that the store has.
    fn met_code(&self, before: &OfACode, after: &OfACode, met: &mut Met) {
        let most = most_characters(self.store.len());
        let [count, _, least, greatest, sum, mean, _] = *before;
        let (raised, raised_sum) = (after[COUNT] - count, after[SUM] - sum);
        let now = |which: usize, old: u64| (old > 0).then(|| after[which].cmp(&old));
        for (name, holds) in [
            ("a least width of 0 beside a count", least == 0 && count > 0),
            ("a least width without a count", least > 0 && count == 0),
            ("a least width lowered", now(LEAST, least) == Some(Less)),
            ("a least width that stays", now(LEAST, least) == Some(Equal)),
            (
                "a greatest width raised",
                now(GREATEST, greatest) == Some(Greater),
            ),
            (
                "a greatest width that stays",
                now(GREATEST, greatest) == Some(Equal),
            ),
            ("a width that no character has", greatest > 16_384),
            ("a sum without a count", sum > 0 && count == 0),
            ("a mean without a count", mean > 0 && count == 0),
            (
                "a mean changed by a store",
                count > 0 && after[MEAN] != mean,
            ),
            ("a mean with a rest", after[REST] > 0),
            ("several characters of a code in one store", raised > 1),
            ("a count raised by its bound", raised == most),
            ("a sum raised by its bound", raised_sum == most * 32_767),
        ] {
            if holds {
                met.situation(&format!("figures, {name}"));
            }
        }
    }
}

/// Counts what an added store keeps.
fn met_kept(store: &[u8], met: &mut Met) {
    let records = records(store);
    let characters = records.iter().filter(|record| record.code.is_some());
    let all: Vec<(Option<u32>, Kept)> = characters
        .map(|record| (record.code, kept(store, record)))
        .collect();
    let class = |class: u8| all.iter().any(|(_, kept)| kept.class == class);
    met.situation(match (class(1), class(2)) {
        (true, true) => "figures of a store of both classes",
        (true, false) => "figures of a store of class 1",
        (false, true) => "figures of a store of class 2",
        (false, false) => "figures of a store without characters",
    });
    let mut widths = [None; CODES];
    for (code, kept) in &all {
        let first = widths[code.unwrap_or(0) as usize].get_or_insert(kept.width);
        if *first != kept.width {
            met.situation("figures, two widths of a code in one store");
        }
        match kept.class {
            1 => met_bitmap(kept, met),
            _ => met_runs(kept, met),
        }
    }
}

fn met_bitmap(kept: &Kept, met: &mut Met) {
    if !Reading::is_complete(kept) {
        met.situation("figures of an incomplete class 1 character");
    }
    let beyond = match kept.width % 8 {
        0 => 0,
        dots => 0xFF_u8 >> dots,
    };
    let mut rows = kept.data.chunks_exact(kept.row_bytes());
    if rows.any(|row| row[row.len() - 1] & beyond != 0) {
        met.situation("figures, padding bits set in class 1 data");
    }
}

fn met_runs(kept: &Kept, met: &mut Met) {
    if !Reading::is_complete(kept) {
        met.situation("figures of an incomplete class 2 character");
    }
    let rows = rows::spelled(kept.width, kept.height, kept.data);
    let Some(last) = rows.last().filter(|last| last.black() > 0) else {
        return;
    };
    let drawn: usize = rows.iter().map(|row| 1 + row.repeats).sum();
    if rows::sum(last.runs) < kept.width {
        met.situation("figures, black dots in an unfinished row");
    } else if drawn > kept.height {
        met.situation("figures, black dots repeated below the last row");
    }
}

impl Generator<'_> {
    /// Figures to hand in: these, with other stores so far and some numbers at their
    /// bounds, above them or out of every character's range; rarely of another length.
    pub fn figures(&mut self, from: &Figures, store: &[u8]) -> Vec<u8> {
        let mut figures = from.clone();
        let chance = &mut *self.chance;
        figures.stores = match chance.below(10) {
            0 => from.stores,
            1 => 0,
            2 => 63,
            3 => chance.of(&[64, 64, 64, 65, 128, 256, 1 << 32, 1 << 58, u64::MAX]),
            _ => chance.between(1, 63) as u64,
        };
        let codes: Vec<u32> = records(store)
            .iter()
            .filter_map(|record| record.code)
            .collect();
        for _ in 0..chance.of(&[0, 1, 1, 2, 6]) {
            let code = match codes.is_empty() || self.chance.once_in(4) {
                true => self.chance.of(&[0, 1, 64, 65, 200, 255]),
                false => self.chance.of(&codes) as usize,
            };
            self.change_figure(figures.stores.min(64), &mut figures.codes[code]);
        }
        let mut bytes = figures.bytes();
        if self.chance.once_in(16) {
            let length = self.chance.of(&[0, 8, 56, 14_336, 14_343, 14_345, 14_400]);
            bytes.resize(length, 0);
        }
        bytes
    }

    fn change_figure(&mut self, stores: u64, numbers: &mut OfACode) {
        let chance = &mut *self.chance;
        let which = chance.below(7);
        let bounded = BOUNDED.iter().find(|(bounded, ..)| *bounded == which);
        numbers[which] = match bounded {
            Some((.., each)) => {
                let most = allowed(stores, *each);
                match chance.below(10) {
                    0 => most + 1,
                    1 => chance.of(&[most + (1 << 32), 1 << 63, u64::MAX]),
                    2..=4 => most,
                    5 => most.min(1),
                    _ => chance.next() % (most + 1),
                }
            }
            None => chance.of(&[0, 1, 7, 8, 17, 40, 16_384, 16_385, 1 << 32, u64::MAX]),
        };
    }
}
