//! W-210: collections of stores handed in one by one from zeros, through the C interface and
//! to the reference; and their figures from what telling and drawing give of each character.

use crate::calls::{Call, Lending};
use crate::chance::Chance;
use crate::figures::{together, Drawn, Figures, FIGURES};
use crate::generate::{high16, put_high16, records, Generator, Reading, Theme};
use crate::generate::{CHARACTER_RECORD, FONT_RECORD, KEPT};
use crate::history::{Found, History, Pair};
use crate::met::Met;

/// One number in so many has a collection.
const EVERY: usize = 8;

/// A store of the collection, and its characters.
struct Shelf {
    pair: Pair,
    characters: Vec<Drawn>,
}

/// Runs one collection, for some of the numbers; the difference found, if one is.
pub fn run(
    seed: u64,
    number: u64,
    lending: Lending,
    small: bool,
    trace: bool,
    met: &mut Met,
) -> Found<()> {
    let mut chance = Chance::new(seed ^ 0x210, number);
    if !chance.once_in(EVERY) {
        return Ok(());
    }
    let theme = match !small && chance.once_in(30) {
        true => Theme::Giants,
        false => Theme::Small,
    };
    let mut history = History {
        chance,
        theme,
        lending,
        trace,
        met,
    };
    let stores = history.chance.between(1, 5);
    let mut shelves = Vec::new();
    for _ in 0..stores {
        shelves.push(history.shelf()?);
    }
    history.collected(&mut shelves)?;
    if history.chance.once_in(8) {
        history.up_to_the_65th(&mut shelves)?;
    }
    Ok(())
}

impl History<'_> {
    /// A store with what its characters are.
    fn shelf(&mut self) -> Found<Shelf> {
        let length = match self.chance.below(8) {
            _ if self.theme == Theme::Giants => self.chance.of(&[40_000, 65_535, 65_536]),
            0 => self.chance.of(&[12, 13, 94, 119, 120, 121, 227, 228]),
            1 => 12 + 108 * self.chance.between(1, 8) + self.chance.of(&[0, 0, 1, 107]),
            _ => self.chance.between(200, 3000),
        };
        let before = self.chance.bytes(length);
        let mut pair = self.pair(&before);
        self.both(&mut pair, &Call::MakeFresh)?;
        let stream = match self.chance.once_in(6) {
            true => self.generator().one_code(length),
            false => self.generator().shelf(length),
        };
        self.both(&mut pair, &Call::ReadStream { stream })?;
        for _ in 0..self.chance.below(6) {
            let call = self.generator().call(&pair.theirs);
            self.both(&mut pair, &call)?;
        }
        let characters = self.drawn(&mut pair)?;
        Ok(Shelf { pair, characters })
    }

    /// Every character of a store, as the C interface tells and draws it. Each font is told
    /// with as many as are found.
    fn drawn(&mut self, pair: &mut Pair) -> Found<Vec<Drawn>> {
        let mut all = Vec::new();
        let mut told = 0;
        for record in records(&pair.theirs) {
            let font = record.font;
            match record.code {
                Some(code) => all.push(self.one_drawn(pair, font, code)?),
                None => {
                    let out = vec![0; KEPT];
                    let call = Call::TellFont { out, font };
                    told += self.only_ours(&mut pair.ours, &call)?.0.number() as usize;
                }
            }
        }
        match told == all.len() {
            true => Ok(all),
            false => Err(format!("{told} characters told, {} found", all.len())),
        }
    }

    fn one_drawn(&mut self, pair: &mut Pair, font: u32, code: u32) -> Found<Drawn> {
        let out = vec![0; 16];
        let tell = Call::TellCharacter { out, font, code };
        let (answer, kept) = self.only_ours(&mut pair.ours, &tell)?;
        let (width, height) = (high16(&kept, 10), high16(&kept, 12));
        let out = vec![0x55; width.div_ceil(8) * height];
        let draw = Call::DrawPicture { out, font, code };
        let (drawn, picture) = self.only_ours(&mut pair.ours, &draw)?;
        if (answer.refusal, drawn.refusal) != (0, 0) {
            return Err(format!("{tell}\n  answered {answer:?}; drawing {drawn:?}"));
        }
        Ok(Drawn {
            code,
            width: width as u64,
            delta_x: high16(&kept, 14) as u64,
            picture,
        })
    }

    /// The stores handed in in this order, from zeros: every one is taken. The figures.
    fn handed_in(&mut self, shelves: &mut [Shelf], order: &[usize]) -> Found<Vec<u8>> {
        let mut figures = vec![0; FIGURES];
        for &at in order {
            let call = Call::AddFigures { figures };
            let (answer, after) = self.both_with_output(&mut shelves[at].pair, &call)?;
            if answer.refusal != 0 {
                return Err(format!("{call}\n  answered {answer:?}"));
            }
            figures = after;
        }
        self.as_together(shelves, order, &figures)?;
        Ok(figures)
    }

    /// "While only these calls write there, the figures after several stores equal those of
    /// all their characters together"
    fn as_together(&mut self, shelves: &[Shelf], order: &[usize], figures: &[u8]) -> Found<()> {
        let characters = order.iter().flat_map(|&at| &shelves[at].characters);
        let expected = together(order.len(), characters);
        if figures == expected.bytes() {
            return Ok(());
        }
        let figures = Figures::of(figures).expect("their length, as `both` has seen");
        let other = |code: &usize| figures.codes[*code] != expected.codes[*code];
        Err(match (0..256).find(other) {
            Some(code) => format!(
                "figures of {} stores: code {code} has {:?}, its characters together {:?}",
                order.len(),
                figures.codes[code],
                expected.codes[code]
            ),
            None => format!("{} stores so far, not {}", figures.stores, order.len()),
        })
    }

    /// The stores, some of them twice, "in any order of handing in"; then one of them with
    /// figures that the calls did not leave.
    fn collected(&mut self, shelves: &mut [Shelf]) -> Found<()> {
        let mut order: Vec<usize> = (0..shelves.len()).collect();
        for _ in 0..self.chance.of(&[0, 0, 1, 2]) {
            order.push(self.chance.below(shelves.len()));
        }
        let figures = self.handed_in(shelves, &order)?;
        self.collection_met(shelves, &order);
        for last in (1..order.len()).rev() {
            order.swap(last, self.chance.below(last + 1));
        }
        if self.handed_in(shelves, &order)? != figures {
            return Err(format!("other figures in the order {order:?}"));
        }
        self.met.situation("collection in another order");
        let from = Figures::of(&figures).expect("their length");
        for _ in 0..4 {
            let at = self.chance.of(&order);
            let pair = &mut shelves[at].pair;
            let figures = self.generator().figures(&from, &pair.theirs);
            self.both(pair, &Call::AddFigures { figures })?;
        }
        Ok(())
    }

    fn collection_met(&mut self, shelves: &[Shelf], order: &[usize]) {
        if order.len() > 1 {
            self.met.situation("collection of several stores");
        }
        let characters = |at: usize| &shelves[at].characters;
        let two_widths =
            |one: &Drawn, other: &Drawn| one.code == other.code && one.width != other.width;
        let differ = order.windows(2).any(|pair| {
            let (first, second) = (characters(pair[0]), characters(pair[1]));
            let other = |one: &Drawn| second.iter().any(|other| two_widths(one, other));
            first.iter().any(other)
        });
        if differ {
            self.met
                .situation("collection, two widths of a code in two stores");
        }
    }

    /// "up to 64 stores", and "2 for [..] the 65th store".
    fn up_to_the_65th(&mut self, shelves: &mut [Shelf]) -> Found<()> {
        let order: Vec<usize> = (0..64).map(|_| self.chance.below(shelves.len())).collect();
        let figures = self.handed_in(shelves, &order)?;
        self.met.situation("collection of 64 stores");
        let at = self.chance.below(shelves.len());
        let call = Call::AddFigures { figures };
        let answer = self.both(&mut shelves[at].pair, &call)?;
        if answer.refusal != 2 {
            return Err(format!("{call}\n  the 65th store: answered {answer:?}"));
        }
        self.met.situation("collection, a 65th store refused");
        Ok(())
    }
}

impl Generator<'_> {
    /// Fonts of a few characters each, of few codes, that mostly fit this length.
    pub fn shelf(&mut self, length: usize) -> Vec<u8> {
        let mut stream = Vec::new();
        let mut left = length;
        for _ in 0..self.chance.between(1, 4) {
            let number = self.chance.of(&[0, 1, 5, 300, 32_767]);
            self.font(number, &mut stream);
            left = left.saturating_sub(FONT_RECORD);
            for _ in 0..self.chance.below(9) {
                let code = self.chance.of(&[0, 1, 65, 66, 254, 255]);
                let block = self.shelved();
                let record = CHARACTER_RECORD + block.len() - 16;
                if record <= left {
                    left -= record;
                    stream.extend(format!("\x1b*c{code}E\x1b(s{}W", block.len()).bytes());
                    stream.extend(block);
                }
            }
        }
        stream
    }

    /// A portrait font.
    fn font(&mut self, number: usize, stream: &mut Vec<u8>) {
        let mut header = self.good_header();
        header[12] = 0;
        stream.extend(format!("\x1b*c{number}D\x1b)s{}W", header.len()).bytes());
        stream.extend(header);
    }

    /// A first block, of narrow and of wide rows, complete or not.
    fn shelved(&mut self) -> Vec<u8> {
        let giant = self.theme == Theme::Giants && self.chance.once_in(2);
        let (width, height) = match self.chance.below(6) {
            _ if giant => self
                .chance
                .of(&[(1024, 100), (1001, 128), (16_383, 3), (9, 9000)]),
            0 => (self.chance.between(60, 75), self.chance.between(1, 4)),
            1 => (self.chance.of(&[100, 255, 256, 300]), 2),
            _ => (self.chance.between(1, 40), self.chance.between(1, 20)),
        };
        let class = self.chance.of(&[1, 2]);
        let bytes = width.div_ceil(8) * height;
        let mut data = match (class, self.chance.once_in(4)) {
            (1, true) => vec![0xFF; bytes],
            (1, false) => self.chance.bytes(bytes),
            _ => self.runs(width, Reading::new(height), 200.max(bytes)),
        };
        if self.chance.once_in(4) {
            data.truncate(self.chance.below(data.len()));
        }
        data.truncate(32_751);
        let delta_x = self.chance.of(&[0, 1, 119, 120, 121, 32_767, 40_000]);
        block(class, [width, height, delta_x], &data)
    }

    /// As many fonts as fit, each with a character of one code and no data.
    fn one_code(&mut self, length: usize) -> Vec<u8> {
        let code = self.chance.of(&[0, 65, 255]);
        let delta_x = self.chance.of(&[32_767, 32_767, 32_766]);
        let block = block(1, [8, 1, delta_x], &[]);
        let mut stream = format!("\x1b*c{code}E").into_bytes();
        for number in 0..((length - 12) / 108).min(40) {
            self.font(number, &mut stream);
            stream.extend(b"\x1b(s16W");
            stream.extend(&block);
        }
        stream
    }
}

/// Of width, height and delta X.
fn block(class: u8, numbers: [usize; 3], data: &[u8]) -> Vec<u8> {
    let mut block = vec![4, 0, 14, class, 0, 0, 0, 2, 0, 22, 0, 0, 0, 0, 0, 0];
    for (at, number) in [10, 12, 14].into_iter().zip(numbers) {
        put_high16(&mut block, at, number);
    }
    block.extend(data);
    block
}
