//! W-207's profile: its rules one by one as their words stand, read from a store's
//! bytes, which is what the check must answer without the reference; and fonts that
//! meet it or break a rule.

use crate::calls::Call;
use crate::generate::{
    character, high16, put_high16, records, Generator, Kept, Reading, FONT_KEPT, FONT_RECORD,
};
use marlinfold_reference as reference;

/// A font of a store, with the bytes that the rules read.
struct Font<'a> {
    header: &'a [u8],
    characters: Vec<(u32, Kept<'a>)>,
}

fn font(store: &[u8], number: u32) -> Option<Font<'_>> {
    let all = records(store);
    let mut of = all.iter().filter(|record| record.font == number);
    let record = of.next()?;
    Some(Font {
        header: &store[record.at + FONT_KEPT..record.at + record.length],
        characters: of
            .filter_map(|record| record.code)
            .filter_map(|code| Some((code, character(store, number, code)?)))
            .collect(),
    })
}

fn field(header: &[u8], at: usize) -> i64 {
    256 * i64::from(header[at]) + i64::from(header[at + 1])
}

/// The codes that break a rule, in order; code 0 for the type and the spacing.
fn breaking(font: &Font, rule: u32) -> Vec<u32> {
    let kept = |breaks: &dyn Fn(&Kept) -> bool| -> Vec<u32> {
        let all = font.characters.iter();
        all.filter(|(_, character)| breaks(character))
            .map(|(code, _)| *code)
            .collect()
    };
    let complete = |code: u32| {
        let all = &mut font.characters.iter();
        all.any(|(of, character)| *of == code && Reading::is_complete(character))
    };
    let of_font = |holds: bool| if holds { vec![] } else { vec![0] };
    let width = |character: &Kept| character.left + character.width as i64;
    match rule {
        // "type 0"
        1 => of_font(font.header[3] == 0),
        // "fixed spacing"
        2 => of_font(font.header[13] == 0),
        // "codes 32 to 127 all present and complete"
        3 => (32..=127).filter(|&code| !complete(code)).collect(),
        // "left offset at least 0"
        4 => kept(&|character| character.left < 0),
        // "left offset plus width within the cell width"
        5 => kept(&|character| width(character) > field(font.header, 8)),
        // "height within the cell height"
        6 => kept(&|character| character.height as i64 > field(font.header, 10)),
        // "delta X equal to the kept pitch field"
        _ => kept(&|character| character.delta_x != field(font.header, 16)),
    }
}

/// Every rule that is broken, with the codes that break it; nothing without the font.
pub fn broken(store: &[u8], number: u32) -> Option<Vec<(u32, Vec<u32>)>> {
    let font = font(store, number)?;
    let rules = (1..=7).map(|rule| (rule, breaking(&font, rule)));
    Some(rules.filter(|(_, codes)| !codes.is_empty()).collect())
}

impl Generator<'_> {
    /// A font for W-207's profile: its header, and small characters of codes 32 to
    /// 127 and of some others. It meets the profile, or breaks a rule or two.
    pub fn profiled(&mut self, store: &[u8]) -> Vec<u8> {
        let font = self.font_number(store).min(32767);
        let (header, cell) = self.profiled_header();
        let pitch = high16(&header, 16).min(16800);
        let mut stream = format!("\x1b*c{font}D\x1b)s{}W", header.len()).into_bytes();
        stream.extend(&header);
        let more = self.chance.of(&[2, 20, 0, 0]);
        let mut codes: Vec<usize> = (32..128).collect();
        codes.extend((0..more).map(|_| self.chance.of(&[0, 1, 30, 31, 128, 129, 254, 255])));
        codes.sort_unstable();
        codes.dedup();
        if self.chance.once_in(4) {
            codes.reverse();
        }
        let breaks = match self.chance.below(6) {
            0..=2 => 0,
            3 | 4 => 1,
            _ => self.chance.between(2, 4),
        };
        // At which codes, and how, see `profiled_character`.
        let broken: Vec<(usize, usize)> = (0..breaks)
            .map(|_| {
                let code = match self.chance.once_in(2) {
                    true => self.chance.of(&codes),
                    false => self.chance.of(&[32, 33, 126, 127]),
                };
                (code, self.chance.below(8))
            })
            .collect();
        for code in codes {
            let breaks = broken.iter().filter(|(at, _)| *at == code);
            let block = self.profiled_character(cell, pitch, breaks.map(|(_, how)| *how).collect());
            // Beside the codes 32 to 127, one that is incomplete breaks nothing.
            let short = !(32..128).contains(&code) && self.chance.once_in(3);
            let Some(mut block) = block else {
                continue;
            };
            if short {
                block.pop();
            }
            stream.extend(format!("\x1b*c{code}E\x1b(s{}W", block.len()).bytes());
            stream.extend(block);
        }
        stream
    }

    /// With its cell's width and height.
    fn profiled_header(&mut self) -> (Vec<u8>, (usize, usize)) {
        let mut header = self.good_header();
        let chance = &mut *self.chance;
        let cell = (chance.of(&[1, 8, 9, 30, 65535]), chance.of(&[1, 2, 50]));
        header[3] = 0;
        header[12] = 0;
        header[13] = 0;
        put_high16(&mut header, 6, chance.below(cell.1));
        put_high16(&mut header, 8, cell.0);
        put_high16(&mut header, 10, cell.1);
        if chance.once_in(16) {
            header[3] = chance.of(&[1, 2]);
        }
        if chance.once_in(16) {
            header[13] = 1;
        }
        (header, cell)
    }

    /// A character of a few dots, maybe as wide or as high as the cell, with what
    /// breaks rules; none where it is to be missing.
    fn profiled_character(
        &mut self,
        cell: (usize, usize),
        pitch: usize,
        breaks: Vec<usize>,
    ) -> Option<Vec<u8>> {
        let chance = &mut *self.chance;
        let (mut width, mut height) = (1, 1);
        if chance.once_in(8) {
            width = cell.0.min(chance.of(&[8, 9, 30]));
            height = cell.1.min(chance.of(&[1, 2]));
        }
        if chance.once_in(40) {
            height = cell.1;
        }
        let mut left = match chance.below(3) {
            0 => (cell.0 - width).min(16384),
            _ => 0,
        } as i64;
        let mut delta_x = pitch;
        let mut complete = true;
        for how in breaks {
            match how {
                0 => return None,
                1 => complete = false,
                2 => left = chance.of(&[-1, -2, -16384]),
                3 => left = (cell.0 + 1).saturating_sub(width).min(16384) as i64,
                4 => {
                    left = 0;
                    width = (cell.0 + 1).min(40);
                }
                5 => height = cell.1 + 1,
                6 => delta_x = chance.of(&[pitch + 1, pitch.saturating_sub(1), 0]),
                // No break, but an edge.
                _ => {
                    left = 0;
                    height = cell.1;
                }
            }
        }
        let class = chance.of(&[1, 1, 2]);
        let mut data = match class {
            1 => chance.bytes(width.div_ceil(8) * height),
            _ => [0, width as u8].repeat(height),
        };
        if !complete {
            data.pop();
        }
        let mut block = vec![4, 0, 14, class, 0, 0];
        block.extend((left as i16).to_be_bytes());
        block.extend([0, 22]);
        for number in [width, height, delta_x] {
            block.extend((number as u16).to_be_bytes());
        }
        block.extend(data);
        Some(block)
    }

    /// A font for the profile, the calls that look at it, and small changes of it.
    pub fn profile_call(&mut self, store: &[u8], shown: &[u8], font: u32, code: u32) -> Call {
        match self.chance.below(12) {
            0..=2 => Call::ReadStream {
                stream: self.stream(shown),
            },
            3..=6 => Call::CheckProfile { font },
            7 | 8 => self.write_profiled(store, font),
            9 => Call::RemoveCharacter { font, code },
            _ => {
                // As its font has it, if that is kept.
                let kept = records(shown);
                let header = match kept.iter().find(|record| record.font == font) {
                    Some(record) => shown[record.at + FONT_KEPT..record.at + FONT_RECORD].to_vec(),
                    None => self.profiled_header().0,
                };
                let cell = (high16(&header, 8), high16(&header, 10).min(50));
                let breaks = match self.chance.once_in(3) {
                    true => vec![self.chance.between(1, 7)],
                    false => vec![],
                };
                let block = self.profiled_character(cell, high16(&header, 16), breaks);
                Call::DownloadCharacter {
                    block: block.unwrap_or_default(),
                    font,
                    code,
                }
            }
        }
    }

    pub fn write_profiled(&mut self, store: &[u8], font: u32) -> Call {
        let mut long = vec![0; store.len() + 2048];
        let needed = reference::write_font(store, &mut long, font).length;
        Call::WriteProfiled {
            out: self.output(needed as usize),
            font,
        }
    }
}
