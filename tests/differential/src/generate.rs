//! Chance calls: every field at and beside its limits, data that goes on where
//! kept data ends, streams whole, cut and damaged, and buffers that are nearly
//! stores. What to aim at is read from the reference's store.

use crate::calls::{Call, Request, ANSWER};
use crate::chance::Chance;
use crate::figures::Figures;
use marlinfold_reference as reference;

/// A record of a store, its own place and, for a character, its code.
#[derive(Clone, Copy)]
pub struct Record {
    pub at: usize,
    pub length: usize,
    pub font: u32,
    pub code: Option<u32>,
}

/// A font's record: its length, and where its kept bytes stand; before them the
/// number of its characters (2 bytes) and the sum of their data (4 bytes), W-205.
pub const FONT_RECORD: usize = 82;
pub const FONT_KEPT: usize = 14;
pub const FONT_COUNT: usize = 8;
pub const FONT_SUM: usize = 10;
/// What telling a font copies: 64 bytes of the header and both resolutions.
pub const KEPT: usize = FONT_RECORD - FONT_KEPT;
/// A character's record without its data.
pub const CHARACTER_RECORD: usize = 26;

fn low16(bytes: &[u8], at: usize) -> u32 {
    u32::from(bytes[at]) + 256 * u32::from(bytes[at + 1])
}

pub fn high16(bytes: &[u8], at: usize) -> usize {
    256 * usize::from(bytes[at]) + usize::from(bytes[at + 1])
}

fn signed16(bytes: &[u8], at: usize) -> i64 {
    i64::from(i16::from_be_bytes([bytes[at], bytes[at + 1]]))
}

pub fn put_high16(bytes: &mut [u8], at: usize, value: usize) {
    bytes[at] = (value / 256) as u8;
    bytes[at + 1] = (value % 256) as u8;
}

/// The records behind the first, of a buffer that is a store.
pub fn records(store: &[u8]) -> Vec<Record> {
    let mut found = Vec::new();
    let mut at = 12;
    while at + 6 <= store.len() {
        let length = (low16(store, at) + 65536 * low16(store, at + 2)) as usize;
        if length == 0 {
            break;
        }
        let is_font = low16(store, at + 4) == 2;
        found.push(Record {
            at,
            length,
            font: low16(store, at + 6),
            code: (!is_font).then(|| low16(store, at + 8)),
        });
        at += length;
    }
    found
}

/// The numbers that a font's record holds: its characters, and their data bytes.
pub fn held(store: &[u8], font: &Record) -> (u32, u32) {
    let sum = font.at + FONT_SUM;
    (
        low16(store, font.at + FONT_COUNT),
        low16(store, sum) + 65536 * low16(store, sum + 2),
    )
}

/// Every font's record, with the numbers that it holds and those counted anew.
pub fn counts(store: &[u8]) -> Vec<(Record, (u32, u32), (u32, u32))> {
    let mut fonts = Vec::new();
    for record in records(store) {
        match (record.code, fonts.last_mut()) {
            (None, _) => fonts.push((record, held(store, &record), (0, 0))),
            (Some(_), Some((_, _, (characters, data)))) => {
                *characters += 1;
                *data += (record.length - CHARACTER_RECORD) as u32;
            }
            (Some(_), None) => unreachable!("a character stands behind its font"),
        }
    }
    fonts
}

/// The held numbers made those of the characters that stand behind each font.
fn make_counts_true(parts: &mut [Vec<u8>]) {
    let mut of = None;
    for at in 0..parts.len() {
        if parts[at][4] == 2 {
            of = Some(at);
            parts[at][FONT_COUNT..FONT_KEPT].fill(0);
        } else if let Some(font) = of {
            let data = parts[at].len().saturating_sub(CHARACTER_RECORD) as u32;
            let font = &mut parts[font];
            let count = low16(font, FONT_COUNT) as u16 + 1;
            font[FONT_COUNT..FONT_SUM].copy_from_slice(&count.to_le_bytes());
            let sum = low16(font, FONT_SUM) + 65536 * low16(font, FONT_SUM + 2) + data;
            font[FONT_SUM..FONT_KEPT].copy_from_slice(&sum.to_le_bytes());
        }
    }
}

/// The open character of a store.
pub fn open(store: &[u8]) -> Option<(u32, u32)> {
    (low16(store, 6) == 1).then(|| (low16(store, 8), low16(store, 10)))
}

/// A kept character of a store.
pub struct Kept<'a> {
    pub class: u8,
    pub left: i64,
    pub delta_x: i64,
    pub width: usize,
    pub height: usize,
    pub data: &'a [u8],
}

impl Kept<'_> {
    pub fn row_bytes(&self) -> usize {
        self.width.div_ceil(8)
    }

    pub fn picture_bytes(&self) -> usize {
        self.row_bytes() * self.height
    }
}

pub fn character<'a>(store: &'a [u8], font: u32, code: u32) -> Option<Kept<'a>> {
    let record = records(store)
        .into_iter()
        .find(|record| record.font == font && record.code == Some(code))?;
    Some(kept(store, &record))
}

/// The character of a record.
pub fn kept<'a>(store: &'a [u8], record: &Record) -> Kept<'a> {
    let bytes = &store[record.at..record.at + record.length];
    Kept {
        class: bytes[13],
        left: signed16(bytes, 16),
        delta_x: signed16(bytes, 24),
        width: high16(bytes, 20),
        height: high16(bytes, 22),
        data: &bytes[CHARACTER_RECORD..],
    }
}

/// Bytes behind the last record.
pub fn room(store: &[u8]) -> usize {
    match records(store).last() {
        Some(last) => store.len() - last.at - last.length,
        None => store.len() - 12,
    }
}

/// What a history is mostly about.
#[derive(Clone, Copy, PartialEq)]
pub enum Theme {
    /// A few fonts and characters in a small store, so that room runs out.
    Small,
    /// Many fonts of any number.
    Fonts,
    /// Characters near the limits of pictures and of kept data.
    Giants,
    /// Fonts that meet W-207's profile, or break a rule of it.
    Profiles,
}

pub struct Generator<'a> {
    pub chance: &'a mut Chance,
    pub theme: Theme,
}

const FONTS: [u32; 7] = [0, 1, 2, 5, 300, 32766, 32767];
/// Out of range, also where only the low 16 bits are looked at.
const NO_FONTS: [u32; 5] = [32768, 65535, 65541, 0x8000_0005, u32::MAX];
const CODES: [u32; 7] = [0, 1, 2, 65, 66, 254, 255];
const NO_CODES: [u32; 5] = [256, 321, 65601, 0x8000_0041, u32::MAX];

impl Generator<'_> {
    pub fn font_number(&mut self, store: &[u8]) -> u32 {
        if self.chance.once_in(16) {
            return self.chance.of(&NO_FONTS);
        }
        if self.chance.below(4) > 0 {
            let records = records(store);
            if !records.is_empty() {
                return records[self.chance.below(records.len())].font;
            }
        }
        match self.theme {
            Theme::Fonts => self.chance.below(32768) as u32,
            _ => self.chance.of(&FONTS),
        }
    }

    /// A font number and a code, mostly of a kept character.
    fn character_number(&mut self, store: &[u8]) -> (u32, u32) {
        if self.chance.below(8) < 5 {
            let kept: Vec<(u32, u32)> = records(store)
                .iter()
                .filter_map(|record| Some((record.font, record.code?)))
                .collect();
            if !kept.is_empty() {
                return self.chance.of(&kept);
            }
        }
        let font = self.font_number(store);
        (font, self.code(store, font))
    }

    pub fn code(&mut self, store: &[u8], font: u32) -> u32 {
        if self.chance.once_in(16) {
            return self.chance.of(&NO_CODES);
        }
        if self.chance.once_in(2) {
            let codes: Vec<u32> = records(store)
                .iter()
                .filter(|record| record.font == font)
                .filter_map(|record| record.code)
                .collect();
            if !codes.is_empty() {
                return self.chance.of(&codes);
            }
        }
        match self.chance.once_in(8) {
            true => self.chance.below(256) as u32,
            false => self.chance.of(&CODES),
        }
    }

    /// A font block that is mostly taken; few values, so that fonts tie. Many are of
    /// format 20, of both resolutions.
    pub fn good_header(&mut self) -> Vec<u8> {
        let mut block = self.good_header_of_format_0();
        let chance = &mut *self.chance;
        if chance.once_in(2) {
            let resolution = chance.of(&[300_u16, 600, 600]);
            block[1] = 68;
            block[2] = 20;
            block.extend([resolution.to_be_bytes(); 2].concat());
            // So that fonts of both resolutions tie: the numbers of 300 dpi twice.
            for (field, extended) in [(16, 40), (18, 41)] {
                let number = 2 * (256 * high16(&block, field) + usize::from(block[extended]));
                if resolution == 600 && number < 1 << 24 && !chance.once_in(4) {
                    let number = (number + chance.of(&[0, 0, 0, 1])).min((1 << 24) - 1);
                    put_high16(&mut block, field, number / 256);
                    block[extended] = (number % 256) as u8;
                }
            }
        }
        block
    }

    fn good_header_of_format_0(&mut self) -> Vec<u8> {
        let chance = &mut *self.chance;
        let mut block = match chance.once_in(3) {
            true => chance.bytes(64),
            false => vec![0; 64],
        };
        put_high16(&mut block, 0, 64);
        block[2] = 0;
        block[3] = chance.of(&[0, 1, 2]);
        let style = chance.of(&[0, 0, 0, 1, 255, 256, 1023]);
        block[4] = (style / 256) as u8;
        block[23] = (style % 256) as u8;
        let height = chance.of(&[1, 2, 50, 255, 256, 65535]);
        put_high16(&mut block, 10, height);
        let baseline = chance.of(&[0, height - 1, height / 2]);
        put_high16(&mut block, 6, baseline);
        let width = chance.of(&[1, 30, 256, 65535]);
        put_high16(&mut block, 8, width);
        block[12] = chance.of(&[0, 0, 0, 0, 0, 0, 0, 0, 0, 1, 2, 3]);
        block[13] = chance.of(&[0, 0, 1]);
        let set = chance.of(&[277, 277, 277, 341, 85, 0, 2047]);
        put_high16(&mut block, 14, set);
        // 79 x 1519 is 120,001; 57,600 x (256 x 291 + 70) is just past 2^32.
        let pitch = chance.of(&[
            0, 2, 70, 70, 72, 79, 100, 120, 120, 120, 121, 291, 16799, 16800, 16801, 65535,
        ]);
        put_high16(&mut block, 16, pitch);
        let height = chance.of(&[
            0, 150, 195, 195, 196, 200, 200, 204, 204, 205, 10921, 10922, 10923, 65535,
        ]);
        put_high16(&mut block, 18, height);
        // With R 1700, 70 and 150 qualify, 151 don't; with H 1200, 204 and 42 are
        // level with 200, 43 aren't, and so are 195 and 214, not 213; with H 1202,
        // 204 and 128 are just level.
        for at in [40, 41] {
            block[at] = match chance.below(3) {
                0 => chance.byte(),
                1 => chance.of(&[
                    1, 20, 21, 22, 42, 43, 70, 128, 129, 149, 150, 151, 213, 214, 255,
                ]),
                _ => 0,
            };
        }
        block[24] = match chance.once_in(2) {
            true => chance.of(&[0, 3, 1, 255]),
            false => (chance.below(15) as u8).wrapping_sub(7),
        };
        let face = chance.of(&[3, 3, 4, 0, 259, 65535]);
        block[25] = (face % 256) as u8;
        block[26] = (face / 256) as u8;
        block
    }

    /// A font block, often with one field at or beside its limit.
    fn header(&mut self) -> Vec<u8> {
        let mut block = self.good_header();
        let chance = &mut *self.chance;
        if chance.once_in(4) {
            // Longer, with a descriptor size up to the block's length and one
            // beyond.
            let least = block.len();
            let length = match chance.below(12) {
                0 => chance.of(&[32766, 32767, 32768, 32769, 40000]),
                1..=3 => least + chance.below(5),
                _ => least + chance.below(300),
            };
            let more = chance.bytes(length - least);
            block.extend(more);
            let size = chance.of(&[
                64,
                65,
                66,
                67,
                68,
                69,
                length - 1,
                length,
                length + 1,
                length / 2,
            ]);
            put_high16(&mut block, 0, size);
        }
        if block[2] == 20 && chance.once_in(8) {
            match chance.below(3) {
                // One that is not taken, or each another.
                0 => {
                    let of = [0, 1, 44, 88, 256, 299, 300, 301, 599, 600, 601, 1200, 65535];
                    for at in [64, 66] {
                        put_high16(&mut block, at, chance.of(&of));
                    }
                }
                1 => put_high16(&mut block, chance.of(&[64, 66]), chance.of(&[300, 600])),
                // Too short, with a size that fits its length or format 20.
                _ => {
                    let length = chance.between(64, 67);
                    block.truncate(length);
                    put_high16(&mut block, 0, chance.of(&[64, length, 68, 69]));
                }
            }
            if block.len() < 68 {
                return block;
            }
        }
        if chance.once_in(3) {
            match chance.below(14) {
                0 => {
                    let size = chance.of(&[0, 63, 64, 65, 66, 67, 68, 69, 128, 320, 16384, 65535]);
                    put_high16(&mut block, 0, size);
                }
                1 => block[2] = chance.of(&[0, 1, 2, 10, 15, 20, 255]),
                2 => block[3] = chance.of(&[2, 3, 255]),
                3 => block[4] = chance.of(&[3, 4, 128, 255]),
                4 => put_high16(&mut block, 8, 0),
                5 => put_high16(&mut block, 10, 0),
                6 => {
                    let height = high16(&block, 10);
                    let baseline = chance.of(&[height.saturating_sub(1), height, height + 1]);
                    put_high16(&mut block, 6, baseline.min(65535));
                }
                7 => block[12] = chance.of(&[3, 4, 255]),
                8 => block[13] = chance.of(&[1, 2, 255]),
                9 => {
                    let set = chance.of(&[2047, 2048, 4096, 32768, 65535]);
                    put_high16(&mut block, 14, set);
                }
                10 => block[24] = chance.of(&[7, 8, 249, 248, 127, 128]),
                11 => block[5] = chance.byte(),
                12 => {
                    let at = chance.below(64);
                    block[at] = chance.byte();
                }
                _ => block.truncate(chance.of(&[0, 1, 2, 63, 64, 65, 66, 67, 68])),
            }
        }
        block
    }

    /// Width and height, at the limits and of every shape.
    fn size(&mut self) -> (usize, usize) {
        let chance = &mut *self.chance;
        if self.theme == Theme::Giants && chance.once_in(2) {
            return chance.of(&[
                (1024, 256),
                (1024, 257),
                (1025, 254),
                (1025, 255),
                (16384, 16),
                (16384, 17),
                (16, 16384),
                (9, 16384),
                (17, 16384),
                (24, 10922),
                (24, 10923),
                (300, 3),
                (16383, 2),
                (8, 16383),
            ]);
        }
        match chance.below(12) {
            0 => chance.of(&[
                (255, 2),
                (254, 1),
                (256, 1),
                (300, 2),
                (510, 1),
                (511, 2),
                (16384, 1),
                (1, 16384),
                (1, 257),
                (3, 300),
            ]),
            1 => chance.of(&[
                (0, 1),
                (1, 0),
                (16385, 1),
                (1, 16385),
                (65535, 1),
                (1, 65535),
                (32768, 1),
                (24, 10923),
                (1024, 257),
                (16384, 16384),
            ]),
            2 => (chance.of(&[1, 7, 8, 9, 15, 16, 17]), chance.between(1, 4)),
            _ => (chance.between(1, 40), chance.between(1, 9)),
        }
    }

    /// Class 2 data that goes on from where a reading is, up to the last row
    /// unless `most` bytes are reached.
    pub fn runs(&mut self, width: usize, mut reading: Reading, most: usize) -> Vec<u8> {
        let chance = &mut *self.chance;
        let mut data = Vec::new();
        // Some data is made of the fewest bytes, some has zero runs anywhere.
        let habit = chance.below(3);
        while reading.rows_left > 0 && data.len() < most {
            let (repeat, mut unfilled) = match reading.row.take() {
                Some(row) => row,
                None => {
                    let left = reading.rows_left;
                    let repeat = match chance.below(8) {
                        0 => chance.byte(),
                        1 => 255,
                        2 => (left - 1).min(255) as u8,
                        3 => left.min(255) as u8,
                        4 => left.saturating_sub(2).min(255) as u8,
                        _ => chance.below(3) as u8,
                    };
                    data.push(repeat);
                    (usize::from(repeat), width)
                }
            };
            while unfilled > 0 && data.len() < most {
                let longest = unfilled.min(255);
                let run = match (habit, chance.below(8)) {
                    (0, _) | (_, 0 | 1) => longest,
                    (1, 2 | 3) => 0,
                    (_, 4) => longest.saturating_sub(1),
                    _ => chance.below(longest + 1),
                };
                data.push(run as u8);
                unfilled -= run;
            }
            reading.rows_left = reading.rows_left.saturating_sub(1 + repeat);
        }
        data
    }

    /// Makes a run of class 2 data, which goes on from where a reading is, too long for
    /// its row: the last one, or any.
    fn misfit(&mut self, data: &mut [u8], width: usize, mut reading: Reading) {
        let mut runs = Vec::new();
        for (at, &byte) in data.iter().enumerate() {
            if reading.rows_left == 0 {
                break;
            }
            match reading.take(width, byte) {
                // A run has one byte.
                Some(unfilled) if unfilled < 255 => runs.push((at, unfilled)),
                _ => {}
            }
        }
        let Some(&last) = runs.last() else {
            return;
        };
        let (at, unfilled) = match self.chance.once_in(4) {
            true => last,
            false => self.chance.of(&runs),
        };
        data[at] = match self.chance.below(3) {
            0 => unfilled + 1,
            1 => 255,
            _ => self.chance.between(unfilled + 1, 255),
        } as u8;
    }

    /// Data from where a reading is: complete, cut, too long, or with a byte
    /// that breaks it.
    fn data(&mut self, class: u8, width: usize, reading: Reading, missing: usize) -> Vec<u8> {
        let most = match self.theme {
            Theme::Giants => 32800,
            _ => 3000,
        };
        let mut data = if class == 2 {
            self.runs(width, reading, most)
        } else {
            let length = missing.min(most);
            match self.chance.once_in(3) {
                true => vec![255; length],
                false => self.chance.bytes(length),
            }
        };
        let chance = &mut *self.chance;
        match chance.below(12) {
            0 | 1 => {
                let length = chance.below(data.len() + 1);
                data.truncate(length);
            }
            2 => {
                data.pop();
            }
            3 => {
                let more = chance.of(&[1, 1, 2, 9]);
                let more = chance.bytes(more);
                data.extend(more);
            }
            // The last run one too long, or one too short.
            4 if class == 2 => {
                if let Some(last) = data.last_mut() {
                    *last = last.wrapping_add(1);
                }
            }
            5 if class == 2 => {
                if let Some(last) = data.last_mut() {
                    *last = last.wrapping_sub(1);
                }
            }
            6 if class == 2 && !data.is_empty() => {
                let at = chance.below(data.len());
                data[at] = chance.of(&[0, 1, 255]);
            }
            7 => data.clear(),
            8 | 9 if class == 2 => self.misfit(&mut data, width, reading),
            _ => {}
        }
        data
    }

    /// A first block for this font and code, often with one field at or beside
    /// its limit.
    pub fn first_block(&mut self, store: &[u8], font: u32, code: u32) -> Vec<u8> {
        let orientation = records(store)
            .iter()
            .find(|record| record.font == font)
            .map_or(0, |record| store[record.at + FONT_KEPT + 12]);
        let class = self.chance.of(&[1, 2, 2]);
        let (mut width, mut height) = self.size();
        let mut class = class;
        let mut exact = None;
        if self.chance.once_in(8) && reference::is_store(store) {
            // Plain data that just fits, or just doesn't.
            let free = room(store)
                + records(store)
                    .iter()
                    .find(|record| record.font == font && record.code == Some(code))
                    .map_or(0, |record| record.length);
            let data = free as i64 - CHARACTER_RECORD as i64 + self.chance.of(&[-1, 0, 0, 1, 1, 2]);
            if (1..=16000).contains(&data) {
                class = 1;
                width = 8;
                height = data as usize + self.chance.of(&[0, 0, 3, 300]);
                // Some of it is left for a continuation.
                exact = Some(match self.chance.once_in(3) {
                    true => self.chance.below(data as usize),
                    false => data as usize,
                });
            }
        }
        let data = match exact {
            Some(length) => self.chance.bytes(length),
            None => {
                let reading = Reading::new(height);
                let missing = width.div_ceil(8) * height;
                self.data(class, width, reading, missing)
            }
        };
        let chance = &mut *self.chance;
        let mut block = vec![
            4,
            0,
            14,
            class,
            orientation,
            0,
            0,
            2,
            0,
            22,
            0,
            0,
            0,
            0,
            0,
            120,
        ];
        put_high16(&mut block, 10, width);
        put_high16(&mut block, 12, height);
        const OFFSETS: [usize; 11] = [
            0,
            1,
            16383,
            16384,
            16385,
            32767,
            32768,
            65536 - 16385,
            65536 - 16384,
            65536 - 16383,
            65535,
        ];
        match chance.below(24) {
            0 => block[0] = chance.of(&[0, 3, 5, 20, 255]),
            1 => block[2] = chance.of(&[13, 15, 0, 255]),
            2 => block[3] = chance.of(&[0, 3, 4, 255]),
            3 => block[4] = chance.of(&[(orientation + 1) % 4, 4, 255]),
            4 | 5 => block[5] = chance.byte(),
            6 | 7 => put_high16(&mut block, 6, chance.of(&OFFSETS)),
            8 | 9 => put_high16(&mut block, 8, chance.of(&OFFSETS)),
            10..=12 => put_high16(&mut block, 14, chance.of(&[0, 1, 32767, 32768, 65535])),
            _ => {}
        }
        block.extend(data);
        match chance.below(60) {
            0 => block.truncate(chance.of(&[0, 1, 2, 3, 15, 16])),
            1 => {
                let length = chance.of(&[32766, 32767, 32768, 40000]);
                let more = chance.bytes(length - block.len().min(length));
                block.extend(more);
            }
            _ => {}
        }
        if self.theme == Theme::Giants && !chance.once_in(6) {
            block.truncate(chance.of(&[32767, 32767, 32766]));
        }
        block
    }

    /// A class 2 character of many zero runs, of which no row ends: its kept
    /// data comes near 32,768 bytes.
    fn endless(&mut self) -> Vec<u8> {
        let mut block = vec![4, 0, 14, 2, 0, 0, 0, 2, 0, 22, 1, 44, 0, 2, 0, 120];
        block.resize(self.chance.of(&[32767, 32767, 32760]), 0);
        block
    }

    /// A continuation, mostly of data that goes on from the open character's.
    pub fn continuation(&mut self, store: &[u8], font: u32, code: u32) -> Vec<u8> {
        let mut block = vec![4, self.chance.of(&[1, 1, 2, 255])];
        if self.chance.once_in(20) {
            block[0] = self.chance.of(&[0, 3, 5, 255]);
        }
        if let Some(kept) = character(store, font, code) {
            let near = 32768_usize.saturating_sub(kept.data.len());
            if kept.class == 2 && near < 200 && !self.chance.once_in(4) {
                // Up to the limit of kept data, or past it by one, by zero runs;
                // maybe then to the row's end.
                let zeros = near as i64 + self.chance.of(&[-3, -2, -1, 0, 1]);
                block.resize(block.len() + zeros.max(0) as usize, 0);
                if self.chance.once_in(2) {
                    block.extend([255, 0, 45]);
                }
                return block;
            }
            let reading = Reading::of(&kept);
            let missing = kept.picture_bytes().saturating_sub(kept.data.len());
            let free = room(store);
            if kept.class == 1 && missing > free && self.chance.once_in(2) {
                // What just fits, or just doesn't.
                let length = free as i64 + self.chance.of(&[-1, 0, 0, 1]);
                block.extend(self.chance.bytes(length.max(0) as usize));
                block.truncate(32767);
                return block;
            }
            block.extend(self.data(kept.class, kept.width, reading, missing));
        } else {
            let more = self.chance.below(9);
            block.extend(self.chance.bytes(more));
        }
        match self.chance.below(30) {
            0 => block.truncate(self.chance.of(&[0, 1, 2, 2, 3])),
            1 => block.truncate(2),
            2 => block.resize(self.chance.of(&[32767, 32768, 40000]), 0),
            _ => {}
        }
        if !self.chance.once_in(6) {
            block.truncate(32767);
        }
        block
    }

    /// A character block with the numbers it is for.
    fn character_download(&mut self, store: &[u8]) -> (Vec<u8>, u32, u32) {
        let font = self.font_number(store);
        let code = self.code(store, font);
        if self.chance.once_in(3) {
            // To the open character, to one beside it, or while none is open.
            let (font, code) = match open(store) {
                Some(open) if !self.chance.once_in(8) => open,
                Some((font, _)) if self.chance.once_in(2) => (font, code),
                Some((_, code)) if self.chance.once_in(2) => (font, code),
                _ => (font, code),
            };
            return (self.continuation(store, font, code), font, code);
        }
        if self.theme == Theme::Giants && self.chance.once_in(4) {
            return (self.endless(), font, code);
        }
        (self.first_block(store, font, code), font, code)
    }

    /// A request about these fonts' kept bytes: at and beside the limits of
    /// their pitches and heights.
    pub fn good_request(&mut self, store: &[u8]) -> Request {
        let chance = &mut *self.chance;
        let fonts: Vec<&[u8]> = records(store)
            .iter()
            .filter(|record| record.code.is_none())
            .map(|record| &store[record.at + FONT_KEPT..record.at + FONT_RECORD])
            .collect();
        let mut request = Request {
            symbol_set: chance.of(&[277, 277, 277, 341, 85, 21, 0, 2047]),
            spacing: chance.of(&[0, 0, 1]),
            pitch: chance.of(&[0, 1, 7, 8, 1000, 1001, 1200, 1519, 1666, 1667, 1700, 57600]),
            height: chance.of(&[0, 900, 1174, 1175, 1200, 1202, 1225, 1226, 65532, 99975]),
            style: chance.of(&[0, 0, 0, 1, 255, 256, 1023]),
            weight: chance.below(15) as i32 - 7,
            typeface: chance.of(&[3, 3, 4, 0, 259, 65535]),
            orientation: chance.of(&[0, 0, 0, 0, 1, 1, 2, 3]),
            mode: chance.of(&[300, 600, 600]),
        };
        if !fonts.is_empty() && chance.once_in(2) {
            let font = fonts[chance.below(fonts.len())];
            if chance.once_in(2) {
                request.symbol_set = high16(font, 14) as u32;
            }
            let times = if high16(font, 64) == 600 { 1 } else { 2 };
            let pitch = (times * (256 * high16(font, 16) + usize::from(font[40]))).max(1) as u32;
            request.pitch = (61_440_000 / pitch + chance.of(&[0, 0, 1])).min(57_600);
            // At the font's height, or where 6,400 off is just reached.
            let height = (3 * times * (256 * high16(font, 18) + usize::from(font[41]))) as i64;
            let beside = chance.of(&[-6400, 0, 6400]);
            let near = (height + beside) / 256 + chance.of(&[-1, 0, 0, 1, 1]);
            request.height = near.clamp(0, 99_975) as u32;
        }
        request
    }

    pub fn request(&mut self, store: &[u8]) -> Request {
        let mut request = self.good_request(store);
        let chance = &mut *self.chance;
        if chance.once_in(8) {
            match chance.below(9) {
                8 => request.mode = chance.of(&[0, 1, 299, 301, 1200, 65836, 66136, u32::MAX]),
                0 => request.symbol_set = chance.of(&[2048, 65813, u32::MAX]),
                1 => request.spacing = chance.of(&[2, 256, u32::MAX]),
                2 => request.pitch = chance.of(&[57_601, 65_536, u32::MAX]),
                3 => request.height = chance.of(&[99_976, 1 << 17, u32::MAX]),
                4 => request.style = chance.of(&[1024, 65_536, u32::MAX]),
                5 => request.weight = chance.of(&[8, -8, 249, 256, i32::MIN, i32::MAX]),
                6 => request.typeface = chance.of(&[65_536, 65_539, u32::MAX]),
                _ => request.orientation = chance.of(&[4, 256, u32::MAX]),
            }
        }
        request
    }

    /// A sheet of few requests, of as many as it may have, or of too many; with
    /// enough answers or too few.
    fn sheet(&mut self, store: &[u8]) -> Call {
        let count = match self.chance.below(8) {
            0 => 0,
            1 => 1,
            2 => self.chance.of(&[63, 64, 64]),
            3 => self.chance.of(&[65, 65, 66, 100]),
            _ => self.chance.between(2, 12),
        };
        let requests: Vec<Request> = (0..count).map(|_| self.request(store)).collect();
        let answers = match self.chance.below(8) {
            0 => count.saturating_sub(1),
            1 => self.chance.below(count + 1),
            2 => self.chance.of(&[0, 63, 64]),
            3 | 4 => count + 1 + self.chance.below(9),
            _ => count,
        };
        let out = match self.chance.once_in(2) {
            true => vec![0xFF; ANSWER * answers],
            false => self.chance.bytes(ANSWER * answers),
        };
        Call::ChooseSheet { requests, out }
    }

    /// An output for `needed` bytes: short, exact or longer.
    pub fn output(&mut self, needed: usize) -> Vec<u8> {
        let length = match self.chance.below(8) {
            0 => needed.saturating_sub(1),
            1 => 0,
            2 => self.chance.below(needed + 1),
            3 | 4 => needed,
            5 => needed + 1,
            _ => needed + self.chance.below(40),
        };
        match self.chance.once_in(2) {
            true => vec![0xFF; length],
            false => self.chance.bytes(length),
        }
    }

    pub fn spelled(&mut self, letters: &str, number: u32, last: char) -> Vec<u8> {
        let zeros = match self.chance.once_in(8) {
            true => self.chance.between(2, 6),
            false => 1,
        };
        format!("\x1b{letters}{number:0zeros$}{last}").into_bytes()
    }

    /// A portrait first block of a few bytes, complete or not.
    pub fn small_character(&mut self) -> Vec<u8> {
        let (width, height) = (self.chance.between(1, 24), self.chance.between(1, 6));
        let class = self.chance.of(&[1, 2]);
        let mut data = match class {
            1 => self.chance.bytes(width.div_ceil(8) * height),
            _ => self.runs(width, Reading::new(height), 60),
        };
        if self.chance.once_in(4) {
            data.truncate(self.chance.below(data.len()));
        }
        let mut block = vec![4, 0, 14, class, 0, 0, 0, 2, 0, 22, 0, 0, 0, 0, 0, 120];
        put_high16(&mut block, 10, width);
        put_high16(&mut block, 12, height);
        block.extend(data);
        block
    }

    /// Many accepted changes of few characters, one behind the other: a reading
    /// that remembers where things stand must keep up with them.
    fn busy(&mut self, store: &[u8]) -> Vec<u8> {
        let mut left = store.to_vec();
        let mut stream = Vec::new();
        let fonts: Vec<u32> = (0..self.chance.between(1, 3))
            .map(|_| self.font_number(store).min(32767))
            .collect();
        let mut font = fonts[0];
        stream.extend(format!("\x1b*c{font}D").bytes());
        for _ in 0..self.chance.between(10, 100) {
            let kept = records(&left).iter().any(|record| record.font == font);
            if self.chance.once_in(10) {
                font = self.chance.of(&fonts);
                stream.extend(format!("\x1b*c{font}D").bytes());
            } else if !kept || self.chance.once_in(30) {
                let mut block = self.good_header();
                block[12] = 0;
                stream.extend(format!("\x1b)s{}W", block.len()).bytes());
                stream.extend(&block);
                reference::download_font(&mut left, &block, font);
            } else {
                let (code, block) = match open(&left) {
                    Some((of, code)) if of == font && self.chance.once_in(2) => {
                        let mut block = self.continuation(&left, font, code);
                        block.truncate(2 + self.chance.below(40));
                        (code, block)
                    }
                    _ => {
                        let mut block = self.small_character();
                        if block[3] == 2 && self.chance.once_in(6) {
                            let (width, height) = (high16(&block, 10), high16(&block, 12));
                            self.misfit(&mut block[16..], width, Reading::new(height));
                        }
                        (self.chance.of(&CODES), block)
                    }
                };
                stream.extend(format!("\x1b*c{code}E\x1b(s{}W", block.len()).bytes());
                stream.extend(&block);
                reference::download_character(&mut left, &block, font, code);
            }
        }
        stream
    }

    /// Many fonts, or a character for each code: what fills a large store.
    pub fn bulk(&mut self, store: &[u8]) -> Vec<u8> {
        let mut stream = Vec::new();
        if self.theme == Theme::Fonts {
            let order = self.chance.below(3);
            let fonts = self.chance.between(50, 1000);
            for index in 0..fonts {
                let number = match order {
                    0 => index,
                    1 => 32767 - index,
                    _ => self.chance.below(32768),
                };
                let block = self.good_header();
                stream.extend(format!("\x1b*c{number}D\x1b)s{}W", block.len()).bytes());
                stream.extend(block);
            }
            return stream;
        }
        let font = self.font_number(store).min(32767);
        let mut header = self.good_header();
        header[12] = 0;
        stream.extend(format!("\x1b*c{font}D\x1b)s{}W", header.len()).bytes());
        stream.extend(header);
        for code in 0..256 {
            let block = self.small_character();
            stream.extend(format!("\x1b*c{code}E\x1b(s{}W", block.len()).bytes());
            stream.extend(block);
        }
        stream
    }

    /// Commands, then maybe cut or damaged.
    pub fn stream(&mut self, store: &[u8]) -> Vec<u8> {
        if self.theme == Theme::Profiles && self.chance.below(4) > 0 {
            let mut stream = self.profiled(store);
            if self.chance.once_in(8) {
                self.damage(&mut stream);
            }
            return stream;
        }
        if store.len() > 4000 && self.chance.once_in(6) {
            let mut stream = self.bulk(store);
            self.damage(&mut stream);
            return stream;
        }
        if (300..20_000).contains(&store.len()) && self.chance.once_in(3) {
            let mut stream = self.busy(store);
            self.damage(&mut stream);
            return stream;
        }
        // What the commands so far leave, so that later ones can aim.
        let mut left = store.to_vec();
        let is_store = reference::is_store(store);
        let mut stream = Vec::new();
        let (mut font, mut code) = (0, 0);
        let commands = match self.chance.below(4) {
            0 => self.chance.below(3),
            1 => self.chance.below(40),
            _ => self.chance.below(12),
        };
        let shown = if is_store { store } else { &[0; 12] };
        for _ in 0..commands {
            let now = if is_store { &left[..] } else { shown };
            match self.chance.below(11) {
                0 | 1 => {
                    let number = match self.chance.once_in(20) {
                        true => self.chance.of(&[32768, 65541, 99999]),
                        false => self.font_number(now) % 100_000,
                    };
                    stream.extend(self.spelled("*c", number, 'D'));
                    if number <= 32767 {
                        font = number;
                    }
                }
                2..=4 => {
                    let number = match self.chance.once_in(20) {
                        true => self.chance.of(&[256, 321, 65601, 99999]),
                        false => self.code(now, font) % 100_000,
                    };
                    stream.extend(self.spelled("*c", number, 'E'));
                    if number <= 255 {
                        code = number;
                    }
                }
                5 | 6 => {
                    let block = self.header();
                    stream.extend(self.spelled(")s", block.len() as u32, 'W'));
                    stream.extend(&block);
                    reference::download_font(&mut left, &block, font);
                }
                7..=9 => {
                    let block = match self.chance.once_in(4) {
                        true => self.continuation(now, font, code),
                        false => self.first_block(now, font, code),
                    };
                    stream.extend(self.spelled("(s", block.len() as u32, 'W'));
                    stream.extend(&block);
                    reference::download_character(&mut left, &block, font, code);
                }
                _ => {
                    if let Some((to_font, to_code)) = open(now) {
                        let block = self.continuation(now, to_font, to_code);
                        stream.extend(self.spelled("*c", to_font, 'D'));
                        stream.extend(self.spelled("*c", to_code, 'E'));
                        stream.extend(self.spelled("(s", block.len() as u32, 'W'));
                        stream.extend(&block);
                        (font, code) = (to_font, to_code);
                        reference::download_character(&mut left, &block, font, code);
                    }
                }
            }
        }
        self.damage(&mut stream);
        stream
    }

    fn damage(&mut self, stream: &mut Vec<u8>) {
        let chance = &mut *self.chance;
        const BYTES: &[u8] = b"\x1b0123456789*c()sDEWdew? \0";
        if chance.once_in(8) {
            stream.truncate(chance.below(stream.len() + 1));
        }
        if chance.once_in(8) && !stream.is_empty() {
            // Near an ESC, where it matters, more often than anywhere.
            let escapes: Vec<usize> = (0..stream.len()).filter(|&at| stream[at] == 27).collect();
            let at = match escapes.is_empty() || chance.once_in(4) {
                true => chance.below(stream.len()),
                false => (chance.of(&escapes) + chance.below(9)).min(stream.len() - 1),
            };
            match chance.below(3) {
                0 => stream[at] = chance.of(BYTES),
                1 => stream.insert(at, chance.of(BYTES)),
                _ => {
                    stream.remove(at);
                }
            }
        }
        if chance.once_in(12) {
            let ends: [&[u8]; 12] = [
                b"\x1b",
                b"\x1b*c",
                b"\x1b*cD",
                b"\x1b*c5",
                b"\x1b*c000005D",
                b"\x1b*c5d65E",
                b"\x1b)s32768W",
                b"\x1b(s99999W",
                b"\x1b(s0W",
                b"\x1b)s0W",
                b"\x1b)c5D",
                b"\x1b*s5D",
            ];
            stream.extend(chance.of(&ends));
            if chance.once_in(4) {
                stream.resize(stream.len() + 32_768, 0);
            }
        }
    }

    /// Any call, aimed at what the store holds; a buffer that is no store gets
    /// any too.
    pub fn call(&mut self, store: &[u8]) -> Call {
        let shown: &[u8] = match reference::is_store(store) {
            true => store,
            false => &[0; 12],
        };
        let (font, code) = self.character_number(shown);
        if self.theme == Theme::Profiles && self.chance.below(3) > 0 {
            return self.profile_call(store, shown, font, code);
        }
        let needs = |of: fn(&Kept) -> usize| character(shown, font, code).map_or(40, |c| of(&c));
        match self.chance.below(40) {
            0 if self.chance.once_in(6) => Call::MakeFresh,
            0..=5 => Call::DownloadFont {
                block: self.header(),
                font: self.font_number(shown),
            },
            6..=15 => {
                let (block, font, code) = self.character_download(shown);
                Call::DownloadCharacter { block, font, code }
            }
            16 => Call::RemoveFont {
                font: self.font_number(shown),
            },
            17 | 18 => Call::RemoveCharacter { font, code },
            19 | 20 => Call::Choose(self.request(shown)),
            21 | 22 => Call::TellFont {
                out: self.output(KEPT),
                font,
            },
            23 | 24 => Call::TellCharacter {
                out: self.output(16),
                font,
                code,
            },
            25 | 26 => {
                let height = needs(|c| c.height) as u32;
                let row = match self.chance.below(6) {
                    0 => height,
                    1 => height - 1,
                    2 => self.chance.of(&[0, 65536, 1 << 31, u32::MAX]),
                    _ => self.chance.below(height as usize) as u32,
                };
                Call::DrawRow {
                    out: self.output(needs(|c| c.row_bytes())),
                    font,
                    code,
                    row,
                }
            }
            27 | 28 => Call::DrawPicture {
                out: self.output(needs(|c| c.picture_bytes())),
                font,
                code,
            },
            29 => {
                let mut long = vec![0; store.len() + 2048];
                let needed = reference::write_font(store, &mut long, font).length;
                Call::WriteFont {
                    out: self.output(needed as usize),
                    font,
                }
            }
            30 | 31 => self.sheet(shown),
            35 => Call::CheckProfile { font },
            36 => self.write_profiled(store, font),
            37 => Call::AddFigures {
                figures: self.figures(&Figures::zero(), shown),
            },
            38 | 39 => self.salvage(shown),
            _ => Call::ReadStream {
                stream: self.stream(shown),
            },
        }
    }

    /// A block that must find no room in this store, for a kept font.
    pub fn block_without_room(&mut self, store: &[u8], font: u32) -> Option<Vec<u8>> {
        let record = *records(store).iter().find(|record| record.font == font)?;
        let taken = records(store)
            .iter()
            .find(|record| record.font == font && record.code == Some(200))
            .map_or(0, |record| record.length);
        let data = (room(store) + taken + 1)
            .saturating_sub(CHARACTER_RECORD)
            .max(1);
        if data > 16384 {
            return None;
        }
        let orientation = store[record.at + FONT_KEPT + 12];
        let mut block = vec![4, 0, 14, 1, orientation, 0, 0, 0, 0, 0, 0, 8];
        block.extend((data as u16).to_be_bytes());
        block.extend([0, 0]);
        block.resize(16 + data, 0xC3);
        Some(block)
    }

    /// A held count made untrue: by one, by a byte, another font's, or none at all.
    fn change_count(&mut self, bytes: &mut [u8]) {
        let fonts = counts(bytes);
        let chance = &mut *self.chance;
        let (font, (characters, data), _) = fonts[chance.below(fonts.len())];
        let other = fonts[chance.below(fonts.len())].1;
        let by = chance.of(&[1, 255, 256, 65535, 65536, u32::MAX]);
        let (characters, data) = match chance.below(6) {
            0 => (characters.wrapping_add(by), data),
            1 => (characters, data.wrapping_add(by)),
            2 => (characters.wrapping_add(by), data.wrapping_sub(by)),
            3 => other,
            4 => (0, 0),
            _ => (data, characters),
        };
        let numbers = &mut bytes[font.at + FONT_COUNT..font.at + FONT_KEPT];
        numbers[..2].copy_from_slice(&(characters as u16).to_le_bytes());
        numbers[2..].copy_from_slice(&data.to_le_bytes());
    }

    /// A kept header of format 0 or 20, of any size and resolutions near those.
    fn change_format(&mut self, bytes: &mut [u8]) {
        let fonts = counts(bytes);
        let chance = &mut *self.chance;
        let kept = fonts[chance.below(fonts.len())].0.at + FONT_KEPT;
        let (size, format) = chance.of(&[(64, 0), (68, 0), (64, 20), (68, 20), (68, 20), (68, 20)]);
        bytes[kept + 1] = size;
        bytes[kept + 2] = format;
        let x = chance.of(&[300, 300, 600, 600, 601]);
        let y = match chance.once_in(3) {
            true => chance.of(&[300, 600, 88]),
            false => x,
        };
        put_high16(bytes, kept + 64, x);
        put_high16(bytes, kept + 66, y);
    }

    /// The store with font records of 78 bytes, without the resolutions: as it was
    /// written before W-206.
    pub fn of_the_version_before(store: &[u8]) -> Vec<u8> {
        let mut bytes = store[..12].to_vec();
        for record in records(store) {
            let part = &store[record.at..record.at + record.length];
            if record.code.is_none() {
                bytes.extend([78, 0, 0, 0]);
                bytes.extend(&part[4..FONT_KEPT + 64]);
            } else {
                bytes.extend(part);
            }
        }
        bytes.resize(store.len(), 0);
        bytes
    }

    /// The store with one byte changed, or its records put otherwise: mostly
    /// no store any more, sometimes another one.
    pub fn changed(&mut self, store: &[u8]) -> Vec<u8> {
        let records = records(store);
        let chance = &mut *self.chance;
        let mut bytes = store.to_vec();
        if records.is_empty() || chance.below(4) > 0 {
            let at = match (records.is_empty(), chance.below(8)) {
                (_, 0) => chance.below(12),
                (_, 1) => bytes.len() - 1 - chance.below(bytes.len().min(3)),
                (_, 2) => bytes.len() - room(store) + chance.below(8),
                (true, _) => chance.below(bytes.len()),
                (false, 3) => {
                    // Anywhere in a record, so mostly in data.
                    let record = records[chance.below(records.len())];
                    record.at + chance.below(record.length)
                }
                (false, 4) => {
                    // Where formats differ: descriptor size, format, resolutions.
                    let fonts = records.iter().filter(|record| record.code.is_none());
                    let font = chance.of(&fonts.collect::<Vec<_>>());
                    font.at + FONT_KEPT + chance.of(&[1, 2, 64, 65, 66, 67])
                }
                (false, _) => {
                    let record = records[chance.below(records.len())];
                    record.at + chance.below(record.length.min(FONT_KEPT + 44))
                }
            }
            .min(bytes.len() - 1);
            bytes[at] = match chance.below(6) {
                0 => chance.byte(),
                1 => bytes[at].wrapping_add(1),
                2 => bytes[at].wrapping_sub(1),
                3 => bytes[at] ^ (1 << chance.below(8)),
                4 => chance.of(&[2, 3, 7, 8, 16, 20, 64, 68, 128, 249, 248]),
                _ => chance.of(&[0, 1, 255]),
            };
            return bytes;
        }
        if chance.once_in(4) {
            self.change_count(&mut bytes);
            return bytes;
        }
        if chance.once_in(4) {
            self.change_format(&mut bytes);
            return bytes;
        }
        let pick = chance.below(records.len());
        let of = |record: &Record| store[record.at..record.at + record.length].to_vec();
        let mut parts: Vec<Vec<u8>> = records.iter().map(of).collect();
        match chance.below(8) {
            0 => {
                let other = chance.below(parts.len());
                parts.swap(pick, other);
            }
            1 => parts.insert(pick, parts[pick].clone()),
            2 => {
                parts.remove(pick);
            }
            3 => {
                // One data byte more than is there.
                let more = chance.byte();
                parts[pick].push(more);
                let length = parts[pick].len() as u32;
                parts[pick][..4].copy_from_slice(&length.to_le_bytes());
            }
            4 => {
                parts[pick].pop();
                let length = parts[pick].len() as u32;
                parts[pick][..4].copy_from_slice(&length.to_le_bytes());
            }
            5 => {
                // The mark on some character, complete or not.
                let record = records[pick];
                let code = record.code.unwrap_or(0);
                bytes[6..8].copy_from_slice(&1_u16.to_le_bytes());
                bytes[8..10].copy_from_slice(&(record.font as u16).to_le_bytes());
                bytes[10..12].copy_from_slice(&(code as u16).to_le_bytes());
            }
            6 if self.theme == Theme::Giants => {
                // Kept data at its limit or one byte past it, by zero runs.
                let of_character = records.iter().position(|record| record.code.is_some());
                let part = &mut parts[of_character.unwrap_or(pick)];
                part.resize(CHARACTER_RECORD + chance.of(&[32768, 32769]), 0);
                let length = part.len() as u32;
                part[..4].copy_from_slice(&length.to_le_bytes());
            }
            _ => {
                // Another length: shorter, or with zeros behind.
                let length = match chance.below(3) {
                    0 => bytes.len() - chance.below(room(store) + 2).min(bytes.len()),
                    1 => chance.below(bytes.len() + 1),
                    _ => chance.of(&[bytes.len() + 1, 65536, 65537, 70000]),
                };
                bytes.resize(length, 0);
                return bytes;
            }
        }
        // So that the records' own rules are seen to be held, not the counts alone.
        if chance.below(4) > 0 {
            make_counts_true(&mut parts);
        }
        let length = bytes.len();
        bytes.truncate(12);
        bytes.extend(parts.concat());
        bytes.resize(length, 0);
        bytes
    }
}

/// Where a reading of class 2 data is: the rows not drawn, and of the row begun
/// its count and the dots that no run has filled.
#[derive(Clone, Copy)]
pub struct Reading {
    rows_left: usize,
    row: Option<(usize, usize)>,
}

impl Reading {
    pub fn new(height: usize) -> Reading {
        Reading {
            rows_left: height,
            row: None,
        }
    }

    fn of(kept: &Kept) -> Reading {
        let mut reading = Reading::new(kept.height);
        if kept.class != 2 {
            return reading;
        }
        for &byte in kept.data {
            reading.take(kept.width, byte);
        }
        reading
    }

    /// Reads one byte more. If it is a run: the dots that its row lacked before it.
    fn take(&mut self, width: usize, byte: u8) -> Option<usize> {
        let byte = usize::from(byte);
        let Some((repeat, unfilled)) = self.row else {
            self.row = Some((byte, width));
            return None;
        };
        if byte < unfilled {
            self.row = Some((repeat, unfilled - byte));
        } else {
            self.rows_left = self.rows_left.saturating_sub(1 + repeat);
            self.row = None;
        }
        Some(unfilled)
    }

    /// Whether a kept character's picture is complete.
    pub fn is_complete(kept: &Kept) -> bool {
        match kept.class {
            2 => Reading::of(kept).rows_left == 0,
            _ => kept.data.len() == kept.picture_bytes(),
        }
    }
}
