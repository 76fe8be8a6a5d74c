//! What the tests share: blocks built field by field, a small source of
//! chance, and the naive model that calls are compared with.
#![allow(dead_code)]

pub mod model;

use marlinfold_reference::*;

/// The fields of a header that the trials vary; the rest as source document
/// 004's example has it.
#[derive(Clone, Copy)]
pub struct Font {
    pub set: u16,
    pub spacing: u8,
    pub pitch: u16,
    pub height: u16,
    /// Their extended bytes, 40 and 41.
    pub extended: [u8; 2],
    pub style: u16,
    pub weight: i8,
    pub face: u16,
    pub orientation: u8,
    /// X and Y of a format 20 header (W-206), none of a format 0 one.
    pub resolutions: Option<(u16, u16)>,
}

/// 01, Trials: "A: 5, weight 0."
pub const A: Font = Font {
    set: 277,
    spacing: 0,
    pitch: 120,
    height: 200,
    extended: [0, 0],
    style: 0,
    weight: 0,
    face: 3,
    orientation: 0,
    resolutions: None,
};
/// "B: 2, weight 3."
pub const B: Font = Font { weight: 3, ..A };
/// "C: 9, as A, landscape."
pub const C: Font = Font {
    orientation: 1,
    ..A
};
/// "D: 7, set 341, proportional, height 150, face 4."
pub const D: Font = Font {
    set: 341,
    spacing: 1,
    height: 150,
    face: 4,
    ..A
};

impl Font {
    /// The same with a format 20 header of so many dots to the inch.
    pub fn dpi(self, resolution: u16) -> Font {
        Font {
            resolutions: Some((resolution, resolution)),
            ..self
        }
    }

    /// Its font block: 64 bytes in format 0, 68 in format 20.
    pub fn block(self) -> Vec<u8> {
        let mut block = self.header().to_vec();
        if let Some((x, y)) = self.resolutions {
            block[1] = 68;
            block[2] = 20;
            block.extend(x.to_be_bytes());
            block.extend(y.to_be_bytes());
        }
        block
    }

    /// What is kept of that block, if its fields are allowed and none is cut.
    pub fn kept(self) -> Vec<u8> {
        let mut kept = self.block();
        if self.resolutions.is_none() {
            kept.extend([300_u16.to_be_bytes(), 300_u16.to_be_bytes()].concat());
        }
        kept
    }

    /// Its first 64 bytes, a whole block in format 0.
    pub fn header(self) -> [u8; 64] {
        let mut header = [0; 64];
        header[0..2].copy_from_slice(&64_u16.to_be_bytes());
        header[3] = 1;
        header[4] = (self.style >> 8) as u8;
        header[6..8].copy_from_slice(&35_u16.to_be_bytes());
        header[8..10].copy_from_slice(&30_u16.to_be_bytes());
        header[10..12].copy_from_slice(&50_u16.to_be_bytes());
        header[12] = self.orientation;
        header[13] = self.spacing;
        header[14..16].copy_from_slice(&self.set.to_be_bytes());
        header[16..18].copy_from_slice(&self.pitch.to_be_bytes());
        header[18..20].copy_from_slice(&self.height.to_be_bytes());
        header[23] = self.style as u8;
        header[24] = self.weight as u8;
        header[25] = self.face as u8;
        header[26] = (self.face >> 8) as u8;
        header[40..42].copy_from_slice(&self.extended);
        header[48..58].copy_from_slice(b"Courier 10");
        header
    }
}

/// A portrait first block.
pub fn first(class: u8, width: u16, height: u16, data: &[u8]) -> Vec<u8> {
    let mut block = vec![4, 0, 14, class, 0, 0, 0, 2, 0, 22];
    block.extend(width.to_be_bytes());
    block.extend(height.to_be_bytes());
    block.extend(120_u16.to_be_bytes());
    block.extend(data);
    block
}

pub fn continuation(data: &[u8]) -> Vec<u8> {
    let mut block = vec![4, 1];
    block.extend(data);
    block
}

/// The records' lengths, of a character's without its data.
pub const MARK_RECORD: usize = 12;
pub const FONT_RECORD: usize = 82;
pub const CHARACTER_RECORD: usize = 26;
/// Where a font's record holds its numbers (W-205) and its kept bytes.
pub const FONT_COUNT: usize = 8;
pub const FONT_SUM: usize = 10;
pub const FONT_KEPT: usize = 14;
/// What telling copies.
pub const KEPT: usize = 68;
/// A store that one font fills; its characters begin here.
pub const ONE_FONT: usize = MARK_RECORD + FONT_RECORD;

pub fn fresh(length: usize) -> Vec<u8> {
    let mut store = vec![0xEE; length];
    assert_eq!(make_fresh(&mut store), 0);
    store
}

/// A fresh store with these fonts.
pub fn with_fonts(length: usize, fonts: &[(u32, Font)]) -> Vec<u8> {
    let mut store = fresh(length);
    for &(number, font) in fonts {
        assert_eq!(download_font(&mut store, &font.block(), number), 0);
    }
    store
}

/// Downloads a character block and answers its refusal. W-209's three numbers are 0 save
/// for 8, of which `rows.rs` has the tests.
pub fn put_character(store: &mut [u8], block: &[u8], font: u32, code: u32) -> u32 {
    let answer = download_character(store, block, font, code);
    if answer.refusal != 8 {
        assert_eq!((answer.row, answer.filled, answer.run), (0, 0, 0));
    }
    answer.refusal
}

/// What a font's record holds: how many characters, and the sum of their data.
pub fn held(store: &[u8], font: u32) -> (u32, u32) {
    let mut at = MARK_RECORD;
    loop {
        let length = u32::from_le_bytes(store[at..at + 4].try_into().unwrap());
        let number = u16::from_le_bytes([store[at + 6], store[at + 7]]);
        if store[at + 4] == 2 && u32::from(number) == font {
            let count = u16::from_le_bytes([store[at + FONT_COUNT], store[at + FONT_COUNT + 1]]);
            let sum = store[at + FONT_SUM..at + FONT_KEPT].try_into().unwrap();
            return (u32::from(count), u32::from_le_bytes(sum));
        }
        at += length as usize;
    }
}

/// The body of the store's first record: open mark, font number, code.
pub fn open_mark(store: &[u8]) -> [u8; 6] {
    store[6..12].try_into().unwrap()
}

pub const CLOSED: [u8; 6] = [0; 6];

/// A stream's command with a number: `ESC`, the letters, the number, the end.
pub fn command(letters: &str, number: usize, end: char) -> Vec<u8> {
    format!("\x1b{letters}{number}{end}").into_bytes()
}

pub fn font_number(number: usize) -> Vec<u8> {
    command("*c", number, 'D')
}

pub fn code(code: usize) -> Vec<u8> {
    command("*c", code, 'E')
}

pub fn font_block(block: &[u8]) -> Vec<u8> {
    [command(")s", block.len(), 'W'), block.to_vec()].concat()
}

pub fn character_block(block: &[u8]) -> Vec<u8> {
    [command("(s", block.len(), 'W'), block.to_vec()].concat()
}

/// 01, Trials: "Base request".
pub const BASE: Request = Request {
    symbol_set: 277,
    spacing: 0,
    pitch: 1000,
    height: 1200,
    style: 0,
    weight: 0,
    typeface: 3,
    orientation: 0,
    mode: 300,
};

pub fn chosen(font: u32) -> Chosen {
    Chosen { refusal: 0, font }
}

/// An answer of a sheet that nothing has written yet.
pub const UNWRITTEN: Answer = Answer {
    font: 0xAAAA_AAAA,
    refusal: 0xBBBB_BBBB,
};

/// xorshift.
pub struct Chance(u64);

impl Chance {
    pub fn new(seed: u64) -> Chance {
        Chance(seed.wrapping_mul(0x9E37_79B9_7F4A_7C15) | 1)
    }

    pub fn next(&mut self) -> u64 {
        self.0 ^= self.0 << 13;
        self.0 ^= self.0 >> 7;
        self.0 ^= self.0 << 17;
        self.0.wrapping_mul(0x2545_F491_4F6C_DD1D)
    }

    /// From 0 up to, not including, `below`.
    pub fn below(&mut self, below: usize) -> usize {
        ((self.next() >> 33) as usize) % below
    }

    pub fn once_in(&mut self, times: usize) -> bool {
        self.below(times) == 0
    }

    pub fn of<T: Copy>(&mut self, all: &[T]) -> T {
        all[self.below(all.len())]
    }

    pub fn byte(&mut self) -> u8 {
        self.next() as u8
    }
}
