//! W-210, "Figures for the collection": by hand from the documents, and against a slow
//! count over a list of characters, each told and drawn by the calls for that.

mod common;

use common::*;
use marlinfold_reference::*;

/// "14,344 lent bytes, zero at the start"
const FIGURES: usize = 14344;
/// A code's seven numbers, in their order.
const COUNT: usize = 0;
const DOTS: usize = 1;
const LEAST: usize = 2;
const GREATEST: usize = 3;
const SUM: usize = 4;
const MEAN: usize = 5;
const REST: usize = 6;
/// "at 65,536 bytes": 65,524 is 606 times 108 and 76 over.
const MOST: [(usize, u64); 3] = [(COUNT, 606), (DOTS, 606 * 262_144), (SUM, 606 * 32_767)];

/// The figures as numbers: the stores so far, then seven for each code.
#[derive(Clone, PartialEq)]
struct Figures {
    stores: u64,
    codes: Vec<[u64; 7]>,
}

impl Figures {
    fn zero() -> Figures {
        Figures {
            stores: 0,
            codes: vec![[0; 7]; 256],
        }
    }

    /// Of so many stores, with these seven numbers of a code.
    fn with(stores: u64, code: usize, of_code: [u64; 7]) -> Figures {
        let mut figures = Figures::zero();
        figures.stores = stores;
        figures.codes[code] = of_code;
        figures
    }

    /// "8 bytes each, low byte first"
    fn bytes(&self) -> Vec<u8> {
        let numbers = std::iter::once(&self.stores).chain(self.codes.iter().flatten());
        numbers.flat_map(|number| number.to_le_bytes()).collect()
    }
}

/// What a store does to these figures.
#[track_caller]
fn adds(store: &[u8], before: &Figures, after: &Figures) {
    let mut figures = before.bytes();
    assert_eq!(add_figures(store, &mut figures), 0);
    same(&figures, &after.bytes());
}

#[track_caller]
fn same(figures: &[u8], expected: &[u8]) {
    assert_eq!(figures.len(), expected.len());
    let differs = (0..figures.len()).find(|&at| figures[at] != expected[at]);
    if let Some(at) = differs {
        let number = at.saturating_sub(8) / 8;
        panic!("byte {at}: code {} number {}", number / 7, number % 7);
    }
}

/// That these figures are refused with 2, and unchanged.
#[track_caller]
fn refused(store: &[u8], figures: &Figures) {
    let mut bytes = figures.bytes();
    assert_eq!(add_figures(store, &mut bytes), 2);
    assert!(bytes == figures.bytes(), "changed");
}

/// A store of font 5 with this character of code 65; its delta X is 120.
fn store_of(block: &[u8]) -> Vec<u8> {
    let mut store = with_fonts(65536, &[(5, A)]);
    assert_eq!(put_character(&mut store, block, 5, 65), 0);
    store
}

fn with_delta_x(mut block: Vec<u8>, delta_x: i16) -> Vec<u8> {
    block[14..16].copy_from_slice(&delta_x.to_be_bytes());
    block
}

/// The figures of that one character.
#[track_caller]
fn one_character(block: &[u8], dots: u64) {
    let width = u64::from(u16::from_be_bytes([block[10], block[11]]));
    let figures = Figures::with(1, 65, [1, dots, width, width, 120, 120, 0]);
    adds(&store_of(block), &Figures::zero(), &figures);
}

/// "A code with no character has 0 in every figure."
#[test]
fn stores_without_characters() {
    let mut figures = Figures::zero();
    figures.stores = 1;
    adds(&fresh(12), &Figures::zero(), &figures);
    adds(
        &with_fonts(300, &[(0, A), (7, D)]),
        &Figures::zero(),
        &figures,
    );
}

/// The places of the bytes, spelled once: code 65 begins at 8 + 65 x 56.
#[test]
fn where_the_numbers_stand() {
    let block = with_delta_x(first(1, 300, 1, &[255; 38]), 0x1234);
    let mut figures = vec![0; FIGURES];
    assert_eq!(add_figures(&store_of(&block), &mut figures), 0);
    let mut expected = vec![0; FIGURES];
    expected[0] = 1;
    for (at, number) in [
        (3648, &[1, 0][..]),
        // 300 dots are 1 x 256 and 44, and so is the width.
        (3656, &[44, 1]),
        (3664, &[44, 1]),
        (3672, &[44, 1]),
        (3680, &[0x34, 0x12]),
        (3688, &[0x34, 0x12]),
        (3696, &[0, 0]),
    ] {
        expected[at..at + 2].copy_from_slice(number);
    }
    same(&figures, &expected);
}

/// Trials P10 and P11, and source document 001's example: 3 rows of 20, one of 2 + 4 + 2,
/// one of 1 + 4 + 1, 13 of 4 and 2 of 10.
#[test]
fn dots_of_the_documents_examples() {
    one_character(&first(2, 10, 3, &[1, 2, 3, 5, 0, 0, 10]), 3 + 3 + 10);
    one_character(&first(2, 300, 1, &[0, 255, 0, 45]), 0);
    let data = [
        &[2, 0, 20][..],
        &[0, 0, 2, 6, 4, 6, 2],
        &[0, 0, 1, 7, 4, 7, 1],
        &[12, 8, 4, 8],
        &[1, 5, 10, 5],
    ]
    .concat();
    assert_eq!(data.len(), 25);
    one_character(&first(2, 20, 20, &data), 60 + 8 + 6 + 52 + 20);
}

/// "bits beyond the width are drawn 0": every width of a row, all bits set.
#[test]
fn padding_is_white() {
    for width in 1..=200_u16 {
        for height in [1, 2, 7, 8, 9, 17] {
            let bytes = usize::from(width).div_ceil(8) * usize::from(height);
            let block = first(1, width, height, &vec![255; bytes]);
            one_character(&block, u64::from(width) * u64::from(height));
        }
    }
    // The rows of "padding_bits_are_drawn_0": 10, 1 + 2, 1 and no dots.
    let block = first(1, 10, 4, &[255, 255, 1, 255, 128]);
    one_character(&block, 10 + 3 + 1);
}

/// "missing bytes are white", also where the data ends within a row.
#[test]
fn rows_that_are_missing() {
    for bytes in 0..=40 {
        let block = first(1, 20, 16, &vec![255; bytes]);
        let (rows, more) = (bytes / 3, bytes % 3);
        one_character(&block, (20 * rows + 8 * more) as u64);
    }
    one_character(&first(2, 10, 3, &[]), 0);
    one_character(&first(2, 10, 3, &[0]), 0);
    // "A row unfinished at the end of data isn't drawn."
    one_character(&first(2, 10, 3, &[0, 0, 10, 7, 0, 9]), 10);
    one_character(&first(2, 10, 3, &[0, 0, 10, 7, 0, 9, 0]), 10);
    one_character(&first(2, 10, 3, &[0, 0, 10, 7, 0, 9, 0, 1]), 30);
    one_character(&first(2, 1000, 3, &[0, 0, 255, 0, 255, 0, 255, 0, 234]), 0);
}

/// "Repeats below the last row are dropped."
#[test]
fn repeats_below_the_last_row() {
    one_character(&first(2, 10, 3, &[255, 0, 10]), 30);
    one_character(&first(2, 10, 3, &[2, 0, 10]), 30);
    one_character(&first(2, 10, 3, &[0, 0, 10, 9, 4, 3, 3]), 10 + 3 + 3);
    one_character(&first(2, 1, 300, &[255, 0, 1, 255, 0, 1]), 300);
}

/// White and black take turns through long rows, runs of 0 among them.
#[test]
fn long_rows() {
    // 64 times 9 white and 7 black.
    let row = [&[1][..], &[9, 7].repeat(64)].concat();
    one_character(&first(2, 1024, 4, &row.repeat(2)), 4 * 64 * 7);
    // The same after a white run of 0: 9 black and 7 white.
    let row = [&[1, 0][..], &[9, 7].repeat(64)].concat();
    one_character(&first(2, 1024, 4, &row.repeat(2)), 4 * 64 * 9);
    // One dot at a time, a black one last.
    let row = [&[0][..], &[1; 1024]].concat();
    one_character(&first(2, 1024, 1, &row), 512);
    // Runs of 0 before all of it: "255 followed by a byte containing 0".
    let row = [&[0][..], &[0; 31], &[255, 0].repeat(64), &[64]].concat();
    one_character(&first(2, 16384, 1, &row), 16384);
    let row = [&[0][..], &[0; 30], &[255, 0].repeat(64), &[64]].concat();
    one_character(&first(2, 16384, 1, &row), 0);
}

/// The largest pictures: 262,144 dots.
#[test]
fn the_largest_pictures() {
    let row = [255, 0, 255, 0, 255, 0, 255, 0, 255, 0, 4];
    one_character(&first(2, 1024, 256, &row), 262_144);
    for (width, height) in [(1024, 256), (16384, 16), (16, 16384), (8, 16384)] {
        let bytes = usize::from(width) / 8 * usize::from(height);
        let data = vec![255; bytes];
        let (sent, rest) = data.split_at(bytes.min(32751));
        let mut store = store_of(&first(1, width, height, sent));
        if !rest.is_empty() {
            assert_eq!(put_character(&mut store, &continuation(rest), 5, 65), 0);
        }
        let wide = u64::from(width);
        let of_code = [1, 8 * bytes as u64, wide, wide, 120, 120, 0];
        adds(&store, &Figures::zero(), &Figures::with(1, 65, of_code));
    }
}

/// Three characters of code 65 in two fonts and two stores, and one of code 0.
#[test]
fn several_characters_of_a_code() {
    let mut one = with_fonts(400, &[(0, A), (32767, A)]);
    let block = with_delta_x(first(1, 12, 1, &[255, 255]), 121);
    assert_eq!(put_character(&mut one, &block, 0, 65), 0);
    let block = with_delta_x(first(1, 4, 1, &[255]), 121);
    assert_eq!(put_character(&mut one, &block, 32767, 65), 0);
    let block = with_delta_x(first(1, 1, 2, &[128, 0]), -1);
    assert_eq!(put_character(&mut one, &block, 32767, 0), 0);
    let mut other = with_fonts(200, &[(5, A)]);
    let block = with_delta_x(first(2, 30, 1, &[0, 30]), 120);
    assert_eq!(put_character(&mut other, &block, 5, 65), 0);

    // 242 is 2 x 121; a negative delta X is kept as 0.
    let mut after = Figures::with(1, 65, [2, 16, 4, 12, 242, 121, 0]);
    after.codes[0] = [1, 1, 1, 1, 0, 0, 0];
    adds(&one, &Figures::zero(), &after);
    // 362 is 3 x 120 and 2.
    let mut both = Figures::with(2, 65, [3, 16, 4, 30, 362, 120, 2]);
    both.codes[0] = after.codes[0];
    adds(&other, &after, &both);
    // In the other order.
    let first = Figures::with(1, 65, [1, 0, 30, 30, 120, 120, 0]);
    adds(&other, &Figures::zero(), &first);
    adds(&one, &first, &both);
}

/// "a least width of 0 handed in counts as none", whatever the count.
#[test]
fn a_least_width_of_0() {
    let store = store_of(&first(1, 9, 1, &[255, 255]));
    let before = Figures::with(3, 65, [2, 0, 0, 7, 0, 0, 0]);
    let after = Figures::with(4, 65, [3, 9, 9, 9, 120, 40, 0]);
    adds(&store, &before, &after);
}

/// Numbers handed in that pass the checks are taken as they are: widths beside a count
/// of 0, a sum beside it, and a mean that no sum gave.
#[test]
fn numbers_that_are_not_checked() {
    let store = store_of(&first(1, 9, 1, &[255, 255]));
    for (least, greatest, joined) in [
        (8, 0, [8, 9]),
        (10, 8, [9, 9]),
        (1, 10, [1, 10]),
        (u64::MAX, u64::MAX, [9, u64::MAX]),
        (1 << 32, 1 << 32, [9, 1 << 32]),
    ] {
        let old = [0, 5, least, greatest, 7, u64::MAX, 1 << 63];
        let new = [1, 14, joined[0], joined[1], 127, 127, 0];
        let mut before = Figures::with(1, 65, old);
        let mut after = Figures::with(2, 65, new);
        // "Codes a store lacks keep their bytes".
        for figures in [&mut before, &mut after] {
            figures.codes[64] = old;
            figures.codes[66] = [606, 0, 0, 0, 606, 9, 9];
            figures.codes[255] = [0, 0, 1, u64::MAX, 0, 0, u64::MAX];
        }
        adds(&store, &before, &after);
    }
}

/// "up to 64 stores": the 64th is taken, "the 65th store" refused, and so are figures
/// that say they have more.
#[test]
fn the_64th_and_the_65th_store() {
    let store = store_of(&first(1, 9, 1, &[255, 255]));
    let mut figures = vec![0; FIGURES];
    for stores in 1..=64 {
        assert_eq!(add_figures(&store, &mut figures), 0);
        let of_code = [stores, 9 * stores, 9, 9, 120 * stores, 120, 0];
        same(&figures, &Figures::with(stores, 65, of_code).bytes());
    }
    let full = figures.clone();
    assert_eq!(add_figures(&store, &mut figures), 2);
    same(&figures, &full);
    for stores in [64, 65, 256, 1 << 32, 1 << 56, 1 << 63, u64::MAX] {
        refused(&store, &Figures::with(stores, 65, [0; 7]));
        refused(&fresh(12), &Figures::with(stores, 65, [0; 7]));
    }
}

/// Of each number that is checked, at its bound and one above it, in a code that the store
/// has and in ones that it lacks.
#[test]
fn at_the_bounds_and_above() {
    let store = store_of(&first(1, 9, 1, &[255, 255]));
    for stores in [0, 1, 2, 40, 63] {
        for (which, most) in MOST {
            for code in [0, 64, 65, 255] {
                let mut figures = Figures::zero();
                figures.stores = stores;
                figures.codes[code][which] = stores * most;
                let mut bytes = figures.bytes();
                assert_eq!(add_figures(&store, &mut bytes), 0);
                for more in [1, 1 << 32, u64::MAX - stores * most] {
                    let mut above = figures.clone();
                    above.codes[code][which] += more;
                    refused(&store, &above);
                    refused(&fresh(12), &above);
                }
            }
        }
    }
}

/// "1, then 2 for figures of another length"
#[test]
fn other_lengths() {
    let store = store_of(&first(1, 9, 1, &[255, 255]));
    for length in [0, 1, 8, 56, 14336, 14343, 14345, 14352, 28688] {
        let mut figures = vec![0; length];
        assert_eq!(add_figures(&store, &mut figures), 2);
        assert_eq!(add_figures(&[0; 12], &mut figures), 1);
        assert!(figures.iter().all(|&byte| byte == 0));
    }
    let mut figures = vec![0; FIGURES];
    for length in [0, 11, 65537] {
        assert_eq!(add_figures(&vec![0; length], &mut figures), 1);
    }
    // Numbers out of bounds beside no store.
    let mut figures = Figures::with(65, 0, [1; 7]).bytes();
    assert_eq!(add_figures(&[0; 12], &mut figures), 1);
    same(&figures, &Figures::with(65, 0, [1; 7]).bytes());
}

/// Fonts of one character of code 65 without data, that fill a store: as many as
/// "(length - 12) / 108, rounded down".
fn full_of(length: usize, block: &[u8]) -> (Vec<u8>, u64) {
    let mut store = fresh(length);
    let record = FONT_RECORD + CHARACTER_RECORD + block.len() - 16;
    let fonts = ((length - MARK_RECORD) / record) as u32;
    for font in 0..fonts {
        assert_eq!(download_font(&mut store, &A.block(), font), 0);
        assert_eq!(put_character(&mut store, block, font, 65), 0);
    }
    (store, u64::from(fonts))
}

/// No store raises a count or a sum by more than its bound, and one may reach it; 64 of
/// them stay within what is allowed.
#[test]
fn stores_that_reach_the_bounds() {
    let block = with_delta_x(first(1, 16384, 16, &[]), 32767);
    for (length, most) in [(119, 0), (120, 1), (227, 1), (228, 2), (12 + 1080, 10)] {
        let (store, fonts) = full_of(length, &block);
        assert_eq!(fonts, most);
        let of_code = match most {
            0 => [0; 7],
            _ => [most, 0, 16384, 16384, 32767 * most, 32767, 0],
        };
        adds(&store, &Figures::zero(), &Figures::with(1, 65, of_code));
    }
    let (store, fonts) = full_of(65536, &block);
    assert_eq!(fonts, 606);
    let mut figures = vec![0; FIGURES];
    for stores in 1..=64 {
        assert_eq!(add_figures(&store, &mut figures), 0);
        let count = 606 * stores;
        let of_code = [count, 0, 16384, 16384, 32767 * count, 32767, 0];
        same(&figures, &Figures::with(stores, 65, of_code).bytes());
    }
    // All black: 550 fonts with eleven bytes of data.
    let row = [255, 0, 255, 0, 255, 0, 255, 0, 255, 0, 4];
    let (store, fonts) = full_of(65536, &first(2, 1024, 256, &row));
    assert_eq!(fonts, 550);
    let of_code = [550, 262_144 * 550, 1024, 1024, 120 * 550, 120, 0];
    adds(&store, &Figures::zero(), &Figures::with(1, 65, of_code));
}

/// A character as the calls tell and draw it.
struct Shown {
    code: u32,
    width: u64,
    delta_x: u64,
    picture: Vec<u8>,
}

/// The character of a font and a code, if it is kept.
fn shown(store: &[u8], font: u32, code: u32) -> Option<Shown> {
    let mut kept = [0; 16];
    if tell_character(store, &mut kept, font, code).refusal != 0 {
        return None;
    }
    let field = |at: usize| u64::from(u16::from_be_bytes([kept[at], kept[at + 1]]));
    let size = field(10).div_ceil(8) * field(12);
    let mut picture = vec![0; size as usize];
    assert_eq!(draw_picture(store, &mut picture, font, code), 0);
    Some(Shown {
        code,
        width: field(10),
        delta_x: field(14),
        picture,
    })
}

/// The seven numbers of a code that has these characters, each from the list alone.
fn of_code(characters: &[&Shown]) -> [u64; 7] {
    let bits = |byte: &u8| (0..8).filter(|at| byte >> at & 1 == 1).count() as u64;
    let dots = |shown: &&Shown| shown.picture.iter().map(bits).sum::<u64>();
    let widths = characters.iter().map(|shown| shown.width);
    let sum: u64 = characters.iter().map(|shown| shown.delta_x).sum();
    let count = characters.len() as u64;
    let mut numbers = [0; 7];
    numbers[COUNT] = count;
    numbers[DOTS] = characters.iter().map(dots).sum();
    numbers[LEAST] = widths.clone().min().unwrap_or(0);
    numbers[GREATEST] = widths.max().unwrap_or(0);
    numbers[SUM] = sum;
    // How often the count goes into the sum, and what is left.
    numbers[REST] = sum;
    while count > 0 && numbers[REST] >= count {
        numbers[REST] -= count;
        numbers[MEAN] += 1;
    }
    numbers
}

/// The figures "of all their characters together".
fn together(stores: u64, characters: &[Shown]) -> Figures {
    let codes = (0..256).map(|code| {
        let all = characters.iter().filter(|shown| shown.code == code);
        of_code(&all.collect::<Vec<_>>())
    });
    Figures {
        stores,
        codes: codes.collect(),
    }
}

const FONTS: [u32; 4] = [0, 5, 6, 32767];
const CODES: [u32; 6] = [0, 1, 65, 66, 254, 255];

/// Rows of runs, some of 0; the last may be cut.
fn runs(chance: &mut Chance, width: usize, height: usize) -> Vec<u8> {
    let mut data = Vec::new();
    let mut rows = 0;
    while rows < height {
        let repeats = chance.of(&[0, 0, 1, 2, 255]);
        data.push(repeats as u8);
        rows += 1 + repeats;
        let mut left = width;
        let longest = chance.of(&[1, 4, 20, 255]);
        while left > 0 {
            let run = chance.below(left.min(longest) + 1);
            data.push(run as u8);
            left -= run;
        }
    }
    data
}

fn character(chance: &mut Chance) -> Vec<u8> {
    let widest = chance.of(&[8, 24, 80, 80, 300]);
    let (width, height) = (1 + chance.below(widest), 1 + chance.below(20));
    let class = chance.of(&[1, 2]);
    let mut data = match class {
        1 => (0..width.div_ceil(8) * height)
            .map(|_| chance.byte())
            .collect(),
        _ => runs(chance, width, height),
    };
    if chance.once_in(3) {
        data.truncate(chance.below(data.len() + 1));
    }
    let block = first(class, width as u16, height as u16, &data);
    let delta_x = chance.of(&[0, 1, 119, 120, 121, 32767, -1]);
    with_delta_x(block, delta_x)
}

fn chance_store(chance: &mut Chance) -> Vec<u8> {
    let length = chance.of(&[12, 300, 4000, 20000]);
    let mut store = fresh(length);
    for _ in 0..1 + chance.below(4) {
        let font = chance.of(&FONTS);
        download_font(&mut store, &A.block(), font);
        for _ in 0..chance.below(12) {
            let before = store.clone();
            let code = chance.of(&CODES);
            if put_character(&mut store, &character(chance), font, code) == 10 {
                store = before;
            }
        }
    }
    store
}

/// "While only these calls write there, the figures after several stores equal those of
/// all their characters together, in any order of handing in".
#[test]
fn chance_collections() {
    let (mut characters, mut two_widths) = (0, 0);
    for seed in 0..120 {
        let mut chance = Chance::new(210 + seed);
        let stores: Vec<Vec<u8>> = (0..1 + chance.below(6))
            .map(|_| chance_store(&mut chance))
            .collect();
        let mut all = Vec::new();
        for store in &stores {
            for (font, code) in FONTS.iter().flat_map(|&f| CODES.map(|code| (f, code))) {
                all.extend(shown(store, font, code));
            }
        }
        let expected = together(stores.len() as u64, &all);
        characters += all.len();
        let wider = |of_code: &&[u64; 7]| of_code[LEAST] < of_code[GREATEST];
        two_widths += expected.codes.iter().filter(wider).count();
        let mut order: Vec<&Vec<u8>> = stores.iter().collect();
        for _ in 0..3 {
            let mut figures = vec![0; FIGURES];
            for store in &order {
                assert_eq!(add_figures(store, &mut figures), 0, "seed {seed}");
            }
            same(&figures, &expected.bytes());
            let (one, other) = (chance.below(order.len()), chance.below(order.len()));
            order.swap(one, other);
            order.rotate_left(1);
        }
    }
    assert!(
        characters > 1000 && two_widths > 200,
        "{characters} {two_widths}"
    );
}
