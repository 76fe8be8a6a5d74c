//! The named inputs, each in a store of 4, 16 and 64 KiB.

use crate::calls::{Call, Sheet};
use marlinfold_reference::{self as reference, Request};

/// A call with all that it needs, at one size.
pub struct Input {
    pub store: Vec<u8>,
    pub call: Call,
    /// A block, a stream or a second store.
    pub given: Vec<u8>,
    pub out: usize,
    /// It has a run past the width, in a block or in some of a stream's (W-209).
    pub bad: bool,
}

/// A name, and its input for a store of a length.
pub type Named = (&'static str, fn(usize) -> Input);

pub const INPUTS: [Named; 58] = [
    ("choose, store full of fonts", choose_among_fonts),
    ("choose in mode 600, 600 dpi fonts", choose_among_fine_fonts),
    ("choose in mode 600, both mixed", choose_among_mixed_fonts),
    ("choose, class 2 characters kept", choose_beside_runs),
    ("choose, class 1 characters kept", choose_beside_dots),
    ("choose, store nearly empty", choose_nearly_empty),
    ("choose from two, both full of fonts", from_two_full),
    ("choose from two, the cartridge's last", from_two_last),
    (
        "choose from two, class 2 in cartridge",
        from_two_beside_runs,
    ),
    ("choose from two, both nearly empty", from_two_nearly_empty),
    ("sheet of 64, store full of fonts", sheet_among_fonts),
    ("64 choices, store full of fonts", each_among_fonts),
    ("sheet of 64, class 2 characters kept", sheet_beside_runs),
    ("64 choices, class 2 characters kept", each_beside_runs),
    ("make fresh", make_fresh),
    ("font at the front of a full store", font_at_the_front),
    ("font in place of a full one", font_replaced),
    (
        "character at the front of a full font",
        character_at_the_front,
    ),
    ("large class 2 first block", large_first_block),
    ("large class 2 continuation", large_continuation),
    ("large class 2 block, its last run bad", large_bad_block),
    ("remove the first of many fonts", remove_first_font),
    (
        "remove the first of many characters",
        remove_first_character,
    ),
    ("tell the last of many fonts", tell_last_font),
    ("tell the last of many characters", tell_last_character),
    ("tell a font of 224 characters", tell_font_of_224),
    ("list ten fonts of characters", list_ten_fonts),
    ("check many small characters", check_small_characters),
    ("draw a class 2 picture", draw_runs),
    ("draw a class 1 picture", draw_dots),
    ("draw the last row, class 2", draw_last_row),
    ("write a full font", write_full_font),
    ("check the profile, 224 of class 1", |length| {
        check_profile(length, 1)
    }),
    ("check the profile, 224 of class 2", |length| {
        check_profile(length, 2)
    }),
    ("write a profiled font of 224", write_profiled),
    ("read a stream of rising fonts", read_fonts),
    ("read a stream of characters", read_characters),
    ("read a stream of characters, half bad", read_half_bad),
    ("read a stream of falling fonts", read_falling_fonts),
    ("read a stream of continuations", read_continuations),
    ("salvage, a stream of rising fonts", |length| {
        salvage(length, read_fonts(length).given)
    }),
    ("salvage, a stream of characters", |length| {
        salvage(length, read_characters(length).given)
    }),
    ("salvage, torn at 100 places", salvage_torn),
    ("salvage, any bytes", |length| {
        let mut varied = Varied(212);
        let stream = (0..skipped(length)).map(|_| varied.byte()).collect();
        salvage(length, stream)
    }),
    ("salvage, ESC bytes alone", |length| {
        salvage(length, vec![0x1B; skipped(length)])
    }),
    ("salvage, ESC *c repeated", |length| {
        salvage(length, b"\x1b*c".repeat(skipped(length) / 3))
    }),
    ("figures, many small of class 1", |length| {
        figures(many(length, 1, 5, 2))
    }),
    ("figures, 20 x 25 of class 1", |length| {
        figures(many(length, 1, 20, 25))
    }),
    ("figures, two large of class 1", |length| {
        figures(two_large(length, 1))
    }),
    ("figures, many small of class 2", |length| {
        figures(many(length, 2, 5, 2))
    }),
    ("figures, 20 x 25 of class 2", |length| {
        figures(many(length, 2, 20, 25))
    }),
    ("figures, two large of class 2", |length| {
        figures(two_large(length, 2))
    }),
    ("turn 1024 x 256 dots by a quarter", |length| {
        turn(1024, 256, 1, length)
    }),
    ("turn 1024 x 256 dots by a half", |length| {
        turn(1024, 256, 2, length)
    }),
    ("turn 1024 x 256 dots by three quarters", |length| {
        turn(1024, 256, 3, length)
    }),
    ("turn 300 x 3000 dots by a quarter", |length| {
        turn(300, 3000, 1, length)
    }),
    ("turn 300 x 3000 dots by a half", |length| {
        turn(300, 3000, 2, length)
    }),
    ("turn 300 x 3000 dots by three quarters", |length| {
        turn(300, 3000, 3, length)
    }),
];

/// The bytes that a font's and a character's record take beside data, and those
/// before the first.
const FONT_RECORD: usize = 82;
/// What telling a font copies.
const KEPT: usize = 68;
const CHARACTER_RECORD: usize = 26;
const MARK_RECORD: usize = 12;

const REQUEST: Request = Request {
    symbol_set: 277,
    spacing: 0,
    pitch: 1000,
    height: 1200,
    style: 0,
    weight: 2,
    typeface: 3,
    orientation: 0,
    mode: 300,
};

/// Requests that vary as the fonts do, so that they get many of them.
static SHEET: Sheet = {
    let mut sheet = [REQUEST; 64];
    let mut at = 0;
    while at < sheet.len() {
        let number = at as u32;
        sheet[at].symbol_set = if number % 7 == 6 { 341 } else { 277 };
        sheet[at].pitch = 1000 + number % 3 * 10;
        sheet[at].height = 1200 + number % 5 * 30;
        sheet[at].weight = (number % 15) as i32 - 7;
        sheet[at].typeface = number % 4;
        at += 1;
    }
    sheet
};

/// The bytes of its answers.
const SHEET_OUT: usize = 8 * 64;

/// A header whose fields vary with its number, so that choosing must look.
fn header(number: usize) -> Vec<u8> {
    let mut block = vec![0; 64];
    block[1] = 64;
    block[7] = 35;
    block[9] = 30;
    block[11] = 50;
    block[14..16].copy_from_slice(&(if number % 7 == 6 { 341_u16 } else { 277 }).to_be_bytes());
    block[16..18].copy_from_slice(&(120 - (number % 3) as u16).to_be_bytes());
    block[18..20].copy_from_slice(&(200 + (number % 5) as u16).to_be_bytes());
    block[24] = (number % 8) as u8;
    block[25] = (number % 4) as u8;
    block[40] = (number % 2 * 150) as u8;
    block[41] = (number % 2 * 100) as u8;
    block
}

/// The same as a format 20 header of a font of 600 dots to the inch, as large.
fn fine_header(number: usize) -> Vec<u8> {
    let mut block = header(number);
    block[1] = 68;
    block[2] = 20;
    for (field, extended) in [(16, 40), (18, 41)] {
        let number = u16::from_be_bytes([block[field], block[field + 1]]);
        let twice = 2 * (256 * u32::from(number) + u32::from(block[extended]));
        block[field..field + 2].copy_from_slice(&((twice / 256) as u16).to_be_bytes());
        block[extended] = (twice % 256) as u8;
    }
    block.extend([600_u16.to_be_bytes(); 2].concat());
    block
}

fn first_block(class: u8, width: usize, height: usize, data: &[u8]) -> Vec<u8> {
    let mut block = vec![4, 0, 14, class, 0, 0, 0, 2, 0, 22];
    block.extend((width as u16).to_be_bytes());
    block.extend((height as u16).to_be_bytes());
    block.extend([0, 120]);
    block.extend(data);
    block
}

/// Rows of letter-like runs: strokes of 3 dots up to, not including, `longest`.
fn runs(width: usize, height: usize, longest: usize) -> Vec<u8> {
    let mut turn = 0;
    let row = |_| {
        // No repeats.
        let mut row = vec![0];
        let mut left = width;
        while left > 0 {
            turn = (turn * 5 + 7) % 1021;
            let run = (3 + turn % (longest - 3)).min(left);
            row.push(run as u8);
            left -= run;
        }
        row
    };
    (0..height).flat_map(row).collect()
}

fn fresh(length: usize) -> Vec<u8> {
    let mut store = vec![0; length];
    assert_eq!(reference::make_fresh(&mut store), 0);
    store
}

/// A character block that is done.
fn put_character(store: &mut [u8], block: &[u8], font: u32, code: u32) {
    let answer = reference::download_character(store, block, font, code);
    assert_eq!(answer, reference::Downloaded::default());
}

/// Fonts 1, 2, .. as long as `spare` bytes are left.
fn full_of_fonts(length: usize, spare: usize) -> (Vec<u8>, usize) {
    full_of(header, length, spare)
}

fn full_of(header: impl Fn(usize) -> Vec<u8>, length: usize, spare: usize) -> (Vec<u8>, usize) {
    let mut store = fresh(length);
    let fonts = (length - MARK_RECORD - spare) / FONT_RECORD;
    for number in 1..=fonts {
        let block = header(number);
        assert_eq!(
            reference::download_font(&mut store, &block, number as u32),
            0
        );
    }
    (store, fonts)
}

/// Font 5 with characters of codes 1, 2, .. as long as `spare` bytes are left.
fn full_of_characters(length: usize, spare: usize, class: u8) -> (Vec<u8>, u32) {
    at_most(255, length, spare, class)
}

/// The same with fewer codes.
fn at_most(most: usize, length: usize, spare: usize, class: u8) -> (Vec<u8>, u32) {
    let mut store = fresh(length);
    assert_eq!(reference::download_font(&mut store, &header(1), 5), 0);
    // 255 codes fill a store of 64 KiB; fewer, as large, a smaller one.
    let data = match class {
        1 => vec![0x5A; 224],
        _ => runs(96, 20, 17),
    };
    let (width, height) = if class == 1 { (64, 28) } else { (96, 20) };
    let block = first_block(class, width, height, &data);
    let record = CHARACTER_RECORD + data.len();
    let room = length - MARK_RECORD - FONT_RECORD - spare;
    let codes = (room / record).min(most) as u32;
    for code in 1..=codes {
        put_character(&mut store, &block, 5, code);
    }
    (store, codes)
}

/// Ten fonts, and class 2 characters of codes 1, 2, .. in each of them in turn, as
/// long as they fit: 60 KB of them in 64 KiB.
fn fonts_with_runs(length: usize) -> Vec<u8> {
    let data = runs(96, 20, 17);
    ten_fonts(length, &first_block(2, 96, 20, &data))
}

/// Ten fonts with as many characters of this block as fit.
fn ten_fonts(length: usize, block: &[u8]) -> Vec<u8> {
    let mut store = fresh(length);
    for number in 1..=10 {
        let block = header(number);
        assert_eq!(
            reference::download_font(&mut store, &block, number as u32),
            0
        );
    }
    let record = CHARACTER_RECORD + block.len() - 16;
    let characters = (length - MARK_RECORD - 10 * FONT_RECORD) / record;
    for at in 0..characters as u32 {
        let (font, code) = (1 + at % 10, 1 + at / 10);
        put_character(&mut store, block, font, code);
    }
    store
}

fn input(store: Vec<u8>, call: Call) -> Input {
    Input {
        store,
        call,
        given: Vec::new(),
        out: 0,
        bad: false,
    }
}

fn choose_among_fonts(length: usize) -> Input {
    // 790 fonts in 64 KiB.
    input(full_of_fonts(length, length / 100).0, Call::Choose(REQUEST))
}

const FINE: Request = Request {
    mode: 600,
    ..REQUEST
};

fn choose_among_fine_fonts(length: usize) -> Input {
    let store = full_of(fine_header, length, length / 100).0;
    input(store, Call::Choose(FINE))
}

/// Each third font of 300 dots to the inch.
fn choose_among_mixed_fonts(length: usize) -> Input {
    let mixed = |number| match number % 3 {
        0 => header(number),
        _ => fine_header(number),
    };
    let store = full_of(mixed, length, length / 100).0;
    input(store, Call::Choose(FINE))
}

fn choose_beside_runs(length: usize) -> Input {
    input(full_of_characters(length, 0, 2).0, Call::Choose(REQUEST))
}

fn choose_beside_dots(length: usize) -> Input {
    input(full_of_characters(length, 0, 1).0, Call::Choose(REQUEST))
}

fn choose_nearly_empty(length: usize) -> Input {
    let mut store = fresh(length);
    reference::download_font(&mut store, &header(1), 5);
    input(store, Call::Choose(REQUEST))
}

fn from_two(soft: Vec<u8>, cartridge: Vec<u8>) -> Input {
    Input {
        given: cartridge,
        ..input(soft, Call::ChooseFromTwo(REQUEST))
    }
}

/// The same fonts in both, so that a soft one goes before the cartridge's.
fn from_two_full(length: usize) -> Input {
    let store = full_of_fonts(length, length / 100).0;
    from_two(store.clone(), store)
}

/// The same, but the cartridge's last font is the only one with all that is asked for.
fn from_two_last(length: usize) -> Input {
    let (soft, fonts) = full_of_fonts(length, length / 100);
    let mut cartridge = soft.clone();
    let mut best = header(0);
    best[24] = REQUEST.weight as u8;
    best[25] = REQUEST.typeface as u8;
    let last = reference::download_font(&mut cartridge, &best, fonts as u32);
    assert_eq!(last, 0);
    from_two(soft, cartridge)
}

fn from_two_beside_runs(length: usize) -> Input {
    let soft = full_of_fonts(length, length / 100).0;
    from_two(soft, full_of_characters(length, 0, 2).0)
}

fn from_two_nearly_empty(length: usize) -> Input {
    let nearly_empty = |number| {
        let mut store = fresh(length);
        reference::download_font(&mut store, &header(number), 5);
        store
    };
    from_two(nearly_empty(1), nearly_empty(2))
}

fn sheet(store: Vec<u8>, call: Call) -> Input {
    Input {
        out: SHEET_OUT,
        ..input(store, call)
    }
}

fn sheet_among_fonts(length: usize) -> Input {
    let store = full_of_fonts(length, length / 100).0;
    sheet(store, Call::ChooseSheet(&SHEET))
}

fn each_among_fonts(length: usize) -> Input {
    let store = full_of_fonts(length, length / 100).0;
    sheet(store, Call::ChooseEach(&SHEET))
}

fn sheet_beside_runs(length: usize) -> Input {
    sheet(fonts_with_runs(length), Call::ChooseSheet(&SHEET))
}

fn each_beside_runs(length: usize) -> Input {
    sheet(fonts_with_runs(length), Call::ChooseEach(&SHEET))
}

fn make_fresh(length: usize) -> Input {
    input(full_of_fonts(length, 0).0, Call::MakeFresh)
}

fn font_at_the_front(length: usize) -> Input {
    Input {
        given: header(2),
        ..input(
            full_of_fonts(length, FONT_RECORD).0,
            Call::DownloadFont { font: 0 },
        )
    }
}

fn font_replaced(length: usize) -> Input {
    let store = full_of_characters(length, 0, 1).0;
    Input {
        given: header(2),
        ..input(store, Call::DownloadFont { font: 5 })
    }
}

fn character_at_the_front(length: usize) -> Input {
    let store = full_of_characters(length, 250, 1).0;
    Input {
        given: first_block(1, 64, 28, &[0xA5; 224]),
        ..input(store, Call::DownloadCharacter { font: 5, code: 0 })
    }
}

/// A class 2 character that takes about half the store.
fn large(length: usize) -> (usize, usize, Vec<u8>) {
    let mut height = 1;
    while runs(1024, height + 1, 10).len() < length / 2 - 200 {
        height += 1;
    }
    (1024, height, runs(1024, height, 10))
}

fn large_first_block(length: usize) -> Input {
    let (width, height, data) = large(length);
    let mut store = fresh(length);
    reference::download_font(&mut store, &header(1), 5);
    Input {
        given: first_block(2, width, height, &data),
        ..input(store, Call::DownloadCharacter { font: 5, code: 65 })
    }
}

fn large_continuation(length: usize) -> Input {
    let (width, height, data) = large(length);
    let mut store = fresh(length);
    reference::download_font(&mut store, &header(1), 5);
    let (head, rest) = data.split_at(data.len() / 2);
    let block = first_block(2, width, height, head);
    put_character(&mut store, &block, 5, 65);
    Input {
        given: [&[4, 1], rest].concat(),
        ..input(store, Call::DownloadCharacter { font: 5, code: 65 })
    }
}

/// The last run, and with it its row, one dot too long.
fn spoilt(mut block: Vec<u8>) -> Vec<u8> {
    *block.last_mut().expect("a run") += 1;
    block
}

fn large_bad_block(length: usize) -> Input {
    let good = large_first_block(length);
    Input {
        given: spoilt(good.given),
        bad: true,
        ..good
    }
}

fn remove_first_font(length: usize) -> Input {
    input(full_of_fonts(length, 0).0, Call::RemoveFont { font: 1 })
}

fn remove_first_character(length: usize) -> Input {
    let store = full_of_characters(length, 0, 1).0;
    input(store, Call::RemoveCharacter { font: 5, code: 1 })
}

fn tell_last_font(length: usize) -> Input {
    let (store, fonts) = full_of_fonts(length, 0);
    Input {
        out: KEPT,
        ..input(store, Call::TellFont { font: fonts as u32 })
    }
}

fn tell_last_character(length: usize) -> Input {
    let (store, codes) = full_of_characters(length, 0, 1);
    Input {
        out: 16,
        ..input(
            store,
            Call::TellCharacter {
                font: 5,
                code: codes,
            },
        )
    }
}

/// 224 at 64 KiB, of 250 bytes with their records; as many as fit at less.
fn tell_font_of_224(length: usize) -> Input {
    Input {
        out: KEPT,
        ..input(at_most(224, length, 0, 1).0, Call::TellFont { font: 5 })
    }
}

/// A listing: each font of the store told.
fn list_ten_fonts(length: usize) -> Input {
    let store = ten_fonts(length, &first_block(1, 64, 28, &[0x5A; 224]));
    Input {
        out: KEPT,
        ..input(store, Call::TellEach { fonts: 10 })
    }
}

/// 2,396 characters of one byte in 64 KiB: telling the first font is nearly all check.
fn check_small_characters(length: usize) -> Input {
    let store = ten_fonts(length, &first_block(1, 8, 1, &[0x5A]));
    Input {
        out: KEPT,
        ..input(store, Call::TellFont { font: 1 })
    }
}

/// A picture 1024 dots wide, of 256 rows in 64 KiB.
fn picture(length: usize, class: u8) -> (Vec<u8>, usize) {
    let height = length / 256;
    let mut store = fresh(length);
    reference::download_font(&mut store, &header(1), 5);
    // In few enough bytes: strokes of 12 dots, and then of 30.
    let data: Vec<u8> = match class {
        1 => (0..128 * height).map(|at| at as u8).collect(),
        _ => {
            let row: Vec<u8> = std::iter::once(0)
                .chain((0..24).flat_map(|_| [12, 30]))
                .chain([8, 8])
                .collect();
            assert_eq!(
                row[1..].iter().map(|&run| u32::from(run)).sum::<u32>(),
                1024
            );
            row.repeat(height)
        }
    };
    let mut sent = data.len().min(32_751);
    let block = first_block(class, 1024, height, &data[..sent]);
    put_character(&mut store, &block, 5, 65);
    if sent < data.len() {
        let block = [&[4, 1], &data[sent..]].concat();
        put_character(&mut store, &block, 5, 65);
        sent = data.len();
    }
    assert_eq!(sent, data.len());
    (store, height)
}

fn draw_runs(length: usize) -> Input {
    let (store, height) = picture(length, 2);
    Input {
        out: 128 * height,
        ..input(store, Call::DrawPicture { font: 5, code: 65 })
    }
}

fn draw_dots(length: usize) -> Input {
    let (store, height) = picture(length, 1);
    Input {
        out: 128 * height,
        ..input(store, Call::DrawPicture { font: 5, code: 65 })
    }
}

fn draw_last_row(length: usize) -> Input {
    let (store, height) = picture(length, 2);
    let call = Call::DrawRow {
        font: 5,
        code: 65,
        row: height as u32 - 1,
    };
    Input {
        out: 128,
        ..input(store, call)
    }
}

fn write_full_font(length: usize) -> Input {
    let (store, _) = full_of_characters(length, 0, 1);
    Input {
        out: length + 2048,
        ..input(store, Call::WriteFont { font: 5 })
    }
}

/// Font 5 with codes from 32 on, complete and within the profile, that fill the store:
/// 224 of them, at 4 KiB the 96 that it needs.
fn profiled(length: usize, class: u8) -> Vec<u8> {
    let mut store = fresh(length);
    let room = length - MARK_RECORD - FONT_RECORD;
    let codes = if length > 8192 { 224 } else { 96 };
    let most = room / codes - CHARACTER_RECORD;
    // Cells of 30 x 50 dots at left offset 2.
    let width = if most < 150 { 8 } else { 24 };
    let data = |height: usize| match class {
        1 => vec![0x5A; width / 8 * height],
        _ => runs(width, height, 10),
    };
    let fits = |height: &usize| data(*height).len() <= most;
    let height = (1..=50).rev().find(fits).expect("a row that fits");
    let block = first_block(class, width, height, &data(height));
    // Pitch 120, as the characters' delta X.
    assert_eq!(reference::download_font(&mut store, &header(3), 5), 0);
    for code in 32..32 + codes as u32 {
        put_character(&mut store, &block, 5, code);
    }
    assert_eq!(
        reference::check_profile(&store, 5),
        reference::Profile::default()
    );
    store
}

fn check_profile(length: usize, class: u8) -> Input {
    input(profiled(length, class), Call::CheckProfile { font: 5 })
}

fn write_profiled(length: usize) -> Input {
    Input {
        out: length + 2048,
        ..input(profiled(length, 1), Call::WriteProfiled { font: 5 })
    }
}

fn stream_of_fonts(fonts: impl Iterator<Item = usize>) -> Vec<u8> {
    let mut stream = Vec::new();
    for number in fonts {
        stream.extend(format!("\x1b*c{number}D\x1b)s64W").bytes());
        stream.extend(header(number));
    }
    stream
}

/// As many fonts as the store takes.
fn fonts_in_a_stream(length: usize) -> usize {
    (length - MARK_RECORD) / FONT_RECORD
}

fn read_fonts(length: usize) -> Input {
    Input {
        given: stream_of_fonts(1..=fonts_in_a_stream(length)),
        ..input(fresh(length), Call::ReadStream)
    }
}

fn read_falling_fonts(length: usize) -> Input {
    Input {
        given: stream_of_fonts((1..=fonts_in_a_stream(length)).rev()),
        ..input(fresh(length), Call::ReadStream)
    }
}

fn read_characters(length: usize) -> Input {
    let (store, _) = full_of_characters(length, 0, 2);
    let mut stream = vec![0; length + 2048];
    let written = reference::write_font(&store, &mut stream, 5);
    stream.truncate(written.length as usize);
    Input {
        given: stream,
        ..input(fresh(length), Call::ReadStream)
    }
}

/// The same characters, each second with a last run that doesn't fit.
fn read_half_bad(length: usize) -> Input {
    let (_, codes) = full_of_characters(length, 0, 2);
    let good = first_block(2, 96, 20, &runs(96, 20, 17));
    let bad = spoilt(good.clone());
    let mut stream = stream_of_fonts(5..=5);
    for code in 1..=codes {
        let block = if code % 2 == 0 { &good } else { &bad };
        stream.extend(format!("\x1b*c{code}E\x1b(s{}W", block.len()).bytes());
        stream.extend(block);
    }
    Input {
        given: stream,
        bad: true,
        ..input(fresh(length), Call::ReadStream)
    }
}

/// One large class 2 character in continuations of eight data bytes.
fn read_continuations(length: usize) -> Input {
    let (width, height, data) = large(length);
    let first = first_block(2, width, height, &[]);
    let mut stream = stream_of_fonts(5..=5);
    stream.extend(format!("\x1b*c65E\x1b(s{}W", first.len()).bytes());
    stream.extend(first);
    for part in data.chunks(8) {
        stream.extend(format!("\x1b(s{}W\x04\x01", 2 + part.len()).bytes());
        stream.extend(part);
    }
    Input {
        given: stream,
        ..input(fresh(length), Call::ReadStream)
    }
}

/// A list with room for 256 stretches.
fn salvage(length: usize, stream: Vec<u8>) -> Input {
    Input {
        given: stream,
        out: 16 * 256,
        ..input(fresh(length), Call::SalvageStream)
    }
}

/// 60 KB at 64 KiB.
fn skipped(length: usize) -> usize {
    length / 16 * 15
}

/// At 64 KiB 60 KB of 200 fonts, each second torn before its third character of four; at less
/// so many fewer.
fn salvage_torn(length: usize) -> Input {
    let block = first_block(1, 16, 14, &[0x5A; 28]);
    let mut stream = Vec::new();
    for font in 0..200 * length / 65_536 {
        stream.extend(stream_of_fonts(font..=font));
        for code in 65..69 {
            let torn = font % 2 == 1 && code == 67;
            let esc = if torn { '.' } else { '\x1b' };
            stream.extend(format!("{esc}*c{code}E\x1b(s{}W", block.len()).bytes());
            stream.extend(&block);
        }
    }
    salvage(length, stream)
}

/// "14,344 lent bytes" (W-210)
const FIGURES: usize = 14_344;

fn figures(store: Vec<u8>) -> Input {
    Input {
        out: FIGURES,
        ..input(store, Call::AddFigures)
    }
}

/// Numbers that look like chance, the same each time, so that characters differ.
struct Varied(u32);

impl Varied {
    fn byte(&mut self) -> u8 {
        self.0 = self.0.wrapping_mul(1_664_525).wrapping_add(1_013_904_223);
        (self.0 >> 24) as u8
    }

    /// Data of a complete picture: of class 1 with any padding bits, of class 2 with strokes
    /// of 1 to 7 dots and no repeats.
    fn data(&mut self, class: u8, width: usize, height: usize) -> Vec<u8> {
        match class {
            1 => (0..width.div_ceil(8) * height)
                .map(|_| self.byte())
                .collect(),
            _ => (0..height).flat_map(|_| self.row(width)).collect(),
        }
    }

    fn row(&mut self, width: usize) -> Vec<u8> {
        let mut row = vec![0];
        let mut left = width;
        while left > 0 {
            let run = usize::from(1 + self.byte() % 7).min(left);
            row.push(run as u8);
            left -= run;
        }
        row
    }
}

/// Fonts of codes 0 to 255, of characters of this size, that fill the store.
fn many(length: usize, class: u8, width: usize, height: usize) -> Vec<u8> {
    let mut store = fresh(length);
    let mut varied = Varied(210);
    let mut left = length - MARK_RECORD;
    for at in 0.. {
        let (font, code) = (at / 256, at % 256);
        let header_bytes = if code == 0 { FONT_RECORD } else { 0 };
        let block = first_block(class, width, height, &varied.data(class, width, height));
        let record = header_bytes + CHARACTER_RECORD + block.len() - 16;
        if record > left {
            break;
        }
        left -= record;
        if code == 0 {
            let header = header(font as usize);
            assert_eq!(reference::download_font(&mut store, &header, font), 0);
        }
        put_character(&mut store, &block, font, code);
    }
    store
}

/// Two characters that fill the store, rows of 1017 dots, so that there is padding.
fn two_large(length: usize, class: u8) -> Vec<u8> {
    let most = (length - MARK_RECORD - FONT_RECORD) / 2 - CHARACTER_RECORD;
    let mut store = fresh(length);
    let mut varied = Varied(210);
    assert_eq!(reference::download_font(&mut store, &header(1), 5), 0);
    for code in [65, 66] {
        let mut height = 0;
        let mut data = Vec::new();
        while height < 255 {
            let row = varied.data(class, 1017, 1);
            if data.len() + row.len() > most.min(32_751) {
                break;
            }
            data.extend(row);
            height += 1;
        }
        put_character(
            &mut store,
            &first_block(class, 1017, height, &data),
            5,
            code,
        );
    }
    store
}

/// A picture of that height at 64 KiB, and of so much fewer rows at less.
fn turn(width: u32, height: u32, turn: u32, length: usize) -> Input {
    let height = height * (length / 1024) as u32 / 64;
    let (across, down) = (width.div_ceil(8), height.div_ceil(8));
    let bytes = (across * height) as usize;
    Input {
        given: (0..bytes).map(|at| (at * at / 7 + at) as u8).collect(),
        out: bytes.max((down * width) as usize),
        ..input(
            Vec::new(),
            Call::TurnPicture {
                width,
                height,
                turn,
            },
        )
    }
}
