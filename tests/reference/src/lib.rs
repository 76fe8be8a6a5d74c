//! Marlinfold a second time, to be compared with: PCL 5 bitmap soft fonts kept
//! in one lent byte buffer, the store.
//!
//! "01" in the comments is document 01, which decides every rule. What stands
//! in quotation marks are its own words, so that each rule can be held beside
//! its passage. "02" is document 02, the requests that came later, each named by
//! its number; it amends 01. "Readings" are those of docs/DECISIONS.md: how both
//! are read where they leave a doubt; README.md has what neither settles.
//!
//! Every call takes any numbers and any buffers and answers 01's number of
//! refusal, 0 for done. None asks for memory: the store is checked once per
//! call, then looked at or changed where it lies.
#![forbid(unsafe_code)]

mod block;
mod choice;
mod dots;
mod figures;
mod profile;
mod runs;
mod salvage;
mod store;
mod stream;
mod turn;

use runs::BadRun;
use store::{Store, View};

/// 01, the table of "The calls, and what they answer".
#[derive(Clone, Copy, Debug, PartialEq, Eq)]
pub enum Refusal {
    /// "buffer not a store (for "make fresh": length not 12..65,536)"
    NotAStore = 1,
    /// "a number out of range"
    OutOfRange = 2,
    /// "block length wrong"
    BlockLength = 3,
    /// "format, descriptor size or class not taken"
    NotTaken = 4,
    /// "a field's value not allowed"
    FieldValue = 5,
    /// "no such font"
    NoFont = 6,
    /// "no such character, or a continuation not for the open character"
    NoCharacter = 7,
    /// "a run passes the row's end"
    RunPastRow = 8,
    /// "character too large"
    TooLarge = 9,
    /// "no room"
    NoRoom = 10,
    /// "no font to choose"
    NoneToChoose = 11,
    /// "output too short"
    OutputShort = 12,
    /// "stream broken"
    StreamBroken = 13,
    /// 02, W-207: "outside the profile"
    OutsideProfile = 14,
}

/// Why a character block is refused: 02, W-209, with the numbers of the run for 8.
#[derive(Clone, Copy)]
enum Refused {
    BadRun(BadRun),
    For(Refusal),
}

impl From<BadRun> for Refused {
    fn from(bad: BadRun) -> Refused {
        Refused::BadRun(bad)
    }
}

impl From<Refusal> for Refused {
    fn from(refusal: Refusal) -> Refused {
        Refused::For(refusal)
    }
}

/// What downloading a character answers: 02, W-209, for 8 "the picture row being read,
/// counted from 0 with repeats, the dots already filled and the run that didn't fit",
/// "and 0 for all three otherwise".
#[derive(Clone, Copy, Debug, Default, PartialEq, Eq)]
pub struct Downloaded {
    pub refusal: u32,
    pub row: u32,
    pub filled: u32,
    pub run: u32,
}

/// What choosing answers: the font number.
#[derive(Clone, Copy, Debug, Default, PartialEq, Eq)]
pub struct Chosen {
    pub refusal: u32,
    pub font: u32,
}

/// What choosing from two stores answers: the font number, and (02, W-208) "which
/// store that is (1 soft, 2 cartridge)" that holds it and its record's place there.
#[derive(Clone, Copy, Debug, Default, PartialEq, Eq)]
pub struct ChosenRecord {
    pub refusal: u32,
    pub font: u32,
    pub which: u32,
    pub place: u64,
}

/// What telling answers: "the number of characters or of data bytes".
#[derive(Clone, Copy, Debug, Default, PartialEq, Eq)]
pub struct Told {
    pub refusal: u32,
    pub count: u32,
}

/// What writing a font answers: the stream's length.
#[derive(Clone, Copy, Debug, Default, PartialEq, Eq)]
pub struct Written {
    pub refusal: u32,
    pub length: u32,
}

/// What a check of the profile answers: 02, W-207, "the first broken rule, [..] and
/// the lowest code that breaks it".
#[derive(Clone, Copy, Debug, Default, PartialEq, Eq)]
pub struct Profile {
    pub refusal: u32,
    pub rule: u32,
    pub code: u32,
}

/// What reading a stream answers: "commands done, commands refused"; for 13
/// also its place, which is 0 otherwise; and (02, W-209) a character download's three
/// numbers "for its first such refusal", the first of its commands refused with 8.
#[derive(Clone, Copy, Debug, Default, PartialEq, Eq)]
pub struct StreamRead {
    pub refusal: u32,
    pub done: u64,
    pub refused: u64,
    pub place: u64,
    pub row: u32,
    pub filled: u32,
    pub run: u32,
}

/// What a salvage reading answers: 02, W-212, "the number of stretches and the commands
/// done and refused over the whole reading".
#[derive(Clone, Copy, Debug, Default, PartialEq, Eq)]
pub struct Salvaged {
    pub refusal: u32,
    pub stretches: u64,
    pub done: u64,
    pub refused: u64,
}

/// What choosing is asked (01, "Choosing"). The pitch is in hundredths of a
/// character per inch, the height in hundredths of a point.
///
/// 02, W-201: "A record holds the request's numbers in document 01's order, ones
/// added later last; an answer is the font number, then the refusal number; all
/// of 32 bits." Both lie as in C, so that one list can be lent to either side.
#[repr(C)]
#[derive(Clone, Copy, Debug, Default, PartialEq, Eq)]
pub struct Request {
    pub symbol_set: u32,
    pub spacing: u32,
    pub pitch: u32,
    pub height: u32,
    pub style: u32,
    pub weight: i32,
    pub typeface: u32,
    pub orientation: u32,
    /// 02, W-206: the printer's dots to the inch.
    pub mode: u32,
}

/// What one request of a sheet gets.
#[repr(C)]
#[derive(Clone, Copy, Debug, Default, PartialEq, Eq)]
pub struct Answer {
    pub font: u32,
    pub refusal: u32,
}

/// "A call with no answer named here answers only 0."
fn number(result: Result<(), Refusal>) -> u32 {
    match result {
        Ok(()) => 0,
        Err(refusal) => refusal as u32,
    }
}

/// Whether a buffer is a store. No call of 01's list, but what its refusal 1
/// rests on.
pub fn is_store(buffer: &[u8]) -> bool {
    View::of(buffer).is_ok()
}

pub fn make_fresh(store: &mut [u8]) -> u32 {
    number(store::make_fresh(store))
}

pub fn download_font(store: &mut [u8], block: &[u8], font: u32) -> u32 {
    number(Store::of(store).and_then(|mut store| store.download_font(block, font)))
}

pub fn download_character(store: &mut [u8], block: &[u8], font: u32, code: u32) -> Downloaded {
    let result = Store::of(store)
        .map_err(Refused::from)
        .and_then(|mut store| store.download_character(block, font, code));
    match result {
        Ok(()) => Downloaded::default(),
        Err(Refused::BadRun(BadRun { row, filled, run })) => Downloaded {
            refusal: Refusal::RunPastRow as u32,
            row,
            filled,
            run,
        },
        Err(Refused::For(refusal)) => Downloaded {
            refusal: refusal as u32,
            ..Downloaded::default()
        },
    }
}

pub fn remove_font(store: &mut [u8], font: u32) -> u32 {
    number(Store::of(store).and_then(|mut store| store.remove_font(font)))
}

pub fn remove_character(store: &mut [u8], font: u32, code: u32) -> u32 {
    number(Store::of(store).and_then(|mut store| store.remove_character(font, code)))
}

pub fn choose(store: &[u8], request: &Request) -> Chosen {
    match View::of(store).and_then(|view| choice::choose(&view, request)) {
        Ok(font) => Chosen { refusal: 0, font },
        Err(refusal) => Chosen {
            refusal: refusal as u32,
            font: 0,
        },
    }
}

pub fn choose_sheet(store: &[u8], requests: &[Request], answers: &mut [Answer]) -> u32 {
    number(View::of(store).and_then(|view| choice::choose_sheet(&view, requests, answers)))
}

/// Both may be one buffer.
pub fn choose_from_two(soft: &[u8], cartridge: &[u8], request: &Request) -> ChosenRecord {
    let views = View::of(soft).and_then(|soft| Ok((soft, View::of(cartridge)?)));
    match views.and_then(|(soft, cartridge)| choice::choose_from_two(&soft, &cartridge, request)) {
        Ok(best) => ChosenRecord {
            refusal: 0,
            font: best.font,
            which: best.which,
            place: best.at as u64,
        },
        Err(refusal) => ChosenRecord {
            refusal: refusal as u32,
            ..ChosenRecord::default()
        },
    }
}

pub fn tell_font(store: &[u8], out: &mut [u8], font: u32) -> Told {
    told(View::of(store).and_then(|view| view.tell_font(out, font)))
}

pub fn tell_character(store: &[u8], out: &mut [u8], font: u32, code: u32) -> Told {
    told(View::of(store).and_then(|view| view.tell_character(out, font, code)))
}

fn told(result: Result<u32, Refusal>) -> Told {
    match result {
        Ok(count) => Told { refusal: 0, count },
        Err(refusal) => Told {
            refusal: refusal as u32,
            count: 0,
        },
    }
}

pub fn draw_row(store: &[u8], out: &mut [u8], font: u32, code: u32, row: u32) -> u32 {
    number(View::of(store).and_then(|view| view.draw_row(out, font, code, row)))
}

pub fn draw_picture(store: &[u8], out: &mut [u8], font: u32, code: u32) -> u32 {
    number(View::of(store).and_then(|view| view.draw_picture(out, font, code)))
}

pub fn write_font(store: &[u8], out: &mut [u8], font: u32) -> Written {
    written(View::of(store).and_then(|view| stream::write_font(&view, out, font)))
}

pub fn check_profile(store: &[u8], font: u32) -> Profile {
    match View::of(store).and_then(|view| profile::check_profile(&view, font)) {
        Ok(broken) => Profile {
            refusal: 0,
            rule: broken.rule,
            code: broken.code,
        },
        Err(refusal) => Profile {
            refusal: refusal as u32,
            ..Profile::default()
        },
    }
}

pub fn write_profiled(store: &[u8], out: &mut [u8], font: u32) -> Written {
    written(View::of(store).and_then(|view| profile::write_profiled(&view, out, font)))
}

fn written(result: Result<u32, Refusal>) -> Written {
    match result {
        Ok(length) => Written { refusal: 0, length },
        Err(refusal) => Written {
            refusal: refusal as u32,
            length: 0,
        },
    }
}

pub fn read_stream(store: &mut [u8], stream: &[u8]) -> StreamRead {
    match Store::of(store) {
        Ok(store) => stream::read_stream(store, stream),
        Err(refusal) => StreamRead {
            refusal: refusal as u32,
            ..StreamRead::default()
        },
    }
}

pub fn salvage_stream(store: &mut [u8], stream: &[u8], list: &mut [u8]) -> Salvaged {
    match Store::of(store).and_then(|store| salvage::salvage_stream(store, stream, list)) {
        Ok(salvaged) => salvaged,
        Err(refusal) => Salvaged {
            refusal: refusal as u32,
            ..Salvaged::default()
        },
    }
}

pub fn add_figures(store: &[u8], figures: &mut [u8]) -> u32 {
    number(View::of(store).and_then(|view| figures::add_figures(&view, figures)))
}

pub fn turn_picture(picture: &[u8], out: &mut [u8], width: u32, height: u32, turn: u32) -> u32 {
    number(turn::turn_picture(picture, out, width, height, turn))
}
