//! The store: its form, what is a store, and the calls on it.
//!
//! A buffer is checked once (`View::of`, `Store::of`); everything after that
//! rests on its form and walks from record to record.

use crate::block::{self, Descriptor, Header, DESCRIPTOR, HEADER};
use crate::runs::{self, Reading, Shape};
use crate::{Refusal, Refused};

// 01, The store: "A run of records, low byte first: length of the whole record
// (4 bytes), kind (2), body."
const HEAD: usize = 6;
/// "Kind 1, once, first, 12 bytes: open mark 0 or 1, font number, code, two
/// bytes each".
const MARK_KIND: u16 = 1;
const MARK_RECORD: usize = 12;
/// "Kind 2 [..]: font number, 64 kept bytes." 02, W-205: "The font record is to
/// hold the number of its characters (2 bytes) and the sum of their kept data bytes
/// (4 bytes) after the font number"; W-206: it "grows at its end by those four
/// bytes", the resolutions, making it 82 bytes.
const FONT_KIND: u16 = 2;
const FONT_COUNT: usize = 8;
const FONT_SUM: usize = 10;
const FONT_KEPT: usize = 14;
const FONT_RECORD: usize = FONT_KEPT + HEADER;
/// "Kind 3, 26 bytes and the data: font number, code, 16 kept bytes, data."
const CHARACTER_KIND: u16 = 3;
const CHARACTER_KEPT: usize = 10;
const CHARACTER_RECORD: usize = CHARACTER_KEPT + DESCRIPTOR;

/// "A buffer is a store exactly if it is 12..65,536 long".
const STORE_MIN: usize = MARK_RECORD;
const STORE_MAX: usize = 65_536;

/// "Font numbers 0..32767, codes 0..255."
pub const FONT_MAX: u32 = 32_767;
pub const CODE_MAX: u32 = 255;

fn low16<const N: usize>(bytes: &[u8; N], at: usize) -> u16 {
    u16::from_le_bytes([bytes[at], bytes[at + 1]])
}

fn low32<const N: usize>(bytes: &[u8; N], at: usize) -> u32 {
    u32::from_le_bytes([bytes[at], bytes[at + 1], bytes[at + 2], bytes[at + 3]])
}

/// The open character, and how far its kept data brings its picture.
#[derive(Clone, Copy)]
struct Open {
    font: u32,
    code: u32,
    reading: Reading,
}

/// 02, W-205: the number of a font's characters, and the sum of their kept data
/// bytes.
#[derive(Clone, Copy, Default, PartialEq, Eq)]
struct Counts {
    characters: u16,
    data: u32,
}

impl Counts {
    /// As a font's record holds them.
    fn held(record: &[u8; FONT_RECORD]) -> Counts {
        Counts {
            characters: low16(record, FONT_COUNT),
            data: low32(record, FONT_SUM),
        }
    }

    fn write(self, record: &mut [u8]) {
        record[FONT_COUNT..FONT_SUM].copy_from_slice(&self.characters.to_le_bytes());
        record[FONT_SUM..FONT_KEPT].copy_from_slice(&self.data.to_le_bytes());
    }

    fn add(&mut self, data: usize) {
        self.characters += 1;
        self.data += data as u32;
    }

    fn take(&mut self, data: usize) {
        self.characters -= 1;
        self.data -= data as u32;
    }
}

/// The font whose records the check walks over.
struct Walked {
    font: u32,
    orientation: u8,
    held: Counts,
    /// Anew, so far.
    counted: Counts,
}

/// 02, W-205: "1 also where a held count is untrue."
fn counts_are_true(walked: &Option<Walked>) -> bool {
    match walked {
        Some(walked) => walked.held == walked.counted,
        None => true,
    }
}

/// What the check of a buffer finds: where its records end, and the open
/// character.
struct Form {
    used: usize,
    open: Option<Open>,
}

/// 01, The store: "A buffer is a store exactly if it is 12..65,536 long, has
/// this form, numbers are in range, every kept field is as the rules above
/// leave it, every character could have been accepted, and the open mark names
/// a kept, incomplete character."
fn check(bytes: &[u8]) -> Result<Form, Refusal> {
    form_of(bytes).ok_or(Refusal::NotAStore)
}

fn form_of(bytes: &[u8]) -> Option<Form> {
    if !(STORE_MIN..=STORE_MAX).contains(&bytes.len()) {
        return None;
    }
    let (mark, mut rest) = bytes.split_first_chunk::<MARK_RECORD>()?;
    if low32(mark, 0) != MARK_RECORD as u32 || low16(mark, 4) != MARK_KIND {
        return None;
    }
    // "open mark 0 or 1, font number, code, two bytes each; all 0 if none is open"
    let marked = match low16(mark, 6) {
        0 => {
            if low16(mark, 8) != 0 || low16(mark, 10) != 0 {
                return None;
            }
            None
        }
        1 => Some((u32::from(low16(mark, 8)), u32::from(low16(mark, 10)))),
        _ => return None,
    };
    let mut open = None;
    // "Fonts stand by rising number, each followed by its characters by rising
    // code": the font being walked, and the least number and code that may come
    // next.
    let mut walked: Option<Walked> = None;
    let mut next_font = 0;
    let mut next_code = 0;
    while let Some(head) = rest.first_chunk::<HEAD>() {
        let length = low32(head, 0) as usize;
        if length == 0 {
            break;
        }
        let (record, after) = rest.split_at_checked(length)?;
        rest = after;
        match low16(head, 4) {
            FONT_KIND => {
                let record: &[u8; FONT_RECORD] = record.try_into().ok()?;
                let number = u32::from(low16(record, 6));
                let header = Header(record.last_chunk()?);
                if number < next_font
                    || number > FONT_MAX
                    || !header.is_kept()
                    || !counts_are_true(&walked)
                {
                    return None;
                }
                walked = Some(Walked {
                    font: number,
                    orientation: header.orientation(),
                    held: Counts::held(record),
                    counted: Counts::default(),
                });
                next_font = number + 1;
                next_code = 0;
            }
            CHARACTER_KIND => {
                let (first, data) = record.split_first_chunk::<CHARACTER_RECORD>()?;
                let number = u32::from(low16(first, 6));
                let code = u32::from(low16(first, 8));
                let descriptor = Descriptor(first.last_chunk()?);
                let walked = walked.as_mut()?;
                if number != walked.font
                    || code < next_code
                    || code > CODE_MAX
                    || !descriptor.is_kept(walked.orientation)
                {
                    return None;
                }
                walked.counted.add(data.len());
                let reading = block::read_kept_data(descriptor.shape(), data)?;
                // "the open mark names a kept, incomplete character"
                if marked == Some((number, code)) {
                    if reading.is_complete() {
                        return None;
                    }
                    open = Some(Open {
                        font: number,
                        code,
                        reading,
                    });
                }
                next_code = code + 1;
            }
            _ => return None,
        }
    }
    if !counts_are_true(&walked) || (marked.is_some() && open.is_none()) {
        return None;
    }
    // "All remaining bytes are 0." Readings: also where fewer bytes are left
    // than a record's head, or the length there is 0.
    all_zero(rest).then_some(Form {
        used: bytes.len() - rest.len(),
        open,
    })
}

/// By stretches, each ORed together without a test within.
fn all_zero(bytes: &[u8]) -> bool {
    bytes
        .chunks(2048)
        .all(|stretch| stretch.iter().fold(0, |any, &byte| any | byte) == 0)
}

/// "A fresh store is the kind 1 record with none open, then zeros."
pub fn make_fresh(bytes: &mut [u8]) -> Result<(), Refusal> {
    // 1: 'for "make fresh": length not 12..65,536'
    if !(STORE_MIN..=STORE_MAX).contains(&bytes.len()) {
        return Err(Refusal::NotAStore);
    }
    bytes.fill(0);
    write_head(bytes, MARK_RECORD, MARK_KIND);
    Ok(())
}

fn write_head(record: &mut [u8], length: usize, kind: u16) {
    record[0..4].copy_from_slice(&(length as u32).to_le_bytes());
    record[4..6].copy_from_slice(&kind.to_le_bytes());
}

/// Numbers written two bytes each, "low byte first"; all are in range.
fn write_numbers<const N: usize>(bytes: &mut [u8], numbers: [u32; N]) {
    for (place, number) in bytes.chunks_exact_mut(2).zip(numbers) {
        place.copy_from_slice(&(number as u16).to_le_bytes());
    }
}

/// 2 for a font number or, where there is one, a code out of range.
fn check_range(font: u32, code: u32) -> Result<(), Refusal> {
    if font > FONT_MAX || code > CODE_MAX {
        return Err(Refusal::OutOfRange);
    }
    Ok(())
}

// Walking the records of a store: `records` is a store up to where its records
// end, `at` where one of them begins.

fn length_at(records: &[u8], at: usize) -> usize {
    match records[at..].first_chunk::<HEAD>() {
        // All fonts' records are as long, so that a walk over fonts need not
        // wait for one length to find the next.
        Some(head) if low16(head, 4) == FONT_KIND => FONT_RECORD,
        Some(head) => low32(head, 0) as usize,
        None => records.len() - at,
    }
}

fn kind_at(records: &[u8], at: usize) -> u16 {
    u16::from_le_bytes([records[at + 4], records[at + 5]])
}

/// The font number that a font's and a character's record both begin with.
fn font_at(records: &[u8], at: usize) -> u32 {
    u32::from(u16::from_le_bytes([
        records[at + HEAD],
        records[at + HEAD + 1],
    ]))
}

fn code_at(records: &[u8], at: usize) -> u32 {
    u32::from(u16::from_le_bytes([
        records[at + HEAD + 2],
        records[at + HEAD + 3],
    ]))
}

/// What the font's record at `at` holds.
fn counts_at(records: &[u8], at: usize) -> Counts {
    Counts::held(
        records[at..]
            .first_chunk()
            .expect("a font's record stands here"),
    )
}

fn header_at(records: &[u8], at: usize) -> Header<'_> {
    Header(
        records[at + FONT_KEPT..]
            .first_chunk()
            .expect("a font's record holds its header"),
    )
}

/// Looks for a font from the record at `from` on, which is not past it:
/// `Ok` where it stands, `Err` where it would.
fn find_font(records: &[u8], from: usize, font: u32) -> Result<usize, usize> {
    let mut at = from;
    while at < records.len() {
        let number = font_at(records, at);
        if number >= font {
            return if number == font { Ok(at) } else { Err(at) };
        }
        at += length_at(records, at);
    }
    Err(at)
}

/// Looks for a character of `font` in the same way; `from` is behind the
/// font's own record.
fn find_character(records: &[u8], from: usize, font: u32, code: u32) -> Result<usize, usize> {
    let mut at = from;
    while at < records.len() && font_at(records, at) == font {
        let number = code_at(records, at);
        if number >= code {
            return if number == code { Ok(at) } else { Err(at) };
        }
        at += length_at(records, at);
    }
    Err(at)
}

/// Where the last record of `font` ends, from one of its records on.
fn end_of_font(records: &[u8], from: usize, font: u32) -> usize {
    let mut at = from;
    while at < records.len() && font_at(records, at) == font {
        at += length_at(records, at);
    }
    at
}

/// A kept font, and where its record begins.
pub struct Font<'a> {
    pub at: usize,
    pub number: u32,
    pub header: Header<'a>,
}

/// A kept character.
pub struct Character<'a> {
    pub code: u32,
    pub kept: &'a [u8; DESCRIPTOR],
    pub data: &'a [u8],
}

impl Character<'_> {
    fn shape(&self) -> Shape {
        Descriptor(self.kept).shape()
    }

    /// "Class 1 is complete at its byte count, class 2 when all rows are drawn."
    pub fn is_complete(&self) -> bool {
        block::read_kept_data(self.shape(), self.data).is_some_and(|reading| reading.is_complete())
    }
}

fn character_at(records: &[u8], at: usize) -> Character<'_> {
    let record = &records[at..at + length_at(records, at)];
    let (kept, data) = record[CHARACTER_KEPT..]
        .split_first_chunk()
        .expect("a character's record holds its descriptor");
    Character {
        code: code_at(records, at),
        kept,
        data,
    }
}

/// A store that a call only looks at.
pub struct View<'a> {
    records: &'a [u8],
}

impl<'a> View<'a> {
    pub fn of(bytes: &'a [u8]) -> Result<View<'a>, Refusal> {
        let form = check(bytes)?;
        Ok(View {
            records: &bytes[..form.used],
        })
    }

    /// Every font by rising number.
    pub fn fonts(&self) -> impl Iterator<Item = Font<'a>> {
        let records = self.records;
        let mut at = MARK_RECORD;
        std::iter::from_fn(move || {
            while at < records.len() {
                let record = at;
                at += length_at(records, at);
                if kind_at(records, record) == FONT_KIND {
                    return Some(Font {
                        at: record,
                        number: font_at(records, record),
                        header: header_at(records, record),
                    });
                }
            }
            None
        })
    }

    /// Every font's characters, by rising number and code: their codes, and their kept
    /// bytes and data as one part.
    pub fn characters(&self) -> impl Iterator<Item = (u32, &'a [u8])> {
        let mut rest = &self.records[MARK_RECORD..];
        std::iter::from_fn(move || {
            while let Some(head) = rest.first_chunk::<CHARACTER_KEPT>() {
                let record;
                (record, rest) = rest.split_at(low32(head, 0) as usize);
                if low16(head, 4) == CHARACTER_KIND {
                    return Some((u32::from(low16(head, 8)), &record[CHARACTER_KEPT..]));
                }
            }
            None
        })
    }

    /// Where a font stands, else 6. The number is in range.
    fn font(&self, font: u32) -> Result<usize, Refusal> {
        find_font(self.records, MARK_RECORD, font).map_err(|_| Refusal::NoFont)
    }

    /// A font's header and its characters by rising code; 2, 6.
    pub fn font_with_characters(
        &self,
        font: u32,
    ) -> Result<(Header<'a>, impl Iterator<Item = Character<'a>> + Clone), Refusal> {
        check_range(font, 0)?;
        let records = self.records;
        let mut at = self.font(font)?;
        let header = header_at(records, at);
        at += FONT_RECORD;
        let characters = std::iter::from_fn(move || {
            if at < records.len() && font_at(records, at) == font {
                let character = character_at(records, at);
                at += length_at(records, at);
                Some(character)
            } else {
                None
            }
        });
        Ok((header, characters))
    }

    /// A kept character; 2, 6, 7.
    fn character(&self, font: u32, code: u32) -> Result<Character<'a>, Refusal> {
        check_range(font, code)?;
        let from = self.font(font)? + FONT_RECORD;
        match find_character(self.records, from, font, code) {
            Ok(at) => Ok(character_at(self.records, at)),
            Err(_) => Err(Refusal::NoCharacter),
        }
    }

    /// "Telling copies the 64 [02, W-206: 68] or 16 kept bytes to an output, answers the number
    /// of characters or of data bytes, and checks as removing does, then 12." The
    /// number of characters is the held one.
    pub fn tell_font(&self, out: &mut [u8], font: u32) -> Result<u32, Refusal> {
        check_range(font, 0)?;
        let at = self.font(font)?;
        first_of(out, HEADER)?.copy_from_slice(header_at(self.records, at).0);
        Ok(u32::from(counts_at(self.records, at).characters))
    }

    pub fn tell_character(&self, out: &mut [u8], font: u32, code: u32) -> Result<u32, Refusal> {
        let character = self.character(font, code)?;
        first_of(out, DESCRIPTOR)?.copy_from_slice(character.kept);
        Ok(character.data.len() as u32)
    }

    /// "Drawing checks 1, 2, 6, 7, then 2 for a row not below the height, then
    /// 12."
    pub fn draw_row(&self, out: &mut [u8], font: u32, code: u32, row: u32) -> Result<(), Refusal> {
        let character = self.character(font, code)?;
        let shape = character.shape();
        if row as usize >= shape.height {
            return Err(Refusal::OutOfRange);
        }
        let out = first_of(out, shape.row_bytes())?;
        runs::draw_row(shape, character.data, row as usize, out);
        Ok(())
    }

    pub fn draw_picture(&self, out: &mut [u8], font: u32, code: u32) -> Result<(), Refusal> {
        let character = self.character(font, code)?;
        let shape = character.shape();
        let out = first_of(out, shape.picture_bytes())?;
        runs::draw_picture(shape, character.data, out);
        Ok(())
    }
}

/// The part of an output that is written, else 12; "An output longer than
/// needed keeps its later bytes."
pub fn first_of(out: &mut [u8], needed: usize) -> Result<&mut [u8], Refusal> {
    out.get_mut(..needed).ok_or(Refusal::OutputShort)
}

/// A place met before, to look on from: where the record of `font` stands or
/// would stand, and at `at` the same or one of its characters' records. Before
/// the first look it is where the first font would stand.
#[derive(Clone, Copy)]
struct Cursor {
    font: u32,
    font_at: usize,
    at: usize,
}

impl Cursor {
    const START: Cursor = Cursor {
        font: 0,
        font_at: MARK_RECORD,
        at: MARK_RECORD,
    };
}

/// A store that a call may change. Each change leaves a store again, so that a
/// stream's many downloads rest on one check.
pub struct Store<'a> {
    bytes: &'a mut [u8],
    used: usize,
    open: Option<Open>,
    cursor: Cursor,
}

impl<'a> Store<'a> {
    pub fn of(bytes: &'a mut [u8]) -> Result<Store<'a>, Refusal> {
        let Form { used, open } = check(bytes)?;
        Ok(Store {
            bytes,
            used,
            open,
            cursor: Cursor::START,
        })
    }

    fn records(&self) -> &[u8] {
        &self.bytes[..self.used]
    }

    fn find_font(&mut self, font: u32) -> Result<usize, usize> {
        let cursor = self.cursor;
        let from = match font.cmp(&cursor.font) {
            std::cmp::Ordering::Less => MARK_RECORD,
            std::cmp::Ordering::Equal => cursor.font_at,
            std::cmp::Ordering::Greater => cursor.at,
        };
        let found = find_font(self.records(), from, font);
        if font != cursor.font {
            let (Ok(at) | Err(at)) = found;
            self.cursor = Cursor {
                font,
                font_at: at,
                at,
            };
        }
        found
    }

    /// Looks for a character of the font that the last look found.
    fn find_character(&mut self, code: u32) -> Result<usize, usize> {
        let Cursor { font, font_at, at } = self.cursor;
        let from = if at > font_at && code_at(self.records(), at) <= code {
            at
        } else {
            font_at + FONT_RECORD
        };
        let found = find_character(self.records(), from, font, code);
        if let Ok(at) = found {
            self.cursor.at = at;
        }
        found
    }

    /// Where `old` bytes of records stand at `at`, makes place for `new`: moves
    /// what follows, and leaves zero what is freed. It fits.
    fn resize(&mut self, at: usize, old: usize, new: usize) {
        if old == new {
            return;
        }
        let used = self.used - old + new;
        self.bytes.copy_within(at + old..self.used, at + new);
        if used < self.used {
            self.bytes[used..self.used].fill(0);
        }
        self.used = used;
    }

    /// Whether the records would fit with `new` bytes in place of `old`.
    fn fits(&self, old: usize, new: usize) -> bool {
        self.used - old + new <= self.bytes.len()
    }

    fn set_open(&mut self, open: Option<Open>) {
        self.open = open;
        let mark = match open {
            Some(open) => [1, open.font, open.code],
            None => [0; 3],
        };
        write_numbers(&mut self.bytes[HEAD..MARK_RECORD], mark);
    }

    /// 02, W-205: "Every download, replacement, continuation and removal, also the
    /// one for lack of room, keeps both equal to a fresh count."
    fn recount(&mut self, font_at: usize, change: impl FnOnce(&mut Counts)) {
        let mut counts = counts_at(self.records(), font_at);
        change(&mut counts);
        counts.write(&mut self.bytes[font_at..font_at + FONT_RECORD]);
    }

    /// "It also closes if removed."
    fn close_in_font(&mut self, font: u32) {
        if self.open.is_some_and(|open| open.font == font) {
            self.set_open(None);
        }
    }

    /// 01, The font block: 2, 3, 4, 5, 10.
    pub fn download_font(&mut self, block: &[u8], font: u32) -> Result<(), Refusal> {
        check_range(font, 0)?;
        let kept = block::read_font(block)?;
        // "An accepted block first removes any font of that number with its
        // characters. It is refused with 10 exactly if the records would then
        // not fit."
        let (at, old) = match self.find_font(font) {
            Ok(at) => (at, end_of_font(self.records(), at, font) - at),
            Err(at) => (at, 0),
        };
        if !self.fits(old, FONT_RECORD) {
            return Err(Refusal::NoRoom);
        }
        self.resize(at, old, FONT_RECORD);
        let record = &mut self.bytes[at..at + FONT_RECORD];
        write_head(record, FONT_RECORD, FONT_KIND);
        write_numbers(&mut record[HEAD..FONT_COUNT], [font]);
        Counts::default().write(record);
        record[FONT_KEPT..].copy_from_slice(&kept);
        self.close_in_font(font);
        self.cursor = Cursor {
            font,
            font_at: at,
            at,
        };
        Ok(())
    }

    /// 01, The character block: 2, 3, 6, 4, then as a first block or a
    /// continuation.
    pub fn download_character(
        &mut self,
        block: &[u8],
        font: u32,
        code: u32,
    ) -> Result<(), Refused> {
        check_range(font, code)?;
        // "Length 2..32767, else 3; font present, else 6; byte 0 is 4, else 4."
        if !block::character_block_length_allowed(block) {
            return Err(Refusal::BlockLength.into());
        }
        let Ok(font_at) = self.find_font(font) else {
            return Err(Refusal::NoFont.into());
        };
        if !block::is_character_block(block) {
            return Err(Refusal::NotTaken.into());
        }
        if block::is_first_block(block) {
            self.download_first(block, font, font_at, code)
        } else {
            self.download_continuation(block, font, font_at, code)
        }
    }

    fn download_first(
        &mut self,
        block: &[u8],
        font: u32,
        font_at: usize,
        code: u32,
    ) -> Result<(), Refused> {
        let orientation = header_at(self.records(), font_at).orientation();
        let first = block::read_first(block, orientation)?;
        // "It replaces a character of that code."
        let (at, old) = match self.find_character(code) {
            Ok(at) => (at, length_at(self.records(), at)),
            Err(at) => (at, 0),
        };
        // "10 if the records would not fit, the replaced character's room
        // counted as free"
        let new = CHARACTER_RECORD + first.data.len();
        if !self.fits(old, new) {
            return self.no_room(font, font_at);
        }
        self.resize(at, old, new);
        let record = &mut self.bytes[at..at + new];
        write_head(record, new, CHARACTER_KIND);
        write_numbers(&mut record[HEAD..CHARACTER_KEPT], [font, code]);
        record[CHARACTER_KEPT..CHARACTER_RECORD].copy_from_slice(&first.kept);
        record[CHARACTER_RECORD..].copy_from_slice(first.data);
        self.recount(font_at, |counts| {
            if old > 0 {
                counts.take(old - CHARACTER_RECORD);
            }
            counts.add(first.data.len());
        });
        self.cursor.at = at;
        // "An accepted first block makes its character the open one if
        // incomplete, else leaves none open."
        let reading = first.reading;
        self.set_open((!reading.is_complete()).then_some(Open {
            font,
            code,
            reading,
        }));
        Ok(())
    }

    fn download_continuation(
        &mut self,
        block: &[u8],
        font: u32,
        font_at: usize,
        code: u32,
    ) -> Result<(), Refused> {
        // "its font number and code must be those of the open character, else 7"
        let open = match self.open {
            Some(open) if open.font == font && open.code == code => open,
            _ => return Err(Refusal::NoCharacter.into()),
        };
        let Ok(at) = self.find_character(code) else {
            return Err(Refusal::NoCharacter.into());
        };
        let old = length_at(self.records(), at);
        // "Its data joins what is kept."
        let (data, reading) =
            block::read_continuation(block, open.reading, old - CHARACTER_RECORD)?;
        let new = old + data.len();
        if !self.fits(old, new) {
            return self.no_room(font, font_at);
        }
        self.resize(at + old, 0, data.len());
        write_head(&mut self.bytes[at..], new, CHARACTER_KIND);
        self.bytes[at + old..at + new].copy_from_slice(data);
        self.recount(font_at, |counts| counts.data += data.len() as u32);
        // "A completing continuation closes it."
        if reading.is_complete() {
            self.set_open(None);
        } else {
            self.open = Some(Open { reading, ..open });
        }
        Ok(())
    }

    /// 10 on a character block: "its font and all its characters removed".
    fn no_room(&mut self, font: u32, font_at: usize) -> Result<(), Refused> {
        self.take_out_font(font, font_at);
        Err(Refusal::NoRoom.into())
    }

    fn take_out_font(&mut self, font: u32, at: usize) {
        let old = end_of_font(self.records(), at, font) - at;
        self.resize(at, old, 0);
        self.close_in_font(font);
        self.cursor = Cursor::START;
    }

    /// "Removing checks 1, 2, 6, then 7 for a character."
    pub fn remove_font(&mut self, font: u32) -> Result<(), Refusal> {
        check_range(font, 0)?;
        let Ok(at) = self.find_font(font) else {
            return Err(Refusal::NoFont);
        };
        self.take_out_font(font, at);
        Ok(())
    }

    pub fn remove_character(&mut self, font: u32, code: u32) -> Result<(), Refusal> {
        check_range(font, code)?;
        let Ok(font_at) = self.find_font(font) else {
            return Err(Refusal::NoFont);
        };
        let Ok(at) = self.find_character(code) else {
            return Err(Refusal::NoCharacter);
        };
        let old = length_at(self.records(), at);
        self.resize(at, old, 0);
        self.recount(font_at, |counts| counts.take(old - CHARACTER_RECORD));
        if self
            .open
            .is_some_and(|open| open.font == font && open.code == code)
        {
            self.set_open(None);
        }
        self.cursor = Cursor::START;
        Ok(())
    }
}
