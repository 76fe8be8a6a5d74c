//! Demand 3's book: the fonts meant, made from the calls and their answers and
//! never from the store, save that a dump's (W-208) starts with the fonts in its
//! records; and the steps as document 01 words them, with those and the numbers of
//! W-202, W-206 and W-208.

use crate::calls::{Answer, Call, Request};
use crate::generate;
use std::collections::BTreeMap;

/// The 64 kept bytes and the resolutions.
pub type Header = [u8; 68];

#[derive(Clone, Default)]
pub struct Book {
    pub fonts: BTreeMap<u32, Header>,
}

/// W-208: "which store that is (1 soft, 2 cartridge)". One store alone is a soft one.
pub const SOFT: u32 = 1;
pub const CARTRIDGE: u32 = 2;

fn field(header: &Header, at: usize) -> u32 {
    256 * u32::from(header[at]) + u32::from(header[at + 1])
}

/// "the kept bytes the rules make of its block", an accepted one's.
fn kept(block: &[u8]) -> Header {
    let mut kept = [0; 68];
    kept[..64].copy_from_slice(&block[..64]);
    kept[0] = 0;
    kept[5] = 0;
    if kept[2] == 20 {
        // "A format 20 font keeps format 20 and descriptor size 68."
        kept[1] = 68;
        kept[64..].copy_from_slice(&block[64..68]);
    } else {
        // "a format 0 font gets 300 and 300"
        kept[1] = 64;
        kept[64..].copy_from_slice(&[1, 44, 1, 44]);
    }
    if field(&kept, 16) > 16800 {
        kept[16] = (16800_u32 / 256) as u8;
        kept[17] = (16800_u32 % 256) as u8;
        // "A field cut to its limit keeps its extended byte as zero."
        kept[40] = 0;
    }
    if field(&kept, 18) > 10922 {
        kept[18] = (10922_u32 / 256) as u8;
        kept[19] = (10922_u32 % 256) as u8;
        kept[41] = 0;
    }
    kept
}

impl Book {
    /// W-208: "a dump that these calls didn't make starts its book with the fonts in
    /// its records".
    pub fn of_dump(store: &[u8]) -> Book {
        let records = generate::records(store);
        let fonts = records.iter().filter(|record| record.code.is_none());
        Book {
            fonts: fonts
                .map(|font| {
                    let record = &store[font.at..font.at + font.length];
                    let header = &record[generate::FONT_KEPT..];
                    (font.font, header.try_into().expect("68 kept bytes"))
                })
                .collect(),
        }
    }

    /// Its fonts, as those of the soft store or of the cartridge.
    pub fn fonts_of(&self, which: u32) -> Vec<Font<'_>> {
        let all = self.fonts.iter();
        all.map(|(&number, header)| Font {
            which,
            number,
            header,
        })
        .collect()
    }

    /// What a call and its answer make of the book; a stream, read or salvaged, comes as the
    /// downloads that it spells.
    pub fn note(&mut self, call: &Call, answer: &Answer) {
        match (call, answer.refusal) {
            (Call::MakeFresh, 0) => self.fonts.clear(),
            (Call::DownloadFont { block, font }, 0) => {
                self.fonts.insert(*font, kept(block));
            }
            (Call::RemoveFont { font }, 0) | (Call::DownloadCharacter { font, .. }, 10) => {
                self.fonts.remove(font);
            }
            _ => {}
        }
    }
}

/// A font of a book, with the numbers that the steps read.
#[derive(Clone, Copy)]
pub struct Font<'a> {
    pub which: u32,
    pub number: u32,
    pub header: &'a Header,
}

/// W-208: "A font is the pair of store and number".
pub type Named = (u32, u32);

impl Font<'_> {
    pub fn name(&self) -> Named {
        (self.which, self.number)
    }

    pub fn symbol_set(&self) -> u32 {
        field(self.header, 14)
    }

    pub fn spacing(&self) -> u32 {
        u32::from(self.header[13])
    }

    pub fn resolution(&self) -> u32 {
        field(self.header, 64)
    }

    /// W-206: "a 300 dpi number of W-202 counts twice, a 600 dpi one once".
    fn in_2400ths(&self, number: u64) -> u64 {
        match self.resolution() {
            600 => number,
            _ => 2 * number,
        }
    }

    /// W-202: "Pitch becomes 256 x field + byte 40, height 256 x field + byte 41."
    pub fn pitch(&self) -> u64 {
        self.in_2400ths(256 * u64::from(field(self.header, 16)) + u64::from(self.header[40]))
    }

    pub fn height(&self) -> i64 {
        let number = 256 * u64::from(field(self.header, 18)) + u64::from(self.header[41]);
        self.in_2400ths(number) as i64
    }

    pub fn style(&self) -> u32 {
        256 * u32::from(self.header[4]) + u32::from(self.header[23])
    }

    pub fn weight(&self) -> i32 {
        match i32::from(self.header[24]) {
            byte @ 128.. => byte - 256,
            byte => byte,
        }
    }

    pub fn typeface(&self) -> u32 {
        256 * u32::from(self.header[26]) + u32::from(self.header[25])
    }

    pub fn orientation(&self) -> u32 {
        u32::from(self.header[12])
    }

    /// "A font takes part exactly if it has the set asked for or Roman-8." W-206:
    /// "In mode 300 the 600 dpi fonts take no part in choosing".
    pub fn takes_part(&self, request: &Request) -> bool {
        self.takes_part_in(request.mode)
            && (self.symbol_set() == request.symbol_set || self.symbol_set() == 277)
    }

    fn takes_part_in(&self, mode: u32) -> bool {
        mode == 600 || self.resolution() == 300
    }
}

/// Those with it, if any has it; else all of them.
fn if_any<'a>(fonts: &[Font<'a>], has: impl Fn(&Font) -> bool) -> Vec<Font<'a>> {
    let with: Vec<Font> = fonts.iter().copied().filter(|font| has(font)).collect();
    if with.is_empty() {
        fonts.to_vec()
    } else {
        with
    }
}

/// The steps on these fonts up to the typeface: those left, or none.
pub fn up_to_typeface<'a>(request: &Request, fonts: &[Font<'a>]) -> Option<Vec<Font<'a>>> {
    // 1
    let with = |set: u32| -> Vec<Font<'a>> {
        let all = fonts.iter().copied();
        all.filter(|font| font.takes_part_in(request.mode) && font.symbol_set() == set)
            .collect()
    };
    let mut left = with(request.symbol_set);
    if left.is_empty() {
        left = with(277);
    }
    if left.is_empty() {
        return None;
    }
    // 2
    left = if_any(&left, |font| font.spacing() == request.spacing);
    // 3
    if left.iter().all(|font| font.spacing() == 0) {
        let fits = |pitch: u64| u64::from(request.pitch) * pitch <= 61_440_000;
        let pitches = || left.iter().map(Font::pitch);
        let wanted = match pitches().filter(|&pitch| fits(pitch)).max() {
            Some(greatest) => greatest,
            None => pitches().min()?,
        };
        left.retain(|font| font.pitch() == wanted);
    }
    // 4
    let asked = 256 * i64::from(request.height);
    let distance = |font: &Font| match (asked - 3 * font.height()).abs() {
        ..=6400 => 0,
        far => far,
    };
    let least = left.iter().map(distance).min()?;
    left.retain(|font| distance(font) == least);
    // 5
    left = if_any(&left, |font| font.style() == request.style);
    // 6
    let weights = || left.iter().map(Font::weight);
    let asked = request.weight;
    let thicker = weights().filter(|&weight| weight > asked).min();
    let thinner = weights().filter(|&weight| weight < asked).max();
    let wanted = if weights().any(|weight| weight == asked) {
        asked
    } else if asked >= 0 {
        thicker.or(thinner)?
    } else {
        thinner.or(thicker)?
    };
    left.retain(|font| font.weight() == wanted);
    // 7
    Some(if_any(&left, |font| font.typeface() == request.typeface))
}

/// W-206: "in mode 600 a 600 dpi font goes before a 300 dpi one", after the typeface.
pub fn by_resolution<'a>(request: &Request, left: Vec<Font<'a>>) -> Vec<Font<'a>> {
    match request.mode {
        600 => if_any(&left, |font| font.resolution() == 600),
        _ => left,
    }
}

/// The steps on these fonts: the one left, or none.
pub fn chosen(request: &Request, fonts: &[Font]) -> Option<Named> {
    let mut left = by_resolution(request, up_to_typeface(request, fonts)?);
    // W-208: "A soft font goes before a cartridge font just ahead of the orientation
    // step"
    left = if_any(&left, |font| font.which == SOFT);
    // 8
    left = if_any(&left, |font| font.orientation() == request.orientation);
    // 9
    left.iter().min_by_key(|font| font.number).map(Font::name)
}

/// "A beats B if these steps, worked on those of the two alone that take part,
/// leave A."
pub fn beats(a: Font, b: Font, request: &Request) -> bool {
    let mut two = vec![a, b];
    two.retain(|font| font.takes_part(request));
    chosen(request, &two) == Some(a.name())
}

/// That an answer of choosing, which names this font of all these, is right: "is one
/// of these, beats every other, is the only one that no other beats; refused exactly
/// when none takes part". The font, or what is wrong.
pub fn right_choice<'a>(
    answer: &Answer,
    name: Named,
    request: &Request,
    fonts: &[Font<'a>],
) -> Result<Option<Font<'a>>, String> {
    if !fonts.iter().any(|font| font.takes_part(request)) {
        if *answer != Answer::of(11, []) {
            return Err("but none takes part".into());
        }
        return Ok(None);
    }
    if answer.refusal != 0 {
        return Err("but some font takes part".into());
    }
    let Some(choice) = fonts.iter().find(|font| font.name() == name) else {
        return Err("no font of the book".into());
    };
    for other in fonts {
        if other.name() == name {
            continue;
        }
        if !beats(*choice, *other, request) {
            return Err(format!("does not beat {:?}", other.name()));
        }
        if beats(*other, *choice, request) {
            return Err(format!("is beaten by {:?}", other.name()));
        }
    }
    if fonts.len() <= 16 {
        let beaten = |font: &Font| {
            let mut others = fonts.iter().filter(|other| other.name() != font.name());
            others.any(|other| beats(*other, *font, request))
        };
        if fonts.iter().filter(|font| !beaten(font)).count() != 1 {
            return Err("not the only one that no other beats".into());
        }
    }
    Ok(Some(*choice))
}

/// What a stream spells: its whole commands before any 13, as downloads with
/// their numbers, the others as done or refused; and the place of a 13.
pub struct Spelled {
    pub downloads: Vec<Call>,
    pub done: u64,
    pub refused: u64,
    pub broken: Option<u64>,
}

pub fn spelled(stream: &[u8]) -> Spelled {
    let mut spelled = Spelled {
        downloads: Vec::new(),
        done: 0,
        refused: 0,
        broken: None,
    };
    let (mut font, mut code) = (0, 0);
    let mut at = 0;
    while at < stream.len() {
        let Some((group, number, last, after)) = command(stream, at) else {
            spelled.broken = Some(at as u64);
            break;
        };
        at = after;
        let block = || stream[after - number..after].to_vec();
        match (group, last) {
            (b'*', b'D') if number <= 32767 => {
                font = number as u32;
                spelled.done += 1;
            }
            (b'*', b'E') if number <= 255 => {
                code = number as u32;
                spelled.done += 1;
            }
            (b'*', _) => spelled.refused += 1,
            (b')', _) => spelled.downloads.push(Call::DownloadFont {
                block: block(),
                font,
            }),
            _ => spelled.downloads.push(Call::DownloadCharacter {
                block: block(),
                font,
                code,
            }),
        }
    }
    spelled
}

/// W-212: whether at a place "a whole ESC *c#D command stands with a number within range".
pub fn restarts(stream: &[u8], at: usize) -> bool {
    matches!(command(stream, at), Some((b'*', 0..=32767, b'D', _)))
}

/// The whole command at a place: its group, number, last byte, and what comes
/// after it (its block passed).
pub fn command(stream: &[u8], start: usize) -> Option<(u8, usize, u8, usize)> {
    let byte = |at: usize| stream.get(at).copied();
    if byte(start)? != 27 {
        return None;
    }
    let group = byte(start + 1)?;
    let letter = byte(start + 2)?;
    let mut at = start + 3;
    let mut number = 0;
    while byte(at)?.is_ascii_digit() {
        number = 10 * number + usize::from(byte(at)? - b'0');
        at += 1;
        if at - start > 8 {
            return None;
        }
    }
    if at == start + 3 {
        return None;
    }
    let last = byte(at)?;
    let after = at + 1;
    match (group, letter, last) {
        (b'*', b'c', b'D' | b'E') => Some((group, number, last, after)),
        (b')' | b'(', b's', b'W') if number <= 32767 && after + number <= stream.len() => {
            Some((group, number, last, after + number))
        }
        _ => None,
    }
}
