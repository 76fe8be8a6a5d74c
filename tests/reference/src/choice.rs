//! Choosing. It sees the kept fonts' numbers, headers and places only.

use crate::block::{Header, HIGH};
use crate::store::View;
use crate::{Answer, Refusal, Request};

/// "8U (Roman-8) is 277".
const ROMAN_8: u32 = 277;
const FIXED: u32 = 0;
/// 02, W-206: "the pitch test is R x pitch at most 61,440,000".
const PITCH_LIMIT: u64 = 61_440_000;
/// "the height distance is |256 x H - 3 x height| with 6,400 or less as 0."
const HEIGHT_LEVEL: u32 = 6_400;
/// 02, W-201: "A label sheet asks for up to 64 fonts."
const SHEET_MAX: usize = 64;
/// 02, W-208: "which store that is (1 soft, 2 cartridge)". One store alone is a soft
/// one.
const SOFT: u32 = 1;
const CARTRIDGE: u32 = 2;
/// The standing of a font that takes no part, above all others.
const NO_PART: u64 = u64::MAX;

impl Request {
    /// 01, Choosing: "A request: symbol set 0..2047, spacing 0 or 1, pitch R in
    /// hundredths of a character per inch 0..57,600, height H in hundredths of
    /// a point 0..99,975, style 0..1023, weight -7..7, typeface 0..65535, page
    /// orientation 0 or 1"; 02, W-203: "Orientation becomes 0 to 3"; W-206: "A
    /// request gains a mode, 300 or 600."
    fn is_in_range(&self) -> bool {
        self.symbol_set <= 2047
            && self.spacing <= 1
            && self.pitch <= 57_600
            && self.height <= 99_975
            && self.style <= 1023
            && (-7..=7).contains(&self.weight)
            && self.typeface <= 65_535
            && self.orientation <= 3
            && (self.mode == 300 || self.mode == 600)
    }
}

/// "Choosing checks 1, 2, 11 and answers the font number."
pub fn choose(view: &View, request: &Request) -> Result<u32, Refusal> {
    if !request.is_in_range() {
        return Err(Refusal::OutOfRange);
    }
    best(view, SOFT, request)
        .map(|best| best.font)
        .ok_or(Refusal::NoneToChoose)
}

/// 02, W-208: "A second choosing call should look at two lent stores, soft fonts and
/// our cartridge dump". "Refusals: 1 if either isn't a store, then 2, 11."
pub fn choose_from_two(soft: &View, cartridge: &View, request: &Request) -> Result<Best, Refusal> {
    if !request.is_in_range() {
        return Err(Refusal::OutOfRange);
    }
    let soft = best(soft, SOFT, request);
    let cartridge = best(cartridge, CARTRIDGE, request);
    soft.into_iter()
        .chain(cartridge)
        .min_by_key(|best| best.standing)
        .ok_or(Refusal::NoneToChoose)
}

/// 02, W-201: "hand over a list of request records and get a list of font
/// numbers and refusal numbers, each entry what a single choice would give on
/// the same store. An out-of-range request refuses only its own entry."
/// "Refusals: 1, then 2 for more than 64 requests, then 12 for an answer list
/// shorter than the request list."
pub fn choose_sheet(
    view: &View,
    requests: &[Request],
    answers: &mut [Answer],
) -> Result<(), Refusal> {
    if requests.len() > SHEET_MAX {
        return Err(Refusal::OutOfRange);
    }
    let Some(answers) = answers.get_mut(..requests.len()) else {
        return Err(Refusal::OutputShort);
    };
    for (request, answer) in requests.iter().zip(answers) {
        *answer = match choose(view, request) {
            Ok(font) => Answer { font, refusal: 0 },
            Err(refusal) => Answer {
                font: 0,
                refusal: refusal as u32,
            },
        };
    }
    Ok(())
}

/// The font with the lowest standing: its number, the store that holds it, and where
/// its record begins there.
pub struct Best {
    standing: u64,
    pub font: u32,
    pub which: u32,
    pub at: usize,
}

/// The best of a store's fonts, in one pass; nothing if none of them takes part.
fn best(view: &View, which: u32, request: &Request) -> Option<Best> {
    let mut lowest = NO_PART;
    let mut best = None;
    for font in view.fonts() {
        let standing = standing(request, which, font.header);
        // "9. The lowest font number." They come by rising number, and no two of
        // different stores are level.
        if standing < lowest {
            lowest = standing;
            best = Some(font);
        }
    }
    best.map(|font| Best {
        standing: lowest,
        font: font.number,
        which,
        at: font.at,
    })
}

/// Where a font of one of the stores stands before this request, the lowest chosen,
/// or that it takes no part: it has neither the set asked for nor Roman-8, or (02,
/// W-206) "In mode 300 the 600 dpi fonts take no part in choosing".
///
/// Each step of the elimination keeps, of the fonts left, those with the lowest
/// rank in that step; so the steps in turn leave the fonts whose ranks, read one
/// after the other, are lowest. They stand here in one number of 62 bits, the first
/// step highest; the last step, the number, is left to `best`.
fn standing(request: &Request, which: u32, header: Header) -> u64 {
    if request.mode == 300 && header.resolution() == HIGH {
        return NO_PART;
    }
    let mut standing = 0;
    let mut step = |bits: u32, rank: u32| standing = standing << bits | u64::from(rank);
    // "1. The set asked for; if none has it, Roman-8; if none, 11."
    let set = u32::from(header.symbol_set());
    if set == request.symbol_set {
        step(1, 0);
    } else if set == ROMAN_8 {
        step(1, 1);
    } else {
        return NO_PART;
    }
    // "2. The spacing asked for, else the other."
    let spacing = u32::from(header.spacing());
    step(1, u32::from(spacing != request.spacing));
    // "3. Pitch, only if those left are fixed. For kept pitch P: if some have
    // R x P at most [61,440,000], those with the greatest P among them; else
    // those with the least P." Those left by step 2 all have the same spacing.
    let pitch = header.compared_pitch();
    step(
        25,
        if spacing != FIXED {
            0
        } else if u64::from(request.pitch) * u64::from(pitch) <= PITCH_LIMIT {
            0xFF_FFFF - pitch
        } else {
            0x100_0000 + pitch
        },
    );
    // "4. Least [|256 x H - 3 x height|], where [6,400] or less counts as 0."
    let distance = (256 * request.height).abs_diff(3 * header.compared_height());
    step(
        25,
        if distance <= HEIGHT_LEVEL {
            0
        } else {
            distance
        },
    );
    // "5. The style, if any has it."
    step(1, u32::from(u32::from(header.style()) != request.style));
    // "6. Weight: exact; else, for a request of 0 or more, the next thicker,
    // failing that the nearest thinner; for a request below 0, the next
    // thinner, failing that the nearest thicker."
    let weight = i32::from(header.weight());
    let apart = weight.abs_diff(request.weight);
    let preferred_side = if request.weight >= 0 {
        weight >= request.weight
    } else {
        weight <= request.weight
    };
    step(5, if preferred_side { apart } else { 15 + apart });
    // "7. The typeface, if any has it."
    step(
        1,
        u32::from(u32::from(header.typeface()) != request.typeface),
    );
    // 02, W-206: "in mode 600 a 600 dpi font goes before a 300 dpi one, as a new step
    // between typeface and orientation." In mode 300 all have 300.
    step(1, u32::from(u32::from(header.resolution()) != request.mode));
    // 02, W-208: "A soft font goes before a cartridge font just ahead of the
    // orientation step".
    step(1, which - SOFT);
    // "8. The page's orientation, if any has it."
    step(
        1,
        u32::from(u32::from(header.orientation()) != request.orientation),
    );
    standing
}
