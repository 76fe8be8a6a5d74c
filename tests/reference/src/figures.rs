//! 02, W-210: "Figures for the collection."

use crate::block::Descriptor;
use crate::dots::black_dots;
use crate::store::View;
use crate::Refusal;

/// "the stores so far, then for codes 0 to 255 these seven in order, 8 bytes each, low
/// byte first"
const NUMBER: usize = 8;
const OF_A_CODE: usize = 7 * NUMBER;
const CODES: usize = 256;
/// "14,344 lent bytes"
pub const FIGURES: usize = NUMBER + CODES * OF_A_CODE;

/// Where the seven stand: "how many characters there are, the total of black dots, the
/// least and greatest width, the sum of delta X, and the mean delta X as quotient and
/// remainder".
const COUNT: usize = 0;
const DOTS: usize = 1;
const LEAST: usize = 2;
const GREATEST: usize = 3;
const SUM: usize = 4;
const MEAN: usize = 5;
const REST: usize = 6;

/// "up to 64 stores"
const STORES: u64 = 64;
/// "above what the stores so far allow at 65,536 bytes": of each, for a store,
/// "(length - 12) / 108, rounded down", "its dots [..] 262,144 times and its sum [..]
/// 32,767 times that bound".
const COUNT_OF_A_STORE: u64 = (65_536 - 12) / 108;
const DOTS_OF_A_STORE: u64 = 262_144 * COUNT_OF_A_STORE;
const SUM_OF_A_STORE: u64 = 32_767 * COUNT_OF_A_STORE;

/// A code's seven numbers.
type OfACode = [[u8; NUMBER]; 7];

fn number(figures: &OfACode, which: usize) -> u64 {
    u64::from_le_bytes(figures[which])
}

fn put(figures: &mut OfACode, which: usize, number: u64) {
    figures[which] = number.to_le_bytes();
}

/// Adds a store's characters to the figures. "Refusals: 1, then 2 for figures of another
/// length, the 65th store, or a count, dots or sum handed in above what the stores so far
/// allow".
pub fn add_figures(view: &View, figures: &mut [u8]) -> Result<(), Refusal> {
    let figures: &mut [u8; FIGURES] = figures.try_into().map_err(|_| Refusal::OutOfRange)?;
    let (stores, codes) = figures.split_first_chunk_mut().expect("its first number");
    let codes = by_code(codes);
    let so_far = u64::from_le_bytes(*stores);
    if so_far >= STORES || any_above(codes, so_far) {
        return Err(Refusal::OutOfRange);
    }
    let mut met = [false; CODES];
    for (code, kept_and_data) in view.characters() {
        let code = code as usize;
        met[code] = true;
        add_character(&mut codes[code], kept_and_data);
    }
    // "Codes a store lacks keep their bytes".
    let has = codes.iter_mut().zip(met).filter(|(_, met)| *met);
    has.for_each(|(figures, _)| put_mean(figures));
    *stores = (so_far + 1).to_le_bytes();
    Ok(())
}

/// The numbers after the first.
fn by_code(codes: &mut [u8]) -> &mut [OfACode; CODES] {
    let (numbers, _) = codes.as_chunks_mut::<NUMBER>();
    let (codes, _) = numbers.as_chunks_mut::<7>();
    codes.try_into().expect("256 codes of seven numbers")
}

/// Whether a code has more than so many stores allow. All are looked at, so that nothing
/// is decided within.
fn any_above(codes: &[OfACode; CODES], stores: u64) -> bool {
    codes.iter().fold(false, |any, figures| {
        any | (number(figures, COUNT) > stores * COUNT_OF_A_STORE)
            | (number(figures, DOTS) > stores * DOTS_OF_A_STORE)
            | (number(figures, SUM) > stores * SUM_OF_A_STORE)
    })
}

/// All but the mean. The numbers handed in are within bounds, or only compared: none
/// passes 64 bits.
fn add_character(figures: &mut OfACode, kept_and_data: &[u8]) {
    let kept = kept_and_data.first_chunk();
    let descriptor = Descriptor(kept.expect("a character has its kept bytes"));
    let width = u64::from(descriptor.width());
    let dots = black_dots(descriptor.shape(), kept_and_data);
    put(figures, COUNT, number(figures, COUNT) + 1);
    put(figures, DOTS, number(figures, DOTS) + dots);
    // "a least width of 0 handed in counts as none"
    let least = match number(figures, LEAST) {
        0 => width,
        least => least.min(width),
    };
    put(figures, LEAST, least);
    put(figures, GREATEST, number(figures, GREATEST).max(width));
    // A kept delta X is not negative.
    let delta_x = u64::from(descriptor.delta_x().unsigned_abs());
    put(figures, SUM, number(figures, SUM) + delta_x);
}

/// Of the sum and the count as they now are; there is a character.
fn put_mean(figures: &mut OfACode) {
    let (sum, count) = (number(figures, SUM), number(figures, COUNT));
    put(figures, MEAN, sum / count);
    put(figures, REST, sum % count);
}
