//! 02, W-207: "A profile for spine labels." It sees a font's kept bytes and its
//! characters.

use crate::block::{Descriptor, Header};
use crate::store::{Character, View};
use crate::{stream, Refusal};

/// "codes 32 to 127 all present and complete"
const FIRST_CODE: u32 = 32;
const LAST_CODE: u32 = 127;

/// The rules, "numbered 1 to 7 in this order".
const TYPE: u32 = 1;
const SPACING: u32 = 2;
const CODES: u32 = 3;
/// The first of four, see `later_rules`.
const LEFT: u32 = 4;

/// "the first broken rule, [..] and the lowest code that breaks it (0 for the type
/// and the spacing)"; 0 and 0 where none is broken.
#[derive(Clone, Copy, Default, PartialEq, Eq)]
pub struct Broken {
    pub rule: u32,
    pub code: u32,
}

/// "a check of one font that answers "meets the profile" (rule 0, code 0) exactly
/// when all that holds"; 2, 6.
pub fn check_profile(view: &View, font: u32) -> Result<Broken, Refusal> {
    let (header, characters) = view.font_with_characters(font)?;
    Ok(broken(header, characters))
}

/// "A second call writes out the font only if it meets the profile. Refusals: 1, 2, 6
/// as before, then [..] 14 "outside the profile" [..], then 12."
pub fn write_profiled(view: &View, out: &mut [u8], font: u32) -> Result<u32, Refusal> {
    if check_profile(view, font)? != Broken::default() {
        return Err(Refusal::OutsideProfile);
    }
    stream::write_font(view, out, font)
}

/// In one pass over the characters, by rising code.
fn broken<'a>(header: Header, characters: impl Iterator<Item = Character<'a>>) -> Broken {
    // "type 0, fixed spacing"
    if header.font_type() != 0 {
        return Broken {
            rule: TYPE,
            code: 0,
        };
    }
    if header.spacing() != 0 {
        return Broken {
            rule: SPACING,
            code: 0,
        };
    }
    let code_broken = |code| Broken { rule: CODES, code };
    // "Rules after the one on codes are for every kept character of the font": the
    // first code that breaks each.
    let mut later = [None; 4];
    let mut next = FIRST_CODE;
    for character in characters {
        let code = character.code;
        if (FIRST_CODE..=LAST_CODE).contains(&code) {
            if code != next || !character.is_complete() {
                return code_broken(next);
            }
            next += 1;
        } else if code > LAST_CODE && next <= LAST_CODE {
            return code_broken(next);
        }
        let breaks = later_rules(header, Descriptor(character.kept));
        if breaks != [false; 4] {
            for (first, _) in later.iter_mut().zip(breaks).filter(|(_, breaks)| *breaks) {
                first.get_or_insert(code);
            }
        }
    }
    if next <= LAST_CODE {
        return code_broken(next);
    }
    let first = (LEFT..)
        .zip(later)
        .find_map(|(rule, code)| Some((rule, code?)));
    first.map_or(Broken::default(), |(rule, code)| Broken { rule, code })
}

/// "left offset at least 0, left offset plus width within the cell width, height
/// within the cell height, delta X equal to the kept pitch field": which of these a
/// character breaks.
fn later_rules(font: Header, character: Descriptor) -> [bool; 4] {
    let left = i32::from(character.left_offset());
    let right = left + i32::from(character.width());
    [
        left < 0,
        right > i32::from(font.cell_width()),
        character.height() > font.cell_height(),
        i32::from(character.delta_x()) != i32::from(font.pitch()),
    ]
}
