//! 02, W-207: "A profile for spine labels."

mod common;

use common::model::Model;
use common::*;
use marlinfold_reference::*;
use std::collections::BTreeMap;

/// The header of a font that may meet the profile: cells of 30 x 50, pitch 120.
fn plain(resolutions: Option<(u16, u16)>) -> Vec<u8> {
    let mut block = Font { resolutions, ..A }.block();
    block[3] = 0;
    block
}

/// Its cell and pitch.
const CELL: (u16, u16) = (30, 50);
const PITCH: u16 = 120;

/// A character's first block, 8 x 2 dots at left offset 2, with what breaks a rule.
#[derive(Clone, Copy)]
struct Letter {
    class: u8,
    left: i16,
    width: u16,
    height: u16,
    delta_x: i16,
    complete: bool,
}

const GOOD: Letter = Letter {
    class: 1,
    left: 2,
    width: 8,
    height: 2,
    delta_x: PITCH as i16,
    complete: true,
};

impl Letter {
    fn block(self) -> Vec<u8> {
        let rows = usize::from(self.height);
        let mut data = match self.class {
            1 => vec![0x5A; usize::from(self.width).div_ceil(8) * rows],
            _ => [0, self.width as u8].repeat(rows),
        };
        if !self.complete {
            data.pop();
        }
        let mut block = first(self.class, self.width, self.height, &data);
        block[6..8].copy_from_slice(&self.left.to_be_bytes());
        block[14..16].copy_from_slice(&self.delta_x.to_be_bytes());
        block
    }
}

type Letters = BTreeMap<u32, Letter>;

/// Codes 32 to 127, as they should be.
fn good() -> Letters {
    (32..128).map(|code| (code, GOOD)).collect()
}

fn with(changes: &[(u32, Letter)]) -> Letters {
    let mut letters = good();
    letters.extend(changes.iter().copied());
    letters
}

fn without(codes: &[u32]) -> Letters {
    let mut letters = good();
    letters.retain(|code, _| !codes.contains(code));
    letters
}

/// A store with this font under 7, between two others.
fn store_of(header: &[u8], letters: &Letters) -> Vec<u8> {
    let mut store = with_fonts(16384, &[(5, A), (9, D)]);
    assert_eq!(download_font(&mut store, header, 7), 0);
    for (&code, letter) in letters {
        let refusal = put_character(&mut store, &letter.block(), 7, code);
        assert_eq!(refusal, 0, "{code}");
    }
    store
}

/// What the check answers; the second call agrees with it, and so does the model.
fn checked(store: &[u8], font: u32) -> (u32, u32) {
    let Profile {
        refusal,
        rule,
        code,
    } = check_profile(store, font);
    assert_eq!(refusal, 0);
    let model = Model::of(store).unwrap();
    assert_eq!(model.check_profile(font), Ok((rule, code)));
    let mut plain = vec![0xAA; store.len() + 2048];
    let mut profiled = plain.clone();
    let written = write_profiled(store, &mut profiled, font);
    if (rule, code) == (0, 0) {
        assert_eq!(written, write_font(store, &mut plain, font));
        assert_eq!(written.refusal, 0);
        // "then 12"
        let short = &mut profiled[..written.length as usize - 1].to_vec();
        short.fill(0xAA);
        assert_eq!(write_profiled(store, short, font).refusal, 12);
        assert!(short.iter().all(|&byte| byte == 0xAA));
        // What is written meets the profile where it is read.
        let mut again = fresh(store.len());
        read_stream(&mut again, &profiled[..written.length as usize]);
        assert_eq!(check_profile(&again, font), Profile::default());
    } else {
        // 14 comes before 12, and nothing is written.
        let outside = Written {
            refusal: 14,
            length: 0,
        };
        assert_eq!(written, outside);
        assert_eq!(write_profiled(store, &mut [], font), outside);
    }
    assert_eq!(profiled, plain);
    (rule, code)
}

fn answer(letters: &Letters) -> (u32, u32) {
    checked(&store_of(&plain(None), letters), 7)
}

/// "answers "meets the profile" (rule 0, code 0) exactly when all that holds".
#[test]
fn a_font_that_meets_it() {
    let classes = Letter { class: 2, ..GOOD };
    for resolutions in [None, Some((300, 300)), Some((600, 600))] {
        let header = plain(resolutions);
        assert_eq!(checked(&store_of(&header, &good()), 7), (0, 0));
        let mixed = with(&[(32, classes), (65, classes), (127, classes)]);
        assert_eq!(checked(&store_of(&header, &mixed), 7), (0, 0));
    }
    // Other codes may be there, and be incomplete, the open one too.
    let half = Letter {
        complete: false,
        ..GOOD
    };
    assert_eq!(answer(&with(&[(0, GOOD), (31, half), (128, half)])), (0, 0));
    assert_eq!(answer(&with(&[(255, half)])), (0, 0));
    // The cell filled: "within" means at most.
    let (width, height) = CELL;
    let full = Letter {
        left: 0,
        width,
        height,
        ..GOOD
    };
    let right = Letter {
        left: width as i16 - 8,
        ..GOOD
    };
    assert_eq!(answer(&with(&[(32, full), (200, right)])), (0, 0));
}

/// "1, 2, 6 as before".
#[test]
fn refusals() {
    let store = store_of(&plain(None), &good());
    let mut other = store.clone();
    other[0] = 13;
    for (store, font, refusal) in [
        (&other, 7, 1),
        (&other, 40000, 1),
        (&store, 32768, 2),
        (&store, u32::MAX, 2),
        (&store, 6, 6),
        (&store, 8, 6),
    ] {
        let expected = Profile {
            refusal,
            ..Profile::default()
        };
        assert_eq!(check_profile(store, font), expected);
        let mut out = [0xAA; 9000];
        let expected = Written { refusal, length: 0 };
        assert_eq!(write_profiled(store, &mut out, font), expected);
        assert_eq!(out, [0xAA; 9000]);
    }
}

/// "the first broken rule, numbered 1 to 7 in this order, and the lowest code that
/// breaks it (0 for the type and the spacing)".
#[test]
fn each_rule_alone() {
    for font_type in [1, 2] {
        let mut header = plain(None);
        header[3] = font_type;
        assert_eq!(checked(&store_of(&header, &good()), 7), (1, 0));
    }
    let mut header = plain(None);
    header[13] = 1;
    assert_eq!(checked(&store_of(&header, &good()), 7), (2, 0));

    // Codes missing, or incomplete, of either class.
    assert_eq!(answer(&Letters::new()), (3, 32));
    for code in [32, 33, 65, 126, 127] {
        assert_eq!(answer(&without(&[code])), (3, code));
        for class in [1, 2] {
            let half = Letter {
                class,
                complete: false,
                ..GOOD
            };
            assert_eq!(answer(&with(&[(code, half)])), (3, code));
        }
    }
    assert_eq!(answer(&without(&[40, 90])), (3, 40));

    // The later rules, for every kept character of the font.
    let (width, height) = CELL;
    let left = Letter { left: -1, ..GOOD };
    let wide = Letter {
        left: 0,
        width: width + 1,
        ..GOOD
    };
    // "left offset plus width"
    let far = Letter {
        left: width as i16 - 7,
        ..GOOD
    };
    let high = Letter {
        height: height + 1,
        ..GOOD
    };
    let delta = |delta_x| Letter { delta_x, ..GOOD };
    for code in [0, 31, 32, 65, 127, 128, 255] {
        for (letter, rule) in [
            (left, 4),
            (wide, 5),
            (far, 5),
            (high, 6),
            (delta(PITCH as i16 - 1), 7),
            (delta(PITCH as i16 + 1), 7),
            (delta(0), 7),
            // Kept as 0.
            (delta(-120), 7),
        ] {
            assert_eq!(answer(&with(&[(code, letter)])), (rule, code));
            // Also of one that is incomplete, where it may be.
            if !(32..128).contains(&code) {
                let half = Letter {
                    complete: false,
                    ..letter
                };
                assert_eq!(answer(&with(&[(code, half)])), (rule, code));
            }
            // The lowest code, not the highest, nor the first after 127.
            if code < 200 {
                let more = with(&[(code, letter), (code + 1, letter), (255, letter)]);
                assert_eq!(answer(&more), (rule, code));
            }
        }
    }
    // A left offset below 0 does not make room for a greater width.
    let back = Letter {
        left: -16384,
        width: 31,
        ..GOOD
    };
    assert_eq!(answer(&with(&[(65, back)])), (4, 65));
    let forth = Letter {
        left: 16384,
        ..GOOD
    };
    assert_eq!(answer(&with(&[(65, forth)])), (5, 65));
}

/// The rule comes before the code: of two rules the first, whatever their codes.
#[test]
fn the_first_rule_then_the_lowest_code() {
    let (width, height) = CELL;
    let breaking = [
        (4, Letter { left: -1, ..GOOD }),
        (
            5,
            Letter {
                width: width + 1,
                ..GOOD
            },
        ),
        (
            6,
            Letter {
                height: height + 1,
                ..GOOD
            },
        ),
        (7, Letter { delta_x: 1, ..GOOD }),
    ];
    for (first, one) in breaking {
        for (second, other) in breaking {
            for (code, beside) in [(40, 30), (40, 50), (200, 32), (10, 11)] {
                let letters = with(&[(code, one), (beside, other)]);
                let expected = match first.cmp(&second) {
                    std::cmp::Ordering::Less => (first, code),
                    std::cmp::Ordering::Equal => (first, code.min(beside)),
                    std::cmp::Ordering::Greater => (second, beside),
                };
                assert_eq!(answer(&letters), expected);
                // The codes' rule before all of these, the font's before that.
                let mut fewer = letters.clone();
                fewer.remove(&127);
                assert_eq!(answer(&fewer), (3, 127));
                for (at, rule) in [(13, 2), (3, 1)] {
                    let mut header = plain(None);
                    header[at] = 1;
                    assert_eq!(checked(&store_of(&header, &fewer), 7), (rule, 0));
                }
            }
        }
    }
    let mut both = plain(None);
    both[3] = 2;
    both[13] = 1;
    assert_eq!(checked(&store_of(&both, &Letters::new()), 7), (1, 0));
}

/// "delta X equal to the kept pitch field": as it is after a cut, and without the
/// extended byte.
#[test]
fn the_kept_pitch_field() {
    let mut header = plain(None);
    header[16..18].copy_from_slice(&16801_u16.to_be_bytes());
    header[40] = 150;
    for (delta_x, expected) in [(16800, (0, 0)), (16801, (7, 32))] {
        let letters = (32..128).map(|code| (code, Letter { delta_x, ..GOOD }));
        assert_eq!(checked(&store_of(&header, &letters.collect()), 7), expected);
    }
    let mut header = plain(None);
    header[40] = 255;
    assert_eq!(checked(&store_of(&header, &good()), 7), (0, 0));
}

/// Fonts with few breaks by chance, against the model.
#[test]
fn chance_fonts_agree_with_the_model() {
    let mut met = [0; 8];
    for seed in 0..2000 {
        let mut chance = Chance::new(3000 + seed);
        let mut header = plain(chance.of(&[None, Some((300, 300)), Some((600, 600))]));
        if chance.once_in(12) {
            header[chance.of(&[3, 13])] = 1;
        }
        let mut letters = good();
        for code in 0..256 {
            if !(32..128).contains(&code) && chance.once_in(8) {
                let complete = chance.once_in(2);
                letters.insert(code, Letter { complete, ..GOOD });
            }
        }
        for _ in 0..chance.below(4) {
            let codes: Vec<u32> = letters.keys().copied().collect();
            let code = chance.of(&codes);
            let letter = letters.get_mut(&code).unwrap();
            match chance.below(8) {
                0 => {
                    letters.remove(&code);
                }
                1 => letter.complete = false,
                2 => letter.class = 2,
                3 => letter.left = chance.of(&[-1, 0, 22, 23]),
                4 => letter.width = chance.of(&[28, 29]),
                5 => letter.height = chance.of(&[50, 51]),
                6 => letter.delta_x = chance.of(&[119, 120]),
                _ => letter.left = chance.of(&[-16384, 16384]),
            }
        }
        let (rule, _) = checked(&store_of(&header, &letters), 7);
        met[rule as usize] += 1;
    }
    assert!(met.iter().all(|&times| times > 30), "{met:?}");
}
