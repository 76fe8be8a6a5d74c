//! 02, W-206: "The 600 dpi fonts."

mod common;

use common::*;
use marlinfold_reference::*;

const FINE: Request = Request { mode: 600, ..BASE };

fn answer(block: &[u8]) -> u32 {
    let mut store = fresh(ONE_FONT);
    let refusal = download_font(&mut store, block, 5);
    assert_eq!(refusal == 0, store != fresh(ONE_FONT));
    refusal
}

/// "Refusals: 3 below 68 bytes and 4 for a descriptor size below 68, for format 20
/// only".
#[test]
fn lengths_and_descriptor_sizes() {
    // Format, the block's length, its descriptor size, the answer.
    for (format, length, size, refusal) in [
        (20, 63, 68, 3),
        (20, 64, 64, 3),
        (20, 66, 68, 3),
        (20, 67, 67, 3),
        (20, 68, 63, 4),
        (20, 68, 64, 4),
        (20, 68, 65, 4),
        (20, 68, 66, 4),
        (20, 68, 67, 4),
        (20, 68, 68, 0),
        (20, 68, 69, 4),
        (20, 69, 67, 4),
        (20, 69, 68, 0),
        (20, 69, 69, 0),
        (20, 200, 200, 0),
        (20, 200, 201, 4),
        (20, 32767, 32767, 0),
        (20, 32768, 68, 3),
        (0, 63, 64, 3),
        (0, 64, 64, 0),
        (0, 67, 67, 0),
        (0, 67, 68, 4),
        (0, 68, 65, 0),
        // Another format, where format 20 would be 3.
        (1, 64, 64, 4),
        (10, 67, 67, 4),
        (16, 68, 68, 4),
        (21, 68, 68, 4),
        (255, 200, 68, 4),
    ] {
        let mut block = A.dpi(600).block();
        block.resize(length, 7);
        block[2] = format;
        block[..2].copy_from_slice(&(size as u16).to_be_bytes());
        assert_eq!(answer(&block), refusal, "{format} {length} {size}");
    }
    // 3 and 4 come before 5.
    let wrong = Font { weight: 8, ..A }.dpi(301).block();
    assert_eq!(answer(&wrong[..67]), 3);
    let mut size = wrong.clone();
    size[1] = 67;
    assert_eq!(answer(&size), 4);
    assert_eq!(answer(&wrong), 5);
}

/// "Take them where both are 300 or both are 600"; "5 for another resolution".
#[test]
fn both_resolutions() {
    let all = [
        0, 1, 44, 88, 256, 299, 300, 301, 555, 599, 600, 601, 1200, 65535,
    ];
    for x in all {
        for y in all {
            let resolutions = Some((x, y));
            let refusal = if x == y && (x == 300 || x == 600) {
                0
            } else {
                5
            };
            let font = Font { resolutions, ..A };
            assert_eq!(answer(&font.block()), refusal, "{x} {y}");
        }
    }
    // Of a longer format 0 block these bytes are not looked at.
    let mut block = A.block();
    block.extend([9, 9, 9, 9]);
    assert_eq!(answer(&block), 0);
}

/// "The font record grows at its end by those four bytes for every font; a format 0
/// font gets 300 and 300. A format 20 font keeps format 20 and descriptor size 68.
/// Telling copies 68 bytes."
#[test]
fn what_is_kept_and_told() {
    for font in [A, A.dpi(300), A.dpi(600)] {
        let mut block = font.block();
        // Longer, with a descriptor size to match: neither is kept.
        let length = block.len() + 9;
        block.resize(length, 7);
        block[1] = length as u8;
        block[5] = 3;
        let mut store = fresh(ONE_FONT);
        assert_eq!(download_font(&mut store, &block, 5), 0);
        assert_eq!(store, with_fonts(ONE_FONT, &[(5, font)]));
        assert_eq!(store[MARK_RECORD + FONT_KEPT..], font.kept());
        let mut told = [0xAA; KEPT + 1];
        assert_eq!(tell_font(&store, &mut told[..KEPT - 1], 5).refusal, 12);
        assert_eq!(told, [0xAA; KEPT + 1]);
        assert_eq!(tell_font(&store, &mut told, 5).refusal, 0);
        assert_eq!(told[..KEPT], font.kept());
        assert_eq!(told[KEPT], 0xAA);
    }
    // "cut at the same field limits, in its own quarter-dots"
    let wide = Font {
        pitch: 16801,
        height: 10923,
        extended: [1, 2],
        ..A
    };
    let cut = Font {
        pitch: 16800,
        height: 10922,
        extended: [0, 0],
        ..A
    };
    assert_eq!(
        with_fonts(ONE_FONT, &[(5, wide.dpi(600))]),
        with_fonts(ONE_FONT, &[(5, cut.dpi(600))])
    );
}

/// A kept header is a format 0 one with 300 and 300, or a format 20 one of 300 or of
/// 600; each with its own descriptor size.
#[test]
fn which_kept_headers_make_a_store() {
    let kept = MARK_RECORD + FONT_KEPT;
    for format in [0, 1, 20, 21] {
        for size in [63, 64, 65, 67, 68, 69] {
            for x in [0, 299, 300, 600, 601] {
                for y in [0, 300, 600] {
                    let mut store = with_fonts(ONE_FONT, &[(5, A)]);
                    store[kept + 1] = size;
                    store[kept + 2] = format;
                    store[kept + 64..kept + 66].copy_from_slice(&u16::to_be_bytes(x));
                    store[kept + 66..kept + 68].copy_from_slice(&u16::to_be_bytes(y));
                    let right = match (format, size) {
                        (0, 64) => (x, y) == (300, 300),
                        (20, 68) => x == y && (x == 300 || x == 600),
                        _ => false,
                    };
                    assert_eq!(is_store(&store), right, "{format} {size} {x} {y}");
                }
            }
        }
    }
}

/// "The write-out gives back the format received."
#[test]
fn written_as_received() {
    for font in [A, A.dpi(300), A.dpi(600)] {
        let mut store = with_fonts(300, &[(5, font), (9, B)]);
        let letter = first(1, 8, 2, &[1, 2]);
        assert_eq!(put_character(&mut store, &letter, 5, 65), 0);
        let expected = [
            font_number(5),
            font_block(&font.block()),
            code(65),
            character_block(&letter),
        ]
        .concat();
        let mut out = vec![0; expected.len()];
        let short = expected.len() - 1;
        assert_eq!(write_font(&store, &mut out[..short], 5).refusal, 12);
        assert_eq!(write_font(&store, &mut out, 5).length, out.len() as u32);
        assert_eq!(out, expected);
        let mut again = fresh(300);
        assert_eq!(read_stream(&mut again, &out).done, 4);
        assert_eq!(remove_font(&mut store, 9), 0);
        assert_eq!(again, store);
    }
}

fn chosen_of(fonts: &[(u32, Font)], request: Request) -> u32 {
    let Chosen { refusal, font } = choose(&with_fonts(1024, fonts), &request);
    assert_eq!(refusal != 0, font == 0);
    font
}

/// The font that is chosen of two, each under either number.
fn of_two(first: Font, second: Font, request: Request) -> [u32; 2] {
    [[(1, first), (2, second)], [(2, first), (1, second)]].map(|two| chosen_of(&two, request))
}

const FIRST: [u32; 2] = [1, 2];
const SECOND: [u32; 2] = [2, 1];
const LEVEL: [u32; 2] = [1, 1];

/// A font of 600 dpi that is as wide and as high as it is at 300.
fn fine(font: Font) -> Font {
    assert_eq!(font.extended, [0, 0]);
    Font {
        pitch: 2 * font.pitch,
        height: 2 * font.height,
        ..font
    }
    .dpi(600)
}

/// "In mode 300 the 600 dpi fonts take no part in choosing".
#[test]
fn who_takes_part() {
    let fine_only = with_fonts(1024, &[(1, fine(A)), (2, fine(D))]);
    assert_eq!(choose(&fine_only, &BASE).refusal, 11);
    assert_eq!(choose(&fine_only, &FINE), chosen(1));
    // It doesn't matter how much better they fit.
    let other = Font {
        pitch: 60,
        height: 900,
        weight: 5,
        face: 9,
        spacing: 1,
        ..A
    };
    assert_eq!(chosen_of(&[(1, fine(A)), (2, other)], BASE), 2);
    assert_eq!(chosen_of(&[(1, fine(A)), (2, other)], FINE), 1);
    // A format 20 font of 300 dpi counts as any 300 dpi font.
    assert_eq!(of_two(A, A.dpi(300), BASE), LEVEL);
    assert_eq!(of_two(A, A.dpi(300), FINE), LEVEL);
    assert_eq!(chosen_of(&[(1, A.dpi(300))], BASE), 1);
}

/// "Step 1 looks only at the fonts that may take part in the mode": a 600 dpi font of
/// the set asked for, beside a 300 dpi Roman-8 font.
#[test]
fn the_set_in_both_modes() {
    let fonts = [(1, fine(Font { set: 341, ..A })), (2, A)];
    let of_set = |mode| Request {
        symbol_set: 341,
        mode,
        ..BASE
    };
    assert_eq!(chosen_of(&fonts, of_set(300)), 2);
    assert_eq!(chosen_of(&fonts, of_set(600)), 1);
    // The other way about, the set goes before the resolution.
    let fonts = [(1, fine(A)), (2, Font { set: 341, ..A })];
    assert_eq!(chosen_of(&fonts, of_set(300)), 2);
    assert_eq!(chosen_of(&fonts, of_set(600)), 2);
    // Neither Roman-8 nor the set.
    let fonts = [(1, fine(A)), (2, Font { set: 21, ..A })];
    assert_eq!(chosen_of(&fonts, of_set(300)), 0);
    assert_eq!(chosen_of(&fonts, of_set(600)), 1);
}

/// "in mode 600 a 600 dpi font goes before a 300 dpi one, as a new step between
/// typeface and orientation."
#[test]
fn the_resolution_step() {
    assert_eq!(of_two(fine(A), A, FINE), FIRST);
    assert_eq!(of_two(A, fine(A), FINE), SECOND);
    // After each step up to the typeface: the better 300 dpi font is chosen.
    let asked = Request {
        style: 1,
        weight: 1,
        typeface: 3,
        ..FINE
    };
    let right = Font {
        style: 1,
        weight: 1,
        ..A
    };
    for worse in [
        Font {
            spacing: 1,
            ..right
        },
        Font { pitch: 60, ..right },
        Font {
            height: 205,
            ..right
        },
        Font { style: 0, ..right },
        Font { weight: 2, ..right },
        Font { face: 4, ..right },
    ] {
        assert_eq!(of_two(right, fine(worse), asked), FIRST);
        assert_eq!(of_two(fine(right), worse, asked), FIRST);
    }
    // Before the orientation: the 600 dpi font is chosen.
    assert_eq!(of_two(A, fine(C), FINE), SECOND);
    let landscape = Request {
        orientation: 1,
        ..FINE
    };
    assert_eq!(of_two(fine(A), C, landscape), FIRST);
    assert_eq!(of_two(fine(A), fine(C), landscape), SECOND);
}

fn with_pitch(pitch: u16, byte: u8) -> Font {
    Font {
        pitch,
        extended: [byte, 0],
        ..A
    }
}

fn with_height(height: u16, byte: u8) -> Font {
    Font {
        height: 2 * height + u16::from(byte / 128),
        extended: [0, byte % 128 * 2],
        pitch: 240,
        ..A
    }
    .dpi(600)
}

/// "pitch and height are compared in 2400ths of an inch: a 300 dpi number of W-202
/// counts twice, a 600 dpi one once, the pitch test is R x pitch at most 61,440,000".
#[test]
fn the_pitch_in_2400ths() {
    // 140 at 600 dpi and 70 at 300 are level: only the resolution decides.
    let seventeen = Request {
        pitch: 1700,
        ..FINE
    };
    let high = |font: Font| Font {
        height: 400,
        ..font
    };
    let at_600 = |pitch, byte| high(with_pitch(pitch, byte)).dpi(600);
    assert_eq!(of_two(at_600(140, 0), with_pitch(70, 0), seventeen), FIRST);
    assert_eq!(of_two(with_pitch(70, 0), at_600(140, 0), seventeen), SECOND);
    // A 256th of a quarter-dot beside it, the wider that still qualifies.
    assert_eq!(of_two(with_pitch(70, 0), at_600(140, 1), seventeen), SECOND);
    assert_eq!(of_two(with_pitch(70, 1), at_600(140, 1), seventeen), FIRST);
    assert_eq!(
        of_two(with_pitch(70, 0), at_600(139, 255), seventeen),
        FIRST
    );
    // W-202's trial at 600 dpi: 1700 x 36,141 is 61,439,700; x 36,142 is 61,441,400.
    assert_eq!(of_two(at_600(141, 45), at_600(140, 0), seventeen), FIRST);
    assert_eq!(of_two(at_600(141, 45), at_600(141, 46), seventeen), FIRST);
    assert_eq!(of_two(at_600(141, 44), at_600(141, 45), seventeen), SECOND);
    assert_eq!(
        of_two(at_600(141, 45), with_pitch(70, 150), seventeen),
        FIRST
    );
    assert_eq!(
        of_two(at_600(141, 44), with_pitch(70, 150), seventeen),
        FIRST
    );
    assert_eq!(
        of_two(at_600(141, 43), with_pitch(70, 150), seventeen),
        SECOND
    );
    // A 600 dpi number isn't counted twice, nor a 300 dpi one once.
    let ten = Request {
        pitch: 1000,
        ..FINE
    };
    assert_eq!(of_two(at_600(240, 0), at_600(120, 0), ten), FIRST);
    assert_eq!(of_two(at_600(240, 1), at_600(120, 0), ten), SECOND);
    assert_eq!(of_two(with_pitch(120, 0), at_600(239, 255), ten), FIRST);
    assert_eq!(of_two(with_pitch(120, 1), at_600(10, 0), ten), SECOND);
    // The widest, in 64 bits: 57,600 x (2 x (256 x 16,800 + 255)).
    let most = Request {
        pitch: 57600,
        ..FINE
    };
    assert_eq!(of_two(with_pitch(16800, 255), at_600(1, 0), most), SECOND);
    assert_eq!(
        of_two(with_pitch(16800, 255), at_600(16800, 255), most),
        SECOND
    );
    let none = Request { pitch: 0, ..FINE };
    assert_eq!(
        of_two(with_pitch(16800, 255), at_600(16800, 255), none),
        FIRST
    );
}

/// "the height distance is |256 x H - 3 x height| with 6,400 or less as 0."
#[test]
fn the_height_in_2400ths() {
    let asked = Request {
        typeface: 9,
        ..FINE
    };
    let faced = |font: Font| Font { face: 9, ..font };
    // Half quarter-dots, as W-202's: the typeface tells whether step 4 left both.
    for (height, byte, level) in [
        (204, 42, true),
        (204, 43, false),
        (195, 214, true),
        (195, 213, false),
        (204, 0, true),
        (205, 0, false),
    ] {
        let expected = if level { SECOND } else { FIRST };
        let other = faced(with_height(height, byte));
        assert_eq!(of_two(A, other, asked), expected, "{height} {byte}");
        let other = faced(Font {
            height,
            extended: [0, byte],
            ..A
        });
        assert_eq!(of_two(A, other, asked), expected, "{height} {byte}");
    }
    // 3 x (256 x 408 + 85) is 6,399 past 256 x 1200.
    let odd = |byte| {
        faced(Font {
            pitch: 240,
            height: 408,
            extended: [0, byte],
            ..A
        })
        .dpi(600)
    };
    assert_eq!(of_two(A, odd(85), asked), SECOND);
    assert_eq!(of_two(A, odd(86), asked), FIRST);
    // Further off, the nearer: 300 at 600 dpi is 150 at 300.
    let half = Font {
        pitch: 240,
        height: 300,
        ..A
    }
    .dpi(600);
    assert_eq!(of_two(Font { height: 149, ..A }, half, FINE), SECOND);
    assert_eq!(of_two(Font { height: 151, ..A }, half, FINE), FIRST);
    // The ends of both ranges.
    let highest = Request {
        height: 99975,
        ..FINE
    };
    let top = Font {
        height: 10922,
        extended: [0, 255],
        ..A
    };
    let fine_top = Font { pitch: 240, ..top }.dpi(600);
    assert_eq!(of_two(top, fine_top, highest), FIRST);
    let lowest = Request { height: 0, ..FINE };
    assert_eq!(of_two(top, fine_top, lowest), SECOND);
}

/// Each request of a sheet has a mode of its own.
#[test]
fn a_sheet_of_both_modes() {
    let store = with_fonts(1024, &[(1, fine(A)), (2, A)]);
    let wrong = Request { mode: 1200, ..BASE };
    let mut answers = [UNWRITTEN; 4];
    let sheet = [FINE, BASE, wrong, FINE];
    assert_eq!(choose_sheet(&store, &sheet, &mut answers), 0);
    let got = answers.map(|answer| (answer.font, answer.refusal));
    assert_eq!(got, [(1, 0), (2, 0), (0, 2), (1, 0)]);
}
