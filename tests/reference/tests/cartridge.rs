//! 02, W-208: "The old cartridge as a second place."

mod common;

use common::*;
use marlinfold_reference::*;

/// "which store that is (1 soft, 2 cartridge)"
const SOFT: u32 = 1;
const CARTRIDGE: u32 = 2;

const FINE: Request = Request { mode: 600, ..BASE };
const LANDSCAPE: Request = Request {
    orientation: 1,
    ..BASE
};

/// A refusal "answers 0 for every other number".
fn refused(refusal: u32) -> ChosenRecord {
    ChosenRecord {
        refusal,
        ..ChosenRecord::default()
    }
}

/// A font's record without characters: length, kind, number, both counts, kept bytes.
fn record(number: u32, font: Font) -> Vec<u8> {
    let mut record = vec![82, 0, 0, 0, 2, 0];
    record.extend((number as u16).to_le_bytes());
    record.extend([0; 6]);
    record.extend(font.kept());
    record
}

/// The store and the number of the font that is chosen from stores with these fonts, 0
/// and 0 for 11; its record stands at the place that is answered.
fn from_two(soft: &[(u32, Font)], cartridge: &[(u32, Font)], request: Request) -> (u32, u32) {
    let stores = [with_fonts(1024, soft), with_fonts(700, cartridge)];
    let before = stores.clone();
    let answer = choose_from_two(&stores[0], &stores[1], &request);
    assert_eq!(stores, before);
    if answer.refusal != 0 {
        assert_eq!(answer, refused(11));
        return (0, 0);
    }
    let (store, fonts) = match answer.which {
        SOFT => (&stores[0], soft),
        _ => (&stores[1], cartridge),
    };
    let found = fonts.iter().find(|(number, _)| *number == answer.font);
    let &(number, font) = found.expect("a font of the store that is answered");
    let place = answer.place as usize;
    assert_eq!(store[place..place + FONT_RECORD], record(number, font));
    (answer.which, answer.font)
}

/// The same with each font in the other's store.
fn both_ways(one: (u32, Font), other: (u32, Font), request: Request) -> [(u32, u32); 2] {
    [
        from_two(&[one], &[other], request),
        from_two(&[other], &[one], request),
    ]
}

/// A font of 600 dpi that is as wide and as high as it is at 300.
fn fine(font: Font) -> Font {
    Font {
        pitch: 2 * font.pitch,
        height: 2 * font.height,
        ..font
    }
    .dpi(600)
}

/// "A font is the pair of store and number": both have font 5, and either is chosen.
#[test]
fn the_same_number_in_both() {
    let bold = Request { weight: 3, ..BASE };
    assert_eq!(both_ways((5, A), (5, B), BASE), [(SOFT, 5), (CARTRIDGE, 5)]);
    assert_eq!(both_ways((5, A), (5, B), bold), [(CARTRIDGE, 5), (SOFT, 5)]);
}

/// Document 01's trials: the soft font of each, and the same number as from one store.
#[test]
fn the_same_fonts_in_both() {
    let fonts = [(5, A), (2, B), (9, C), (7, D)];
    for (request, font) in [
        (Request { weight: 3, ..BASE }, 2),
        (BASE, 5),
        (LANDSCAPE, 9),
        (Request { weight: 1, ..BASE }, 2),
        (
            Request {
                symbol_set: 341,
                ..BASE
            },
            7,
        ),
    ] {
        assert_eq!(from_two(&fonts, &fonts, request), (SOFT, font));
        assert_eq!(choose(&with_fonts(1024, &fonts), &request), chosen(font));
    }
}

/// "A soft font goes before a cartridge font just ahead of the orientation step".
#[test]
fn before_the_orientation() {
    for (page, right, other) in [(BASE, A, C), (LANDSCAPE, C, A)] {
        assert_eq!(
            both_ways((5, other), (9, right), page),
            [(SOFT, 5), (SOFT, 9)]
        );
        // In one store the page's orientation decides.
        let store = with_fonts(1024, &[(5, other), (9, right)]);
        assert_eq!(choose(&store, &page), chosen(9));
        // Also where the cartridge's number is lower.
        assert_eq!(
            from_two(&[(30000, other)], &[(0, right)], page),
            (SOFT, 30000)
        );
        // Among the soft fonts left the orientation decides, then the lowest number.
        let soft = [(1, other), (8, right), (9, right)];
        assert_eq!(from_two(&soft, &[(0, right)], page), (SOFT, 8));
        // Among the cartridge's, where a soft font is there for other sets alone.
        let no_part = Font { set: 341, ..right };
        assert_eq!(from_two(&[(0, no_part)], &soft, page), (CARTRIDGE, 8));
    }
}

/// The last step is the lowest number of one store's fonts: fonts of both never meet
/// there.
#[test]
fn before_the_lowest_number() {
    assert_eq!(both_ways((5, A), (2, A), BASE), [(SOFT, 5), (SOFT, 2)]);
    assert_eq!(
        from_two(&[(32767, A)], &[(0, A), (1, A)], BASE),
        (SOFT, 32767)
    );
}

/// Every step before the place goes before it, for a soft font and for a cartridge's.
#[test]
fn after_the_steps_up_to_the_resolution() {
    let asked = Request {
        style: 1,
        weight: 1,
        ..FINE
    };
    let right = Font {
        style: 1,
        weight: 1,
        ..A
    };
    for worse in [
        Font {
            spacing: 1,
            ..right
        },
        Font { pitch: 60, ..right },
        Font {
            height: 205,
            ..right
        },
        Font { style: 0, ..right },
        Font { weight: 2, ..right },
        Font { face: 4, ..right },
    ] {
        for number in [4, 6] {
            assert_eq!(
                both_ways((5, right), (number, worse), asked),
                [(SOFT, 5), (CARTRIDGE, 5)]
            );
            assert_eq!(
                both_ways((5, fine(right)), (number, fine(worse)), asked),
                [(SOFT, 5), (CARTRIDGE, 5)]
            );
        }
    }
}

/// "Step 1 looks at both stores together".
#[test]
fn the_set_in_either_store() {
    let of_set = |symbol_set| Request { symbol_set, ..BASE };
    let greek = Font { set: 341, ..A };
    // Before Roman-8 in the other store, whichever that is.
    assert_eq!(
        both_ways((5, A), (7, greek), of_set(341)),
        [(CARTRIDGE, 7), (SOFT, 7)]
    );
    // However little else fits.
    assert_eq!(from_two(&[(5, A)], &[(7, D)], of_set(341)), (CARTRIDGE, 7));
    // Roman-8 where neither has it.
    assert_eq!(
        both_ways((5, A), (7, greek), of_set(85)),
        [(SOFT, 5), (CARTRIDGE, 5)]
    );
    assert_eq!(from_two(&[(7, greek)], &[(7, D)], of_set(85)), (0, 0));
}

#[test]
fn an_empty_store() {
    let fonts = [(5, A), (2, B), (9, C), (7, D)];
    for (request, font) in [(BASE, 5), (LANDSCAPE, 9)] {
        assert_eq!(from_two(&fonts, &[], request), (SOFT, font));
        assert_eq!(from_two(&[], &fonts, request), (CARTRIDGE, font));
        assert_eq!(from_two(&[], &[], request), (0, 0));
    }
    // Of the least length, too.
    let store = with_fonts(ONE_FONT, &[(5, A)]);
    let at = |which| ChosenRecord {
        refusal: 0,
        font: 5,
        which,
        place: 12,
    };
    assert_eq!(choose_from_two(&store, &fresh(12), &BASE), at(SOFT));
    assert_eq!(choose_from_two(&fresh(12), &store, &BASE), at(CARTRIDGE));
    assert_eq!(choose_from_two(&fresh(12), &fresh(12), &BASE), refused(11));
}

/// W-206: "In mode 300 the 600 dpi fonts take no part in choosing", of either store.
#[test]
fn mode_300() {
    let other = Font {
        pitch: 60,
        height: 900,
        weight: 5,
        face: 9,
        ..A
    };
    assert_eq!(
        both_ways((5, fine(A)), (9, other), BASE),
        [(CARTRIDGE, 9), (SOFT, 9)]
    );
    assert_eq!(from_two(&[(5, fine(A))], &[(9, fine(A))], BASE), (0, 0));
    assert_eq!(both_ways((5, fine(A)), (9, D), BASE), [(0, 0), (0, 0)]);
    // The set of a font that takes no part leaves Roman-8 to the other store.
    let greek = Request {
        symbol_set: 341,
        ..BASE
    };
    let fine_greek = fine(Font { set: 341, ..A });
    assert_eq!(
        both_ways((5, fine_greek), (9, A), greek),
        [(CARTRIDGE, 9), (SOFT, 9)]
    );
}

/// W-206: "in mode 600 a 600 dpi font goes before a 300 dpi one", and then a soft font
/// before a cartridge's.
#[test]
fn mode_600() {
    assert_eq!(
        both_ways((5, A), (9, fine(A)), FINE),
        [(CARTRIDGE, 9), (SOFT, 9)]
    );
    assert_eq!(
        both_ways((5, fine(A)), (9, fine(A)), FINE),
        [(SOFT, 5), (SOFT, 9)]
    );
    // Resolution, place, orientation.
    let fine_page = Request {
        mode: 600,
        ..LANDSCAPE
    };
    assert_eq!(
        both_ways((5, C), (9, fine(A)), fine_page),
        [(CARTRIDGE, 9), (SOFT, 9)]
    );
    assert_eq!(
        both_ways((5, fine(C)), (9, fine(A)), fine_page),
        [(SOFT, 5), (SOFT, 9)]
    );
}

/// "Refusals: 1 if either isn't a store, then 2, 11."
#[test]
fn refusals_in_their_order() {
    let good = with_fonts(ONE_FONT, &[(5, A)]);
    let mut changed = good.clone();
    changed[MARK_RECORD + FONT_COUNT] = 1;
    let mut long = vec![0; 65537];
    long[..94].copy_from_slice(&good);
    let wrong = Request { mode: 0, ..BASE };
    let none = Request {
        symbol_set: 341,
        ..BASE
    };
    let greek = with_fonts(ONE_FONT, &[(7, D)]);
    let no_stores = [
        vec![],
        good[..11].to_vec(),
        good[..93].to_vec(),
        changed,
        vec![0; 94],
        long,
    ];
    for no_store in &no_stores {
        for request in [BASE, wrong, none] {
            assert_eq!(choose_from_two(no_store, &good, &request), refused(1));
            assert_eq!(choose_from_two(&good, no_store, &request), refused(1));
            assert_eq!(choose_from_two(no_store, &fresh(12), &request), refused(1));
            assert_eq!(choose_from_two(&fresh(12), no_store, &request), refused(1));
            for other in &no_stores {
                assert_eq!(choose_from_two(no_store, other, &request), refused(1));
            }
        }
    }
    let out_of_range = [
        Request {
            symbol_set: 2048,
            ..BASE
        },
        Request { spacing: 2, ..BASE },
        Request {
            pitch: 57601,
            ..BASE
        },
        Request {
            height: 99976,
            ..BASE
        },
        Request {
            style: 1024,
            ..BASE
        },
        Request { weight: 8, ..BASE },
        Request { weight: -8, ..BASE },
        Request {
            typeface: 65536,
            ..BASE
        },
        Request {
            orientation: 4,
            ..BASE
        },
        Request { mode: 450, ..BASE },
    ];
    for request in out_of_range {
        for (soft, cartridge) in [
            (&good, &good),
            (&good, &fresh(12)),
            (&fresh(12), &good),
            (&fresh(12), &fresh(12)),
        ] {
            assert_eq!(choose_from_two(soft, cartridge, &request), refused(2));
        }
    }
    // 11 where no font of either takes part.
    let set_85 = Request {
        symbol_set: 85,
        ..BASE
    };
    assert_eq!(choose_from_two(&greek, &greek, &set_85), refused(11));
    assert_eq!(choose_from_two(&greek, &fresh(12), &set_85), refused(11));
    assert_eq!(choose_from_two(&fresh(12), &greek, &set_85), refused(11));
    assert_eq!(choose_from_two(&greek, &good, &set_85).which, CARTRIDGE);
}

/// One buffer as both: "which is then always 1".
#[test]
fn one_buffer() {
    let store = with_fonts(1024, &[(5, A), (2, B), (9, C), (7, D.dpi(600))]);
    for request in [
        BASE,
        FINE,
        LANDSCAPE,
        Request { weight: 3, ..BASE },
        Request {
            symbol_set: 341,
            ..FINE
        },
    ] {
        let alone = choose(&store, &request);
        let answer = choose_from_two(&store, &store, &request);
        assert_eq!((answer.refusal, answer.font), (0, alone.font));
        assert_eq!(answer.which, SOFT);
        assert_eq!(answer, choose_from_two(&store, &fresh(12), &request));
    }
    let greek = with_fonts(ONE_FONT, &[(7, D)]);
    assert_eq!(choose_from_two(&greek, &greek, &BASE), refused(11));
    assert_eq!(choose_from_two(&[], &[], &BASE), refused(1));
}

/// "The answer gives the chosen font's record itself, as the part of whichever store
/// holds it": its place there, after records of any length.
#[test]
fn the_record_at_its_place() {
    let letter = first(1, 8, 9, &[7; 9]);
    let run = first(2, 10, 2, &[1, 2, 3, 5]);
    let filled = |fonts: &[(u32, Font)]| {
        let mut store = with_fonts(1024, fonts);
        for &(number, font) in fonts {
            for (code, block) in [(65, &letter), (66, &run)] {
                let mut block = block.clone();
                block[4] = font.orientation;
                assert_eq!(put_character(&mut store, &block, number, code), 0);
            }
        }
        store
    };
    let fonts = [(2, B), (5, A), (9, C), (300, D)];
    let stores = [filled(&fonts), filled(&[(0, D), (7, fine(A)), (300, B)])];
    // Each font with its characters: 82, 26 and 9, 26 and 4.
    let font_bytes = 147;
    for (request, which, font, at) in [
        (BASE, SOFT, 5, 1),
        (Request { weight: 3, ..BASE }, SOFT, 2, 0),
        (LANDSCAPE, SOFT, 9, 2),
        (
            Request {
                symbol_set: 341,
                spacing: 1,
                ..BASE
            },
            SOFT,
            300,
            3,
        ),
        (FINE, CARTRIDGE, 7, 1),
    ] {
        let answer = choose_from_two(&stores[0], &stores[1], &request);
        let place = 12 + at * font_bytes;
        let expected = ChosenRecord {
            refusal: 0,
            font,
            which,
            place: place as u64,
        };
        assert_eq!(answer, expected);
        let store = &stores[which as usize - 1];
        let record = &store[place..place + FONT_RECORD];
        assert_eq!(record[..6], [82, 0, 0, 0, 2, 0]);
        assert_eq!(record[6..8], (font as u16).to_le_bytes());
        // Two characters of 13 data bytes.
        assert_eq!(record[8..14], [2, 0, 13, 0, 0, 0]);
        let mut told = [0; KEPT];
        assert_eq!(tell_font(store, &mut told, font).refusal, 0);
        assert_eq!(record[FONT_KEPT..], told);
    }
    // The highest place: the last record of the longest store.
    let many: Vec<(u32, Font)> = (0..799).map(|number| (number, B)).collect();
    let mut store = with_fonts(65536, &many);
    assert_eq!(download_font(&mut store, &A.block(), 798), 0);
    let answer = choose_from_two(&fresh(12), &store, &BASE);
    assert_eq!((answer.which, answer.font), (CARTRIDGE, 798));
    assert_eq!(answer.place, 12 + 798 * 82);
}
