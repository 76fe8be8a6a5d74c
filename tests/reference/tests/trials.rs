//! 01, "Trials on both sides", and the sizes and examples named beside them; what
//! 02 says of W-202.

mod common;

use common::*;
use marlinfold_reference::*;

fn all_four() -> Vec<u8> {
    with_fonts(1024, &[(5, A), (2, B), (9, C), (7, D)])
}

#[test]
fn p1_weight_3() {
    let request = Request { weight: 3, ..BASE };
    assert_eq!(choose(&all_four(), &request), chosen(2));
}

#[test]
fn p2_weight_0_and_the_page() {
    assert_eq!(choose(&all_four(), &BASE), chosen(5));
    let landscape = Request {
        orientation: 1,
        ..BASE
    };
    assert_eq!(choose(&all_four(), &landscape), chosen(9));
}

#[test]
fn p3_weight_1_takes_the_next_thicker() {
    let request = Request { weight: 1, ..BASE };
    assert_eq!(choose(&all_four(), &request), chosen(2));
}

#[test]
fn p4_weight_below_0_without_a_thinner() {
    let request = Request { weight: -1, ..BASE };
    assert_eq!(choose(&all_four(), &request), chosen(5));
}

#[test]
fn p5_p6_symbol_set() {
    for (symbol_set, font) in [(85, 5), (341, 7)] {
        let request = Request { symbol_set, ..BASE };
        assert_eq!(choose(&all_four(), &request), chosen(font));
    }
}

#[test]
fn p7_none_to_choose() {
    let store = with_fonts(1024, &[(7, D)]);
    let request = Request {
        symbol_set: 85,
        ..BASE
    };
    let none = Chosen {
        refusal: 11,
        font: 0,
    };
    assert_eq!(choose(&store, &request), none);
    assert_eq!(choose(&fresh(12), &BASE), none);
}

#[test]
fn p8_pitch() {
    let store = with_fonts(1024, &[(1, A), (2, Font { pitch: 72, ..A })]);
    for (pitch, font) in [(1200, 2), (1700, 2), (1000, 1), (0, 1)] {
        let request = Request { pitch, ..BASE };
        assert_eq!(choose(&store, &request), chosen(font), "R {pitch}");
    }
}

#[test]
fn p9_height_within_a_quarter_point() {
    // The face tells whether step 4 left both.
    for (height, font) in [(204, 2), (205, 1)] {
        let other = Font {
            height,
            face: 9,
            ..A
        };
        let store = with_fonts(1024, &[(1, A), (2, other)]);
        let request = Request {
            typeface: 9,
            ..BASE
        };
        assert_eq!(choose(&store, &request), chosen(font), "height {height}");
    }
}

/// The font that is chosen of two for this request, each under either number.
fn of_two(first: Font, second: Font, request: Request) -> [u32; 2] {
    [[(1, first), (2, second)], [(2, first), (1, second)]].map(|fonts| {
        let chosen = choose(&with_fonts(1024, &fonts), &request);
        assert_eq!(chosen.refusal, 0);
        chosen.font
    })
}

const FIRST: [u32; 2] = [1, 2];
const SECOND: [u32; 2] = [2, 1];
/// Neither goes before the other: the lowest number.
const LEVEL: [u32; 2] = [1, 1];

fn with_pitch(pitch: u16, byte: u8) -> Font {
    Font {
        pitch,
        extended: [byte, 0],
        ..A
    }
}

fn with_height(height: u16, byte: u8) -> Font {
    Font {
        height,
        extended: [0, byte],
        ..A
    }
}

/// 02, W-202: "At R 1700, 70 with 150 (18,070) qualifies and goes before 70 with
/// 0 (17,920)."
#[test]
fn seventeen_to_the_inch() {
    let request = Request {
        pitch: 1700,
        ..BASE
    };
    let (ours, donor) = (with_pitch(70, 150), with_pitch(70, 0));
    assert_eq!(of_two(ours, donor, request), FIRST);
    assert_eq!(of_two(donor, ours, request), SECOND);
    // One 256th more no longer qualifies.
    let wider = with_pitch(70, 151);
    assert_eq!(of_two(ours, wider, request), FIRST);
    assert_eq!(of_two(donor, wider, request), FIRST);
    // Where neither does, the least.
    let narrow = Request {
        pitch: 1800,
        ..BASE
    };
    assert_eq!(of_two(ours, donor, narrow), SECOND);
    // Byte 41 is not the pitch's.
    let of_height = Font {
        extended: [0, 150],
        ..A
    };
    let base = with_pitch(120, 0);
    assert_eq!(of_two(of_height, base, BASE), LEVEL);
    // Nor is the pitch looked at of proportional fonts.
    let proportional = |font| Font { spacing: 1, ..font };
    assert_eq!(
        of_two(proportional(donor), proportional(ours), request),
        LEVEL
    );
}

/// "R x pitch at most 30,720,000", of a 300 dpi font, where it is just that, and in 64 bits.
#[test]
fn the_limit_of_the_pitch() {
    // 1000 x 30,720
    assert_eq!(of_two(with_pitch(120, 0), with_pitch(120, 1), BASE), FIRST);
    assert_eq!(
        of_two(with_pitch(119, 255), with_pitch(120, 0), BASE),
        SECOND
    );
    // 57,600 x (256 x 291 + 70) is 34,304 past 2^32.
    let most = Request {
        pitch: 57600,
        ..BASE
    };
    for wide in [(291, 70), (16800, 0), (16800, 255)] {
        let wide = with_pitch(wide.0, wide.1);
        assert_eq!(of_two(wide, with_pitch(2, 21), most), SECOND);
    }
    // 57,600 x 533 is 30,700,800; x 534 is 30,758,400.
    assert_eq!(of_two(with_pitch(2, 21), with_pitch(2, 22), most), FIRST);
    assert_eq!(of_two(with_pitch(2, 20), with_pitch(2, 21), most), SECOND);
    let none = Request { pitch: 0, ..BASE };
    let (wide, wider) = (with_pitch(16800, 0), with_pitch(16800, 255));
    assert_eq!(of_two(wide, wider, none), SECOND);
}

/// "the height distance is |256 x H - 6 x height| with 6,400 or less as 0", of a 300
/// dpi font
#[test]
fn the_height_in_256ths() {
    let at = with_height(200, 0);
    // 6 x 1066 is 6,396.
    for (height, byte, expected) in [
        (204, 42, LEVEL),
        (204, 43, FIRST),
        (195, 214, LEVEL),
        (195, 213, FIRST),
        (204, 0, LEVEL),
        (205, 0, FIRST),
    ] {
        let other = with_height(height, byte);
        assert_eq!(of_two(at, other, BASE), expected, "{height} {byte}");
    }
    // 256 x 1202 + 6,400 is 6 x (256 x 204 + 128).
    let other = Request {
        height: 1202,
        ..BASE
    };
    assert_eq!(of_two(at, with_height(204, 128), other), LEVEL);
    assert_eq!(of_two(at, with_height(204, 129), other), FIRST);
    // Further off, the nearer by a 256th.
    let (near, far) = (with_height(150, 1), with_height(150, 0));
    assert_eq!(of_two(near, far, BASE), FIRST);
    let (near, far) = (with_height(250, 0), with_height(250, 1));
    assert_eq!(of_two(near, far, BASE), FIRST);
    // Byte 40 is not the height's; proportional, so that it is not the pitch's.
    let proportional = |extended| Font {
        spacing: 1,
        height: 150,
        extended,
        ..A
    };
    assert_eq!(
        of_two(proportional([200, 0]), proportional([0, 0]), BASE),
        LEVEL
    );
    // The ends of both ranges.
    let highest = Request {
        height: 99975,
        ..BASE
    };
    assert_eq!(
        of_two(with_height(10922, 0), with_height(10922, 255), highest),
        SECOND
    );
}

/// "A field cut to its limit keeps its extended byte as zero"; one at its limit
/// that was not cut keeps it.
#[test]
fn a_cut_field_beside_its_extended_byte() {
    // Pitch, height, both extended bytes; the same as they are kept.
    for (sent, kept) in [
        ((16799, 10921, [150, 7]), (16799, 10921, [150, 7])),
        ((16800, 10922, [150, 7]), (16800, 10922, [150, 7])),
        ((16801, 10922, [150, 7]), (16800, 10922, [0, 7])),
        ((16800, 10923, [150, 7]), (16800, 10922, [150, 0])),
        ((16801, 10923, [255, 255]), (16800, 10922, [0, 0])),
        ((65535, 65535, [150, 7]), (16800, 10922, [0, 0])),
        ((0, 0, [150, 7]), (0, 0, [150, 7])),
    ] {
        let font = |(pitch, height, extended)| Font {
            pitch,
            height,
            extended,
            ..A
        };
        let store = with_fonts(ONE_FONT, &[(1, font(sent))]);
        let mut told = [0; KEPT];
        assert_eq!(tell_font(&store, &mut told, 1).refusal, 0);
        assert_eq!(told[..], font(kept).kept(), "{sent:?}");
        // What is kept is taken as it is.
        assert_eq!(with_fonts(ONE_FONT, &[(1, font(kept))]), store);
    }
    // So the cut one is the narrower, and the lower.
    let widest = Request { pitch: 0, ..BASE };
    assert_eq!(
        of_two(with_pitch(16801, 150), with_pitch(16800, 1), widest),
        SECOND
    );
    let highest = Request {
        height: 99975,
        ..BASE
    };
    assert_eq!(
        of_two(with_height(10923, 150), with_height(10922, 1), highest),
        SECOND
    );
}

/// The rows, each as it is drawn alone, held against the picture drawn whole.
fn draw(store: &[u8], font: u32, code: u32, row_bytes: usize, height: usize) -> Vec<Vec<u8>> {
    let mut picture = vec![0xAA; row_bytes * height + 3];
    assert_eq!(draw_picture(store, &mut picture, font, code), 0);
    assert_eq!(picture[row_bytes * height..], [0xAA; 3]);
    (0..height)
        .map(|row| {
            let mut out = vec![0xAA; row_bytes + 3];
            assert_eq!(draw_row(store, &mut out, font, code, row as u32), 0);
            assert_eq!(out[row_bytes..], [0xAA; 3]);
            out.truncate(row_bytes);
            assert_eq!(out, picture[row * row_bytes..][..row_bytes]);
            out
        })
        .collect()
}

#[test]
fn p10_rows() {
    let mut store = with_fonts(1024, &[(5, A)]);
    let block = first(2, 10, 3, &[1, 2, 3, 5, 0, 0, 10]);
    assert_eq!(put_character(&mut store, &block, 5, 65), 0);
    assert_eq!(open_mark(&store), CLOSED);
    assert_eq!(draw(&store, 5, 65, 2, 3), [[56, 0], [56, 0], [255, 192]]);
}

#[test]
fn p11_a_zero_count_ends_nothing() {
    let mut store = with_fonts(1024, &[(5, A)]);
    let block = first(2, 300, 1, &[0, 255, 0, 45]);
    assert_eq!(put_character(&mut store, &block, 5, 65), 0);
    assert_eq!(open_mark(&store), CLOSED);
    assert_eq!(draw(&store, 5, 65, 38, 1), [[0; 38]]);
}

#[test]
fn p12_a_run_past_the_width() {
    let mut store = with_fonts(1024, &[(5, A)]);
    let before = store.clone();
    let block = first(2, 10, 1, &[0, 4, 7]);
    assert_eq!(put_character(&mut store, &block, 5, 65), 8);
    assert_eq!(store, before);
    // 255 is not always followed by more of its colour.
    let block = first(2, 255, 1, &[0, 255]);
    assert_eq!(put_character(&mut store, &block, 5, 65), 0);
    assert_eq!(open_mark(&store), CLOSED);
}

/// 02, W-206: "the 90-byte case becomes 94 and 93".
#[test]
fn a_store_that_one_font_fills() {
    let mut store = fresh(94);
    assert_eq!(download_font(&mut store, &A.header(), 32767), 0);
    assert_eq!(download_font(&mut store, &B.header(), 0), 10);
    assert_eq!(download_font(&mut store, &B.header(), 32767), 0);
    let mut store = fresh(93);
    for font in [A, A.dpi(600)] {
        assert_eq!(download_font(&mut store, &font.block(), 5), 10);
    }
    assert_eq!(store, fresh(93));
}

#[test]
fn width_1024_by_height_256_and_257() {
    for class in [1, 2] {
        let mut store = with_fonts(1024, &[(5, A)]);
        let before = store.clone();
        let block = first(class, 1024, 257, &[]);
        assert_eq!(put_character(&mut store, &block, 5, 65), 9);
        assert_eq!(store, before);
        let block = first(class, 1024, 256, &[]);
        assert_eq!(put_character(&mut store, &block, 5, 65), 0);
        assert_eq!(open_mark(&store), [1, 0, 5, 0, 65, 0]);
    }
}

#[test]
fn weight_bytes_249_and_248() {
    let mut store = fresh(1024);
    let mut header = A.header();
    header[24] = 248;
    assert_eq!(download_font(&mut store, &header, 5), 5);
    header[24] = 249;
    assert_eq!(download_font(&mut store, &header, 5), 0);
    assert_eq!(
        download_font(&mut store, &Font { weight: -6, ..A }.header(), 6),
        0
    );
    let thinnest = Request { weight: -7, ..BASE };
    assert_eq!(choose(&store, &thinnest), chosen(5));
}

#[test]
fn the_compressed_example_of_source_document_001() {
    let data = [
        2, 0, 20, //
        0, 0, 2, 6, 4, 6, 2, //
        0, 0, 1, 7, 4, 7, 1, //
        12, 8, 4, 8, //
        1, 5, 10, 5,
    ];
    assert_eq!(data.len(), 25);
    let mut store = with_fonts(1024, &[(5, A)]);
    let block = first(2, 20, 20, &data);
    assert_eq!(put_character(&mut store, &block, 5, 73), 0);
    assert_eq!(open_mark(&store), CLOSED);
    let mut told = [0; 16];
    assert_eq!(tell_character(&store, &mut told, 5, 73).count, 25);
    let mut expected = vec![[255, 255, 240]; 3];
    expected.push([0b1100_0000, 0b1111_0000, 0b0011_0000]);
    expected.push([0b1000_0000, 0b1111_0000, 0b0001_0000]);
    expected.extend([[0, 0b1111_0000, 0]; 13]);
    expected.extend([[0b0000_0111, 0b1111_1110, 0]; 2]);
    let rows = draw(&store, 5, 73, 3, 20);
    assert_eq!(rows, expected);
    assert_eq!(rows.concat().len(), 60);
}

#[test]
fn padding_bits_are_drawn_0_and_missing_bytes_white() {
    let mut store = with_fonts(1024, &[(5, A)]);
    let block = first(1, 10, 4, &[255, 255, 1, 255, 128]);
    assert_eq!(put_character(&mut store, &block, 5, 65), 0);
    let rows = [[255, 192], [1, 192], [128, 0], [0, 0]];
    assert_eq!(draw(&store, 5, 65, 2, 4), rows);
    let block = first(1, 8, 2, &[255, 254]);
    assert_eq!(put_character(&mut store, &block, 5, 65), 0);
    assert_eq!(draw(&store, 5, 65, 1, 2), [[255], [254]]);
}

#[test]
fn a_row_unfinished_at_the_end_of_data_is_not_drawn() {
    let mut store = with_fonts(1024, &[(5, A)]);
    let block = first(2, 10, 3, &[0, 0, 10, 7, 0, 9]);
    assert_eq!(put_character(&mut store, &block, 5, 65), 0);
    assert_eq!(open_mark(&store), [1, 0, 5, 0, 65, 0]);
    assert_eq!(draw(&store, 5, 65, 2, 3), [[255, 192], [0, 0], [0, 0]]);
    // A zero, then one dot more, and the picture is complete.
    assert_eq!(
        put_character(&mut store, &continuation(&[0, 1, 99]), 5, 65),
        0
    );
    assert_eq!(open_mark(&store), CLOSED);
    assert_eq!(draw(&store, 5, 65, 2, 3), [[255, 192]; 3]);
}

#[test]
fn a_font_is_kept_as_the_rules_leave_it() {
    let mut block = A.header().to_vec();
    block.extend(b"Copyright");
    block[1] = 73;
    block[5] = 7;
    block[16..20].copy_from_slice(&[0xFF, 0xFF, 0x2A, 0xAB]);
    block[40] = 150;
    let mut store = fresh(200);
    assert_eq!(download_font(&mut store, &block, 1), 0);
    let mut kept = [0xAA; KEPT + 2];
    assert_eq!(
        tell_font(&store, &mut kept, 1),
        Told {
            refusal: 0,
            count: 0
        }
    );
    let mut expected = block[..64].to_vec();
    expected[1] = 64;
    expected[5] = 0;
    expected[16..20].copy_from_slice(&[0x41, 0xA0, 0x2A, 0xAA]);
    expected[40] = 0;
    expected.extend([1, 44, 1, 44]);
    expected.extend([0xAA; 2]);
    assert_eq!(kept[..], expected);
    // A descriptor size one past the block's length.
    block[1] = 74;
    assert_eq!(download_font(&mut store, &block, 1), 4);
}

#[test]
fn a_character_is_kept_as_the_rules_leave_it() {
    let mut store = with_fonts(200, &[(1, A)]);
    let mut block = first(1, 9, 1, &[1, 2, 3]);
    block[5] = 7;
    block[14] = 0x80;
    assert_eq!(put_character(&mut store, &block, 1, 255), 0);
    let mut kept = [0xAA; 18];
    assert_eq!(
        tell_character(&store, &mut kept, 1, 255),
        Told {
            refusal: 0,
            count: 2
        }
    );
    let mut expected = block[..16].to_vec();
    expected[5] = 0;
    expected[14..16].fill(0);
    expected.extend([0xAA; 2]);
    assert_eq!(kept[..], expected);
}

/// The listing's text: the fields kept, by rising number (here up to 1000).
fn listing(store: &[u8], read: StreamRead) -> String {
    let mut text = String::from("id set spacing pitch height style weight face chars\n");
    for font in 0..=1000 {
        let mut h = [0; KEPT];
        let told = tell_font(store, &mut h, font);
        if told.refusal == 0 {
            let word = |high: usize, low: usize| u16::from_be_bytes([h[high], h[low]]);
            text += &format!(
                "{font} {} {} {} {} {} {} {} {}\n",
                word(14, 15),
                h[13],
                word(16, 17),
                word(18, 19),
                word(4, 23),
                h[24] as i8,
                word(26, 25),
                told.count
            );
        }
    }
    text += &format!("done {} refused {}", read.done, read.refused);
    if read.refusal == 13 {
        text += &format!(" stopped {}", read.place);
    }
    text + "\n"
}

#[test]
fn the_listing_stream() {
    let stream = [
        font_number(5),
        font_block(&A.header()),
        code(65),
        character_block(&first(1, 10, 1, &[255, 192])),
        font_number(2),
        font_block(&B.header()),
    ]
    .concat();
    let mut store = fresh(16384);
    let read = read_stream(&mut store, &stream);
    assert_eq!(
        listing(&store, read),
        "id set spacing pitch height style weight face chars\n\
         2 277 0 120 200 0 3 3 0\n\
         5 277 0 120 200 0 0 3 1\n\
         done 6 refused 0\n"
    );
    // Cut by the end, in the last block.
    let mut store = fresh(16384);
    let read = read_stream(&mut store, &stream[..stream.len() - 1]);
    let place = stream.len() - 64 - "?)s64W".len();
    assert_eq!(
        listing(&store, read),
        format!(
            "id set spacing pitch height style weight face chars\n\
             5 277 0 120 200 0 0 3 1\n\
             done 5 refused 0 stopped {place}\n"
        )
    );
}

/// Source document 004's portrait 'y', as far as its descriptor's size goes.
#[test]
fn the_portrait_example_of_source_document_004() {
    #[rustfmt::skip]
    let data = [
        127, 192, 63, 224, 255, 224, 127, 240, 255, 224, 127, 240, 127, 192, 63, 224,
        30, 0, 7, 128, 31, 0, 15, 128, 15, 0, 15, 0, 15, 128, 31, 0,
        7, 128, 30, 0, 7, 192, 62, 0, 3, 192, 60, 0, 3, 224, 124, 0,
        1, 224, 120, 0, 1, 240, 248, 0, 0, 240, 240, 0, 0, 249, 240, 0,
        0, 121, 224, 0, 0, 127, 224, 0, 0, 63, 192, 0, 0, 63, 192, 0,
        0, 31, 128, 0, 0, 31, 128, 0, 0, 15, 0, 0, 0, 31, 0, 0,
        0, 30, 0, 0, 0, 62, 0, 0, 0, 60, 0, 0, 0, 124, 0, 0,
        31, 255, 0, 0, 63, 255, 128, 0, 63, 255, 128, 0, 31, 255, 0, 0,
    ];
    let block = first(1, 27, 32, &data);
    assert_eq!(block.len(), 144);
    let mut store = with_fonts(1024, &[(1, A)]);
    assert_eq!(put_character(&mut store, &block, 1, 121), 0);
    assert_eq!(open_mark(&store), CLOSED);
    let mut expected: Vec<[u8; 4]> = Vec::new();
    for row in data.chunks(4) {
        expected.push([row[0], row[1], row[2], row[3] & 0b1110_0000]);
    }
    // Two rows have a padding bit set.
    assert_ne!(expected.concat(), data);
    assert_eq!(draw(&store, 1, 121, 4, 32), expected);
}
