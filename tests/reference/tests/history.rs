//! A history that meets every refusal from 1 to 14, the order of checks, the
//! open mark, the largest characters, and round trips.

mod common;

use common::*;
use marlinfold_reference::*;

#[test]
fn every_refusal() {
    let mut met = [false; 15];
    let mut meet = |refusal: u32, expected: u32| {
        assert_eq!(refusal, expected);
        met[refusal as usize] = true;
    };
    let dot = first(1, 1, 1, &[128]);
    let mut store = vec![1; 200];
    meet(make_fresh(&mut store[..11]), 1);
    meet(make_fresh(&mut vec![0; 65537]), 1);
    assert_eq!(store, [1; 200]);
    meet(download_font(&mut store, &A.header(), 40000), 1);
    meet(make_fresh(&mut store), 0);
    let empty = store.clone();

    meet(download_font(&mut store, &A.header(), 32768), 2);
    meet(download_font(&mut store, &A.header()[..63], 5), 3);
    meet(download_font(&mut store, &[0; 32768], 5), 3);
    meet(download_font(&mut store, &[0; 64], 5), 4);
    let mut wrong = A.header();
    wrong[3] = 3;
    meet(download_font(&mut store, &wrong, 5), 5);
    meet(put_character(&mut store, &dot, 5, 65), 6);
    meet(remove_font(&mut store, 5), 6);
    meet(choose(&store, &BASE).refusal, 11);
    assert_eq!(store, empty);

    meet(download_font(&mut store, &A.header(), 5), 0);
    let kept = store.clone();
    meet(put_character(&mut store, &dot, 5, 256), 2);
    meet(put_character(&mut store, &[4], 5, 65), 3);
    meet(put_character(&mut store, &[5, 0], 5, 65), 4);
    meet(put_character(&mut store, &[4, 0], 5, 65), 3);
    meet(put_character(&mut store, &[4, 1], 5, 65), 7);
    meet(remove_character(&mut store, 5, 65), 7);
    let run_past = first(2, 10, 1, &[0, 4, 7]);
    meet(put_character(&mut store, &run_past, 5, 65), 8);
    let large = first(1, 1024, 257, &[]);
    meet(put_character(&mut store, &large, 5, 65), 9);
    meet(tell_font(&store, &mut [0; 67], 5).refusal, 12);
    meet(write_font(&store, &mut [0; 74], 5).refusal, 12);
    meet(write_profiled(&store, &mut [0; 74], 5).refusal, 14);
    assert_eq!(store, kept);

    // Font blocks fill the store; the third would not fit.
    meet(download_font(&mut store, &B.header(), 2), 0);
    let kept = store.clone();
    meet(download_font(&mut store, &C.header(), 9), 10);
    assert_eq!(store, kept);
    // A character that does not fit takes its font with it.
    let row = first(1, 8, 40, &[7; 40]);
    meet(put_character(&mut store, &row, 5, 65), 10);
    assert_eq!(store, with_fonts(200, &[(2, B)]));

    let stream = [font_number(2), font_number(40000), b"?".to_vec()].concat();
    let read = read_stream(&mut store, &stream);
    meet(read.refusal, 13);
    assert_eq!((read.done, read.refused, read.place), (1, 1, 14));
    assert_eq!(met, [true; 15]);
}

#[test]
fn the_order_of_checks() {
    // Each block breaks the rule of its number and all that come later.
    let mut store = with_fonts(400, &[(5, A)]);
    let before = store.clone();
    let mut header = [0; 64];
    assert_eq!(download_font(&mut store, &header[..63], 32768), 2);
    assert_eq!(download_font(&mut store, &header[..63], 6), 3);
    header[3] = 9;
    assert_eq!(download_font(&mut store, &header, 6), 4);

    assert_eq!(put_character(&mut store, &[9], 32768, 0), 2);
    assert_eq!(put_character(&mut store, &[9], 6, 0), 3);
    assert_eq!(put_character(&mut store, &[9, 0], 6, 0), 6);
    assert_eq!(put_character(&mut store, &[9, 0], 5, 0), 4);
    assert_eq!(put_character(&mut store, &[4, 0, 9, 9], 5, 0), 3);
    let mut block = first(9, 16385, 16384, &[0, 255, 255]);
    assert_eq!(put_character(&mut store, &block, 5, 0), 4);
    block[3] = 2;
    assert_eq!(put_character(&mut store, &block, 5, 0), 5);
    let block = first(2, 257, 16384, &[0, 255, 255]);
    assert_eq!(put_character(&mut store, &block, 5, 0), 9);
    assert_eq!(store, before);

    // Of a request every number, 2 before 11.
    let wrong = [
        Request {
            symbol_set: 2048,
            ..BASE
        },
        Request { spacing: 2, ..BASE },
        Request {
            pitch: 57601,
            ..BASE
        },
        Request {
            height: 99976,
            ..BASE
        },
        Request {
            style: 1024,
            ..BASE
        },
        Request { weight: 8, ..BASE },
        Request { weight: -8, ..BASE },
        Request {
            weight: i32::MIN,
            ..BASE
        },
        Request {
            typeface: 65536,
            ..BASE
        },
        Request {
            orientation: 4,
            ..BASE
        },
        Request { mode: 0, ..BASE },
        Request { mode: 299, ..BASE },
        Request { mode: 301, ..BASE },
        Request { mode: 601, ..BASE },
        Request {
            mode: u32::MAX,
            ..BASE
        },
    ];
    for request in wrong {
        assert_eq!(choose(&fresh(12), &request).refusal, 2);
        assert_eq!(choose(&store, &request).refusal, 2);
    }
    let ends = Request {
        symbol_set: 2047,
        spacing: 1,
        pitch: 57600,
        height: 99975,
        style: 1023,
        weight: 7,
        typeface: 65535,
        orientation: 3,
        mode: 600,
    };
    assert_eq!(choose(&store, &ends), chosen(5));

    // Drawing: 2 for the row only after 7, and before 12.
    assert_eq!(put_character(&mut store, &first(1, 9, 2, &[]), 5, 0), 0);
    assert_eq!(draw_row(&store, &mut [], 5, 256, 0), 2);
    assert_eq!(draw_row(&store, &mut [], 6, 0, 9), 6);
    assert_eq!(draw_row(&store, &mut [], 5, 1, 9), 7);
    assert_eq!(draw_row(&store, &mut [], 5, 0, 2), 2);
    assert_eq!(draw_row(&store, &mut [], 5, 0, u32::MAX), 2);
    assert_eq!(draw_row(&store, &mut [0; 1], 5, 0, 1), 12);
    assert_eq!(draw_picture(&store, &mut [0; 3], 5, 0), 12);
    assert_eq!(draw_picture(&store, &mut [0; 4], 5, 0), 0);
}

#[test]
fn the_open_mark() {
    let mut store = with_fonts(1000, &[(5, A), (300, B)]);
    let half = first(1, 8, 2, &[1]);
    let whole = first(1, 8, 2, &[1, 2]);
    assert_eq!(put_character(&mut store, &half, 300, 65), 0);
    assert_eq!(open_mark(&store), [1, 0, 44, 1, 65, 0]);
    // Refused blocks, other fonts and an empty continuation leave it.
    assert_eq!(put_character(&mut store, &continuation(&[2]), 5, 65), 7);
    assert_eq!(put_character(&mut store, &continuation(&[2]), 300, 66), 7);
    assert_eq!(put_character(&mut store, &first(3, 8, 2, &[]), 300, 65), 4);
    let before = store.clone();
    assert_eq!(put_character(&mut store, &continuation(&[]), 300, 65), 0);
    assert_eq!(store, before);
    assert_eq!(download_font(&mut store, &A.header(), 5), 0);
    assert_eq!(store, before);
    assert_eq!(remove_font(&mut store, 5), 0);
    assert_eq!(open_mark(&store), [1, 0, 44, 1, 65, 0]);
    // A complete first block elsewhere leaves none open.
    assert_eq!(put_character(&mut store, &whole, 300, 1), 0);
    assert_eq!(open_mark(&store), CLOSED);
    assert_eq!(put_character(&mut store, &continuation(&[2]), 300, 65), 7);
    // Opened again; closed by its removal, its font's removal, and its font's
    // replacement.
    assert_eq!(put_character(&mut store, &half, 300, 65), 0);
    assert_eq!(remove_character(&mut store, 300, 1), 0);
    assert_eq!(open_mark(&store), [1, 0, 44, 1, 65, 0]);
    assert_eq!(remove_character(&mut store, 300, 65), 0);
    assert_eq!(open_mark(&store), CLOSED);
    assert_eq!(put_character(&mut store, &half, 300, 65), 0);
    assert_eq!(download_font(&mut store, &B.header(), 300), 0);
    assert_eq!(store, with_fonts(1000, &[(300, B)]));
    assert_eq!(put_character(&mut store, &half, 300, 65), 0);
    assert_eq!(remove_font(&mut store, 300), 0);
    assert_eq!(store, fresh(1000));
}

#[test]
fn no_room_for_a_continuation() {
    // Two fonts, 26 bytes and one of data fill the store.
    let length = ONE_FONT + FONT_RECORD + CHARACTER_RECORD + 1;
    let mut store = with_fonts(length, &[(5, A), (6, B)]);
    let half = first(1, 8, 4, &[1]);
    assert_eq!(put_character(&mut store, &half, 5, 65), 0);
    let filled = store.clone();
    // 8 and 9 come before 10, and data that is dropped needs no room.
    assert_eq!(put_character(&mut store, &continuation(&[2]), 5, 65), 10);
    assert_eq!(open_mark(&store), CLOSED);
    assert_eq!(store, with_fonts(length, &[(6, B)]));
    // The replaced character's room is free.
    store = filled;
    let whole = first(1, 8, 1, &[9, 9, 9]);
    assert_eq!(put_character(&mut store, &whole, 5, 65), 0);
    assert_eq!(open_mark(&store), CLOSED);
    // Another font's open character stays open.
    assert_eq!(put_character(&mut store, &half, 5, 65), 0);
    assert_eq!(put_character(&mut store, &whole, 6, 65), 10);
    assert_eq!(open_mark(&store), [1, 0, 5, 0, 65, 0]);
}

/// Class 2 data that never completes: one row of empty runs.
fn endless(bytes: usize) -> Vec<u8> {
    vec![0; bytes]
}

#[test]
fn kept_data_up_to_32768_bytes() {
    let mut store = with_fonts(65536, &[(5, A)]);
    let block = first(2, 300, 2, &endless(32751));
    assert_eq!(block.len(), 32767);
    assert_eq!(put_character(&mut store, &block, 5, 65), 0);
    let before = store.clone();
    assert_eq!(
        put_character(&mut store, &continuation(&endless(18)), 5, 65),
        9
    );
    // 8 comes before 9, wherever the run stands.
    let past = [endless(18), vec![255, 0, 46]].concat();
    assert_eq!(put_character(&mut store, &continuation(&past), 5, 65), 8);
    assert_eq!(store, before);
    assert_eq!(
        put_character(&mut store, &continuation(&endless(17)), 5, 65),
        0
    );
    assert_eq!(open_mark(&store), [1, 0, 5, 0, 65, 0]);
    assert_eq!(tell_character(&store, &mut [0; 16], 5, 65).count, 32768);
    assert_eq!(put_character(&mut store, &continuation(&[0]), 5, 65), 9);
    assert_eq!(put_character(&mut store, &continuation(&[]), 5, 65), 0);
    assert!(is_store(&store));
    round_trip(&store, 5);

    // What completes within the limit is taken, whatever is dropped after it.
    let mut store = before;
    let end = [vec![255, 0, 45, 0, 0, 255, 0, 45], vec![9; 1000]].concat();
    assert_eq!(put_character(&mut store, &continuation(&end), 5, 65), 0);
    assert_eq!(open_mark(&store), CLOSED);
    assert_eq!(tell_character(&store, &mut [0; 16], 5, 65).count, 32759);
    round_trip(&store, 5);
}

/// The bytes of a font's records.
fn records_of(store: &[u8], font: u32) -> Vec<u8> {
    let mut records = Vec::new();
    let mut at = 12;
    while at + 6 <= store.len() && store[at..at + 4] != [0; 4] {
        let length = u32::from_le_bytes(store[at..at + 4].try_into().unwrap()) as usize;
        if u32::from(u16::from_le_bytes([store[at + 6], store[at + 7]])) == font {
            records.extend(&store[at..at + length]);
        }
        at += length;
    }
    records
}

/// Writes a font, reads it into a fresh store of the same length, compares.
fn round_trip(store: &[u8], font: u32) {
    let mut stream = vec![0xAA; 100_000];
    let written = write_font(store, &mut stream, font);
    assert_eq!(written.refusal, 0);
    let length = written.length as usize;
    assert!(stream[length..].iter().all(|&byte| byte == 0xAA));
    let mut short = vec![0xAA; length - 1];
    let refused = Written {
        refusal: 12,
        length: 0,
    };
    assert_eq!(write_font(store, &mut short, font), refused);
    assert!(short.iter().all(|&byte| byte == 0xAA));
    let mut exact = vec![0xAA; length];
    assert_eq!(write_font(store, &mut exact, font), written);
    assert_eq!(exact, stream[..length]);

    let mut again = fresh(store.len());
    let read = read_stream(&mut again, &exact);
    assert_eq!((read.refusal, read.refused, read.place), (0, 0, 0));
    let mut records = records_of(store, font);
    records.resize(store.len() - 12, 0);
    assert_eq!(again[12..], records);
}

#[test]
fn round_trips() {
    let mut store = with_fonts(65536, &[(0, A), (32767, C), (77, B)]);
    for (code, data) in [(0, &[1][..]), (255, &[]), (9, &[1, 2, 3, 4])] {
        let block = first(1, 12, 2, data);
        assert_eq!(put_character(&mut store, &block, 77, code), 0);
    }
    let block = first(2, 10, 3, &[1, 2, 3, 5, 0, 0, 10]);
    assert_eq!(put_character(&mut store, &block, 0, 100), 0);
    let block = first(1, 1024, 256, &[0x5A; 32751]);
    assert_eq!(put_character(&mut store, &block, 0, 10), 0);
    assert_eq!(
        put_character(&mut store, &continuation(&[0xA5; 17]), 0, 10),
        0
    );
    for font in [0, 77, 32767] {
        round_trip(&store, font);
    }
    let mut out = [0; 200];
    let length = write_font(&store, &mut out, 77).length as usize;
    let expected = [
        font_number(77),
        font_block(&B.header()),
        code(0),
        character_block(&first(1, 12, 2, &[1])),
        code(9),
        character_block(&first(1, 12, 2, &[1, 2, 3, 4])),
        code(255),
        character_block(&first(1, 12, 2, &[])),
    ];
    assert_eq!(out[..length], expected.concat());
}

#[test]
fn streams_broken_and_whole() {
    let good = font_number(5);
    // What follows the good command, the counts, and the place from its end; a
    // whole stream has no place.
    let cases: &[(&[u8], u64, u64, Option<u64>)] = &[
        (b"", 1, 0, None),
        (b"\x1b*c00005D", 2, 0, None),
        (b"\x1b*c32767D\x1b*c255E", 3, 0, None),
        (b"\x1b*c32768D\x1b*c256E\x1b*c99999E", 1, 3, None),
        (b"\x1b)s0W\x1b(s0W", 1, 2, None),
        (b"\x1b)s00002W??", 1, 1, None),
        (b"?", 1, 0, Some(0)),
        (b"\x1b", 1, 0, Some(0)),
        (b"\x1b*c", 1, 0, Some(0)),
        (b"\x1b*c5", 1, 0, Some(0)),
        (b"\x1b*cD", 1, 0, Some(0)),
        (b"\x1b*c000005D", 1, 0, Some(0)),
        (b"\x1b*c5d", 1, 0, Some(0)),
        (b"\x1b*c5W", 1, 0, Some(0)),
        (b"\x1b*c5d65E", 1, 0, Some(0)),
        (b"\x1b*C5D", 1, 0, Some(0)),
        (b"\x1b*s5W?????", 1, 0, Some(0)),
        (b"\x1b)c5D", 1, 0, Some(0)),
        (b"\x1b)s5D", 1, 0, Some(0)),
        (b"\x1b)s-1W", 1, 0, Some(0)),
        (b"\x1b)s2W?", 1, 0, Some(0)),
        (b"\x1b)s32768W", 1, 0, Some(0)),
        (b"\x1b)s2W??\x1b*c7D!", 2, 1, Some(12)),
    ];
    for (rest, done, refused, place) in cases {
        let mut store = fresh(100);
        let stream = [&good[..], rest].concat();
        let expected = StreamRead {
            refusal: if place.is_some() { 13 } else { 0 },
            done: *done,
            refused: *refused,
            place: place.map_or(0, |place| place + good.len() as u64),
            ..StreamRead::default()
        };
        let text = String::from_utf8_lossy(rest);
        assert_eq!(read_stream(&mut store, &stream), expected, "{text:?}");
        assert_eq!(store, fresh(100));
    }
    // A block as long as a block may be.
    let mut long = A.header().to_vec();
    long.resize(32767, 7);
    let mut store = fresh(ONE_FONT);
    let read = read_stream(&mut store, &font_block(&long));
    assert_eq!((read.refusal, read.done), (0, 1));
    assert_eq!(store, with_fonts(ONE_FONT, &[(0, A)]));
    // Reading checks 1 first.
    let not = StreamRead {
        refusal: 1,
        ..StreamRead::default()
    };
    assert_eq!(read_stream(&mut [0; 12], b"?"), not);
}

#[test]
fn what_is_a_store() {
    let mut store = with_fonts(400, &[(5, A), (9, C)]);
    assert_eq!(
        put_character(&mut store, &first(2, 10, 3, &[1, 2, 3, 5, 0]), 5, 65),
        0
    );
    assert!(is_store(&store));
    // Places: the mark's record, font 5, its character, font 9.
    let (five, letter) = (MARK_RECORD, ONE_FONT);
    let nine = letter + CHARACTER_RECORD + 5;
    let end = nine + FONT_RECORD;
    let changes: &[(usize, u8)] = &[
        (0, 13),
        (4, 2),
        (6, 0),
        (6, 2),
        (7, 1),
        (8, 6),
        (10, 66),
        (five, 81),
        (five, 72),
        (five, 78),
        (five + 4, 4),
        (five + 6, 9),
        (five + 6, 10),
        (five + 7, 128),
        (five + FONT_COUNT, 0),
        (five + FONT_COUNT, 2),
        (five + FONT_COUNT + 1, 1),
        (five + FONT_SUM, 0),
        (five + FONT_SUM, 4),
        (five + FONT_SUM, 6),
        (five + FONT_SUM + 1, 1),
        (five + FONT_SUM + 2, 1),
        (five + FONT_SUM + 3, 1),
        (five + FONT_KEPT, 1),
        (five + FONT_KEPT + 1, 65),
        (five + FONT_KEPT + 2, 1),
        (five + FONT_KEPT + 5, 1),
        (five + FONT_KEPT + 12, 1),
        (five + FONT_KEPT + 64, 2),
        (five + FONT_KEPT + 65, 45),
        (five + FONT_KEPT + 66, 2),
        (five + FONT_KEPT + 67, 43),
        (letter, 32),
        (letter + 4, 2),
        (letter + 6, 9),
        (letter + 9, 1),
        (letter + 10, 5),
        (letter + 11, 1),
        (letter + 13, 3),
        (letter + 14, 1),
        (letter + 15, 1),
        (letter + 24, 128),
        (letter + 29, 6),
        (nine + 6, 5),
        (nine + FONT_COUNT, 1),
        (nine + FONT_SUM, 1),
        (nine + FONT_KEPT + 12, 4),
        (end, 1),
        (end + 4, 1),
        (399, 1),
    ];
    for &(at, byte) in changes {
        let mut changed = store.clone();
        assert_ne!(changed[at], byte);
        changed[at] = byte;
        assert!(!is_store(&changed), "byte {at} as {byte}");
        assert_eq!(remove_font(&mut changed, 5), 1);
    }
    // A font's number may be another as long as the numbers rise.
    let mut changed = store.clone();
    changed[nine + 6] = 6;
    assert!(is_store(&changed));
    // Cut within its records it is none, but for a cut just before font 9;
    // behind them it is one, also where no head would fit any more.
    for length in 0..end {
        assert_eq!(is_store(&store[..length]), length == nine, "{length}");
    }
    for length in end..=400 {
        assert!(is_store(&store[..length]), "length {length}");
    }
    let mut long = store.clone();
    long.resize(65536, 0);
    assert!(is_store(&long));
    long.resize(65537, 0);
    assert!(!is_store(&long));
    // Kept data that goes on after completion, and class 1 data too long.
    let mut store = with_fonts(200, &[(5, A)]);
    assert_eq!(
        put_character(&mut store, &first(1, 8, 2, &[1, 2]), 5, 65),
        0
    );
    let mut long = store.clone();
    long[letter] += 1;
    long[five + FONT_SUM] += 1;
    assert!(!is_store(&long));
    let mut open = store;
    open[6..12].copy_from_slice(&[1, 0, 5, 0, 65, 0]);
    assert!(!is_store(&open));
    // Incomplete, it may be open or not.
    open[letter] -= 1;
    open[letter + CHARACTER_RECORD + 1] = 0;
    open[five + FONT_SUM] -= 1;
    assert!(is_store(&open));
    open[6..12].fill(0);
    assert!(is_store(&open));
}

/// Writes a field, high byte first.
fn set(block: &mut [u8], at: usize, value: i32) {
    block[at..at + 2].copy_from_slice(&(value as u16).to_be_bytes());
}

#[test]
fn each_field_of_a_header_on_both_sides() {
    // Field, then what is taken and what is not.
    let words: &[(usize, &[i32], &[i32])] = &[
        (6, &[0, 49], &[50, 65535]),
        (8, &[1, 65535], &[0]),
        (10, &[36, 65535], &[0, 35]),
        (14, &[0, 2047], &[2048, 65535]),
        (16, &[0, 65535], &[]),
        (18, &[0, 65535], &[]),
    ];
    let bytes: &[(usize, &[u8], &[u8])] = &[
        (3, &[0, 1, 2], &[3, 255]),
        (4, &[0, 3], &[4, 255]),
        (12, &[0, 1, 2, 3], &[4, 255]),
        (13, &[0, 1], &[2, 255]),
        (23, &[0, 255], &[]),
        (24, &[0, 7, 249, 255], &[8, 127, 128, 248]),
    ];
    let answer = |header: &[u8]| download_font(&mut fresh(ONE_FONT), header, 0);
    for (at, taken, not) in words {
        for (values, refusal) in [(taken, 0), (not, 5)] {
            for &value in *values {
                let mut header = A.header();
                set(&mut header, *at, value);
                assert_eq!(answer(&header), refusal, "{at}: {value}");
            }
        }
    }
    for (at, taken, not) in bytes {
        for (values, refusal) in [(taken, 0), (not, 5)] {
            for &value in *values {
                let mut header = A.header();
                header[*at] = value;
                assert_eq!(answer(&header), refusal, "{at}: {value}");
            }
        }
    }
    // "Any other field may hold anything."
    for at in (20..23).chain(25..64).chain([5]) {
        let mut header = A.header();
        header[at] = 255;
        assert_eq!(answer(&header), 0, "{at}");
    }
}

#[test]
fn each_field_of_a_descriptor_on_both_sides() {
    let fields: &[(usize, &[i32], &[i32])] = &[
        (6, &[-16384, 0, 16384], &[-16385, 16385, 32767, -32768]),
        (8, &[-16384, 0, 16384], &[-16385, 16385, 32767, -32768]),
        (10, &[1, 16384], &[0, 16385, 65535]),
        (12, &[1, 16384], &[0, 16385, 65535]),
        (14, &[-32768, -1, 0, 32767], &[]),
    ];
    for (at, taken, not) in fields {
        for (values, refusal) in [(taken, 0), (not, 5)] {
            for &value in *values {
                for class in [1, 2] {
                    let mut store = with_fonts(200, &[(5, A)]);
                    let mut block = first(class, 1, 1, &[]);
                    set(&mut block, *at, value);
                    let answer = put_character(&mut store, &block, 5, 65);
                    assert_eq!(answer, refusal, "{at}: {value}");
                    assert!(is_store(&store));
                }
            }
        }
    }
    // The orientation is the font's.
    for (font, orientation, refusal) in [(A, 0, 0), (A, 1, 5), (C, 0, 5), (C, 1, 0)] {
        let mut store = with_fonts(200, &[(5, font)]);
        let mut block = first(1, 1, 1, &[]);
        block[4] = orientation;
        assert_eq!(put_character(&mut store, &block, 5, 65), refusal);
    }
    // Size, class and format.
    for (at, byte, refusal) in [
        (0, 5, 4),
        (2, 13, 4),
        (2, 15, 4),
        (3, 0, 4),
        (3, 3, 4),
        (5, 9, 0),
    ] {
        let mut store = with_fonts(200, &[(5, A)]);
        let mut block = first(1, 1, 1, &[]);
        block[at] = byte;
        assert_eq!(put_character(&mut store, &block, 5, 65), refusal);
    }
    // A block of 32,767 bytes is taken, one of 32,768 is not.
    let mut store = with_fonts(200, &[(5, A)]);
    let mut block = first(1, 1, 1, &[128; 32752]);
    assert_eq!(put_character(&mut store, &block, 5, 65), 3);
    block.pop();
    assert_eq!(put_character(&mut store, &block, 5, 65), 0);
}

/// 02, W-205: "Every download, replacement, continuation and removal, also the one
/// for lack of room, keeps both equal to a fresh count"; those of a stream too.
#[test]
fn the_count_beside_the_font() {
    let length = MARK_RECORD + 2 * FONT_RECORD + 3 * CHARACTER_RECORD + 8;
    let mut store = with_fonts(length, &[(5, A), (9, B)]);
    let counts = |store: &[u8]| (held(store, 5), held(store, 9));
    assert_eq!(counts(&store), ((0, 0), (0, 0)));
    let steps: &[(u32, u32, Vec<u8>, (u32, u32))] = &[
        (5, 65, first(1, 8, 4, &[1, 2, 3, 4]), (1, 4)),
        // Another code, without data.
        (5, 66, first(1, 8, 2, &[]), (2, 4)),
        (5, 66, continuation(&[9]), (2, 5)),
        // What is dropped isn't counted, nor a continuation that is refused.
        (5, 66, continuation(&[9, 9, 9]), (2, 6)),
        (5, 66, continuation(&[9]), (2, 6)),
        // In place of four bytes, one; then three.
        (5, 65, first(1, 8, 1, &[7, 7]), (2, 3)),
        (5, 65, first(2, 8, 1, &[0, 0, 8]), (2, 5)),
        (5, 65, first(2, 8, 1, &[0, 9]), (2, 5)),
    ];
    for (font, code, block, expected) in steps {
        put_character(&mut store, block, *font, *code);
        assert_eq!(counts(&store), (*expected, (0, 0)), "{block:?}");
        let told = tell_font(&store, &mut [0; KEPT], 5);
        assert_eq!(told.count, expected.0);
    }
    let dot = first(1, 1, 1, &[128]);
    assert_eq!(put_character(&mut store, &dot, 9, 0), 0);
    assert_eq!(counts(&store), ((2, 5), (1, 1)));
    assert_eq!(remove_character(&mut store, 5, 66), 0);
    assert_eq!(counts(&store), ((1, 3), (1, 1)));
    assert_eq!(remove_character(&mut store, 5, 66), 7);
    assert_eq!(counts(&store), ((1, 3), (1, 1)));
    // Lack of room strikes font 9 alone; a new font of a number has nothing yet.
    let row = first(1, 8, 40, &[7; 40]);
    assert_eq!(put_character(&mut store, &row, 9, 1), 10);
    assert_eq!(held(&store, 5), (1, 3));
    assert_eq!(tell_font(&store, &mut [0; KEPT], 9).refusal, 6);
    let stream = [
        font_number(5),
        code(70),
        character_block(&dot),
        font_block(&C.header()),
        font_number(9),
        font_block(&B.header()),
        code(1),
        character_block(&first(1, 8, 2, &[1])),
        character_block(&continuation(&[2])),
        character_block(&dot),
    ]
    .concat();
    assert_eq!(read_stream(&mut store, &stream).done, 10);
    assert_eq!(counts(&store), ((0, 0), (1, 1)));
    // 256 characters, which one byte wouldn't count.
    let mut store = with_fonts(65536, &[(5, A)]);
    for code in 0..256 {
        assert_eq!(put_character(&mut store, &row, 5, code), 0);
    }
    assert_eq!(held(&store, 5), (256, 256 * 40));
    assert_eq!(tell_font(&store, &mut [0; KEPT], 5).count, 256);
}

/// "1 also where a held count is untrue", from every call.
#[test]
fn an_untrue_count_is_no_store() {
    let mut store = with_fonts(600, &[(5, A), (9, B)]);
    for (font, data) in [(5, &[1, 2][..]), (9, &[1])] {
        for code in [1, 2] {
            let block = first(1, 8, 3, data);
            assert_eq!(put_character(&mut store, &block, font, code), 0);
        }
    }
    let nine = ONE_FONT + 2 * (CHARACTER_RECORD + 2);
    for font in [MARK_RECORD, nine] {
        for at in FONT_COUNT..FONT_KEPT {
            for other in [1, 2, 4, 128, 255] {
                let mut changed = store.clone();
                changed[font + at] ^= other;
                refuses_all(&mut changed);
            }
        }
    }
    // Both fonts' numbers together true, each untrue.
    let mut changed = store.clone();
    changed[MARK_RECORD + FONT_SUM] = 2;
    changed[nine + FONT_SUM] = 4;
    refuses_all(&mut changed);
    // The first font's characters gone, its numbers left standing.
    let mut changed = store.clone();
    changed.drain(ONE_FONT..nine);
    changed.resize(600, 0);
    refuses_all(&mut changed);
    assert!(is_store(&store));
}

/// Font records of 72 bytes, as they were before W-205, and of 78, before W-206.
#[test]
fn stores_of_the_versions_before() {
    let mut before = with_fonts(600, &[(5, A)]);
    before.drain(ONE_FONT - 4..ONE_FONT);
    before[MARK_RECORD] = 78;
    refuses_all(&mut before);
    before.drain(MARK_RECORD + FONT_COUNT..MARK_RECORD + FONT_KEPT);
    before[MARK_RECORD] = 72;
    refuses_all(&mut before);
}

/// 1 from every call on a store, and nothing changed.
fn refuses_all(store: &mut [u8]) {
    let before = store.to_vec();
    let dot = first(1, 1, 1, &[128]);
    let mut out = [0xAA; 100];
    let refusals = [
        download_font(store, &A.header(), 5),
        put_character(store, &dot, 5, 65),
        remove_font(store, 5),
        remove_character(store, 5, 1),
        choose(store, &BASE).refusal,
        choose_sheet(store, &[], &mut []),
        tell_font(store, &mut out, 5).refusal,
        tell_character(store, &mut out, 5, 1).refusal,
        draw_row(store, &mut out, 5, 1, 0),
        draw_picture(store, &mut out, 5, 1),
        write_font(store, &mut out, 5).refusal,
        check_profile(store, 5).refusal,
        write_profiled(store, &mut out, 5).refusal,
        read_stream(store, b"").refusal,
    ];
    assert_eq!(refusals, [1; 14]);
    assert_eq!(store, before);
    assert_eq!(out, [0xAA; 100]);
}

#[test]
fn forms_that_no_call_leaves() {
    // Class 2 data of 32,769 bytes.
    let mut store = with_fonts(65536, &[(5, A)]);
    let block = first(2, 300, 2, &endless(32751));
    assert_eq!(put_character(&mut store, &block, 5, 65), 0);
    let length = |store: &mut [u8], data: u32| {
        store[ONE_FONT..ONE_FONT + 4].copy_from_slice(&(26 + data).to_le_bytes());
        let sum = MARK_RECORD + FONT_SUM;
        store[sum..sum + 4].copy_from_slice(&data.to_le_bytes());
        is_store(store)
    };
    assert!(length(&mut store, 32768));
    assert!(!length(&mut store, 32769));
    // A picture of 32,896 bytes, no data.
    let mut store = with_fonts(200, &[(5, A)]);
    let block = first(1, 1024, 256, &[]);
    assert_eq!(put_character(&mut store, &block, 5, 65), 0);
    assert!(is_store(&store));
    set(&mut store, ONE_FONT + 10 + 12, 257);
    assert!(!is_store(&store));
    // The same code twice, the same font twice, and fonts that fall.
    let mut store = with_fonts(400, &[(5, A)]);
    let block = first(1, 8, 1, &[7]);
    assert_eq!(put_character(&mut store, &block, 5, 65), 0);
    assert_eq!(put_character(&mut store, &block, 5, 66), 0);
    for (code, is) in [(64, false), (65, false), (66, true), (255, true)] {
        store[ONE_FONT + 27 + 8] = code;
        assert_eq!(is_store(&store), is, "{code}");
    }
    let mut store = with_fonts(400, &[(5, A), (6, A)]);
    for (font, is) in [(4, false), (5, false), (6, true), (255, true)] {
        store[ONE_FONT + 6] = font;
        assert_eq!(is_store(&store), is, "{font}");
    }
}

#[test]
fn a_long_character_as_it_is_written() {
    let mut store = with_fonts(65536, &[(12345, A)]);
    let data: Vec<u8> = (0..32768_u32).map(|i| (i * i / 7) as u8).collect();
    let block = first(1, 1024, 256, &data[..32751]);
    assert_eq!(put_character(&mut store, &block, 12345, 0), 0);
    let rest = continuation(&data[32751..]);
    assert_eq!(put_character(&mut store, &rest, 12345, 0), 0);
    let expected = [
        font_number(12345),
        font_block(&A.header()),
        code(0),
        character_block(&block),
        character_block(&rest),
    ]
    .concat();
    let mut out = vec![0; 40000];
    let length = write_font(&store, &mut out, 12345).length as usize;
    assert_eq!(out[..length], expected);
    let mut picture = vec![0; 32768];
    assert_eq!(draw_picture(&store, &mut picture, 12345, 0), 0);
    assert_eq!(picture, data);
}
