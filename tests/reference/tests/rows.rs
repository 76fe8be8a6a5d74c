//! 02, W-209: "Say which row was bad."

mod common;

use common::*;
use marlinfold_reference::*;

/// A character download that is answered 8.
fn bad(row: u32, filled: u32, run: u32) -> Downloaded {
    Downloaded {
        refusal: 8,
        row,
        filled,
        run,
    }
}

/// Any other answer: "0 for all three otherwise".
fn answered(refusal: u32) -> Downloaded {
    Downloaded {
        refusal,
        ..Downloaded::default()
    }
}

/// What a first block of class 2 gets. A refusal leaves the store as it was.
fn sent(width: u16, height: u16, data: &[u8]) -> Downloaded {
    let mut store = with_fonts(40_000, &[(5, A)]);
    let before = store.clone();
    let answer = download_character(&mut store, &first(2, width, height, data), 5, 65);
    assert_eq!(answer.refusal == 0, store != before);
    answer
}

#[test]
fn the_example() {
    assert_eq!(sent(10, 4, &[1, 10, 0, 4, 7]), bad(2, 4, 7));
    // P12
    assert_eq!(sent(10, 1, &[0, 4, 7]), bad(0, 4, 7));
}

#[test]
fn the_first_run_of_a_row() {
    for (width, height, data, expected) in [
        (10, 1, &[0, 11][..], bad(0, 0, 11)),
        (10, 1, &[0, 255], bad(0, 0, 255)),
        (10, 9, &[0, 11], bad(0, 0, 11)),
        (10, 2, &[0, 10, 0, 11], bad(1, 0, 11)),
        (1, 1, &[0, 2], bad(0, 0, 2)),
        (254, 1, &[0, 255], bad(0, 0, 255)),
        (255, 1, &[0, 255], answered(0)),
    ] {
        assert_eq!(sent(width, height, data), expected, "{data:?}");
    }
}

/// "counted from 0 with repeats"
#[test]
fn rows_count_with_repeats() {
    for (height, data, expected) in [
        (9, &[0, 10, 0, 10, 0, 4, 7][..], bad(2, 4, 7)),
        (9, &[1, 10, 1, 10, 0, 4, 7], bad(4, 4, 7)),
        (9, &[3, 10, 0, 10, 2, 10, 0, 4, 7], bad(8, 4, 7)),
        (256, &[254, 10, 0, 4, 7], bad(255, 4, 7)),
        (257, &[255, 10, 0, 4, 7], bad(256, 4, 7)),
        (600, &[255, 10, 255, 10, 86, 10, 0, 4, 7], bad(599, 4, 7)),
    ] {
        assert_eq!(sent(10, height, data), expected, "{data:?}");
    }
}

/// Its own repeats do not count: the row is "the first of the picture's rows that it
/// would have drawn", also where they go beyond the height.
#[test]
fn a_bad_row_with_repeats() {
    for (height, data, expected) in [
        (9, &[7, 11][..], bad(0, 0, 11)),
        (9, &[1, 10, 3, 4, 7], bad(2, 4, 7)),
        (3, &[1, 10, 1, 4, 7], bad(2, 4, 7)),
        (3, &[1, 10, 255, 4, 7], bad(2, 4, 7)),
        (1, &[255, 4, 7], bad(0, 4, 7)),
    ] {
        assert_eq!(sent(10, height, data), expected, "{data:?}");
    }
}

/// "8 if class 2 data has a run past the width before all rows are drawn": after that,
/// no run is read. "Repeats below the last row are dropped."
#[test]
fn a_complete_picture_before_the_run() {
    for data in [
        &[2, 10, 0, 4, 7][..],
        &[3, 10, 0, 11],
        &[255, 10, 0, 11],
        &[0, 10, 1, 10, 0, 11],
        &[0, 10, 255, 10, 255, 255],
        &[0, 10, 0, 10, 0, 10, 0, 11],
    ] {
        assert_eq!(sent(10, 3, data), answered(0), "{data:?}");
    }
    // One row fewer, and it is the last row that is bad.
    for data in [
        &[1, 10, 0, 4, 7][..],
        &[0, 10, 0, 10, 0, 4, 7],
        &[1, 10, 9, 0, 4, 0, 7],
    ] {
        assert_eq!(sent(10, 3, data), bad(2, 4, 7), "{data:?}");
    }
}

/// A run of 0 is a run like any other, and fills nothing.
#[test]
fn runs_of_0() {
    for (height, data, expected) in [
        (1, &[0, 0, 11][..], bad(0, 0, 11)),
        (1, &[0, 0, 0, 0, 11], bad(0, 0, 11)),
        (1, &[0, 4, 0, 7], bad(0, 4, 7)),
        (1, &[0, 4, 0, 0, 0, 7], bad(0, 4, 7)),
        (1, &[0, 0, 9, 0, 2], bad(0, 9, 2)),
        // A full row ends at once: a 0 after it is a repeat count.
        (2, &[0, 10, 0, 11], bad(1, 0, 11)),
        (2, &[0, 0, 10, 0, 0, 11], bad(1, 0, 11)),
    ] {
        assert_eq!(sent(10, height, data), expected, "{data:?}");
    }
}

#[test]
fn the_widest_and_the_highest() {
    assert_eq!(sent(300, 1, &[0, 255, 0, 46]), bad(0, 255, 46));
    // 64 x 255 is 16,320.
    let mut wide = [vec![14], vec![255; 64], vec![64, 0], vec![255; 64]].concat();
    wide.push(65);
    assert_eq!(sent(16384, 16, &wide), bad(15, 16320, 65));
    // The last dot is all that a row lacks.
    let last = wide.len() - 1;
    wide[last] = 63;
    wide.push(255);
    assert_eq!(sent(16384, 16, &wide), bad(15, 16383, 255));
    // 63 x 256 + 255 rows, and one more.
    let high = [[255, 1].repeat(63), vec![254, 1, 0, 2]].concat();
    assert_eq!(sent(1, 16384, &high), bad(16383, 0, 2));
}

/// What a character gets that is sent in these parts: a first block, then
/// continuations. All but the last are done; a refusal leaves store and mark.
fn in_parts(width: u16, height: u16, parts: &[&[u8]]) -> Downloaded {
    let mut store = with_fonts(40_000, &[(5, A)]);
    let mut answer = answered(0);
    for (at, part) in parts.iter().enumerate() {
        assert_eq!(answer, answered(0), "{parts:?}");
        let before = store.clone();
        let block = match at {
            0 => first(2, width, height, part),
            _ => continuation(part),
        };
        answer = download_character(&mut store, &block, 5, 65);
        if answer.refusal != 0 {
            assert_eq!(store, before);
        }
    }
    answer
}

/// "In a continuation, rows count from the picture's top"; a row that is begun in kept
/// data counts its dots there too. So the numbers are those of the data in one block.
#[test]
fn wherever_a_continuation_begins() {
    for (width, height, data, expected) in [
        (10, 4, &[1, 10, 0, 4, 7][..], bad(2, 4, 7)),
        (10, 9, &[2, 3, 4, 3, 1, 0, 0, 9, 1, 5, 5, 6], bad(5, 5, 6)),
        (300, 3, &[1, 255, 45, 200, 255, 0, 46], bad(2, 255, 46)),
        (10, 2, &[0, 4, 0, 0, 7], bad(0, 4, 7)),
    ] {
        assert_eq!(sent(width, height, data), expected);
        // The last byte is the run that doesn't fit.
        for cut in 0..data.len() {
            let (kept, more) = data.split_at(cut);
            assert_eq!(in_parts(width, height, &[kept, more]), expected, "{cut}");
            // Without data nothing moves.
            let parts = [kept, &[], more];
            assert_eq!(in_parts(width, height, &parts), expected, "{cut}");
            let parts = [kept, &more[..1], &more[1..]];
            if more.len() > 1 {
                assert_eq!(in_parts(width, height, &parts), expected, "{cut}");
            }
        }
        let bytes: Vec<&[u8]> = data.chunks(1).collect();
        assert_eq!(in_parts(width, height, &bytes), expected);
    }
}

/// After an 8 the character is still open, and goes on from where it was.
#[test]
fn going_on_after_a_bad_continuation() {
    let mut store = with_fonts(400, &[(5, A)]);
    let block = first(2, 10, 3, &[1, 10, 5, 4]);
    let mut send = |block: &[u8]| download_character(&mut store, block, 5, 65);
    assert_eq!(send(&block), answered(0));
    for (data, expected) in [
        (&[7][..], bad(2, 4, 7)),
        (&[5, 2], bad(2, 9, 2)),
        (&[5], answered(0)),
        (&[255], bad(2, 9, 255)),
        (&[0, 0, 2], bad(2, 9, 2)),
        (&[1, 255, 255], answered(0)),
        (&[255], answered(7)),
    ] {
        assert_eq!(send(&continuation(data)), expected, "{data:?}");
    }
    assert_eq!(open_mark(&store), CLOSED);
}

/// "0 for all three otherwise": every other refusal of a block that has such a run.
#[test]
fn other_refusals_of_such_a_block() {
    let bad_block = first(2, 10, 4, &[1, 10, 0, 4, 7]);
    let with = |at: usize, byte: u8| {
        let mut block = bad_block.clone();
        block[at] = byte;
        block
    };
    let mut long = bad_block.clone();
    long.resize(32768, 0);
    let store = with_fonts(400, &[(5, A)]);
    for (block, font, code, refusal) in [
        (bad_block.clone(), 32768, 65, 2),
        (bad_block.clone(), 5, 256, 2),
        (long, 5, 65, 3),
        (bad_block.clone(), 6, 65, 6),
        (with(0, 5), 5, 65, 4),
        (continuation(&[1, 10, 0, 4, 7]), 5, 65, 7),
        (bad_block[..15].to_vec(), 5, 65, 3),
        (with(2, 15), 5, 65, 4),
        (with(3, 3), 5, 65, 4),
        (with(4, 1), 5, 65, 5),
        (first(2, 257, 16384, &[0, 255, 255]), 5, 65, 9),
        // Of class 1 they are bytes of dots.
        (with(3, 1), 5, 65, 0),
    ] {
        let mut store = store.clone();
        let answer = download_character(&mut store, &block, font, code);
        assert_eq!(answer, answered(refusal));
    }
    let mut not = vec![0; 400];
    assert_eq!(download_character(&mut not, &bad_block, 5, 65), answered(1));
}

/// 8 comes before the 9 for kept data and before 10.
#[test]
fn before_kept_data_and_room() {
    // A row of empty runs.
    let mut store = with_fonts(65536, &[(5, A)]);
    let block = first(2, 300, 2, &vec![0; 32751]);
    assert_eq!(download_character(&mut store, &block, 5, 65), answered(0));
    let more = continuation(&[0; 18]);
    assert_eq!(download_character(&mut store, &more, 5, 65), answered(9));
    let more = continuation(&[vec![0; 18], vec![255, 0, 46]].concat());
    assert_eq!(
        download_character(&mut store, &more, 5, 65),
        bad(0, 255, 46)
    );
    // A store that the font fills.
    let mut store = with_fonts(ONE_FONT, &[(5, A)]);
    let before = store.clone();
    let block = first(2, 10, 4, &[1, 10, 0, 4, 7]);
    assert_eq!(download_character(&mut store, &block, 5, 65), bad(2, 4, 7));
    assert_eq!(store, before);
    let block = first(2, 10, 4, &[1, 10, 0, 4, 6]);
    assert_eq!(download_character(&mut store, &block, 5, 65), answered(10));
    assert_eq!(store, fresh(ONE_FONT));
}

/// Font 5 and code 65 set, and a font.
fn beginning() -> Vec<u8> {
    [font_number(5), font_block(&A.header()), code(65)].concat()
}

/// Blocks that are refused with 8, and one that is done.
fn two_four_seven() -> Vec<u8> {
    character_block(&first(2, 10, 4, &[1, 10, 0, 4, 7]))
}

fn nothing_filled() -> Vec<u8> {
    character_block(&first(2, 10, 4, &[0, 11]))
}

fn good() -> Vec<u8> {
    character_block(&first(2, 10, 4, &[3, 10]))
}

/// What reading these parts into a fresh store answers: broken off at a place, commands
/// done and refused, and the three numbers.
fn reads(
    parts: &[Vec<u8>],
    broken: Option<usize>,
    counts: (u64, u64),
    (row, filled, run): (u32, u32, u32),
) {
    let expected = StreamRead {
        refusal: if broken.is_some() { 13 } else { 0 },
        done: counts.0,
        refused: counts.1,
        place: broken.unwrap_or(0) as u64,
        row,
        filled,
        run,
    };
    let read = read_stream(&mut fresh(400), &parts.concat());
    assert_eq!(read, expected);
}

/// The same where a byte after all of them breaks the stream: "also where it ends in 13".
fn reads_both_ways(parts: &[Vec<u8>], counts: (u64, u64), numbers: (u32, u32, u32)) {
    reads(parts, None, counts, numbers);
    let broken = [parts, &[b"?".to_vec()]].concat();
    reads(&broken, Some(parts.concat().len()), counts, numbers);
}

#[test]
fn a_stream_with_a_bad_run() {
    let parts = [beginning(), two_four_seven()];
    reads_both_ways(&parts, (3, 1), (2, 4, 7));
    let parts = [beginning(), nothing_filled()];
    reads_both_ways(&parts, (3, 1), (0, 0, 11));
    let parts = [beginning(), good()];
    reads_both_ways(&parts, (4, 0), (0, 0, 0));
}

/// "the stream for its first such refusal"
#[test]
fn the_first_of_several() {
    let parts = [beginning(), two_four_seven(), nothing_filled()];
    reads_both_ways(&parts, (3, 2), (2, 4, 7));
    let parts = [beginning(), nothing_filled(), two_four_seven()];
    reads_both_ways(&parts, (3, 2), (0, 0, 11));
    let parts = [
        beginning(),
        good(),
        nothing_filled(),
        good(),
        two_four_seven(),
        good(),
        two_four_seven(),
    ];
    reads_both_ways(&parts, (6, 3), (0, 0, 11));
}

/// "later commands that are done do not clear the numbers", nor do other refusals, and
/// those before it have none.
#[test]
fn beside_other_commands() {
    let refused = [
        code(256),
        font_number(32768),
        font_block(&[0; 64]),
        character_block(&[4, 1, 255]),
        character_block(&first(3, 10, 4, &[0, 11])),
    ]
    .concat();
    let parts = [beginning(), two_four_seven(), good(), font_number(6)];
    reads_both_ways(&parts, (5, 1), (2, 4, 7));
    let parts = [beginning(), refused.clone(), two_four_seven(), refused];
    reads_both_ways(&parts, (3, 11), (2, 4, 7));
    // A font struck for lack of room takes nothing with it.
    let large = character_block(&first(1, 8, 300, &[7; 300]));
    let parts = [beginning(), two_four_seven(), large, two_four_seven()];
    reads_both_ways(&parts, (3, 3), (2, 4, 7));
}

/// Only whole commands before the break count.
#[test]
fn broken_before_the_run() {
    let start = beginning();
    let parts = [start.clone(), b"?".to_vec(), two_four_seven()];
    reads(&parts, Some(start.len()), (3, 0), (0, 0, 0));
    // Cut by the end, though the run is there.
    let mut long = first(2, 10, 4, &[1, 10, 0, 4, 7, 0, 0]);
    long = character_block(&long);
    long.pop();
    let parts = [start.clone(), long];
    reads(&parts, Some(start.len()), (3, 0), (0, 0, 0));
    // In the bytes of a block that is another's.
    let inside = font_block(&two_four_seven());
    let parts = [start, inside];
    reads_both_ways(&parts, (3, 1), (0, 0, 0));
    // No store: 1, and zeros.
    let read = read_stream(&mut [0; 400], &parts.concat());
    let none = StreamRead {
        refusal: 1,
        ..StreamRead::default()
    };
    assert_eq!(read, none);
}

#[test]
fn by_a_continuation_in_a_stream() {
    let parts = [
        beginning(),
        character_block(&first(2, 10, 4, &[1, 10, 0, 3])),
        character_block(&continuation(&[1, 7])),
        character_block(&continuation(&[7, 0])),
        character_block(&continuation(&[11])),
    ];
    reads_both_ways(&parts, (5, 2), (2, 4, 7));
    // The open character of the store that the stream is read into.
    let mut store = with_fonts(400, &[(0, A)]);
    let block = first(2, 10, 4, &[1, 10, 0, 4]);
    assert_eq!(download_character(&mut store, &block, 0, 0), answered(0));
    let read = read_stream(&mut store, &character_block(&continuation(&[7])));
    assert_eq!((read.refusal, read.done, read.refused), (0, 0, 1));
    assert_eq!((read.row, read.filled, read.run), (2, 4, 7));
}

/// Runs that sum to this, with runs of 0 among them.
fn runs_of(chance: &mut Chance, dots: usize) -> Vec<u8> {
    let mut runs = Vec::new();
    let mut left = dots;
    while left > 0 {
        let run = match chance.below(3) {
            0 => left.min(255),
            _ => chance.below(left.min(255) + 1),
        };
        runs.push(run as u8);
        left -= run;
    }
    runs
}

/// Data made of the numbers that must be answered: rows with repeats up to the bad one,
/// runs that fill some of it, and a run that doesn't fit; then anything. Sent in one
/// block, in several, and as a stream of them.
#[test]
fn chance_rows_with_a_run_that_does_not_fit() {
    for seed in 0..3000 {
        let mut chance = Chance::new(seed);
        let (widest, highest) =
            chance.of(&[(1, 16384), (40, 9), (40, 600), (300, 600), (16384, 16)]);
        let (width, height) = (1 + chance.below(widest), 1 + chance.below(highest));
        let row = chance.below(height);
        let mut data = Vec::new();
        let mut drawn = 0;
        while drawn < row {
            let repeats = match chance.below(3) {
                0 => 0,
                1 => (row - drawn - 1).min(255),
                _ => chance.below((row - drawn).min(256)),
            };
            data.push(repeats as u8);
            data.extend(runs_of(&mut chance, width));
            drawn += 1 + repeats;
        }
        data.push(chance.byte());
        // A run has one byte, so that at most 254 dots may be missing.
        let least = width.saturating_sub(254);
        let filled = least + chance.below(width - least);
        data.extend(runs_of(&mut chance, filled));
        let zeros = chance.below(3);
        if filled == 0 {
            data.extend(vec![0; zeros]);
        }
        let missing = width - filled;
        let run = missing + 1 + chance.below(255 - missing);
        let end = data.len();
        data.push(run as u8);
        let more = chance.below(5);
        data.extend((0..more).map(|_| chance.byte()));

        let expected = bad(row as u32, filled as u32, run as u32);
        let (width, height) = (width as u16, height as u16);
        if data.len() <= 32751 {
            assert_eq!(sent(width, height, &data), expected, "seed {seed}");
        }
        let mut cuts: Vec<usize> = (0..1 + chance.below(4))
            .map(|_| chance.below(end + 1))
            .collect();
        cuts.push(0);
        cuts.sort_unstable();
        let ends = cuts[1..].iter().copied().chain([data.len()]);
        let parts: Vec<&[u8]> = cuts
            .iter()
            .zip(ends)
            .map(|(&from, to)| &data[from..to])
            .collect();
        if parts.iter().any(|part| part.len() > 32751) {
            continue;
        }
        assert_eq!(in_parts(width, height, &parts), expected, "seed {seed}");
        let mut stream = beginning();
        for (at, part) in parts.iter().enumerate() {
            stream.extend(character_block(&match at {
                0 => first(2, width, height, part),
                _ => continuation(part),
            }));
        }
        let read = read_stream(&mut fresh(40_000), &stream);
        assert_eq!((read.refusal, read.refused), (0, 1), "seed {seed}");
        assert_eq!(
            bad(read.row, read.filled, read.run),
            expected,
            "seed {seed}"
        );
    }
}
