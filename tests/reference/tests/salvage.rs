//! 02, W-212: "Reading past a torn place."

mod common;

use common::*;
use marlinfold_reference::*;

/// Bytes of a list before the call.
const BEFORE: u8 = 0xAB;

/// A salvage reading's answer, and what it lists: pairs of first place and length.
fn salvaged(store: &mut [u8], stream: &[u8], list_len: usize) -> (Salvaged, Vec<(u64, u64)>) {
    let mut list = vec![BEFORE; list_len];
    let answer = salvage_stream(store, stream, &mut list);
    let number = |at: usize| u64::from_le_bytes(list[at..at + 8].try_into().unwrap());
    let mut stretches = Vec::new();
    let mut at = 0;
    while at + 16 <= list.len() && list[at..at + 16] != [BEFORE; 16] {
        stretches.push((number(at), number(at + 8)));
        at += 16;
    }
    assert!(list[at..].iter().all(|&byte| byte == BEFORE));
    if answer.refusal == 0 {
        assert_eq!(answer.stretches, stretches.len() as u64);
    }
    (answer, stretches)
}

fn done(stretches: u64, done: u64, refused: u64) -> Salvaged {
    Salvaged {
        refusal: 0,
        stretches,
        done,
        refused,
    }
}

fn refused(refusal: u32) -> Salvaged {
    Salvaged {
        refusal,
        ..Salvaged::default()
    }
}

/// What a stream of text alone gives on a fresh store, with room for 20 stretches.
fn of_text(stream: &str) -> (Salvaged, Vec<(u64, u64)>) {
    salvaged(&mut fresh(500), stream.as_bytes(), 320)
}

#[test]
fn a_whole_stream() {
    let stream = [font_number(5), font_block(&A.block()), code(65)].concat();
    for list_len in [0, 1, 15, 16, 100] {
        let mut store = fresh(500);
        assert_eq!(
            salvaged(&mut store, &stream, list_len),
            (done(0, 3, 0), vec![])
        );
        assert_eq!(store, with_fonts(500, &[(5, A)]));
    }
    assert_eq!(of_text(""), (done(0, 0, 0), vec![]));
    assert_eq!(of_text("\x1b*c32768D\x1b*c256E"), (done(0, 0, 2), vec![]));
}

#[test]
fn one_stretch() {
    // The search begins one byte after the place of the 13.
    assert_eq!(of_text("x"), (done(1, 0, 0), vec![(0, 1)]));
    assert_eq!(of_text("\x1b*c5D\x1b*c7"), (done(1, 1, 0), vec![(5, 4)]));
    assert_eq!(of_text("\x1b*c5D..\x1b*c7D"), (done(1, 2, 0), vec![(5, 2)]));
    // A restart inside the broken command.
    assert_eq!(of_text("\x1b*c5\x1b*c7D"), (done(1, 1, 0), vec![(0, 4)]));
    assert_eq!(of_text("\x1b\x1b*c7D"), (done(1, 1, 0), vec![(0, 1)]));
}

#[test]
fn what_is_a_restart() {
    for restart in ["0D", "5D", "00005D", "32767D", "00000D", "32700D"] {
        let stream = format!("x\x1b*c{restart}");
        assert_eq!(of_text(&stream), (done(1, 1, 0), vec![(0, 1)]), "{restart}");
    }
    for other in [
        "D", "32768D", "99999D", "000005D", "123456D", "5E", "5d", "5", "12345", "-1D", "1 D",
    ] {
        let stream = format!("x\x1b*c{other}");
        let length = stream.len() as u64;
        assert_eq!(
            of_text(&stream),
            (done(1, 0, 0), vec![(0, length)]),
            "{other}"
        );
    }
    for other in [
        "\x1b(c5D",
        "\x1b*s5D",
        "*c5D",
        "\x1b*5D",
        "\x1b)s0W",
        "\x1b(s1W.",
    ] {
        let stream = format!("x{other}");
        let length = stream.len() as u64;
        assert_eq!(
            of_text(&stream),
            (done(1, 0, 0), vec![(0, length)]),
            "{other}"
        );
    }
}

/// Every place that a front can have beside those that are searched together.
#[test]
fn at_every_distance() {
    for distance in 1..200 {
        for filling in [
            "x",
            "\x1b",
            "\x1b*c",
            "\x1b*c9",
            "\x1b*c32768D",
            "\x1b*c99999",
        ] {
            let mut stream: String = filling.repeat(distance);
            let length = stream.len() as u64;
            stream.insert(0, 'x');
            stream.push_str("\x1b*c32767D\x1b*c0E");
            let expected = (done(1, 2, 0), vec![(0, length + 1)]);
            assert_eq!(of_text(&stream), expected, "{distance} {filling:?}");
        }
    }
}

#[test]
fn several_stretches() {
    let stream = "\x1b*c1D?\x1b*c2D??\x1b*c3D\x1b*c4E???\x1b*c5D????";
    let stretches = [(5, 1), (11, 2), (23, 3), (31, 4)];
    assert_eq!(of_text(stream), (done(4, 5, 0), stretches.to_vec()));
    // "12 if the list has no place for a stretch, with the stretches listed so far"; a length
    // that is no multiple of 16 counts rounded down.
    for list_len in 0..90 {
        let room = list_len / 16;
        let answer = match room {
            0..4 => refused(12),
            _ => done(4, 5, 0),
        };
        let listed = stretches.iter().take(room).copied().collect();
        assert_eq!(
            salvaged(&mut fresh(500), stream.as_bytes(), list_len),
            (answer, listed)
        );
    }
}

/// "start there as a fresh reading would": font number and code 0; "keep all that was
/// stored before".
#[test]
fn a_fresh_reading_starts() {
    let stream = [
        font_number(5),
        font_block(&A.block()),
        code(66),
        b"?".to_vec(),
        font_number(5),
        character_block(&first(1, 8, 1, &[255])),
    ]
    .concat();
    let mut store = fresh(500);
    let (answer, _) = salvaged(&mut store, &stream, 16);
    assert_eq!(answer, done(1, 5, 0));
    let mut expected = with_fonts(500, &[(5, A)]);
    assert_eq!(
        put_character(&mut expected, &first(1, 8, 1, &[255]), 5, 0),
        0
    );
    assert_eq!(store, expected);
}

/// "Nothing else closes it": a torn place does not.
#[test]
fn the_open_character_stays_open() {
    let stream = [
        font_number(5),
        font_block(&A.block()),
        code(65),
        character_block(&first(1, 8, 2, &[255])),
        b"?".to_vec(),
        font_number(5),
        code(65),
        character_block(&continuation(&[129])),
    ]
    .concat();
    let mut store = fresh(500);
    let (answer, _) = salvaged(&mut store, &stream, 16);
    assert_eq!(answer, done(1, 7, 0));
    let mut expected = with_fonts(500, &[(5, A)]);
    assert_eq!(
        put_character(&mut expected, &first(1, 8, 2, &[255, 129]), 5, 65),
        0
    );
    assert_eq!(store, expected);
}

/// "Such bytes inside picture data count too": the length of a block is wrong, and its data
/// spells a D.
#[test]
fn inside_picture_data() {
    let data = [&b"ab"[..], &font_number(9), &font_block(&B.block())].concat();
    let mut stream = [font_number(5), font_block(&A.block())].concat();
    let torn = stream.len() as u64;
    stream.extend(b"\x1b(s30000W");
    stream.extend(first(1, 8, 99, &data));
    let mut store = fresh(500);
    let (answer, stretches) = salvaged(&mut store, &stream, 16);
    assert_eq!(answer, done(1, 4, 0));
    assert_eq!(stretches, [(torn, 9 + 16 + 2)]);
    assert_eq!(store, with_fonts(500, &[(5, A), (9, B)]));
    // A block that is whole is read as one.
    let whole = [
        font_number(5),
        font_block(&A.block()),
        character_block(&first(1, 8, 99, &data)),
    ];
    let mut store = fresh(500);
    let (answer, stretches) = salvaged(&mut store, &whole.concat(), 16);
    assert_eq!((answer, stretches), (done(0, 3, 0), vec![]));
}

/// "1, then 12": everything unchanged for 1.
#[test]
fn refusals() {
    let stream = [font_number(5), font_block(&A.block()), b"?".to_vec()].concat();
    let mut none = vec![0x77; 500];
    assert_eq!(salvaged(&mut none, &stream, 0), (refused(1), vec![]));
    assert_eq!(none, [0x77; 500]);
    let mut store = fresh(500);
    assert_eq!(salvaged(&mut store, &stream, 15), (refused(12), vec![]));
    assert_eq!(store, with_fonts(500, &[(5, A)]));
}

/// Whether these bytes are one D within range, as reading a stream has it.
fn is_restart(bytes: &[u8]) -> bool {
    let read = read_stream(&mut fresh(12), bytes);
    bytes.ends_with(b"D") && (read.refusal, read.done, read.refused) == (0, 1, 0)
}

/// By readings alone, each from a place to the end, and the places one by one.
fn by_readings(store: &mut [u8], stream: &[u8], room: usize) -> (Salvaged, Vec<(u64, u64)>) {
    let mut stretches = Vec::new();
    let (mut all_done, mut all_refused) = (0, 0);
    let mut at = 0;
    loop {
        let read = read_stream(store, &stream[at..]);
        all_done += read.done;
        all_refused += read.refused;
        if read.refusal == 0 {
            let answer = done(stretches.len() as u64, all_done, all_refused);
            return (answer, stretches);
        }
        if stretches.len() == room {
            return (refused(12), stretches);
        }
        let first = at + read.place as usize;
        let restart = |&at: &usize| {
            let ends = (at + 5..=at + 9).take_while(|&end| end <= stream.len());
            ends.into_iter().any(|end| is_restart(&stream[at..end]))
        };
        at = (first + 1..stream.len())
            .find(restart)
            .unwrap_or(stream.len());
        stretches.push((first as u64, (at - first) as u64));
    }
}

#[test]
fn by_chance() {
    let mut chance = Chance::new(212);
    for _ in 0..3000 {
        let mut stream = Vec::new();
        for _ in 0..chance.below(30) {
            let font = chance.of(&[0, 5, 32767, 32768]);
            match chance.below(8) {
                0 => stream.extend(font_number(font)),
                1 => stream.extend(code(chance.of(&[0, 65, 255, 256]))),
                2 => stream.extend(font_block(&A.block())),
                3 => stream.extend(character_block(&first(1, 8, 2, &[255]))),
                4 => stream.extend(character_block(&continuation(&font_number(font)))),
                5 => stream.extend(chance.of(&[&b"\x1b"[..], b"\x1b*c", b"\x1b*c5", b"0", b"D"])),
                6 => stream.extend(font_number(font)),
                _ => stream.push(chance.byte()),
            }
        }
        stream.truncate(stream.len() - chance.below(stream.len() + 1) / 8);
        let list_len = chance.below(200);
        let (mut ours, mut theirs) = (fresh(300), fresh(300));
        let by_call = salvaged(&mut ours, &stream, list_len);
        assert_eq!(by_call, by_readings(&mut theirs, &stream, list_len / 16));
        assert_eq!(ours, theirs);
    }
}
