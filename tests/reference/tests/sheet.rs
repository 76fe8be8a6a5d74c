//! 02, W-201: "One sheet, one call."

mod common;

use common::*;
use marlinfold_reference::*;

/// 01, Trials: its four fonts.
fn all_four() -> Vec<u8> {
    with_fonts(1024, &[(5, A), (2, B), (9, C), (7, D)])
}

/// A request for each font of `all_four`, P1, P2 (twice) and P6; 11 and 2 are
/// for others.
fn requests() -> [Request; 4] {
    [
        Request { weight: 3, ..BASE },
        BASE,
        Request {
            orientation: 1,
            ..BASE
        },
        Request {
            symbol_set: 341,
            ..BASE
        },
    ]
}

fn done(font: u32) -> Answer {
    Answer { font, refusal: 0 }
}

fn refused(refusal: u32) -> Answer {
    Answer { font: 0, refusal }
}

/// "A record holds the request's numbers in document 01's order, ..; an answer
/// is the font number, then the refusal number; all of 32 bits."
#[test]
fn records_of_32_bits() {
    use std::mem::{offset_of, size_of};
    let places = [
        offset_of!(Request, symbol_set),
        offset_of!(Request, spacing),
        offset_of!(Request, pitch),
        offset_of!(Request, height),
        offset_of!(Request, style),
        offset_of!(Request, weight),
        offset_of!(Request, typeface),
        offset_of!(Request, orientation),
        // "ones added later last": W-206's mode.
        offset_of!(Request, mode),
    ];
    assert_eq!(places, [0, 4, 8, 12, 16, 20, 24, 28, 32]);
    assert_eq!(size_of::<Request>(), 36);
    assert_eq!(
        (offset_of!(Answer, font), offset_of!(Answer, refusal)),
        (0, 4)
    );
    assert_eq!(size_of::<Answer>(), 8);
}

/// "each entry what a single choice would give on the same store", in the order
/// of the requests; answers beyond them keep what they hold.
#[test]
fn each_entry_is_a_single_choice() {
    let store = all_four();
    let mut answers = [UNWRITTEN; 6];
    assert_eq!(choose_sheet(&store, &requests(), &mut answers), 0);
    assert_eq!(answers[..4], [done(2), done(5), done(9), done(7)]);
    assert_eq!(answers[4..], [UNWRITTEN; 2]);
    for (request, answer) in requests().iter().zip(answers) {
        let Chosen { refusal, font } = choose(&store, request);
        assert_eq!(answer, Answer { font, refusal });
    }
    let mut backwards = requests();
    backwards.reverse();
    assert_eq!(choose_sheet(&store, &backwards, &mut answers), 0);
    assert_eq!(answers[..4], [done(7), done(9), done(5), done(2)]);
}

/// "An out-of-range request refuses only its own entry." So does one that no
/// font is there for.
#[test]
fn a_refused_entry_stands_alone() {
    let wrong = [
        Request {
            symbol_set: 2048,
            ..BASE
        },
        Request { spacing: 2, ..BASE },
        Request {
            pitch: 57601,
            ..BASE
        },
        Request {
            height: 99976,
            ..BASE
        },
        Request {
            style: 1024,
            ..BASE
        },
        Request { weight: 8, ..BASE },
        Request { weight: -8, ..BASE },
        Request {
            typeface: 65536,
            ..BASE
        },
        Request {
            orientation: 4,
            ..BASE
        },
        Request { mode: 450, ..BASE },
    ];
    for request in wrong {
        let mut answers = [UNWRITTEN; 3];
        let sheet = [BASE, request, BASE];
        assert_eq!(choose_sheet(&all_four(), &sheet, &mut answers), 0);
        assert_eq!(answers, [done(5), refused(2), done(5)], "{request:?}");
        let mut answers = [UNWRITTEN; 2];
        assert_eq!(choose_sheet(&fresh(12), &sheet[..2], &mut answers), 0);
        assert_eq!(answers, [refused(11), refused(2)]);
    }
    // P7 beside a request that D is for.
    let store = with_fonts(1024, &[(7, D)]);
    let of_set = |symbol_set| Request { symbol_set, ..BASE };
    let mut answers = [UNWRITTEN; 2];
    assert_eq!(
        choose_sheet(&store, &[of_set(85), of_set(341)], &mut answers),
        0
    );
    assert_eq!(answers, [refused(11), done(7)]);
}

/// "Refusals: 1, then 2 for more than 64 requests, then 12 for an answer list
/// shorter than the request list." Each leaves every answer as it was.
#[test]
fn refusals_of_a_whole_sheet() {
    let store = all_four();
    let no_store = vec![1; 1024];
    let mut answers = [UNWRITTEN; 65];
    for (store, requests, room, refusal) in [
        (&no_store, 65, 3, 1),
        (&no_store, 64, 64, 1),
        (&no_store, 0, 0, 1),
        (&store, 65, 65, 2),
        (&store, 65, 64, 2),
        (&store, 65, 0, 2),
        (&store, 1000, 65, 2),
        (&store, 64, 63, 12),
        (&store, 1, 0, 12),
    ] {
        let sheet = vec![BASE; requests];
        let answer = choose_sheet(store, &sheet, &mut answers[..room]);
        assert_eq!(answer, refusal, "{requests} {room}");
        assert_eq!(answers, [UNWRITTEN; 65]);
    }
    assert_eq!(choose_sheet(&store, &[BASE; 64], &mut answers), 0);
    assert_eq!(answers[..64], [done(5); 64]);
    assert_eq!(answers[64], UNWRITTEN);
}

/// A sheet of nothing is done and writes nothing, on a fresh store too.
#[test]
fn no_requests() {
    for store in [all_four(), fresh(12)] {
        let mut answers = [UNWRITTEN; 2];
        assert_eq!(choose_sheet(&store, &[], &mut answers), 0);
        assert_eq!(choose_sheet(&store, &[], &mut []), 0);
        assert_eq!(answers, [UNWRITTEN; 2]);
    }
}
