//! W-203: chance pictures turned through the C interface, by the reference, and dot by
//! dot as the reading of the request has it.

use crate::c;
use crate::calls::Lending;
use crate::chance::Chance;
use marlinfold_reference as reference;
use std::sync::atomic::{AtomicU64, Ordering};

/// Every one must be met by a whole run.
const SITUATIONS: [&str; 12] = [
    "picture turned by a quarter",
    "picture turned by a half",
    "picture turned by three quarters",
    "picture turned four times by a quarter",
    "turn: a turn out of range",
    "turn: a width out of range",
    "turn: a height out of range",
    "turn: a picture with too few bytes",
    "turn: too few bytes and a short output",
    "turn: a short output",
    "turn: black padding, and bytes behind the picture",
    "turn: a side of 16,384 dots",
];

/// Over all threads.
static MET: [AtomicU64; SITUATIONS.len()] = [const { AtomicU64::new(0) }; SITUATIONS.len()];

fn met(name: &str) {
    let index = SITUATIONS.iter().position(|&known| known == name);
    MET[index.expect("a named situation")].fetch_add(1, Ordering::Relaxed);
}

/// Prints how often each was met; how many never were.
pub fn report() -> usize {
    let times = MET.each_ref().map(|times| times.load(Ordering::Relaxed));
    for (name, times) in SITUATIONS.iter().zip(times) {
        println!("{times:>8}  {name}");
    }
    times.iter().filter(|&&times| times == 0).count()
}

fn row_bytes(width: u32) -> usize {
    width.div_ceil(8) as usize
}

fn picture_bytes(width: u32, height: u32) -> usize {
    row_bytes(width) * height as usize
}

fn dot(picture: &[u8], width: u32, row: u32, column: u32) -> bool {
    let byte = picture[row as usize * row_bytes(width) + column as usize / 8];
    byte & 0x80 >> (column % 8) != 0
}

/// "With column c of row r of the result, counted from 0: a quarter turn takes the dot of
/// row height - 1 - c, column r; a half turn row height - 1 - r, column width - 1 - c;
/// three quarters row c, column width - 1 - r."
fn dot_by_dot(picture: &[u8], width: u32, height: u32, turn: u32) -> Vec<u8> {
    let (across, down) = if turn == 2 {
        (width, height)
    } else {
        (height, width)
    };
    let mut out = vec![0; picture_bytes(across, down)];
    for row in 0..down {
        for column in 0..across {
            let black = match turn {
                1 => dot(picture, width, height - 1 - column, row),
                2 => dot(picture, width, height - 1 - row, width - 1 - column),
                _ => dot(picture, width, column, width - 1 - row),
            };
            if black {
                out[row as usize * row_bytes(across) + column as usize / 8] |= 0x80 >> (column % 8);
            }
        }
    }
    out
}

/// One call, and all that it was lent.
struct Case {
    picture: Vec<u8>,
    out: Vec<u8>,
    width: u32,
    height: u32,
    turn: u32,
}

fn side(chance: &mut Chance) -> u32 {
    match chance.below(8) {
        0 => chance.of(&[1, 7, 8, 9, 15, 16, 17, 63, 64, 65]),
        1 => chance.between(1, 300) as u32,
        _ => chance.between(1, 40) as u32,
    }
}

fn case(chance: &mut Chance) -> Case {
    let (mut width, mut height, mut turn) = (side(chance), side(chance), chance.of(&[1, 2, 3]));
    if chance.once_in(200) {
        let longest = chance.of(&[16_384, 16_384, 16_383, 16_377]);
        let short = chance.between(1, 9) as u32;
        (width, height) = chance.of(&[(longest, short), (short, longest)]);
    }
    let needed = picture_bytes(width, height);
    let size = match turn {
        2 => needed,
        _ => picture_bytes(height, width),
    };
    let (mut length, mut room) = (needed, size);
    match chance.below(10) {
        0 => length -= chance.between(1, length),
        1 => length += chance.below(40),
        _ => (),
    }
    match chance.below(10) {
        0 => room -= chance.between(1, room),
        1 | 2 => room += chance.below(40),
        _ => (),
    }
    let outside = [0, 16_385, 65_536 + 8, u32::MAX];
    match chance.below(40) {
        0 => turn = chance.of(&[0, 4, 257, u32::MAX]),
        1 => width = chance.of(&outside),
        2 => height = chance.of(&outside),
        _ => (),
    }
    Case {
        picture: chance.bytes(length),
        out: chance.bytes(room),
        width,
        height,
        turn,
    }
}

/// What the request says that the call answers and leaves.
fn expected(case: &Case) -> (u32, Vec<u8>) {
    let sides = 1..=16_384;
    let (width, height, turn) = (case.width, case.height, case.turn);
    let refusal = if !(1..=3).contains(&turn) {
        met("turn: a turn out of range");
        2
    } else if !sides.contains(&width) {
        met("turn: a width out of range");
        2
    } else if !sides.contains(&height) {
        met("turn: a height out of range");
        2
    } else {
        let turned = match turn {
            2 => picture_bytes(width, height),
            _ => picture_bytes(height, width),
        };
        let few = case.picture.len() < picture_bytes(width, height);
        let short = case.out.len() < turned;
        match (few, short) {
            (true, true) => met("turn: too few bytes and a short output"),
            (true, false) => met("turn: a picture with too few bytes"),
            (false, true) => met("turn: a short output"),
            (false, false) => (),
        }
        if few {
            2
        } else if short {
            12
        } else {
            0
        }
    };
    let mut out = case.out.clone();
    if refusal == 0 {
        met(match turn {
            1 => "picture turned by a quarter",
            2 => "picture turned by a half",
            _ => "picture turned by three quarters",
        });
        if width.max(height) == 16_384 {
            met("turn: a side of 16,384 dots");
        }
        let last = case.picture[row_bytes(width) - 1];
        let behind = case.picture.len() > picture_bytes(width, height);
        if behind && last & ((1u32 << (row_bytes(width) as u32 * 8 - width)) - 1) as u8 != 0 {
            met("turn: black padding, and bytes behind the picture");
        }
        let turned = dot_by_dot(&case.picture, width, height, turn);
        out[..turned.len()].copy_from_slice(&turned);
    }
    (refusal, out)
}

fn through_c(case: &Case, lending: Lending, chance: &mut Chance) -> Result<(u32, Vec<u8>), String> {
    let mut picture = lending.lend(&case.picture, chance);
    let mut out = lending.lend(&case.out, chance);
    let (from, to) = (picture.content_mut(), out.content_mut());
    // SAFETY: each pointer is valid for the length beside it, and they don't overlap.
    let answer = unsafe {
        c::mf_turn_picture(
            from.as_mut_ptr(),
            from.len(),
            to.as_mut_ptr(),
            to.len(),
            case.width,
            case.height,
            case.turn,
        )
    };
    picture.check_guards("picture")?;
    out.check_guards("output")?;
    if picture.content() != case.picture {
        return Err("the picture was written to".to_string());
    }
    Ok((answer, out.content().to_vec()))
}

/// "Turning a picture with white padding four times by a quarter gives it back, every
/// byte." A turned picture has white padding.
fn four_quarters(
    turned: &[u8],
    width: u32,
    height: u32,
    lending: Lending,
    chance: &mut Chance,
) -> Result<(), String> {
    let (mut picture, mut width, mut height) = (turned.to_vec(), width, height);
    for _ in 0..4 {
        let case = Case {
            out: vec![0xA5; picture_bytes(height, width)],
            picture,
            width,
            height,
            turn: 1,
        };
        let (refusal, out) = through_c(&case, lending, chance)?;
        if refusal != 0 {
            return Err(format!("{width} x {height} refused with {refusal}"));
        }
        picture = out;
        (width, height) = (height, width);
    }
    if picture != turned {
        return Err(format!("{width} x {height}: four quarters give another"));
    }
    met("picture turned four times by a quarter");
    Ok(())
}

/// One chance picture.
pub fn run(seed: u64, number: u64, lending: Lending, trace: bool) -> Result<(), String> {
    let chance = &mut Chance::new(seed ^ 0x203, number);
    let case = case(chance);
    let (width, height, turn) = (case.width, case.height, case.turn);
    let call = format!(
        "turn_picture of {} bytes into {}, {width} x {height}, turn {turn}",
        case.picture.len(),
        case.out.len()
    );
    if trace {
        eprintln!("{call}");
    }
    let ours = through_c(&case, lending, chance).map_err(|why| format!("{call}: {why}"))?;
    let mut out = case.out.clone();
    let refusal = reference::turn_picture(&case.picture, &mut out, width, height, turn);
    if ours != (refusal, out) {
        return Err(format!("{call}: {}, the reference {refusal}", ours.0));
    }
    if ours != expected(&case) {
        return Err(format!("{call}: {}, not as dot by dot", ours.0));
    }
    if ours.0 == 0 {
        let (across, down) = if turn == 2 {
            (width, height)
        } else {
            (height, width)
        };
        let turned = &ours.1[..picture_bytes(across, down)];
        four_quarters(turned, across, down, lending, chance)?;
    }
    Ok(())
}
