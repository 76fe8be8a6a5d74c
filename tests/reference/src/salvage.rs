//! 02, W-212: "Reading past a torn place."

use crate::store::{Store, FONT_MAX};
use crate::stream::{Reader, ESC};
use crate::{Refusal, Salvaged};

/// "every skipped stretch by first place and length, each number 8 bytes, low byte first"
const NUMBER: usize = 8;
const STRETCH: usize = 2 * NUMBER;

/// "A salvage reading should, at a 13, go to the first later place where a whole ESC *c#D
/// command stands with a number within range, start there as a fresh reading would, and
/// keep all that was stored before." "Refusals: 1", checked when `store` was made, "then 12
/// if the list has no place for a stretch, with the stretches listed so far and every
/// command before the unlisted one standing".
pub fn salvage_stream(store: Store, stream: &[u8], list: &mut [u8]) -> Result<Salvaged, Refusal> {
    let mut reader = Reader::new(store);
    let mut places = list.chunks_exact_mut(STRETCH);
    let mut stretches = 0;
    let mut at = 0;
    while let Some(broken) = reader.read(&stream[at..]) {
        let first = at + broken;
        // Readings: the room is looked at before anything is searched.
        let place = places.next().ok_or(Refusal::OutputShort)?;
        at = next_restart(stream, first + 1);
        list_stretch(place, first, at - first);
        stretches += 1;
    }
    Ok(Salvaged {
        refusal: 0,
        stretches,
        done: reader.done,
        refused: reader.refused,
    })
}

fn list_stretch(place: &mut [u8], first: usize, length: usize) {
    let (before, after) = place.split_at_mut(NUMBER);
    before.copy_from_slice(&(first as u64).to_le_bytes());
    after.copy_from_slice(&(length as u64).to_le_bytes());
}

/// Places that are looked at together, and the bytes of a restart's front: ESC, two letters,
/// a digit.
const TOGETHER: usize = 32;
const FRONT: usize = 4;

/// The first place from `from` on where a reading starts again. "If there is no such place,
/// the rest is the last stretch": the end.
fn next_restart(stream: &[u8], from: usize) -> usize {
    let mut at = from;
    while let Some(window) = stream[at..].first_chunk::<{ TOGETHER + FRONT - 1 }>() {
        if any_front(window) {
            let found = (at..at + TOGETHER).find(|&place| restarts(&stream[place..]));
            if let Some(place) = found {
                return place;
            }
        }
        at += TOGETHER;
    }
    (at..stream.len())
        .find(|&place| restarts(&stream[place..]))
        .unwrap_or(stream.len())
}

/// Whether a front stands at one of the window's first `TOGETHER` places, without a branch
/// for any of them.
fn any_front(window: &[u8; TOGETHER + FRONT - 1]) -> bool {
    let mut any = false;
    for place in 0..TOGETHER {
        any |= (window[place] == ESC)
            & (window[place + 1] == b'*')
            & (window[place + 2] == b'c')
            & window[place + 3].is_ascii_digit();
    }
    any
}

/// Whether `stream` begins with "a whole ESC *c#D command [..] with a number within range";
/// "# is one to five digits".
fn restarts(stream: &[u8]) -> bool {
    let Some(([ESC, b'*', b'c'], rest)) = stream.split_first_chunk::<3>() else {
        return false;
    };
    let mut number = 0;
    for (digits, &byte) in rest.iter().take(6).enumerate() {
        match byte {
            b'0'..=b'9' => number = 10 * number + u32::from(byte - b'0'),
            b'D' => return digits > 0 && number <= FONT_MAX,
            _ => return false,
        }
    }
    false
}
