//! The stream: reading one into a store, and writing a font as one.

use crate::block::{Header, BLOCK_MAX, CONTINUATION, DESCRIPTOR};
use crate::runs::BadRun;
use crate::store::{first_of, Character, Store, View, CODE_MAX, FONT_MAX};
use crate::{Refusal, Refused, StreamRead};

pub const ESC: u8 = 0x1B;

/// 01, The stream: "ESC *c#D (font number), ESC *c#E (code), ESC )s#W and a
/// font block, ESC (s#W and a character block".
enum Command<'a> {
    FontNumber(u32),
    Code(u32),
    FontBlock(&'a [u8]),
    CharacterBlock(&'a [u8]),
}

/// The command that `stream` begins with, and the stream behind it; nothing if
/// no whole command stands there, which is 13 at its beginning: "A byte other
/// than ESC where a command should begin is 13 at its own place. A command with
/// a wrong byte or a larger W in it, or cut by the end, is 13 at its ESC."
fn next_command(stream: &[u8]) -> Option<(Command<'_>, &[u8])> {
    let (&[esc, group, letter], rest) = stream.split_first_chunk::<3>()?;
    if esc != ESC || !matches!((group, letter), (b'*', b'c') | (b')' | b'(', b's')) {
        return None;
    }
    // "# is one to five digits"
    let digits = rest
        .iter()
        .take(6)
        .take_while(|byte| byte.is_ascii_digit())
        .count();
    if !(1..=5).contains(&digits) {
        return None;
    }
    let (digits, rest) = rest.split_at(digits);
    let number = digits
        .iter()
        .fold(0, |number, digit| 10 * number + u32::from(digit - b'0'));
    let (&last, rest) = rest.split_first()?;
    match (group, last) {
        (b'*', b'D') => Some((Command::FontNumber(number), rest)),
        (b'*', b'E') => Some((Command::Code(number), rest)),
        (b')' | b'(', b'W') => {
            // "for W at most 32,767"
            let length = number as usize;
            if length > BLOCK_MAX {
                return None;
            }
            let (block, rest) = rest.split_at_checked(length)?;
            let command = if group == b')' {
                Command::FontBlock(block)
            } else {
                Command::CharacterBlock(block)
            };
            Some((command, rest))
        }
        _ => None,
    }
}

/// A store into which commands are read, how many were done and refused so far, and the
/// first run that didn't fit (W-209).
pub struct Reader<'a> {
    store: Store<'a>,
    pub done: u64,
    pub refused: u64,
    first_bad: Option<BadRun>,
}

impl<'a> Reader<'a> {
    pub fn new(store: Store<'a>) -> Reader<'a> {
        Reader {
            store,
            done: 0,
            refused: 0,
            first_bad: None,
        }
    }

    /// Reads commands up to the end of `stream`, or up to a 13: its place.
    pub fn read(&mut self, stream: &[u8]) -> Option<usize> {
        // "Number and code start at 0; out of range counts as refused with 2 and
        // changes nothing."
        let mut font = 0;
        let mut code = 0;
        let mut rest = stream;
        while !rest.is_empty() {
            let Some((command, behind)) = next_command(rest) else {
                return Some(stream.len() - rest.len());
            };
            rest = behind;
            let done = match command {
                Command::FontNumber(number) => {
                    let in_range = number <= FONT_MAX;
                    if in_range {
                        font = number;
                    }
                    in_range
                }
                Command::Code(number) => {
                    let in_range = number <= CODE_MAX;
                    if in_range {
                        code = number;
                    }
                    in_range
                }
                Command::FontBlock(block) => self.store.download_font(block, font).is_ok(),
                Command::CharacterBlock(block) => {
                    let result = self.store.download_character(block, font, code);
                    if let Err(Refused::BadRun(bad)) = result {
                        self.first_bad.get_or_insert(bad);
                    }
                    result.is_ok()
                }
            };
            // "Refused blocks are passed over and counted."
            if done {
                self.done += 1;
            } else {
                self.refused += 1;
            }
        }
        None
    }
}

/// "Reading checks 1 first", which `store` has behind it.
pub fn read_stream(store: Store, stream: &[u8]) -> StreamRead {
    let mut reader = Reader::new(store);
    let broken = reader.read(stream);
    let mut read = StreamRead {
        done: reader.done,
        refused: reader.refused,
        ..StreamRead::default()
    };
    // "13, which gives its place and the counts so far"
    if let Some(place) = broken {
        read.refusal = Refusal::StreamBroken as u32;
        read.place = place as u64;
    }
    // 02, W-209: "the stream for its first such refusal, also where it ends in 13, and 0
    // for all three otherwise"
    if let Some(BadRun { row, filled, run }) = reader.first_bad {
        read = StreamRead {
            row,
            filled,
            run,
            ..read
        };
    }
    read
}

/// "a first block with up to 32,751 data bytes"
const FIRST_DATA_MAX: usize = BLOCK_MAX - DESCRIPTOR;
/// "one continuation (byte 1 is 1)"
const CONTINUATION_HEAD: [u8; CONTINUATION] = [4, 1];

/// "Write-out checks 1, 2, 6, 12 and answers its length."
pub fn write_font(view: &View, out: &mut [u8], font: u32) -> Result<u32, Refusal> {
    let (header, characters) = view.font_with_characters(font)?;
    let mut length = 0;
    spell_font(font, header, characters.clone(), |part| {
        length += part.len()
    });
    let mut out = first_of(out, length)?;
    spell_font(font, header, characters, |part| {
        let (here, behind) = std::mem::take(&mut out).split_at_mut(part.len());
        here.copy_from_slice(part);
        out = behind;
    });
    Ok(length as u32)
}

/// "Writing a font: D, header (64 bytes), then per rising code E, a first block
/// with up to 32,751 data bytes, one continuation (byte 1 is 1) for the rest."
/// 02, W-206: a header of format 20 has 68 bytes. Hands the stream to `put`, part by part.
fn spell_font<'a>(
    font: u32,
    header: Header,
    characters: impl Iterator<Item = Character<'a>>,
    mut put: impl FnMut(&[u8]),
) {
    spell_command(b"*c", font, b'D', &mut put);
    let header = header.written();
    spell_command(b")s", header.len() as u32, b'W', &mut put);
    put(header);
    for Character { code, kept, data } in characters {
        spell_command(b"*c", code, b'E', &mut put);
        let (first, rest) = data.split_at(data.len().min(FIRST_DATA_MAX));
        spell_command(b"(s", (DESCRIPTOR + first.len()) as u32, b'W', &mut put);
        put(kept);
        put(first);
        if !rest.is_empty() {
            spell_command(b"(s", (CONTINUATION + rest.len()) as u32, b'W', &mut put);
            put(&CONTINUATION_HEAD);
            put(rest);
        }
    }
}

/// ESC, two letters, the number and the last letter. "No leading zeros." The
/// number has at most five digits.
fn spell_command(letters: &[u8; 2], number: u32, last: u8, put: &mut impl FnMut(&[u8])) {
    let mut command = [0; 9];
    let mut at = command.len() - 1;
    command[at] = last;
    let mut number = number;
    loop {
        at -= 1;
        command[at] = b'0' + (number % 10) as u8;
        number /= 10;
        if number == 0 {
            break;
        }
    }
    at -= 3;
    command[at] = ESC;
    command[at + 1..at + 3].copy_from_slice(letters);
    put(&command[at..]);
}
