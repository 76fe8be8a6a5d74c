//! The calls, through the C interface and of the reference, each with the same
//! arguments and an answer of the same form.

use crate::c;
use crate::chance::Chance;
use crate::figures;
use marlinfold_reference as reference;
pub use reference::Request;
use std::fmt;

/// One call with its arguments, the store aside; an `out` is what its output
/// holds before.
#[derive(Clone)]
pub enum Call {
    MakeFresh,
    DownloadFont {
        block: Vec<u8>,
        font: u32,
    },
    DownloadCharacter {
        block: Vec<u8>,
        font: u32,
        code: u32,
    },
    RemoveFont {
        font: u32,
    },
    RemoveCharacter {
        font: u32,
        code: u32,
    },
    Choose(Request),
    /// Its output is the list of answers, `ANSWER` bytes each.
    ChooseSheet {
        requests: Vec<Request>,
        out: Vec<u8>,
    },
    TellFont {
        out: Vec<u8>,
        font: u32,
    },
    TellCharacter {
        out: Vec<u8>,
        font: u32,
        code: u32,
    },
    DrawRow {
        out: Vec<u8>,
        font: u32,
        code: u32,
        row: u32,
    },
    DrawPicture {
        out: Vec<u8>,
        font: u32,
        code: u32,
    },
    WriteFont {
        out: Vec<u8>,
        font: u32,
    },
    ReadStream {
        stream: Vec<u8>,
    },
    CheckProfile {
        font: u32,
    },
    WriteProfiled {
        out: Vec<u8>,
        font: u32,
    },
    ChooseFromTwo {
        request: Request,
        other: Other,
    },
    AddFigures {
        figures: Vec<u8>,
    },
    /// Its output is the list of stretches.
    SalvageStream {
        stream: Vec<u8>,
        list: Vec<u8>,
    },
}

/// W-208: what stands beside the store that a choice from two is made on.
#[derive(Clone)]
pub enum Other {
    /// The store holds the soft fonts.
    Cartridge(Vec<u8>),
    /// The store is the cartridge.
    Soft(Vec<u8>),
    /// One buffer is both.
    Same,
}

/// "an answer is the font number, then the refusal number; all of 32 bits"
pub const ANSWER: usize = 8;

pub const CALLS: usize = 18;

pub const NAMES: [&str; CALLS] = [
    "make_fresh",
    "download_font",
    "download_character",
    "remove_font",
    "remove_character",
    "choose",
    "choose_sheet",
    "tell_font",
    "tell_character",
    "draw_row",
    "draw_picture",
    "write_font",
    "read_stream",
    "check_profile",
    "write_profiled",
    "choose_from_two",
    "add_figures",
    "salvage_stream",
];

/// The refusals that documents 01 and 02 list for each call, 0 among them.
pub const POSSIBLE: [&[usize]; CALLS] = [
    &[0, 1],
    &[0, 1, 2, 3, 4, 5, 10],
    &[0, 1, 2, 3, 4, 5, 6, 7, 8, 9, 10],
    &[0, 1, 2, 6],
    &[0, 1, 2, 6, 7],
    &[0, 1, 2, 11],
    &[0, 1, 2, 12],
    &[0, 1, 2, 6, 12],
    &[0, 1, 2, 6, 7, 12],
    &[0, 1, 2, 6, 7, 12],
    &[0, 1, 2, 6, 7, 12],
    &[0, 1, 2, 6, 12],
    &[0, 1, 13],
    &[0, 1, 2, 6],
    &[0, 1, 2, 6, 12, 14],
    &[0, 1, 2, 11],
    &[0, 1, 2],
    &[0, 1, 12],
];

impl Call {
    /// Its place in `NAMES`.
    pub fn index(&self) -> usize {
        match self {
            Call::MakeFresh => 0,
            Call::DownloadFont { .. } => 1,
            Call::DownloadCharacter { .. } => 2,
            Call::RemoveFont { .. } => 3,
            Call::RemoveCharacter { .. } => 4,
            Call::Choose(_) => 5,
            Call::ChooseSheet { .. } => 6,
            Call::TellFont { .. } => 7,
            Call::TellCharacter { .. } => 8,
            Call::DrawRow { .. } => 9,
            Call::DrawPicture { .. } => 10,
            Call::WriteFont { .. } => 11,
            Call::ReadStream { .. } => 12,
            Call::CheckProfile { .. } => 13,
            Call::WriteProfiled { .. } => 14,
            Call::ChooseFromTwo { .. } => 15,
            Call::AddFigures { .. } => 16,
            Call::SalvageStream { .. } => 17,
        }
    }

    /// What its output holds before; empty if it has none.
    pub fn output(&self) -> &[u8] {
        match self {
            Call::ChooseSheet { out, .. }
            | Call::TellFont { out, .. }
            | Call::TellCharacter { out, .. }
            | Call::DrawRow { out, .. }
            | Call::DrawPicture { out, .. }
            | Call::WriteFont { out, .. }
            | Call::WriteProfiled { out, .. }
            | Call::AddFigures { figures: out }
            | Call::SalvageStream { list: out, .. } => out,
            _ => &[],
        }
    }
}

/// Bytes for a report: all of a few, the beginning of many.
struct Shown<'a>(&'a [u8]);

impl fmt::Display for Shown<'_> {
    fn fmt(&self, f: &mut fmt::Formatter) -> fmt::Result {
        write!(f, "{} bytes", self.0.len())?;
        for byte in self.0.iter().take(96) {
            write!(f, " {byte:02x}")?;
        }
        if self.0.len() > 96 {
            write!(f, " ..")?;
        }
        Ok(())
    }
}

impl fmt::Display for Call {
    fn fmt(&self, f: &mut fmt::Formatter) -> fmt::Result {
        write!(f, "{}", NAMES[self.index()])?;
        match self {
            Call::MakeFresh => Ok(()),
            Call::DownloadFont { block, font } => write!(f, " font {font}, {}", Shown(block)),
            Call::DownloadCharacter { block, font, code } => {
                write!(f, " font {font} code {code}, {}", Shown(block))
            }
            Call::RemoveFont { font } | Call::CheckProfile { font } => write!(f, " font {font}"),
            Call::RemoveCharacter { font, code } => write!(f, " font {font} code {code}"),
            Call::Choose(request) => write!(f, " {request:?}"),
            Call::ChooseSheet { requests, out } => write!(
                f,
                " {} requests, {} answers, {requests:?}",
                requests.len(),
                out.len() / ANSWER
            ),
            Call::TellFont { out, font }
            | Call::WriteFont { out, font }
            | Call::WriteProfiled { out, font } => {
                write!(f, " font {font}, output of {}", out.len())
            }
            Call::TellCharacter { out, font, code } | Call::DrawPicture { out, font, code } => {
                write!(f, " font {font} code {code}, output of {}", out.len())
            }
            Call::DrawRow {
                out,
                font,
                code,
                row,
            } => write!(
                f,
                " font {font} code {code} row {row}, output of {}",
                out.len()
            ),
            Call::ReadStream { stream } => write!(f, " {}", Shown(stream)),
            Call::AddFigures { figures } => write!(f, " {}", figures::Shown(figures)),
            Call::SalvageStream { stream, list } => {
                write!(f, " {}, list of {}", Shown(stream), list.len())
            }
            Call::ChooseFromTwo { request, other } => {
                write!(f, " {request:?}, ")?;
                match other {
                    Other::Cartridge(bytes) => write!(f, "cartridge {}", Shown(bytes)),
                    Other::Soft(bytes) => write!(f, "soft store {}", Shown(bytes)),
                    Other::Same => write!(f, "one buffer as both"),
                }
            }
        }
    }
}

/// A call's numbers beside the refusal: three of its own, and W-209's three.
pub const NUMBERS: usize = 6;

/// The refusal, then the call's own numbers, 0 where it has fewer; last the row, the
/// dots filled and the run of an 8 (W-209).
#[derive(Clone, Copy, PartialEq, Eq, Debug)]
pub struct Answer {
    pub refusal: u32,
    pub numbers: [u64; NUMBERS],
}

impl Answer {
    /// These numbers, and 0 for those that are missing.
    pub fn of<const N: usize>(refusal: u32, first: [u64; N]) -> Answer {
        let mut numbers = [0; NUMBERS];
        numbers[..N].copy_from_slice(&first);
        Answer { refusal, numbers }
    }

    fn bare(refusal: u32) -> Answer {
        Answer::of(refusal, [])
    }

    fn one(refusal: u32, number: u32) -> Answer {
        Answer::of(refusal, [u64::from(number)])
    }

    fn two(refusal: u32, first: u32, second: u32) -> Answer {
        Answer::of(refusal, [u64::from(first), u64::from(second)])
    }

    /// With a row, the dots filled and a run.
    fn with_run(mut self, row: u32, filled: u32, run: u32) -> Answer {
        self.numbers[3..].copy_from_slice(&[row, filled, run].map(u64::from));
        self
    }

    /// The first number, where it is one of 32 bits.
    pub fn number(&self) -> u32 {
        self.numbers[0] as u32
    }

    /// The row, the dots filled and the run (W-209).
    pub fn bad_run(&self) -> [u64; 3] {
        let [.., row, filled, run] = self.numbers;
        [row, filled, run]
    }
}

/// A sheet's entries, as answers of single choices.
pub fn entries(out: &[u8]) -> Vec<Answer> {
    let pairs = words(out);
    pairs
        .chunks_exact(2)
        .map(|pair| Answer::one(pair[1], pair[0]))
        .collect()
}

/// A call's answer, and what its output holds afterwards (empty if it has none).
pub struct Outcome {
    pub answer: Answer,
    pub out: Vec<u8>,
}

/// A buffer as it is lent through the C interface, guards around it: of bytes, or
/// of a sheet's numbers, which are aligned as such.
pub struct Lent<T = u8> {
    all: Vec<T>,
    start: usize,
    end: usize,
}

/// How buffers are lent: with guard bytes, or (for a memory checker, which then
/// sees every access outside) as allocations of exactly their length.
#[derive(Clone, Copy)]
pub struct Lending {
    pub exact: bool,
}

const GUARD: usize = 48;

fn guard<T: From<u8>>(at: usize) -> T {
    T::from((at as u8).wrapping_mul(37) ^ 0xA5)
}

impl Lending {
    pub fn lend<T: Copy + From<u8>>(self, content: &[T], chance: &mut Chance) -> Lent<T> {
        if self.exact {
            // `to_vec` allocates no more than it holds.
            let all = content.to_vec();
            let end = all.len();
            return Lent { all, start: 0, end };
        }
        // Any alignment of bytes.
        let start = GUARD + chance.below(16);
        let end = start + content.len();
        let mut all = Vec::with_capacity(end + GUARD);
        all.extend((0..start).map(guard::<T>));
        all.extend_from_slice(content);
        all.extend((end..end + GUARD).map(guard::<T>));
        Lent { all, start, end }
    }
}

impl<T: PartialEq + From<u8>> Lent<T> {
    pub fn content(&self) -> &[T] {
        &self.all[self.start..self.end]
    }

    pub fn content_mut(&mut self) -> &mut [T] {
        &mut self.all[self.start..self.end]
    }

    fn len(&self) -> usize {
        self.end - self.start
    }

    /// Also for what the library must not write: that it doesn't is tested, so
    /// the pointer must be one through which it could.
    fn pointer(&mut self) -> *mut T {
        self.content_mut().as_mut_ptr()
    }

    pub fn check_guards(&self, what: &str) -> Result<(), String> {
        let outside = (0..self.start).chain(self.end..self.all.len());
        for at in outside {
            if self.all[at] != guard(at) {
                return Err(format!(
                    "{what}: wrote at {} of a buffer of {}",
                    at as isize - self.start as isize,
                    self.len()
                ));
            }
        }
        Ok(())
    }
}

/// "A record holds the request's numbers in document 01's order, ones added later
/// last; ..; all of 32 bits", spelled here, not left to a struct.
fn record(request: &Request) -> [u32; 9] {
    [
        request.symbol_set,
        request.spacing,
        request.pitch,
        request.height,
        request.style,
        request.weight as u32,
        request.typeface,
        request.orientation,
        request.mode,
    ]
}

fn words(bytes: &[u8]) -> Vec<u32> {
    let word = |four: &[u8]| u32::from_ne_bytes([four[0], four[1], four[2], four[3]]);
    bytes.chunks_exact(4).map(word).collect()
}

fn bytes(words: &[u32]) -> Vec<u8> {
    words.iter().flat_map(|word| word.to_ne_bytes()).collect()
}

/// The sheet's call through the C interface.
fn our_sheet(
    store: &mut Lent,
    requests: &[Request],
    before: &[u8],
    lending: Lending,
    chance: &mut Chance,
) -> Result<Outcome, String> {
    let records: Vec<u32> = requests.iter().flat_map(record).collect();
    let mut asked = lending.lend(&records, chance);
    let mut out = lending.lend(&words(before), chance);
    // SAFETY: each pointer is valid for as many entries as are said, of 9 and of
    // 2 numbers, and aligned; none overlap, and none is kept after the call.
    let refusal = unsafe {
        c::mf_choose_sheet(
            store.pointer(),
            store.len(),
            asked.pointer().cast(),
            requests.len(),
            out.pointer().cast(),
            before.len() / ANSWER,
        )
    };
    store.check_guards("store")?;
    asked.check_guards("requests")?;
    out.check_guards("answers")?;
    if asked.content() != records {
        return Err("requests: changed".into());
    }
    Ok(Outcome {
        answer: Answer::bare(refusal),
        out: bytes(out.content()),
    })
}

/// The call through the C interface.
pub fn ours(
    call: &Call,
    store: &mut Lent,
    lending: Lending,
    chance: &mut Chance,
) -> Result<Outcome, String> {
    if let Call::ChooseSheet { requests, out } = call {
        return our_sheet(store, requests, out, lending, chance);
    }
    let (at, len) = (store.pointer(), store.len());
    let mut only_read: &[u8] = &[];
    let mut out = None;
    let mut read = None;
    match call {
        Call::DownloadFont { block, .. }
        | Call::DownloadCharacter { block, .. }
        | Call::ReadStream { stream: block }
        | Call::ChooseFromTwo {
            other: Other::Cartridge(block) | Other::Soft(block),
            ..
        } => {
            only_read = block;
            read = Some(lending.lend(block, chance));
        }
        Call::TellFont { out: before, .. }
        | Call::TellCharacter { out: before, .. }
        | Call::DrawRow { out: before, .. }
        | Call::DrawPicture { out: before, .. }
        | Call::WriteFont { out: before, .. }
        | Call::WriteProfiled { out: before, .. }
        | Call::AddFigures { figures: before } => out = Some(lending.lend(before, chance)),
        Call::SalvageStream { stream, list } => {
            only_read = stream;
            read = Some(lending.lend(stream, chance));
            out = Some(lending.lend(list, chance));
        }
        _ => {}
    }
    let (block, block_len) = match &mut read {
        Some(lent) => (lent.pointer().cast_const(), lent.len()),
        None => (std::ptr::dangling(), 0),
    };
    let (to, to_len) = match &mut out {
        Some(lent) => (lent.pointer(), lent.len()),
        None => (std::ptr::dangling_mut(), 0),
    };
    // SAFETY: each pointer is valid for the length beside it, none overlap (save the
    // two of a choice, which only reads them), and none is kept after the call.
    let answer = unsafe {
        match *call {
            Call::MakeFresh => Answer::bare(c::mf_make_fresh(at, len)),
            Call::DownloadFont { font, .. } => {
                Answer::bare(c::mf_download_font(at, len, block, block_len, font))
            }
            Call::DownloadCharacter { font, code, .. } => {
                let answer = c::mf_download_character(at, len, block, block_len, font, code);
                Answer::bare(answer.refusal).with_run(answer.row, answer.filled, answer.run)
            }
            Call::RemoveFont { font } => Answer::bare(c::mf_remove_font(at, len, font)),
            Call::RemoveCharacter { font, code } => {
                Answer::bare(c::mf_remove_character(at, len, font, code))
            }
            Call::Choose(request) => {
                let chosen = c::mf_choose(
                    at,
                    len,
                    request.symbol_set,
                    request.spacing,
                    request.pitch,
                    request.height,
                    request.style,
                    request.weight,
                    request.typeface,
                    request.orientation,
                    request.mode,
                );
                Answer::one(chosen.refusal, chosen.font)
            }
            Call::ChooseSheet { .. } => unreachable!("our_sheet makes it"),
            Call::TellFont { font, .. } => {
                let told = c::mf_tell_font(at, len, to, to_len, font);
                Answer::one(told.refusal, told.count)
            }
            Call::TellCharacter { font, code, .. } => {
                let told = c::mf_tell_character(at, len, to, to_len, font, code);
                Answer::one(told.refusal, told.count)
            }
            Call::DrawRow {
                font, code, row, ..
            } => Answer::bare(c::mf_draw_row(at, len, to, to_len, font, code, row)),
            Call::DrawPicture { font, code, .. } => {
                Answer::bare(c::mf_draw_picture(at, len, to, to_len, font, code))
            }
            Call::WriteFont { font, .. } => {
                let written = c::mf_write_font(at, len, to, to_len, font);
                Answer::one(written.refusal, written.length)
            }
            Call::CheckProfile { font } => {
                let profile = c::mf_check_profile(at, len, font);
                Answer::two(profile.refusal, profile.rule, profile.code)
            }
            Call::WriteProfiled { font, .. } => {
                let written = c::mf_write_profiled(at, len, to, to_len, font);
                Answer::one(written.refusal, written.length)
            }
            Call::ChooseFromTwo { request, ref other } => {
                let store = (at.cast_const(), len);
                let [soft, cartridge] = match other {
                    Other::Cartridge(_) => [store, (block, block_len)],
                    Other::Soft(_) => [(block, block_len), store],
                    Other::Same => [store, store],
                };
                let chosen = c::mf_choose_from_two(
                    soft.0,
                    soft.1,
                    cartridge.0,
                    cartridge.1,
                    request.symbol_set,
                    request.spacing,
                    request.pitch,
                    request.height,
                    request.style,
                    request.weight,
                    request.typeface,
                    request.orientation,
                    request.mode,
                );
                let (font, which) = (u64::from(chosen.font), u64::from(chosen.which));
                Answer::of(chosen.refusal, [font, which, chosen.place])
            }
            Call::AddFigures { .. } => Answer::bare(c::mf_add_figures(at, len, to, to_len)),
            Call::SalvageStream { .. } => {
                let salvaged = c::mf_salvage_stream(at, len, block, block_len, to, to_len);
                let numbers = [salvaged.stretches, salvaged.done, salvaged.refused];
                Answer::of(salvaged.refusal, numbers)
            }
            Call::ReadStream { .. } => {
                let read = c::mf_read_stream(at, len, block, block_len);
                Answer::of(read.refusal, [read.done, read.refused, read.place]).with_run(
                    read.row,
                    read.filled,
                    read.run,
                )
            }
        }
    };
    store.check_guards("store")?;
    if let Some(lent) = read {
        lent.check_guards("read buffer")?;
        if lent.content() != only_read {
            return Err("read buffer: changed".into());
        }
    }
    let out = match out {
        Some(lent) => {
            lent.check_guards("output")?;
            lent.content().to_vec()
        }
        None => Vec::new(),
    };
    Ok(Outcome { answer, out })
}

/// The same call of the reference.
pub fn theirs(call: &Call, store: &mut [u8]) -> Outcome {
    let mut output = call.output().to_vec();
    let answer = match call {
        Call::MakeFresh => Answer::bare(reference::make_fresh(store)),
        Call::DownloadFont { block, font } => {
            Answer::bare(reference::download_font(store, block, *font))
        }
        Call::DownloadCharacter { block, font, code } => {
            let answer = reference::download_character(store, block, *font, *code);
            Answer::bare(answer.refusal).with_run(answer.row, answer.filled, answer.run)
        }
        Call::RemoveFont { font } => Answer::bare(reference::remove_font(store, *font)),
        Call::RemoveCharacter { font, code } => {
            Answer::bare(reference::remove_character(store, *font, *code))
        }
        Call::Choose(request) => {
            let chosen = reference::choose(store, request);
            Answer::one(chosen.refusal, chosen.font)
        }
        Call::ChooseSheet { requests, out } => {
            let mut answers: Vec<reference::Answer> = words(out)
                .chunks_exact(2)
                .map(|pair| reference::Answer {
                    font: pair[0],
                    refusal: pair[1],
                })
                .collect();
            let refusal = reference::choose_sheet(store, requests, &mut answers);
            output = answers
                .iter()
                .flat_map(|answer| bytes(&[answer.font, answer.refusal]))
                .collect();
            Answer::bare(refusal)
        }
        Call::TellFont { font, .. } => {
            let told = reference::tell_font(store, &mut output, *font);
            Answer::one(told.refusal, told.count)
        }
        Call::TellCharacter { font, code, .. } => {
            let told = reference::tell_character(store, &mut output, *font, *code);
            Answer::one(told.refusal, told.count)
        }
        Call::DrawRow {
            font, code, row, ..
        } => Answer::bare(reference::draw_row(store, &mut output, *font, *code, *row)),
        Call::DrawPicture { font, code, .. } => {
            Answer::bare(reference::draw_picture(store, &mut output, *font, *code))
        }
        Call::WriteFont { font, .. } => {
            let written = reference::write_font(store, &mut output, *font);
            Answer::one(written.refusal, written.length)
        }
        Call::CheckProfile { font } => {
            let profile = reference::check_profile(store, *font);
            Answer::two(profile.refusal, profile.rule, profile.code)
        }
        Call::WriteProfiled { font, .. } => {
            let written = reference::write_profiled(store, &mut output, *font);
            Answer::one(written.refusal, written.length)
        }
        Call::ChooseFromTwo { request, other } => {
            let (soft, cartridge): (&[u8], &[u8]) = match other {
                Other::Cartridge(other) => (store, other),
                Other::Soft(other) => (other, store),
                Other::Same => (store, store),
            };
            let chosen = reference::choose_from_two(soft, cartridge, request);
            let (font, which) = (u64::from(chosen.font), u64::from(chosen.which));
            Answer::of(chosen.refusal, [font, which, chosen.place])
        }
        Call::AddFigures { .. } => Answer::bare(reference::add_figures(store, &mut output)),
        Call::SalvageStream { stream, .. } => {
            let salvaged = reference::salvage_stream(store, stream, &mut output);
            let numbers = [salvaged.stretches, salvaged.done, salvaged.refused];
            Answer::of(salvaged.refusal, numbers)
        }
        Call::ReadStream { stream } => {
            let read = reference::read_stream(store, stream);
            Answer::of(read.refusal, [read.done, read.refused, read.place]).with_run(
                read.row,
                read.filled,
                read.run,
            )
        }
    };
    Outcome {
        answer,
        out: output,
    }
}
