//! The calls to be timed, on both sides. Nothing is copied or allocated here,
//! so that a timed call is the call alone.

use crate::c;
use marlinfold_reference as reference;
use reference::{Answer as Entry, Request};

/// As many requests as a sheet may have.
pub type Sheet = [Request; 64];

/// One call with its numbers; blocks, streams, a second store and outputs come beside
/// it.
#[derive(Clone, Copy)]
pub enum Call {
    MakeFresh,
    DownloadFont {
        font: u32,
    },
    DownloadCharacter {
        font: u32,
        code: u32,
    },
    RemoveFont {
        font: u32,
    },
    RemoveCharacter {
        font: u32,
        code: u32,
    },
    Choose(Request),
    /// The cartridge comes beside it.
    ChooseFromTwo(Request),
    ChooseSheet(&'static Sheet),
    /// The same requests, each by a call of its own.
    ChooseEach(&'static Sheet),
    TellFont {
        font: u32,
    },
    /// Fonts 1, 2, .., each by a call of its own: a listing.
    TellEach {
        fonts: u32,
    },
    TellCharacter {
        font: u32,
        code: u32,
    },
    DrawRow {
        font: u32,
        code: u32,
        row: u32,
    },
    DrawPicture {
        font: u32,
        code: u32,
    },
    WriteFont {
        font: u32,
    },
    CheckProfile {
        font: u32,
    },
    WriteProfiled {
        font: u32,
    },
    ReadStream,
    /// The list is the output.
    SalvageStream,
    /// The figures are the output.
    AddFigures,
    TurnPicture {
        width: u32,
        height: u32,
        turn: u32,
    },
}

/// The refusal and the other numbers; of a stream the third is the commands refused. The
/// last three are a row, the dots filled and a run (W-209).
pub type Answer = [u64; 7];

fn bare(refusal: u32) -> Answer {
    three(refusal, 0, 0)
}

fn two(refusal: u32, number: u32) -> Answer {
    three(refusal, number, 0)
}

fn three(refusal: u32, first: u32, second: u32) -> Answer {
    let [refusal, first, second] = [refusal, first, second].map(u64::from);
    [refusal, first, second, 0, 0, 0, 0]
}

fn downloaded(refusal: u32, bad_run: [u32; 3]) -> Answer {
    let [row, filled, run] = bad_run.map(u64::from);
    [u64::from(refusal), 0, 0, 0, row, filled, run]
}

/// The commands done and refused, and the place.
fn stream_read(refusal: u32, numbers: [u64; 3], bad_run: [u32; 3]) -> Answer {
    let [done, refused, place] = numbers;
    let [row, filled, run] = bad_run.map(u64::from);
    [u64::from(refusal), done, refused, place, row, filled, run]
}

/// The commands done and refused as a stream's, then the stretches.
fn salvaged(refusal: u32, stretches: u64, done: u64, refused: u64) -> Answer {
    stream_read(refusal, [done, refused, stretches], [0; 3])
}

/// The font number and the store that holds it, then the record's place.
fn chosen_record(refusal: u32, font: u32, which: u32, place: u64) -> Answer {
    let font = u64::from(font) | u64::from(which) << 32;
    [u64::from(refusal), font, 0, place, 0, 0, 0]
}

/// An output as a sheet's answers.
fn entries(out: &mut [u8]) -> &mut [Entry] {
    // SAFETY: an answer is two numbers, which any bytes are.
    let (before, entries, after) = unsafe { out.align_to_mut() };
    assert!(
        before.is_empty() && after.is_empty(),
        "an output of answers"
    );
    entries
}

/// Each request's answer, into its place.
fn each(sheet: &Sheet, out: &mut [u8], choose: impl Fn(&Request) -> Entry) -> Answer {
    for (request, entry) in sheet.iter().zip(entries(out)) {
        *entry = choose(request);
    }
    bare(0)
}

/// The characters of all of them together, and whether one was refused.
fn tell_each(fonts: u32, mut tell: impl FnMut(u32) -> Answer) -> Answer {
    let mut all = bare(0);
    for font in 1..=fonts {
        let told = tell(font);
        all[0] |= told[0];
        all[1] += told[1];
    }
    all
}

fn our_choice(store: *const u8, len: usize, r: &Request) -> c::Chosen {
    // SAFETY: the caller's pointer is valid for the length beside it.
    unsafe {
        c::mf_choose(
            store,
            len,
            r.symbol_set,
            r.spacing,
            r.pitch,
            r.height,
            r.style,
            r.weight,
            r.typeface,
            r.orientation,
            r.mode,
        )
    }
}

pub fn ours(call: Call, store: &mut [u8], input: &[u8], out: &mut [u8]) -> Answer {
    let (at, len) = (store.as_mut_ptr(), store.len());
    let (block, block_len) = (input.as_ptr(), input.len());
    let (to, to_len) = (out.as_mut_ptr(), out.len());
    let told = |answer: c::Told| two(answer.refusal, answer.count);
    // SAFETY: each pointer is valid for the length beside it, and the three
    // slices don't overlap.
    unsafe {
        match call {
            Call::MakeFresh => bare(c::mf_make_fresh(at, len)),
            Call::DownloadFont { font } => {
                bare(c::mf_download_font(at, len, block, block_len, font))
            }
            Call::DownloadCharacter { font, code } => {
                let a = c::mf_download_character(at, len, block, block_len, font, code);
                downloaded(a.refusal, [a.row, a.filled, a.run])
            }
            Call::RemoveFont { font } => bare(c::mf_remove_font(at, len, font)),
            Call::RemoveCharacter { font, code } => {
                bare(c::mf_remove_character(at, len, font, code))
            }
            Call::Choose(request) => {
                let chosen = our_choice(at, len, &request);
                two(chosen.refusal, chosen.font)
            }
            Call::ChooseFromTwo(r) => {
                let chosen = c::mf_choose_from_two(
                    at,
                    len,
                    block,
                    block_len,
                    r.symbol_set,
                    r.spacing,
                    r.pitch,
                    r.height,
                    r.style,
                    r.weight,
                    r.typeface,
                    r.orientation,
                    r.mode,
                );
                chosen_record(chosen.refusal, chosen.font, chosen.which, chosen.place)
            }
            Call::ChooseSheet(sheet) => {
                let out = entries(out);
                let (to, room) = (out.as_mut_ptr(), out.len());
                bare(c::mf_choose_sheet(
                    at,
                    len,
                    sheet.as_ptr(),
                    sheet.len(),
                    to,
                    room,
                ))
            }
            Call::ChooseEach(sheet) => each(sheet, out, |request| {
                let c::Chosen { refusal, font } = our_choice(at, len, request);
                Entry { font, refusal }
            }),
            Call::TellFont { font } => told(c::mf_tell_font(at, len, to, to_len, font)),
            Call::TellEach { fonts } => tell_each(fonts, |font| {
                told(c::mf_tell_font(at, len, to, to_len, font))
            }),
            Call::TellCharacter { font, code } => {
                told(c::mf_tell_character(at, len, to, to_len, font, code))
            }
            Call::DrawRow { font, code, row } => {
                bare(c::mf_draw_row(at, len, to, to_len, font, code, row))
            }
            Call::DrawPicture { font, code } => {
                bare(c::mf_draw_picture(at, len, to, to_len, font, code))
            }
            Call::WriteFont { font } => {
                let written = c::mf_write_font(at, len, to, to_len, font);
                two(written.refusal, written.length)
            }
            Call::CheckProfile { font } => {
                let profile = c::mf_check_profile(at, len, font);
                three(profile.refusal, profile.rule, profile.code)
            }
            Call::WriteProfiled { font } => {
                let written = c::mf_write_profiled(at, len, to, to_len, font);
                two(written.refusal, written.length)
            }
            Call::ReadStream => {
                let r = c::mf_read_stream(at, len, block, block_len);
                let numbers = [r.done, r.refused, r.place];
                stream_read(r.refusal, numbers, [r.row, r.filled, r.run])
            }
            Call::SalvageStream => {
                let s = c::mf_salvage_stream(at, len, block, block_len, to, to_len);
                salvaged(s.refusal, s.stretches, s.done, s.refused)
            }
            Call::AddFigures => bare(c::mf_add_figures(at, len, to, to_len)),
            Call::TurnPicture {
                width,
                height,
                turn,
            } => bare(c::mf_turn_picture(
                block, block_len, to, to_len, width, height, turn,
            )),
        }
    }
}

pub fn theirs(call: Call, store: &mut [u8], input: &[u8], out: &mut [u8]) -> Answer {
    match call {
        Call::MakeFresh => bare(reference::make_fresh(store)),
        Call::DownloadFont { font } => bare(reference::download_font(store, input, font)),
        Call::DownloadCharacter { font, code } => {
            let a = reference::download_character(store, input, font, code);
            downloaded(a.refusal, [a.row, a.filled, a.run])
        }
        Call::RemoveFont { font } => bare(reference::remove_font(store, font)),
        Call::RemoveCharacter { font, code } => {
            bare(reference::remove_character(store, font, code))
        }
        Call::Choose(request) => {
            let chosen = reference::choose(store, &request);
            two(chosen.refusal, chosen.font)
        }
        Call::ChooseFromTwo(request) => {
            let chosen = reference::choose_from_two(store, input, &request);
            chosen_record(chosen.refusal, chosen.font, chosen.which, chosen.place)
        }
        Call::ChooseSheet(sheet) => bare(reference::choose_sheet(store, sheet, entries(out))),
        Call::ChooseEach(sheet) => each(sheet, out, |request| {
            let reference::Chosen { refusal, font } = reference::choose(store, request);
            Entry { font, refusal }
        }),
        Call::TellFont { font } => {
            let told = reference::tell_font(store, out, font);
            two(told.refusal, told.count)
        }
        Call::TellEach { fonts } => tell_each(fonts, |font| {
            let told = reference::tell_font(store, out, font);
            two(told.refusal, told.count)
        }),
        Call::TellCharacter { font, code } => {
            let told = reference::tell_character(store, out, font, code);
            two(told.refusal, told.count)
        }
        Call::DrawRow { font, code, row } => bare(reference::draw_row(store, out, font, code, row)),
        Call::DrawPicture { font, code } => bare(reference::draw_picture(store, out, font, code)),
        Call::WriteFont { font } => {
            let written = reference::write_font(store, out, font);
            two(written.refusal, written.length)
        }
        Call::CheckProfile { font } => {
            let profile = reference::check_profile(store, font);
            three(profile.refusal, profile.rule, profile.code)
        }
        Call::WriteProfiled { font } => {
            let written = reference::write_profiled(store, out, font);
            two(written.refusal, written.length)
        }
        Call::ReadStream => {
            let r = reference::read_stream(store, input);
            let numbers = [r.done, r.refused, r.place];
            stream_read(r.refusal, numbers, [r.row, r.filled, r.run])
        }
        Call::SalvageStream => {
            let s = reference::salvage_stream(store, input, out);
            salvaged(s.refusal, s.stretches, s.done, s.refused)
        }
        Call::AddFigures => bare(reference::add_figures(store, out)),
        Call::TurnPicture {
            width,
            height,
            turn,
        } => bare(reference::turn_picture(input, out, width, height, turn)),
    }
}
