//! The C interface, as include/marlinfold.h declares it; the benchmark takes it from here too.

pub use marlinfold_reference::{Answer, Request};

#[repr(C)]
pub struct Downloaded {
    pub refusal: u32,
    pub row: u32,
    pub filled: u32,
    pub run: u32,
}

#[repr(C)]
pub struct Chosen {
    pub refusal: u32,
    pub font: u32,
}

#[repr(C)]
pub struct ChosenRecord {
    pub refusal: u32,
    pub font: u32,
    pub which: u32,
    pub place: u64,
}

#[repr(C)]
pub struct Told {
    pub refusal: u32,
    pub count: u32,
}

#[repr(C)]
pub struct Written {
    pub refusal: u32,
    pub length: u32,
}

#[repr(C)]
pub struct Profile {
    pub refusal: u32,
    pub rule: u32,
    pub code: u32,
}

#[repr(C)]
pub struct StreamRead {
    pub refusal: u32,
    pub done: u64,
    pub refused: u64,
    pub place: u64,
    pub row: u32,
    pub filled: u32,
    pub run: u32,
}

#[repr(C)]
pub struct Salvaged {
    pub refusal: u32,
    pub stretches: u64,
    pub done: u64,
    pub refused: u64,
}

extern "C" {
    pub fn mf_make_fresh(store: *mut u8, store_len: usize) -> u32;
    pub fn mf_download_font(
        store: *mut u8,
        store_len: usize,
        block: *const u8,
        block_len: usize,
        font: u32,
    ) -> u32;
    pub fn mf_download_character(
        store: *mut u8,
        store_len: usize,
        block: *const u8,
        block_len: usize,
        font: u32,
        code: u32,
    ) -> Downloaded;
    pub fn mf_remove_font(store: *mut u8, store_len: usize, font: u32) -> u32;
    pub fn mf_remove_character(store: *mut u8, store_len: usize, font: u32, code: u32) -> u32;
    pub fn mf_choose(
        store: *const u8,
        store_len: usize,
        symbol_set: u32,
        spacing: u32,
        pitch: u32,
        height: u32,
        style: u32,
        weight: i32,
        typeface: u32,
        orientation: u32,
        mode: u32,
    ) -> Chosen;
    pub fn mf_choose_sheet(
        store: *const u8,
        store_len: usize,
        requests: *const Request,
        request_count: usize,
        answers: *mut Answer,
        answer_count: usize,
    ) -> u32;
    pub fn mf_choose_from_two(
        soft: *const u8,
        soft_len: usize,
        cartridge: *const u8,
        cartridge_len: usize,
        symbol_set: u32,
        spacing: u32,
        pitch: u32,
        height: u32,
        style: u32,
        weight: i32,
        typeface: u32,
        orientation: u32,
        mode: u32,
    ) -> ChosenRecord;
    pub fn mf_tell_font(
        store: *const u8,
        store_len: usize,
        out: *mut u8,
        out_len: usize,
        font: u32,
    ) -> Told;
    pub fn mf_tell_character(
        store: *const u8,
        store_len: usize,
        out: *mut u8,
        out_len: usize,
        font: u32,
        code: u32,
    ) -> Told;
    pub fn mf_draw_row(
        store: *const u8,
        store_len: usize,
        out: *mut u8,
        out_len: usize,
        font: u32,
        code: u32,
        row: u32,
    ) -> u32;
    pub fn mf_draw_picture(
        store: *const u8,
        store_len: usize,
        out: *mut u8,
        out_len: usize,
        font: u32,
        code: u32,
    ) -> u32;
    pub fn mf_write_font(
        store: *const u8,
        store_len: usize,
        out: *mut u8,
        out_len: usize,
        font: u32,
    ) -> Written;
    pub fn mf_check_profile(store: *const u8, store_len: usize, font: u32) -> Profile;
    pub fn mf_write_profiled(
        store: *const u8,
        store_len: usize,
        out: *mut u8,
        out_len: usize,
        font: u32,
    ) -> Written;
    pub fn mf_read_stream(
        store: *mut u8,
        store_len: usize,
        stream: *const u8,
        stream_len: usize,
    ) -> StreamRead;
    pub fn mf_salvage_stream(
        store: *mut u8,
        store_len: usize,
        stream: *const u8,
        stream_len: usize,
        list: *mut u8,
        list_len: usize,
    ) -> Salvaged;
    pub fn mf_add_figures(
        store: *const u8,
        store_len: usize,
        figures: *mut u8,
        figures_len: usize,
    ) -> u32;
    pub fn mf_turn_picture(
        picture: *const u8,
        picture_len: usize,
        out: *mut u8,
        out_len: usize,
        width: u32,
        height: u32,
        turn: u32,
    ) -> u32;
}
