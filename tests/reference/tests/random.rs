//! Chance calls: each on the store and on the naive model, answers, outputs and
//! bytes compared. So after every call the store is still one, and a refusal
//! leaves what it must.

mod common;

use common::model::{self, Model};
use common::*;
use marlinfold_reference::*;

const FONTS: [u32; 7] = [0, 1, 2, 5, 300, 32767, 32768];
const CODES: [u32; 7] = [0, 1, 2, 65, 66, 255, 256];

fn some_font(chance: &mut Chance) -> u32 {
    let few = if chance.once_in(3) { 7 } else { 5 };
    chance.of(&FONTS[..few])
}

fn some_code(chance: &mut Chance) -> u32 {
    let few = if chance.once_in(3) { 7 } else { 5 };
    chance.of(&CODES[..few])
}

fn header(chance: &mut Chance) -> Vec<u8> {
    let font = Font {
        set: chance.of(&[277, 277, 341, 21, 2047]),
        spacing: chance.below(2) as u8,
        pitch: chance.of(&[0, 70, 72, 120, 120, 16800, 16801, 65535]),
        height: chance.of(&[0, 195, 196, 200, 204, 205, 10922, 10923, 65535]),
        extended: [(); 2].map(|()| chance.of(&[0, 0, 0, 1, 42, 43, 150, 151, 255])),
        style: chance.of(&[0, 0, 1, 255, 256, 1023]),
        weight: chance.below(15) as i8 - 7,
        face: chance.of(&[0, 3, 3, 4, 259, 65535]),
        orientation: chance.of(&[0, 0, 0, 0, 0, 0, 0, 0, 0, 1, 2, 3]),
        resolutions: match chance.below(12) {
            0..=5 => None,
            6 | 7 => Some((300, 300)),
            8..=10 => Some((600, 600)),
            _ => Some([(); 2].map(|()| chance.of(&[0, 300, 600, 601])).into()),
        },
    };
    let mut block = font.block();
    if chance.once_in(4) {
        let more = chance.below(9);
        block.resize(block.len() + more, 9);
        block[1] = 64 + chance.below(block.len() - 62) as u8;
    }
    if chance.once_in(4) {
        let at = chance.below(28);
        block[at] = chance.byte();
    }
    if chance.once_in(20) {
        block.truncate(chance.of(&[0, 1, 63, 64, 65, 67, 68]));
    }
    block
}

/// Rows of runs, mostly within the width; mostly as many as the height needs.
fn runs(chance: &mut Chance, width: u16, height: u16) -> Vec<u8> {
    let mut data = Vec::new();
    let rows = match chance.below(4) {
        0 => chance.below(usize::from(height) + 1),
        _ => usize::from(height) + chance.below(2),
    };
    for _ in 0..rows {
        data.push(match chance.below(3) {
            0 => chance.byte(),
            _ => chance.below(3) as u8,
        });
        let mut left = usize::from(width);
        while left > 0 {
            let run = match chance.below(4) {
                0 => left.min(255),
                _ => chance.below(left.min(255) + 1),
            };
            data.push(run as u8);
            left -= run;
        }
    }
    if chance.once_in(4) && !data.is_empty() {
        let at = chance.below(data.len());
        data[at] = chance.byte();
    }
    data
}

fn data(chance: &mut Chance, class: u8, width: u16, height: u16) -> Vec<u8> {
    let mut data = if class == 2 {
        runs(chance, width, height)
    } else {
        let bytes = usize::from(width).div_ceil(8) * usize::from(height);
        let bytes = bytes + chance.below(2);
        (0..bytes).map(|_| chance.byte()).collect()
    };
    if chance.once_in(2) {
        data.truncate(chance.below(data.len() + 1));
    }
    data
}

fn character(chance: &mut Chance) -> Vec<u8> {
    let class = chance.of(&[1, 2, 2]);
    let (width, height) = match chance.below(8) {
        0 => chance.of(&[(300, 2), (255, 3), (256, 1), (16384, 1), (1, 300)]),
        _ => (1 + chance.below(40) as u16, 1 + chance.below(9) as u16),
    };
    let data = data(chance, class, width, height);
    let mut block = first(class, width, height, &data);
    block[4] = chance.of(&[0, 0, 0, 1]);
    if chance.once_in(3) {
        let at = chance.of(&[5, 6, 7, 8, 9, 14, 15]);
        block[at] = chance.byte();
    }
    if chance.once_in(8) {
        let at = chance.below(16);
        block[at] = chance.byte();
    }
    if chance.once_in(20) {
        block.truncate(chance.below(17));
    }
    block
}

/// A continuation, mostly of data that goes on from the open character's.
fn going_on(chance: &mut Chance, model: &Model) -> Vec<u8> {
    let mut block = vec![4, 1 + chance.below(255) as u8];
    if let Some((font, code)) = model.open {
        let open = &model.fonts[&font].characters[&code];
        let width = u16::from_be_bytes([open.kept[10], open.kept[11]]);
        let height = u16::from_be_bytes([open.kept[12], open.kept[13]]);
        if open.kept[3] == 2 && !chance.once_in(4) {
            // Fill up the row that the kept data leaves unfinished.
            let mut at = 0;
            let mut left = 0;
            while at < open.data.len() {
                if left == 0 {
                    left = usize::from(width);
                } else {
                    left -= usize::from(open.data[at]);
                }
                at += 1;
            }
            while left > 0 {
                let run = left.min(chance.below(256));
                block.push(run as u8);
                left -= run;
            }
        }
        block.extend(data(chance, open.kept[3], width, height));
    }
    if chance.once_in(6) {
        block.truncate(2 + chance.below(4));
    }
    block
}

fn request(chance: &mut Chance) -> Request {
    let mut request = Request {
        symbol_set: chance.of(&[277, 277, 341, 21, 85]),
        spacing: chance.below(2) as u32,
        pitch: chance.of(&[0, 7, 1000, 1200, 1666, 1667, 1700, 57600]),
        height: chance.of(&[0, 1175, 1200, 1225, 1249, 65000, 99975]),
        style: chance.of(&[0, 0, 1, 256, 1023]),
        weight: chance.below(15) as i32 - 7,
        typeface: chance.of(&[0, 3, 4, 259]),
        orientation: chance.below(4) as u32,
        mode: chance.of(&[300, 600]),
    };
    if chance.once_in(20) {
        match chance.below(5) {
            4 => request.mode = chance.of(&[0, 299, 1200, 65836, u32::MAX]),
            0 => request.weight = chance.of(&[8, -8, 249, i32::MAX]),
            1 => request.pitch = 57601,
            2 => request.typeface = 65536,
            _ => request.orientation = u32::MAX,
        }
    }
    request
}

fn sheet(chance: &mut Chance) -> Vec<Request> {
    let several = chance.below(9);
    let requests = chance.of(&[0, 1, several, several, 63, 64, 65]);
    (0..requests).map(|_| request(chance)).collect()
}

fn stream(chance: &mut Chance, model: &Model) -> Vec<u8> {
    let mut stream = Vec::new();
    for _ in 0..chance.below(12) {
        stream.extend(match chance.below(6) {
            0 => font_number(some_font(chance) as usize),
            1 => code(some_code(chance) as usize),
            2 => font_block(&header(chance)),
            3 => match model.open {
                Some((font, open)) => [
                    font_number(font as usize),
                    code(open as usize),
                    character_block(&going_on(chance, model)),
                ]
                .concat(),
                None => character_block(&continuation(&[1])),
            },
            _ => character_block(&character(chance)),
        });
    }
    if chance.once_in(6) && !stream.is_empty() {
        let at = chance.below(stream.len());
        stream[at] = chance.of(b"\x1b0123456789*c()sDEWdew?");
    }
    if chance.once_in(6) {
        stream.truncate(chance.below(stream.len() + 1));
    }
    stream
}

/// Figures to be handed in (W-210): of few stores or of as many as may be, zeros save for
/// some numbers at and beside what is allowed; rarely of another length.
fn figures(chance: &mut Chance) -> Vec<u8> {
    let stores = chance.of(&[0, 1, 1, 2, 63, 63, 64, u64::MAX]);
    let mut numbers = vec![0; 1793];
    numbers[0] = stores;
    for _ in 0..chance.below(5) {
        let code = some_code(chance) as usize % 256;
        let which = chance.below(7);
        let most = match which {
            0 => 606 * stores.min(64),
            1 => 606 * 262_144 * stores.min(64),
            4 => 606 * 32_767 * stores.min(64),
            _ => chance.of(&[0, 1, 9, 40, u64::MAX - 1]),
        };
        let one_more = u64::from(chance.once_in(12));
        numbers[1 + 7 * code + which] = most + one_more;
    }
    let mut bytes: Vec<u8> = numbers.into_iter().flat_map(u64::to_le_bytes).collect();
    if chance.once_in(12) {
        bytes.resize(chance.of(&[0, 8, 14343, 14345]), 0);
    }
    bytes
}

/// One chance call on both; `met` counts the answers.
fn call(chance: &mut Chance, store: &mut [u8], model: &mut Model, met: &mut [u32; 15]) {
    let before = store.to_vec();
    let (font, code) = (some_font(chance), some_code(chance));
    let most = if chance.once_in(3) { 20 } else { 3000 };
    let length = chance.below(most);
    let mut out = vec![0xAA; length];
    let mut expected = out.clone();
    let mut font_struck = false;
    let refusal = match chance.below(28) {
        0 if chance.once_in(20) => {
            *model = Model::fresh(store.len());
            make_fresh(store)
        }
        0..=4 => {
            let block = header(chance);
            let refusal = download_font(store, &block, font);
            assert_eq!(refusal, model::number(model.download_font(&block, font)));
            refusal
        }
        5..=10 => {
            let block = character(chance);
            let answer = download_character(store, &block, font, code);
            let expected = model.download_character(&block, font, code);
            assert_eq!(answer, model::downloaded(expected));
            font_struck = answer.refusal == 10;
            answer.refusal
        }
        11..=13 => {
            let block = going_on(chance, model);
            let (font, code) = match model.open {
                Some(open) if !chance.once_in(8) => open,
                _ => (font, code),
            };
            let answer = download_character(store, &block, font, code);
            let expected = model.download_character(&block, font, code);
            assert_eq!(answer, model::downloaded(expected));
            font_struck = answer.refusal == 10;
            answer.refusal
        }
        14 if chance.once_in(3) => {
            let refusal = remove_font(store, font);
            assert_eq!(refusal, model::number(model.remove_font(font)));
            refusal
        }
        15 => {
            let refusal = remove_character(store, font, code);
            assert_eq!(refusal, model::number(model.remove_character(font, code)));
            refusal
        }
        14 | 16 | 17 => {
            let request = request(chance);
            let chosen = choose(store, &request);
            assert_eq!(chosen, model::chosen(model.choose(&request)));
            chosen.refusal
        }
        18 => {
            let told = tell_font(store, &mut out, font);
            assert_eq!(told, model::told(model.tell_font(&mut expected, font)));
            told.refusal
        }
        19 => {
            let told = tell_character(store, &mut out, font, code);
            let answer = model.tell_character(&mut expected, font, code);
            assert_eq!(told, model::told(answer));
            told.refusal
        }
        20 => {
            let row = chance.below(12) as u32;
            let refusal = draw_row(store, &mut out, font, code, row);
            let answer = model.draw_row(&mut expected, font, code, row);
            assert_eq!(refusal, model::number(answer));
            refusal
        }
        21 => {
            let refusal = draw_picture(store, &mut out, font, code);
            let answer = model.draw_picture(&mut expected, font, code);
            assert_eq!(refusal, model::number(answer));
            refusal
        }
        25 => {
            let answer = check_profile(store, font);
            assert_eq!(answer, model::profile(model.check_profile(font)));
            answer.refusal
        }
        26 => {
            let written = write_profiled(store, &mut out, font);
            let answer = model.write_profiled(&mut expected, font);
            assert_eq!(written, model::written(answer));
            written.refusal
        }
        27 => {
            let mut ours = figures(chance);
            let mut expected = ours.clone();
            let refusal = add_figures(store, &mut ours);
            let answer = model.add_figures(&mut expected);
            assert_eq!(refusal, model::number(answer));
            assert!(ours == expected, "other figures");
            refusal
        }
        22 => {
            let written = write_font(store, &mut out, font);
            let answer = model.write_font(&mut expected, font);
            assert_eq!(written, model::written(answer));
            written.refusal
        }
        23 => {
            let requests = sheet(chance);
            let mut answers = vec![UNWRITTEN; chance.of(&[63, 64, 64, 65, 70])];
            let mut expected = answers.clone();
            let refusal = choose_sheet(store, &requests, &mut answers);
            let answer = model.choose_sheet(&requests, &mut expected);
            assert_eq!(refusal, model::number(answer));
            assert_eq!(answers, expected);
            refusal
        }
        _ => {
            let stream = stream(chance, model);
            let read = read_stream(store, &stream);
            assert_eq!(read, model.read_stream(&stream));
            read.refusal
        }
    };
    met[refusal as usize] += 1;
    assert_eq!(out, expected);
    assert!(is_store(store));
    assert_eq!(store, model.bytes());
    if refusal != 0 {
        if !font_struck && refusal != 13 {
            assert_eq!(store, before);
        }
        if refusal != 13 {
            assert!(refusal == 12 || out.iter().all(|&byte| byte == 0xAA));
        }
    }
}

#[test]
fn chance_calls_agree_with_the_model() {
    let mut met = [0; 15];
    for seed in 0..400 {
        let mut chance = Chance::new(seed);
        let length = match seed % 5 {
            0 => 12 + chance.below(200),
            1 => 65536,
            _ => 300 + chance.below(2000),
        };
        let mut store = fresh(length);
        let mut model = Model::fresh(length);
        let calls = if length == 65536 { 30 } else { 150 };
        for _ in 0..calls {
            call(&mut chance, &mut store, &mut model, &mut met);
        }
    }
    // Chance calls on a store meet every answer but 1.
    for (refusal, times) in met.iter().enumerate() {
        assert!((*times > 0) == (refusal != 1), "{refusal}: {times}");
    }
}

/// A kept header as one of the other resolution that is as wide and as high.
fn other_resolution(header: &mut [u8]) {
    let to_600 = header[64..66] == 300_u16.to_be_bytes();
    for (field, extended) in [(16, 40), (18, 41)] {
        let number = u32::from_be_bytes([0, header[field], header[field + 1], header[extended]]);
        let number = if to_600 { 2 * number } else { number / 2 };
        let [_, high, low, more] = number.to_be_bytes();
        (header[field], header[field + 1], header[extended]) = (high, low, more);
    }
    let resolution = if to_600 { 600_u16 } else { 300 };
    header[1] = 68;
    header[2] = 20;
    header[64..].copy_from_slice(&[resolution.to_be_bytes(); 2].concat());
}

/// W-208: two stores, each with chance calls of its own. Headers go from one to the
/// other as they are, or with another orientation or resolution, so that fonts of both
/// are level.
#[test]
fn chance_choices_from_two_stores_agree_with_the_model() {
    let mut met = [0; 15];
    let mut from = [0; 3];
    for seed in 0..300 {
        let mut chance = Chance::new(3000 + seed);
        let lengths = [(); 2].map(|()| chance.of(&[12, 94, 300, 800, 2000]));
        let mut stores = lengths.map(fresh);
        let mut models = lengths.map(Model::fresh);
        for _ in 0..40 {
            let (one, other) = chance.of(&[(0, 1), (1, 0)]);
            let fonts = models[other].fonts.values();
            let mut headers: Vec<Vec<u8>> = fonts.map(|font| font.header.clone()).collect();
            if headers.is_empty() || chance.once_in(3) {
                call(
                    &mut chance,
                    &mut stores[one],
                    &mut models[one],
                    &mut [0; 15],
                );
            } else {
                let mut block = headers.swap_remove(chance.below(headers.len()));
                block[12] = chance.of(&[block[12], 0, 1]);
                if chance.once_in(4) {
                    other_resolution(&mut block);
                }
                let font = some_font(&mut chance);
                let refusal = download_font(&mut stores[one], &block, font);
                let answer = models[one].download_font(&block, font);
                assert_eq!(refusal, model::number(answer));
            }
            for _ in 0..4 {
                let request = request(&mut chance);
                let answer = choose_from_two(&stores[0], &stores[1], &request);
                let expected = models[0].choose_from_two(&models[1], &request);
                assert_eq!(answer, model::chosen_record(expected), "seed {seed}");
                met[answer.refusal as usize] += 1;
                from[answer.which as usize] += 1;
                let same = choose_from_two(&stores[0], &stores[0], &request);
                let expected = models[0].choose_from_two(&models[0], &request);
                assert_eq!(same, model::chosen_record(expected), "seed {seed}");
            }
        }
    }
    for (refusal, times) in met.iter().enumerate() {
        assert!((*times > 0) == [0, 2, 11].contains(&refusal), "{refusal}");
    }
    assert!(from[1] > 1000 && from[2] > 1000, "{from:?}");
}

/// A stream's commands rest on one check and on what the reading remembers of
/// the commands before; each call made alone does not.
#[test]
fn a_stream_is_its_commands_made_one_by_one() {
    let mut no_room = 0;
    let mut several = 0;
    for seed in 0..300 {
        let mut chance = Chance::new(2000 + seed);
        let length = 200 + chance.below(700);
        let mut together = fresh(length);
        let mut alone = fresh(length);
        let mut model = Model::fresh(length);
        let mut stream = Vec::new();
        let (mut font, mut letter) = (0, 0);
        let mut expected = StreamRead::default();
        let mut bad = 0;
        for _ in 0..200 {
            let refusal = match chance.below(9) {
                0 => {
                    font = chance.of(&[0, 1, 2, 5, 300, 32767]);
                    stream.extend(font_number(font as usize));
                    0
                }
                1..=3 => {
                    letter = chance.of(&[0, 1, 2, 65, 66, 255]);
                    stream.extend(code(letter as usize));
                    0
                }
                4 => {
                    let block = match chance.below(4) {
                        0 => header(&mut chance),
                        _ => chance.of(&[A, A, A, C]).header().to_vec(),
                    };
                    stream.extend(font_block(&block));
                    let _ = model.download_font(&block, font);
                    download_font(&mut alone, &block, font)
                }
                kind => {
                    let mut block = match kind {
                        5 | 6 => going_on(&mut chance, &model),
                        _ => character(&mut chance),
                    };
                    // A longer one is 3 alone, but 13 in a stream.
                    block.truncate(32767);
                    stream.extend(character_block(&block));
                    let _ = model.download_character(&block, font, letter);
                    let answer = download_character(&mut alone, &block, font, letter);
                    no_room += u32::from(answer.refusal == 10);
                    if answer.refusal == 8 {
                        // W-209: "the stream for its first such refusal"
                        if bad == 0 {
                            expected.row = answer.row;
                            expected.filled = answer.filled;
                            expected.run = answer.run;
                        }
                        bad += 1;
                    }
                    answer.refusal
                }
            };
            if refusal == 0 {
                expected.done += 1;
            } else {
                expected.refused += 1;
            }
        }
        assert_eq!(read_stream(&mut together, &stream), expected);
        assert_eq!(together, alone);
        assert_eq!(together, model.bytes());
        several += u32::from(bad > 1);
    }
    assert!(no_room > 250, "{no_room}");
    assert!(several > 50, "{several}");
}

#[test]
fn chance_bytes_are_a_store_exactly_if_the_model_reads_them() {
    let (mut stores, mut others) = (0, 0);
    for seed in 0..300 {
        let mut chance = Chance::new(1000 + seed);
        let length = 100 + chance.below(900);
        let mut store = fresh(length);
        let mut model = Model::fresh(length);
        for _ in 0..12 {
            call(&mut chance, &mut store, &mut model, &mut [0; 15]);
        }
        let records = length - store.iter().rev().take_while(|&&byte| byte == 0).count();
        for _ in 0..100 {
            let mut bytes = store.clone();
            for _ in 0..=chance.below(2) {
                let at = chance.below((records + 8).min(length));
                bytes[at] = match chance.below(4) {
                    0 => chance.byte(),
                    1 => bytes[at].wrapping_add(1),
                    2 => bytes[at].wrapping_sub(1),
                    _ => chance.of(&[0, 1, 2, 3, 4, 255]),
                };
            }
            if chance.once_in(10) {
                bytes.truncate(chance.below(length + 1));
            }
            let is = is_store(&bytes);
            assert_eq!(is, Model::of(&bytes).is_some(), "seed {seed}");
            *if is { &mut stores } else { &mut others } += 1;
            if !is {
                refuses_all(&mut bytes, &mut chance);
            }
        }
    }
    assert!(stores > 1000 && others > 1000, "{stores} {others}");
}

/// 1 from every call, and nothing changed.
fn refuses_all(bytes: &mut [u8], chance: &mut Chance) {
    let before = bytes.to_vec();
    let mut out = [0xAA; 100];
    let mut answers = [UNWRITTEN; 64];
    // Of a length that is refused too, with 2.
    let mut short = [0xAA; 14343];
    let mut figures = [0; 14344];
    let (font, code) = (some_font(chance), some_code(chance));
    let refusals = [
        download_font(bytes, &header(chance), font),
        put_character(bytes, &character(chance), font, code),
        remove_font(bytes, font),
        remove_character(bytes, font, code),
        choose(bytes, &request(chance)).refusal,
        choose_sheet(bytes, &sheet(chance), &mut answers),
        choose_from_two(bytes, &fresh(12), &request(chance)).refusal,
        choose_from_two(&fresh(12), bytes, &request(chance)).refusal,
        choose_from_two(bytes, bytes, &request(chance)).refusal,
        tell_font(bytes, &mut out, font).refusal,
        tell_character(bytes, &mut out, font, code).refusal,
        draw_row(bytes, &mut out, font, code, 0),
        draw_picture(bytes, &mut out, font, code),
        write_font(bytes, &mut out, font).refusal,
        check_profile(bytes, font).refusal,
        write_profiled(bytes, &mut out, font).refusal,
        read_stream(bytes, b"?").refusal,
        add_figures(bytes, &mut figures),
        add_figures(bytes, &mut short),
    ];
    assert_eq!(refusals, [1; 19]);
    assert_eq!(bytes, before);
    assert_eq!(out, [0xAA; 100]);
    assert_eq!(answers, [UNWRITTEN; 64]);
    assert!(figures == [0; 14344] && short == [0xAA; 14343]);
}
