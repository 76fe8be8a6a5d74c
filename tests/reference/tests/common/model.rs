//! Document 01 once more, as plainly as it can be said: fonts and characters in
//! sorted maps, pictures as dots, elimination step by step, and the store's
//! bytes made anew after each call. Nothing here is shared with the library.

use marlinfold_reference::{
    Answer, Chosen, ChosenRecord, Downloaded, Profile, Request, StreamRead, Told, Written,
};
use std::collections::BTreeMap;

#[derive(Clone, PartialEq, Debug)]
pub struct Character {
    pub kept: Vec<u8>,
    pub data: Vec<u8>,
}

#[derive(Clone, PartialEq, Debug)]
pub struct Font {
    pub header: Vec<u8>,
    pub characters: BTreeMap<u32, Character>,
}

#[derive(Clone, PartialEq, Debug)]
pub struct Model {
    pub length: usize,
    pub open: Option<(u32, u32)>,
    pub fonts: BTreeMap<u32, Font>,
}

fn be(bytes: &[u8], at: usize) -> i64 {
    i64::from(bytes[at]) * 256 + i64::from(bytes[at + 1])
}

fn signed(value: i64, bits: u32) -> i64 {
    if value >= 1 << (bits - 1) {
        value - (1 << bits)
    } else {
        value
    }
}

/// What a header is kept as, or its refusal.
fn keep_header(block: &[u8]) -> Result<Vec<u8>, u32> {
    if block.len() < 64 || block.len() > 32767 {
        return Err(3);
    }
    let size = match block[2] {
        0 => 64,
        20 => 68,
        _ => return Err(4),
    };
    if block.len() < size {
        return Err(3);
    }
    if be(block, 0) < size as i64 || be(block, 0) > block.len() as i64 {
        return Err(4);
    }
    let resolutions = match size {
        64 => (300, 300),
        _ => (be(block, 64), be(block, 66)),
    };
    let style = i64::from(block[4]) * 256 + i64::from(block[23]);
    let weight = signed(i64::from(block[24]), 8);
    let wrong = [
        block[3] > 2,
        style > 1023,
        be(block, 8) < 1,
        be(block, 10) < 1,
        be(block, 6) >= be(block, 10),
        block[12] > 3,
        block[13] > 1,
        be(block, 14) > 2047,
        weight < -7,
        weight > 7,
        resolutions != (300, 300) && resolutions != (600, 600),
    ];
    if wrong.contains(&true) {
        return Err(5);
    }
    let mut kept = block[..64].to_vec();
    kept[0] = 0;
    kept[1] = size as u8;
    kept[5] = 0;
    for resolution in [resolutions.0, resolutions.1] {
        kept.extend([(resolution / 256) as u8, (resolution % 256) as u8]);
    }
    if be(block, 16) > 16800 {
        kept[16] = (16800 / 256) as u8;
        kept[17] = (16800 % 256) as u8;
        kept[40] = 0;
    }
    if be(block, 18) > 10922 {
        kept[18] = (10922 / 256) as u8;
        kept[19] = (10922 % 256) as u8;
        kept[41] = 0;
    }
    Ok(kept)
}

/// A refusal, and W-209's three numbers for 8.
#[derive(Clone, Copy, PartialEq, Debug)]
pub struct Refused {
    pub number: u32,
    pub row: usize,
    pub filled: usize,
    pub run: usize,
}

impl From<u32> for Refused {
    fn from(number: u32) -> Refused {
        Refused {
            number,
            row: 0,
            filled: 0,
            run: 0,
        }
    }
}

/// The rows drawn, how many bytes drew them, and whether the picture is
/// complete; or where a run passes the width.
fn rows(kept: &[u8], data: &[u8]) -> Result<(Vec<Vec<bool>>, usize, bool), Refused> {
    let (width, height) = (be(kept, 10) as usize, be(kept, 12) as usize);
    let mut rows: Vec<Vec<bool>> = Vec::new();
    if kept[3] == 1 {
        let row_bytes = width.div_ceil(8);
        let needed = row_bytes * height;
        for row in 0..height {
            let dot = |x: usize| {
                let byte = data.get(row * row_bytes + x / 8).copied().unwrap_or(0);
                byte & (128 >> (x % 8)) != 0
            };
            rows.push((0..width).map(dot).collect());
        }
        return Ok((rows, data.len().min(needed), data.len() >= needed));
    }
    let mut at = 0;
    while rows.len() < height {
        let mut next = at;
        let Some(&count) = data.get(next) else { break };
        next += 1;
        let mut row = Vec::new();
        let mut black = false;
        while row.len() < width && next < data.len() {
            row.extend(vec![black; usize::from(data[next])]);
            black = !black;
            next += 1;
        }
        if row.len() > width {
            let run = usize::from(data[next - 1]);
            return Err(Refused {
                number: 8,
                row: rows.len(),
                filled: row.len() - run,
                run,
            });
        }
        if row.len() < width {
            break;
        }
        at = next;
        for _ in 0..=count {
            rows.push(row.clone());
        }
    }
    let complete = rows.len() >= height;
    rows.truncate(height);
    // Without completion all the data belongs to the picture, a begun row's too.
    let used = if complete { at } else { data.len() };
    rows.resize(height, vec![false; width]);
    Ok((rows, used, complete))
}

fn pack(row: &[bool]) -> Vec<u8> {
    row.chunks(8)
        .map(|dots| {
            let dot = |(i, &black): (usize, &bool)| if black { 128_u8 >> i } else { 0 };
            dots.iter().enumerate().map(dot).sum()
        })
        .collect()
}

/// What first blocks of this beginning and all this data are kept as; the last
/// is whether the character is complete.
fn keep_first(block: &[u8], orientation: u8) -> Result<(Character, bool), Refused> {
    if block.len() < 16 {
        return Err(3.into());
    }
    if block[2] != 14 || (block[3] != 1 && block[3] != 2) {
        return Err(4.into());
    }
    let (left, top) = (signed(be(block, 6), 16), signed(be(block, 8), 16));
    let (width, height) = (be(block, 10), be(block, 12));
    let sizes_ok = (1..=16384).contains(&width) && (1..=16384).contains(&height);
    if block[4] != orientation || left.abs() > 16384 || top.abs() > 16384 || !sizes_ok {
        return Err(5.into());
    }
    if (width + 7) / 8 * height > 32768 {
        return Err(9.into());
    }
    let mut kept = block[..16].to_vec();
    kept[5] = 0;
    if signed(be(block, 14), 16) < 0 {
        kept[14] = 0;
        kept[15] = 0;
    }
    keep_joined(kept, block[16..].to_vec())
}

fn keep_joined(kept: Vec<u8>, mut data: Vec<u8>) -> Result<(Character, bool), Refused> {
    let (_, used, complete) = rows(&kept, &data)?;
    data.truncate(used);
    if data.len() > 32768 {
        return Err(9.into());
    }
    Ok((Character { kept, data }, complete))
}

fn in_range(font: u32, code: u32) -> Result<(), u32> {
    if font > 32767 || code > 255 {
        return Err(2);
    }
    Ok(())
}

impl Model {
    pub fn fresh(length: usize) -> Model {
        Model {
            length,
            open: None,
            fonts: BTreeMap::new(),
        }
    }

    fn records(&self) -> Vec<u8> {
        let mut bytes = Vec::new();
        let two = |number: u32| [(number % 256) as u8, (number / 256) as u8];
        bytes.extend([12, 0, 0, 0, 1, 0]);
        let (font, code) = self.open.unwrap_or((0, 0));
        for number in [u32::from(self.open.is_some()), font, code] {
            bytes.extend(two(number));
        }
        for (&number, font) in &self.fonts {
            bytes.extend([82, 0, 0, 0, 2, 0]);
            bytes.extend(two(number));
            // W-205, counted anew each time.
            bytes.extend(two(font.characters.len() as u32));
            let data = font.characters.values().map(|c| c.data.len() as u32);
            bytes.extend(data.sum::<u32>().to_le_bytes());
            bytes.extend(&font.header);
            for (&code, character) in &font.characters {
                bytes.extend((26 + character.data.len() as u32).to_le_bytes());
                bytes.extend([3, 0]);
                bytes.extend(two(number));
                bytes.extend(two(code));
                bytes.extend(&character.kept);
                bytes.extend(&character.data);
            }
        }
        bytes
    }

    fn fits(&self) -> bool {
        self.records().len() <= self.length
    }

    pub fn bytes(&self) -> Vec<u8> {
        let mut bytes = self.records();
        bytes.resize(self.length, 0);
        bytes
    }

    /// The store that these bytes are, if they are one: read without care, then
    /// every rule held against what was read, and written again.
    pub fn of(bytes: &[u8]) -> Option<Model> {
        if bytes.len() < 12 || bytes.len() > 65536 {
            return None;
        }
        let two = |at: usize| u32::from(bytes[at]) + 256 * u32::from(bytes[at + 1]);
        let mut model = Model::fresh(bytes.len());
        if two(6) == 1 {
            model.open = Some((two(8), two(10)));
        }
        let mut at = 12;
        while at + 6 <= bytes.len() && bytes[at..at + 4] != [0; 4] {
            let length = two(at) as usize + 65536 * two(at + 2) as usize;
            let body = bytes.get(at..)?.get(..length)?;
            if two(at + 4) == 2 {
                let font = Font {
                    header: body.get(14..)?.to_vec(),
                    characters: BTreeMap::new(),
                };
                model.fonts.insert(two(at + 6), font);
            } else {
                let character = Character {
                    kept: body.get(10..26)?.to_vec(),
                    data: body[26..].to_vec(),
                };
                let font = model.fonts.get_mut(&two(at + 6))?;
                font.characters.insert(two(at + 8), character);
            }
            at += length;
        }
        for (&number, font) in &model.fonts {
            in_range(number, 0).ok()?;
            if keep_header(&font.header) != Ok(font.header.clone()) {
                return None;
            }
            for (&code, character) in &font.characters {
                in_range(number, code).ok()?;
                let block = [character.kept.clone(), character.data.clone()].concat();
                let (kept, complete) = keep_first(&block, font.header[12]).ok()?;
                if block[0..2] != [4, 0] || kept != *character {
                    return None;
                }
                if complete && model.open == Some((number, code)) {
                    return None;
                }
            }
        }
        if let Some((font, code)) = model.open {
            model.fonts.get(&font)?.characters.get(&code)?;
        }
        (model.fits() && model.bytes() == bytes).then_some(model)
    }

    /// "It also closes if removed": after anything that may have removed it.
    fn close_if_gone(&mut self) {
        if let Some((font, code)) = self.open {
            let there = self
                .fonts
                .get(&font)
                .map(|f| f.characters.contains_key(&code));
            if there != Some(true) {
                self.open = None;
            }
        }
    }

    pub fn download_font(&mut self, block: &[u8], font: u32) -> Result<(), u32> {
        in_range(font, 0)?;
        let header = keep_header(block)?;
        let mut after = self.clone();
        let characters = BTreeMap::new();
        after.fonts.insert(font, Font { header, characters });
        after.close_if_gone();
        if !after.fits() {
            return Err(10);
        }
        *self = after;
        Ok(())
    }

    pub fn download_character(
        &mut self,
        block: &[u8],
        font: u32,
        code: u32,
    ) -> Result<(), Refused> {
        in_range(font, code)?;
        if block.len() < 2 || block.len() > 32767 {
            return Err(3.into());
        }
        let kept_font = self.fonts.get(&font).ok_or(6_u32)?;
        if block[0] != 4 {
            return Err(4.into());
        }
        let mut after = self.clone();
        let (character, complete) = if block[1] == 0 {
            keep_first(block, kept_font.header[12])?
        } else {
            if self.open != Some((font, code)) {
                return Err(7.into());
            }
            let old = &kept_font.characters[&code];
            let joined = [old.data.clone(), block[2..].to_vec()].concat();
            keep_joined(old.kept.clone(), joined)?
        };
        let characters = &mut after.fonts.get_mut(&font).unwrap().characters;
        characters.insert(code, character);
        after.open = if complete { None } else { Some((font, code)) };
        if !after.fits() {
            self.fonts.remove(&font);
            self.close_if_gone();
            return Err(10.into());
        }
        *self = after;
        Ok(())
    }

    pub fn remove_font(&mut self, font: u32) -> Result<(), u32> {
        in_range(font, 0)?;
        self.fonts.remove(&font).ok_or(6_u32)?;
        self.close_if_gone();
        Ok(())
    }

    pub fn remove_character(&mut self, font: u32, code: u32) -> Result<(), u32> {
        in_range(font, code)?;
        let kept = self.fonts.get_mut(&font).ok_or(6_u32)?;
        kept.characters.remove(&code).ok_or(7_u32)?;
        self.close_if_gone();
        Ok(())
    }

    pub fn tell_font(&self, out: &mut [u8], font: u32) -> Result<u32, u32> {
        in_range(font, 0)?;
        let kept = self.fonts.get(&font).ok_or(6_u32)?;
        write(out, &kept.header)?;
        Ok(kept.characters.len() as u32)
    }

    fn character(&self, font: u32, code: u32) -> Result<&Character, u32> {
        in_range(font, code)?;
        let kept = self.fonts.get(&font).ok_or(6_u32)?;
        kept.characters.get(&code).ok_or(7)
    }

    pub fn tell_character(&self, out: &mut [u8], font: u32, code: u32) -> Result<u32, u32> {
        let character = self.character(font, code)?;
        write(out, &character.kept)?;
        Ok(character.data.len() as u32)
    }

    fn dots(&self, font: u32, code: u32) -> Result<Vec<Vec<bool>>, u32> {
        let character = self.character(font, code)?;
        Ok(rows(&character.kept, &character.data).unwrap().0)
    }

    pub fn draw_row(&self, out: &mut [u8], font: u32, code: u32, row: u32) -> Result<(), u32> {
        let dots = self.dots(font, code)?;
        write(out, &pack(dots.get(row as usize).ok_or(2_u32)?))
    }

    pub fn draw_picture(&self, out: &mut [u8], font: u32, code: u32) -> Result<(), u32> {
        let dots = self.dots(font, code)?;
        let picture: Vec<u8> = dots.iter().flat_map(|row| pack(row)).collect();
        write(out, &picture)
    }

    pub fn choose(&self, request: &Request) -> Result<u32, u32> {
        Ok(choose_among(&[self], request)?.1)
    }

    /// W-208: which store, the font number, and its record's place.
    pub fn choose_from_two(
        &self,
        cartridge: &Model,
        request: &Request,
    ) -> Result<(u32, u32, u64), u32> {
        let stores = [self, cartridge];
        let (store, font) = choose_among(&stores, request)?;
        Ok((1 + store as u32, font, stores[store].place(font)))
    }

    /// Where a kept font's record begins: after the records of all lower ones.
    fn place(&self, font: u32) -> u64 {
        let mut before = self.clone();
        before.fonts.retain(|&number, _| number < font);
        before.records().len() as u64
    }

    pub fn choose_sheet(&self, requests: &[Request], answers: &mut [Answer]) -> Result<(), u32> {
        if requests.len() > 64 {
            return Err(2);
        }
        if answers.len() < requests.len() {
            return Err(12);
        }
        for (at, request) in requests.iter().enumerate() {
            let Chosen { refusal, font } = chosen(self.choose(request));
            answers[at] = Answer { font, refusal };
        }
        Ok(())
    }

    pub fn write_font(&self, out: &mut [u8], font: u32) -> Result<u32, u32> {
        in_range(font, 0)?;
        let kept = self.fonts.get(&font).ok_or(6_u32)?;
        let size = if kept.header[2] == 20 { 68 } else { 64 };
        let mut stream = format!("\x1b*c{font}D\x1b)s{size}W").into_bytes();
        stream.extend(&kept.header[..size]);
        for (code, character) in &kept.characters {
            stream.extend(format!("\x1b*c{code}E").bytes());
            let first = &character.data[..character.data.len().min(32751)];
            let rest = &character.data[first.len()..];
            stream.extend(format!("\x1b(s{}W", 16 + first.len()).bytes());
            stream.extend(&character.kept);
            stream.extend(first);
            if !rest.is_empty() {
                stream.extend(format!("\x1b(s{}W", 2 + rest.len()).bytes());
                stream.extend([4, 1]);
                stream.extend(rest);
            }
        }
        write(out, &stream)?;
        Ok(stream.len() as u32)
    }

    /// Rule by rule, and for each rule code by code.
    pub fn check_profile(&self, font: u32) -> Result<(u32, u32), u32> {
        in_range(font, 0)?;
        let font = self.fonts.get(&font).ok_or(6_u32)?;
        if font.header[3] != 0 {
            return Ok((1, 0));
        }
        if font.header[13] != 0 {
            return Ok((2, 0));
        }
        let complete = |code: u32| match font.characters.get(&code) {
            Some(character) => rows(&character.kept, &character.data).unwrap().2,
            None => false,
        };
        if let Some(code) = (32..128).find(|&code| !complete(code)) {
            return Ok((3, code));
        }
        for rule in 4..8 {
            for (&code, character) in &font.characters {
                let left = signed(be(&character.kept, 6), 16);
                let holds = match rule {
                    4 => left >= 0,
                    5 => left + be(&character.kept, 10) <= be(&font.header, 8),
                    6 => be(&character.kept, 12) <= be(&font.header, 10),
                    _ => be(&character.kept, 14) == be(&font.header, 16),
                };
                if !holds {
                    return Ok((rule, code));
                }
            }
        }
        Ok((0, 0))
    }

    pub fn write_profiled(&self, out: &mut [u8], font: u32) -> Result<u32, u32> {
        if self.check_profile(font)? != (0, 0) {
            return Err(14);
        }
        self.write_font(out, font)
    }

    /// W-210: code by code, each number by itself from the list of the code's characters.
    pub fn add_figures(&self, figures: &mut [u8]) -> Result<(), u32> {
        if figures.len() != 14344 {
            return Err(2);
        }
        let before: Vec<u64> = figures.chunks(8).map(low_first).collect();
        if before[0] > 63 {
            return Err(2);
        }
        let mut after = before.clone();
        after[0] += 1;
        for code in 0..256 {
            let at = 1 + 7 * code as usize;
            let old: [u64; 7] = before[at..at + 7].try_into().unwrap();
            if above(&old, before[0]) {
                return Err(2);
            }
            let fonts = self.fonts.values();
            let of_code: Vec<&Character> = fonts.filter_map(|f| f.characters.get(&code)).collect();
            if !of_code.is_empty() {
                after[at..at + 7].copy_from_slice(&joined(&old, &of_code));
            }
        }
        let bytes: Vec<u8> = after.iter().flat_map(|n| n.to_le_bytes()).collect();
        write(figures, &bytes)
    }

    pub fn read_stream(&mut self, stream: &[u8]) -> StreamRead {
        let (mut font, mut code) = (0, 0);
        let mut answers = Vec::new();
        let mut at = 0;
        while at < stream.len() {
            let Some((letters, number, end, mut next)) = split(stream, at) else {
                return read(&answers, Some(at));
            };
            let answer = match (letters.as_str(), end) {
                ("\x1b*c", 'D') => in_range(number, 0)
                    .map(|()| font = number)
                    .map_err(Refused::from),
                ("\x1b*c", 'E') => in_range(0, number)
                    .map(|()| code = number)
                    .map_err(Refused::from),
                ("\x1b)s" | "\x1b(s", 'W') => {
                    let start = next;
                    next += number as usize;
                    if number > 32767 || next > stream.len() {
                        return read(&answers, Some(at));
                    }
                    if letters == "\x1b)s" {
                        self.download_font(&stream[start..next], font)
                            .map_err(Refused::from)
                    } else {
                        self.download_character(&stream[start..next], font, code)
                    }
                }
                _ => return read(&answers, Some(at)),
            };
            answers.push(answer);
            at = next;
        }
        read(&answers, None)
    }
}

fn low_first(bytes: &[u8]) -> u64 {
    bytes.iter().rev().fold(0, |n, &b| 256 * n + u64::from(b))
}

/// W-210: "a count, dots or sum handed in above what the stores so far allow at 65,536
/// bytes"; 65,524 / 108 is 606 and 76 over.
fn above(figures: &[u64; 7], stores: u64) -> bool {
    let [count, dots, _, _, sum, ..] = *figures;
    count > 606 * stores || dots > 606 * 262_144 * stores || sum > 606 * 32_767 * stores
}

/// A code's seven numbers with these characters as well.
fn joined(old: &[u64; 7], characters: &[&Character]) -> [u64; 7] {
    let field = |at: usize| characters.iter().map(move |c| be(&c.kept, at) as u64);
    let black = |c: &&Character| {
        let (rows, ..) = rows(&c.kept, &c.data).unwrap();
        rows.concat().into_iter().filter(|&dot| dot).count() as u64
    };
    let count = old[0] + characters.len() as u64;
    let dots = old[1] + characters.iter().map(black).sum::<u64>();
    let mut widths: Vec<u64> = field(10).collect();
    let greatest = old[3].max(*widths.iter().max().unwrap());
    if old[2] > 0 {
        widths.push(old[2]);
    }
    let least = *widths.iter().min().unwrap();
    let sum = old[4] + field(14).sum::<u64>();
    [count, dots, least, greatest, sum, sum / count, sum % count]
}

/// What a stream answers of which the commands got these answers, and that is broken
/// at this place, if it is.
fn read(answers: &[Result<(), Refused>], broken: Option<usize>) -> StreamRead {
    let done = answers.iter().filter(|answer| answer.is_ok()).count();
    let bad = answers
        .iter()
        .find(|answer| matches!(answer, Err(Refused { number: 8, .. })));
    let Downloaded {
        row, filled, run, ..
    } = downloaded(*bad.unwrap_or(&Ok(())));
    StreamRead {
        refusal: if broken.is_some() { 13 } else { 0 },
        done: done as u64,
        refused: (answers.len() - done) as u64,
        place: broken.unwrap_or(0) as u64,
        row,
        filled,
        run,
    }
}

/// A font that the steps so far have left, and the place of its store in the list.
struct Left<'a> {
    store: usize,
    number: u32,
    header: &'a [u8],
}

/// The steps over the fonts of one store, or of two of which the first has the soft
/// fonts (W-208): the store's place in the list, and the font number.
fn choose_among(stores: &[&Model], request: &Request) -> Result<(usize, u32), u32> {
    let tops = [2047, 1, 57600, 99975, 1023, 65535, 3];
    let numbers = [
        request.symbol_set,
        request.spacing,
        request.pitch,
        request.height,
        request.style,
        request.typeface,
        request.orientation,
    ];
    let above = numbers.iter().zip(tops).any(|(&number, top)| number > top);
    if above || request.weight < -7 || request.weight > 7 {
        return Err(2);
    }
    if request.mode != 300 && request.mode != 600 {
        return Err(2);
    }
    let fine = |f: &Left| be(f.header, 64) == 600;
    let mut left: Vec<Left> = Vec::new();
    for (store, model) in stores.iter().enumerate() {
        for (&number, font) in &model.fonts {
            let header = &font.header;
            left.push(Left {
                store,
                number,
                header,
            });
        }
    }
    if request.mode == 300 {
        left.retain(|f| !fine(f));
    }
    let set = |f: &Left| be(f.header, 14);
    let asked = i64::from(request.symbol_set);
    let wanted = if left.iter().any(|f| set(f) == asked) {
        asked
    } else {
        277
    };
    left.retain(|f| set(f) == wanted);
    if left.is_empty() {
        return Err(11);
    }
    prefer(&mut left, |f| u32::from(f.header[13]) == request.spacing);
    if left.iter().all(|f| f.header[13] == 0) {
        let pitch = |f: &Left| {
            let of_300 = if fine(f) { 1 } else { 2 };
            of_300 * (256 * be(f.header, 16) + i64::from(f.header[40]))
        };
        let qualifies = |f: &Left| i64::from(request.pitch) * pitch(f) <= 61_440_000;
        let best = match left.iter().filter(|f| qualifies(f)).map(pitch).max() {
            Some(greatest) => greatest,
            None => left.iter().map(pitch).min().unwrap(),
        };
        left.retain(|f| pitch(f) == best);
    }
    let away = |f: &Left| {
        let of_300 = if fine(f) { 1 } else { 2 };
        let height = of_300 * (256 * be(f.header, 18) + i64::from(f.header[41]));
        let distance = (256 * i64::from(request.height) - 3 * height).abs();
        if distance <= 6400 {
            0
        } else {
            distance
        }
    };
    let least = left.iter().map(away).min().unwrap();
    left.retain(|f| away(f) == least);
    prefer(&mut left, |f| {
        u32::from(f.header[4]) * 256 + u32::from(f.header[23]) == request.style
    });
    let weight = |f: &Left| signed(i64::from(f.header[24]), 8) as i32;
    let thicker = left
        .iter()
        .map(weight)
        .filter(|&w| w > request.weight)
        .min();
    let thinner = left
        .iter()
        .map(weight)
        .filter(|&w| w < request.weight)
        .max();
    let best = if left.iter().any(|f| weight(f) == request.weight) {
        request.weight
    } else if request.weight >= 0 {
        thicker.or(thinner).unwrap()
    } else {
        thinner.or(thicker).unwrap()
    };
    left.retain(|f| weight(f) == best);
    prefer(&mut left, |f| {
        u32::from(f.header[26]) * 256 + u32::from(f.header[25]) == request.typeface
    });
    if request.mode == 600 {
        prefer(&mut left, fine);
    }
    prefer(&mut left, |f| f.store == 0);
    prefer(&mut left, |f| {
        u32::from(f.header[12]) == request.orientation
    });
    let lowest = left.iter().min_by_key(|f| f.number).unwrap();
    Ok((lowest.store, lowest.number))
}

/// Three bytes, one to five digits, and one byte more, if that is what stands
/// there; the last is the place behind them.
fn split(stream: &[u8], at: usize) -> Option<(String, u32, char, usize)> {
    let letters: String = stream
        .get(at..at + 3)?
        .iter()
        .map(|&b| char::from(b))
        .collect();
    let mut digits = String::new();
    let mut next = at + 3;
    while stream.get(next)?.is_ascii_digit() {
        digits.push(char::from(stream[next]));
        next += 1;
    }
    if digits.len() > 5 {
        return None;
    }
    Some((
        letters,
        digits.parse().ok()?,
        char::from(stream[next]),
        next + 1,
    ))
}

fn prefer(left: &mut Vec<Left>, has: impl Fn(&Left) -> bool) {
    if left.iter().any(&has) {
        left.retain(has);
    }
}

fn write(out: &mut [u8], bytes: &[u8]) -> Result<(), u32> {
    if out.len() < bytes.len() {
        return Err(12);
    }
    out[..bytes.len()].copy_from_slice(bytes);
    Ok(())
}

pub fn number(result: Result<(), u32>) -> u32 {
    result.err().unwrap_or(0)
}

pub fn downloaded(result: Result<(), Refused>) -> Downloaded {
    let refused = result.err().unwrap_or(Refused::from(0));
    Downloaded {
        refusal: refused.number,
        row: refused.row as u32,
        filled: refused.filled as u32,
        run: refused.run as u32,
    }
}

pub fn told(result: Result<u32, u32>) -> Told {
    Told {
        refusal: result.err().unwrap_or(0),
        count: result.unwrap_or(0),
    }
}

pub fn chosen(result: Result<u32, u32>) -> Chosen {
    Chosen {
        refusal: result.err().unwrap_or(0),
        font: result.unwrap_or(0),
    }
}

pub fn chosen_record(result: Result<(u32, u32, u64), u32>) -> ChosenRecord {
    let (which, font, place) = result.unwrap_or((0, 0, 0));
    ChosenRecord {
        refusal: result.err().unwrap_or(0),
        font,
        which,
        place,
    }
}

pub fn profile(result: Result<(u32, u32), u32>) -> Profile {
    let (rule, code) = result.unwrap_or((0, 0));
    Profile {
        refusal: result.err().unwrap_or(0),
        rule,
        code,
    }
}

pub fn written(result: Result<u32, u32>) -> Written {
    Written {
        refusal: result.err().unwrap_or(0),
        length: result.unwrap_or(0),
    }
}
