//! W-212, reading past torn places: torn streams, what such a stream spells by the words of
//! the request, and what of it is met.

use crate::book::{self, Spelled};
use crate::calls::{Answer, Call, Outcome};
use crate::generate::{open, records, Generator};
use crate::history::{Found, History, Pair};
use crate::met::Met;
use marlinfold_reference as reference;

/// "every skipped stretch by first place and length, each number 8 bytes, low byte first"
pub const STRETCH: usize = 16;

/// A skipped stretch.
struct Stretch {
    first: usize,
    length: usize,
}

impl Stretch {
    fn end(&self) -> usize {
        self.first + self.length
    }

    fn listed(&self) -> Vec<u8> {
        let numbers = [self.first, self.length];
        numbers.iter().flat_map(|&n| low_first(n as u64)).collect()
    }
}

fn low_first(number: u64) -> impl Iterator<Item = u8> {
    (0..8).map(move |byte| (number >> (8 * byte)) as u8)
}

/// What a stream spells with its torn places passed over: a piece before, between and after
/// the stretches, and whether the list had no place for one.
struct Torn {
    pieces: Vec<Spelled>,
    stretches: Vec<Stretch>,
    full: bool,
}

impl Torn {
    /// "at a 13, go to the first later place where a whole ESC *c#D command stands with a
    /// number within range, start there as a fresh reading would"; "If there is no such place,
    /// the rest is the last stretch."
    fn of(stream: &[u8], room: usize) -> Torn {
        let mut torn = Torn {
            pieces: Vec::new(),
            stretches: Vec::new(),
            full: false,
        };
        let mut at = 0;
        loop {
            let piece = book::spelled(&stream[at..]);
            let broken = piece.broken;
            torn.pieces.push(piece);
            let Some(place) = broken else {
                return torn;
            };
            if torn.stretches.len() == room {
                torn.full = true;
                return torn;
            }
            let first = at + place as usize;
            let mut later = first + 1..stream.len();
            at = later
                .find(|&place| book::restarts(stream, place))
                .unwrap_or(stream.len());
            torn.stretches.push(Stretch {
                first,
                length: at - first,
            });
        }
    }
}

/// A download of a piece, and what it was answered.
struct Made<'a> {
    piece: usize,
    call: &'a Call,
    refusal: u32,
}

impl History<'_> {
    /// "it counts as the downloads spelled by the commands that it reads whole outside the
    /// skipped stretches, up to its end or a 12": makes them one by one, notes them in the
    /// book, and gives what the call must answer and list.
    pub fn salvaged_one_by_one(
        &mut self,
        before: &[u8],
        stream: &[u8],
        list: &[u8],
        pair: &mut Pair,
    ) -> Found<Outcome> {
        let torn = Torn::of(stream, list.len() / STRETCH);
        let mut alone = self.lending.lend(before, &mut self.chance);
        let mut done: u64 = torn.pieces.iter().map(|piece| piece.done).sum();
        let mut refused: u64 = torn.pieces.iter().map(|piece| piece.refused).sum();
        let mut made = Vec::new();
        for (piece, spelled) in torn.pieces.iter().enumerate() {
            for call in &spelled.downloads {
                let (answer, _) = self.only_ours(&mut alone, call)?;
                pair.book.note(call, &answer);
                match answer.refusal {
                    0 => done += 1,
                    _ => refused += 1,
                }
                made.push(Made {
                    piece,
                    call,
                    refusal: answer.refusal,
                });
            }
        }
        if alone.content() != pair.ours.content() {
            return Err("a salvaged stream's commands made one by one leave another store".into());
        }
        torn_met(&torn, stream, list.len(), self.met);
        made_met(&torn, &made, self.met);
        let mut out: Vec<u8> = torn.stretches.iter().flat_map(Stretch::listed).collect();
        out.extend(&list[out.len()..]);
        let answer = match torn.full {
            true => Answer::of(12, []),
            false => Answer::of(0, [torn.stretches.len() as u64, done, refused]),
        };
        Ok(Outcome { answer, out })
    }
}

/// Counts what is worth having met of the stretches and of the list's length.
fn torn_met(torn: &Torn, stream: &[u8], list: usize, met: &mut Met) {
    let listed = torn.stretches.len();
    if torn.full {
        met.situation(match listed {
            0 => "salvage, 12 with no stretch listed",
            _ => "salvage, 12 after stretches listed",
        });
        if Torn::of(stream, usize::MAX).stretches.len() == listed + 1 {
            met.situation("salvage, 12 for the last stretch alone");
        }
    } else {
        met.situation(match listed {
            0 => "salvage, a whole stream",
            1 => "salvage, one stretch",
            _ => "salvage, several stretches",
        });
        if listed == 0 && list < STRETCH {
            met.situation("salvage, a whole stream and a list shorter than 16 bytes");
        }
        if listed >= 10 {
            met.situation("salvage, ten stretches or more");
        }
        if listed > 0 && list == listed * STRETCH {
            met.situation("salvage, a list for exactly the stretches");
        }
        if listed > 0 && list >= (listed + 1) * STRETCH {
            met.situation("salvage, a list with room to spare");
        }
    }
    if listed > 0 && list % STRETCH != 0 {
        met.situation("salvage, a list length that is no multiple of 16");
    }
    for stretch in &torn.stretches {
        stretch_met(stretch, stream, met);
    }
}

fn stretch_met(stretch: &Stretch, stream: &[u8], met: &mut Met) {
    let skipped = &stream[stretch.first..stretch.end()];
    if stretch.length > 65_535 {
        met.situation("salvage, a stretch of more than 65535 bytes");
    }
    if stretch.first > 65_535 {
        met.situation("salvage, a stretch after the first 65536 bytes");
    }
    if stretch.end() == stream.len() {
        met.situation("salvage, a last stretch to the end");
        if stretch.length == 1 {
            met.situation("salvage, a last stretch of the last byte alone");
        }
    } else {
        restart_met(stretch, stream, met);
    }
    for at in 1..skipped.len() {
        let place = stretch.first + at;
        match book::command(stream, place) {
            Some((b'*', _, b'D', _)) => met.situation("salvage, a D out of range passed over"),
            Some(_) => met.situation("salvage, an E or a block passed over"),
            None if skipped[at..].starts_with(b"\x1b*c") => {
                let digits = |byte: &&u8| byte.is_ascii_digit();
                let rest = &skipped[at + 3..];
                let count = rest.iter().take_while(digits).count();
                if count == 6 && rest.get(6) == Some(&b'D') {
                    met.situation("salvage, a D of six digits passed over");
                }
            }
            None => {}
        }
    }
}

/// Of a stretch that a restart ends.
fn restart_met(stretch: &Stretch, stream: &[u8], met: &mut Met) {
    let skipped = &stream[stretch.first..stretch.end()];
    if skipped.len() == 1 {
        met.situation("salvage, a restart one byte after the 13");
    }
    if (4..9).contains(&skipped.len()) && skipped.starts_with(b"\x1b*c") {
        met.situation("salvage, a restart inside the broken command");
    }
    if in_picture_data(skipped) {
        met.situation("salvage, a restart inside picture data");
    }
    if skipped.len() > 2 && skipped.ends_with(b"\x1b\x1b\x1b") {
        met.situation("salvage, a run of ESC before a restart");
    }
    let Some((_, number, _, after)) = book::command(stream, stretch.end()) else {
        return;
    };
    let digits = after - 1 - (stretch.end() + 3);
    if digits > number.to_string().len() {
        met.situation("salvage, a restart with leading zeros");
    }
    if digits == 5 {
        met.situation("salvage, a restart with five digits");
    }
    match number {
        0 => met.situation("salvage, a restart with number 0"),
        32767 => met.situation("salvage, a restart with number 32767"),
        _ => {}
    }
}

/// Whether a stretch begins with a character block that the end cuts, and goes on into its
/// data: "Such bytes inside picture data count too."
fn in_picture_data(skipped: &[u8]) -> bool {
    let Some(rest) = skipped.strip_prefix(b"\x1b(s") else {
        return false;
    };
    let digits = rest.iter().take_while(|byte| byte.is_ascii_digit()).count();
    let Some(block) = rest[digits..].strip_prefix(b"W") else {
        return false;
    };
    (1..=5).contains(&digits) && block.starts_with(&[4, 0, 14]) && block.len() > 16
}

/// Counts what is worth having met of the downloads on both sides of a tear.
fn made_met(torn: &Torn, made: &[Made], met: &mut Met) {
    let last = torn.pieces.len() - 1;
    let before = |refused: bool| {
        let mut all = made.iter();
        all.any(|made| made.piece < last && (made.refusal != 0) == refused)
    };
    let after = |refused: bool| {
        let mut all = made.iter();
        all.any(|made| made.piece > 0 && (made.refusal != 0) == refused)
    };
    if before(false) && after(false) {
        met.situation("salvage, downloads done before and after a tear");
    }
    if before(true) && after(true) {
        met.situation("salvage, commands refused before and after a tear");
    }
    if torn.full && made.iter().any(|made| made.refusal == 0) {
        met.situation("salvage, 12 after downloads done");
    }
    for (index, now) in made.iter().enumerate() {
        let Call::DownloadCharacter { block, code, .. } = now.call else {
            continue;
        };
        if now.piece == 0 {
            continue;
        }
        if now.refusal == 10 {
            met.situation("salvage, a font struck for lack of room after a tear");
        }
        let other_code = |earlier: &Made| {
            let Call::DownloadCharacter { code, .. } = earlier.call else {
                return false;
            };
            earlier.piece + 1 == now.piece && *code != 0
        };
        if *code == 0 && now.refusal == 0 && made[..index].iter().any(other_code) {
            met.situation("salvage, a block with code 0 after a tear, another code before it");
        }
        let first_of_piece = index == 0 || made[index - 1].piece < now.piece;
        if first_of_piece && now.refusal == 0 && block[1] != 0 {
            met.situation("salvage, an open character continued after a tear");
        }
    }
}

/// What a tear leaves, or what looks like a restart and is none.
const SCRAPS: [&[u8]; 22] = [
    b"\x1b",
    b"\x1b\x1b\x1b\x1b",
    b"\x1b*",
    b"\x1b*c",
    b"\x1b*c\x1b*c\x1b*c",
    b"\x1b*c5",
    b"\x1b*c12345",
    b"\x1b*cD",
    b"\x1b*c32768D",
    b"\x1b*c99999D",
    b"\x1b*c000005D",
    b"\x1b*c123456D",
    b"\x1b*c00005D",
    b"\x1b*c12345D",
    b"\x1b*c5\x1b*c7D",
    b"\x1b*c0D",
    b"\x1b*c32767D",
    b"\x1b*c65E",
    b"\x1b(s2W",
    b"\x1b(s32767W\x04\x00\x0e\x01\x00\x00\x00\x02\x00\x16\x00\x08\x00\x63\x00\x78ab",
    b"\x1b)s99999W",
    b"?",
];

/// Streams are cut here, so that a history takes no longer for them.
const LONGEST: usize = 20_000;

impl Generator<'_> {
    /// A torn stream, and a list with room for its stretches, for fewer or for more.
    pub fn salvage(&mut self, store: &[u8]) -> Call {
        let stream = match self.chance.once_in(8) {
            true => self.stream(store),
            false => self.torn(store),
        };
        let needed = STRETCH * Torn::of(&stream, usize::MAX).stretches.len();
        let list = match self.chance.once_in(4) {
            true => self.output(needed + 40),
            false => self.output(needed),
        };
        Call::SalvageStream { stream, list }
    }

    /// Streams joined, with bytes cut out, put over others or put between.
    fn torn(&mut self, store: &[u8]) -> Vec<u8> {
        let mut stream = Vec::new();
        for _ in 0..self.chance.between(1, 5) {
            stream.extend(self.part(store));
            if self.chance.once_in(2) {
                stream.extend(self.chance.of(&SCRAPS));
            }
        }
        for _ in 0..self.chance.of(&[0, 0, 1, 1, 2, 3, 8, 20]) {
            self.tear(&mut stream);
        }
        stream.truncate(LONGEST);
        if self.chance.once_in(50) {
            self.lengthen(&mut stream);
        }
        stream
    }

    /// More bytes at some place than a number of 16 bits counts, so that a length, or the places
    /// after it, need three bytes.
    fn lengthen(&mut self, stream: &mut Vec<u8>) {
        let at = self.chance.below(stream.len() + 1);
        let byte = self.chance.of(b"\0\x1b.");
        stream.splice(at..at, vec![byte; 66_000]);
    }

    /// A stream, or what may follow a tear.
    fn part(&mut self, store: &[u8]) -> Vec<u8> {
        match self.chance.below(9) {
            0..=2 => self.stream(store),
            3 => self.written(store),
            4 => self.continued(store),
            5 => self.spelling_data(store),
            6 => self.chance.of(&SCRAPS).to_vec(),
            7 => self.scraps(),
            _ => self.without_code(store),
        }
    }

    /// Many torn places, and font numbers between them.
    fn scraps(&mut self) -> Vec<u8> {
        let mut stream = Vec::new();
        for _ in 0..self.chance.between(5, 30) {
            stream.extend(self.chance.of(&SCRAPS));
            let number = self.chance.below(32_768) as u32;
            stream.extend(self.spelled("*c", number, 'D'));
        }
        stream
    }

    /// A font of the store as it is written out.
    fn written(&mut self, store: &[u8]) -> Vec<u8> {
        let mut out = vec![0; store.len() + 2048];
        let font = self.font_number(store);
        let length = reference::write_font(store, &mut out, font).length;
        out.truncate(length as usize);
        out
    }

    /// A continuation of the character that is open in the store.
    fn continued(&mut self, store: &[u8]) -> Vec<u8> {
        let Some((font, code)) = open(store) else {
            return Vec::new();
        };
        let block = self.continuation(store, font, code);
        let mut stream = self.spelled("*c", font, 'D');
        stream.extend(self.spelled("*c", code, 'E'));
        stream.extend(self.spelled("(s", block.len() as u32, 'W'));
        stream.extend(block);
        stream
    }

    /// A character block straight after the font number.
    fn without_code(&mut self, store: &[u8]) -> Vec<u8> {
        let font = self.any_kept_font(store);
        let mut block = self.small_character();
        block[4] = self.chance.below(2) as u8;
        let mut stream = self.spelled("*c", font, 'D');
        stream.extend(self.spelled("(s", block.len() as u32, 'W'));
        stream.extend(block);
        stream
    }

    /// A character of which the data spells a font number and more, maybe with a wrong length.
    fn spelling_data(&mut self, store: &[u8]) -> Vec<u8> {
        let font = self.any_kept_font(store);
        let mut block = vec![4, 0, 14, 1, 0, 0, 0, 2, 0, 22, 0, 8, 0, 200, 0, 120];
        let filling = self.chance.below(40);
        block.extend(self.chance.bytes(filling));
        block.extend(self.without_code(store));
        let length = match self.chance.below(3) {
            0 => block.len(),
            1 => self.chance.between(16, block.len() + 40),
            _ => 32_767,
        };
        let mut stream = self.spelled("*c", font, 'D');
        stream.extend(self.spelled("*c", 65, 'E'));
        stream.extend(self.spelled("(s", length as u32, 'W'));
        stream.extend(block);
        stream
    }

    /// A font number of the store's, or any within range.
    fn any_kept_font(&mut self, store: &[u8]) -> u32 {
        let kept = records(store);
        match kept.is_empty() || self.chance.once_in(4) {
            true => self.chance.of(&[0, 1, 5, 300, 32767]),
            false => kept[self.chance.below(kept.len())].font,
        }
    }

    fn tear(&mut self, stream: &mut Vec<u8>) {
        if stream.is_empty() {
            return;
        }
        let chance = &mut *self.chance;
        let escapes: Vec<usize> = (0..stream.len()).filter(|&at| stream[at] == 27).collect();
        let at = match escapes.is_empty() || chance.once_in(3) {
            true => chance.below(stream.len()),
            false => (chance.of(&escapes) + chance.below(10)).min(stream.len() - 1),
        };
        let most = chance.of(&[1, 8, 200]);
        let end = (at + chance.between(1, most)).min(stream.len());
        match chance.below(4) {
            0 => drop(stream.drain(at..end)),
            1 => stream[at..end].fill_with(|| chance.byte()),
            2 => stream.truncate(end.max(stream.len() / 2)),
            _ => drop(stream.splice(at..at, chance.of(&SCRAPS).iter().copied())),
        }
    }
}
