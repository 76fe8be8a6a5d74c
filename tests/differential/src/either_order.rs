//! W-211: two calls out of the downloads and removals, on different font numbers, made in
//! either order on copies of one store: against the reference, and as the request has it.

use crate::calls::{theirs, Answer, Call, Lending};
use crate::chance::Chance;
use crate::generate::{character, open, records, room, Generator, Record, Theme, FONT_KEPT};
use crate::history::{first_difference, Found, History, Pair};
use crate::met::Met;

/// One number in so many has a history of such pairs.
const EVERY: usize = 8;
/// "the 12 of the first record"
const FIRST_RECORD: usize = 12;
const STORE_MAX: usize = 65_536;

/// What a call is, read from the call. A first block and a continuation are both character
/// blocks.
#[derive(Clone, Copy, PartialEq)]
enum Kind {
    FontBlock,
    FirstBlock,
    Continuation,
    FontRemoval,
    CharacterRemoval,
}

/// Downloads more often, since there are more ways of them.
const KINDS: [Kind; 7] = [
    Kind::FontBlock,
    Kind::FontBlock,
    Kind::FirstBlock,
    Kind::FirstBlock,
    Kind::Continuation,
    Kind::FontRemoval,
    Kind::CharacterRemoval,
];

/// The kinds of which pairs are counted.
const NAMES: [&str; 4] = [
    "font block",
    "character block",
    "font removal",
    "character removal",
];

impl Kind {
    fn of(call: &Call) -> Kind {
        match call {
            Call::DownloadFont { .. } => Kind::FontBlock,
            Call::DownloadCharacter { block, .. } => match block.get(1) {
                Some(1..) => Kind::Continuation,
                _ => Kind::FirstBlock,
            },
            Call::RemoveFont { .. } => Kind::FontRemoval,
            Call::RemoveCharacter { .. } => Kind::CharacterRemoval,
            _ => unreachable!("no call that is made here"),
        }
    }

    fn is_character_block(self) -> bool {
        matches!(self, Kind::FirstBlock | Kind::Continuation)
    }

    /// Its place in `NAMES`.
    fn index(self) -> usize {
        match self {
            Kind::FontBlock => 0,
            Kind::FirstBlock | Kind::Continuation => 1,
            Kind::FontRemoval => 2,
            Kind::CharacterRemoval => 3,
        }
    }

    fn own_name(self) -> &'static str {
        match self {
            Kind::FirstBlock => "first block",
            Kind::Continuation => "continuation",
            _ => NAMES[self.index()],
        }
    }
}

fn font_of(call: &Call) -> u32 {
    match call {
        Call::DownloadFont { font, .. }
        | Call::DownloadCharacter { font, .. }
        | Call::RemoveFont { font }
        | Call::RemoveCharacter { font, .. } => *font,
        _ => unreachable!("no call that is made here"),
    }
}

/// Both calls, made in one order.
struct Made {
    pair: Pair,
    /// Of x and of y, whichever was made first.
    answers: [Answer; 2],
    /// The open character after the first of the two.
    between: Option<(u32, u32)>,
}

impl Made {
    fn refusals(&self) -> [u32; 2] {
        self.answers.map(|answer| answer.refusal)
    }
}

/// A store and two calls x and y, made as x then y and as y then x.
struct Tried<'a> {
    before: &'a [u8],
    calls: [&'a Call; 2],
    orders: [Made; 2],
}

/// Runs one history of pairs, for some of the numbers; the difference found, if one is.
pub fn run(
    seed: u64,
    number: u64,
    lending: Lending,
    small: bool,
    trace: bool,
    met: &mut Met,
) -> Found<()> {
    let mut chance = Chance::new(seed ^ 0x211, number);
    if !chance.once_in(EVERY) {
        return Ok(());
    }
    let large = !small && chance.once_in(60);
    let theme = match large {
        true => Theme::Giants,
        false => Theme::Small,
    };
    let mut history = History {
        chance,
        theme,
        lending,
        trace,
        met,
    };
    let (pair, start) = history.begun(large)?;
    // Mostly with room for a few fonts more.
    let more = history.chance.of(&[0, 300, 1000]);
    let mut bytes = pair.theirs;
    bytes.resize((bytes.len() + more).min(STORE_MAX), 0);
    let mut pair = history.pair(&bytes);
    for _ in 0..if large { 3 } else { 20 } {
        history.one_pair(&mut pair, !start.fonts.is_empty())?;
    }
    Ok(())
}

impl History<'_> {
    /// Two calls on the store as it is left, or as it is with other room; then maybe they
    /// join its history.
    fn one_pair(&mut self, pair: &mut Pair, of_a_dump: bool) -> Found<()> {
        self.more_fonts(pair)?;
        let mut kinds = [self.chance.of(&KINDS), self.chance.of(&KINDS)];
        if kinds[1] == Kind::Continuation {
            // It has one font alone to go to, so it is made up first.
            kinds.swap(0, 1);
        }
        if kinds[0] == Kind::Continuation || self.chance.once_in(3) {
            self.one_open(pair)?;
        }
        let Some([x, y]) = self.generator().two_calls(kinds, &pair.theirs) else {
            return Ok(());
        };
        let bytes = self.with_room(&pair.theirs, [&x, &y]);
        let mut orders = self.in_either_order(&bytes, [&x, &y], of_a_dump)?;
        if bytes.len() == pair.theirs.len() && self.chance.once_in(2) {
            *pair = orders.swap_remove(self.chance.below(2)).pair;
        }
        Ok(())
    }

    /// Where few fonts are kept, more of them with characters.
    fn more_fonts(&mut self, pair: &mut Pair) -> Found<()> {
        let kept = records(&pair.theirs);
        if kept.iter().filter(|record| record.code.is_none()).count() < 3 {
            let stream = self.generator().shelf(room(&pair.theirs));
            self.both(pair, &Call::ReadStream { stream })?;
        }
        Ok(())
    }

    /// Where none is open, a character of a kept font is begun.
    fn one_open(&mut self, pair: &mut Pair) -> Found<()> {
        if open(&pair.theirs).is_some() || room(&pair.theirs) < 100 {
            return Ok(());
        }
        let kept = records(&pair.theirs);
        let Some(call) = self.generator().begun_character(&pair.theirs, &kept) else {
            return Ok(());
        };
        self.both(pair, &call)?;
        Ok(())
    }

    /// The store with the room that it has, or with just enough for both calls in either
    /// order, or a byte less, or enough for one of them, or for none.
    fn with_room(&mut self, store: &[u8], calls: [&Call; 2]) -> Vec<u8> {
        let [one, other] = calls.map(|call| growth(store, call));
        let enough = one.max(other).max(one + other);
        let (less, more) = (one.min(other), one.max(other));
        let wanted = match self.chance.below(14) {
            0..=2 => room(store) as i64,
            3 | 4 => enough,
            5 | 6 => enough - 1,
            7 => less.max(0) + self.chance.below((more - less.max(0)).max(1) as usize) as i64,
            8 | 9 => less - 1,
            _ => enough + self.chance.below(300) as i64,
        };
        let mut bytes = store[..store.len() - room(store)].to_vec();
        let length = bytes.len() + wanted.max(0) as usize;
        bytes.resize(length.min(STORE_MAX), 0);
        bytes
    }

    /// Both orders, each on its own copy, checked. What they leave.
    fn in_either_order(
        &mut self,
        before: &[u8],
        calls: [&Call; 2],
        of_a_dump: bool,
    ) -> Found<Vec<Made>> {
        let orders = [self.made(before, calls, 0)?, self.made(before, calls, 1)?];
        let tried = Tried {
            before,
            calls,
            orders,
        };
        tried.check().map_err(|what| {
            let [one, other] = tried.orders.each_ref().map(|made| made.answers);
            let [x, y] = calls;
            format!("{x}\n{y}\n  in either order, answered {one:?} and {other:?}: {what}")
        })?;
        tried.met(self.met);
        if of_a_dump && tried.is_meant() {
            self.met
                .situation("either order, in a store that began as a dump");
        }
        Ok(tried.orders.into())
    }

    /// Both calls on a copy, this one of them first.
    fn made(&mut self, before: &[u8], calls: [&Call; 2], first: usize) -> Found<Made> {
        let mut pair = self.pair(before);
        let mut answers = [Answer::of(0, []); 2];
        answers[first] = self.both(&mut pair, calls[first])?;
        let between = open(pair.ours.content());
        answers[1 - first] = self.both(&mut pair, calls[1 - first])?;
        Ok(Made {
            pair,
            answers,
            between,
        })
    }
}

/// By how many bytes a call makes the records longer where there is room; only to aim by.
fn growth(store: &[u8], call: &Call) -> i64 {
    let used = store.len() - room(store);
    let mut roomy = store[..used].to_vec();
    roomy.resize((used + 33_000).min(STORE_MAX), 0);
    theirs(call, &mut roomy);
    (roomy.len() - room(&roomy)) as i64 - used as i64
}

impl Tried<'_> {
    fn kinds(&self) -> [Kind; 2] {
        self.calls.map(Kind::of)
    }

    /// "on different font numbers, neither refused in either order", which "means that all
    /// four answers are 0".
    fn is_meant(&self) -> bool {
        let [x, y] = self.calls.map(font_of);
        x != y && self.orders.iter().all(|made| made.refusals() == [0, 0])
    }

    /// The request's two sentences, word by word: "give in either order the same answers and
    /// the same store bytes after the 12 of the first record. If neither is a character block,
    /// those 12 are the same as well"; and, as is proved, if only one is. What the reference
    /// has left is not looked at.
    fn check(&self) -> Result<(), String> {
        if !self.is_meant() {
            return Ok(());
        }
        let kinds = self.kinds();
        let blocks = kinds.map(Kind::is_character_block);
        if blocks == [true, true] && kinds.contains(&Kind::Continuation) {
            // An accepted first block leaves its own character open, or none; and one
            // character is open, not two.
            return Err("a continuation is done after a character block of another font".into());
        }
        let [one, other] = &self.orders;
        if one.answers != other.answers {
            return Err("other answers".into());
        }
        let (one, other) = (one.pair.ours.content(), other.pair.ours.content());
        let (first, after) = one.split_at(FIRST_RECORD);
        let (other_first, other_after) = other.split_at(FIRST_RECORD);
        if let Some(at) = first_difference(after, other_after) {
            return Err(format!("the stores differ at {}", FIRST_RECORD + at));
        }
        if blocks != [true, true] && first != other_first {
            return Err(format!("first records {first:?} and {other_first:?}"));
        }
        Ok(())
    }

    /// Counts what is worth having met.
    fn met(&self, met: &mut Met) {
        if self.is_meant() {
            self.kinds_met(met);
            self.marks_met(met);
            self.records_met(met);
        } else {
            self.refused_met(met);
        }
    }

    fn kinds_met(&self, met: &mut Met) {
        let kinds = self.kinds();
        let mut pair = kinds.map(Kind::index);
        pair.sort();
        let [one, other] = pair.map(|index| NAMES[index]);
        met.situation(&format!("either order, {one} and {other}"));
        for (kind, beside) in [(kinds[0], kinds[1]), (kinds[1], kinds[0])] {
            if kind == Kind::Continuation {
                let beside = beside.own_name();
                met.situation(&format!("either order, continuation and {beside}"));
            }
        }
        if kinds == [Kind::FirstBlock; 2] {
            let first = |made: &Made| made.pair.ours.content()[..FIRST_RECORD].to_vec();
            met.situation(match first(&self.orders[0]) == first(&self.orders[1]) {
                true => "either order, two character blocks, the same first record",
                false => "either order, two character blocks, another first record",
            });
        }
    }

    /// What became of a character that was open before.
    fn marks_met(&self, met: &mut Met) {
        let Some(was) = open(self.before) else {
            return;
        };
        for (kind, made) in self.kinds().into_iter().zip(&self.orders) {
            if made.between.is_none() {
                let by = kind.own_name();
                met.situation(&format!(
                    "either order, the open character closed by a {by}"
                ));
            }
        }
        let ends = |made: &Made| open(made.pair.ours.content());
        if self.orders.iter().all(|made| ends(made) == Some(was)) {
            let fonts = self.calls.map(font_of);
            met.situation(match fonts.contains(&was.0) {
                true => "either order, a character of one of both fonts stays open",
                false => "either order, a character of a third font stays open",
            });
        }
    }

    /// What stood under the numbers before, and whether there is room left.
    fn records_met(&self, met: &mut Met) {
        let kept = |call: &Call| match call {
            Call::DownloadCharacter { font, code, .. } => {
                character(self.before, *font, *code).is_some()
            }
            _ => records(self.before)
                .iter()
                .any(|record| record.font == font_of(call)),
        };
        match (self.kinds(), self.calls.map(kept)) {
            ([Kind::FontBlock, Kind::FontBlock], [false, false]) => {
                met.situation("either order, two new fonts");
            }
            ([Kind::FontBlock, Kind::FontBlock], [true, true]) => {
                met.situation("either order, two fonts replaced");
            }
            ([Kind::FirstBlock, Kind::FirstBlock], [true, true]) => {
                met.situation("either order, two characters replaced");
            }
            _ => {}
        }
        if room(self.orders[0].pair.ours.content()) == 0 {
            met.situation("either order, no byte of room left");
        }
    }

    /// Pairs of which the request says nothing: refused in one order alone, or with 10 in
    /// both.
    fn refused_met(&self, met: &mut Met) {
        let orders = self.orders.each_ref().map(Made::refusals);
        if orders.contains(&[0, 0]) {
            let [x, y] = self.kinds();
            let first_block = x == Kind::FirstBlock || y == Kind::FirstBlock;
            let continued = x == Kind::Continuation || y == Kind::Continuation;
            for refusals in orders {
                if refusals.contains(&7) && first_block && continued {
                    met.situation("either order, 7 in one alone, for a continuation");
                } else if refusals.contains(&10) {
                    met.situation("either order, 10 in one alone");
                }
            }
        }
        match orders {
            [[0, 10], [10, 0]] => {
                met.situation("either order, 10 for the second call in both");
            }
            [[10, 0], [0, 10]] => {
                met.situation("either order, 10 for the first call in both");
            }
            [[0, 10], [0, 10]] | [[10, 0], [10, 0]] => {
                met.situation("either order, 10 for the same call in both");
            }
            _ => {}
        }
    }
}

impl Generator<'_> {
    /// Calls of these kinds on different font numbers, mostly such as are accepted; none
    /// where the store has nothing for them.
    fn two_calls(&mut self, kinds: [Kind; 2], store: &[u8]) -> Option<[Call; 2]> {
        let kept = records(store);
        let x = self.of_kind(kinds[0], store, &kept)?;
        let others: Vec<Record> = kept
            .into_iter()
            .filter(|record| record.font != font_of(&x))
            .collect();
        let y = self.of_kind(kinds[1], store, &others)?;
        (font_of(&x) != font_of(&y)).then_some([x, y])
    }

    /// A call of this kind, aimed at these records of the store.
    fn of_kind(&mut self, kind: Kind, store: &[u8], kept: &[Record]) -> Option<Call> {
        Some(match kind {
            Kind::FontBlock => Call::DownloadFont {
                block: self.good_header(),
                font: self.replaced_or_new(store, kept),
            },
            Kind::FirstBlock => self.first_block_to(store, kept)?,
            Kind::Continuation => {
                let (font, code) = open(store)?;
                let block = self.continuation(store, font, code);
                Call::DownloadCharacter { block, font, code }
            }
            Kind::FontRemoval => Call::RemoveFont {
                font: self.kept_font(store, kept)?,
            },
            Kind::CharacterRemoval => {
                let characters = kept.iter().filter_map(|at| Some((at.font, at.code?)));
                let characters: Vec<(u32, u32)> = characters.collect();
                let (font, code) = match open(store) {
                    Some(open) if characters.contains(&open) && self.chance.once_in(3) => open,
                    _ if characters.is_empty() => return None,
                    _ => self.chance.of(&characters),
                };
                Call::RemoveCharacter { font, code }
            }
        })
    }

    /// The number of one of these fonts, now and then any.
    fn kept_font(&mut self, store: &[u8], kept: &[Record]) -> Option<u32> {
        if self.chance.once_in(20) {
            return Some(self.font_number(store));
        }
        let fonts = kept.iter().filter(|record| record.code.is_none());
        let fonts: Vec<u32> = fonts.map(|record| record.font).collect();
        (!fonts.is_empty()).then(|| self.chance.of(&fonts))
    }

    /// A number of these, one beside it, or any.
    fn replaced_or_new(&mut self, store: &[u8], kept: &[Record]) -> u32 {
        let any = self.chance.below(32_768) as u32;
        match (self.kept_font(store, kept), self.chance.below(5)) {
            (Some(font), 0 | 1) => font,
            (Some(font), 2) => font.saturating_sub(1),
            (Some(font), 3) => font.saturating_add(1).min(32_767),
            _ => any,
        }
    }

    /// A first block for one of these fonts, of any form or small.
    fn first_block_to(&mut self, store: &[u8], kept: &[Record]) -> Option<Call> {
        let font = self.kept_font(store, kept)?;
        let code = self.code(store, font);
        let block = match self.chance.once_in(3) {
            true => self.first_block(store, font, code),
            false => self.small_block_to(store, font),
        };
        Some(Call::DownloadCharacter { block, font, code })
    }

    /// A small first block with the orientation of the font.
    fn small_block_to(&mut self, store: &[u8], font: u32) -> Vec<u8> {
        let mut block = self.small_character();
        let of_font = |record: &Record| record.font == font;
        if let Some(record) = records(store).into_iter().find(of_font) {
            block[4] = store[record.at + FONT_KEPT + 12];
        }
        block
    }

    /// A small first block without its end.
    fn begun_character(&mut self, store: &[u8], kept: &[Record]) -> Option<Call> {
        let font = self.kept_font(store, kept)?;
        let code = self.code(store, font);
        let mut block = self.small_block_to(store, font);
        block.truncate(16 + self.chance.below((block.len() - 16).max(1)));
        Some(Call::DownloadCharacter { block, font, code })
    }
}
