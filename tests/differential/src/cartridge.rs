//! W-208: two stores, each with its own list of calls and its own book, and the choice
//! from both after each call: against the reference, and as demand 3 has it.

use crate::book::{self, Book, Font, Named, CARTRIDGE, SOFT};
use crate::calls::{Answer, Call, Lending, Other, Request};
use crate::chance::Chance;
use crate::generate::{high16, put_high16, Theme, FONT_KEPT, FONT_RECORD, KEPT};
use crate::history::{Found, History, Pair};
use crate::met::Met;
use marlinfold_reference as reference;

/// One number in so many has a history of two stores.
const EVERY: usize = 4;

/// The soft store, then the cartridge.
const BOTH: [u32; 2] = [SOFT, CARTRIDGE];

fn other(which: u32) -> u32 {
    SOFT + CARTRIDGE - which
}

fn name_of(which: u32) -> &'static str {
    match which {
        SOFT => "the soft store",
        _ => "the cartridge",
    }
}

/// The two stores, and the book that each started with: a dump's fonts, or none.
struct Two {
    stores: [Pair; 2],
    starts: [Book; 2],
}

impl Two {
    fn of(&self, which: u32) -> &Pair {
        &self.stores[(which - SOFT) as usize]
    }

    fn of_mut(&mut self, which: u32) -> &mut Pair {
        &mut self.stores[(which - SOFT) as usize]
    }

    /// The fonts of both books.
    fn fonts(&self) -> Vec<Font<'_>> {
        let of = |which| self.of(which).book.fonts_of(which);
        BOTH.map(of).concat()
    }

    fn is_empty(&self, which: u32) -> bool {
        self.of(which).book.fonts.is_empty()
    }
}

/// Runs one history of two stores, for some of the numbers; the difference found, if
/// one is.
pub fn run(
    seed: u64,
    number: u64,
    lending: Lending,
    small: bool,
    trace: bool,
    met: &mut Met,
) -> Found<()> {
    let mut chance = Chance::new(seed ^ 0x208, number);
    if !chance.once_in(EVERY) {
        return Ok(());
    }
    let large = !small && chance.once_in(100);
    let theme = match large || chance.once_in(4) {
        true => Theme::Fonts,
        false => Theme::Small,
    };
    let mut history = History {
        chance,
        theme,
        lending,
        trace,
        met,
    };
    let (soft, soft_start) = history.begun(large)?;
    let (cartridge, cartridge_start) = history.begun(large)?;
    let mut two = Two {
        stores: [soft, cartridge],
        starts: [soft_start, cartridge_start],
    };
    let (calls, requests) = if large { (4, 1) } else { (24, 2) };
    for _ in 0..calls {
        let which = history.chance.of(&BOTH);
        let call = history.call_on(&two, which);
        history.noted(two.of_mut(which), &call)?;
        for _ in 0..requests {
            let request = history.request_to_two(&two);
            history.demand_3_of_two(&mut two, &request)?;
        }
        if history.chance.once_in(2) {
            history.one_buffer(&two)?;
            history.maybe_no_stores(&two)?;
        }
    }
    Ok(())
}

/// A kept header as one of the other resolution: twice the numbers of pitch and height
/// for 600 dpi, half of them for 300, so that the font stays as large.
fn other_resolution(block: &mut [u8]) {
    let to_600 = high16(block, 64) == 300;
    for (field, extended) in [(16, 40), (18, 41)] {
        let number = 256 * high16(block, field) + usize::from(block[extended]);
        let number = if to_600 { 2 * number } else { number / 2 };
        put_high16(block, field, (number / 256).min(65535));
        block[extended] = (number % 256) as u8;
    }
    let resolution = if to_600 { 600 } else { 300 };
    block[1] = 68;
    block[2] = 20;
    put_high16(block, 64, resolution);
    put_high16(block, 66, resolution);
}

impl History<'_> {
    /// A store and the book that its list starts with: made fresh, with an empty book;
    /// or a dump, whose earlier calls are not in its list.
    pub fn begun(&mut self, large: bool) -> Found<(Pair, Book)> {
        let length = match self.chance.below(10) {
            _ if large => self.chance.of(&[16384, 65535, 65536]),
            0 => self.chance.of(&[12, 13, 93, 94, 95, 175, 176, 177]),
            1..=3 => self.chance.between(94, 500),
            _ => self.chance.between(300, 2000),
        };
        let before = self.chance.bytes(length);
        let mut pair = self.pair(&before);
        self.noted(&mut pair, &Call::MakeFresh)?;
        if large {
            let stream = self.generator().bulk(&pair.theirs);
            self.noted(&mut pair, &Call::ReadStream { stream })?;
        }
        for _ in 0..self.chance.below(12) {
            let call = self.generator().call(&pair.theirs);
            self.noted(&mut pair, &call)?;
        }
        if self.chance.once_in(2) {
            return Ok((pair, Book::default()));
        }
        let mut bytes = pair.theirs;
        if self.chance.once_in(4) {
            // One that no calls have made.
            let changed = self.generator().changed(&bytes);
            if reference::is_store(&changed) {
                bytes = changed;
            }
        }
        let mut dump = self.pair(&bytes);
        dump.book = Book::of_dump(&bytes);
        let start = dump.book.clone();
        Ok((dump, start))
    }

    /// One more call of a store's list: any, or a font of either store brought into it.
    fn call_on(&mut self, two: &Two, which: u32) -> Call {
        let store = &two.of(which).theirs;
        let brought = match self.chance.once_in(3) {
            true => None,
            false => self.brought(two),
        };
        let Some((block, number)) = brought else {
            return self.generator().call(store);
        };
        let font = match self.chance.below(3) {
            0 => number,
            1 => self.chance.of(&[0, 1, 2, 5, 300, 32766, 32767]),
            _ => self.generator().font_number(store),
        };
        Call::DownloadFont { block, font }
    }

    /// A font block as a font of either store is kept, or with one field changed, so
    /// that fonts of both are level up to some step; and the number of that font.
    fn brought(&mut self, two: &Two) -> Option<(Vec<u8>, u32)> {
        let fonts = two.fonts();
        if fonts.is_empty() {
            return None;
        }
        let chance = &mut self.chance;
        let font = chance.of(&fonts);
        let mut block = font.header.to_vec();
        match chance.below(12) {
            0..=2 => {}
            3..=6 => block[12] = chance.of(&[0, 1, 2, 3]),
            7 => block[25] = chance.of(&[0, 3, 4]),
            8 => block[24] = chance.of(&[0, 1, 3, 255]),
            9 => put_high16(&mut block, 14, chance.of(&[277, 341, 85])),
            _ => other_resolution(&mut block),
        }
        Some((block, font.number))
    }

    /// A request for what a font of either store is, with a number or two changed.
    fn request_to_two(&mut self, two: &Two) -> Request {
        let which = self.chance.of(&BOTH);
        let any = self.generator().good_request(&two.of(which).theirs);
        let fonts = two.fonts();
        let chance = &mut self.chance;
        if fonts.is_empty() || chance.once_in(4) {
            return any;
        }
        let font = chance.of(&fonts);
        let pitch = font.pitch().max(1);
        let mut request = Request {
            symbol_set: font.symbol_set(),
            spacing: font.spacing(),
            pitch: (61_440_000 / pitch).min(57_600) as u32,
            height: (3 * font.height() / 256).min(99_975) as u32,
            style: font.style(),
            weight: font.weight(),
            typeface: font.typeface(),
            orientation: chance.of(&[0, 1, 2, 3, font.orientation()]),
            mode: any.mode,
        };
        for _ in 0..chance.below(3) {
            match chance.below(6) {
                0 | 1 => request.symbol_set = any.symbol_set,
                2 => request.spacing = any.spacing,
                3 => request.weight = any.weight,
                4 => request.style = any.style,
                _ => request.typeface = any.typeface,
            }
        }
        request
    }

    /// The choice from both stores as last left, against both books.
    fn demand_3_of_two(&mut self, two: &mut Two, request: &Request) -> Found<()> {
        let choice = self.choice_from_two(two, request)?;
        self.choice_met(two, request, choice);
        if self.chance.once_in(2) {
            self.one_more_removal_of_two(two, request, choice)?;
        }
        if self.chance.once_in(2) {
            self.one_more_font_of_two(two, request, choice)?;
        }
        Ok(())
    }

    /// What choosing from both answers, checked: among the fonts of both books, and at
    /// its place. The call joins the list of either.
    fn choice_from_two(&mut self, two: &mut Two, request: &Request) -> Found<Option<Named>> {
        let which = self.chance.of(&BOTH);
        let beside = two.of(other(which)).theirs.clone();
        let call = Call::ChooseFromTwo {
            request: *request,
            other: match which {
                SOFT => Other::Cartridge(beside),
                _ => Other::Soft(beside),
            },
        };
        let (answer, _) = self.noted(two.of_mut(which), &call)?;
        let complain = |what: String| format!("{call}\n  answered {answer:?}: {what}");
        let name = (answer.numbers[1] as u32, answer.number());
        let choice = book::right_choice(&answer, name, request, &two.fonts())
            .map_err(complain)?
            .map(|font| font.name());
        if let Some((which, font)) = choice {
            self.record_at_its_place(two.of_mut(which), font, &answer)
                .map_err(complain)?;
        }
        for which in BOTH {
            if two.is_empty(other(which)) {
                self.as_from_one(two.of_mut(which), request, choice)
                    .map_err(complain)?;
            }
        }
        Ok(choice)
    }

    /// "The answer gives the chosen font's record itself, as the part of whichever
    /// store holds it": there stand a font record's head, the font's number, and the
    /// kept bytes that telling it and the book have.
    fn record_at_its_place(&mut self, pair: &mut Pair, font: u32, answer: &Answer) -> Found<()> {
        let tell = Call::TellFont {
            out: vec![0; KEPT],
            font,
        };
        let (told, kept) = self.only_ours(&mut pair.ours, &tell)?;
        let place = answer.numbers[2] as usize;
        let store = pair.ours.content();
        let record = store
            .get(place..)
            .and_then(|rest| rest.get(..FONT_RECORD))
            .ok_or("the place is beyond the store")?;
        let number = (font as u16).to_le_bytes();
        let characters = (told.number() as u16).to_le_bytes();
        let right = record[..6] == [82, 0, 0, 0, 2, 0]
            && record[6..8] == number
            && record[8..10] == characters
            && record[FONT_KEPT..] == kept;
        match right && told.refusal == 0 && pair.book.fonts[&font][..] == kept {
            true => Ok(()),
            false => Err(format!("at its place stands {record:?}")),
        }
    }

    /// Where the other store has no font, it is the one-store choice.
    fn as_from_one(
        &mut self,
        pair: &mut Pair,
        request: &Request,
        choice: Option<Named>,
    ) -> Found<()> {
        let (alone, _) = self.only_ours(&mut pair.ours, &Call::Choose(*request))?;
        let expected = match choice {
            Some((_, font)) => (0, font),
            None => (11, 0),
        };
        match (alone.refusal, alone.number()) == expected {
            true => Ok(()),
            false => Err(format!("the other is empty, but alone {alone:?}")),
        }
    }

    /// "one more call that removes a font that wasn't chosen, also for lack of room,
    /// leaves the choice standing", in either store.
    fn one_more_removal_of_two(
        &mut self,
        two: &mut Two,
        request: &Request,
        choice: Option<Named>,
    ) -> Found<()> {
        let mut others: Vec<Named> = two.fonts().iter().map(Font::name).collect();
        others.retain(|&name| Some(name) != choice);
        let twin = choice.map(|(which, font)| (other(which), font));
        if others.is_empty() {
            return Ok(());
        }
        let removed = match twin {
            // The chosen number in the other store.
            Some(twin) if others.contains(&twin) && self.chance.once_in(3) => twin,
            _ => self.chance.of(&others),
        };
        let (which, font) = removed;
        let (call, copy) = self.without(two.of(which), font)?;
        let kept = std::mem::replace(two.of_mut(which), copy);
        let now = self.choice_from_two(two, request)?;
        *two.of_mut(which) = kept;
        let of = name_of(which);
        if now != choice {
            return Err(format!(
                "{call}\n  in {of} changed the choice from {choice:?} to {now:?} for {request:?}"
            ));
        }
        self.met.situation(&match call {
            Call::RemoveFont { .. } => {
                format!("from two, a font removed from {of} leaves the choice")
            }
            _ => format!("from two, a font struck for lack of room from {of} leaves the choice"),
        });
        if Some(removed) == twin {
            self.met
                .situation("from two, the chosen number removed from the other store");
        }
        if choice.is_none() {
            self.met
                .situation("from two, a removal leaves none to choose");
        }
        Ok(())
    }

    /// "one that accepts a font under an unused number leaves it standing or makes the
    /// new font the choice", in either store; "an unused number is unused in that
    /// store".
    fn one_more_font_of_two(
        &mut self,
        two: &mut Two,
        request: &Request,
        choice: Option<Named>,
    ) -> Found<()> {
        let which = self.chance.of(&BOTH);
        let mut numbers = vec![0, 1, 3, 4, 7, 299, 301, 32765, 32767];
        if self.chance.once_in(2) {
            let used = two.of(other(which)).book.fonts.keys();
            numbers.extend(used.copied());
        }
        numbers.retain(|number| !two.of(which).book.fonts.contains_key(number));
        if numbers.is_empty() {
            return Ok(());
        }
        let font = self.chance.of(&numbers);
        let brought = self.brought(two);
        let block = match brought {
            Some((block, _)) if !self.chance.once_in(4) => block,
            _ => self.generator().good_header(),
        };
        let call = Call::DownloadFont { block, font };
        let mut copy = self.copy(two.of(which));
        let (answer, _) = self.noted(&mut copy, &call)?;
        if answer.refusal != 0 {
            return Ok(());
        }
        let in_both = two.of(other(which)).book.fonts.contains_key(&font);
        let kept = std::mem::replace(two.of_mut(which), copy);
        let now = self.choice_from_two(two, request)?;
        *two.of_mut(which) = kept;
        let of = name_of(which);
        if now == choice {
            self.met.situation(&format!(
                "from two, a font accepted in {of} leaves the choice"
            ));
            if choice.is_none() {
                self.met
                    .situation("from two, a font accepted leaves none to choose");
            }
        } else if now == Some((which, font)) {
            self.met.situation(&format!(
                "from two, a font accepted in {of} becomes the choice"
            ));
        } else {
            return Err(format!(
                "{call}\n  in {of} changed the choice from {choice:?} to {now:?} for {request:?}"
            ));
        }
        if in_both {
            self.met
                .situation("from two, a font accepted under a number of the other store");
        }
        Ok(())
    }

    /// Counts what else of a choice from two is worth having met.
    fn choice_met(&mut self, two: &Two, request: &Request, choice: Option<Named>) {
        let fonts = two.fonts();
        let of = |name| fonts.iter().find(|font| font.name() == name);
        let met = &mut *self.met;
        let empty = BOTH.map(|which| two.is_empty(which));
        let Some(choice) = choice.and_then(of) else {
            match empty {
                [true, true] => met.situation("from two, both stores empty"),
                [false, false] => {
                    met.situation("from two, none takes part though both keep fonts");
                }
                _ => {}
            }
            let mode_600 = Request {
                mode: 600,
                ..*request
            };
            if fonts.iter().any(|font| font.takes_part(&mode_600)) {
                met.situation("from two, none takes part in mode 300, some in mode 600");
            }
            return;
        };
        if fonts.len() >= 500 {
            met.situation("from two, choice among 500 fonts or more");
        }
        match empty {
            [false, true] => met.situation("from two, chosen beside an empty cartridge"),
            [true, false] => met.situation("from two, chosen beside an empty soft store"),
            _ => {}
        }
        let start = &two.starts[(choice.which - SOFT) as usize];
        if start.fonts.get(&choice.number) == Some(choice.header) {
            met.situation(match choice.which {
                SOFT => "from two, chosen from a dump's records, the soft store",
                _ => "from two, chosen from a dump's records, the cartridge",
            });
        }
        // Of the other store, those that take part.
        let others: Vec<&Font> = fonts
            .iter()
            .filter(|font| font.which != choice.which && font.takes_part(request))
            .collect();
        if !others.is_empty() {
            met.situation(match choice.which {
                SOFT => "from two, a soft font though cartridge fonts take part",
                _ => "from two, a cartridge font though soft fonts take part",
            });
        }
        if let Some(twin) = others.iter().find(|font| font.number == choice.number) {
            met.situation("from two, the chosen number in both stores");
            if twin.header == choice.header {
                met.situation("from two, the chosen font in both stores");
            }
        }
        let asked = request.symbol_set;
        if asked != 277 && choice.symbol_set() == asked {
            let roman = others.iter().any(|font| font.symbol_set() != asked);
            if roman && others.iter().all(|font| font.symbol_set() != asked) {
                met.situation(match choice.which {
                    SOFT => "from two, the set in the soft store, Roman-8 in the cartridge",
                    _ => "from two, the set in the cartridge, Roman-8 in the soft store",
                });
            }
        }
        let fine = |which: u32| {
            let mut of = fonts.iter().filter(|font| font.which == which);
            of.any(|font| font.resolution() == 600)
        };
        if request.mode == 300 && fine(other(choice.which)) && !fine(choice.which) {
            met.situation("from two, mode 300, 600 dpi fonts in one store alone");
        }
        self.place_met(request, &fonts, choice);
    }

    /// Counts choices that the place decides, or the resolution before it.
    fn place_met(&mut self, request: &Request, fonts: &[Font], choice: &Font) {
        let met = &mut *self.met;
        let Some(level) = book::up_to_typeface(request, fonts) else {
            return;
        };
        let left = book::by_resolution(request, level.clone());
        if choice.which == CARTRIDGE && level.iter().any(|font| font.which == SOFT) {
            met.situation("from two, a cartridge font of 600 dpi before a soft one of 300");
        }
        let passed = left.iter().filter(|font| font.which == CARTRIDGE);
        let passed: Vec<&Font> = passed.collect();
        if choice.which != SOFT || passed.is_empty() {
            return;
        }
        met.situation("from two, a soft font before a cartridge font by the place alone");
        let page = |font: &Font| font.orientation() == request.orientation;
        let lower = |font: &Font| font.number < choice.number;
        if !page(choice) && passed.iter().any(|font| page(font)) {
            met.situation(
                "from two, a soft font before a cartridge font of the page's orientation",
            );
            if passed.iter().any(|font| page(font) && lower(font)) {
                met.situation("from two, the same, of a lower number too");
            }
        }
        if page(choice) && passed.iter().any(|font| page(font) && lower(font)) {
            met.situation("from two, a soft font before a cartridge font of a lower number");
        }
    }

    /// One buffer as both stores: which is then 1, and the font that of the one-store
    /// choice.
    fn one_buffer(&mut self, two: &Two) -> Found<()> {
        let which = self.chance.of(&BOTH);
        let mut copy = self.copy(two.of(which));
        let request = self.generator().request(&copy.theirs);
        let call = Call::ChooseFromTwo {
            request,
            other: Other::Same,
        };
        let answer = self.both(&mut copy, &call)?;
        let (alone, _) = self.only_ours(&mut copy.ours, &Call::Choose(request))?;
        let soft = u64::from(answer.refusal == 0);
        if (alone.refusal, alone.numbers[0], soft)
            != (answer.refusal, answer.numbers[0], answer.numbers[1])
        {
            return Err(format!(
                "{call}\n  answered {answer:?}, of one store {alone:?}"
            ));
        }
        if answer.refusal == 0 {
            self.record_at_its_place(&mut copy, answer.number(), &answer)?;
            self.met.situation("from two, one buffer as both");
        }
        Ok(())
    }

    /// The choice where one or both of the buffers may be no store, and any number out
    /// of range.
    fn maybe_no_stores(&mut self, two: &Two) -> Found<()> {
        let which = self.chance.of(&BOTH);
        let mut request = self.generator().request(&two.of(which).theirs);
        let mut buffers = BOTH.map(|which| two.of(which).theirs.clone());
        match self.chance.below(4) {
            0 => {
                // Both stores, and a number out of range.
                request.mode = self.chance.of(&[0, 299, 601, 65836]);
            }
            1 => buffers = buffers.map(|bytes| self.maybe_no_store(&bytes)),
            _ => {
                let at = (which - SOFT) as usize;
                buffers[at] = self.maybe_no_store(&buffers[at]);
            }
        }
        let stores = [0, 1].map(|at| reference::is_store(&buffers[at]));
        let nothing = buffers[0].is_empty() && !two.is_empty(CARTRIDGE);
        let [soft, cartridge] = buffers;
        let mut pair = self.pair(&soft);
        let call = Call::ChooseFromTwo {
            request,
            other: Other::Cartridge(cartridge),
        };
        let answer = self.both(&mut pair, &call)?;
        if (answer.refusal == 1) != stores.contains(&false) {
            return Err(format!("{call}\n  answered {answer:?}, stores: {stores:?}"));
        }
        let met = &mut *self.met;
        let fresh = [12, 0, 0, 0, 1, 0, 0, 0, 0, 0, 0, 0];
        let out_of_range = reference::choose(&fresh, &request).refusal == 2;
        match (answer.refusal, stores) {
            (1, [false, true]) => met.situation("from two, the soft store is none"),
            (1, [true, false]) => met.situation("from two, the cartridge is none"),
            (1, _) => met.situation("from two, neither is a store"),
            (2, _) if two.fonts().is_empty() => {
                met.situation("from two, out of range with both stores empty");
            }
            _ => {}
        }
        if nothing && stores[1] {
            met.situation("from two, a soft store of 0 bytes beside a cartridge with fonts");
        }
        if answer.refusal == 1 && out_of_range {
            met.situation("from two, no store and a number out of range");
        }
        Ok(())
    }

    fn maybe_no_store(&mut self, store: &[u8]) -> Vec<u8> {
        match self.chance.below(6) {
            0 => Vec::new(),
            1 => {
                let mut bytes = store.to_vec();
                bytes.resize(self.chance.of(&[1, 11, 65537, 70000]), 0);
                bytes
            }
            2 => self.chance.bytes(store.len()),
            _ => self.generator().changed(store),
        }
    }
}
