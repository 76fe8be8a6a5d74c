//! One history: a store on both sides, its book, chance calls, and after each
//! what demands 1 to 3 ask.

use crate::book::{self, Book, Font, Spelled, SOFT};
use crate::calls::{entries, ours, theirs, Answer, Call, Lending, Lent, Request, ANSWER};
use crate::chance::Chance;
use crate::figures::{Added, FIGURES};
use crate::generate::{self, Generator, Reading, Theme, CHARACTER_RECORD, FONT_KEPT, KEPT};
use crate::met::Met;
use crate::profile;
use crate::rows::{self, Sent};
use crate::salvage::STRETCH;
use marlinfold_reference as reference;

/// A difference, in words.
pub type Found<T> = Result<T, String>;

/// The same store on both sides, and its book.
pub struct Pair {
    pub ours: Lent,
    pub theirs: Vec<u8>,
    pub book: Book,
}

pub struct History<'a> {
    pub chance: Chance,
    pub theme: Theme,
    pub lending: Lending,
    pub trace: bool,
    pub met: &'a mut Met,
}

/// Runs one history; the difference found, if one is.
pub fn run(
    seed: u64,
    number: u64,
    lending: Lending,
    small: bool,
    trace: bool,
    met: &mut Met,
) -> Found<()> {
    let mut chance = Chance::new(seed, number);
    let (theme, length, calls) = match chance.below(40) {
        0 | 1 if !small => {
            let length = chance.of(&[32870, 32871, 32887, 32888, 32889, 40000, 65535, 65536]);
            (Theme::Giants, length, 24)
        }
        2 if !small => (Theme::Fonts, chance.of(&[4096, 16384, 65536]), 60),
        3..=4 => (Theme::Fonts, chance.between(300, 3000), 60),
        // Room for one font of the profile, or for a few.
        8 | 9 => (Theme::Profiles, chance.between(2700, 12_000), 16),
        5 => (
            Theme::Small,
            chance.of(&[12, 13, 18, 93, 94, 95, 175, 176, 177]),
            20,
        ),
        6 if !small => (Theme::Small, chance.between(20_000, 65_536), 40),
        7 if !small => (Theme::Small, chance.of(&[65535, 65536]), 40),
        10..=20 => (Theme::Small, chance.between(110, 600), 60),
        _ => (Theme::Small, chance.between(300, 3000), 60),
    };
    let mut history = History {
        chance,
        theme,
        lending,
        trace,
        met,
    };
    history.lengths_that_are_none()?;
    let before = match history.chance.once_in(2) {
        true => history.chance.bytes(length),
        false => vec![0; length],
    };
    let mut pair = history.pair(&before);
    if history.chance.once_in(4) {
        // Before it is fresh, a buffer is no store.
        let call = history.generator().call(&before);
        history.both(&mut pair, &call)?;
    }
    history.step(&mut pair, Call::MakeFresh)?;
    if theme == Theme::Profiles {
        let stream = history.generator().profiled(&pair.theirs);
        history.step(&mut pair, Call::ReadStream { stream })?;
    }
    let trips = if theme == Theme::Giants { 4 } else { 16 };
    for _ in 0..calls {
        let call = history.generator().call(&pair.theirs);
        history.step(&mut pair, call)?;
        if history.chance.once_in(8) {
            history.changed(&pair)?;
        }
        if history.chance.once_in(trips) {
            history.round_trip(&pair)?;
        }
    }
    Ok(())
}

impl History<'_> {
    pub fn generator(&mut self) -> Generator<'_> {
        Generator {
            chance: &mut self.chance,
            theme: self.theme,
        }
    }

    /// These bytes, with an empty book.
    pub fn pair(&mut self, bytes: &[u8]) -> Pair {
        Pair {
            ours: self.lending.lend(bytes, &mut self.chance),
            theirs: bytes.to_vec(),
            book: Book::default(),
        }
    }

    /// The store as it is, to make one more call on.
    pub fn copy(&mut self, pair: &Pair) -> Pair {
        Pair {
            book: pair.book.clone(),
            ..self.pair(&pair.theirs)
        }
    }

    /// Buffers of lengths that no store has.
    fn lengths_that_are_none(&mut self) -> Found<()> {
        if self.chance.once_in(8) {
            let length = self.chance.of(&[0, 1, 11, 65537, 70000]);
            let mut bytes = vec![0; length];
            if length > 12 {
                // A store but for its length.
                bytes[..6].copy_from_slice(&[12, 0, 0, 0, 1, 0]);
            }
            let mut pair = self.pair(&bytes);
            self.both(&mut pair, &Call::MakeFresh)?;
            let call = self.generator().call(&bytes);
            self.both(&mut pair, &call)?;
        }
        Ok(())
    }

    /// The call through the C interface alone.
    pub fn only_ours(&mut self, store: &mut Lent, call: &Call) -> Found<(Answer, Vec<u8>)> {
        if self.trace {
            eprintln!("  {call}");
        }
        let outcome = ours(call, store, self.lending, &mut self.chance)
            .map_err(|what| format!("{call}\n  {what}"))?;
        Ok((outcome.answer, outcome.out))
    }

    /// The call on both sides: the same answer, output and store. A refusal
    /// leaves both as they were (demand 1).
    pub fn both(&mut self, pair: &mut Pair, call: &Call) -> Found<Answer> {
        Ok(self.both_with_output(pair, call)?.0)
    }

    pub fn both_with_output(&mut self, pair: &mut Pair, call: &Call) -> Found<(Answer, Vec<u8>)> {
        let before = pair.theirs.clone();
        let (answer, out) = self.only_ours(&mut pair.ours, call)?;
        let expected = theirs(call, &mut pair.theirs);
        let complain = |what: String| Err(format!("{call}\n  {what}"));
        if answer != expected.answer {
            return complain(format!("answered {answer:?}, not {:?}", expected.answer));
        }
        if let Some(at) = first_difference(&out, &expected.out) {
            return complain(format!(
                "answered {answer:?}; output of {} differs first at {at}",
                out.len()
            ));
        }
        if let Some(at) = first_difference(pair.ours.content(), &pair.theirs) {
            return complain(format!(
                "answered {answer:?}; store of {} differs first at {at}",
                before.len()
            ));
        }
        let strikes = matches!(call, Call::DownloadCharacter { .. }) && answer.refusal == 10;
        // W-212: "for this call that is a third exception in demand 1"
        let stands = matches!(call, Call::SalvageStream { .. }) && answer.refusal == 12;
        if answer.refusal != 0 && !strikes && !stands && answer.refusal != 13 {
            if before != pair.theirs {
                return complain(format!("refused with {answer:?}, but the store changed"));
            }
            if call.output() != out {
                return complain(format!("refused with {answer:?}, but the output changed"));
            }
        }
        // W-209: "This amends "0 for every other number" in document 01 for refusal 8 and
        // a stream's 13 alone."
        let has_numbers = match call {
            Call::DownloadCharacter { .. } => answer.refusal == 8,
            Call::ReadStream { .. } => answer.refusal == 0 || answer.refusal == 13,
            _ => answer.refusal == 0,
        };
        if !has_numbers && answer != Answer::of(answer.refusal, []) {
            return complain(format!("answered {answer:?}, numbers not 0"));
        }
        self.rows_by_their_rules(&before, call, &answer)?;
        self.figures_by_their_words(pair, call, &answer, &out)?;
        if let Call::SalvageStream { .. } = call {
            // W-212: "Refusals: 1, then 12"
            self.no_store_by_a_removal(pair, call, &answer)?;
        }
        self.met.count(call, &answer)?;
        self.situations(call, &answer, &before, &pair.theirs);
        Ok((answer, out))
    }

    /// W-209: a character download answers 8, and its numbers, as the rows of its data
    /// say.
    fn rows_by_their_rules(&mut self, before: &[u8], call: &Call, answer: &Answer) -> Found<()> {
        let Call::DownloadCharacter { block, .. } = call else {
            return Ok(());
        };
        // A block that is refused before its rows are read may have any.
        let read = match answer.refusal {
            0 | 8 | 10 => true,
            9 => block[1] != 0,
            _ => false,
        };
        if !read {
            return Ok(());
        }
        let sent = Sent::of(before, call);
        rows::check(sent.as_ref(), answer)
            .map_err(|what| format!("{call}\n  answered {answer:?}, {what}"))?;
        if let Some(sent) = sent {
            sent.met(answer, self.met);
        }
        Ok(())
    }

    /// A call is refused with 1 exactly if another call is too.
    fn no_store_by_a_removal(
        &mut self,
        pair: &mut Pair,
        call: &Call,
        answer: &Answer,
    ) -> Found<()> {
        let out_of_range = Call::RemoveFont { font: 32_768 };
        let (removal, _) = self.only_ours(&mut pair.ours, &out_of_range)?;
        match (removal.refusal == 1) == (answer.refusal == 1) {
            true => Ok(()),
            false => Err(format!(
                "{call}\n  answered {answer:?}, a removal {removal:?}"
            )),
        }
    }

    /// W-210: figures are refused by the request's list alone, 1 where another call says
    /// that there is no store; otherwise they are what they were with those of the store, as
    /// it gives them when it is added to zeros.
    fn figures_by_their_words(
        &mut self,
        pair: &mut Pair,
        call: &Call,
        answer: &Answer,
        out: &[u8],
    ) -> Found<()> {
        let Call::AddFigures { figures } = call else {
            return Ok(());
        };
        self.no_store_by_a_removal(pair, call, answer)?;
        let mut alone = Vec::new();
        if answer.refusal == 0 {
            let figures = vec![0; FIGURES];
            let from_zeros = Call::AddFigures { figures };
            (_, alone) = self.only_ours(&mut pair.ours, &from_zeros)?;
        }
        let added = Added {
            store: &pair.theirs,
            before: figures,
            answer,
            after: out,
        };
        if answer.refusal != 1 {
            added
                .check(&alone)
                .map_err(|what| format!("{call}\n  answered {answer:?}, {what}"))?;
        }
        added.met(self.met);
        Ok(())
    }

    /// A call of a store's list: made on both sides, and noted in its book.
    pub fn noted(&mut self, pair: &mut Pair, call: &Call) -> Found<(Answer, Vec<u8>)> {
        let before = pair.theirs.clone();
        let (answer, out) = self.both_with_output(pair, call)?;
        match call {
            Call::ReadStream { stream } => {
                self.stream_one_by_one(&before, stream, &answer, pair)?;
            }
            Call::SalvageStream { stream, list } => {
                let expected = self.salvaged_one_by_one(&before, stream, list, pair)?;
                if (answer, &out) != (expected.answer, &expected.out) {
                    return Err(format!(
                        "{call}\n  answered {answer:?}, its commands one by one {:?}; \
                         the list is the same: {}",
                        expected.answer,
                        out == expected.out
                    ));
                }
            }
            _ => pair.book.note(call, &answer),
        }
        Ok((answer, out))
    }

    /// A call of the history, and then demand 3 asked.
    fn step(&mut self, pair: &mut Pair, call: Call) -> Found<()> {
        let (answer, out) = self.noted(pair, &call)?;
        if let Call::ChooseSheet { requests, .. } = &call {
            if answer.refusal == 0 {
                self.sheet_one_by_one(pair, requests, &out)?;
            }
        }
        match &call {
            Call::CheckProfile { font } => self.profile_by_its_words(pair, *font, &answer)?,
            Call::WriteProfiled { font, .. } => {
                self.written_if_profiled(pair, *font, &answer, &out)?;
            }
            _ => {}
        }
        let requests = if pair.theirs.len() > 20_000 { 1 } else { 2 };
        for _ in 0..requests {
            let request = self.generator().good_request(&pair.theirs);
            self.demand_3(pair, &request)?;
        }
        self.counts_are_true(pair)?;
        self.told_as_in_the_book(pair)
    }

    /// W-205: "Every download, replacement, continuation and removal, also the one
    /// for lack of room, keeps both equal to a fresh count."
    fn counts_are_true(&mut self, pair: &Pair) -> Found<()> {
        for (font, held, anew) in generate::counts(pair.ours.content()) {
            if held != anew {
                return Err(format!(
                    "font {} holds {held:?} characters and data bytes, but has {anew:?}",
                    font.font
                ));
            }
            if anew.0 == 256 {
                self.met.situation("font of 256 characters");
            }
        }
        Ok(())
    }

    /// "A stream counts as the downloads spelled by its whole commands before
    /// any 13, with the answers they get when made one by one in its place."
    fn stream_one_by_one(
        &mut self,
        before: &[u8],
        stream: &[u8],
        answer: &Answer,
        pair: &mut Pair,
    ) -> Found<()> {
        let spelled = book::spelled(stream);
        let mut alone = self.lending.lend(before, &mut self.chance);
        let (mut done, mut refused) = (spelled.done, spelled.refused);
        let mut answers = Vec::new();
        for call in &spelled.downloads {
            let (answer, _) = self.only_ours(&mut alone, call)?;
            pair.book.note(call, &answer);
            match answer.refusal {
                0 => done += 1,
                _ => refused += 1,
            }
            if answer.refusal == 8 {
                // It left the store as it was.
                rows::check(Sent::of(alone.content(), call).as_ref(), &answer)
                    .map_err(|what| format!("{call}\n  answered {answer:?}, {what}"))?;
            } else if answer != Answer::of(answer.refusal, []) {
                return Err(format!("{call}\n  answered {answer:?}, numbers not 0"));
            }
            answers.push(answer);
        }
        // W-209: "the stream for its first such refusal, also where it ends in 13, and 0
        // for all three otherwise"
        let first = answers.iter().position(|answer| answer.refusal == 8);
        let [row, filled, run] = first.map_or([0; 3], |at| answers[at].bad_run());
        let refusal = if spelled.broken.is_some() { 13 } else { 0 };
        let place = spelled.broken.unwrap_or(0);
        let expected = Answer::of(refusal, [done, refused, place, row, filled, run]);
        if *answer != expected {
            return Err(format!(
                "stream answered {answer:?}, its commands one by one {expected:?}"
            ));
        }
        if alone.content() != pair.ours.content() {
            return Err("a stream's commands made one by one leave another store".into());
        }
        if let Some(first) = first {
            self.stream_with_bad_runs(&spelled, &answers, first);
        }
        Ok(())
    }

    /// Counts what is worth having met of a stream's downloads answered 8, of which this
    /// is the first.
    fn stream_with_bad_runs(&mut self, spelled: &Spelled, answers: &[Answer], first: usize) {
        let met = &mut *self.met;
        let ends = match spelled.broken {
            Some(_) => "ends with 13",
            None => "ends with 0",
        };
        met.situation(&format!("stream with an 8 that {ends}"));
        let (before, after) = (&answers[..first], &answers[first + 1..]);
        if before.iter().any(|answer| answer.refusal != 0) {
            met.situation("stream with another refusal before its first 8");
        }
        if after.iter().any(|answer| answer.refusal == 0) {
            met.situation("stream with downloads done after its first 8");
        }
        if let Call::DownloadCharacter { block, .. } = &spelled.downloads[first] {
            if block[1] != 0 {
                met.situation("stream of which the first 8 is by a continuation");
            }
        }
        let Some(last) = after.iter().rfind(|answer| answer.refusal == 8) else {
            return;
        };
        met.situation(&format!("several 8 in one stream that {ends}"));
        let [row, filled, _] = answers[first].bad_run();
        if last.bad_run() != answers[first].bad_run() {
            met.situation("several 8 in one stream, the last with other numbers");
            if (row, filled) == (0, 0) {
                met.situation("the same, and the first in row 0 with no dot filled");
            }
        }
    }

    /// W-201: "each entry what a single choice would give on the same store. An
    /// out-of-range request refuses only its own entry."
    fn sheet_one_by_one(&mut self, pair: &mut Pair, requests: &[Request], out: &[u8]) -> Found<()> {
        let mut out_of_range = false;
        for (request, entry) in requests.iter().zip(entries(out)) {
            let call = Call::Choose(*request);
            let (alone, _) = self.only_ours(&mut pair.ours, &call)?;
            if entry != alone {
                return Err(format!(
                    "{call}\n  answered {alone:?}, in a sheet {entry:?}"
                ));
            }
            match entry.refusal {
                2 => {
                    self.met.situation("sheet's entry out of range");
                    out_of_range = true;
                }
                11 => self.met.situation("sheet's entry with none to choose"),
                _ => {
                    self.met.situation("sheet's entry done");
                    if out_of_range {
                        self.met
                            .situation("sheet's entry done behind one out of range");
                    }
                }
            }
        }
        Ok(())
    }

    /// W-207: ""meets the profile" (rule 0, code 0) exactly when all that holds, or
    /// else the first broken rule, numbered 1 to 7 in this order, and the lowest code
    /// that breaks it".
    fn profile_by_its_words(&mut self, pair: &Pair, font: u32, answer: &Answer) -> Found<()> {
        let store = pair.ours.content();
        let Some(broken) = profile::broken(store, font) else {
            return match answer.refusal {
                2 | 6 => Ok(()),
                _ => Err(format!("profile of no font {font}: answered {answer:?}")),
            };
        };
        let (rule, code) = match broken.first() {
            Some((rule, codes)) => (*rule, codes[0]),
            None => (0, 0),
        };
        if *answer != Answer::of(0, [u64::from(rule), u64::from(code)]) {
            return Err(format!(
                "profile of font {font}: answered {answer:?}; by its words {broken:?}"
            ));
        }
        self.profile_met(pair, font, &broken);
        Ok(())
    }

    fn profile_met(&mut self, pair: &Pair, font: u32, broken: &[(u32, Vec<u32>)]) {
        let store = pair.ours.content();
        let met = &mut *self.met;
        let Some((rule, codes)) = broken.first() else {
            met.situation("font meets the profile");
            if pair.book.fonts[&font][64] == 2 {
                met.situation("font of 600 dpi meets the profile");
            }
            let incomplete = |code: u32| {
                let kept = generate::character(store, font, code);
                kept.is_some_and(|kept| !Reading::is_complete(&kept))
            };
            if (0..32).chain(128..256).any(incomplete) {
                met.situation("font meets the profile, an incomplete character beside its codes");
            }
            if generate::open(store).is_some_and(|(of, _)| of == font) {
                met.situation("font meets the profile while one of its characters is open");
            }
            return;
        };
        if broken.len() == 1 {
            met.situation(&format!("profile, rule {rule} alone broken"));
        }
        if *rule == 3 {
            met.situation(match generate::character(store, font, codes[0]) {
                Some(_) => "profile, a code incomplete",
                None => "profile, a code missing",
            });
        }
        if codes.len() > 1 {
            met.situation("profile, a rule broken by several codes");
        }
        if *rule > 3 && codes.iter().all(|code| !(32..=127).contains(code)) {
            met.situation("profile, a rule broken only outside codes 32 to 127");
        }
        if *rule > 2 && broken[1..].iter().any(|(_, later)| later[0] < codes[0]) {
            met.situation("profile, a later rule broken by a lower code");
        }
    }

    /// "A second call writes out the font only if it meets the profile", and then as
    /// the first does; "1, 2, 6 as before, then [..] 14, then 12".
    fn written_if_profiled(
        &mut self,
        pair: &mut Pair,
        font: u32,
        answer: &Answer,
        out: &[u8],
    ) -> Found<()> {
        let Some(broken) = profile::broken(pair.ours.content(), font) else {
            return Ok(());
        };
        let length = pair.theirs.len();
        let write = Call::WriteFont {
            out: vec![0; length + 2048],
            font,
        };
        let (plain, stream) = self.only_ours(&mut pair.ours, &write)?;
        let needed = plain.number() as usize;
        let expected = match (broken.is_empty(), out.len() < needed) {
            (false, _) => 14,
            (true, true) => 12,
            (true, false) => 0,
        };
        let same = expected != 0 || (answer.number() as usize == needed);
        if answer.refusal != expected || !same {
            return Err(format!(
                "font {font} written if profiled: answered {answer:?}, breaks {broken:?}"
            ));
        }
        if expected == 0 && out[..needed] != stream[..needed] {
            return Err(format!("font {font} written if profiled: another stream"));
        }
        self.met.situation(match (expected, out.len()) {
            (0, _) => "profiled font written",
            (12, short) if short + 1 == needed => "profiled font, the output one byte short",
            (12, _) => return Ok(()),
            (_, short) if short < needed => "font outside the profile, the output short too",
            _ => "font outside the profile, the output long enough",
        });
        if expected == 0 {
            self.profiled_again(&out[..needed], font, length)?;
        }
        Ok(())
    }

    /// What is written meets the profile when it is read into a fresh store of the same
    /// length.
    fn profiled_again(&mut self, stream: &[u8], font: u32, length: usize) -> Found<()> {
        let mut again = self.pair(&vec![0; length]);
        self.both(&mut again, &Call::MakeFresh)?;
        let stream = stream.to_vec();
        self.both(&mut again, &Call::ReadStream { stream })?;
        let answer = self.both(&mut again, &Call::CheckProfile { font })?;
        if answer != Answer::of(0, []) {
            return Err(format!("profiled font {font} read again: {answer:?}"));
        }
        self.met
            .situation("profiled font written, read, and within the profile again");
        Ok(())
    }

    /// The choice on the store as last left, against the book.
    fn demand_3(&mut self, pair: &mut Pair, request: &Request) -> Found<()> {
        let choice = self.choice(pair, request)?;
        let fonts = pair.book.fonts_of(SOFT);
        if choice.is_none() && !fonts.is_empty() {
            self.met.situation("none takes part though fonts are kept");
            let mode_600 = Request {
                mode: 600,
                ..*request
            };
            if fonts.iter().any(|font| font.takes_part(&mode_600)) {
                self.met
                    .situation("none takes part in mode 300, some in mode 600");
            }
        }
        if choice.is_some() && fonts.len() >= 500 {
            self.met.situation("choice among 500 fonts or more");
        }
        if self.chance.once_in(3) {
            self.one_more_removal(pair, request, choice)?;
        }
        if self.chance.once_in(3) {
            self.one_more_font(pair, request, choice)?;
        }
        Ok(())
    }

    /// What choosing answers, checked.
    fn choice(&mut self, pair: &mut Pair, request: &Request) -> Found<Option<u32>> {
        let call = Call::Choose(*request);
        let (answer, _) = self.only_ours(&mut pair.ours, &call)?;
        let fonts = pair.book.fonts_of(SOFT);
        let name = (SOFT, answer.number());
        let Some(choice) = book::right_choice(&answer, name, request, &fonts)
            .map_err(|what| format!("{call}\n  answered {answer:?}: {what}"))?
        else {
            return Ok(None);
        };
        if choice.symbol_set() != request.symbol_set {
            self.met.situation("Roman-8 chosen for another set");
        }
        if fonts.len() <= 16 {
            self.chosen_by_extended_bytes(request, &pair.book, choice.number);
            self.chosen_by_resolution(request, &pair.book, &choice);
        }
        Ok(Some(choice.number))
    }

    /// Counts choices that would be others if document 01's rule still held: an
    /// extended byte "wrongly counts .. as zero" (W-202).
    fn chosen_by_extended_bytes(&mut self, request: &Request, book: &Book, choice: u32) {
        for (at, situation) in [
            (40, "choice by the pitch's extended byte"),
            (41, "choice by the height's extended byte"),
        ] {
            let mut without = book.clone();
            for header in without.fonts.values_mut() {
                header[at] = 0;
            }
            if chosen(request, &without) != Some(choice) {
                self.met.situation(situation);
            }
        }
    }

    /// Counts choices that W-206 makes others: by the mode, and by what a 600 dpi
    /// font's numbers count.
    fn chosen_by_resolution(&mut self, request: &Request, book: &Book, choice: &Font) {
        let other_mode = Request {
            mode: 900 - request.mode,
            ..*request
        };
        let otherwise = chosen(&other_mode, book);
        if otherwise != Some(choice.number) {
            self.met.situation(match (request.mode, otherwise) {
                (600, None) => "choice in mode 600, none in mode 300",
                (600, Some(_)) => "choice in mode 600, another in mode 300",
                _ => "choice in mode 300, another in mode 600",
            });
        }
        if request.mode == 600 && choice.resolution() == 300 {
            let mut fonts = book.fonts_of(SOFT).into_iter();
            if fonts.any(|font| font.resolution() == 600) {
                self.met.situation("300 dpi font chosen in mode 600");
            }
        }
        // As if each number counted alike.
        let mut alike = book.clone();
        for header in alike.fonts.values_mut() {
            header[64..].copy_from_slice(&[1, 44, 1, 44]);
        }
        if chosen(request, &alike) != Some(choice.number) {
            self.met.situation("choice by the resolution");
        }
    }

    /// "one more call that removes a font that wasn't chosen, also for lack of
    /// room, leaves the choice standing"
    fn one_more_removal(
        &mut self,
        pair: &Pair,
        request: &Request,
        choice: Option<u32>,
    ) -> Found<()> {
        let mut others: Vec<u32> = pair.book.fonts.keys().copied().collect();
        others.retain(|&font| Some(font) != choice);
        if others.is_empty() {
            return Ok(());
        }
        let font = self.chance.of(&others);
        let (call, mut copy) = self.without(pair, font)?;
        let now = self.choice(&mut copy, request)?;
        if now != choice {
            return Err(format!(
                "{call}\n  changed the choice from {choice:?} to {now:?} for {request:?}"
            ));
        }
        self.met.situation(match call {
            Call::RemoveFont { .. } => "a font removed leaves the choice",
            _ => "a font struck for lack of room leaves the choice",
        });
        Ok(())
    }

    /// The store after "one more call that removes" this font: a font removal answered
    /// 0, or a character block answered 10; and the call.
    pub fn without(&mut self, pair: &Pair, font: u32) -> Found<(Call, Pair)> {
        let for_room = match self.chance.once_in(2) {
            true => self.generator().block_without_room(&pair.theirs, font),
            false => None,
        };
        let (call, removed) = match for_room {
            Some(block) => {
                let code = 200;
                (Call::DownloadCharacter { block, font, code }, 10)
            }
            None => (Call::RemoveFont { font }, 0),
        };
        let mut copy = self.copy(pair);
        let answer = self.both(&mut copy, &call)?;
        if answer.refusal != removed {
            return Err(format!("{call}\n  answered {answer:?}, not {removed}"));
        }
        copy.book.note(&call, &answer);
        Ok((call, copy))
    }

    /// "one that accepts a font under an unused number leaves it standing or
    /// makes the new font the choice"
    fn one_more_font(&mut self, pair: &Pair, request: &Request, choice: Option<u32>) -> Found<()> {
        let font = self.chance.of(&[0, 1, 3, 4, 7, 299, 301, 32765, 32767]);
        if pair.book.fonts.contains_key(&font) {
            return Ok(());
        }
        let block = self.generator().good_header();
        let call = Call::DownloadFont { block, font };
        let mut copy = self.copy(pair);
        let answer = self.both(&mut copy, &call)?;
        if answer.refusal != 0 {
            return Ok(());
        }
        copy.book.note(&call, &answer);
        let now = self.choice(&mut copy, request)?;
        if now == choice {
            self.met.situation("a font accepted leaves the choice");
        } else if now == Some(font) {
            self.met.situation("a font accepted becomes the choice");
        } else {
            return Err(format!(
                "{call}\n  changed the choice from {choice:?} to {now:?} for {request:?}"
            ));
        }
        Ok(())
    }

    /// A font of the book is told with the book's bytes, and one that isn't in
    /// it is refused with 6.
    fn told_as_in_the_book(&mut self, pair: &mut Pair) -> Found<()> {
        let font = match self.generator().font_number(&pair.theirs) {
            font @ 0..=32767 => font,
            _ => 0,
        };
        let call = Call::TellFont {
            out: vec![0x55; KEPT],
            font,
        };
        let (answer, out) = self.only_ours(&mut pair.ours, &call)?;
        let characters = generate::records(&pair.theirs)
            .iter()
            .filter(|record| record.font == font && record.code.is_some())
            .count();
        let right = match pair.book.fonts.get(&font) {
            Some(header) => {
                answer.refusal == 0 && out == header && answer.number() as usize == characters
            }
            None => answer.refusal == 6 && out == [0x55; KEPT],
        };
        match right {
            true => Ok(()),
            false => Err(format!(
                "{call}\n  answered {answer:?}; the book has it: {}",
                pair.book.fonts.contains_key(&font)
            )),
        }
    }

    /// A few calls on a copy with one byte changed or records put otherwise.
    fn changed(&mut self, pair: &Pair) -> Found<()> {
        let bytes = match self.chance.once_in(40) {
            true => Generator::of_the_version_before(&pair.theirs),
            false => self.generator().changed(&pair.theirs),
        };
        self.counts_changed(&bytes, &pair.theirs)?;
        self.met.situation(match reference::is_store(&bytes) {
            true => "a changed buffer is still a store",
            false => "a changed buffer is no store",
        });
        // A kept header may hold any extended byte beside any allowed field.
        let fonts = generate::records(&pair.theirs);
        let changed = first_difference(&bytes, &pair.theirs);
        if fonts.iter().any(|font| {
            let places = [40, 41].map(|byte| Some(font.at + FONT_KEPT + byte));
            font.code.is_none() && places.contains(&changed)
        }) && reference::is_store(&bytes)
        {
            self.met.situation("extended byte changed in a store");
        }
        // W-206: a kept header of either format.
        if fonts.iter().any(|font| {
            let kept = font.at + FONT_KEPT;
            let places = [1, 2, 64, 65, 66, 67].map(|byte| Some(kept + byte));
            font.code.is_none() && places.contains(&changed)
        }) {
            self.met.situation(match reference::is_store(&bytes) {
                true => "format or resolution changed, still a store",
                false => "format or resolution changed, no store",
            });
        }
        let mut copy = self.pair(&bytes);
        for _ in 0..3 {
            let call = self.generator().call(&copy.theirs);
            self.both(&mut copy, &call).map_err(|what| {
                format!(
                    "on a changed store {:02x?}\n  {what}",
                    &bytes[..bytes.len().min(400)]
                )
            })?;
        }
        Ok(())
    }

    /// W-205: "1 also where a held count is untrue", said without the reference: a
    /// store of which only held counts differ is none.
    fn counts_changed(&mut self, bytes: &[u8], store: &[u8]) -> Found<()> {
        if bytes == store {
            return Ok(());
        }
        let mut again = bytes.to_vec();
        let (mut characters, mut data) = (false, false);
        for (font, ..) in generate::counts(store) {
            let count = font.at + generate::FONT_COUNT..font.at + generate::FONT_SUM;
            let sum = font.at + generate::FONT_SUM..font.at + FONT_KEPT;
            if bytes.len() < sum.end {
                return Ok(());
            }
            characters |= bytes[count.clone()] != store[count.clone()];
            data |= bytes[sum.clone()] != store[sum.clone()];
            again[count.start..sum.end].copy_from_slice(&store[count.start..sum.end]);
        }
        let before = bytes.len() == store.len()
            && !generate::records(store).is_empty()
            && bytes == Generator::of_the_version_before(store);
        if again != store && !before {
            return Ok(());
        }
        let mut copy = self.pair(bytes);
        for call in [
            Call::RemoveFont { font: 0 },
            Call::Choose(Request::default()),
        ] {
            let (answer, _) = self.only_ours(&mut copy.ours, &call)?;
            if answer.refusal != 1 {
                return Err(format!(
                    "{call}\n  answered {answer:?}: a held count is untrue"
                ));
            }
        }
        self.met.situation(match (before, characters, data) {
            (true, ..) => "store of the version before refused",
            (_, true, false) => "untrue count of characters refused",
            (_, false, _) => "untrue sum of data bytes refused",
            (_, true, true) => "both numbers untrue, refused",
        });
        Ok(())
    }

    /// Demand 2's second half: a font written out and read into a fresh store
    /// of the same length is the same font.
    fn round_trip(&mut self, pair: &Pair) -> Found<()> {
        let fonts: Vec<u32> = pair.book.fonts.keys().copied().collect();
        if fonts.is_empty() {
            return Ok(());
        }
        let font = self.chance.of(&fonts);
        let length = pair.theirs.len();
        let mut copy = self.pair(&pair.theirs);
        let write = Call::WriteFont {
            out: vec![0; length + 2048],
            font,
        };
        let (written, stream) = self.both_with_output(&mut copy, &write)?;
        if written.refusal != 0 {
            return Err(format!("{write}\n  answered {written:?}"));
        }
        let stream = stream[..written.number() as usize].to_vec();
        let mut again = self.pair(&vec![0; length]);
        self.both(&mut again, &Call::MakeFresh)?;
        let read = Call::ReadStream { stream };
        let answer = self.both(&mut again, &read)?;
        let records: Vec<generate::Record> = generate::records(&pair.theirs)
            .into_iter()
            .filter(|record| record.font == font)
            .collect();
        let long = |record: &&generate::Record| record.length > CHARACTER_RECORD + 32751;
        let split = records.iter().filter(long).count();
        let done = (2 * records.len() + split) as u64;
        if answer != Answer::of(0, [done]) {
            return Err(format!("round trip: {read}\n  answered {answer:?}"));
        }
        // The font's records, byte for byte, and nothing else behind the mark.
        let mut expected: Vec<u8> = Vec::with_capacity(length);
        for record in &records {
            expected.extend(&pair.theirs[record.at..record.at + record.length]);
        }
        expected.resize(length - 12, 0);
        if expected != again.ours.content()[12..] {
            return Err(format!(
                "round trip of font {font}: other records\n  {read}"
            ));
        }
        // And as the calls tell it.
        let mut calls = vec![Call::TellFont {
            out: vec![0; KEPT],
            font,
        }];
        for record in &records {
            if let Some(code) = record.code {
                let out = vec![0; 16];
                calls.push(Call::TellCharacter { out, font, code });
                let out = vec![0; 32768];
                calls.push(Call::DrawPicture { out, font, code });
            }
        }
        for call in calls.iter().take(7) {
            let first = self.only_ours(&mut copy.ours, call)?;
            if first != self.only_ours(&mut again.ours, call)? {
                return Err(format!("round trip of font {font}: other answer\n  {call}"));
            }
        }
        self.met.situation("round trip");
        if split > 0 {
            self.met.situation("round trip with a continuation");
        }
        if records.len() > 200 {
            self.met.situation("round trip of 200 characters or more");
        }
        let header = &pair.book.fonts[&font];
        self.met.situation(match (header[2], header[64]) {
            (0, _) => "round trip in format 0",
            (_, 1) => "round trip in format 20, 300 dpi",
            _ => "round trip in format 20, 600 dpi",
        });
        Ok(())
    }

    /// "Refusals: 1, then 12" (W-212).
    fn no_store_met(&mut self, call: &Call) {
        let Call::SalvageStream { stream, list } = call else {
            return;
        };
        if list.len() < STRETCH && book::spelled(stream).broken.is_some() {
            self.met
                .situation("salvage, 1 beside a torn stream and no room");
        }
    }

    /// Counts what else is worth having met.
    fn situations(&mut self, call: &Call, answer: &Answer, before: &[u8], after: &[u8]) {
        if !reference::is_store(before) {
            self.no_store_met(call);
            return;
        }
        let open = generate::open(before);
        let kept = |font: u32| generate::records(before).iter().any(|r| r.font == font);
        let met = &mut *self.met;
        if let (Call::DownloadFont { block, .. }, 0) = (call, answer.refusal) {
            fields_cut(block, met);
        }
        counts_kept(call, answer, before, after, met);
        if let Call::DownloadFont { block, .. } = call {
            format_met(block, answer.refusal, met);
        }
        if let (Call::Choose(request), 2) = (call, answer.refusal) {
            let right = Request {
                mode: 300,
                ..*request
            };
            if reference::choose(before, &right).refusal != 2 {
                met.situation("a mode out of range alone");
            }
        }
        match (call, answer.refusal) {
            (Call::DownloadFont { font, .. }, 0) if kept(*font) => {
                met.situation("font replaced");
                if open.is_some_and(|(of, _)| of == *font) {
                    met.situation("font of the open character replaced");
                }
            }
            (Call::DownloadFont { .. }, 0) if open.is_some() => {
                met.situation("font block while a character is open");
            }
            (Call::DownloadCharacter { block, font, code }, refusal) => {
                let first = block.get(1) == Some(&0);
                let named = open == Some((*font, *code));
                match (refusal, first) {
                    (0, true) => {
                        let old = generate::character(before, *font, *code);
                        if old.is_some() {
                            met.situation("character replaced");
                        }
                        if named {
                            met.situation("open character replaced");
                        }
                        if let Some(new) = generate::character(after, *font, *code) {
                            met.situation(match Reading::is_complete(&new) {
                                true => "first block, complete",
                                false => "first block, incomplete",
                            });
                            if new.data.len() < block.len() - 16 {
                                met.situation("data beyond a picture dropped");
                            }
                        }
                    }
                    (0, false) if block.len() == 2 => met.situation("continuation without data"),
                    (0, false) if generate::open(after).is_none() => {
                        met.situation("continuation that completes");
                    }
                    (0, false) => met.situation("continuation that doesn't complete"),
                    (9, true) => met.situation("picture too large"),
                    (9, false) => met.situation("kept data too large"),
                    (10, true) if named => met.situation("no room for the open character anew"),
                    (10, true) => met.situation("no room for a first block"),
                    (10, false) => met.situation("no room for a continuation"),
                    (1..=5, true) if named => {
                        met.situation("refused first block for the open character");
                    }
                    _ => {}
                }
                if refusal == 10 && open.is_some() && generate::open(after).is_some() {
                    met.situation("no room, a character of another font stays open");
                }
            }
            (Call::RemoveFont { font }, 0) => match open {
                Some((of, _)) if of == *font => met.situation("font of the open character removed"),
                Some(_) => met.situation("font removed, a character of another stays open"),
                None => {}
            },
            (Call::RemoveCharacter { font, code }, 0) => match open {
                Some(open) if open == (*font, *code) => met.situation("open character removed"),
                Some(_) => met.situation("character removed, another stays open"),
                None => {}
            },
            (
                Call::DrawRow {
                    font, code, row, ..
                },
                refusal,
            ) => {
                if let Some(kept) = generate::character(before, *font, *code) {
                    if refusal == 2 {
                        met.situation("row not below the height");
                    } else if refusal == 0 && *row as usize + 1 == kept.height {
                        met.situation("last row drawn");
                    }
                }
            }
            (Call::ChooseSheet { requests, out }, refusal) => {
                let room = out.len() / ANSWER;
                match (requests.len(), refusal) {
                    (0, 0) => met.situation("sheet without requests"),
                    (64, 0) => met.situation("sheet of 64 requests"),
                    (65, 2) if room == 64 => {
                        met.situation("sheet of 65 requests, answers for 64");
                    }
                    (_, 12) => {
                        let alone = |request| reference::choose(before, request).refusal;
                        if requests.iter().all(|request| alone(request) == 2) {
                            met.situation("sheet refused with 12, all its requests out of range");
                        }
                    }
                    _ => {}
                }
                if refusal == 0 && room > requests.len() {
                    met.situation("sheet with answers to spare");
                }
            }
            (Call::ReadStream { .. }, 13) if answer.numbers[0] > 0 => {
                met.situation("stream broken after commands done");
            }
            (Call::ReadStream { .. }, 0) if answer.numbers[1] > 0 => {
                met.situation("stream with refused commands");
            }
            _ => {}
        }
    }
}

/// The number that the steps leave of one store's fonts.
fn chosen(request: &Request, book: &Book) -> Option<u32> {
    let (_, number) = book::chosen(request, &book.fonts_of(SOFT))?;
    Some(number)
}

/// W-206: what the formats' own rules made of a font block in range.
fn format_met(block: &[u8], refusal: u32, met: &mut Met) {
    if !(64..=32767).contains(&block.len()) || refusal == 2 {
        return;
    }
    let field = |at: usize| u16::from_be_bytes([block[at], block[at + 1]]);
    let size = usize::from(field(0));
    match (block[2], refusal) {
        (20, 3) => met.situation("format 20 block of 64 to 67 bytes"),
        (20, 4) if (64..68).contains(&size) => {
            met.situation("format 20 descriptor size of 64 to 67");
        }
        (20, 4) => met.situation("format 20 descriptor size too small or too large"),
        (20, 5) => {
            let mut right = block.to_vec();
            right[64..68].copy_from_slice(&[1, 44, 1, 44]);
            let mut store = vec![0; 200];
            reference::make_fresh(&mut store);
            if reference::download_font(&mut store, &right, 0) == 0 {
                met.situation(match (field(64), field(66)) {
                    (300, 600) | (600, 300) => "resolutions 300 and 600",
                    (x, y) if x == y => "resolutions alike, neither 300 nor 600",
                    _ => "another resolution",
                });
            }
        }
        (20, 0) => met.situation(match (field(64), block.len()) {
            (300, _) => "format 20 font of 300 dpi taken",
            (_, 68) => "format 20 font of 600 dpi taken",
            _ => "format 20 font of 600 dpi taken of a longer block",
        }),
        (0, 0) if block.len() >= 68 => met.situation("format 0 block of 68 bytes or more taken"),
        (1..=19 | 21.., 4) if block.len() < 68 => {
            met.situation("another format in a block of 64 to 67 bytes");
        }
        _ => {}
    }
}

/// W-205: what a call made of the held counts of its font, and of others.
fn counts_kept(call: &Call, answer: &Answer, before: &[u8], after: &[u8], met: &mut Met) {
    let (font, code) = match call {
        Call::DownloadCharacter { font, code, .. } | Call::RemoveCharacter { font, code } => {
            (*font, *code)
        }
        _ => return,
    };
    let of = |store: &[u8]| {
        let fonts = generate::counts(store);
        let found = fonts.iter().find(|(record, ..)| record.font == font);
        found.map(|(_, held, _)| *held)
    };
    let kept = generate::character(before, font, code).is_some();
    match (call, answer.refusal, of(before), of(after)) {
        (Call::RemoveCharacter { .. }, 0, Some(_), Some((left, _))) => {
            met.situation("held count lowered by a removal");
            if left == 0 {
                met.situation("last character of a font removed");
            }
        }
        (Call::DownloadCharacter { block, .. }, 0, Some((_, was)), Some((_, now))) => {
            match (block[1] == 0, kept) {
                (true, false) => met.situation("held count raised by a first block"),
                (true, true) if now > was => met.situation("held sum raised by a replacement"),
                (true, true) if now < was => met.situation("held sum lowered by a replacement"),
                (false, _) if now > was => met.situation("held sum raised by a continuation"),
                _ => {}
            }
        }
        (Call::DownloadCharacter { .. }, 10, Some((characters, _)), None) if characters > 1 => {
            met.situation("font of several characters struck for lack of room");
        }
        _ => {}
    }
}

/// Which fields of an accepted header are cut, or just not, beside an extended byte.
fn fields_cut(block: &[u8], met: &mut Met) {
    for (name, at, limit, extended) in [("pitch", 16, 16800, 40), ("height", 18, 10922, 41)] {
        let field = u16::from_be_bytes([block[at], block[at + 1]]);
        if block[extended] == 0 || field < limit {
            continue;
        }
        met.situation(&match field == limit {
            true => format!("{name} at its limit, its extended byte kept"),
            false => format!("{name} cut, its extended byte lost"),
        });
    }
}

pub fn first_difference(a: &[u8], b: &[u8]) -> Option<usize> {
    if a == b {
        return None;
    }
    let shorter = a.len().min(b.len());
    Some((0..shorter).find(|&at| a[at] != b[at]).unwrap_or(shorter))
}
