//! What the histories met: each refusal in each call, and situations by name.

use crate::calls::{Answer, Call, CALLS, NAMES, POSSIBLE};

/// 0 to 14.
const REFUSALS: usize = 15;

/// Every one must be met by a whole run.
const SITUATIONS: [&str; 149] = [
    "font replaced",
    "font of the open character replaced",
    "font block while a character is open",
    "character replaced",
    "open character replaced",
    "first block, complete",
    "first block, incomplete",
    "data beyond a picture dropped",
    "continuation without data",
    "continuation that completes",
    "continuation that doesn't complete",
    "picture too large",
    "kept data too large",
    "no room for a first block",
    "no room for the open character anew",
    "no room for a continuation",
    "no room, a character of another font stays open",
    "refused first block for the open character",
    "font of the open character removed",
    "font removed, a character of another stays open",
    "open character removed",
    "character removed, another stays open",
    "row not below the height",
    "last row drawn",
    "stream with refused commands",
    "stream broken after commands done",
    "Roman-8 chosen for another set",
    "none takes part though fonts are kept",
    "choice among 500 fonts or more",
    "a font removed leaves the choice",
    "a font struck for lack of room leaves the choice",
    "a font accepted leaves the choice",
    "a font accepted becomes the choice",
    "pitch cut, its extended byte lost",
    "pitch at its limit, its extended byte kept",
    "height cut, its extended byte lost",
    "height at its limit, its extended byte kept",
    "choice by the pitch's extended byte",
    "choice by the height's extended byte",
    "extended byte changed in a store",
    "sheet without requests",
    "sheet of 64 requests",
    "sheet of 65 requests, answers for 64",
    "sheet with answers to spare",
    "sheet's entry done",
    "sheet's entry out of range",
    "sheet's entry with none to choose",
    "sheet's entry done behind one out of range",
    "sheet refused with 12, all its requests out of range",
    "held count raised by a first block",
    "held sum raised by a replacement",
    "held sum lowered by a replacement",
    "held sum raised by a continuation",
    "held count lowered by a removal",
    "last character of a font removed",
    "font of several characters struck for lack of room",
    "font of 256 characters",
    "untrue count of characters refused",
    "untrue sum of data bytes refused",
    "both numbers untrue, refused",
    "store of the version before refused",
    "format 20 font of 300 dpi taken",
    "format 20 font of 600 dpi taken",
    "format 20 font of 600 dpi taken of a longer block",
    "format 20 block of 64 to 67 bytes",
    "format 20 descriptor size of 64 to 67",
    "format 20 descriptor size too small or too large",
    "resolutions 300 and 600",
    "resolutions alike, neither 300 nor 600",
    "another resolution",
    "format 0 block of 68 bytes or more taken",
    "another format in a block of 64 to 67 bytes",
    "a mode out of range alone",
    "none takes part in mode 300, some in mode 600",
    "choice in mode 600, none in mode 300",
    "choice in mode 600, another in mode 300",
    "choice in mode 300, another in mode 600",
    "300 dpi font chosen in mode 600",
    "choice by the resolution",
    "format or resolution changed, still a store",
    "format or resolution changed, no store",
    "round trip in format 0",
    "round trip in format 20, 300 dpi",
    "round trip in format 20, 600 dpi",
    "font meets the profile",
    "font meets the profile, an incomplete character beside its codes",
    "font meets the profile while one of its characters is open",
    "font of 600 dpi meets the profile",
    "profile, rule 1 alone broken",
    "profile, rule 2 alone broken",
    "profile, rule 3 alone broken",
    "profile, rule 4 alone broken",
    "profile, rule 5 alone broken",
    "profile, rule 6 alone broken",
    "profile, rule 7 alone broken",
    "profile, a code missing",
    "profile, a code incomplete",
    "profile, a rule broken by several codes",
    "profile, a rule broken only outside codes 32 to 127",
    "profile, a later rule broken by a lower code",
    "profiled font written",
    "profiled font written, read, and within the profile again",
    "profiled font, the output one byte short",
    "font outside the profile, the output short too",
    "font outside the profile, the output long enough",
    "a changed buffer is still a store",
    "a changed buffer is no store",
    "round trip",
    "round trip with a continuation",
    "round trip of 200 characters or more",
    "from two, chosen beside an empty cartridge",
    "from two, chosen beside an empty soft store",
    "from two, both stores empty",
    "from two, none takes part though both keep fonts",
    "from two, none takes part in mode 300, some in mode 600",
    "from two, mode 300, 600 dpi fonts in one store alone",
    "from two, choice among 500 fonts or more",
    "from two, chosen from a dump's records, the soft store",
    "from two, chosen from a dump's records, the cartridge",
    "from two, a soft font though cartridge fonts take part",
    "from two, a cartridge font though soft fonts take part",
    "from two, the chosen number in both stores",
    "from two, the chosen font in both stores",
    "from two, the set in the soft store, Roman-8 in the cartridge",
    "from two, the set in the cartridge, Roman-8 in the soft store",
    "from two, a cartridge font of 600 dpi before a soft one of 300",
    "from two, a soft font before a cartridge font by the place alone",
    "from two, a soft font before a cartridge font of the page's orientation",
    "from two, the same, of a lower number too",
    "from two, a soft font before a cartridge font of a lower number",
    "from two, a font removed from the soft store leaves the choice",
    "from two, a font removed from the cartridge leaves the choice",
    "from two, a font struck for lack of room from the soft store leaves the choice",
    "from two, a font struck for lack of room from the cartridge leaves the choice",
    "from two, the chosen number removed from the other store",
    "from two, a removal leaves none to choose",
    "from two, a font accepted in the soft store leaves the choice",
    "from two, a font accepted in the soft store becomes the choice",
    "from two, a font accepted in the cartridge leaves the choice",
    "from two, a font accepted in the cartridge becomes the choice",
    "from two, a font accepted under a number of the other store",
    "from two, a font accepted leaves none to choose",
    "from two, one buffer as both",
    "from two, the soft store is none",
    "from two, the cartridge is none",
    "from two, neither is a store",
    "from two, a soft store of 0 bytes beside a cartridge with fonts",
    "from two, no store and a number out of range",
    "from two, out of range with both stores empty",
];

/// Those of W-209, every one of which a shorter run must meet too.
const BAD_RUNS: [&str; 22] = [
    "8 by a first block",
    "8 by a continuation",
    "8 by a first block, repeats before it",
    "8 by a continuation, repeats before it",
    "8 by a continuation, in a row that it begins",
    "8 by a continuation, in a row with dots kept before",
    "8 in a row with repeats",
    "8 in the last row, its repeats beyond the height",
    "8 with no dot filled",
    "8 after a run of 0",
    "8 after 256 rows or more",
    "8 with 256 dots filled or more",
    "no 8, a run past the width beyond the picture",
    "stream with an 8 that ends with 0",
    "stream with an 8 that ends with 13",
    "stream with another refusal before its first 8",
    "stream with downloads done after its first 8",
    "stream of which the first 8 is by a continuation",
    "several 8 in one stream that ends with 0",
    "several 8 in one stream that ends with 13",
    "several 8 in one stream, the last with other numbers",
    "the same, and the first in row 0 with no dot filled",
];

/// Those of W-210, of which the same holds.
const FIGURES: [&str; 47] = [
    "figures of a store of class 1",
    "figures of a store of class 2",
    "figures of a store of both classes",
    "figures of a store without characters",
    "figures of an incomplete class 1 character",
    "figures of an incomplete class 2 character",
    "figures, padding bits set in class 1 data",
    "figures, black dots in an unfinished row",
    "figures, black dots repeated below the last row",
    "figures, two widths of a code in one store",
    "figures, several characters of a code in one store",
    "figures, a least width of 0 beside a count",
    "figures, a least width without a count",
    "figures, a least width lowered",
    "figures, a least width that stays",
    "figures, a greatest width raised",
    "figures, a greatest width that stays",
    "figures, a width that no character has",
    "figures, a sum without a count",
    "figures, a mean without a count",
    "figures, a mean changed by a store",
    "figures, a mean with a rest",
    "figures, a count raised by its bound",
    "figures, a sum raised by its bound",
    "figures, a count handed in at the bound",
    "figures, dots handed in at the bound",
    "figures, a sum handed in at the bound",
    "figures, numbers of a code that the store lacks",
    "figures, the 64th store",
    "figures, 1 beside figures of another length",
    "figures, 1 beside numbers above their bounds",
    "figures, 2 for a shorter length",
    "figures, 2 for a longer length",
    "figures, 2 for the 65th store alone",
    "figures, 2 for more than 64 stores so far",
    "figures, 2 for a number above 0 before the first store",
    "figures, 2 for a count one above the bound",
    "figures, 2 for dots one above the bound",
    "figures, 2 for a sum one above the bound",
    "figures, 2 for a count in a code that the store lacks",
    "figures, 2 for dots in a code that the store lacks",
    "figures, 2 for a sum in a code that the store lacks",
    "collection of several stores",
    "collection, two widths of a code in two stores",
    "collection in another order",
    "collection of 64 stores",
    "collection, a 65th store refused",
];

/// Those of W-211, of which the same holds: pairs of which neither is refused in either order,
/// by their kinds and by what they meet, and pairs of which one is.
const EITHER_ORDER: [&str; 32] = [
    "either order, font block and font block",
    "either order, font block and character block",
    "either order, font block and font removal",
    "either order, font block and character removal",
    "either order, character block and character block",
    "either order, character block and font removal",
    "either order, character block and character removal",
    "either order, font removal and font removal",
    "either order, font removal and character removal",
    "either order, character removal and character removal",
    "either order, continuation and font block",
    "either order, continuation and font removal",
    "either order, continuation and character removal",
    "either order, two character blocks, the same first record",
    "either order, two character blocks, another first record",
    "either order, the open character closed by a font block",
    "either order, the open character closed by a first block",
    "either order, the open character closed by a continuation",
    "either order, the open character closed by a font removal",
    "either order, the open character closed by a character removal",
    "either order, a character of one of both fonts stays open",
    "either order, a character of a third font stays open",
    "either order, two new fonts",
    "either order, two fonts replaced",
    "either order, two characters replaced",
    "either order, no byte of room left",
    "either order, in a store that began as a dump",
    "either order, 7 in one alone, for a continuation",
    "either order, 10 in one alone",
    "either order, 10 for the second call in both",
    "either order, 10 for the first call in both",
    "either order, 10 for the same call in both",
];

/// Those of W-212, of which the same holds.
const SALVAGE: [&str; 33] = [
    "salvage, a whole stream",
    "salvage, a whole stream and a list shorter than 16 bytes",
    "salvage, one stretch",
    "salvage, several stretches",
    "salvage, ten stretches or more",
    "salvage, a last stretch to the end",
    "salvage, a last stretch of the last byte alone",
    "salvage, a stretch of more than 65535 bytes",
    "salvage, a stretch after the first 65536 bytes",
    "salvage, a restart one byte after the 13",
    "salvage, a restart inside the broken command",
    "salvage, a restart inside picture data",
    "salvage, a restart with leading zeros",
    "salvage, a restart with five digits",
    "salvage, a restart with number 0",
    "salvage, a restart with number 32767",
    "salvage, a D out of range passed over",
    "salvage, a D of six digits passed over",
    "salvage, an E or a block passed over",
    "salvage, a run of ESC before a restart",
    "salvage, a block with code 0 after a tear, another code before it",
    "salvage, an open character continued after a tear",
    "salvage, downloads done before and after a tear",
    "salvage, commands refused before and after a tear",
    "salvage, a font struck for lack of room after a tear",
    "salvage, a list for exactly the stretches",
    "salvage, a list with room to spare",
    "salvage, a list length that is no multiple of 16",
    "salvage, 12 with no stretch listed",
    "salvage, 12 after stretches listed",
    "salvage, 12 for the last stretch alone",
    "salvage, 12 after downloads done",
    "salvage, 1 beside a torn stream and no room",
];

fn situations() -> impl Iterator<Item = &'static str> {
    let later = BAD_RUNS.iter().chain(&FIGURES).chain(&EITHER_ORDER);
    let later = later.chain(&SALVAGE);
    SITUATIONS.iter().chain(later).copied()
}

const ALL_SITUATIONS: usize =
    SITUATIONS.len() + BAD_RUNS.len() + FIGURES.len() + EITHER_ORDER.len() + SALVAGE.len();

pub struct Met {
    answers: [[u64; REFUSALS]; CALLS],
    situations: [u64; ALL_SITUATIONS],
}

/// How many possible answers and situations were never met: of all, and of those of W-209
/// to W-212.
pub struct Never {
    pub all: usize,
    pub later: usize,
}

impl Met {
    pub fn new() -> Met {
        Met {
            answers: [[0; REFUSALS]; CALLS],
            situations: [0; ALL_SITUATIONS],
        }
    }

    /// A refusal that no document lists for the call is a difference,
    /// whatever the reference says.
    pub fn count(&mut self, call: &Call, answer: &Answer) -> Result<(), String> {
        let (index, refusal) = (call.index(), answer.refusal as usize);
        if !POSSIBLE[index].contains(&refusal) {
            return Err(format!("{call}\n  answered {answer:?}, which it never may"));
        }
        self.answers[index][refusal] += 1;
        Ok(())
    }

    pub fn situation(&mut self, name: &str) {
        let index = situations().position(|known| known == name);
        self.situations[index.expect("a named situation")] += 1;
    }

    /// What another thread's histories met.
    pub fn add(&mut self, other: &Met) {
        let ours = self.answers.iter_mut().flatten();
        for (times, more) in ours.zip(other.answers.iter().flatten()) {
            *times += more;
        }
        for (times, more) in self.situations.iter_mut().zip(other.situations) {
            *times += more;
        }
    }

    pub fn calls(&self) -> u64 {
        self.answers.iter().flatten().sum()
    }

    /// Prints the tables.
    pub fn report(&self) -> Never {
        let mut never = 0;
        print!("{:18}", "call");
        for refusal in 0..REFUSALS {
            print!("{refusal:>8}");
        }
        println!();
        for (index, name) in NAMES.iter().enumerate() {
            print!("{name:18}");
            for refusal in 0..REFUSALS {
                let times = self.answers[index][refusal];
                if !POSSIBLE[index].contains(&refusal) {
                    print!("{:>8}", ".");
                } else {
                    print!("{times:>8}");
                    never += usize::from(times == 0);
                }
            }
            println!();
        }
        for (name, times) in situations().zip(self.situations) {
            println!("{times:>8}  {name}");
            never += usize::from(times == 0);
        }
        let later = &self.situations[SITUATIONS.len()..];
        Never {
            all: never,
            later: later.iter().filter(|&&times| times == 0).count(),
        }
    }
}
