//! W-209: the rows that class 2 data spells, as document 01 words them, and that the
//! numbers of an 8 are theirs. The reference has no part in it.

use crate::calls::{Answer, Call};
use crate::generate::{character, high16};
use crate::met::Met;

/// A row of class 2 data: its repeat count, and its runs as far as the data goes.
pub struct Row<'a> {
    pub repeats: usize,
    pub runs: &'a [u8],
}

impl Row<'_> {
    /// "white and black runs in turn, white first"
    pub fn black(&self) -> usize {
        let black = self.runs.iter().skip(1).step_by(2);
        black.map(|&run| usize::from(run)).sum()
    }
}

pub fn sum(runs: &[u8]) -> usize {
    runs.iter().map(|&run| usize::from(run)).sum()
}

/// "a repeat count, then white and black runs in turn, white first, each one byte, until
/// they sum to the width; the row is drawn once and then as often again as the count
/// says", up to the height. The last row may be unfinished, or pass the width.
pub fn spelled(width: usize, height: usize, data: &[u8]) -> Vec<Row<'_>> {
    let mut rows = Vec::new();
    let mut drawn = 0;
    let mut rest = data;
    while drawn < height {
        let Some((&repeats, after)) = rest.split_first() else {
            break;
        };
        let mut filled = 0;
        let last = after.iter().position(|&run| {
            filled += usize::from(run);
            filled >= width
        });
        let runs;
        (runs, rest) = after.split_at(last.map_or(after.len(), |last| last + 1));
        let repeats = usize::from(repeats);
        rows.push(Row { repeats, runs });
        if filled > width {
            break;
        }
        drawn += 1 + repeats;
    }
    rows
}

/// What the rows of a class 2 character block are read from.
pub struct Sent {
    continued: bool,
    width: usize,
    height: usize,
    /// What is kept, then the block's.
    data: Vec<u8>,
    kept: usize,
}

impl Sent {
    /// Of a block for this store; nothing if its character is not of class 2.
    pub fn of(store: &[u8], call: &Call) -> Option<Sent> {
        let Call::DownloadCharacter { block, font, code } = call else {
            return None;
        };
        if *block.get(1)? == 0 {
            let (first, data) = block.split_at_checked(16)?;
            return (first[3] == 2).then(|| Sent {
                continued: false,
                width: high16(first, 10),
                height: high16(first, 12),
                data: data.to_vec(),
                kept: 0,
            });
        }
        let open = character(store, *font, *code)?;
        (open.class == 2).then(|| Sent {
            continued: true,
            width: open.width,
            height: open.height,
            data: [open.data, &block[2..]].concat(),
            kept: open.data.len(),
        })
    }

    fn rows(&self) -> Vec<Row<'_>> {
        spelled(self.width, self.height, &self.data)
    }

    /// Counts what is worth having met of an 8, and of runs that are none.
    pub fn met(&self, answer: &Answer, met: &mut Met) {
        let rows = self.rows();
        let read: usize = rows.iter().map(|row| 1 + row.runs.len()).sum();
        if answer.refusal != 8 {
            let beyond = spelled(self.width, 1, &self.data[read..]);
            if beyond.iter().any(|row| sum(row.runs) > self.width) {
                met.situation("no 8, a run past the width beyond the picture");
            }
            return;
        }
        let (bad, whole) = rows.split_last().expect("a row, as `check` says");
        let (_, before) = bad.runs.split_last().expect("a run, as `check` says");
        let by = match self.continued {
            false => "8 by a first block",
            true => "8 by a continuation",
        };
        met.situation(by);
        if whole.iter().any(|row| row.repeats > 0) {
            met.situation(&format!("{by}, repeats before it"));
        }
        let begins = read - bad.runs.len() - 1;
        if self.continued && begins >= self.kept {
            met.situation("8 by a continuation, in a row that it begins");
        } else if self.continued && sum(&self.data[begins + 1..self.kept]) > 0 {
            met.situation("8 by a continuation, in a row with dots kept before");
        }
        let [row, filled, _] = answer.bad_run();
        if bad.repeats > 0 {
            met.situation("8 in a row with repeats");
        }
        if bad.repeats > 0 && row as usize + 1 == self.height {
            met.situation("8 in the last row, its repeats beyond the height");
        }
        if filled == 0 {
            met.situation("8 with no dot filled");
        }
        if before.last() == Some(&0) {
            met.situation("8 after a run of 0");
        }
        if row >= 256 {
            met.situation("8 after 256 rows or more");
        }
        if filled >= 256 {
            met.situation("8 with 256 dots filled or more");
        }
    }
}

/// That a character download, of which the block passed all checks before 8, is answered
/// as the rows say. For 8 the first `row` rows are whole, the runs of the row being read
/// before this one sum to `filled`, and `filled + run` passes the width; otherwise no row
/// passes it.
pub fn check(sent: Option<&Sent>, answer: &Answer) -> Result<(), String> {
    let Some(sent) = sent else {
        return match answer.refusal {
            8 => Err("but it is not of class 2".into()),
            _ => Ok(()),
        };
    };
    let rows = sent.rows();
    if answer.refusal != 8 {
        return match rows.iter().any(|row| sum(row.runs) > sent.width) {
            true => Err("but a run passes the width".into()),
            false => Ok(()),
        };
    }
    let Some((bad, whole)) = rows.split_last() else {
        return Err("but there is no row".into());
    };
    let Some((&last, before)) = bad.runs.split_last() else {
        return Err("but its row has no run".into());
    };
    let [row, filled, run] = answer.bad_run().map(|number| number as usize);
    let drawn: usize = whole.iter().map(|row| 1 + row.repeats).sum();
    if row != drawn || whole.iter().any(|row| sum(row.runs) != sent.width) {
        return Err(format!("but {drawn} rows are whole"));
    }
    if row >= sent.height {
        return Err(format!("but the height is {}", sent.height));
    }
    if filled != sum(before) {
        return Err(format!("but {} dots are filled", sum(before)));
    }
    if run != usize::from(last) || filled + run <= sent.width {
        return Err(format!("but the run is {last}, the width {}", sent.width));
    }
    Ok(())
}
