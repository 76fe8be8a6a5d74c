//! Picture data: how far it brings a picture, and the rows and pictures drawn
//! from it.

/// Class, width and height of a character.
#[derive(Clone, Copy)]
pub struct Shape {
    /// Class 2; class 1 otherwise.
    pub compressed: bool,
    pub width: usize,
    pub height: usize,
}

impl Shape {
    /// "A picture has height rows of width/8 rounded up bytes".
    pub fn row_bytes(self) -> usize {
        self.width.div_ceil(8)
    }

    pub fn picture_bytes(self) -> usize {
        self.row_bytes() * self.height
    }

    /// The dots of a row's last byte that are within the width.
    pub fn last_byte_mask(self) -> u8 {
        match self.width % 8 {
            0 => 0xFF,
            dots => 0xFF << (8 - dots),
        }
    }
}

/// How far a picture is. Data may be taken part by part: what is kept, then a
/// block's, without being joined first.
#[derive(Clone, Copy)]
pub enum Reading {
    /// "Class 1 is complete at its byte count": the bytes still missing.
    Plain { missing: usize },
    /// "class 2 when all rows are drawn".
    Runs(RunReading),
}

/// 02, W-209: "The row reader is to answer with the picture row being read, counted
/// from 0 with repeats, the dots already filled and the run that didn't fit".
#[derive(Clone, Copy)]
pub struct BadRun {
    /// The first of the picture's rows that it would have drawn.
    pub row: u32,
    /// By the runs of that row before this one.
    pub filled: u32,
    pub run: u32,
}

/// Where the reading of class 2 data is.
#[derive(Clone, Copy)]
pub struct RunReading {
    width: u32,
    height: u32,
    /// Rows drawn so far, with repeats, so that the row to be read next has this
    /// number; as many as the height in a complete picture.
    drawn: u32,
    /// The row begun, if one is: its repeat count, and how many dots of its
    /// width no run has filled yet (at least 1). With none begun, the next
    /// byte is a repeat count.
    row: Option<(u32, u32)>,
}

impl Reading {
    pub fn of(shape: Shape) -> Reading {
        if shape.compressed {
            Reading::Runs(RunReading {
                width: shape.width as u32,
                height: shape.height as u32,
                drawn: 0,
                row: None,
            })
        } else {
            Reading::Plain {
                missing: shape.picture_bytes(),
            }
        }
    }

    pub fn is_complete(&self) -> bool {
        match self {
            Reading::Plain { missing } => *missing == 0,
            Reading::Runs(runs) => runs.drawn == runs.height,
        }
    }

    /// Takes the next part of the data and answers how many of its bytes
    /// belong to the picture; the others are "beyond a complete picture". Or
    /// else the run that is refused with 8.
    pub fn take(&mut self, data: &[u8]) -> Result<usize, BadRun> {
        match self {
            Reading::Plain { missing } => {
                let taken = data.len().min(*missing);
                *missing -= taken;
                Ok(taken)
            }
            Reading::Runs(runs) => runs.take(data),
        }
    }
}

/// Dots that a row lacks, above which four runs of letters mostly fit.
const FOUR_AT_ONCE: u32 = 32;

impl RunReading {
    /// 01, Rows: "Class 2: a repeat count, then white and black runs in turn,
    /// white first, each one byte, until they sum to the width; the row is
    /// drawn once and then as often again as the count says." Here only the
    /// sums count, not the colours.
    fn take(&mut self, data: &[u8]) -> Result<usize, BadRun> {
        let mut at = 0;
        while self.drawn < self.height {
            let (repeat, mut unfilled) = match self.row.take() {
                Some(row) => row,
                None => {
                    let Some(&repeat) = data.get(at) else {
                        return Ok(at);
                    };
                    at += 1;
                    (u32::from(repeat), self.width)
                }
            };
            // Four runs that leave the row unfinished together: none of them ends
            // it or passes its end.
            while unfilled > FOUR_AT_ONCE {
                let Some(four) = data[at..].first_chunk::<4>() else {
                    break;
                };
                let sum: u32 = four.iter().map(|&run| u32::from(run)).sum();
                if sum >= unfilled {
                    break;
                }
                unfilled -= sum;
                at += 4;
            }
            // A row ends the moment its runs sum to the width; 0 is a run like
            // any other.
            loop {
                let Some(&run) = data.get(at) else {
                    self.row = Some((repeat, unfilled));
                    return Ok(at);
                };
                at += 1;
                let run = u32::from(run);
                if run < unfilled {
                    unfilled -= run;
                } else if run == unfilled {
                    break;
                } else {
                    // "8 if class 2 data has a run past the width before all
                    // rows are drawn"
                    return Err(BadRun {
                        row: self.drawn,
                        filled: self.width - unfilled,
                        run,
                    });
                }
            }
            // "Repeats below the last row are dropped."
            self.drawn = self.height.min(self.drawn + 1 + repeat);
        }
        Ok(at)
    }
}

/// Draws one row, below the height, of a kept character into `out`, which is
/// one row long.
pub fn draw_row(shape: Shape, data: &[u8], row: usize, out: &mut [u8]) {
    if shape.compressed {
        draw_row_of_runs(shape, data, row, out);
    } else {
        // "Class 1: rows from the top, highest bit leftmost; missing bytes are
        // white; bits beyond the width are drawn 0."
        let bytes = shape.row_bytes();
        let rest = data.get(row * bytes..).unwrap_or(&[]);
        draw_plain(shape, &rest[..rest.len().min(bytes)], out);
    }
}

/// Draws the whole picture of a kept character into `out`, which is as long as
/// the picture.
pub fn draw_picture(shape: Shape, data: &[u8], out: &mut [u8]) {
    if shape.compressed {
        draw_picture_of_runs(shape, data, out);
    } else {
        draw_plain(shape, data, out);
    }
}

/// Class 1 rows: `data` is at most as long as `out`, `out` whole rows.
fn draw_plain(shape: Shape, data: &[u8], out: &mut [u8]) {
    let (present, missing) = out.split_at_mut(data.len());
    present.copy_from_slice(data);
    missing.fill(0);
    let mask = shape.last_byte_mask();
    if mask != 0xFF {
        let bytes = shape.row_bytes();
        for row in out.chunks_exact_mut(bytes) {
            row[bytes - 1] &= mask;
        }
    }
}

fn draw_row_of_runs(shape: Shape, data: &[u8], row: usize, out: &mut [u8]) {
    // "Rows not drawn are white."
    out.fill(0);
    let mut rest = data;
    // The number of the row that `rest` begins with.
    let mut first = 0;
    while let Some((&repeat, runs)) = rest.split_first() {
        let next = first + 1 + usize::from(repeat);
        if row < next {
            // "A row unfinished at the end of data isn't drawn."
            if paint_row(shape.width, runs, out).is_none() {
                out.fill(0);
            }
            return;
        }
        let Some(length) = row_length(shape.width, runs) else {
            return;
        };
        first = next;
        rest = &runs[length..];
    }
}

fn draw_picture_of_runs(shape: Shape, data: &[u8], out: &mut [u8]) {
    // "Rows not drawn are white."
    out.fill(0);
    let bytes = shape.row_bytes();
    let mut rest = data;
    let mut below = out;
    while !below.is_empty() {
        let Some((&repeat, runs)) = rest.split_first() else {
            return;
        };
        let Some(length) = paint_row(shape.width, runs, &mut below[..bytes]) else {
            // "A row unfinished at the end of data isn't drawn."
            below[..bytes].fill(0);
            return;
        };
        rest = &runs[length..];
        // "the row is drawn once and then as often again as the count says";
        // "Repeats below the last row are dropped."
        let drawn = (bytes * (1 + usize::from(repeat))).min(below.len());
        let mut filled = bytes;
        while filled < drawn {
            let more = filled.min(drawn - filled);
            below.copy_within(..more, filled);
            filled += more;
        }
        below = &mut below[drawn..];
    }
}

/// How many run bytes the row takes whose repeat count stands just before
/// `runs`, or nothing if the data ends in it.
fn row_length(width: usize, runs: &[u8]) -> Option<usize> {
    let mut unfilled = width;
    for (index, &run) in runs.iter().enumerate() {
        let run = usize::from(run);
        if run >= unfilled {
            return (run == unfilled).then_some(index + 1);
        }
        unfilled -= run;
    }
    None
}

/// Draws that row's black runs into the white `row`; answers as `row_length`.
fn paint_row(width: usize, runs: &[u8], row: &mut [u8]) -> Option<usize> {
    let mut filled = 0;
    let mut black = false;
    for (index, &run) in runs.iter().enumerate() {
        let end = filled + usize::from(run);
        if end > width {
            return None;
        }
        if black {
            blacken(row, filled, end);
        }
        if end == width {
            return Some(index + 1);
        }
        filled = end;
        black = !black;
    }
    None
}

/// Makes the dots from `start` up to, not including, `end` black, by whole
/// bytes within; "highest bit leftmost".
fn blacken(row: &mut [u8], start: usize, end: usize) {
    if start == end {
        return;
    }
    let (first, last) = (start / 8, (end - 1) / 8);
    let from_start = 0xFF_u8 >> (start % 8);
    let up_to_end = 0xFF_u8 << (7 - (end - 1) % 8);
    if first == last {
        row[first] |= from_start & up_to_end;
    } else {
        row[first] |= from_start;
        row[first + 1..last].fill(0xFF);
        row[last] |= up_to_end;
    }
}
