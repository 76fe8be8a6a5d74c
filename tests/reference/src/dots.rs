//! 02, W-210, "the total of black dots": those of the drawn picture, counted in the kept
//! data without drawing it.

use crate::block::DESCRIPTOR;
use crate::runs::Shape;

/// The black dots of the picture of a character with these kept bytes and data.
pub fn black_dots(shape: Shape, kept_and_data: &[u8]) -> u64 {
    let data = Data::of(kept_and_data);
    if shape.compressed {
        black_in_runs(shape, data)
    } else {
        u64::from(black_in_rows(shape, data))
    }
}

/// Kept data, and the eight bytes up to its end, kept bytes among them if it has fewer.
#[derive(Clone, Copy)]
struct Data<'a> {
    bytes: &'a [u8],
    end: u64,
}

impl Data<'_> {
    fn of(kept_and_data: &[u8]) -> Data<'_> {
        let end = *kept_and_data.last_chunk().expect("kept bytes at least");
        Data {
            bytes: &kept_and_data[DESCRIPTOR..],
            end: number(end),
        }
    }

    /// Eight bytes from here on, zeros for those that are missing.
    fn eight(self, at: usize) -> u64 {
        let rest = &self.bytes[at..];
        match rest.first_chunk() {
            Some(&eight) => number(eight),
            None => {
                let before = 8 * (8 - rest.len() as u32);
                self.end.checked_shr(before).unwrap_or(0)
            }
        }
    }

    /// As words of eight bytes, the last of them filled up with zeros.
    fn words(&self) -> (&[[u8; 8]], u64) {
        let (words, _) = self.bytes.as_chunks();
        (words, self.eight(8 * words.len()))
    }
}

fn number(word: [u8; 8]) -> u64 {
    u64::from_le_bytes(word)
}

/// Class 1: "missing bytes are white; bits beyond the width are drawn 0."
fn black_in_rows(shape: Shape, data: Data) -> u32 {
    let padding = !shape.last_byte_mask();
    if padding == 0 {
        return ones_in(data);
    }
    match shape.row_bytes() {
        1 => black_in_narrow_rows::<1>(padding, data),
        2 => black_in_narrow_rows::<2>(padding, data),
        3 => black_in_narrow_rows::<3>(padding, data),
        4 => black_in_narrow_rows::<4>(padding, data),
        5 => black_in_narrow_rows::<5>(padding, data),
        6 => black_in_narrow_rows::<6>(padding, data),
        7 => black_in_narrow_rows::<7>(padding, data),
        8 => black_in_narrow_rows::<8>(padding, data),
        bytes => {
            let last_bytes = data.bytes.iter().skip(bytes - 1).step_by(bytes);
            let beyond: u32 = last_bytes.map(|last| (last & padding).count_ones()).sum();
            ones_in(data) - beyond
        }
    }
}

fn ones_in(data: Data) -> u32 {
    let (words, last) = data.words();
    let (blocks, words) = words.as_chunks();
    let words = words.iter().map(|&word| number(word).count_ones());
    ones_in_blocks(blocks) + words.sum::<u32>() + last.count_ones()
}

/// Four words, for each of which the same is done.
type Four = [u64; 4];

fn ones(four: Four) -> u32 {
    four.iter().map(|word| word.count_ones()).sum()
}

/// Of three bits in each place, the low and the high bit of their sum.
fn added(a: Four, b: Four, c: Four) -> (Four, Four) {
    let low = std::array::from_fn(|at| a[at] ^ b[at] ^ c[at]);
    let high = std::array::from_fn(|at| a[at] & b[at] | (a[at] ^ b[at]) & c[at]);
    (low, high)
}

/// Eight times four words: the bits of each place are added, and counted only once they
/// make eights.
fn ones_in_blocks(blocks: &[[[u8; 8]; 32]]) -> u32 {
    let (mut ones_left, mut twos_left, mut fours_left) = ([0; 4], [0; 4], [0; 4]);
    let mut eights = 0;
    for block in blocks {
        let four = |which: usize| std::array::from_fn(|at| number(block[4 * which + at]));
        let (low, two) = added(ones_left, four(0), four(1));
        let (low, another) = added(low, four(2), four(3));
        let (twos, one_four) = added(twos_left, two, another);
        let (low, two) = added(low, four(4), four(5));
        let (low, another) = added(low, four(6), four(7));
        let (twos, another_four) = added(twos, two, another);
        let (fours, eight) = added(fours_left, one_four, another_four);
        (ones_left, twos_left, fours_left) = (low, twos, fours);
        eights += ones(eight);
    }
    8 * eights + 4 * ones(fours_left) + 2 * ones(twos_left) + ones(ones_left)
}

/// Rows of `N` bytes. Eight of them are `N` words of eight bytes, in which the rows' last
/// bytes have the same places each time.
fn black_in_narrow_rows<const N: usize>(padding: u8, data: Data) -> u32 {
    let within = const { last_bytes::<N>() }.map(|ones| !(ones * u64::from(padding)));
    let black = |words: &[[u8; 8]]| -> u32 {
        let words = words.iter().zip(within);
        words
            .map(|(&word, within)| (number(word) & within).count_ones())
            .sum()
    };
    let (words, last) = data.words();
    let (eight_rows, words) = words.as_chunks::<N>();
    let of_eights: u32 = eight_rows.iter().map(|words| black(words)).sum();
    of_eights + black(words) + (last & within[words.len()]).count_ones()
}

/// A 1 in each byte that is a row's last.
const fn last_bytes<const N: usize>() -> [u64; N] {
    let mut words = [0; N];
    let mut last = N - 1;
    while last < 8 * N {
        words[last / 8] |= 1 << (last % 8 * 8);
        last += N;
    }
    words
}

/// Class 2: "a repeat count, then white and black runs in turn, white first, each one
/// byte, until they sum to the width; the row is drawn once and then as often again as
/// the count says."
fn black_in_runs(shape: Shape, data: Data) -> u64 {
    let mut black = 0;
    let mut left = shape.height;
    let mut at = 0;
    while left > 0 && at < data.bytes.len() {
        // "Repeats below the last row are dropped."
        let times = left.min(1 + usize::from(data.bytes[at]));
        // "A row unfinished at the end of data isn't drawn."
        let Some((dots, end)) = black_in_row(shape.width, data, at + 1) else {
            break;
        };
        black += u64::from(dots) * times as u64;
        left -= times;
        at = end;
    }
    black
}

const EACH_BYTE: u64 = 0x0101_0101_0101_0101;
const HIGHEST_BITS: u64 = 0x8080_8080_8080_8080;
const EVEN_BYTES: u64 = 0x00FF_00FF_00FF_00FF;

/// Of eight runs of which the first is white, the black ones in lanes of 16 bits.
fn black_lanes(eight: u64) -> u64 {
    eight >> 8 & EVEN_BYTES
}

/// The sum of four lanes, where it has 16 bits itself.
fn sum_of(lanes: u64) -> u32 {
    (lanes.wrapping_mul(0x0001_0001_0001_0001) >> 48) as u32
}

/// The black dots of the row whose first run stands at `from`, and where its last run ends;
/// nothing if the data ends in it. Eight runs are read at a time. Those of a row never sum
/// to more than the width, at most 16,384, so that lanes of 16 bits hold them.
fn black_in_row(width: usize, data: Data, from: usize) -> Option<(u32, usize)> {
    let mut unfilled = width as u32;
    let mut black = 0;
    let mut at = from;
    while at < data.bytes.len() {
        let eight = data.eight(at);
        if unfilled <= 255 {
            let sums = eight.wrapping_mul(EACH_BYTE);
            if let Some((within, runs)) = row_end(sums, unfilled) {
                return Some((sum_of(black + black_lanes(eight & within)), at + runs));
            }
            unfilled -= (sums >> 56) as u32;
        } else {
            let sum = sum_of((eight & EVEN_BYTES) + black_lanes(eight));
            if sum >= unfilled {
                let (dots, runs) = black_one_by_one(unfilled, &data.bytes[at..])?;
                return Some((sum_of(black) + dots, at + runs));
            }
            unfilled -= sum;
        }
        black += black_lanes(eight);
        at += 8;
    }
    None
}

/// Of the sums of one to eight runs, a byte each, the first that fills the row, which lacks
/// 255 dots at most: a mask of the runs up to it, and how many they are. The sums up to
/// there have 8 bits; later ones may carry, but only into sums that are later still.
fn row_end(sums: u64, unfilled: u32) -> Option<(u64, usize)> {
    let other = sums ^ (EACH_BYTE * u64::from(unfilled));
    // The lowest of these bits is the first zero byte's.
    let equal = other.wrapping_sub(EACH_BYTE) & !other & HIGHEST_BITS;
    let within = equal ^ equal.wrapping_sub(1);
    (equal != 0).then_some((within, equal.trailing_zeros() as usize / 8 + 1))
}

/// A row ends the moment its runs sum to the width; 0 is a run like any other.
fn black_one_by_one(mut unfilled: u32, runs: &[u8]) -> Option<(u32, usize)> {
    let mut dots = 0;
    for (index, &run) in runs.iter().enumerate() {
        let run = u32::from(run);
        // White first, then in turn.
        dots += run * (index as u32 % 2);
        if run == unfilled {
            return Some((dots, index + 1));
        }
        unfilled -= run;
    }
    None
}
