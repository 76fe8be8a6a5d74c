//! W-203: a drawn picture turned clockwise. What stands in quotation marks are the
//! request's own words.

use crate::Refusal;

/// "a width or height not 1 to 16,384"
const SIDES: std::ops::RangeInclusive<u32> = 1..=16_384;

fn row_bytes(width: usize) -> usize {
    width.div_ceil(8)
}

/// Turns `picture`, `height` rows of `width` dots, by `turn` quarters into the first
/// bytes of `out`.
///
/// "Refusals: 2 for a turn not 1 to 3, a width or height not 1 to 16,384, or a picture
/// with too few bytes; then 12 for a short output."
pub(crate) fn turn_picture(
    picture: &[u8],
    out: &mut [u8],
    width: u32,
    height: u32,
    turn: u32,
) -> Result<(), Refusal> {
    if !(1..=3).contains(&turn) || !SIDES.contains(&width) || !SIDES.contains(&height) {
        return Err(Refusal::OutOfRange);
    }
    let (width, height) = (width as usize, height as usize);
    let picture = picture
        .get(..height * row_bytes(width))
        .ok_or(Refusal::OutOfRange)?;
    let size = match turn {
        2 => picture.len(),
        _ => width * row_bytes(height),
    };
    let out = out.get_mut(..size).ok_or(Refusal::OutputShort)?;
    match turn {
        1 => turn_quarter::<true>(picture, out, width, height),
        2 => turn_half(picture, out, width),
        _ => turn_quarter::<false>(picture, out, width, height),
    }
    Ok(())
}

/// "The half turn should use a written-out table of the 256 bytes mirrored"; this one is
/// computed, to be held against the written one.
static MIRRORED: [u8; 256] = {
    let mut table = [0; 256];
    let mut byte = 0;
    while byte < 256 {
        table[byte] = (byte as u8).reverse_bits();
        byte += 1;
    }
    table
};

/// The rows from the bottom, each mirrored and moved left by its padding.
fn turn_half(picture: &[u8], out: &mut [u8], width: usize) {
    let n = row_bytes(width);
    let padding = n * 8 - width;
    if padding == 0 {
        // The rows from the bottom, each from its end, are all the bytes from theirs.
        for (&byte, mirrored) in picture.iter().rev().zip(out) {
            *mirrored = MIRRORED[usize::from(byte)];
        }
        return;
    }
    for (from, to) in picture.chunks_exact(n).rev().zip(out.chunks_exact_mut(n)) {
        // Each byte with the one behind it in the mirrored row, white behind the last.
        let mut left = u32::from(MIRRORED[usize::from(from[n - 1])]);
        for at in 0..n - 1 {
            let right = u32::from(MIRRORED[usize::from(from[n - 2 - at])]);
            to[at] = ((left << 8 | right) >> (8 - padding)) as u8;
            left = right;
        }
        to[n - 1] = (left << padding) as u8;
    }
}

/// Makes the rows of a block of 8 x 8 dots, a byte each, its columns.
fn transposed(block: u64) -> u64 {
    let swap = |block: u64, mask: u64, by: u32| {
        let moved = (block ^ block >> by) & mask;
        block ^ moved ^ moved << by
    };
    let block = swap(block, 0x00AA_00AA_00AA_00AA, 7);
    let block = swap(block, 0x0000_CCCC_0000_CCCC, 14);
    swap(block, 0x0000_0000_F0F0_F0F0, 28)
}

/// Eight bytes of a column, or fewer at the picture's edge, as a block; for one quarter
/// from the last row to the first. What is missing is white.
fn gathered<const ONE: bool>(column: &[u8], n: usize, rows: usize) -> u64 {
    if rows == 8 {
        let c = &column[..=7 * n];
        let bytes = [0, n, 2 * n, 3 * n, 4 * n, 5 * n, 6 * n, 7 * n].map(|at| c[at]);
        return match ONE {
            true => u64::from_le_bytes(bytes),
            false => u64::from_be_bytes(bytes),
        };
    }
    let mut bytes = [0; 8];
    for (row, byte) in bytes.iter_mut().take(rows).enumerate() {
        let row = if ONE { rows - 1 - row } else { row };
        *byte = column[row * n];
    }
    u64::from_be_bytes(bytes)
}

/// By blocks of 8 x 8 dots. One quarter reads the rows from the bottom; three read the
/// columns from the right.
fn turn_quarter<const ONE: bool>(picture: &[u8], out: &mut [u8], width: usize, height: usize) {
    let n = row_bytes(width);
    let m = row_bytes(height);
    // The rows of the result that come of one column of bytes lie together.
    let mut rest = out;
    for column in 0..n {
        let dots = (width - column * 8).min(8);
        let strip;
        if ONE {
            (strip, rest) = rest.split_at_mut(dots * m);
        } else {
            let before = rest.len() - dots * m;
            (rest, strip) = rest.split_at_mut(before);
        }
        let block_at = |at: usize| {
            let rows = (height - at * 8).min(8);
            let first = if ONE { height - at * 8 - rows } else { at * 8 };
            transposed(gathered::<ONE>(&picture[first * n + column..], n, rows))
        };
        let mut rows = strip.chunks_exact_mut(m);
        if dots == 8 {
            let mut rows: [&mut [u8]; 8] = std::array::from_fn(|_| rows.next().expect("8 rows"));
            if !ONE {
                rows.reverse();
            }
            let [a, b, c, d, e, f, g, h] = rows.map(|row| &mut row[..m]);
            for at in 0..m {
                [a[at], b[at], c[at], d[at], e[at], f[at], g[at], h[at]] =
                    block_at(at).to_be_bytes();
            }
        } else {
            for at in 0..m {
                let turned = block_at(at).to_be_bytes();
                for dot in 0..dots {
                    let row = if ONE { dot } else { dots - 1 - dot };
                    strip[row * m + at] = turned[dot];
                }
            }
        }
    }
}
