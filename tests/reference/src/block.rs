//! The block readers: a font block, a character's first block, and its
//! continuation. They see blocks and kept bytes only, never the store.

use crate::runs::{Reading, Shape};
use crate::{Refusal, Refused};

/// A font's kept bytes: 01, The font block, "Kept: the first 64 bytes"; 02, W-206:
/// "The font record grows at its end by those four bytes for every font", the
/// resolutions.
pub const HEADER: usize = 68;
/// A character's kept bytes: 01, The character block, "Kept: the 16 bytes".
pub const DESCRIPTOR: usize = 16;
/// Format and continuation byte, before a continuation's data.
pub const CONTINUATION: usize = 2;
/// The longest block of either kind.
pub const BLOCK_MAX: usize = 32_767;
/// "9 if kept data would pass 32,768 bytes"; a picture's limit as well.
pub const DATA_MAX: usize = 32_768;

/// The formats that are taken, with their least length and descriptor size: 01's,
/// and 02, W-206: "format 20 headers: 68 bytes".
const FORMAT_0: u8 = 0;
const FORMAT_0_SIZE: usize = 64;
const FORMAT_20: u8 = 20;
const FORMAT_20_SIZE: usize = 68;
/// Dots to the inch.
const LOW: u16 = 300;
pub const HIGH: u16 = 600;
const FORMAT_CHARACTER: u8 = 4;
const DESCRIPTOR_SIZE: u8 = 14;
const PITCH_MAX: u16 = 16_800;
const HEIGHT_MAX: u16 = 10_922;
/// Where the extended bytes of pitch and height stand.
const PITCH_EXTENDED: usize = 40;
const HEIGHT_EXTENDED: usize = 41;

/// "PCL fields have the high byte first."
fn field<const N: usize>(bytes: &[u8; N], at: usize) -> u16 {
    u16::from_be_bytes([bytes[at], bytes[at + 1]])
}

fn signed_field<const N: usize>(bytes: &[u8; N], at: usize) -> i16 {
    i16::from_be_bytes([bytes[at], bytes[at + 1]])
}

/// The descriptor size that a font of this format is kept with, if it is taken.
fn size_of_format(format: u8) -> Option<usize> {
    match format {
        FORMAT_0 => Some(FORMAT_0_SIZE),
        FORMAT_20 => Some(FORMAT_20_SIZE),
        _ => None,
    }
}

/// A font's first 64 bytes and its resolutions, with the fields' names.
#[derive(Clone, Copy)]
pub struct Header<'a>(pub &'a [u8; HEADER]);

impl Header<'_> {
    fn descriptor_size(self) -> u16 {
        field(self.0, 0)
    }
    fn format(self) -> u8 {
        self.0[2]
    }
    pub fn font_type(self) -> u8 {
        self.0[3]
    }
    /// "style word (byte 4 high, byte 23 low)"
    pub fn style(self) -> u16 {
        u16::from_be_bytes([self.0[4], self.0[23]])
    }
    fn baseline(self) -> u16 {
        field(self.0, 6)
    }
    pub fn cell_width(self) -> u16 {
        field(self.0, 8)
    }
    pub fn cell_height(self) -> u16 {
        field(self.0, 10)
    }
    pub fn orientation(self) -> u8 {
        self.0[12]
    }
    pub fn spacing(self) -> u8 {
        self.0[13]
    }
    pub fn symbol_set(self) -> u16 {
        field(self.0, 14)
    }
    pub fn pitch(self) -> u16 {
        field(self.0, 16)
    }
    fn height(self) -> u16 {
        field(self.0, 18)
    }
    /// 02, W-202: "PCL gives it as 256ths of a quarter-dot. Pitch becomes 256 x
    /// field + byte 40, height 256 x field + byte 41." W-206: "A 600 dpi
    /// quarter-dot is half as wide, so pitch and height are compared in 2400ths of an
    /// inch: a 300 dpi number of W-202 counts twice, a 600 dpi one once".
    fn compared(self, field: u16, extended: usize) -> u32 {
        let times = if self.resolution() == HIGH { 1 } else { 2 };
        times * (256 * u32::from(field) + u32::from(self.0[extended]))
    }
    pub fn compared_pitch(self) -> u32 {
        self.compared(self.pitch(), PITCH_EXTENDED)
    }
    pub fn compared_height(self) -> u32 {
        self.compared(self.height(), HEIGHT_EXTENDED)
    }
    /// "stroke weight (24, signed)"
    pub fn weight(self) -> i8 {
        self.0[24] as i8
    }
    /// "The typeface is byte 26 high, 25 low."
    pub fn typeface(self) -> u16 {
        u16::from_be_bytes([self.0[26], self.0[25]])
    }
    /// 02, W-206: "X resolution at byte 64 and Y at 66. Take them where both are 300
    /// or both are 600." So this is both.
    pub fn resolution(self) -> u16 {
        field(self.0, 64)
    }
    fn resolutions_allowed(self) -> bool {
        let (x, y) = (self.resolution(), field(self.0, 66));
        x == y && (x == LOW || x == HIGH)
    }

    /// 02, W-206: "The write-out gives back the format received."
    pub fn written(&self) -> &[u8] {
        &self.0[..usize::from(self.descriptor_size())]
    }

    /// 01, The font block, the list "Then, else 5", in its order; 02, W-206: "5 for
    /// another resolution, last among the fields".
    fn fields_allowed(self) -> bool {
        self.font_type() <= 2
            && self.style() <= 1023
            && self.cell_width() >= 1
            && self.cell_height() >= 1
            && self.baseline() < self.cell_height()
            && self.orientation() <= 3 // 02, W-203
            && self.spacing() <= 1
            && self.symbol_set() <= 2047
            && (-7..=7).contains(&self.weight())
            && self.resolutions_allowed()
    }

    /// 01, The store: "every kept field is as the rules above leave it": an
    /// allowed header with what "Kept: ..." makes of it already made. An extended
    /// byte may be any: a field at its limit need not have been cut.
    /// 02, W-206: "a format 0 font gets 300 and 300. A format 20 font keeps format
    /// 20 and descriptor size 68."
    pub fn is_kept(self) -> bool {
        size_of_format(self.format()) == Some(usize::from(self.descriptor_size()))
            && (self.format() == FORMAT_20 || self.resolution() == LOW)
            && self.fields_allowed()
            && self.0[5] == 0
            && self.pitch() <= PITCH_MAX
            && self.height() <= HEIGHT_MAX
    }
}

/// 01, The font block: the header that is kept, or 3, 4, 5 in that order.
pub fn read_font(block: &[u8]) -> Result<[u8; HEADER], Refusal> {
    // "Length 64..32767, else 3."
    if !(FORMAT_0_SIZE..=BLOCK_MAX).contains(&block.len()) {
        return Err(Refusal::BlockLength);
    }
    // "Byte 2 (format) 0 [..], else 4." 02, W-206: "3 below 68 bytes [..] for format
    // 20 only".
    let Some(least) = size_of_format(block[2]) else {
        return Err(Refusal::NotTaken);
    };
    if block.len() < least {
        return Err(Refusal::BlockLength);
    }
    // "descriptor size 64 up to the block's length, else 4"; "4 for a descriptor size
    // below 68, for format 20 only".
    let size = usize::from(u16::from_be_bytes([block[0], block[1]]));
    if !(least..=block.len()).contains(&size) {
        return Err(Refusal::NotTaken);
    }
    // "a format 0 font gets 300 and 300", whatever stands behind its 64 bytes.
    let mut first = [0; HEADER];
    first[..least].copy_from_slice(&block[..least]);
    if least == FORMAT_0_SIZE {
        first[64..66].copy_from_slice(&LOW.to_be_bytes());
        first[66..68].copy_from_slice(&LOW.to_be_bytes());
    }
    let header = Header(&first);
    if !header.fields_allowed() {
        return Err(Refusal::FieldValue);
    }
    // "Kept: the first 64 bytes, with descriptor size 64, byte 5 zero, pitch
    // (16) above 16,800 made 16,800, height (18) above 10,922 made 10,922."
    // 02, W-202: "A field cut to its limit keeps its extended byte as zero."
    // W-206: "A format 20 font keeps format 20 and descriptor size 68."
    let mut kept = first;
    kept[0..2].copy_from_slice(&(least as u16).to_be_bytes());
    kept[5] = 0;
    if header.pitch() > PITCH_MAX {
        kept[16..18].copy_from_slice(&PITCH_MAX.to_be_bytes());
        kept[PITCH_EXTENDED] = 0;
    }
    if header.height() > HEIGHT_MAX {
        kept[18..20].copy_from_slice(&HEIGHT_MAX.to_be_bytes());
        kept[HEIGHT_EXTENDED] = 0;
    }
    Ok(kept)
}

/// A character's first 16 bytes, with the fields' names.
#[derive(Clone, Copy)]
pub struct Descriptor<'a>(pub &'a [u8; DESCRIPTOR]);

impl Descriptor<'_> {
    fn size(self) -> u8 {
        self.0[2]
    }
    fn class(self) -> u8 {
        self.0[3]
    }
    fn orientation(self) -> u8 {
        self.0[4]
    }
    pub fn left_offset(self) -> i16 {
        signed_field(self.0, 6)
    }
    fn top_offset(self) -> i16 {
        signed_field(self.0, 8)
    }
    pub fn width(self) -> u16 {
        field(self.0, 10)
    }
    pub fn height(self) -> u16 {
        field(self.0, 12)
    }
    pub fn delta_x(self) -> i16 {
        signed_field(self.0, 14)
    }

    /// "descriptor size (2) 14 and class (3) 1 or 2, else 4"
    fn is_taken(self) -> bool {
        self.size() == DESCRIPTOR_SIZE && (self.class() == 1 || self.class() == 2)
    }

    /// "Then, else 5: orientation (4) the font's; left (6) and top offset (8),
    /// signed, -16,384..16,384; width (10) and height (12) 1..16,384."
    fn fields_allowed(self, font_orientation: u8) -> bool {
        self.orientation() == font_orientation
            && (-16_384..=16_384).contains(&self.left_offset())
            && (-16_384..=16_384).contains(&self.top_offset())
            && (1..=16_384).contains(&self.width())
            && (1..=16_384).contains(&self.height())
    }

    pub fn shape(self) -> Shape {
        Shape {
            compressed: self.class() == 2,
            width: usize::from(self.width()),
            height: usize::from(self.height()),
        }
    }

    /// 01, The store: the 16 bytes of a character that "could have been
    /// accepted" in a font of this orientation, as acceptance leaves them:
    /// bytes 0 and 1 are a first block's, byte 5 is zero, delta X not negative.
    pub fn is_kept(self, font_orientation: u8) -> bool {
        self.0[0] == FORMAT_CHARACTER
            && self.0[1] == 0
            && self.is_taken()
            && self.fields_allowed(font_orientation)
            && self.shape().picture_bytes() <= DATA_MAX
            && self.0[5] == 0
            && self.delta_x() >= 0
    }
}

/// 01, The store, of a kept character's data: "every character could have been
/// accepted". Readings: class 1 at most its picture's bytes, class 2 with no
/// run past the width and nothing after completion, at most 32,768 bytes.
/// Answers how far the data brings the picture.
pub fn read_kept_data(shape: Shape, data: &[u8]) -> Option<Reading> {
    let mut reading = Reading::of(shape);
    let taken = reading.take(data).ok()?;
    (taken == data.len() && data.len() <= DATA_MAX).then_some(reading)
}

/// A first block as it is kept, and how far its data brings the picture.
pub struct FirstBlock<'a> {
    pub kept: [u8; DESCRIPTOR],
    pub data: &'a [u8],
    pub reading: Reading,
}

/// 01, The character block, of both kinds: "Length 2..32767, else 3".
pub fn character_block_length_allowed(block: &[u8]) -> bool {
    (CONTINUATION..=BLOCK_MAX).contains(&block.len())
}

/// "byte 0 is 4, else 4"
pub fn is_character_block(block: &[u8]) -> bool {
    block.first() == Some(&FORMAT_CHARACTER)
}

/// "Byte 1 zero, a first block"; "Byte 1 not zero, a continuation".
pub fn is_first_block(block: &[u8]) -> bool {
    block.get(1) == Some(&0)
}

/// 01, The character block, "a first block", after the checks of both kinds:
/// 3, 4, 5, 9 for the picture, then 8.
pub fn read_first(block: &[u8], font_orientation: u8) -> Result<FirstBlock<'_>, Refused> {
    // "length at least 16, else 3"
    let Some((first, data)) = block.split_first_chunk::<DESCRIPTOR>() else {
        return Err(Refusal::BlockLength.into());
    };
    let descriptor = Descriptor(first);
    if !descriptor.is_taken() {
        return Err(Refusal::NotTaken.into());
    }
    if !descriptor.fields_allowed(font_orientation) {
        return Err(Refusal::FieldValue.into());
    }
    // "A picture has height rows of width/8 rounded up bytes; above 32,768
    // bytes in all is 9."
    let shape = descriptor.shape();
    if shape.picture_bytes() > DATA_MAX {
        return Err(Refusal::TooLarge.into());
    }
    // "8 if class 2 data has a run past the width before all rows are drawn";
    // "Data beyond a complete picture is dropped." One block's data cannot
    // pass 32,768 bytes, so the second 9 is a continuation's alone.
    let mut reading = Reading::of(shape);
    let taken = reading.take(data)?;
    // "Kept: the 16 bytes, byte 5 zero, a negative delta X (14) made 0, then data."
    let delta_x = descriptor.delta_x().max(0);
    let mut kept = *first;
    kept[5] = 0;
    kept[14..16].copy_from_slice(&delta_x.to_be_bytes());
    Ok(FirstBlock {
        kept,
        data: &data[..taken],
        reading,
    })
}

/// 01, The character block, "a continuation", once it is known to be for the
/// open character: 8, then 9. `open` is how far the kept data, `kept_bytes`
/// long, brought the picture; "Its data joins what is kept." Answers the data
/// that joins and how far the picture then is.
pub fn read_continuation(
    block: &[u8],
    open: Reading,
    kept_bytes: usize,
) -> Result<(&[u8], Reading), Refused> {
    let data = block.get(CONTINUATION..).unwrap_or(&[]);
    let mut reading = open;
    let taken = reading.take(data)?;
    if kept_bytes + taken > DATA_MAX {
        return Err(Refusal::TooLarge.into());
    }
    Ok((&data[..taken], reading))
}
