//! Strip plates: from a plate list to the shape with fewest bends.
//!
//! A safe wrapper round the ten functions of the verified library. A plate
//! list is bytes in fields: one-byte tag, two-byte length (high byte first),
//! content. [`write_shape`] writes the best shape of a plate list,
//! [`check_shape`] gives a verdict on a shape file, and [`write_listing`]
//! writes the best shape as text. [`write_text`] turns a shape file into its
//! text of faces, and [`read_text`] turns such a text back into a shape file.
//! [`order_fields`] puts the fields of an older file in tag order.
//! [`split_strip`], [`hang_strip`] and [`join_darts`] are the steps of the plate
//! editor: each writes the plate list after the step. [`current_revision`] finds
//! the current revision of a model in a book of entries.
//!
//! ```
//! // Two posts joined by two strips.
//! let list = [
//!     0x01, 0, 2, 0, 7, // revision 7
//!     0x02, 0, 1, 2, // two posts
//!     0x03, 0, 4, 0, 1, 0, 1, // two strips, both from post 0 to post 1
//!     0x04, 0, 4, 0, 2, 1, 3, // clockwise darts of post 0, then of post 1
//!     0x05, 0, 1, 1, // outer dart 1
//! ];
//! let mut out = [0; plates::LONGEST_SHAPE];
//! let shape = plates::write_shape(&list, &mut out)?;
//! assert_eq!(shape.bends, 2);
//! assert_eq!(
//!     out[..shape.length],
//!     [
//!         0x11, 0, 2, 0, 7, // revision 7
//!         0x12, 0, 2, 0, 2, // two bends
//!         0x13, 0, 4, 1, 3, 3, 1, // angles of darts 0 to 3
//!         0x14, 0, 4, 0, 0, 0, 2, // right bends of darts 0 to 3
//!     ]
//! );
//!
//! let verdict = plates::check_shape(&list, &out[..shape.length])?;
//! assert_eq!((verdict.total, verdict.fewest, verdict.ours), (2, 2, true));
//! # Ok::<(), plates::Refusal>(())
//! ```

#![warn(missing_docs)]

use std::error::Error;
use std::fmt;

/// Lent memory of this length is enough for the shape of every plate list:
/// 16 bytes, and 4 for each of 128 strips; for a list with prices 7 more.
pub const LONGEST_SHAPE: usize = 16 + 4 * 128 + 7;

/// Lent memory of this length is enough for the text of every shape file: the
/// digits of the numbers 0 to 255, and for each of these darts a word of 255
/// digits, an angle and three spaces, or two and a line feed.
pub const LONGEST_TEXT: usize = 10 + 2 * 90 + 3 * 156 + 256 * (255 + 4);

/// Lent memory of this length is enough for the plate list after every step:
/// 19 bytes, and 4 for each of 128 strips; with limits 3 more, and 1 for each
/// strip, and with prices as many again.
pub const LONGEST_STEPPED_LIST: usize = 19 + 4 * 128 + 2 * (3 + 128);

/// A shape that was written.
#[derive(Clone, Copy, Debug, PartialEq, Eq)]
pub struct Shape {
    /// Its length in bytes, from the front of the lent memory.
    pub length: usize,
    /// Its total bends.
    pub bends: u32,
}

/// The verdict on a shape that meets the conditions and keeps the limits.
#[derive(Clone, Copy, Debug, PartialEq, Eq)]
pub struct Verdict {
    /// The shape file's total bends.
    pub total: u32,
    /// The least total bends of all shapes of the plate that keep the limits;
    /// for a list with prices, their least sum of bends times price.
    pub fewest: u32,
    /// Whether angles and right bends are those that [`write_shape`] writes.
    pub ours: bool,
}

/// Writes the best shape of a plate list to the front of `out`.
///
/// The best shape has the fewest bends; among equal totals it has the fewest
/// posts with exactly two strip ends and no angle of 2, then the smaller right
/// bends of darts 0, 1, 2 and so on, then the smaller angles. Where the list
/// has field 07, with the most bends of each strip or 255 for no limit, it is
/// the best of the shapes within these limits. Where the list has field 08, with
/// a price of 1 to 100 for a bend of each strip, the least sum of bends times
/// price comes first, then the fewest such posts, then the fewest bends, then the
/// rest of this order; the shape has this sum in field 16 (hexadecimal), in four
/// bytes, high byte first. Its length is 16 + 4 · strips, and 7 more with prices.
/// The bytes of `out` behind the shape stay as they are. A remark in the list,
/// field 06, is passed over. No accepted list is longer than 876 bytes.
///
/// # Errors
/// Refusals 1 to 15, 23, 29 and 38 for the plate list, then
/// [`Refusal::NoShapeWithin`] where no shape keeps its limits, never for a list
/// without field 07, then [`Refusal::MemoryShort`] where `out` is shorter than
/// the shape. On a refusal `out` is unchanged.
///
/// ```
/// use plates::{write_shape, Refusal};
///
/// let list = [
///     0x01, 0, 2, 0, 7, 0x02, 0, 1, 2, 0x03, 0, 4, 0, 1, 0, 1, //
///     0x04, 0, 4, 0, 2, 1, 3, 0x05, 0, 1, 1,
/// ];
/// let mut out = [0xee; 31];
/// assert_eq!(write_shape(&list, &mut out[..23]), Err(Refusal::MemoryShort));
/// assert_eq!(out, [0xee; 31]);
/// assert_eq!(write_shape(&list, &mut out).unwrap().length, 24);
/// assert_eq!(out[24..], [0xee; 7]);
///
/// // Without limits both bends are on strip 1. With at most one on each strip,
/// // darts 0 and 3 have one; with none on strip 0 as well, there is no shape.
/// let within = |limits: [u8; 2]| [&list[..], &[0x07, 0, 2], &limits].concat();
/// assert_eq!(out[20..24], [0, 0, 0, 2]);
/// assert_eq!(write_shape(&within([1, 1]), &mut out).unwrap().bends, 2);
/// assert_eq!(out[20..24], [1, 0, 0, 1]);
/// let none = write_shape(&within([0, 1]), &mut out);
/// assert_eq!(none, Err(Refusal::NoShapeWithin));
///
/// // Where a bend on strip 1 costs 5 and one on strip 0 costs 3, both are on strip
/// // 0, and the shape has the sum 6.
/// let priced = [&list[..], &[0x08, 0, 2, 3, 5]].concat();
/// assert_eq!(write_shape(&priced, &mut out).unwrap().length, 31);
/// assert_eq!(out[20..], [2, 0, 0, 0, 0x16, 0, 4, 0, 0, 0, 6]);
/// ```
pub fn write_shape(list: &[u8], out: &mut [u8]) -> Result<Shape, Refusal> {
    shape_by(|length, bends| {
        // SAFETY: each pointer comes from a reference or a slice, with the slice's
        // own length, and `out` and the two numbers overlap nothing.
        unsafe {
            calls::plates_write_shape(
                list.as_ptr(),
                list.len(),
                out.as_mut_ptr(),
                out.len(),
                length,
                bends,
            )
        }
    })
}

/// Gives a verdict on a shape file against a plate list. A remark in the shape
/// file, field 15, is passed over. For a list with prices the shape file has the
/// sum of its own bends times price, field 16, and for other lists it has none.
///
/// # Errors
/// Refusals 1 to 15, 23, 29 and 38 for the plate list; then 1 to 6, 29, 17 to 22,
/// 25 and 39 for the shape file. Never 16 or 24.
///
/// ```
/// use plates::{check_shape, Refusal, Verdict};
///
/// let list = [
///     0x01, 0, 2, 0, 7, 0x02, 0, 1, 2, 0x03, 0, 4, 0, 1, 0, 1, //
///     0x04, 0, 4, 0, 2, 1, 3, 0x05, 0, 1, 1,
/// ];
/// let mut shape = [
///     0x11, 0, 2, 0, 7, 0x12, 0, 2, 0, 2, //
///     0x13, 0, 4, 1, 3, 3, 1, 0x14, 0, 4, 0, 0, 0, 2,
/// ];
/// let sound = Verdict { total: 2, fewest: 2, ours: true };
/// assert_eq!(check_shape(&list, &shape), Ok(sound));
/// let limited = [&list[..], &[0x07, 0, 2, 255, 1]].concat();
/// assert_eq!(check_shape(&limited, &shape), Err(Refusal::LimitPassed));
///
/// // With prices of 5 and 3 both bends on strip 1 cost 6, and both on strip 0
/// // would cost 10.
/// let priced = [&list[..], &[0x08, 0, 2, 5, 3]].concat();
/// assert_eq!(check_shape(&priced, &shape), Err(Refusal::SumWrong));
/// let costing = |sum| [&shape[..], &[0x16, 0, 4, 0, 0, 0, sum]].concat();
/// assert_eq!(check_shape(&priced, &costing(10)), Err(Refusal::SumWrong));
/// let sound = Verdict { total: 2, fewest: 6, ours: true };
/// assert_eq!(check_shape(&priced, &costing(6)), Ok(sound));
/// assert_eq!(check_shape(&list, &costing(6)), Err(Refusal::SumWrong));
///
/// shape[9] = 3;
/// assert_eq!(check_shape(&list, &shape), Err(Refusal::TotalDiffers));
/// ```
pub fn check_shape(list: &[u8], shape: &[u8]) -> Result<Verdict, Refusal> {
    let mut total = 0;
    let mut fewest = 0;
    let mut ours = false;
    // SAFETY: each pointer comes from a reference or a slice, with the slice's
    // own length, and the three results overlap nothing.
    let number = unsafe {
        calls::plates_check_shape(
            list.as_ptr(),
            list.len(),
            shape.as_ptr(),
            shape.len(),
            &mut total,
            &mut fewest,
            &mut ours,
        )
    };
    accepted(number).map(|()| Verdict {
        total,
        fewest,
        ours,
    })
}

/// Writes the listing of a plate list, as text, to the front of `out`, and
/// gives its length.
///
/// The text of an accepted list is its revision, the total bends and a line
/// for each dart; that of a list refused with N, or with 24 where no shape
/// keeps its limits, is "refused N". The bytes of `out` behind the text stay as
/// they are.
///
/// # Errors
/// Only [`Refusal::MemoryShort`], where `out` is shorter than the text; `out`
/// is then unchanged.
///
/// ```
/// let list = [
///     0x01, 0, 2, 0, 7, 0x02, 0, 1, 2, 0x03, 0, 4, 0, 1, 0, 1, //
///     0x04, 0, 4, 0, 2, 1, 3, 0x05, 0, 1, 1,
/// ];
/// let mut out = [0; 200];
/// let length = plates::write_listing(&list, &mut out)?;
/// assert_eq!(
///     std::str::from_utf8(&out[..length]).unwrap(),
///     "revision 7\n\
///      bends 2\n\
///      dart 0 right 0 angle 1\n\
///      dart 1 right 0 angle 3\n\
///      dart 2 right 0 angle 3\n\
///      dart 3 right 2 angle 1\n"
/// );
/// let length = plates::write_listing(&[], &mut out)?;
/// assert_eq!(out[..length], *b"refused 6\n");
/// # Ok::<(), plates::Refusal>(())
/// ```
pub fn write_listing(list: &[u8], out: &mut [u8]) -> Result<usize, Refusal> {
    written_by(calls::plates_write_listing, list, out)
}

/// Writes the text of faces of a sound shape file to the front of `out`, and
/// gives its length, at most [`LONGEST_TEXT`].
///
/// The text has a line for each face, the outer one first and the others by
/// their smallest dart. A line starts at the smallest dart of its face and goes
/// round the face, with a triple for each dart: the dart's number, its bend
/// word and its angle. A bend word has a digit for each bend along the dart, 0
/// for right and 1 for left, and is - where there is none. One space stands
/// between two items, and each line ends with a line feed. The bytes of `out`
/// behind the text stay as they are.
///
/// [`read_text`] makes of the text the shape file that it came from, byte for
/// byte but for a remark, field 15.
///
/// # Errors
/// The refusals of [`check_shape`], then [`Refusal::MixedWord`] where some
/// strip bends both ways, never in a file of [`write_shape`], then
/// [`Refusal::MemoryShort`] where `out` is shorter than the text. On a refusal
/// `out` is unchanged.
///
/// ```
/// use plates::{write_text, Refusal};
///
/// let list = [
///     0x01, 0, 2, 0, 7, 0x02, 0, 1, 2, 0x03, 0, 4, 0, 1, 0, 1, //
///     0x04, 0, 4, 0, 2, 1, 3, 0x05, 0, 1, 1,
/// ];
/// let mut shape = [
///     0x11, 0, 2, 0, 7, 0x12, 0, 2, 0, 2, //
///     0x13, 0, 4, 1, 3, 3, 1, 0x14, 0, 4, 0, 0, 0, 2,
/// ];
/// let mut out = [b'.'; 28];
/// assert_eq!(write_text(&list, &shape, &mut out[..25]), Err(Refusal::MemoryShort));
/// assert_eq!(out, [b'.'; 28]);
/// assert_eq!(write_text(&list, &shape, &mut out), Ok(26));
/// assert_eq!(out, *b"1 - 3 2 11 3\n0 - 1 3 00 1\n..");
///
/// // A right and a left bend on strip 0 as well.
/// (shape[9], shape[20], shape[21]) = (4, 1, 1);
/// assert_eq!(write_text(&list, &shape, &mut out), Err(Refusal::MixedWord));
/// ```
pub fn write_text(list: &[u8], shape: &[u8], out: &mut [u8]) -> Result<usize, Refusal> {
    length_by(|length| {
        // SAFETY: each pointer comes from a reference or a slice, with the slice's
        // own length, and `out` and the length overlap nothing.
        unsafe {
            calls::plates_write_text(
                list.as_ptr(),
                list.len(),
                shape.as_ptr(),
                shape.len(),
                out.as_mut_ptr(),
                out.len(),
                length,
            )
        }
    })
}

/// Writes the shape file that a text of faces gives to the front of `out`, with
/// the revision of the plate list and no remark.
///
/// The shape file is sound and bends no strip both ways, and [`write_text`]
/// makes the same text of it. For a list with prices it has the sum of its bends
/// times price. Its length is 16 + 4 · strips, and 7 more with prices. The bytes
/// of `out` behind it stay as they are.
///
/// # Errors
/// Refusals 1 to 15, 23, 29 and 38 for the plate list; then, each over the whole
/// text, [`Refusal::TextForm`], [`Refusal::MixedWord`] and
/// [`Refusal::TextFaces`], the last one also for a text of no bytes; then
/// [`Refusal::AnglesAtPost`], [`Refusal::TurnsOfFace`] and
/// [`Refusal::LimitPassed`] as in [`check_shape`]; then
/// [`Refusal::MemoryShort`] where `out` is shorter than the shape file. On a
/// refusal `out` is unchanged.
///
/// ```
/// use plates::{read_text, Refusal, Shape};
///
/// let list = [
///     0x01, 0, 2, 0, 7, 0x02, 0, 1, 2, 0x03, 0, 4, 0, 1, 0, 1, //
///     0x04, 0, 4, 0, 2, 1, 3, 0x05, 0, 1, 1,
/// ];
/// let mut out = [0xee; plates::LONGEST_SHAPE];
/// for (text, refusal) in [
///     (&b"1 - 3 2 11 3\n0 - 1 3 00 1"[..], Refusal::TextForm), // no line feed
///     (b"1 - 3 2 11 3\n0 - 1 3 01 1\n", Refusal::MixedWord),
///     (b"0 - 1 3 00 1\n1 - 3 2 11 3\n", Refusal::TextFaces), // the outer face last
///     (b"1 - 3 2 11 3\n0 - 1 3 11 1\n", Refusal::TextFaces), // left from both sides
///     (b"1 - 3 2 11 3\n0 - 2 3 00 1\n", Refusal::AnglesAtPost),
///     (b"1 - 3 2 00 3\n0 - 1 3 11 1\n", Refusal::TurnsOfFace),
/// ] {
///     assert_eq!(read_text(&list, text, &mut out), Err(refusal));
///     assert_eq!(out, [0xee; plates::LONGEST_SHAPE]);
/// }
///
/// let text = b"1 - 3 2 11 3\n0 - 1 3 00 1\n";
/// let shape = Shape { length: 24, bends: 2 };
/// assert_eq!(read_text(&list, text, &mut out), Ok(shape));
/// assert_eq!(
///     out[..24],
///     [
///         0x11, 0, 2, 0, 7, 0x12, 0, 2, 0, 2, //
///         0x13, 0, 4, 1, 3, 3, 1, 0x14, 0, 4, 0, 0, 0, 2,
///     ]
/// );
/// ```
pub fn read_text(list: &[u8], text: &[u8], out: &mut [u8]) -> Result<Shape, Refusal> {
    shape_by(|length, bends| {
        // SAFETY: each pointer comes from a reference or a slice, with the slice's
        // own length, and `out` and the two numbers overlap nothing.
        unsafe {
            calls::plates_read_text(
                list.as_ptr(),
                list.len(),
                text.as_ptr(),
                text.len(),
                out.as_mut_ptr(),
                out.len(),
                length,
                bends,
            )
        }
    })
}

/// Writes an older plate list or shape file, whose fields may stand in any
/// order, to the front of `out` with its fields in tag order, and gives its
/// length, which is that of `file`.
///
/// A first byte of 0x10 or above means a shape file, any other, and none, a
/// plate list. The bytes of `out` behind the file stay as they are. A file
/// that is in order comes back unchanged. No older file has prices or their sum.
///
/// # Errors
/// Refusals 1 to 6, [`Refusal::UnknownTag`] for fields 08 and 16 too, and
/// [`Refusal::MemoryShort`] where `out` is shorter than `file`. On a refusal
/// `out` is unchanged.
///
/// ```
/// use plates::{order_fields, Refusal};
///
/// let older = [
///     0x12, 0, 2, 0, 0, 0x11, 0, 2, 0, 7, //
///     0x14, 0, 2, 0, 0, 0x13, 0, 2, 4, 4,
/// ];
/// let mut out = [0xee; 21];
/// assert_eq!(order_fields(&older, &mut out[..19]), Err(Refusal::MemoryShort));
/// assert_eq!(out, [0xee; 21]);
/// assert_eq!(order_fields(&older, &mut out), Ok(20));
/// assert_eq!(
///     out,
///     [
///         0x11, 0, 2, 0, 7, 0x12, 0, 2, 0, 0, //
///         0x13, 0, 2, 4, 4, 0x14, 0, 2, 0, 0, 0xee,
///     ]
/// );
/// ```
pub fn order_fields(file: &[u8], out: &mut [u8]) -> Result<usize, Refusal> {
    written_by(calls::plates_order_fields, file, out)
}

/// Splits a strip: writes the plate list after this step of the editor to the
/// front of `out`, and gives its length, at most [`LONGEST_STEPPED_LIST`].
///
/// Of a list with n posts and m strips, `strip` ends at the new post n, and the
/// new strip m runs from there to its old end. Dart 2m + 1 takes the place of
/// 2 · `strip` + 1 at the old end, and the new post has 2 · `strip` + 1 and 2m.
/// There are as many faces as before, and the face of the outer dart stays outer.
///
/// The list written is accepted. It has the revision and the outer dart of `list`,
/// its fields in tag order and no remark. Where `list` has limits, field 07, or
/// prices, field 08, the new strip has those of `strip`. Its length is 19 + 4 ·
/// strips, and 3 + strips more with limits, and as much with prices. The bytes of
/// `out` behind it stay as they are.
///
/// # Errors
/// Refusals 1 to 15, 23, 29 and 38 for the plate list; then [`Refusal::NoSuchStep`]
/// where `strip` is not below m; then [`Refusal::PlateFull`] where there are 64
/// posts; then [`Refusal::MemoryShort`] where `out` is shorter than the list. On
/// a refusal `out` is unchanged.
///
/// ```
/// use plates::{split_strip, Refusal};
///
/// let list = [
///     0x01, 0, 2, 0, 7, 0x02, 0, 1, 2, 0x03, 0, 4, 0, 1, 0, 1, //
///     0x04, 0, 4, 0, 2, 1, 3, 0x05, 0, 1, 1, 0x07, 0, 2, 8, 9,
/// ];
/// let mut out = [0xee; 40];
/// assert_eq!(split_strip(&list, 2, &mut out), Err(Refusal::NoSuchStep));
/// assert_eq!(split_strip(&list, 0, &mut out[..36]), Err(Refusal::MemoryShort));
/// assert_eq!(out, [0xee; 40]);
/// assert_eq!(split_strip(&list, 0, &mut out), Ok(37));
/// assert_eq!(
///     out,
///     [
///         0x01, 0, 2, 0, 7, 0x02, 0, 1, 3, // revision 7, three posts
///         0x03, 0, 6, 0, 2, 0, 1, 2, 1, // strip 0 to post 2, strip 2 from there to post 1
///         0x04, 0, 6, 0, 2, 5, 3, 1, 4, // darts 0 and 2, 5 and 3, 1 and 4
///         0x05, 0, 1, 1, 0x07, 0, 3, 8, 9, 8, // outer dart 1, limits
///         0xee, 0xee, 0xee,
///     ]
/// );
/// ```
pub fn split_strip(list: &[u8], strip: usize, out: &mut [u8]) -> Result<usize, Refusal> {
    stepped_by(calls::plates_split_strip, list, strip, out)
}

/// Hangs a strip: writes the plate list after this step of the editor to the
/// front of `out`, and gives its length, at most [`LONGEST_STEPPED_LIST`].
///
/// Of a list with n posts and m strips, the new strip m runs to the new post n,
/// from the corner where `dart` ends: dart 2m stands just before the twin of
/// `dart` in the clockwise order of the post where `dart` ends, so that it comes
/// after `dart` on the face. There are as many faces as before, and the face of
/// the outer dart stays outer.
///
/// The list written is as that of [`split_strip`], but the new strip has limit
/// 255, which is none, and price 1.
///
/// # Errors
/// Refusals 1 to 15, 23, 29 and 38 for the plate list; then [`Refusal::NoSuchStep`]
/// where `dart` is not below 2m; then [`Refusal::PlateFull`] where there are 64
/// posts; then [`Refusal::PostFull`] where four places are taken at the post where
/// `dart` ends; then [`Refusal::MemoryShort`] where `out` is shorter than the
/// list. On a refusal `out` is unchanged.
///
/// ```
/// use plates::{hang_strip, Refusal};
///
/// let list = [
///     0x01, 0, 2, 0, 7, 0x02, 0, 1, 2, 0x03, 0, 4, 0, 1, 0, 1, //
///     0x04, 0, 4, 0, 2, 1, 3, 0x05, 0, 1, 1,
/// ];
/// let mut out = [0; plates::LONGEST_STEPPED_LIST];
/// assert_eq!(hang_strip(&list, 4, &mut out), Err(Refusal::NoSuchStep));
/// let length = hang_strip(&list, 0, &mut out)?;
/// assert_eq!(
///     out[..length],
///     [
///         0x01, 0, 2, 0, 7, 0x02, 0, 1, 3, // revision 7, three posts
///         0x03, 0, 6, 0, 1, 0, 1, 1, 2, // strip 2 from post 1 to post 2
///         0x04, 0, 6, 0, 2, 4, 1, 3, 5, // darts 0 and 2, 4, 1 and 3, 5
///         0x05, 0, 1, 1, // outer dart 1
///     ]
/// );
///
/// // Post 1 has a fourth strip after the next step, and no place for a fifth.
/// let list = out[..length].to_vec();
/// let length = hang_strip(&list, 0, &mut out)?;
/// let list = out[..length].to_vec();
/// assert_eq!(hang_strip(&list, 0, &mut out), Err(Refusal::PostFull));
/// # Ok::<(), plates::Refusal>(())
/// ```
pub fn hang_strip(list: &[u8], dart: usize, out: &mut [u8]) -> Result<usize, Refusal> {
    stepped_by(calls::plates_hang_strip, list, dart, out)
}

/// Joins two corners of a face: writes the plate list after this step of the
/// editor to the front of `out`, and gives its length, at most
/// [`LONGEST_STEPPED_LIST`].
///
/// Of a list with m strips, the new strip m runs from the corner where `dart` ends
/// to the corner where `other` ends: dart 2m stands just before the twin of
/// `dart` in its clockwise order, and dart 2m + 1 just before the twin of `other`.
/// There is one face more, and the one with the outer dart is outer.
///
/// The list written is as that of [`split_strip`], but the new strip has limit
/// 255, which is none, and price 1.
///
/// # Errors
/// Refusals 1 to 15, 23, 29 and 38 for the plate list; then [`Refusal::NoSuchStep`]
/// where `dart` or `other` is not below 2m, or they are equal or of two faces;
/// then [`Refusal::PlateFull`] where there are 128 strips; then
/// [`Refusal::PostFull`] where four places are taken at a post where one of them
/// ends, or three where both end at one post; then [`Refusal::MemoryShort`] where
/// `out` is shorter than the list. On a refusal `out` is unchanged.
///
/// ```
/// use plates::{join_darts, Refusal};
///
/// let list = [
///     0x01, 0, 2, 0, 7, 0x02, 0, 1, 2, 0x03, 0, 4, 0, 1, 0, 1, //
///     0x04, 0, 4, 0, 2, 1, 3, 0x05, 0, 1, 1,
/// ];
/// let mut out = [0; plates::LONGEST_STEPPED_LIST];
/// // Darts 0 and 3 go round the inner face, 1 and 2 round the outer one.
/// for (dart, other) in [(0, 0), (0, 1), (0, 4)] {
///     assert_eq!(join_darts(&list, dart, other, &mut out), Err(Refusal::NoSuchStep));
/// }
/// let length = join_darts(&list, 0, 3, &mut out)?;
/// assert_eq!(
///     out[..length],
///     [
///         0x01, 0, 2, 0, 7, 0x02, 0, 1, 2, // revision 7, two posts
///         0x03, 0, 6, 0, 1, 0, 1, 1, 0, // strip 2 from post 1 to post 0
///         0x04, 0, 6, 0, 5, 2, 4, 1, 3, // darts 0, 5 and 2, 4, 1 and 3
///         0x05, 0, 1, 1, // outer dart 1
///     ]
/// );
/// # Ok::<(), plates::Refusal>(())
/// ```
pub fn join_darts(
    list: &[u8],
    dart: usize,
    other: usize,
    out: &mut [u8],
) -> Result<usize, Refusal> {
    length_by(|length| {
        // SAFETY: each pointer comes from a reference or a slice, with the slice's
        // own length, and `out` and the length overlap nothing.
        unsafe {
            calls::plates_join_darts(
                list.as_ptr(),
                list.len(),
                dart,
                other,
                out.as_mut_ptr(),
                out.len(),
                length,
            )
        }
    })
}

/// Gives the current revision of a model from a book of entries, or none where
/// the model is not in the book.
///
/// An entry is a model, a revision and the revision replaced, two bytes each,
/// high byte first; the revision replaced is 0 for a model's first entry. The
/// current revision is the one that no entry of the model replaces.
///
/// # Errors
/// [`Refusal::EntryCut`], [`Refusal::RevisionListed`] and
/// [`Refusal::NotCurrent`], at the first bad entry from the front, whichever
/// model that is of.
///
/// ```
/// use plates::{current_revision, Refusal};
///
/// let book = [
///     0, 7, 0, 1, 0, 0, // model 7, revision 1, its first
///     0, 9, 1, 0, 0, 0, // model 9, revision 256, its first
///     0, 7, 0, 5, 0, 1, // model 7, revision 5 in place of 1
/// ];
/// assert_eq!(current_revision(&book, 7), Ok(Some(5)));
/// assert_eq!(current_revision(&book, 9), Ok(Some(256)));
/// assert_eq!(current_revision(&book, 8), Ok(None));
/// assert_eq!(current_revision(&book[..17], 9), Err(Refusal::EntryCut));
/// ```
pub fn current_revision(book: &[u8], model: u16) -> Result<Option<u16>, Refusal> {
    let mut revision = 0;
    // SAFETY: the pointer comes from a slice, with the slice's own length, and
    // the revision overlaps nothing.
    let number =
        unsafe { calls::plates_current_revision(book.as_ptr(), book.len(), model, &mut revision) };
    accepted(number).map(|()| (revision != 0).then_some(revision))
}

/// The shape written by a call that gives its length and its bends.
fn shape_by(call: impl FnOnce(&mut u32, &mut u32) -> u8) -> Result<Shape, Refusal> {
    let mut length = 0;
    let mut bends = 0;
    accepted(call(&mut length, &mut bends))?;
    let length = length as usize;
    Ok(Shape { length, bends })
}

/// A call that reads bytes, writes to lent memory and gives the length of what
/// it wrote.
type Write = unsafe extern "C" fn(*const u8, usize, *mut u8, usize, &mut usize) -> u8;

fn written_by(call: Write, from: &[u8], out: &mut [u8]) -> Result<usize, Refusal> {
    length_by(|length| {
        // SAFETY: each pointer comes from a reference or a slice, with the slice's
        // own length, and `out` and the length overlap nothing.
        unsafe {
            call(
                from.as_ptr(),
                from.len(),
                out.as_mut_ptr(),
                out.len(),
                length,
            )
        }
    })
}

/// A call that reads a plate list and a number, and writes the same way.
type Step = unsafe extern "C" fn(*const u8, usize, usize, *mut u8, usize, &mut usize) -> u8;

fn stepped_by(call: Step, list: &[u8], at: usize, out: &mut [u8]) -> Result<usize, Refusal> {
    length_by(|length| {
        // SAFETY: each pointer comes from a reference or a slice, with the slice's
        // own length, and `out` and the length overlap nothing.
        unsafe {
            call(
                list.as_ptr(),
                list.len(),
                at,
                out.as_mut_ptr(),
                out.len(),
                length,
            )
        }
    })
}

/// The length of what a call wrote.
fn length_by(call: impl FnOnce(&mut usize) -> u8) -> Result<usize, Refusal> {
    let mut length = 0;
    accepted(call(&mut length)).map(|()| length)
}

/// The library returns 0 or a refusal's number, and no other.
fn accepted(number: u8) -> Result<(), Refusal> {
    match number {
        0 => Ok(()),
        _ => Err(Refusal::from_number(number).expect("the library returns a refusal's number")),
    }
}

/// The functions of the archive, as in `include/plates.h`.
mod calls {
    extern "C" {
        pub fn plates_write_shape(
            list: *const u8,
            list_len: usize,
            out: *mut u8,
            out_len: usize,
            long: &mut u32,
            bends: &mut u32,
        ) -> u8;
        pub fn plates_check_shape(
            list: *const u8,
            list_len: usize,
            shape: *const u8,
            shape_len: usize,
            total: &mut u32,
            fewest: &mut u32,
            ours: &mut bool,
        ) -> u8;
        pub fn plates_write_listing(
            list: *const u8,
            list_len: usize,
            out: *mut u8,
            out_len: usize,
            long: &mut usize,
        ) -> u8;
        pub fn plates_write_text(
            list: *const u8,
            list_len: usize,
            shape: *const u8,
            shape_len: usize,
            out: *mut u8,
            out_len: usize,
            long: &mut usize,
        ) -> u8;
        pub fn plates_read_text(
            list: *const u8,
            list_len: usize,
            text: *const u8,
            text_len: usize,
            out: *mut u8,
            out_len: usize,
            long: &mut u32,
            bends: &mut u32,
        ) -> u8;
        pub fn plates_order_fields(
            file: *const u8,
            file_len: usize,
            out: *mut u8,
            out_len: usize,
            long: &mut usize,
        ) -> u8;
        pub fn plates_split_strip(
            list: *const u8,
            list_len: usize,
            strip: usize,
            out: *mut u8,
            out_len: usize,
            long: &mut usize,
        ) -> u8;
        pub fn plates_hang_strip(
            list: *const u8,
            list_len: usize,
            dart: usize,
            out: *mut u8,
            out_len: usize,
            long: &mut usize,
        ) -> u8;
        pub fn plates_join_darts(
            list: *const u8,
            list_len: usize,
            dart: usize,
            other: usize,
            out: *mut u8,
            out_len: usize,
            long: &mut usize,
        ) -> u8;
        pub fn plates_current_revision(
            book: *const u8,
            book_len: usize,
            model: u16,
            revision: &mut u16,
        ) -> u8;
    }
}

/// Why a plate list, a shape file, a text, a step, lent memory or a book was
/// refused.
#[derive(Clone, Copy, Debug, PartialEq, Eq, Hash)]
#[repr(u8)]
pub enum Refusal {
    /// One or two bytes remain where a field should begin.
    FieldCut = 1,
    /// A tag that is not of this file.
    UnknownTag = 2,
    /// A tag met before.
    RepeatedTag = 3,
    /// A field's length is not as laid out.
    FieldLength = 4,
    /// A field's content passes the end.
    ContentCut = 5,
    /// A field other than the remark, the limits, the prices and their sum is
    /// absent.
    FieldAbsent = 6,
    /// No post, or over 64.
    PostCount = 7,
    /// No strip.
    NoStrips = 8,
    /// Some strip's end is not a post.
    EndNotAPost = 9,
    /// Some post has over four places taken; a strip from the post to itself
    /// takes two. 10 is not given and stands for nothing.
    OverFourPlaces = 11,
    /// The clockwise order is not each post's leaving darts, each once.
    ClockwiseOrder = 12,
    /// The outer dart is not a dart of the plate.
    OuterDart = 13,
    /// The plate is not connected.
    NotConnected = 14,
    /// The plate is connected, but not plane.
    NotPlane = 15,
    /// The lent memory is shorter than what is to be written.
    MemoryShort = 16,
    /// Angles or right bends are not one for each dart.
    ShapeLength = 17,
    /// The shape's revision differs from the plate list's.
    RevisionDiffers = 18,
    /// An angle is outside 1 to 4.
    AngleRange = 19,
    /// The angles at some post do not add to 4.
    AnglesAtPost = 20,
    /// The turns of some face do not add to +4, or −4 for the outer face.
    TurnsOfFace = 21,
    /// The total differs from the sum of the right bends.
    TotalDiffers = 22,
    /// The limits are not one for each strip.
    LimitsLength = 23,
    /// No shape of the plate keeps the limits.
    NoShapeWithin = 24,
    /// A strip has more bends than its limit.
    LimitPassed = 25,
    /// A tag is below the previous one.
    TagOrder = 29,
    /// A line of a text is not of its form, or has a word of over 255 digits.
    TextForm = 30,
    /// A word of a text has both digits, or a strip of a shape that is to be
    /// written as text bends both ways.
    MixedWord = 31,
    /// The faces of a text, with their sequence and starts, are not the plate's,
    /// or its words do not agree across a strip.
    TextFaces = 32,
    /// A strip or dart of a step that is not there, or darts to be joined that
    /// are equal or of two faces.
    NoSuchStep = 35,
    /// A step to post 65 or strip 129.
    PlateFull = 36,
    /// A step to a fifth place at a post.
    PostFull = 37,
    /// The prices are not one for each strip, or one is outside 1 to 100.
    PricesWrong = 38,
    /// The sum of bends times price is absent though the list has prices, present
    /// though it has none, or not that of the shape's own bends.
    SumWrong = 39,
    /// The last entry of a book has under six bytes.
    EntryCut = 40,
    /// An entry's revision is 0, or already listed for its model.
    RevisionListed = 41,
    /// The revision that an entry replaces is not its model's current one or,
    /// for a new model, not 0.
    NotCurrent = 42,
}

impl Refusal {
    /// Every refusal, by rising number.
    pub const ALL: [Refusal; 36] = [
        Refusal::FieldCut,
        Refusal::UnknownTag,
        Refusal::RepeatedTag,
        Refusal::FieldLength,
        Refusal::ContentCut,
        Refusal::FieldAbsent,
        Refusal::PostCount,
        Refusal::NoStrips,
        Refusal::EndNotAPost,
        Refusal::OverFourPlaces,
        Refusal::ClockwiseOrder,
        Refusal::OuterDart,
        Refusal::NotConnected,
        Refusal::NotPlane,
        Refusal::MemoryShort,
        Refusal::ShapeLength,
        Refusal::RevisionDiffers,
        Refusal::AngleRange,
        Refusal::AnglesAtPost,
        Refusal::TurnsOfFace,
        Refusal::TotalDiffers,
        Refusal::LimitsLength,
        Refusal::NoShapeWithin,
        Refusal::LimitPassed,
        Refusal::TagOrder,
        Refusal::TextForm,
        Refusal::MixedWord,
        Refusal::TextFaces,
        Refusal::NoSuchStep,
        Refusal::PlateFull,
        Refusal::PostFull,
        Refusal::PricesWrong,
        Refusal::SumWrong,
        Refusal::EntryCut,
        Refusal::RevisionListed,
        Refusal::NotCurrent,
    ];

    /// Its number: 1 to 25, never 10, or 29 to 32, or 35 to 42.
    pub fn number(self) -> u8 {
        self as u8
    }

    /// The refusal with this number; none for 0, 10 and other numbers that
    /// stand for nothing.
    ///
    /// ```
    /// use plates::Refusal;
    ///
    /// assert_eq!(Refusal::from_number(15), Some(Refusal::NotPlane));
    /// assert_eq!(Refusal::from_number(0), None);
    /// assert_eq!(Refusal::NotPlane.to_string(), "refused 15: strips would cross in the given order round the posts");
    /// ```
    pub fn from_number(number: u8) -> Option<Refusal> {
        Refusal::ALL.into_iter().find(|r| r.number() == number)
    }

    /// What is wrong, in words.
    fn message(self) -> &'static str {
        match self {
            Refusal::FieldCut => "the file ends in the middle of a field's tag and length",
            Refusal::UnknownTag => "a field has a tag that does not belong in this file",
            Refusal::RepeatedTag => "a field stands in the file twice",
            Refusal::FieldLength => "a field has a length that its tag does not allow",
            Refusal::ContentCut => "the file ends in the middle of a field's content",
            Refusal::FieldAbsent => "a field that must be given is missing",
            Refusal::PostCount => "the plate must have 1 to 64 posts",
            Refusal::NoStrips => "the plate has no strips",
            Refusal::EndNotAPost => "a strip ends at a post that the plate does not have",
            Refusal::OverFourPlaces => "a post has more than four places taken; a strip from a post to itself takes two",
            Refusal::ClockwiseOrder => "the clockwise order must list, post after post, each dart that leaves the post once",
            Refusal::OuterDart => "the outer dart is not a dart of the plate",
            Refusal::NotConnected => "the plate is in separate pieces",
            Refusal::NotPlane => "strips would cross in the given order round the posts",
            Refusal::MemoryShort => "the memory lent is too short for the result",
            Refusal::ShapeLength => "the shape must give one angle and one bend count for each dart",
            Refusal::RevisionDiffers => "the shape was made for another revision of the plate list",
            Refusal::AngleRange => "an angle is not 1 to 4 quarter turns",
            Refusal::AnglesAtPost => "the angles round a post do not add to a full turn",
            Refusal::TurnsOfFace => "the boundary of a face does not close",
            Refusal::TotalDiffers => "the total given is not the number of bends in the shape",
            Refusal::LimitsLength => "the limits must give one number of bends for each strip",
            Refusal::NoShapeWithin => "the plate has no shape within the limits of its strips",
            Refusal::LimitPassed => "a strip has more bends than its limit",
            Refusal::TagOrder => "the fields are not in the order of their tags",
            Refusal::TextForm => "a line is not of the form, or a word has over 255 digits",
            Refusal::MixedWord => "a strip bends both ways",
            Refusal::TextFaces => "faces are not the plate's, or words do not agree across a strip",
            Refusal::NoSuchStep => "a strip or dart is not there, or darts are equal or of two faces",
            Refusal::PlateFull => "a step needs post 65 or strip 129",
            Refusal::PostFull => "a step needs a fifth place at a post",
            Refusal::PricesWrong => "the prices must give one price of 1 to 100 for each strip",
            Refusal::SumWrong => "the sum of bends times price is missing, not called for, or false",
            Refusal::EntryCut => "the book ends in the middle of an entry",
            Refusal::RevisionListed => "an entry's revision is 0 or already listed for its model",
            Refusal::NotCurrent => "an entry replaces a revision that is not its model's current one or, for a new model, not 0",
        }
    }
}

impl fmt::Display for Refusal {
    fn fmt(&self, f: &mut fmt::Formatter<'_>) -> fmt::Result {
        write!(f, "refused {}: {}", self.number(), self.message())
    }
}

impl Error for Refusal {}

#[cfg(test)]
mod tests {
    use super::*;

    #[test]
    fn numbers_and_refusals_agree() {
        for number in 0..=255 {
            let refusal = Refusal::from_number(number);
            let given = matches!(number, 0..=9 | 11..=25 | 29..=32 | 35..=42);
            assert_eq!(refusal.map_or(0, Refusal::number) == number, given);
        }
    }
}
