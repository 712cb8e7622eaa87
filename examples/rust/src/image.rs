//! Images: heaps as bytes, as `docs/FORMATS.md` of the repository describes them.

use crate::raw::{self, Decoded};
use crate::{Fault, Figures, Settings};
use std::error::Error;
use std::fmt::{self, Display, Formatter};
use std::ptr::NonNull;

/// Looks whether these bytes are the text of a valid image.
///
/// # Errors
///
/// The first fault, 1 to 10 or 17; 11 if memory runs out.
pub fn check(bytes: &[u8]) -> Result<(), Fault> {
    // SAFETY: a slice isn't null, has as many bytes as it says, and nobody writes there meanwhile.
    let fault = unsafe { raw::pcompact_check(bytes.as_ptr(), bytes.len()) };
    fault.into_result()
}

/// Tells what a collection will do to the image with these bytes.
///
/// # Errors
///
/// The first fault, as [`check`] finds it.
pub fn summary_of_image(bytes: &[u8]) -> Result<Figures, Fault> {
    raw::answered(|answer| {
        // SAFETY: as in `check`; the answer is the callee's alone.
        unsafe { raw::pcompact_summary_of_image(bytes.as_ptr(), bytes.len(), answer) }
    })
}

/// Where an image is first another than it should be.
#[derive(Clone, Copy, Debug, PartialEq, Eq)]
pub enum Difference {
    /// Its sizes, settings or version.
    Shape,
    /// The word at this address.
    Word(u64),
    /// The live address at this index.
    Live(u64),
    /// The root at this index.
    Root(u64),
}

/// Which of two images can't be compared, and why.
#[derive(Clone, Copy, Debug, PartialEq, Eq)]
pub enum Uncompared {
    /// The one before the collection.
    Before(Fault),
    /// The one after it.
    After(Fault),
}

/// For example `before the collection: 5 truncated body`.
impl Display for Uncompared {
    fn fmt(&self, f: &mut Formatter<'_>) -> fmt::Result {
        match self {
            Uncompared::Before(fault) => write!(f, "before the collection: {fault}"),
            Uncompared::After(fault) => write!(f, "after the collection: {fault}"),
        }
    }
}

impl Error for Uncompared {}

/// Compares the image with the bytes `after` with the compaction of the one with the bytes `before`. Returns the first
/// difference, or none if it is the compaction.
///
/// # Errors
///
/// The first fault of `before`, as [`check`] finds it, or else the first fault of `after`.
pub fn verify(before: &[u8], after: &[u8]) -> Result<Option<Difference>, Uncompared> {
    let mut verdict = raw::Verdict::NONE;
    // SAFETY: as in `check`; the verdict is the callee's alone.
    unsafe {
        raw::pcompact_verify(
            before.as_ptr(),
            before.len(),
            after.as_ptr(),
            after.len(),
            &mut verdict,
        )
    };
    verdict.difference()
}

/// The bytes of the image with these words and live addresses, ascending. The heap isn't checked: [`check`] finds the faults
/// of the bytes.
///
/// # Errors
///
/// 11 if memory runs out.
pub fn encode(words: &[u64], live: &[u64], settings: Settings) -> Result<Vec<u8>, Fault> {
    encode_by(raw::pcompact_encode, words, live, settings)
}

/// The same for a heap with roots.
///
/// # Errors
///
/// 11 if memory runs out.
pub fn encode_rooted(words: &[u64], roots: &[u64], settings: Settings) -> Result<Vec<u8>, Fault> {
    encode_by(raw::pcompact_encode_rooted, words, roots, settings)
}

fn encode_by(
    encode: raw::Encode,
    words: &[u64],
    list: &[u64],
    settings: Settings,
) -> Result<Vec<u8>, Fault> {
    let write = |bytes: *mut u8, room| {
        // SAFETY: as in `check`; there is room for as many bytes as are told.
        unsafe {
            encode(
                words.as_ptr(),
                words.len(),
                list.as_ptr(),
                list.len(),
                settings,
                bytes,
                room,
            )
        }
    };
    let len = write(NonNull::dangling().as_ptr(), 0);
    let mut bytes: Vec<u8> = list_for(len)?;
    write(bytes.as_mut_ptr(), len);
    // SAFETY: a call with room for all bytes writes all of them.
    unsafe { bytes.set_len(len) };
    Ok(bytes)
}

/// The heap of an image.
#[derive(Clone, Debug, PartialEq, Eq)]
pub struct Heap {
    /// The version of the image: 1 without roots, 2 or 3 with roots.
    pub version: u32,
    pub settings: Settings,
    pub words: Vec<u64>,
    /// The live addresses, ascending, or the roots.
    pub list: Vec<u64>,
}

/// The heap of the image with these bytes, and its live addresses. Of an image with roots they are those that the roots reach.
///
/// ```
/// use pcompact::{decode, encode, header, Settings};
///
/// let (words, live) = ([header(1, 0), 9, 9, 9, 9, 9, 9, 9], [0]);
/// let heap = decode(&encode(&words, &live, Settings::new(3))?)?;
/// assert_eq!((heap.words, heap.list), (words.to_vec(), live.to_vec()));
/// # Ok::<(), pcompact::Fault>(())
/// ```
///
/// # Errors
///
/// The first fault, as [`check`] finds it.
pub fn decode(bytes: &[u8]) -> Result<Heap, Fault> {
    decode_by(raw::pcompact_decode, bytes)
}

/// The same with the roots. An image of version 1 is taken as one of version 2 with a root to each live object.
///
/// # Errors
///
/// The first fault, as [`check`] finds it.
pub fn decode_rooted(bytes: &[u8]) -> Result<Heap, Fault> {
    decode_by(raw::pcompact_decode_rooted, bytes)
}

/// Each list gets room for as many numbers as the bytes could hold, of which the rest is given back.
fn decode_by(decode: raw::Decode, bytes: &[u8]) -> Result<Heap, Fault> {
    let room = bytes.len() / 8;
    let (mut words, mut list) = (list_for(room)?, list_for(room)?);
    let mut heap = Decoded::NONE;
    // SAFETY: as in `check`; both lists have so much room, and both and what they are, are the callee's alone.
    let fault = unsafe {
        decode(
            bytes.as_ptr(),
            bytes.len(),
            words.as_mut_ptr(),
            room,
            list.as_mut_ptr(),
            room,
            &mut heap,
        )
    };
    if fault != 0 {
        return Err(heap.fault);
    }
    // SAFETY: a list with room for all its numbers has them now, and each has room for a number of each 8 bytes.
    unsafe {
        words.set_len(heap.word_count as usize);
        list.set_len(heap.count as usize);
    }
    words.shrink_to_fit();
    list.shrink_to_fit();
    Ok(Heap {
        version: heap.version,
        settings: heap.settings,
        words,
        list,
    })
}

/// An empty list with room for so many.
fn list_for<T>(count: usize) -> Result<Vec<T>, Fault> {
    let mut list = Vec::new();
    list.try_reserve_exact(count).map_err(|_| Fault::MEMORY)?;
    Ok(list)
}
