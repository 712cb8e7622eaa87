//! Safe calls of `libpcompact`, a sliding full collection of heaps in memory.
//!
//! A heap is a slice of words. The address of a word is its index. An object is a [`header`], then references, then data;
//! a reference is 0, or 1 plus the address of an object, as [`reference()`] gives it. `docs/HEAP.md` of the repository
//! defines the rest.
//!
//! ```
//! use pcompact::{collect_rooted, header, reference, Settings};
//!
//! // A cell that nothing leads to, one with the data 22, and one that refers to it.
//! let mut words = [header(3, 1), 0, 11, header(3, 1), 0, 22, header(3, 1), reference(3), 33, 0, 0, 0, 0, 0, 0, 0];
//! let mut roots = [reference(6)];
//! let figures = collect_rooted(&mut words, &mut roots, Settings::new(3))?;
//! assert_eq!(figures.new_top, 6);
//! assert_eq!(roots, [reference(3)]);
//! assert_eq!(words[..6], [header(3, 1), 0, 22, header(3, 1), reference(0), 33]);
//! # Ok::<(), pcompact::Fault>(())
//! ```
//!
//! Several threads of the host fill the regions of one heap by a [`Collection`].
//!
//! No call keeps state, starts a thread or waits. A call takes memory by `malloc`, and never ends the process.

mod fault;
mod heap;
mod image;
mod raw;
mod unended;
mod workers;

pub use fault::Fault;
pub use heap::{header, reference, Figures, Settings};
pub use image::{
    check, decode, decode_rooted, encode, encode_rooted, summary_of_image, verify, Difference,
    Heap, Uncompared,
};
pub use unended::Unended;
pub use workers::{Collection, Progress, Worker};

/// The version of the library: `1_000_000 * major + 1_000 * minor + patch`.
pub fn version() -> u32 {
    // SAFETY: it takes and gives a number.
    unsafe { raw::pcompact_version() }
}

/// Tells what a collection will do to the heap with these words and live addresses, ascending.
///
/// # Errors
///
/// 3 or 4 for a size of regions or of the heap, 6 for a live list that isn't one, 7 to 9 for an object; 11 if memory runs
/// out.
pub fn summary(words: &[u64], live: &[u64], settings: Settings) -> Result<Figures, Fault> {
    raw::answered(|answer| {
        // SAFETY: slices aren't null, have as many words as they say, and nobody writes there meanwhile.
        unsafe {
            raw::pcompact_summary(
                words.as_ptr(),
                words.len(),
                live.as_ptr(),
                live.len(),
                settings,
                answer,
            )
        }
    })
}

/// Compacts the heap with these words and live addresses, ascending, in place. Afterwards `live` has the new ones in the same
/// order.
///
/// # Errors
///
/// Those of [`summary`], after each of which words and live addresses are as they were.
pub fn collect(words: &mut [u64], live: &mut [u64], settings: Settings) -> Result<Figures, Fault> {
    raw::answered(|answer| {
        // SAFETY: two mutable slices don't overlap, and nobody else reads or writes there meanwhile.
        unsafe {
            raw::pcompact_collect_in_place(
                words.as_mut_ptr(),
                words.len(),
                live.as_mut_ptr(),
                live.len(),
                settings,
                answer,
            )
        }
    })
}

/// Compacts the heap with these words in place. Alive is what the roots reach, and afterwards they lead there again.
///
/// # Errors
///
/// Those of [`collect`], with 17 for a root that leads out of the heap in place of 6.
pub fn collect_rooted(
    words: &mut [u64],
    roots: &mut [u64],
    settings: Settings,
) -> Result<Figures, Fault> {
    raw::answered(|answer| {
        // SAFETY: as in `collect`.
        unsafe {
            raw::pcompact_collect_in_place_rooted(
                words.as_mut_ptr(),
                words.len(),
                roots.as_mut_ptr(),
                roots.len(),
                settings,
                answer,
            )
        }
    })
}

/// Redirects references that are kept outside of the heap with these words and live addresses to where [`collect`] will take
/// their objects; to be called before it. Each is 0, which stays, or leads to a live object.
///
/// ```
/// use pcompact::{collect, header, new_addresses, reference, Settings};
///
/// let mut words = [header(1, 0), header(1, 0), 0, 0, 0, 0, 0, 0];
/// let (mut live, mut weak) = ([1], [0, reference(1)]);
/// new_addresses(&words, &live, Settings::new(3), &mut weak)?;
/// collect(&mut words, &mut live, Settings::new(3))?;
/// assert_eq!(weak, [0, reference(live[0])]);
/// # Ok::<(), pcompact::Fault>(())
/// ```
///
/// # Errors
///
/// Those of [`summary`], and 17 with the index of the first reference that leads to no live object. After each of them the
/// references are as they were.
pub fn new_addresses(
    words: &[u64],
    live: &[u64],
    settings: Settings,
    references: &mut [u64],
) -> Result<(), Fault> {
    // SAFETY: a mutable slice overlaps no other, and nobody writes to the others meanwhile.
    let fault = unsafe {
        raw::pcompact_new_addresses(
            words.as_ptr(),
            words.len(),
            live.as_ptr(),
            live.len(),
            settings,
            references.as_mut_ptr(),
            references.len(),
        )
    };
    fault.into_result()
}
