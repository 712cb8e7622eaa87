//! Collections by threads of the host.

use crate::raw::{self, Handle, Regions};
use crate::{Fault, Figures, Settings, Unended};
use std::marker::PhantomData;

/// What a worker's call came to.
#[derive(Clone, Copy, Debug, PartialEq, Eq)]
pub enum Progress {
    /// All regions are filled. Once no worker runs, [`Collection::end`] gives the compaction.
    Settled,
    /// The turns are used up.
    TurnsUsed,
    /// No region is ready. Another worker may make some ready.
    NoneReady,
}

impl Progress {
    fn of(number: u32) -> Progress {
        match number {
            0 => Progress::Settled,
            1 => Progress::TurnsUsed,
            2 => Progress::NoneReady,
            _ => unreachable!("a worker holds its handle"),
        }
    }
}

/// A collection in place that has begun, by 1 to 64 workers. The live addresses or roots are redirected by its
/// [`end`](Collection::end), and also if it is dropped before, which ends it.
///
/// ```
/// use pcompact::{header, reference, Collection, Settings};
/// use std::thread;
///
/// let mut words = [header(3, 1), 0, 11, header(3, 1), 0, 22, header(3, 1), reference(3), 33, 0, 0, 0, 0, 0, 0, 0];
/// let mut roots = [reference(6)];
/// let mut collection = Collection::begin_rooted(&mut words, &mut roots, Settings::new(3), 4)?;
/// thread::scope(|scope| {
///     for mut worker in collection.workers() {
///         scope.spawn(move || worker.work_all());
///     }
/// });
/// assert_eq!(collection.end()?.new_top, 6);
/// assert_eq!(roots, [reference(3)]);
/// # Ok::<(), pcompact::Fault>(())
/// ```
#[derive(Debug)]
#[must_use]
pub struct Collection<'heap> {
    words: PhantomData<&'heap mut [u64]>,
    regions: Regions,
    /// The live addresses or the roots.
    list: &'heap mut [u64],
    handles: Vec<Handle>,
}

impl<'heap> Collection<'heap> {
    /// Begins the collection of the heap with these words and live addresses, ascending, by so many workers.
    ///
    /// # Errors
    ///
    /// Those of [`collect`](crate::collect), and 12 if there are no workers or more than 64.
    pub fn begin(
        words: &'heap mut [u64],
        live: &'heap mut [u64],
        settings: Settings,
        workers: usize,
    ) -> Result<Collection<'heap>, Fault> {
        Collection::begin_by(raw::pcompact_begin_in_place, words, live, settings, workers)
    }

    /// The same for a heap with roots.
    ///
    /// # Errors
    ///
    /// Those of [`begin`](Collection::begin), with 17 for a root that leads out of the heap in place of 6.
    pub fn begin_rooted(
        words: &'heap mut [u64],
        roots: &'heap mut [u64],
        settings: Settings,
        workers: usize,
    ) -> Result<Collection<'heap>, Fault> {
        Collection::begin_by(
            raw::pcompact_begin_in_place_rooted,
            words,
            roots,
            settings,
            workers,
        )
    }

    fn begin_by(
        begin: raw::Begin,
        words: &'heap mut [u64],
        list: &'heap mut [u64],
        settings: Settings,
        workers: usize,
    ) -> Result<Collection<'heap>, Fault> {
        // As many handles too many are refused as one.
        let mut handles: Vec<Handle> = (0..workers.min(65)).map(|_| Handle::default()).collect();
        let mut regions = Regions::default();
        // SAFETY: handles and regions are zero, nothing overlaps, and nobody else reads or writes the words until the end,
        // for which the collection borrows them.
        let fault = unsafe {
            begin(
                words.as_mut_ptr(),
                words.len(),
                list.as_ptr(),
                list.len(),
                settings,
                handles.as_mut_ptr(),
                handles.len(),
                &mut regions,
            )
        };
        fault.into_result()?;
        Ok(Collection {
            words: PhantomData,
            regions,
            list,
            handles,
        })
    }

    /// The workers. Each may go to a thread of its own.
    pub fn workers(&mut self) -> impl ExactSizeIterator<Item = Worker<'_>> {
        self.handles.iter_mut().map(|handle| Worker { handle })
    }

    /// Ends the collection, and fills what no worker has filled. Afterwards words and list are those of the compaction.
    ///
    /// # Errors
    ///
    /// 11 if memory runs out, after which the collection goes on.
    pub fn end(mut self) -> Result<Figures, Unended<'heap>> {
        let ended = self.end_once();
        ended.map_err(|fault| Unended {
            fault,
            collection: self,
        })
    }

    /// Once it is over it does nothing, and fails with 12.
    fn end_once(&mut self) -> Result<Figures, Fault> {
        raw::answered(|answer| {
            // SAFETY: no worker is left that could use its handle, nothing overlaps, and nobody else reads or writes there.
            unsafe {
                raw::pcompact_end_in_place(
                    self.handles.as_mut_ptr(),
                    self.handles.len(),
                    &mut self.regions,
                    self.list.as_mut_ptr(),
                    self.list.len(),
                    answer,
                )
            }
        })
    }
}

impl Drop for Collection<'_> {
    fn drop(&mut self) {
        let _ = self.end_once();
    }
}

/// One worker's part in a collection, which one thread at a time has.
#[derive(Debug)]
pub struct Worker<'collection> {
    handle: &'collection mut Handle,
}

impl Worker<'_> {
    /// Fills regions that are ready, at most `turns`. Returns at once if none is.
    pub fn work(&mut self, turns: u64) -> Progress {
        // SAFETY: the handle is this worker's alone.
        Progress::of(unsafe { raw::pcompact_work(self.handle, turns) })
    }

    /// Fills regions until all are settled, and spins while none is ready.
    pub fn work_all(&mut self) -> Progress {
        // SAFETY: as in `work`.
        Progress::of(unsafe { raw::pcompact_work_all(self.handle) })
    }
}
