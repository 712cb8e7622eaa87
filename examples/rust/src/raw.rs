//! The functions of `pcompact.h`.

use crate::{Difference, Fault, Figures, Settings, Uncompared};
use std::ffi::c_void;
use std::ptr;

#[repr(C)]
pub struct Answer {
    fault: Fault,
    prefix_end: u64,
    new_top: u64,
    filled_regions: u32,
}

#[repr(C)]
pub struct Verdict {
    fault: Fault,
    image: u32,
    difference: u32,
    place: u64,
}

impl Verdict {
    pub const NONE: Verdict = Verdict {
        fault: Fault::NONE,
        image: 0,
        difference: 0,
        place: 0,
    };

    /// The difference, if the images could be compared.
    pub fn difference(self) -> Result<Option<Difference>, Uncompared> {
        match (self.image, self.difference) {
            (1, _) => Err(Uncompared::Before(self.fault)),
            (2, _) => Err(Uncompared::After(self.fault)),
            (_, 0) => Ok(None),
            (_, 1) => Ok(Some(Difference::Shape)),
            (_, 2) => Ok(Some(Difference::Word(self.place))),
            (_, 3) => Ok(Some(Difference::Live(self.place))),
            _ => Ok(Some(Difference::Root(self.place))),
        }
    }
}

#[repr(C)]
pub struct Decoded {
    pub fault: Fault,
    pub version: u32,
    pub settings: Settings,
    pub word_count: u64,
    pub count: u64,
}

impl Decoded {
    pub const NONE: Decoded = Decoded {
        fault: Fault::NONE,
        version: 0,
        settings: Settings::new(0),
        word_count: 0,
        count: 0,
    };
}

/// Words, live addresses or roots, settings, bytes.
pub type Encode =
    unsafe extern "C" fn(*const u64, usize, *const u64, usize, Settings, *mut u8, usize) -> usize;

/// Bytes, words, live addresses or roots, what they are.
pub type Decode =
    unsafe extern "C" fn(*const u8, usize, *mut u64, usize, *mut u64, usize, *mut Decoded) -> u32;

/// One worker's part in a collection, zero until it begins and once it has ended.
#[repr(C)]
#[derive(Debug)]
pub struct Handle {
    is_held: bool,
    at: *mut c_void,
}

impl Default for Handle {
    fn default() -> Handle {
        Handle {
            is_held: false,
            at: ptr::null_mut(),
        }
    }
}

// SAFETY: a handle may move to another thread, as the header says, and each call takes it by `&mut`.
unsafe impl Send for Handle {}

/// The regions of words that are collected in place, zero until it begins and once it has ended.
#[repr(C)]
#[derive(Debug)]
pub struct Regions {
    at: *mut c_void,
    count: usize,
}

impl Default for Regions {
    fn default() -> Regions {
        Regions {
            at: ptr::null_mut(),
            count: 0,
        }
    }
}

// SAFETY: one value has the list, and each call takes it by `&mut`.
unsafe impl Send for Regions {}

/// Words, live addresses or roots, settings, handles, regions.
pub type Begin = unsafe extern "C" fn(
    *mut u64,
    usize,
    *const u64,
    usize,
    Settings,
    *mut Handle,
    usize,
    *mut Regions,
) -> Fault;

extern "C" {
    pub fn pcompact_version() -> u32;
    pub fn pcompact_fault_text(fault: Fault, text: *mut u8, room: usize) -> usize;
    pub fn pcompact_check(bytes: *const u8, len: usize) -> Fault;
    pub fn pcompact_summary_of_image(bytes: *const u8, len: usize, answer: *mut Answer) -> u32;
    pub fn pcompact_summary(
        words: *const u64,
        word_count: usize,
        live: *const u64,
        live_count: usize,
        settings: Settings,
        answer: *mut Answer,
    ) -> u32;
    pub fn pcompact_collect_in_place(
        words: *mut u64,
        word_count: usize,
        live: *mut u64,
        live_count: usize,
        settings: Settings,
        answer: *mut Answer,
    ) -> u32;
    pub fn pcompact_collect_in_place_rooted(
        words: *mut u64,
        word_count: usize,
        roots: *mut u64,
        root_count: usize,
        settings: Settings,
        answer: *mut Answer,
    ) -> u32;
    pub fn pcompact_new_addresses(
        words: *const u64,
        word_count: usize,
        live: *const u64,
        live_count: usize,
        settings: Settings,
        references: *mut u64,
        reference_count: usize,
    ) -> Fault;
    pub fn pcompact_verify(
        before: *const u8,
        before_len: usize,
        after: *const u8,
        after_len: usize,
        verdict: *mut Verdict,
    ) -> bool;
    pub fn pcompact_encode(
        words: *const u64,
        word_count: usize,
        live: *const u64,
        live_count: usize,
        settings: Settings,
        bytes: *mut u8,
        room: usize,
    ) -> usize;
    pub fn pcompact_encode_rooted(
        words: *const u64,
        word_count: usize,
        roots: *const u64,
        root_count: usize,
        settings: Settings,
        bytes: *mut u8,
        room: usize,
    ) -> usize;
    pub fn pcompact_decode(
        bytes: *const u8,
        len: usize,
        words: *mut u64,
        word_room: usize,
        live: *mut u64,
        live_room: usize,
        heap: *mut Decoded,
    ) -> u32;
    pub fn pcompact_decode_rooted(
        bytes: *const u8,
        len: usize,
        words: *mut u64,
        word_room: usize,
        roots: *mut u64,
        root_room: usize,
        heap: *mut Decoded,
    ) -> u32;
    pub fn pcompact_begin_in_place(
        words: *mut u64,
        word_count: usize,
        live: *const u64,
        live_count: usize,
        settings: Settings,
        handles: *mut Handle,
        worker_count: usize,
        regions: *mut Regions,
    ) -> Fault;
    pub fn pcompact_begin_in_place_rooted(
        words: *mut u64,
        word_count: usize,
        roots: *const u64,
        root_count: usize,
        settings: Settings,
        handles: *mut Handle,
        worker_count: usize,
        regions: *mut Regions,
    ) -> Fault;
    pub fn pcompact_work(handle: *mut Handle, turns: u64) -> u32;
    pub fn pcompact_work_all(handle: *mut Handle) -> u32;
    pub fn pcompact_end_in_place(
        handles: *mut Handle,
        worker_count: usize,
        regions: *mut Regions,
        list: *mut u64,
        list_count: usize,
        answer: *mut Answer,
    ) -> u32;
}

/// What a call answers that writes an answer and returns the number of its fault.
pub fn answered(call: impl FnOnce(&mut Answer) -> u32) -> Result<Figures, Fault> {
    let mut answer = Answer {
        fault: Fault::NONE,
        prefix_end: 0,
        new_top: 0,
        filled_regions: 0,
    };
    if call(&mut answer) != 0 {
        return Err(answer.fault);
    }
    Ok(Figures {
        prefix_end: answer.prefix_end,
        new_top: answer.new_top,
        filled_regions: answer.filled_regions,
    })
}
