use crate::raw;
use std::error::Error;
use std::fmt::{self, Display, Formatter};

/// Why a call did nothing.
#[repr(C)]
#[derive(Clone, Copy, Debug, PartialEq, Eq)]
#[must_use]
pub struct Fault {
    /// Its number. `docs/FORMATS.md` of the repository lists all.
    pub number: u32,
    /// The field of fault 9, otherwise 0.
    pub field: u32,
    /// The index of faults 6 and 17, the address of faults 7 to 9, otherwise 0.
    pub place: u64,
}

impl Fault {
    pub(crate) const NONE: Fault = Fault::of(0);
    /// Memory ran out.
    pub(crate) const MEMORY: Fault = Fault::of(11);

    const fn of(number: u32) -> Fault {
        Fault {
            number,
            field: 0,
            place: 0,
        }
    }

    /// No fault is success.
    pub(crate) fn into_result(self) -> Result<(), Fault> {
        if self.number == 0 {
            Ok(())
        } else {
            Err(self)
        }
    }
}

/// For example `9 reference at 5 field 1`.
impl Display for Fault {
    fn fmt(&self, f: &mut Formatter<'_>) -> fmt::Result {
        let mut text = [0; 64];
        // SAFETY: the array has as many bytes as it says.
        let len = unsafe { raw::pcompact_fault_text(*self, text.as_mut_ptr(), text.len()) };
        f.write_str(&String::from_utf8_lossy(&text[..len]))
    }
}

impl Error for Fault {}
