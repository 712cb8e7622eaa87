use crate::{Collection, Fault};

/// A collection whose end is refused.
#[derive(Debug)]
pub struct Unended<'heap> {
    /// Why it is.
    pub fault: Fault,
    /// It goes on, and may be ended once there is memory.
    pub collection: Collection<'heap>,
}

/// Drops the collection.
impl From<Unended<'_>> for Fault {
    fn from(it: Unended<'_>) -> Fault {
        it.fault
    }
}
