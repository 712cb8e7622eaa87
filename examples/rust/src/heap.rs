/// What the words of a heap don't say.
#[repr(C)]
#[derive(Clone, Copy, Debug, PartialEq, Eq)]
pub struct Settings {
    /// The logarithm, to base 2, of the number of words of a region: 3 to 16, with roots to 20.
    pub region_log: u32,
    /// The largest number of dead words that the dense prefix may keep.
    pub allowance: u64,
}

impl Settings {
    /// Regions of `2^region_log` words, and a prefix without dead words.
    pub const fn new(region_log: u32) -> Settings {
        Settings {
            region_log,
            allowance: 0,
        }
    }
}

/// What a collection will do or has done.
#[derive(Clone, Copy, Debug, PartialEq, Eq)]
pub struct Figures {
    /// The address at which the dense prefix ends.
    pub prefix_end: u64,
    /// The first free address after the collection.
    pub new_top: u64,
    /// How many regions a collection fills.
    pub filled_regions: u32,
}

/// The header of an object of so many words, itself included, of which the first ones behind it are references.
///
/// # Panics
///
/// Where there are as many references as words, or 2^24.
pub const fn header(size: u32, references: u32) -> u64 {
    assert!(references < size && references < 1 << 24);
    1 << 56 | (references as u64) << 32 | size as u64
}

/// The reference or root that leads to the object at an address.
pub const fn reference(address: u64) -> u64 {
    1 + address
}
