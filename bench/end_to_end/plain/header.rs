//! The first word of an object.

#[derive(Clone, Copy)]
pub struct Header(pub u64);

#[allow(dead_code)]
impl Header {
    pub fn object(size: usize, references: usize) -> Header {
        Header(1 << 56 | (references as u64) << 32 | size as u64)
    }

    pub fn filler(size: usize) -> Header {
        Header(2 << 56 | size as u64)
    }

    pub fn size(self) -> usize {
        self.0 as u32 as usize
    }

    pub fn references(self) -> usize {
        (self.0 >> 32 & 0xff_ffff) as usize
    }

    /// Whether an object may have this header that has room for so many words.
    pub fn is_sound(self, room: usize) -> bool {
        self.0 >> 56 == 1 && self.size() > self.references() && self.size() <= room
    }
}
