//! Work areas full of junk, and what a call leaves of them.

/// So many bytes behind each area must stay as they are.
pub const GUARD: usize = 64;
const GUARD_BYTE: u8 = 0xA5;

pub struct Areas {
    lengths: [usize; 6],
    bytes: [Vec<u8>; 6],
}

impl Areas {
    /// Areas of these lengths, full of junk.
    pub fn new(lengths: [usize; 6], junk: u8) -> Self {
        let bytes = lengths.map(|length| {
            let mut bytes = vec![junk; length];
            bytes.resize(length + GUARD, GUARD_BYTE);
            bytes
        });
        Areas { lengths, bytes }
    }

    pub fn lengths(&self) -> [usize; 6] {
        self.lengths
    }

    pub fn lent(&mut self) -> kit::lent::Areas<'_> {
        let lengths = self.lengths;
        let mut at = 0;
        self.bytes.each_mut().map(|bytes| {
            let length = lengths[at];
            at += 1;
            &mut bytes[..length]
        })
    }

    /// Whether every area is zero over its length, and nothing behind it was written.
    pub fn left_zero(&self) -> bool {
        self.bytes.iter().zip(self.lengths).all(|(bytes, length)| {
            let (area, guard) = bytes.split_at(length);
            area.iter().all(|&byte| byte == 0) && guard.iter().all(|&byte| byte == GUARD_BYTE)
        })
    }
}
