//! Buffers that begin at a page.

use std::alloc::{alloc_zeroed, Layout};
use std::ops::{Deref, DerefMut};

const PAGE: usize = 4096;

pub struct Medium {
    bytes: Vec<u8>,
    start: usize,
}

impl Medium {
    /// A buffer of zeros whose pages take no memory until they are touched; nothing when it is refused.
    pub fn untouched(len: usize) -> Option<Medium> {
        let bytes = zeros(len + PAGE)?;
        let start = bytes.as_ptr().align_offset(PAGE);
        let mut medium = Medium { bytes, start };
        medium.bytes.truncate(start + len);
        Some(medium)
    }

    /// A buffer with all pages touched.
    pub fn touched(len: usize) -> Medium {
        let mut medium = Medium::untouched(len).expect("memory for the benchmark");
        medium.fill(0xA5);
        medium
    }
}

fn zeros(len: usize) -> Option<Vec<u8>> {
    let layout = Layout::array::<u8>(len).ok()?;
    // SAFETY: the layout is that of a vector with this capacity, its size is not 0, and all its bytes are set to 0.
    unsafe {
        let start = alloc_zeroed(layout);
        (!start.is_null()).then(|| Vec::from_raw_parts(start, len, len))
    }
}

impl Deref for Medium {
    type Target = [u8];

    fn deref(&self) -> &[u8] {
        &self.bytes[self.start..]
    }
}

impl DerefMut for Medium {
    fn deref_mut(&mut self) -> &mut [u8] {
        &mut self.bytes[self.start..]
    }
}
