//! The media, shared by the rows.

use crate::medium::Medium;
use std::cell::RefCell;
use std::rc::Rc;

pub type Shared = Rc<RefCell<Medium>>;

/// Bytes of the cached and the large medium after the record.
pub const CACHED_BYTES: u64 = 1 << 20;
pub const LARGE_BYTES: u64 = 768 << 20;
const RECORD: u64 = 512;

pub struct Media {
    /// Fits the processor's cache.
    pub cached: Shared,
    pub large: Shared,
    /// 16 disks of the most rows, with Z = 512; only the spots in use take memory.
    pub sparse: Shared,
    /// The values of s that are compared.
    pub rows: [u64; 3],
}

impl Media {
    pub fn new() -> Media {
        let share = |medium| Rc::new(RefCell::new(medium));
        let sparse = |s: u64| Some((Medium::untouched((RECORD + 16 * s * 512) as usize)?, s));
        let (medium, most) = sparse(1_000_000)
            .or_else(|| sparse(100_000))
            .expect("memory for the benchmark");
        Media {
            cached: share(Medium::touched((RECORD + CACHED_BYTES) as usize)),
            large: share(Medium::touched((RECORD + LARGE_BYTES) as usize)),
            sparse: share(medium),
            rows: [100, 10_000, most],
        }
    }
}
