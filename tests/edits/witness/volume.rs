use crate::{Pending, Volume};

/// The medium of so many disks of three rows of 512 bytes; byte k holds k % 251.
pub fn medium(disks: usize) -> Vec<u8> {
    (0..512 + disks * 3 * 512).map(|k| (k % 251) as u8).collect()
}

/// Two disks of three rows of 512 bytes with no growth: six blocks, block x on disk x % 2 in row x / 2.
pub fn at_rest() -> Volume {
    Volume {
        size: 512,
        rows: 3,
        growths: 0,
        counts: [2, 0, 0, 0, 0, 0, 0, 0],
        growing: 0,
        window: 0,
        recorded: 0,
        copied: 0,
        pending: Pending { records: false, blocks: false },
    }
}

/// The same in its growth to three disks, which has one window. Blocks 0 and 3, with marks 0 and 1, move to disk 2.
pub fn in_growth(recorded: usize, copied: usize) -> Volume {
    Volume { growths: 1, counts: [2, 3, 0, 0, 0, 0, 0, 0], growing: 1, recorded, copied, ..at_rest() }
}
