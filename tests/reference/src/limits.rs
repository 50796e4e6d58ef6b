//! The limits of a volume.

/// Bytes of the record.
pub const RECORD: usize = 512;
/// Block sizes are multiples of this.
pub const SECTOR: u64 = 512;
/// Largest block in bytes.
pub const BLOCK: u64 = 65_536;
/// Most rows on a disk.
pub const ROWS: u64 = 1_000_000;
/// Most disks.
pub const DISKS: u64 = 16;
/// Most growths.
pub const GROWTHS: u64 = 7;

/// Whether a block may have `z` bytes.
pub fn block_size(z: u64) -> bool {
    z.is_multiple_of(SECTOR) && (SECTOR..=BLOCK).contains(&z)
}

/// Whether a disk may have `s` rows.
pub fn rows(s: u64) -> bool {
    (1..=ROWS).contains(&s)
}

/// Whether a volume may have `count` disks.
pub fn disks(count: u64) -> bool {
    (1..=DISKS).contains(&count)
}
