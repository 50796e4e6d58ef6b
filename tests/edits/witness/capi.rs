pub use volume::witness::medium;

/// The words of two disks of three rows of 512 bytes with no growth: block x on disk x % 2 in row x / 2.
pub fn at_rest() -> [usize; 16] {
    [512, 3, 0, 2, 0, 0, 0, 0, 0, 0, 0, 0, 0, 0, 0, 0]
}

/// The same in its growth to three disks, which has one window. Blocks 0 and 3, with marks 0 and 1, move to disk 2.
pub fn in_growth(recorded: usize, copied: usize) -> [usize; 16] {
    [512, 3, 1, 2, 3, 0, 0, 0, 0, 0, 0, 1, 0, recorded, copied, 0]
}
