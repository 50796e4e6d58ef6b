//! What the table's reader needs to know.

use crate::cases::{COUNTS, MOVE_COUNTS, OLD_COUNTS};
use crate::media::{CACHED_BYTES, LARGE_BYTES};
use crate::ROUNDS;

pub fn print() {
    println!(
        "Times are in ns for one call, as medians of {ROUNDS} rounds after one not counted. \
         In each round every row is timed on every side, in turn, as the median of many short slices. \
         All buffers were touched before the first round and were not cleared between rounds.\n"
    );
    println!(
        "Cached is a medium of {} KB, large one of {} MB. \
         On the large one each side takes another part in each round, and has taken all parts at the end. \
         Blocks come in one pseudo-random order; for copy and advance, in that of the marks. \
         memcpy moves the same bytes in the same order: a block, or for calls on the record its 512 bytes.\n",
        CACHED_BYTES >> 10,
        LARGE_BYTES >> 20
    );
    println!(
        "Disk counts are {COUNTS:?} for t = 7 and {OLD_COUNTS:?} for old blocks. \
         Added blocks are those of the last growth, not added all others. \
         Growing is the last growth of the first, half way; for calls with a medium, the last of {MOVE_COUNTS:?}. \
         For view the first shelf has half of the disks, or all of them. \
         Any mark is drawn from those of all growths. \
         The reference makes the same checks.\n"
    );
}
