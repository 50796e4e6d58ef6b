//! The library's functions on plain slices, with the numbers of documents 01 and 02 as answers.
//!
//! Each function returns 0 when it accepts the call, or else the number of the refusal. A state is a slice of
//! [`STATE_WORDS`] words and figures are as many words as the function says. With any other length, or with a state
//! whose last word is above [`MOST_PENDING`], the function returns [`WRONG_LENGTH`] before all other tests and touches
//! nothing; format and restart do not read the words of the state they are lent. A medium or a shelf that is too short
//! is refused with 2, a piece that is not one block long with 4, a list of scenes that is too long with 17.
//!
//! A refused call sets its figures to 0, all but the place that load tells with 17, and changes nothing else; format and
//! restart also set the state to zeros.
//!
//! # Why these functions are safe
//!
//! The library takes each slice as a pointer and its length, tests the length, and stays within it. Rust's references see to
//! the rest: the pointers are valid and aligned for that length, and no buffer that is written overlaps another. The
//! library keeps no pointer after the call and has no memory of its own.

#[cfg(not(all(target_arch = "x86_64", target_pointer_width = "64")))]
compile_error!("libcapi.a is for x86-64 with 64-bit sizes");

/// Words of a state: Z, s, t, N\[0\] to N\[7\], growing, w, the recorded marks and the copied marks (mark j is bit j),
/// and what is pending: [`RECORD_PENDING`] and [`BLOCKS_PENDING`] added, 0 for nothing.
pub const STATE_WORDS: usize = 16;

/// In the last word of a state: a record store is pending.
pub const RECORD_PENDING: u64 = 1;

/// In the last word of a state: block stores are pending.
pub const BLOCKS_PENDING: u64 = 2;

/// The most that the last word of a state may be.
pub const MOST_PENDING: u64 = RECORD_PENDING | BLOCKS_PENDING;

/// Figures of [`restart`], [`grow`], [`grow_beyond_doubling`], [`copy`] and [`checkpoint`]: the advance calls left.
pub const LEFT_FIGURES: usize = 1;

/// Figures of [`advance`]: calls left; 1 copied, 2 recorded, 3 finished; the block copied; its part, 1 head, 2 body, 3 tail.
pub const ADVANCE_FIGURES: usize = 4;

/// Figures of [`view`]: 1 for the first shelf, 2 for the second; the byte of that shelf at which the block starts.
pub const VIEW_FIGURES: usize = 2;

/// Figures of [`address`]: disk; row; 1 set out at format, 2 added, 3 moved; the growth's number; the part, when moved;
/// by how many growths the block was moved.
pub const ADDRESS_FIGURES: usize = 6;

/// Figures of [`holder`]: the block.
pub const HOLDER_FIGURES: usize = 1;

/// Figures of [`load`]: with 17 the place of the scene, else 0; the blocks that disks 0 to 15 serve.
pub const LOAD_FIGURES: usize = 17;

/// Figures of [`table_move`]: the offset of the entry; the new disk. Both are 0 where there is no such mark.
pub const TABLE_MOVE_FIGURES: usize = 2;

/// The most scenes in a list.
pub const MOST_SCENES: usize = 65_536;

/// Words of a span table: the first block and the count of client 0, then those of client 1.
pub const SPAN_WORDS: usize = 4;

/// The most that a span's first block and count make together.
pub const MOST_REACHED: u64 = 16_000_000;

/// The answer when a state, a span table or figures have the wrong length, or the last word of a state is above
/// [`MOST_PENDING`]. Nothing was touched.
pub const WRONG_LENGTH: u64 = 100;

/// A scene: `count` blocks from block `first` on. With a count of 0 it names no block, and `first` may be any number.
#[derive(Clone, Copy, Debug, PartialEq, Eq, Hash)]
#[repr(C)]
pub struct Scene {
    /// The first block.
    pub first: u64,
    /// The number of blocks.
    pub count: u64,
}

extern "C" {
    fn streterva_format(
        state: *mut u64,
        state_words: usize,
        medium: *mut u8,
        medium_bytes: usize,
        size: u64,
        rows: u64,
        disks: u64,
    ) -> u64;

    fn streterva_restart(
        state: *mut u64,
        state_words: usize,
        medium: *const u8,
        medium_bytes: usize,
        figures: *mut u64,
        figures_words: usize,
    ) -> u64;

    fn streterva_grow(
        state: *mut u64,
        state_words: usize,
        medium: *mut u8,
        medium_bytes: usize,
        count: u64,
        figures: *mut u64,
        figures_words: usize,
    ) -> u64;

    fn streterva_grow_beyond_doubling(
        state: *mut u64,
        state_words: usize,
        medium: *mut u8,
        medium_bytes: usize,
        count: u64,
        figures: *mut u64,
        figures_words: usize,
    ) -> u64;

    fn streterva_copy(
        state: *mut u64,
        state_words: usize,
        medium: *mut u8,
        medium_bytes: usize,
        block: u64,
        figures: *mut u64,
        figures_words: usize,
    ) -> u64;

    fn streterva_checkpoint(
        state: *mut u64,
        state_words: usize,
        medium: *mut u8,
        medium_bytes: usize,
        figures: *mut u64,
        figures_words: usize,
    ) -> u64;

    fn streterva_advance(
        state: *mut u64,
        state_words: usize,
        medium: *mut u8,
        medium_bytes: usize,
        figures: *mut u64,
        figures_words: usize,
    ) -> u64;

    fn streterva_write(
        state: *mut u64,
        state_words: usize,
        medium: *mut u8,
        medium_bytes: usize,
        block: u64,
        piece: *const u8,
        piece_bytes: usize,
    ) -> u64;

    fn streterva_flushed(state: *mut u64, state_words: usize) -> u64;

    fn streterva_read(
        state: *const u64,
        state_words: usize,
        medium: *const u8,
        medium_bytes: usize,
        block: u64,
        piece: *mut u8,
        piece_bytes: usize,
    ) -> u64;

    fn streterva_view(
        state: *const u64,
        state_words: usize,
        first_bytes: usize,
        second_bytes: usize,
        first_disks: u64,
        block: u64,
        figures: *mut u64,
        figures_words: usize,
    ) -> u64;

    fn streterva_address(
        state: *const u64,
        state_words: usize,
        block: u64,
        figures: *mut u64,
        figures_words: usize,
    ) -> u64;

    fn streterva_holder(
        state: *const u64,
        state_words: usize,
        disk: u64,
        row: u64,
        figures: *mut u64,
        figures_words: usize,
    ) -> u64;

    fn streterva_load(
        state: *const u64,
        state_words: usize,
        scenes: *const Scene,
        scenes_count: usize,
        figures: *mut u64,
        figures_words: usize,
    ) -> u64;

    fn streterva_table_move(
        m: u64,
        n: u64,
        mark: u64,
        figures: *mut u64,
        figures_words: usize,
    ) -> u64;

    fn streterva_spans(spans: *mut u64, spans_words: usize) -> u64;

    fn streterva_client_read(
        spans: *const u64,
        spans_words: usize,
        client: u64,
        state: *const u64,
        state_words: usize,
        medium: *const u8,
        medium_bytes: usize,
        block: u64,
        piece: *mut u8,
        piece_bytes: usize,
    ) -> u64;

    fn streterva_client_write(
        spans: *const u64,
        spans_words: usize,
        client: u64,
        state: *mut u64,
        state_words: usize,
        medium: *mut u8,
        medium_bytes: usize,
        block: u64,
        piece: *const u8,
        piece_bytes: usize,
    ) -> u64;

    fn streterva_soundness(state: *const u64, state_words: usize) -> u64;
}

/// Begins a volume and stores its record. Refuses 8; 2.
pub fn format(state: &mut [u64], medium: &mut [u8], size: u64, rows: u64, disks: u64) -> u64 {
    // SAFETY: each pointer goes with the length of its slice, borrowed for the call; the two written slices do not overlap.
    unsafe {
        streterva_format(
            state.as_mut_ptr(),
            state.len(),
            medium.as_mut_ptr(),
            medium.len(),
            size,
            rows,
            disks,
        )
    }
}

/// Reads the state back from the record. Refuses 2, below 512 bytes; 13; 2.
pub fn restart(state: &mut [u64], medium: &[u8], figures: &mut [u64]) -> u64 {
    // SAFETY: each pointer goes with the length of its slice, borrowed for the call; the written state and figures overlap
    // nothing; the medium is only read.
    unsafe {
        streterva_restart(
            state.as_mut_ptr(),
            state.len(),
            medium.as_ptr(),
            medium.len(),
            figures.as_mut_ptr(),
            figures.len(),
        )
    }
}

/// Begins a growth to `count` disks and stores the record. Refuses 1; 6; 9; 8; 20; 2; 19; 18.
pub fn grow(state: &mut [u64], medium: &mut [u8], count: u64, figures: &mut [u64]) -> u64 {
    // SAFETY: each pointer goes with the length of its slice, borrowed for the call; the three written slices do not overlap.
    unsafe {
        streterva_grow(
            state.as_mut_ptr(),
            state.len(),
            medium.as_mut_ptr(),
            medium.len(),
            count,
            figures.as_mut_ptr(),
            figures.len(),
        )
    }
}

/// The grow without 20. Refuses 1; 6; 9; 8; 2; 19; 18.
pub fn grow_beyond_doubling(
    state: &mut [u64],
    medium: &mut [u8],
    count: u64,
    figures: &mut [u64],
) -> u64 {
    // SAFETY: each pointer goes with the length of its slice, borrowed for the call; the three written slices do not
    // overlap.
    unsafe {
        streterva_grow_beyond_doubling(
            state.as_mut_ptr(),
            state.len(),
            medium.as_mut_ptr(),
            medium.len(),
            count,
            figures.as_mut_ptr(),
            figures.len(),
        )
    }
}

/// Stores a moving block of window w at its new spot too. Refuses 1; 2; 5; 3; 10; 11; 19.
pub fn copy(state: &mut [u64], medium: &mut [u8], block: u64, figures: &mut [u64]) -> u64 {
    // SAFETY: each pointer goes with the length of its slice, borrowed for the call; the three written slices do not overlap.
    unsafe {
        streterva_copy(
            state.as_mut_ptr(),
            state.len(),
            medium.as_mut_ptr(),
            medium.len(),
            block,
            figures.as_mut_ptr(),
            figures.len(),
        )
    }
}

/// Stores the record with every copied block recorded. Refuses 1; 2; 5; 12; 19; 18.
pub fn checkpoint(state: &mut [u64], medium: &mut [u8], figures: &mut [u64]) -> u64 {
    // SAFETY: each pointer goes with the length of its slice, borrowed for the call; the three written slices do not overlap.
    unsafe {
        streterva_checkpoint(
            state.as_mut_ptr(),
            state.len(),
            medium.as_mut_ptr(),
            medium.len(),
            figures.as_mut_ptr(),
            figures.len(),
        )
    }
}

/// Copies the next block of window w or, with none left, does the checkpoint. Refuses 1; 2; 5; 19; and 18 only
/// for the checkpoint.
pub fn advance(state: &mut [u64], medium: &mut [u8], figures: &mut [u64]) -> u64 {
    // SAFETY: each pointer goes with the length of its slice, borrowed for the call; the three written slices do not overlap.
    unsafe {
        streterva_advance(
            state.as_mut_ptr(),
            state.len(),
            medium.as_mut_ptr(),
            medium.len(),
            figures.as_mut_ptr(),
            figures.len(),
        )
    }
}

/// Stores the piece as the block. Refuses 1; 2; 3; 4; 7; 19.
pub fn write(state: &mut [u64], medium: &mut [u8], block: u64, piece: &[u8]) -> u64 {
    // SAFETY: each pointer goes with the length of its slice, borrowed for the call; the written state and medium
    // overlap nothing; the piece is only read.
    unsafe {
        streterva_write(
            state.as_mut_ptr(),
            state.len(),
            medium.as_mut_ptr(),
            medium.len(),
            block,
            piece.as_ptr(),
            piece.len(),
        )
    }
}

/// Tells that all earlier stores are down. Refuses 1.
pub fn flushed(state: &mut [u64]) -> u64 {
    // SAFETY: the pointer goes with the length of its slice, borrowed for the call.
    unsafe { streterva_flushed(state.as_mut_ptr(), state.len()) }
}

/// Fills the piece with the block. Refuses 1; 2; 3; 4.
pub fn read(state: &[u64], medium: &[u8], block: u64, piece: &mut [u8]) -> u64 {
    // SAFETY: each pointer goes with the length of its slice, borrowed for the call; the written piece overlaps nothing; the
    // state and the medium are only read.
    unsafe {
        streterva_read(
            state.as_ptr(),
            state.len(),
            medium.as_ptr(),
            medium.len(),
            block,
            piece.as_mut_ptr(),
            piece.len(),
        )
    }
}

/// Tells which of two shelves of these lengths has the block's live spot, with `first_disks` disks on the first, and
/// the byte of that shelf at which the block starts. Refuses 1; 8; 2, for either shelf; 3.
pub fn view(
    state: &[u64],
    first_bytes: usize,
    second_bytes: usize,
    first_disks: u64,
    block: u64,
    figures: &mut [u64],
) -> u64 {
    // SAFETY: each pointer goes with the length of its slice, borrowed for the call; the written figures overlap
    // nothing; the state is only read. The lengths of the shelves are numbers: no byte of a shelf is touched.
    unsafe {
        streterva_view(
            state.as_ptr(),
            state.len(),
            first_bytes,
            second_bytes,
            first_disks,
            block,
            figures.as_mut_ptr(),
            figures.len(),
        )
    }
}

/// Tells the live spot of the block, why it is there and by how many growths it was moved. Refuses 1; 3.
pub fn address(state: &[u64], block: u64, figures: &mut [u64]) -> u64 {
    // SAFETY: each pointer goes with the length of its slice, borrowed for the call; the written figures overlap nothing; the
    // state is only read.
    unsafe {
        streterva_address(
            state.as_ptr(),
            state.len(),
            block,
            figures.as_mut_ptr(),
            figures.len(),
        )
    }
}

/// Tells which block lives at the spot. Refuses 1; 14; 15.
pub fn holder(state: &[u64], disk: u64, row: u64, figures: &mut [u64]) -> u64 {
    // SAFETY: each pointer goes with the length of its slice, borrowed for the call; the written figures overlap nothing; the
    // state is only read.
    unsafe {
        streterva_holder(
            state.as_ptr(),
            state.len(),
            disk,
            row,
            figures.as_mut_ptr(),
            figures.len(),
        )
    }
}

/// Tells how many of the blocks that the scenes name each disk serves. Refuses 1; 17.
pub fn load(state: &[u64], scenes: &[Scene], figures: &mut [u64]) -> u64 {
    // SAFETY: each pointer goes with the length of its slice, borrowed for the call; the written figures overlap nothing; the
    // state and the scenes, laid out as the library's, are only read.
    unsafe {
        streterva_load(
            state.as_ptr(),
            state.len(),
            scenes.as_ptr(),
            scenes.len(),
            figures.as_mut_ptr(),
            figures.len(),
        )
    }
}

/// Tells the entry of the table of moves for a mark of the growth from m disks by n more. It takes no state, and any
/// numbers: refuses nothing.
pub fn table_move(m: u64, n: u64, mark: u64, figures: &mut [u64]) -> u64 {
    // SAFETY: the pointer goes with the length of its slice, borrowed for the call; all else are numbers.
    unsafe { streterva_table_move(m, n, mark, figures.as_mut_ptr(), figures.len()) }
}

/// Tests a span table; refused, it is set to zeros. Refuses 21, the spans share a block, or first plus count of one is
/// above [`MOST_REACHED`].
pub fn spans(spans: &mut [u64]) -> u64 {
    // SAFETY: the pointer goes with the length of its slice, borrowed for the call.
    unsafe { streterva_spans(spans.as_mut_ptr(), spans.len()) }
}

/// Fills the piece with the block, through the client's span. Refuses 1; 21, the block is outside the span, the client
/// is neither 0 nor 1, or the table breaks the rule on spans; 2; 3; 4.
pub fn client_read(
    spans: &[u64],
    client: u64,
    state: &[u64],
    medium: &[u8],
    block: u64,
    piece: &mut [u8],
) -> u64 {
    // SAFETY: each pointer goes with the length of its slice, borrowed for the call; the written piece overlaps nothing;
    // the table, the state and the medium are only read.
    unsafe {
        streterva_client_read(
            spans.as_ptr(),
            spans.len(),
            client,
            state.as_ptr(),
            state.len(),
            medium.as_ptr(),
            medium.len(),
            block,
            piece.as_mut_ptr(),
            piece.len(),
        )
    }
}

/// Stores the piece as the block, through the client's span. Refuses 1; 21, as [`client_read`]; 2; 3; 4; 7; 19.
pub fn client_write(
    spans: &[u64],
    client: u64,
    state: &mut [u64],
    medium: &mut [u8],
    block: u64,
    piece: &[u8],
) -> u64 {
    // SAFETY: each pointer goes with the length of its slice, borrowed for the call; the written state and medium
    // overlap nothing; the table and the piece are only read.
    unsafe {
        streterva_client_write(
            spans.as_ptr(),
            spans.len(),
            client,
            state.as_mut_ptr(),
            state.len(),
            medium.as_mut_ptr(),
            medium.len(),
            block,
            piece.as_ptr(),
            piece.len(),
        )
    }
}

/// 0 when the state is sound, 1 when it is not.
pub fn soundness(state: &[u64]) -> u64 {
    // SAFETY: the pointer goes with the length of its slice, borrowed for the call and only read.
    unsafe { streterva_soundness(state.as_ptr(), state.len()) }
}
