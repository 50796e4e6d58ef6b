use crate::{Span, Spans};

/// First and count of client 0, then those of client 1.
pub fn spans(first: usize, count: usize, first1: usize, count1: usize) -> Spans {
    Spans { zero: Span { first, count }, one: Span { first: first1, count: count1 } }
}

/// Client 0 has blocks 1 to 3, client 1 blocks 4 and 5.
pub fn two() -> Spans {
    spans(1, 3, 4, 2)
}
