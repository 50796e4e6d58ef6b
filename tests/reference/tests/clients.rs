//! Two clients: W10 of document 02.

use reference::refusal::*;
use reference::sample::{at_rest, growing};
use reference::spans::{client_read, client_write, make_spans, Span, Spans, REACH};
use reference::spot::Block;
use reference::state::{Pending, State};

fn table(words: [u64; 4]) -> Spans {
    Spans::from_words(&words)
}

/// The same table with the clients in the other order.
fn turned(spans: Spans) -> Spans {
    let Spans([zero, one]) = spans;
    Spans([one, zero])
}

#[test]
fn tables_made() {
    for words in [
        [0, 0, 0, 0],
        [0, 7, 7, 8],
        [0, 7, 8, 8],
        [0, 7, 3, 0],
        [0, 7, 0, 0],
        [0, 7, 7, 0],
        [0, REACH, REACH, 0],
        [REACH - 1, 1, 0, REACH - 1],
        [REACH, 0, REACH, 0],
    ] {
        let spans = table(words);
        assert_eq!(make_spans(spans), Ok(spans));
        assert_eq!(make_spans(turned(spans)), Ok(turned(spans)));
        assert_eq!(spans.to_words(), words);
    }
}

#[test]
fn tables_refused() {
    let most = u64::MAX;
    for words in [
        [0, 7, 6, 1],
        [0, 7, 6, 9],
        [0, 7, 3, 1],
        [3, 4, 3, 4],
        [REACH, 1, 0, 0],
        [REACH - 1, 2, 0, 0],
        [0, REACH + 1, 0, 0],
        [REACH + 1, 0, 0, 0],
        [most, 0, 0, 0],
        [most, 1, 0, 0],
        [1, most, 0, 0],
        [most, most, 0, 0],
        [most - 6, 7, 0, 7],
    ] {
        let spans = table(words);
        assert_eq!(make_spans(spans), Err(OUTSIDE_SPAN), "{words:?}");
        assert_eq!(make_spans(turned(spans)), Err(OUTSIDE_SPAN), "{words:?}");
    }
}

/// Whether spans share a block is the same block by block.
#[test]
fn shared_blocks() {
    let spans = || (0..6).flat_map(|first| (0..6).map(move |count| Span { first, count }));
    for (a, b) in spans().flat_map(|a| spans().map(move |b| (a, b))) {
        let shared = (0..12).map(Block).any(|x| a.has(x) && b.has(x));
        assert_eq!(a.shares(&b), shared, "{a:?} and {b:?}");
    }
}

/// The numbers of a client's read and write, and the piece read.
fn numbers(spans: Spans, client: u64, state: State, bytes: usize, x: u64) -> ([u64; 2], Vec<u8>) {
    let piece_bytes = state.z.min(65_536) as usize;
    numbers_of_piece(spans, client, state, bytes, x, piece_bytes)
}

fn numbers_of_piece(
    spans: Spans,
    client: u64,
    state: State,
    bytes: usize,
    x: u64,
    piece_bytes: usize,
) -> ([u64; 2], Vec<u8>) {
    let mut medium: Vec<u8> = (0..bytes).map(|i| (i / 512) as u8).collect();
    let (before, mut next) = (medium.clone(), state);
    let mut piece = vec![0xEE; piece_bytes];
    let read = client_read(&spans, client, &state, &medium, Block(x), &mut piece);
    let saved = vec![0xDD; piece_bytes];
    let write = client_write(&spans, client, &mut next, &mut medium, Block(x), &saved);
    if write.is_err() {
        assert_eq!((next, medium), (state, before));
    }
    let numbers = [read, write].map(|answer| answer.err().unwrap_or(0));
    (numbers, piece)
}

/// 3 disks of 5 rows: blocks 0 to 6 are client 0's, all others client 1's.
#[test]
fn each_block_is_one_clients() {
    let (spans, state) = (table([0, 7, 7, REACH - 7]), at_rest(&[3], 5));
    for (client, x) in (0..4).flat_map(|client| (0..20).map(move |x| (client, x))) {
        let inside = x < 7 && client == 0 || x >= 7 && client == 1;
        let number = match (inside, x) {
            (false, _) => OUTSIDE_SPAN,
            (true, 15..) => NOT_OPEN,
            _ => 0,
        };
        let (got, piece) = numbers(spans, client, state, 8192, x);
        assert_eq!(got, [number; 2], "client {client}, block {x}");
        let spot = x % 3 * 5 + x / 3;
        let byte = if number == 0 { 1 + spot as u8 } else { 0xEE };
        assert_eq!(piece, vec![byte; 512]);
    }
    for client in [2, 1 << 32, u64::MAX] {
        assert_eq!(numbers(spans, client, state, 8192, 0).0, [OUTSIDE_SPAN; 2]);
    }
    for spans in [Spans::ZEROS, table([0, 7, 6, 1]), table([0, 7, 7, REACH])] {
        assert_eq!(numbers(spans, 0, state, 8192, 0).0, [OUTSIDE_SPAN; 2]);
    }
}

/// 1, 21, 2, 3, 4 and of a write 7, 19, each two neighbours at once.
#[test]
fn refusals_in_their_order() {
    let spans = table([0, 7, 7, REACH - 7]);
    // Block 0 is copied and not recorded; block 15 is not open.
    let state = State {
        copied: 1,
        ..growing(&[3, 5], 5, 0, 0)
    };
    let unsound = State {
        growing: 2,
        ..state
    };
    let waiting = State {
        pending: Pending::from_word(1).expect("a record"),
        ..state
    };
    let whole = state.bytes(5) as usize;
    let of = |client, state, bytes, x| numbers(spans, client, state, bytes, x).0;
    let short_piece = |client, state, x| numbers_of_piece(spans, client, state, whole, x, 511).0;
    assert_eq!(of(0, unsound, whole, 7), [NOT_SOUND; 2]);
    assert_eq!(of(0, state, whole - 1, 7), [OUTSIDE_SPAN; 2]);
    assert_eq!(of(0, state, whole, 15), [OUTSIDE_SPAN; 2]);
    assert_eq!(short_piece(0, state, 7), [OUTSIDE_SPAN; 2]);
    assert_eq!(of(1, state, whole, 0), [OUTSIDE_SPAN; 2]);
    assert_eq!(of(0, waiting, whole, 7), [OUTSIDE_SPAN; 2]);
    assert_eq!(of(1, state, whole - 1, 15), [MEDIUM_SHORT; 2]);
    assert_eq!(short_piece(1, state, 15), [NOT_OPEN; 2]);
    assert_eq!(short_piece(0, state, 0), [PIECE_LENGTH; 2]);
    assert_eq!(of(0, waiting, whole, 0), [0, UNRECORDED]);
    assert_eq!(of(0, waiting, whole, 1), [0, RECORD_PENDING]);
    assert_eq!(of(0, state, whole, 1), [0, 0]);
}
