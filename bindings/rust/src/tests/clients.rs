//! Two clients: span tables made and refused, 21 and its place among the refusals, and what a client reads beside
//! another that writes.

use super::*;
use crate::raw::{MOST_REACHED, SPAN_WORDS, WRONG_LENGTH};
use crate::{Client, Span, Spans};

fn span(first: u64, count: u64) -> Span {
    Span { first, count }
}

/// Client 0 has blocks 0 to 6, client 1 has 7 to 14 and all that are added.
fn two_clients() -> Spans {
    Spans::new(span(0, 7), span(7, MOST_REACHED - 7)).unwrap()
}

#[test]
fn tables_that_are_made() {
    let most = MOST_REACHED;
    for (a, b) in [
        (span(0, 7), span(7, 8)),
        (span(0, 7), span(9, 8)),
        (span(0, most), span(most, 0)),
        (span(most - 1, 1), span(0, most - 1)),
        (span(most, 0), span(most, 0)),
        (span(5, 0), span(0, 15)),
        (span(0, 0), span(0, 15)),
        (span(0, 0), span(0, 0)),
    ] {
        for (zero, one) in [(a, b), (b, a)] {
            let table = Spans::new(zero, one).unwrap();
            let words = [zero.first, zero.count, one.first, one.count];
            assert_eq!(table.words(), words);
            assert_eq!(table.of(Client::Zero), zero);
            assert_eq!(table.of(Client::One), one);
        }
    }
}

#[test]
fn tables_that_are_refused_are_zeros() {
    let most = MOST_REACHED;
    for [a, b] in [
        [span(0, 7), span(6, 1)],
        [span(0, 7), span(0, 7)],
        [span(0, 7), span(3, 1)],
        [span(0, most), span(most - 1, 1)],
        [span(most, 1), span(0, 0)],
        [span(most - 1, 2), span(0, 0)],
        [span(0, most + 1), span(0, 0)],
        [span(most + 1, 0), span(0, 0)],
        [span(1, u64::MAX), span(0, 0)],
        [span(u64::MAX, 0), span(0, 0)],
        [span(u64::MAX, 1), span(0, 0)],
        [span(u64::MAX, u64::MAX), span(0, 0)],
    ] {
        for (zero, one) in [(a, b), (b, a)] {
            let mut words = [zero.first, zero.count, one.first, one.count];
            assert_eq!(raw::spans(&mut words), 21, "{zero:?}, {one:?}");
            assert_eq!(words, [0; SPAN_WORDS]);
            assert_eq!(Spans::new(zero, one), Err(Refusal::OutsideSpan));
        }
    }
}

#[test]
fn a_table_has_four_words() {
    for count in [0, 3, 5] {
        let mut words = vec![7; count];
        assert_eq!(raw::spans(&mut words), WRONG_LENGTH);
        assert_eq!(words, vec![7; count]);
    }
}

/// Every block and client on a volume of 15 blocks: 21 exactly outside the span, and inside it what read and write say.
#[test]
fn each_block_is_one_clients() {
    let (medium, volume) = three_disks();
    let spans = two_clients().words();
    for (client, block) in (0..4).flat_map(|client| (0..20).map(move |block| (client, block))) {
        let own = match client {
            0 => block < 7,
            1 => block >= 7,
            _ => false,
        };
        let (mut piece, mut plain) = ([9; 512], [9; 512]);
        let got = raw::client_read(&spans, client, &volume.words(), &medium, block, &mut piece);
        let read = raw::read(&volume.words(), &medium, block, &mut plain);
        let wanted = if own { (read, plain) } else { (21, [9; 512]) };
        assert_eq!((got, piece), wanted, "client {client}, block {block}");

        let (mut words, mut after) = (volume.words(), medium.clone());
        let (mut plain_words, mut plain_after) = (volume.words(), medium.clone());
        let got = raw::client_write(&spans, client, &mut words, &mut after, block, &[5; 512]);
        let mut wanted = 21;
        if own {
            wanted = raw::write(&mut plain_words, &mut plain_after, block, &[5; 512]);
        }
        assert_eq!(got, wanted, "client {client}, block {block}");
        assert_eq!((words, after), (plain_words, plain_after));
    }
}

#[test]
fn clients_save_and_read() {
    let (mut medium, mut volume) = three_disks();
    let spans = two_clients();
    for (client, block) in [
        (Client::Zero, 0),
        (Client::Zero, 6),
        (Client::One, 7),
        (Client::One, 14),
    ] {
        let (saved, mut piece) = ([block as u8; 512], [99; 512]);
        let block = Block(block);
        volume
            .client_write(&spans, client, &mut medium, block, &saved)
            .unwrap();
        volume.flushed().unwrap();
        volume
            .client_read(&spans, client, &medium, block, &mut piece)
            .unwrap();
        assert_eq!(piece, saved);
        volume.read(&medium, block, &mut piece).unwrap();
        assert_eq!(piece, saved);
    }
    let outside = Err(Refusal::OutsideSpan);
    let read = volume.client_read(&spans, Client::Zero, &medium, Block(7), &mut [0; 512]);
    assert_eq!(read, outside);
    let write = volume.client_write(&spans, Client::One, &mut medium, Block(6), &[0; 512]);
    assert_eq!(write, outside);
}

/// What both calls of a client are given.
#[derive(Clone, Copy)]
struct Given<'a> {
    spans: &'a [u64],
    client: u64,
    words: &'a [u64],
    medium: &'a [u8],
    block: u64,
    bytes: usize,
}

impl Given<'_> {
    /// The numbers of the read and of the write. What is refused leaves piece, state and medium.
    fn numbers(self) -> [u64; 2] {
        let mut piece = vec![9; self.bytes];
        let read = raw::client_read(
            self.spans,
            self.client,
            self.words,
            self.medium,
            self.block,
            &mut piece,
        );
        if read != 0 {
            assert_eq!(piece, vec![9; self.bytes]);
        }
        let (mut words, mut medium) = (self.words.to_vec(), self.medium.to_vec());
        let write = raw::client_write(
            self.spans,
            self.client,
            &mut words,
            &mut medium,
            self.block,
            &vec![5; self.bytes],
        );
        if write != 0 {
            assert_eq!((&words[..], &medium[..]), (self.words, self.medium));
        }
        [read, write]
    }
}

/// Each reason for 21 alone: block, client and table.
#[test]
fn reasons_for_21() {
    let (medium, volume) = three_disks();
    let (spans, words) = ([2, 3, 5, 4], volume.words());
    let own = Given {
        spans: &spans,
        client: 0,
        words: &words,
        medium: &medium,
        block: 2,
        bytes: 512,
    };
    assert_eq!(own.numbers(), [0, 0]);
    assert_eq!(Given { block: 4, ..own }.numbers(), [0, 0]);
    for block in [0, 1, 5, 9, 14, 15, MOST_REACHED, u64::MAX] {
        assert_eq!(Given { block, ..own }.numbers(), [21, 21]);
    }
    for client in [1, 2, 3, 256, 1 << 32, u64::MAX] {
        assert_eq!(Given { client, ..own }.numbers(), [21, 21]);
    }
    for spans in [
        [0; SPAN_WORDS],
        [2, 0, 5, 4],
        [2, 3, 4, 1],
        [2, 3, 0, 15],
        [2, MOST_REACHED - 1, 0, 0],
        [2, 3, 5, MOST_REACHED - 4],
        [2, 3, u64::MAX, 1],
        [2, 3, u64::MAX, u64::MAX],
        [2, u64::MAX, 0, 0],
    ] {
        let spans = &spans;
        assert_eq!(Given { spans, ..own }.numbers(), [21, 21], "{spans:?}");
    }
}

/// Each two neighbours in 1, 21, 2, 3, 4 and, of a write, 7, 19; and 21 with each that comes after it.
#[test]
fn order_of_the_refusals() {
    let (mut medium, mut volume) = three_to_five();
    volume.copy(&mut medium, Block(0)).unwrap();
    volume.flushed().unwrap();
    let (spans, words) = (two_clients().words(), volume.words());
    let unsound = with_word(&volume, 10, 1).words();
    let waiting = with_word(&volume, 15, 1).words();
    let short = &medium[..State::medium_bytes(512, 5, 5) - 1];
    let given = |client, words, medium, block, bytes| {
        let spans = &spans;
        let given = Given {
            spans,
            client,
            words,
            medium,
            block,
            bytes,
        };
        given.numbers()
    };
    // Client 0 has block 0, copied and not recorded; client 1 has block 15, not open.
    assert_eq!(given(0, &unsound, &medium, 7, 512), [1, 1]);
    assert_eq!(given(0, &unsound, &medium, 0, 512), [1, 1]);
    assert_eq!(given(0, &words, short, 7, 512), [21, 21]);
    assert_eq!(given(0, &words, &medium, 15, 512), [21, 21]);
    assert_eq!(given(0, &words, &medium, 7, 511), [21, 21]);
    assert_eq!(given(1, &words, &medium, 0, 512), [21, 21]);
    assert_eq!(given(0, &waiting, &medium, 7, 512), [21, 21]);
    assert_eq!(given(0, &words, short, 0, 512), [2, 2]);
    assert_eq!(given(1, &words, short, 15, 512), [2, 2]);
    assert_eq!(given(1, &words, &medium, 15, 512), [3, 3]);
    assert_eq!(given(1, &words, &medium, 15, 511), [3, 3]);
    assert_eq!(given(0, &words, &medium, 0, 511), [4, 4]);
    assert_eq!(given(0, &words, &medium, 0, 512), [0, 7]);
    assert_eq!(given(0, &waiting, &medium, 0, 512), [0, 7]);
    assert_eq!(given(0, &waiting, &medium, 1, 512), [0, 19]);
    assert_eq!(given(0, &words, &medium, 1, 512), [0, 0]);
}

#[test]
fn wrong_lengths() {
    let (medium, volume) = three_disks();
    let (spans, words) = (two_clients().words(), volume.words());
    let right = Given {
        spans: &spans,
        client: 0,
        words: &words,
        medium: &medium,
        block: 0,
        bytes: 512,
    };
    for spans in [&spans[..0], &spans[1..], &[0; 5]] {
        assert_eq!(Given { spans, ..right }.numbers(), [WRONG_LENGTH; 2]);
    }
    for words in [&words[..0], &words[1..], &[0; 17]] {
        assert_eq!(Given { words, ..right }.numbers(), [WRONG_LENGTH; 2]);
    }
    let mut no_state = words;
    no_state[15] = 4;
    let words = &no_state;
    assert_eq!(Given { words, ..right }.numbers(), [WRONG_LENGTH; 2]);
}

/// All that client 0 reads in a growth to 5 disks with a restart after each checkpoint, while client 1 writes or not.
fn reads_of_client_0(other_writes: bool) -> Vec<[u8; 512]> {
    let (mut medium, mut volume) = three_to_five();
    let spans = two_clients();
    let mut seen = Vec::new();
    while volume.is_growing() {
        for block in (7..15).map(Block) {
            if other_writes {
                let piece = [volume.recorded() as u8; 512];
                volume
                    .client_write(&spans, Client::One, &mut medium, block, &piece)
                    .unwrap();
            }
            volume.flushed().unwrap();
        }
        volume.advance(&mut medium).unwrap();
        volume.flushed().unwrap();
        volume.checkpoint(&mut medium).unwrap();
        volume.flushed().unwrap();
        volume = State::restart(&medium).unwrap().state;
        for block in (0..7).map(Block) {
            let mut piece = [0; 512];
            volume
                .client_read(&spans, Client::Zero, &medium, block, &mut piece)
                .unwrap();
            seen.push(piece);
        }
    }
    seen
}

#[test]
fn one_client_reads_the_same_beside_the_other() {
    let seen = reads_of_client_0(false);
    assert_eq!(seen, reads_of_client_0(true));
    let pictures: Vec<_> = (0..7).map(picture).collect();
    assert!(seen.chunks(7).all(|reads| reads == pictures));
    assert_eq!(seen.len(), 6 * 7);
}

/// Without a flushed after the other's write the rack's next grow waits, with 18.
#[test]
fn without_flushed_18_depends_on_the_other() {
    let (mut medium, mut volume) = three_disks();
    let (mut other_medium, mut other) = (medium.clone(), volume);
    other
        .client_write(
            &two_clients(),
            Client::One,
            &mut other_medium,
            Block(7),
            &[1; 512],
        )
        .unwrap();
    assert_eq!(volume.grow(&mut medium, 5), Ok(7));
    let waits = other.grow(&mut other_medium, 5);
    assert_eq!(waits, Err(Refusal::FlushBlocks));
}
