//! View, with every number of disks on the first shelf: what it shows and where that lies, each refusal in its order.

use super::*;

/// The bytes that two shelves need, with these disks on the first.
fn needed(volume: &State, first_disks: u64) -> [usize; 2] {
    let medium_bytes = |disks| State::medium_bytes(volume.size(), volume.rows(), disks);
    let first = medium_bytes(first_disks);
    [first, medium_bytes(volume.disks()) - first]
}

/// The number and the figures of a view on shelves of these lengths.
fn told(volume: &State, bytes: [usize; 2], first_disks: u64, block: u64) -> (u64, [u64; 2]) {
    let mut figures = [9; raw::VIEW_FIGURES];
    let [first, second] = bytes;
    let number = raw::view(
        &volume.words(),
        first,
        second,
        first_disks,
        block,
        &mut figures,
    );
    (number, figures)
}

/// What is shown lives as long as the shelves: the state ends here.
fn shown(volume: State, shelves: [&[u8]; 2], first_disks: u64, block: Block) -> &[u8] {
    let [first, second] = shelves;
    volume.view(first, second, first_disks, block).unwrap()
}

/// The part of its shelf that the block's live spot is, by document 02's words and the place of a spot.
fn live_part<'a>(
    volume: &State,
    shelves: [&'a [u8]; 2],
    first_disks: u64,
    block: Block,
) -> &'a [u8] {
    let Spot { disk, row } = volume.address(block).unwrap().spot;
    let size = volume.size() as usize;
    let place = |disk| (disk * volume.rows() + row.0) as usize * size;
    if disk < first_disks {
        &shelves[0][State::RECORD_BYTES + place(disk)..][..size]
    } else {
        &shelves[1][place(disk - first_disks)..][..size]
    }
}

/// Every open block on two shelves with spare bytes, beside what read gives on the two joined without them.
fn shows_what_read_gives(volume: &State, medium: &[u8], first_disks: u64, spare: [usize; 2]) {
    let [first_bytes, second_bytes] = needed(volume, first_disks);
    let joined = &medium[..first_bytes + second_bytes];
    let (first, second) = joined.split_at(first_bytes);
    let first = [first, &vec![0xEE; spare[0]]].concat();
    let second = [second, &vec![0xDD; spare[1]]].concat();
    let shelves = [&first[..], &second[..]];
    for block in (0..open_blocks(volume)).map(Block) {
        let mut piece = vec![0; volume.size() as usize];
        volume.read(joined, block, &mut piece).unwrap();
        let shown = shown(*volume, shelves, first_disks, block);
        let part = live_part(volume, shelves, first_disks, block);
        assert_eq!(shown, piece);
        assert_eq!(shown.as_ptr_range(), part.as_ptr_range());
    }
}

/// Every number of disks on the first shelf; without spare bytes, with some on either shelf and on both.
fn every_cut(volume: &State, medium: &[u8]) {
    for first_disks in 1..=volume.disks() {
        shows_what_read_gives(volume, medium, first_disks, [0, 0]);
        shows_what_read_gives(volume, medium, first_disks, [1, 0]);
        shows_what_read_gives(volume, medium, first_disks, [0, 511]);
        shows_what_read_gives(volume, medium, first_disks, [5120, 513]);
    }
}

/// Advances to the end of a growth, with every view before it and after each call.
fn every_cut_to_the_end(volume: &mut State, medium: &mut [u8]) {
    every_cut(volume, medium);
    while volume.is_growing() {
        volume.flushed().unwrap();
        volume.advance(medium).unwrap();
        every_cut(volume, medium);
    }
    volume.flushed().unwrap();
}

#[test]
fn view_shows_what_read_gives() {
    let (mut medium, mut volume) = three_disks();
    every_cut(&volume, &medium);
    grow(&mut volume, &mut medium, 5);
    every_cut_to_the_end(&mut volume, &mut medium);
    grow(&mut volume, &mut medium, 6);
    every_cut_to_the_end(&mut volume, &mut medium);
}

/// Blocks of another size and two windows, the first of them recorded in part.
#[test]
fn view_of_larger_blocks_in_two_windows() {
    let mut medium = medium(1536, 6, 5);
    let mut volume = State::format(&mut medium, 1536, 6, 3).unwrap();
    every_cut(&volume, &medium);
    volume.flushed().unwrap();
    grow(&mut volume, &mut medium, 5);
    for block in [7, 0] {
        volume.copy(&mut medium, Block(block)).unwrap();
        every_cut(&volume, &medium);
        checkpoint(&mut volume, &mut medium);
        volume
            .write(&mut medium, Block(block), &[0x5A; 1536])
            .unwrap();
        every_cut(&volume, &medium);
    }
    every_cut_to_the_end(&mut volume, &mut medium);
}

/// A copy alone changes nothing; recorded, the block is shown at its new spot, which is byte 8,192 of a medium.
#[test]
fn view_follows_the_live_spot() {
    let (mut medium, mut volume) = three_to_five();
    let places = |volume: &State| {
        [3, 4, 5].map(|first_disks| told(volume, needed(volume, first_disks), first_disks, 0))
    };
    let old = [(0, [1, 512]); 3];
    assert_eq!(places(&volume), old);
    volume.copy(&mut medium, Block(0)).unwrap();
    assert_eq!(places(&volume), old);
    checkpoint(&mut volume, &mut medium);
    let new = [(0, [2, 0]), (0, [1, 8192]), (0, [1, 8192])];
    assert_eq!(places(&volume), new);
    finish(&mut volume, &mut medium);
    assert_eq!(places(&volume), new);
}

/// The largest volume: the last block, and each shelf a byte too short.
#[test]
fn view_of_the_largest_volume() {
    let rows = with_word(&grown(&[16]), 1, State::MOST_ROWS);
    let volume = with_word(&rows, 0, State::MOST_SIZE);
    let last = open_blocks(&volume) - 1;
    let [first, second] = needed(&volume, 1);
    assert_eq!([first, second], [65_536_000_512, 983_040_000_000]);
    let bytes = 14_999_999 * State::MOST_SIZE;
    assert_eq!(told(&volume, [first, second], 1, last), (0, [2, bytes]));
    assert_eq!(told(&volume, [first - 1, second], 1, last), (2, [0, 0]));
    assert_eq!(told(&volume, [first, second - 1], 1, last), (2, [0, 0]));
    let all = needed(&volume, 16);
    let bytes = 512 + 15_999_999 * State::MOST_SIZE;
    assert_eq!(told(&volume, all, 16, last), (0, [1, bytes]));
    assert_eq!(told(&volume, [all[0] - 1, 0], 16, last), (2, [0, 0]));
}

/// What may be wrong with a view, in the order of the tests.
#[derive(Clone, Copy, Debug)]
struct Faults {
    state: bool,
    first_disks: Option<u64>,
    first: bool,
    second: bool,
    block: Option<u64>,
}

impl Faults {
    /// Each set of faults, with this number of disks and this block where they are wrong.
    fn all(first_disks: u64, block: u64) -> impl Iterator<Item = Faults> {
        (0..32).map(move |set: u32| Faults {
            state: set & 1 != 0,
            first_disks: (set & 2 != 0).then_some(first_disks),
            first: set & 4 != 0,
            second: set & 8 != 0,
            block: (set & 16 != 0).then_some(block),
        })
    }

    /// The number of the first fault.
    fn number(self) -> u64 {
        match self {
            Faults { state: true, .. } => 1,
            Faults {
                first_disks: Some(_),
                ..
            } => 8,
            Faults { first: true, .. } | Faults { second: true, .. } => 2,
            Faults { block: Some(_), .. } => 3,
            _ => 0,
        }
    }
}

/// A view with these faults; a shelf has a byte too few or so many to spare. Refused, the figures are 0.
fn has_the_first_number(volume: &State, first_disks: u64, spare: usize, faults: Faults) {
    let [first, second] = needed(volume, first_disks);
    let faults = Faults {
        second: faults.second && second > 0,
        ..faults
    };
    let length = |needed: usize, short| if short { needed - 1 } else { needed + spare };
    let state = if faults.state {
        with_word(volume, 10, 1)
    } else {
        *volume
    };
    let (number, figures) = told(
        &state,
        [length(first, faults.first), length(second, faults.second)],
        faults.first_disks.unwrap_or(first_disks),
        faults.block.unwrap_or(0),
    );
    assert_eq!(number, faults.number(), "{first_disks} {spare} {faults:?}");
    assert_eq!(figures == [0, 0], number != 0);
}

/// Each set of faults, with other wrong numbers of disks and other blocks that are not open.
fn refuses_in_order(volume: &State, first_disks: u64, spare: usize) {
    let open = open_blocks(volume);
    let sets = Faults::all(0, open)
        .chain(Faults::all(volume.disks() + 1, u64::MAX))
        .chain(Faults::all(u64::MAX, open + 1));
    for faults in sets {
        has_the_first_number(volume, first_disks, spare, faults);
    }
}

/// Every number of disks on the first shelf, with and without spare bytes.
fn every_cut_refuses_in_order(volume: &State) {
    for first_disks in 1..=volume.disks() {
        refuses_in_order(volume, first_disks, 0);
        refuses_in_order(volume, first_disks, 1);
        refuses_in_order(volume, first_disks, 1 << 62);
    }
}

#[test]
fn view_refuses_in_order() {
    let (mut medium, mut volume) = three_disks();
    every_cut_refuses_in_order(&volume);
    grow(&mut volume, &mut medium, 5);
    every_cut_refuses_in_order(&volume);
    finish(&mut volume, &mut medium);
    every_cut_refuses_in_order(&volume);
}

/// While a growth runs N[t] counts: its disks are needed, and its blocks are not open.
#[test]
fn view_refuses() {
    let (medium, volume) = three_to_five();
    let (first, second) = medium[..State::medium_bytes(512, 5, 5)].split_at(512 + 3 * 5 * 512);
    let refused = |refusal| Err::<&[u8], _>(refusal);
    let view = |first, second, first_disks| volume.view(first, second, first_disks, Block(14));
    assert_eq!(view(first, second, 3), Ok(&picture(14)[..]));
    assert_eq!(view(&medium, &[], 5), Ok(&picture(14)[..]));
    assert_eq!(view(first, second, 0), refused(Refusal::OutsideLimits));
    assert_eq!(view(&medium, &[], 6), refused(Refusal::OutsideLimits));
    let too_short = refused(Refusal::MediumTooShort);
    assert_eq!(view(first, &[], 3), too_short);
    assert_eq!(view(&medium, &[], 3), too_short);
    assert_eq!(view(&[], &medium, 3), too_short);
    assert_eq!(view(first, &second[1..], 3), too_short);
    assert_eq!(view(&first[1..], second, 3), too_short);
    let not_open = volume.view(first, second, 3, Block(15));
    assert_eq!(not_open, refused(Refusal::BlockNotOpen));
    let unsound = zeros().view(first, second, 3, Block(14));
    assert_eq!(unsound, refused(Refusal::NotSound));
}
