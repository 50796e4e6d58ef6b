//! Each call accepted and refused, on document 01's cases, with a flushed after each store or each run of block stores;
//! load on volumes of the same kind; holder at the spots of added blocks.

mod clients;
mod doubling;
mod moves;
mod pending;
mod racks;
mod table;
mod view;

use crate::raw;
use crate::{Address, Advanced, Block, Part, Reason, Row, Scene, Spot, State, Step};
use crate::{LoadRefusal, Refusal};

/// A medium of arbitrary bytes, with room for `disks` disks.
fn medium(size: u64, rows: u64, disks: u64) -> Vec<u8> {
    (0..State::medium_bytes(size, rows, disks))
        .map(|i| (i * 37 + i / 256) as u8)
        .collect()
}

/// A new volume of blocks of 512 bytes, with nothing pending.
fn formatted(medium: &mut [u8], rows: u64, disks: u64) -> State {
    let mut volume = State::format(medium, 512, rows, disks).unwrap();
    volume.flushed().unwrap();
    volume
}

/// 3 disks of 5 rows, blocks of 512 bytes, room for 6 disks; each block is saved, and nothing is pending.
fn three_disks() -> (Vec<u8>, State) {
    let mut medium = medium(512, 5, 6);
    let mut volume = formatted(&mut medium, 5, 3);
    for block in 0..15 {
        volume
            .write(&mut medium, Block(block), &picture(block))
            .unwrap();
    }
    volume.flushed().unwrap();
    (medium, volume)
}

/// The same volume in a growth to 5 disks, with nothing pending.
fn three_to_five() -> (Vec<u8>, State) {
    let (mut medium, mut volume) = three_disks();
    grow(&mut volume, &mut medium, 5);
    (medium, volume)
}

/// Begins a growth and leaves nothing pending.
fn grow(volume: &mut State, medium: &mut [u8], count: u64) -> u64 {
    let left = volume.grow(medium, count).unwrap();
    volume.flushed().unwrap();
    left
}

/// The same for a growth that may more than double the disks.
fn grow_beyond_doubling(volume: &mut State, medium: &mut [u8], count: u64) -> u64 {
    let left = volume.grow_beyond_doubling(medium, count).unwrap();
    volume.flushed().unwrap();
    left
}

/// Makes a checkpoint, with a flushed before and after it.
fn checkpoint(volume: &mut State, medium: &mut [u8]) -> u64 {
    volume.flushed().unwrap();
    let left = volume.checkpoint(medium).unwrap();
    volume.flushed().unwrap();
    left
}

fn picture(block: u64) -> [u8; 512] {
    std::array::from_fn(|i| (block * 11 + i as u64) as u8)
}

/// Takes a growth to its end and counts the advance calls. Nothing is pending then.
fn finish(volume: &mut State, medium: &mut [u8]) -> u64 {
    let mut calls = 0;
    while volume.is_growing() {
        volume.flushed().unwrap();
        volume.advance(medium).unwrap();
        calls += 1;
    }
    volume.flushed().unwrap();
    calls
}

fn at(volume: &State, block: u64) -> (u64, u64) {
    let spot = volume.address(Block(block)).unwrap().spot;
    (spot.disk, spot.row.0)
}

fn scene(first: u64, count: u64) -> Scene {
    Scene { first, count }
}

/// The numbers of all 16 disks; those not given are 0.
fn served(numbers: &[u64]) -> [u64; 16] {
    std::array::from_fn(|disk| numbers.get(disk).copied().unwrap_or(0))
}

fn with_word(state: &State, word: usize, value: u64) -> State {
    let mut words = state.words();
    words[word] = value;
    State::from_words(words).unwrap()
}

/// The number of open blocks.
fn open_blocks(volume: &State) -> u64 {
    let place = volume.growths() - u64::from(volume.is_growing());
    volume.counts()[place as usize] * volume.rows()
}

/// The state of zeros.
fn zeros() -> State {
    State::from_words([0; raw::STATE_WORDS]).unwrap()
}

#[test]
fn format_stores_the_record_and_nothing_else() {
    let before = medium(512, 5, 3);
    let mut after = before.clone();
    let volume = State::format(&mut after, 512, 5, 3).unwrap();
    assert_eq!(
        volume.words(),
        [512, 5, 0, 3, 0, 0, 0, 0, 0, 0, 0, 0, 0, 0, 0, 1]
    );
    assert!(volume.is_sound());
    assert_eq!(after[512..], before[512..]);
    let mut record = format!(
        "{:10}{:10}{:10}{:10}{:70}{:10}{:10}",
        512, 5, 0, 3, "", 0, 0
    );
    record += &"0".repeat(64);
    record += &" ".repeat(317);
    record += "\n";
    assert_eq!(after[..512], *record.as_bytes());
}

#[test]
fn format_refuses() {
    let mut small = vec![0; State::medium_bytes(512, 5, 3) - 1];
    let before = small.clone();
    for (size, rows, disks) in [
        (0, 5, 3),
        (511, 5, 3),
        (513, 5, 3),
        (66_048, 5, 3),
        (512, 0, 3),
        (512, 1_000_001, 3),
        (512, 5, 0),
        (512, 5, 17),
        (u64::MAX, u64::MAX, u64::MAX),
    ] {
        assert_eq!(
            State::format(&mut small, size, rows, disks),
            Err(Refusal::OutsideLimits)
        );
    }
    assert_eq!(
        State::format(&mut small, 512, 5, 3),
        Err(Refusal::MediumTooShort)
    );
    assert_eq!(
        State::format(
            &mut small,
            State::MOST_SIZE,
            State::MOST_ROWS,
            State::MOST_DISKS
        ),
        Err(Refusal::MediumTooShort)
    );
    assert_eq!(small, before);
}

#[test]
fn limits() {
    let bytes = State::medium_bytes(State::LEAST_SIZE, State::LEAST_ROWS, State::LEAST_DISKS);
    let mut least = vec![0; bytes];
    assert_eq!(bytes, 1024);
    assert!(State::format(
        &mut least,
        State::LEAST_SIZE,
        State::LEAST_ROWS,
        State::LEAST_DISKS
    )
    .is_ok());
    assert_eq!(State::medium_bytes(0, u64::MAX, u64::MAX), 512);
    assert_eq!(State::medium_bytes(1, 1 << 32, 1 << 32), usize::MAX);
    assert_eq!(State::medium_bytes(1, 1, u64::MAX - 512), usize::MAX);
    assert_eq!(State::medium_bytes(1, 1, u64::MAX - 513), usize::MAX - 1);
}

#[test]
fn layout_cases() {
    let (mut medium, mut volume) = three_disks();
    assert_eq!(grow(&mut volume, &mut medium, 5), 7);
    assert_eq!(finish(&mut volume, &mut medium), 7);
    for (block, spot) in [
        (0, (3, 0)),
        (4, (4, 1)),
        (7, (3, 2)),
        (11, (4, 3)),
        (12, (0, 4)),
        (15, (4, 0)),
        (16, (0, 0)),
    ] {
        assert_eq!(at(&volume, block), spot, "block {block}");
    }
    grow(&mut volume, &mut medium, 6);
    finish(&mut volume, &mut medium);
    assert_eq!(at(&volume, 16), (5, 0));
    assert_eq!(at(&volume, 25), (0, 0));
    assert_eq!(volume.counts(), [3, 5, 6, 0, 0, 0, 0, 0]);

    for (rows, first, last, block, spot) in [(3, 1, 4, 1, (2, 1)), (6, 4, 6, 9, (4, 2))] {
        let mut medium = self::medium(512, rows, last);
        let mut volume = formatted(&mut medium, rows, first);
        grow_beyond_doubling(&mut volume, &mut medium, last);
        finish(&mut volume, &mut medium);
        assert_eq!(at(&volume, block), spot);
        assert_eq!(
            volume.address(Block(block)).unwrap().reason,
            Reason::Moved {
                growth: 1,
                part: Part::Body
            }
        );
    }
}

#[test]
fn layout_case_of_two_windows() {
    let mut medium = medium(512, 6, 5);
    let mut volume = formatted(&mut medium, 6, 3);
    assert_eq!(grow(&mut volume, &mut medium, 5), 9);
    assert_eq!(finish(&mut volume, &mut medium), 9);
}

#[test]
fn restart_reads_the_record() {
    let (mut medium, mut volume) = three_to_five();
    volume.copy(&mut medium, Block(0)).unwrap();
    volume.copy(&mut medium, Block(3)).unwrap();
    checkpoint(&mut volume, &mut medium);
    let recorded = volume;
    assert_eq!(volume.copy(&mut medium, Block(4)), Ok(4));
    assert_eq!((volume.recorded(), volume.copied()), (3, 7));

    // Document 01's example of a record.
    let mut record = format!("{:10}{:10}{:10}{:10}{:10}{:60}", 512, 5, 1, 3, 5, "");
    record += &format!("{:10}{:10}11{}{:317}\n", 1, 0, "0".repeat(62), "");
    assert_eq!(medium[..512], *record.as_bytes());

    let restarted = State::restart(&medium).unwrap();
    assert_eq!(restarted.state, recorded);
    assert_eq!(restarted.calls_left, 5);
}

#[test]
fn restart_refuses() {
    let (mut medium, _) = three_disks();
    assert_eq!(State::restart(&medium[..511]), Err(Refusal::MediumTooShort));
    assert_eq!(State::restart(&medium[..512]), Err(Refusal::MediumTooShort));
    assert_eq!(State::restart(&[]), Err(Refusal::MediumTooShort));
    medium[511] = b' ';
    assert_eq!(State::restart(&medium[..512]), Err(Refusal::NoRecord));
}

#[test]
fn every_byte_of_the_record_counts() {
    let (mut medium, volume) = three_disks();
    for place in 0..512 {
        let byte = medium[place];
        medium[place] = b'x';
        assert_eq!(State::restart(&medium), Err(Refusal::NoRecord));
        medium[place] = byte;
    }
    assert_eq!(State::restart(&medium).unwrap().state, volume);
}

#[test]
fn grow_refuses_and_leaves_the_state() {
    let (mut medium, mut volume) = three_disks();
    let before = (medium.clone(), volume);
    for count in [0, 3, 17, u64::MAX] {
        assert_eq!(volume.grow(&mut medium, count), Err(Refusal::OutsideLimits));
    }
    assert_eq!(volume.grow(&mut medium, 7), Err(Refusal::BeyondDoubling));
    let short = State::medium_bytes(512, 5, 6) - 1;
    let refused = volume.grow(&mut medium[..short], 6);
    assert_eq!(refused, Err(Refusal::MediumTooShort));
    assert_eq!((&medium, volume), (&before.0, before.1));

    volume.grow(&mut medium, 5).unwrap();
    assert_eq!(volume.grow(&mut medium, 6), Err(Refusal::Growing));
    volume.flushed().unwrap();
    assert_eq!(volume.grow(&mut medium, 6), Err(Refusal::Growing));
    assert_eq!(State::restart(&medium).unwrap().state, volume);

    let mut medium = self::medium(512, 1, 16);
    let mut volume = formatted(&mut medium, 1, 1);
    for count in 2..=8 {
        grow(&mut volume, &mut medium, count);
        finish(&mut volume, &mut medium);
    }
    assert_eq!(volume.grow(&mut medium, 9), Err(Refusal::NoMoreGrowths));
    assert_eq!(volume.disks(), 8);
}

#[test]
fn copy_and_checkpoint_by_hand() {
    let (mut medium, mut volume) = three_disks();
    assert_eq!(volume.copy(&mut medium, Block(0)), Err(Refusal::NotGrowing));
    assert_eq!(volume.checkpoint(&mut medium), Err(Refusal::NotGrowing));
    assert_eq!(grow(&mut volume, &mut medium, 5), 7);
    assert_eq!(
        volume.checkpoint(&mut medium),
        Err(Refusal::NothingToRecord)
    );
    assert_eq!(
        volume.copy(&mut medium, Block(15)),
        Err(Refusal::BlockNotOpen)
    );
    assert_eq!(volume.copy(&mut medium, Block(12)), Err(Refusal::NotMoving));
    let moving = [11, 8, 7, 4, 3, 0];
    for (done, block) in (1..).zip(moving) {
        assert_eq!(volume.copy(&mut medium, Block(block)), Ok(7 - done));
        assert_eq!(
            volume.copy(&mut medium, Block(block)),
            Err(Refusal::AlreadyCopied)
        );
    }
    assert_eq!(checkpoint(&mut volume, &mut medium), 0);
    assert!(!volume.is_growing());
    let mut piece = [0; 512];
    for block in 0..15 {
        volume.read(&medium, Block(block), &mut piece).unwrap();
        assert_eq!(piece, picture(block));
    }
}

#[test]
fn advance_tells_each_step() {
    let (mut medium, mut volume) = three_disks();
    assert_eq!(volume.advance(&mut medium), Err(Refusal::NotGrowing));
    grow(&mut volume, &mut medium, 5);
    let copied = [
        (0, Part::Head),
        (3, Part::Head),
        (4, Part::Head),
        (7, Part::Tail),
        (8, Part::Tail),
        (11, Part::Tail),
    ];
    let left = volume.advance(&mut medium[..512]);
    assert_eq!(left, Err(Refusal::MediumTooShort));
    for (done, (block, part)) in (1..).zip(copied) {
        let block = Block(block);
        assert_eq!(
            volume.advance(&mut medium),
            Ok(Advanced {
                step: Step::Copied { block, part },
                calls_left: 7 - done
            })
        );
    }
    volume.flushed().unwrap();
    assert_eq!(
        volume.advance(&mut medium),
        Ok(Advanced {
            step: Step::Finished,
            calls_left: 0
        })
    );
}

/// With 6 rows there is a second window.
#[test]
fn advance_goes_on_to_the_next_window() {
    let mut medium = medium(512, 6, 5);
    let mut volume = formatted(&mut medium, 6, 3);
    grow(&mut volume, &mut medium, 5);
    for _ in 0..6 {
        volume.advance(&mut medium).unwrap();
    }
    volume.flushed().unwrap();
    let recorded = volume.advance(&mut medium).unwrap();
    assert_eq!(recorded.step, Step::Recorded);
    assert_eq!((recorded.calls_left, volume.window()), (2, 1));
}

#[test]
fn write_waits_for_the_checkpoint() {
    let (mut medium, mut volume) = three_to_five();
    let piece = [0x5A; 512];
    assert_eq!(volume.write(&mut medium, Block(14), &piece), Ok(()));
    assert_eq!(
        volume.write(&mut medium, Block(15), &piece),
        Err(Refusal::BlockNotOpen)
    );
    volume.copy(&mut medium, Block(0)).unwrap();
    let before = medium.clone();
    assert_eq!(
        volume.write(&mut medium, Block(0), &piece),
        Err(Refusal::CopyNotRecorded)
    );
    assert_eq!(medium, before);
    checkpoint(&mut volume, &mut medium);
    let before = medium.clone();
    assert_eq!(volume.write(&mut medium, Block(0), &piece), Ok(()));
    assert_eq!(medium[..8192], before[..8192]);
    assert_eq!(medium[8192..8704], piece);
    assert_eq!(medium[8704..], before[8704..]);
}

#[test]
fn read_and_write_refuse() {
    let (mut medium, mut volume) = three_disks();
    let enough = State::medium_bytes(512, 5, 3);
    let before = medium.clone();
    for length in [0, 511, 513] {
        let mut piece = vec![0x77; length];
        assert_eq!(
            volume.write(&mut medium, Block(3), &piece),
            Err(Refusal::PieceSize)
        );
        assert_eq!(
            volume.read(&medium, Block(3), &mut piece),
            Err(Refusal::PieceSize)
        );
        assert_eq!(
            volume.read(&medium, Block(15), &mut piece),
            Err(Refusal::BlockNotOpen)
        );
        assert_eq!(
            volume.read(&medium[..enough - 1], Block(15), &mut piece),
            Err(Refusal::MediumTooShort)
        );
        assert!(piece.iter().all(|byte| *byte == 0x77));
    }
    assert_eq!(medium, before);
    let mut piece = [0; 512];
    assert_eq!(volume.read(&medium[..enough], Block(3), &mut piece), Ok(()));
    assert_eq!(piece, picture(3));
    assert_eq!(
        volume.read(&medium, Block(u64::MAX), &mut piece),
        Err(Refusal::BlockNotOpen)
    );
}

#[test]
fn address_tells_why() {
    let (mut medium, mut volume) = three_disks();
    let old = Address {
        spot: Spot {
            disk: 0,
            row: Row(0),
        },
        reason: Reason::SetOut,
        moves: 0,
    };
    let new = Address {
        spot: Spot {
            disk: 3,
            row: Row(0),
        },
        reason: Reason::Moved {
            growth: 1,
            part: Part::Head,
        },
        moves: 1,
    };
    assert_eq!(volume.address(Block(0)), Ok(old));
    assert_eq!(volume.address(Block(15)), Err(Refusal::BlockNotOpen));
    grow(&mut volume, &mut medium, 5);
    volume.copy(&mut medium, Block(0)).unwrap();
    assert_eq!(volume.address(Block(0)), Ok(old));
    checkpoint(&mut volume, &mut medium);
    assert_eq!(volume.address(Block(0)), Ok(new));
    assert_eq!(volume.address(Block(15)), Err(Refusal::BlockNotOpen));
    finish(&mut volume, &mut medium);
    assert_eq!(
        volume.address(Block(15)).unwrap().reason,
        Reason::Added { growth: 1 }
    );
    assert_eq!(volume.address(Block(12)).unwrap().reason, Reason::SetOut);
}

#[test]
fn holder_is_the_way_back() {
    let (mut medium, mut volume) = three_disks();
    assert_eq!(volume.holder(2, Row(4)), Ok(Block(14)));
    assert_eq!(volume.holder(3, Row(0)), Err(Refusal::NoSuchSpot));
    assert_eq!(volume.holder(0, Row(5)), Err(Refusal::NoSuchSpot));
    grow(&mut volume, &mut medium, 5);
    assert_eq!(volume.holder(3, Row(0)), Err(Refusal::NoBlockThere));
    finish(&mut volume, &mut medium);
    for disk in 0..5 {
        for row in (0..5).map(Row) {
            let block = volume.holder(disk, row).unwrap();
            assert_eq!(volume.address(block).unwrap().spot, Spot { disk, row });
        }
    }
}

/// A volume of 40 rows after these growths.
fn grown(counts: &[u64]) -> State {
    let mut words = [0; raw::STATE_WORDS];
    words[..3].copy_from_slice(&[512, 40, counts.len() as u64 - 1]);
    words[3..3 + counts.len()].copy_from_slice(counts);
    State::from_words(words).unwrap()
}

/// Document 02's W3, with the remainder that is never negative, at every spot.
fn added_blocks_are_where_q_tells(counts: &[u64]) {
    let volume = grown(counts);
    let (m, s) = (counts[counts.len() - 2] as i64, 40);
    let n = volume.disks() as i64 - m;
    for (d, b) in (0..m + n).flat_map(|d| (0..s).map(move |b| (d, b))) {
        let q = (d - (b - (n - 1))).rem_euclid(m + n);
        let block = volume.holder(d as u64, Row(b as u64)).unwrap().0 as i64;
        if q < n {
            assert_eq!(block, m * s + b * n + q);
        } else {
            assert!(block < m * s);
        }
    }
}

#[test]
fn holder_of_added_blocks() {
    for disks in 2..=16 {
        for old in 1..disks {
            added_blocks_are_where_q_tells(&[old, disks]);
        }
    }
    added_blocks_are_where_q_tells(&[2, 4, 6, 8, 10, 12, 14, 16]);
    added_blocks_are_where_q_tells(&[1, 2, 3, 4, 5, 6, 7, 16]);
}

#[test]
fn load_counts_the_live_spots() {
    let (mut medium, mut volume) = three_disks();
    let all = [scene(0, 15)];
    assert_eq!(volume.load(&[]), Ok(served(&[])));
    assert_eq!(volume.load(&all), Ok(served(&[5, 5, 5])));
    let twice = [scene(0, 4), scene(u64::MAX, 0), scene(3, 2)];
    assert_eq!(volume.load(&twice), Ok(served(&[3, 2, 1])));

    grow(&mut volume, &mut medium, 5);
    volume.copy(&mut medium, Block(0)).unwrap();
    assert_eq!(volume.load(&all), Ok(served(&[5, 5, 5])));
    checkpoint(&mut volume, &mut medium);
    assert_eq!(volume.load(&all), Ok(served(&[4, 5, 5, 1])));
    finish(&mut volume, &mut medium);
    assert_eq!(volume.load(&all), Ok(served(&[3, 3, 3, 3, 3])));
    let grown = [scene(0, 25)];
    assert_eq!(volume.load(&grown), Ok(served(&[5, 5, 5, 5, 5])));
}

#[test]
fn load_refuses() {
    let (_, volume) = three_to_five();
    let refused = |place| Err(LoadRefusal::Scene { place });
    assert_eq!(volume.load(&[scene(15, 1)]), refused(0));
    assert_eq!(volume.load(&[scene(14, 1), scene(14, 2)]), refused(1));
    assert_eq!(volume.load(&[scene(1, u64::MAX)]), refused(0));
    let mut many = vec![scene(0, 1); raw::MOST_SCENES];
    assert_eq!(volume.load(&many), Ok(served(&[65_536])));
    many.push(scene(0, 0));
    assert_eq!(volume.load(&many), refused(65_536));
    for unsound in [with_word(&volume, 13, 1), zeros()] {
        assert_eq!(unsound.load(&many), Err(LoadRefusal::NotSound));
        assert_eq!(unsound.load(&[]), Err(LoadRefusal::NotSound));
    }
}

/// Every call refuses the state with 1 and leaves it as it was.
fn is_refused(mut damaged: State, medium: &mut [u8]) {
    let kept = damaged;
    let mut piece = [0; 512];
    let refused = Err(Refusal::NotSound);
    assert_eq!(damaged.grow(medium, 6), refused);
    assert_eq!(damaged.grow_beyond_doubling(medium, 6), refused);
    assert_eq!(damaged.copy(medium, Block(0)), refused);
    assert_eq!(damaged.checkpoint(medium), refused);
    assert_eq!(damaged.advance(medium).err(), refused.err());
    let written = damaged.write(medium, Block(0), &piece);
    assert_eq!(written.err(), refused.err());
    let read = damaged.read(medium, Block(0), &mut piece);
    assert_eq!(read.err(), refused.err());
    let shown = damaged.view(medium, &[], 5, Block(0));
    assert_eq!(shown.err(), refused.err());
    assert_eq!(damaged.flushed().err(), refused.err());
    assert_eq!(damaged.address(Block(0)).err(), refused.err());
    assert_eq!(damaged.holder(0, Row(0)).err(), refused.err());
    assert_eq!(damaged, kept);
}

#[test]
fn a_damaged_state_is_refused() {
    let (mut medium, volume) = three_to_five();
    let before = medium.clone();
    for (word, value) in [
        (0, 513),
        (1, 0),
        (2, 8),
        (2, u64::MAX),
        (3, 5),
        (10, 1),
        (11, 2),
        (12, 1),
        (13, 1),
        (14, 1 << 63),
    ] {
        let damaged = with_word(&volume, word, value);
        assert!(!damaged.is_sound(), "word {word} is {value}");
        is_refused(damaged, &mut medium);
    }
    assert_eq!(medium, before);
    assert!(with_word(&volume, 14, 1).is_sound());
    assert_eq!(with_word(&volume, 2, u64::MAX).disks(), 0);
    assert!(!zeros().is_sound());
}

/// With a state of a wrong length a function returns 100 and touches nothing, also when a refusal of document 01 fits too.
#[test]
fn wrong_lengths_touch_nothing() {
    let (mut medium, _) = three_disks();
    let before = medium.clone();
    let mut piece = [9; 512];
    for words in (0..=18).filter(|words| *words != raw::STATE_WORDS) {
        let mut state = [3; 18];
        let state = &mut state[..words];
        let mut figures = [8; 6];
        let answers = [
            raw::format(state, &mut medium, 512, 5, 3),
            raw::format(state, &mut [], 0, 0, 0),
            raw::restart(state, &medium, &mut figures[..1]),
            raw::grow(state, &mut medium, 5, &mut figures[..1]),
            raw::grow_beyond_doubling(state, &mut medium, 5, &mut figures[..1]),
            raw::copy(state, &mut medium, 0, &mut figures[..1]),
            raw::checkpoint(state, &mut medium, &mut figures[..1]),
            raw::advance(state, &mut medium, &mut figures[..4]),
            raw::write(state, &mut medium, 0, &piece),
            raw::flushed(state),
            raw::read(state, &medium, 0, &mut piece),
            raw::view(state, medium.len(), 0, 3, 0, &mut figures[..2]),
            raw::address(state, 0, &mut figures),
            raw::holder(state, 0, 0, &mut figures[..1]),
            raw::soundness(state),
        ];
        assert_eq!(answers, [raw::WRONG_LENGTH; 15]);
        assert!(state.iter().all(|word| *word == 3));
        assert_eq!(figures, [8; 6]);
    }
    assert_eq!(medium, before);
    assert_eq!(piece, [9; 512]);
}

/// The same for figures.
#[test]
fn wrong_lengths_of_figures_touch_nothing() {
    let (mut medium, volume) = three_disks();
    let before = medium.clone();
    for words in 0..=7 {
        let mut figures = [8; 7];
        let figures = &mut figures[..words];
        let mut state = volume.words();
        let mut answers = vec![];
        if words != raw::LEFT_FIGURES {
            answers.push(raw::restart(&mut state, &medium, figures));
            answers.push(raw::restart(&mut state, &[], figures));
            for count in [5, 7] {
                answers.push(raw::grow(&mut state, &mut medium, count, figures));
                let other = raw::grow_beyond_doubling(&mut state, &mut medium, count, figures);
                answers.push(other);
            }
            answers.push(raw::copy(&mut state, &mut medium, 0, figures));
            answers.push(raw::checkpoint(&mut state, &mut medium, figures));
        }
        if words != raw::ADVANCE_FIGURES {
            answers.push(raw::advance(&mut state, &mut medium, figures));
        }
        if words != raw::VIEW_FIGURES {
            answers.push(raw::view(&state, medium.len(), 0, 3, 0, figures));
            answers.push(raw::view(&state, 0, 0, 0, 15, figures));
        }
        if words != raw::ADDRESS_FIGURES {
            answers.push(raw::address(&state, 0, figures));
        }
        if words != raw::HOLDER_FIGURES {
            answers.push(raw::holder(&state, 0, 0, figures));
        }
        assert!(answers.iter().all(|answer| *answer == raw::WRONG_LENGTH));
        assert!(figures.iter().all(|word| *word == 8));
        assert_eq!(state, volume.words());
    }
    assert_eq!(medium, before);
}

/// The same for load, also with a list that is refused.
#[test]
fn load_of_wrong_lengths_touches_nothing() {
    let (_, volume) = three_disks();
    let lists = [vec![], vec![scene(0, 15)], vec![scene(15, 1)]];
    for list in &lists {
        for words in (0..=18).filter(|words| *words != raw::STATE_WORDS) {
            let mut figures = [8; raw::LOAD_FIGURES];
            let answer = raw::load(&[0; 18][..words], list, &mut figures);
            assert_eq!((answer, figures), (raw::WRONG_LENGTH, [8; 17]));
        }
        for words in (0..=20).filter(|words| *words != raw::LOAD_FIGURES) {
            let mut figures = [8; 20];
            let answer = raw::load(&volume.words(), list, &mut figures[..words]);
            assert_eq!((answer, figures), (raw::WRONG_LENGTH, [8; 20]));
            let answer = raw::load(&[0; raw::STATE_WORDS], list, &mut figures[..words]);
            assert_eq!((answer, figures), (raw::WRONG_LENGTH, [8; 20]));
        }
    }
}

/// A refusal of document 01 has 0 for every figure; format and restart also hand back a state of zeros.
#[test]
fn refusals_have_zeros() {
    let (mut medium, volume) = three_disks();
    let zeros = [0; raw::STATE_WORDS];
    let mut state = volume.words();
    assert_eq!(raw::format(&mut state, &mut medium, 512, 5, 17), 8);
    assert_eq!(state, zeros);
    state = volume.words();
    let mut left = [6];
    assert_eq!(raw::restart(&mut state, &medium[..100], &mut left), 2);
    assert_eq!((state, left), (zeros, [0]));
    state = volume.words();
    left = [6];
    assert_eq!(raw::grow(&mut state, &mut medium, 3, &mut left), 8);
    assert_eq!((state, left), (volume.words(), [0]));
    left = [6];
    assert_eq!(raw::grow(&mut state, &mut medium, 7, &mut left), 20);
    assert_eq!((state, left), (volume.words(), [0]));
    left = [6];
    let refused = raw::grow_beyond_doubling(&mut state, &mut medium, 7, &mut left);
    assert_eq!((refused, state, left), (2, volume.words(), [0]));
    left = [6];
    assert_eq!(raw::copy(&mut state, &mut medium, 0, &mut left), 5);
    assert_eq!(left, [0]);
    left = [6];
    assert_eq!(raw::checkpoint(&mut state, &mut medium, &mut left), 5);
    assert_eq!(left, [0]);
    let mut figures = [6; 4];
    assert_eq!(raw::advance(&mut state, &mut medium, &mut figures), 5);
    assert_eq!(figures, [0; 4]);
    let mut figures = [6; 6];
    assert_eq!(raw::address(&state, 15, &mut figures), 3);
    assert_eq!(figures, [0; 6]);
    left = [6];
    assert_eq!(raw::holder(&state, 3, 0, &mut left), 14);
    assert_eq!(left, [0]);
    assert_eq!(state, volume.words());
}

/// The one figure of a refusal that is not 0 is the place of a scene.
#[test]
fn refusals_of_load_have_zeros() {
    let (_, volume) = three_disks();
    let mut figures = [6; raw::LOAD_FIGURES];
    let list = [scene(0, 15), scene(0, 15), scene(15, 1)];
    assert_eq!(raw::load(&volume.words(), &list, &mut figures), 17);
    let (place, disks) = figures.split_first().unwrap();
    assert_eq!((*place, disks), (2, &[0; 16][..]));
    figures = [6; raw::LOAD_FIGURES];
    assert_eq!(raw::load(&[0; raw::STATE_WORDS], &list, &mut figures), 1);
    assert_eq!(figures, [0; raw::LOAD_FIGURES]);
    figures = [6; raw::LOAD_FIGURES];
    assert_eq!(raw::load(&volume.words(), &[], &mut figures), 0);
    assert_eq!(figures, [0; raw::LOAD_FIGURES]);
}

#[test]
fn refusals_have_their_numbers() {
    let numbers = (1..=15).chain([18, 19, 20, 21]);
    assert_eq!(numbers.clone().count(), Refusal::ALL.len());
    for (number, refusal) in numbers.zip(Refusal::ALL) {
        assert_eq!(refusal.number(), number);
        assert_eq!(Refusal::from_number(number), Some(refusal));
        assert!(!refusal.to_string().is_empty());
    }
    for number in [0, 16, 17, 22, raw::WRONG_LENGTH, u64::MAX] {
        assert_eq!(Refusal::from_number(number), None);
    }
    let refused = LoadRefusal::Scene { place: 3 };
    assert_eq!((LoadRefusal::NotSound.number(), refused.number()), (1, 17));
    assert_eq!(
        LoadRefusal::NotSound.to_string(),
        Refusal::NotSound.to_string()
    );
    assert!(refused.to_string().contains("place 3"));
}

#[test]
fn a_state_shows_its_numbers() {
    let (mut medium, mut volume) = three_to_five();
    volume.advance(&mut medium).unwrap();
    assert_eq!(
        format!("{volume:?}"),
        "State { size: 512, rows: 5, growths: 1, counts: [3, 5, 0, 0, 0, 0, 0, 0], \
         growing: 1, window: 0, recorded: 0, copied: 1, pending: 2 }"
    );
    assert_eq!(
        (
            volume.size(),
            volume.rows(),
            volume.growths(),
            volume.disks()
        ),
        (512, 5, 1, 5)
    );
    assert_eq!(State::from_words(volume.words()), Some(volume));
}
