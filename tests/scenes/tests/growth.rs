//! Load while a growth runs on a medium.

use reference::sample::Random;
use reference::state::State;
use scenes::{compared, scene, Answer};
use streterva::{self as library, Block, Refusal};

/// The state, as the reference has it.
fn plain(volume: &library::State) -> State {
    State::from_words(&volume.words()).expect("a state")
}

/// One call of a growth, taken at random, most often with nothing pending. A
/// checkpoint may have nothing to record, a block not be one to copy, and a
/// record store have to wait for a flushed.
fn step(random: &mut Random, volume: &mut library::State, medium: &mut [u8]) {
    if random.percent(70) {
        volume.flushed().unwrap();
    }
    let block = Block(random.below(plain(volume).open()));
    let refusal = match random.below(8) {
        0 => volume.checkpoint(medium).err(),
        1..=3 => volume.advance(medium).err(),
        _ => volume.copy(medium, block).err(),
    };
    assert!(matches!(
        refusal,
        None | Some(
            Refusal::NothingToRecord
                | Refusal::NotMoving
                | Refusal::AlreadyCopied
                | Refusal::FlushBlocks
                | Refusal::FlushRecord
        )
    ));
}

/// What a checkpoint changes in a state.
fn recorded(volume: &library::State) -> (bool, u64, u64) {
    (volume.is_growing(), volume.window(), volume.recorded())
}

/// The answer for the first `open` blocks, which is the sum of the answers for
/// each of them.
fn load(volume: &library::State, open: u64) -> Answer {
    let state = plain(volume);
    let all = compared(&state, &[scene(0, open)]);
    let mut sum = [0; scenes::DISKS];
    for block in 0..open {
        let single = compared(&state, &[scene(block, 1)]);
        let disk = volume.address(Block(block)).unwrap().spot.disk;
        assert_eq!(single.served[disk as usize], 1);
        sum[disk as usize] += 1;
    }
    assert_eq!(all.served, sum);
    all
}

/// Takes a growth, beyond doubling too, to its end. The numbers change at
/// checkpoints and at no other call, and after a power cut that leaves the
/// newest record they are the same. Returns the checkpoints.
fn run(random: &mut Random, volume: &mut library::State, medium: &mut [u8], count: u64) -> u64 {
    let open = plain(volume).open();
    let mut last = load(volume, open);
    volume.flushed().unwrap();
    volume.grow_beyond_doubling(medium, count).unwrap();
    assert_eq!(load(volume, open), last);
    let mut checkpoints = 0;
    while volume.is_growing() {
        let before = recorded(volume);
        step(random, volume, medium);
        let now = load(volume, open);
        assert_eq!(now != last, recorded(volume) != before);
        let restarted = library::State::restart(medium).unwrap().state;
        assert_eq!(restarted.load(&[scene(0, open)]), Ok(now.served));
        checkpoints += u64::from(now != last);
        last = now;
    }
    checkpoints
}

/// A volume of `rows` rows that grows through all `counts`.
fn grows(seed: u64, rows: u64, counts: &[u64]) {
    let mut random = Random::new(seed);
    let disks = counts[counts.len() - 1];
    let mut medium = vec![0; library::State::medium_bytes(512, rows, disks)];
    let mut volume = library::State::format(&mut medium, 512, rows, counts[0]).unwrap();
    for &count in &counts[1..] {
        let checkpoints = run(&mut random, &mut volume, &mut medium, count);
        assert!(checkpoints >= rows.div_ceil(count));
        let full = load(&volume, count * rows);
        assert!(full.served[..count as usize].iter().all(|&n| n == rows));
    }
}

#[test]
fn three_to_five() {
    for seed in 0..10 {
        grows(seed, 13, &[3, 5]);
    }
}

#[test]
fn several_growths() {
    grows(20, 20, &[3, 5, 6, 9, 16]);
    grows(21, 9, &[1, 2, 3, 4, 5, 6, 7, 8]);
    grows(22, 35, &[1, 16]);
    grows(23, 17, &[8, 16]);
}
