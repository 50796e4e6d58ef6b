//! The largest volume, all of it in one list. `--nocapture` shows the times.

use reference::sample::{at_rest, growing};
use reference::state::State;
use scenes::{adds_up, answer, scene, whole, Answer};
use std::time::{Duration, Instant};
use streterva::Scene;

const ROWS: u64 = 1_000_000;
const COUNTS: [u64; 8] = [2, 4, 6, 8, 10, 12, 14, 16];

/// The answer to an accepted list, in no more than a minute.
fn timed(name: &str, state: &State, scenes: &[Scene]) -> Answer {
    assert!(state.sound());
    let start = Instant::now();
    let given = answer(state, scenes);
    let time = start.elapsed();
    assert_eq!((given.number, given.place), (0, 0));
    adds_up(state, scenes, &given);
    let blocks: u64 = scenes.iter().map(|scene| scene.count).sum();
    let each = time.as_nanos() as f64 / blocks as f64;
    println!("{name}: {blocks} blocks in {time:.1?}, {each:.1} ns a block");
    assert!(time < Duration::from_secs(60), "{time:?}");
    given
}

/// At rest each spot has one block.
#[test]
fn at_rest_all_blocks() {
    let state = at_rest(&COUNTS, ROWS);
    let scenes = [whole(&state)];
    assert_eq!(scenes, [scene(0, 16_000_000)]);
    let answer = timed("at rest", &state, &scenes);
    assert_eq!(answer.served, [ROWS; 16]);
}

/// In the middle of the last growth. In each finished window 2 blocks have left
/// each of the 14 old disks; of window w, both that leave disk 0 and one that
/// leaves disk 1.
#[test]
fn growing_all_blocks() {
    let w = 31_250;
    let state = growing(&COUNTS, ROWS, w, 0b111);
    let scenes = [whole(&state)];
    assert_eq!(scenes, [scene(0, 14_000_000)]);
    let answer = timed("growing", &state, &scenes);
    let left = ROWS - 2 * w;
    assert_eq!(answer.served[..2], [left - 2, left - 1]);
    assert_eq!(answer.served[2..14], [left; 12]);
    let new: u64 = answer.served[14..].iter().sum();
    assert_eq!(new, 28 * w + 3);
}
