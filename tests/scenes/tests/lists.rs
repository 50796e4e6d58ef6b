//! Lists of scenes: counted by hand, with blocks named more than once, with
//! empty scenes, with scenes that end at the last open block or after it, and
//! lists that are too long.

use reference::sample::{at_rest, growing};
use reference::state::State;
use scenes::{compared, refused, scene, served, whole, MOST};
use streterva::Scene;

/// Document 02's chart: counts 1, 3, growth finished, s = 3. Disk 0 has blocks
/// 4, 5 and 2, disk 1 has 0, 6 and 7, disk 2 has 3, 1 and 8.
fn chart() -> State {
    at_rest(&[1, 3], 3)
}

/// Document 01's growth with blocks 0 and 3 recorded, both on disk 3; 1 and 4
/// are on disk 1, 2 and 5 on disk 2. Disk 4 has none yet.
fn three_to_five() -> State {
    growing(&[3, 5], 5, 0, 0b11)
}

/// States at rest and in a growth.
fn states() -> Vec<State> {
    vec![
        chart(),
        at_rest(&[1], 1),
        at_rest(&[16], 4),
        at_rest(&[1, 2, 3, 5, 8, 11, 14, 16], 33),
        three_to_five(),
        growing(&[1, 16], 1, 0, 0),
        growing(&[3, 5], 13, 2, 0b1),
        growing(&[1, 2, 4, 8, 16], 40, 1, u64::MAX >> 7),
    ]
}

/// Numbers that are large, or small when cut to 32 bits.
const LARGE: [u64; 6] = [
    1 << 32,
    (1 << 32) + 1,
    (1 << 63) - 1,
    1 << 63,
    u64::MAX - 1,
    u64::MAX,
];

#[test]
fn counted_by_hand() {
    let at = |list: &[Scene]| compared(&chart(), list);
    assert_eq!(at(&[scene(0, 9)]), served(&[3, 3, 3]));
    assert_eq!(at(&[scene(0, 3)]), served(&[1, 1, 1]));
    assert_eq!(at(&[scene(2, 4)]), served(&[3, 0, 1]));
    assert_eq!(at(&[scene(6, 2)]), served(&[0, 2]));
    assert_eq!(at(&[scene(2, 4), scene(4, 5)]), served(&[5, 2, 2]));
    assert_eq!(at(&[scene(8, 1), scene(0, 1)]), served(&[0, 1, 1]));
}

#[test]
fn counted_by_hand_in_a_growth() {
    let mut state = three_to_five();
    assert_eq!(compared(&state, &[scene(0, 15)]), served(&[3, 5, 5, 2]));
    assert_eq!(compared(&state, &[scene(0, 4)]), served(&[0, 1, 1, 2]));
    // Block 4 is copied but not recorded: it counts on its old disk.
    state.copied = 0b111;
    assert_eq!(compared(&state, &[scene(4, 1)]), served(&[0, 1]));
    state.recorded = 0b111;
    assert_eq!(compared(&state, &[scene(4, 1)]), served(&[0, 0, 0, 0, 1]));
}

#[test]
fn no_scenes() {
    for state in states() {
        assert_eq!(compared(&state, &[]), served(&[]));
    }
}

#[test]
fn blocks_in_several_scenes() {
    let at = |list: &[Scene]| compared(&chart(), list);
    assert_eq!(at(&[scene(4, 1), scene(4, 1)]), served(&[2]));
    let three = [scene(4, 1), scene(3, 3), scene(0, 9)];
    assert_eq!(at(&three), served(&[6, 3, 4]));
    assert_eq!(at(&[scene(0, 9); 2]), served(&[6, 6, 6]));
    assert_eq!(at(&[scene(1, 2); 5]), served(&[5, 0, 5]));
    let all = [scene(0, 15), scene(0, 4), scene(3, 1)];
    assert_eq!(compared(&three_to_five(), &all), served(&[3, 6, 6, 5]));
}

/// The order of the scenes makes no difference.
#[test]
fn any_order() {
    for state in states() {
        let end = state.open();
        let list = [scene(0, end), scene(end - 1, 1), scene(end / 2, end / 3)];
        let [a, b, c] = list;
        let answer = compared(&state, &list);
        assert_eq!(compared(&state, &[c, a, b]), answer);
        assert_eq!(compared(&state, &[b, c, a]), answer);
    }
}

/// A scene of no blocks adds nothing, wherever it begins.
#[test]
fn empty_scenes() {
    for state in states() {
        let end = state.open();
        let mut list = vec![];
        for first in [0, end - 1, end, end + 1].into_iter().chain(LARGE) {
            assert_eq!(compared(&state, &[scene(first, 0)]), served(&[]));
            list.push(scene(first, 0));
        }
        assert_eq!(compared(&state, &list), served(&[]));
        let alone = compared(&state, &[whole(&state)]);
        for place in [0, 3, list.len()] {
            let mut mixed = list.clone();
            mixed.insert(place, whole(&state));
            assert_eq!(compared(&state, &mixed), alone);
        }
        list.push(scene(end, 1));
        let place = list.len() as u64 - 1;
        assert_eq!(compared(&state, &list), refused(place));
    }
}

/// Scenes up to the last open block, and one block further. In a growth the
/// added blocks are not open.
#[test]
fn last_open_block() {
    for state in states() {
        let end = state.open();
        for count in [0, 1, 2, 3, end / 2, end].map(|count| count.min(end)) {
            let inside = scene(end - count, count);
            assert_eq!(compared(&state, &[inside]).number, 0);
            let past = scene(end - count, count + 1);
            assert_eq!(compared(&state, &[past]), refused(0));
            assert_eq!(compared(&state, &[inside, past]), refused(1));
        }
        let disks = if state.growing == 1 {
            state.counts[state.t as usize - 1]
        } else {
            state.disks()
        };
        assert_eq!(end, disks * state.s);
        let added = scene(end, state.disks() * state.s - end + 1);
        assert_eq!(compared(&state, &[added]), refused(0));
    }
}

/// No sum wraps: a scene that ends beyond 64 bits reaches past the open blocks.
#[test]
fn beyond_64_bits() {
    for state in states() {
        let end = state.open();
        let mut list = vec![
            scene(1 << 63, 1 << 63),
            scene((1 << 63) + 1, 1 << 63),
            scene(u64::MAX - 2, 4),
            scene(u64::MAX, end),
            scene(u64::MAX - end + 1, end),
            scene(u64::MAX - end + 1, 2 * end),
            scene(end, u64::MAX - end + 1),
            scene(end + 1, u64::MAX - end + 1),
        ];
        for large in LARGE {
            list.extend([scene(large, 1), scene(large, 2), scene(large, large)]);
            list.extend([scene(0, large), scene(1, large), scene(end, large)]);
        }
        for past in list {
            assert_eq!(compared(&state, &[past]), refused(0));
            assert_eq!(compared(&state, &[whole(&state), past]), refused(1));
        }
    }
}

#[test]
fn first_of_several() {
    for state in states() {
        let (good, end) = (whole(&state), state.open());
        let past = scene(end, 1);
        let far = scene(u64::MAX, u64::MAX);
        assert_eq!(compared(&state, &[past, far, past]), refused(0));
        assert_eq!(compared(&state, &[good, far, past]), refused(1));
        let late = [good, good, good, past, good, far];
        assert_eq!(compared(&state, &late), refused(3));
    }
}

#[test]
fn most_scenes() {
    for state in [chart(), three_to_five()] {
        let one = compared(&state, &[whole(&state)]);
        let full = vec![whole(&state); MOST];
        let answer = compared(&state, &full);
        let times = one.served.map(|number| number * MOST as u64);
        assert_eq!(answer, served(&times));
        assert_eq!(compared(&state, &vec![scene(9, 0); MOST]), served(&[]));
        let mut late = full;
        late[MOST - 1] = scene(state.open(), 1);
        assert_eq!(compared(&state, &late), refused(MOST as u64 - 1));
    }
}

/// A scene at place 65,536 is refused, of no blocks too; one refused before
/// that is told instead.
#[test]
fn too_many_scenes() {
    let most = MOST as u64;
    for state in [chart(), three_to_five()] {
        let (good, past) = (scene(0, 1), scene(state.open(), 1));
        for last in [good, scene(0, 0), scene(u64::MAX, 0), past] {
            let mut list = vec![good; MOST];
            list.push(last);
            assert_eq!(compared(&state, &list), refused(most));
            list.push(past);
            assert_eq!(compared(&state, &list), refused(most));
            for place in [MOST - 1, 40_000, 3, 0] {
                list[place] = past;
                assert_eq!(compared(&state, &list), refused(place as u64));
            }
        }
        let empty = vec![scene(0, 0); 70_000];
        assert_eq!(compared(&state, &empty), refused(most));
        assert_eq!(compared(&state, &empty[..MOST]), served(&[]));
    }
}
