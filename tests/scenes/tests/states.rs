//! Load on many states, sound and not.

use reference::sample::{at_rest, damage, growing, sound_state, Random};
use reference::state::{Pending, State, WORDS};
use scenes::{answer_to, compared, no_state, not_sound, refused, scene, whole, MOST};
use streterva::Scene;

/// A scene within `open` blocks, of no more than 300.
fn good_scene(random: &mut Random, open: u64) -> Scene {
    let far = open.saturating_sub(random.range(1, 300));
    let any = random.below(open);
    let first = random.pick(&[0, far, any, any]);
    let most = (open - first).min(300);
    let count = random.range(0, most);
    scene(first, random.pick(&[most, count, count, count.min(1)]))
}

/// A scene of any numbers, often near the end of the open blocks.
fn odd_scene(random: &mut Random, open: u64) -> Scene {
    let first = random.below(open);
    match random.below(5) {
        0 => scene(random.odd_number(open), 0),
        1 => scene(random.odd_number(open), random.below(3)),
        2 => scene(first, random.odd_number(open - first).max(1)),
        3 => scene(first, open - first + 1),
        _ => scene(random.odd_number(open), random.odd_number(open)),
    }
}

/// Mostly good scenes: in every second list all are.
fn list(random: &mut Random, open: u64) -> Vec<Scene> {
    let odd = random.pick(&[0, 0, 10, 40]);
    (0..random.range(0, 10))
        .map(|_| match random.percent(odd) {
            true => odd_scene(random, open),
            false => good_scene(random, open),
        })
        .collect()
}

/// Whether an odd list would take the reference long: it may be accepted, and
/// names many blocks.
fn is_long(state: &State, scenes: &[Scene]) -> bool {
    let past = |scene: &Scene| scene.count > state.open();
    let blocks = |scene: &Scene| scene.count;
    !scenes.iter().any(past) && scenes.iter().map(blocks).sum::<u64>() > 100_000
}

#[test]
fn random_states() {
    let mut random = Random::new(1);
    let (mut accepted, mut other, mut moving) = (0, 0, 0);
    for _ in 0..20_000 {
        let rows = random.pick(&[2, 20, 40, 1_000_000]);
        let state = sound_state(&mut random, rows);
        let scenes = list(&mut random, state.open());
        if is_long(&state, &scenes) {
            continue;
        }
        let answer = compared(&state, &scenes);
        match answer.number {
            0 => accepted += 1,
            _ => other += 1,
        }
        let part = state.growing == 1 && state.recorded != 0;
        moving += (part && answer.number == 0) as u32;
    }
    assert!(accepted > 10_000, "{accepted}");
    assert!(other > 4_000, "{other}");
    assert!(moving > 3_000, "{moving}");
}

/// All open blocks of random states, as one scene and in two.
#[test]
fn whole_volumes() {
    let mut random = Random::new(2);
    for _ in 0..2_000 {
        let state = sound_state(&mut random, 40);
        let end = state.open();
        let answer = compared(&state, &[whole(&state)]);
        let cut = random.below(end + 1);
        let parts = [scene(cut, end - cut), scene(0, cut)];
        assert_eq!(compared(&state, &parts), answer);
        if state.growing == 0 {
            let disks = &answer.served[..state.disks() as usize];
            assert!(disks.iter().all(|&number| number == state.s));
        }
    }
}

/// A state that is not sound is refused before the scenes are looked at.
#[test]
fn unsound_states() {
    let mut random = Random::new(3);
    let (mut unsound, mut none) = (0, 0);
    for _ in 0..5_000 {
        let rows = random.pick(&[2, 40, 1_000_000]);
        let state = sound_state(&mut random, rows);
        let words = damage(&mut random, &state);
        let good = [good_scene(&mut random, state.open())];
        let odd = [odd_scene(&mut random, state.open())];
        let expected = match State::from_words(&words) {
            Some(damaged) if damaged.sound() => continue,
            Some(_) => not_sound(),
            None => no_state(),
        };
        unsound += (expected == not_sound()) as u32;
        none += (expected == no_state()) as u32;
        for scenes in [&[][..], &good, &odd] {
            assert_eq!(answer_to(&words, scenes), expected);
        }
    }
    assert!(unsound > 2_500 && none > 100, "{unsound} and {none}");
}

/// Load is the same whatever is pending; with a last word above 3 there is no
/// state, and that is refused before the scenes are looked at.
#[test]
fn pending() {
    let state = growing(&[3, 5], 5, 0, 0b11);
    let all = [whole(&state)];
    let past = [scene(u64::MAX, 1)];
    for word in 0..=3 {
        let pending = Pending::from_word(word).expect("at most 3");
        let state = State { pending, ..state };
        assert_eq!(compared(&state, &all).number, 0);
        assert_eq!(compared(&state, &past), refused(0));
    }
    for word in [4, 5, 1 << 32, 1 << 63, u64::MAX] {
        let mut words = state.to_words();
        words[WORDS - 1] = word;
        assert_eq!(answer_to(&words, &all), no_state());
        assert_eq!(answer_to(&words, &past), no_state());
        assert_eq!(answer_to(&[word; WORDS], &[]), no_state());
    }
}

/// States that are not sound, with lists that would be refused.
#[test]
fn unsound_comes_first() {
    let wrong_marks = growing(&[3, 5], 5, 0, 0b11_1111);
    let still = State {
        w: 1,
        ..at_rest(&[3, 5], 5)
    };
    let falling = at_rest(&[5, 3], 5);
    let no_rows = at_rest(&[3], 0);
    let past = vec![scene(u64::MAX, u64::MAX)];
    let many = vec![scene(0, 0); MOST + 1];
    for state in [State::ZEROS, wrong_marks, still, falling, no_rows] {
        for scenes in [&vec![], &past, &many] {
            assert_eq!(compared(&state, scenes), not_sound());
        }
    }
    let mut words = [u64::MAX; WORDS];
    words[WORDS - 1] = 3;
    assert_eq!(answer_to(&words, &past), not_sound());
}

/// The first and the last blocks of the largest volume.
#[test]
fn largest_volume() {
    let state = at_rest(&[2, 4, 6, 8, 10, 12, 14, 16], 1_000_000);
    let last = scene(15_999_000, 1_000);
    assert_eq!(compared(&state, &[last, scene(0, 1_000)]).number, 0);
    let past = scene(15_999_000, 1_001);
    assert_eq!(compared(&state, &[last, past]), refused(1));
}
