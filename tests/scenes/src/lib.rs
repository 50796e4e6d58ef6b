//! What the library's load must answer, from the reference's addresses block
//! by block, and the library's own answer.

use reference::refusal::NOT_SOUND;
use reference::spot::Block;
use reference::state::{State, WORDS};
use streterva::raw::{self, Scene};

/// Disks that an answer has numbers for.
pub const DISKS: usize = 16;

/// The most scenes in a list.
pub const MOST: usize = 65_536;

/// Number of the refusal of a scene.
pub const SCENE: u64 = 17;

/// What a figure holds before a call.
const BEFORE: u64 = 0xAAAA_AAAA_AAAA_AAAA;

/// An answer of load: its number, the place of the scene refused and the
/// blocks that each disk serves.
#[derive(Clone, Copy, PartialEq, Eq, Debug)]
pub struct Answer {
    pub number: u64,
    pub place: u64,
    pub served: [u64; DISKS],
}

/// The answer of an accepted list; disks after the given ones have 0.
pub fn served(numbers: &[u64]) -> Answer {
    let mut answer = Answer {
        number: 0,
        place: 0,
        served: [0; DISKS],
    };
    answer.served[..numbers.len()].copy_from_slice(numbers);
    answer
}

/// The answer that refuses the scene at `place`.
pub fn refused(place: u64) -> Answer {
    Answer {
        number: SCENE,
        place,
        served: [0; DISKS],
    }
}

/// The answer to a state that is not sound.
pub fn not_sound() -> Answer {
    Answer {
        number: NOT_SOUND,
        ..refused(0)
    }
}

/// The answer to words that are no state: every figure stays as it was.
pub fn no_state() -> Answer {
    Answer {
        number: raw::WRONG_LENGTH,
        place: BEFORE,
        served: [BEFORE; DISKS],
    }
}

/// What load must answer.
pub fn expected(state: &State, scenes: &[Scene]) -> Answer {
    if !state.sound() {
        return not_sound();
    }
    for (place, scene) in scenes.iter().enumerate() {
        if place >= MOST || reaches_past(state, scene) {
            return refused(place as u64);
        }
    }
    let mut counted = [0; DISKS];
    for scene in scenes {
        for x in scene.first..scene.first + scene.count {
            let disk = state.live(Block(x)).spot.disk;
            counted[disk as usize] += 1;
        }
    }
    served(&counted)
}

fn reaches_past(state: &State, scene: &Scene) -> bool {
    let end = scene.first as u128 + scene.count as u128;
    scene.count > 0 && end > state.open() as u128
}

/// What load answers.
pub fn answer(state: &State, scenes: &[Scene]) -> Answer {
    answer_to(&state.to_words(), scenes)
}

/// What load answers to any words. The words around the figures stay as they
/// were, and so does the state.
pub fn answer_to(words: &[u64; WORDS], scenes: &[Scene]) -> Answer {
    let lent_words = *words;
    let mut lent = [BEFORE; raw::LOAD_FIGURES + 2];
    let number = raw::load(&lent_words, scenes, &mut lent[1..=raw::LOAD_FIGURES]);
    let [before, place, numbers @ .., after] = lent;
    assert_eq!((before, after), (BEFORE, BEFORE));
    assert_eq!(lent_words, *words);
    Answer {
        number,
        place,
        served: numbers,
    }
}

/// Asks the library, compares, and gives the answer.
pub fn compared(state: &State, scenes: &[Scene]) -> Answer {
    let given = answer(state, scenes);
    let some = &scenes[..scenes.len().min(20)];
    let wanted = expected(state, scenes);
    assert_eq!(given, wanted, "{state:?}, scenes from {some:?}");
    if given.number == 0 {
        adds_up(state, scenes, &given);
    }
    given
}

/// The numbers of an accepted list sum up to its counts, and only disks that
/// exist have any.
pub fn adds_up(state: &State, scenes: &[Scene], answer: &Answer) {
    let counts: u64 = scenes.iter().map(|scene| scene.count).sum();
    assert_eq!(answer.served.iter().sum::<u64>(), counts);
    let (_, others) = answer.served.split_at(state.disks() as usize);
    assert!(others.iter().all(|&number| number == 0));
}

pub fn scene(first: u64, count: u64) -> Scene {
    Scene { first, count }
}

/// The scene of all open blocks.
pub fn whole(state: &State) -> Scene {
    scene(0, state.open())
}
