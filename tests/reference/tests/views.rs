//! Views: W5 of document 02.

use reference::refusal::*;
use reference::sample::{at_rest, growing, Random};
use reference::spot::Block;
use reference::state::{Pending, State};
use reference::store::{advance, flushed, read};
use reference::view::{view, Shelf, Shelves, View};

/// The bytes that two shelves need.
fn exact(state: &State, k: u64) -> Shelves {
    let disk = state.s * state.z;
    Shelves {
        k,
        first: 512 + k * disk,
        second: (state.disks() - k) * disk,
    }
}

fn on(shelf: Shelf, byte: u64) -> Result<View, Refusal> {
    Ok(View { shelf, byte })
}

#[test]
fn spots_on_shelves() {
    let grown = at_rest(&[3, 5], 5);
    let moves = growing(&[3, 5], 5, 0, 0);
    let shown = |state: &State, k, x| view(state, &exact(state, k), Block(x));
    // Block 0 is moved to disk 3, row 0; block 12 stays at disk 0, row 4.
    assert_eq!(shown(&grown, 5, 0), on(Shelf::First, 512 + 15 * 512));
    assert_eq!(shown(&grown, 4, 0), on(Shelf::First, 512 + 15 * 512));
    assert_eq!(shown(&grown, 3, 0), on(Shelf::Second, 0));
    assert_eq!(shown(&grown, 1, 0), on(Shelf::Second, 10 * 512));
    assert_eq!(shown(&grown, 1, 12), on(Shelf::First, 512 + 4 * 512));
    // A copy counts from its checkpoint on.
    let copied = State { copied: 1, ..moves };
    let recorded = growing(&[3, 5], 5, 0, 1);
    assert_eq!(shown(&moves, 3, 0), on(Shelf::First, 512));
    assert_eq!(shown(&copied, 3, 0), on(Shelf::First, 512));
    assert_eq!(shown(&recorded, 3, 0), on(Shelf::Second, 0));
}

#[test]
fn refusals_in_their_order() {
    for state in [at_rest(&[3, 5], 5), growing(&[3, 5], 5, 0, 1)] {
        let unsound = State { z: 513, ..state };
        let (open, past) = (Block(state.open() - 1), Block(state.open()));
        let nothing = |k| Shelves {
            k,
            first: 0,
            second: 0,
        };
        assert_eq!(view(&unsound, &nothing(0), past), Err(NOT_SOUND));
        for k in [0, 6, u64::MAX] {
            assert_eq!(view(&state, &nothing(k), past), Err(OUTSIDE_LIMITS));
        }
        for k in 1..=5 {
            let shelves = exact(&state, k);
            let first = shelves.first - 1;
            let short = Shelves { first, ..shelves };
            assert_eq!(view(&state, &short, past), Err(MEDIUM_SHORT));
            assert_eq!(view(&state, &shelves, past), Err(NOT_OPEN));
            assert!(view(&state, &shelves, open).is_ok());
            let Some(second) = shelves.second.checked_sub(1) else {
                continue;
            };
            let short = Shelves { second, ..shelves };
            assert_eq!(view(&state, &short, past), Err(MEDIUM_SHORT));
        }
    }
}

/// The medium's bytes that a shelf needs and some spare ones.
fn shelf(held: &[u8], random: &mut Random) -> Vec<u8> {
    let mut spare = vec![0; random.pick(&[0, 1, 512, 700])];
    random.fill(&mut spare);
    [held, &spare].concat()
}

/// Every block that is open, with every k.
fn equals_read(state: &State, medium: &[u8], random: &mut Random) {
    for (k, x) in (1..=state.disks()).flat_map(|k| (0..state.open()).map(move |x| (k, Block(x)))) {
        let (first, second) = medium.split_at(state.bytes(k) as usize);
        let (first, second) = (shelf(first, random), shelf(second, random));
        let shelves = Shelves {
            k,
            first: first.len() as u64,
            second: second.len() as u64,
        };
        let view = view(state, &shelves, x).unwrap();
        let bytes = match view.shelf {
            Shelf::First => first,
            Shelf::Second => second,
        };
        let mut piece = vec![0; state.z as usize];
        read(state, medium, x, &mut piece).unwrap();
        assert_eq!(bytes[view.byte as usize..][..piece.len()], piece);
    }
}

#[test]
fn views_equal_reads() {
    let mut random = Random::new(7);
    let mut state = growing(&[2, 3, 5], 6, 0, 0);
    let mut medium = vec![0; state.bytes(5) as usize];
    random.fill(&mut medium);
    while state.growing == 1 {
        equals_read(&state, &medium, &mut random);
        state = advance(state, &mut medium).unwrap().0 .0;
        assert_ne!(state.pending, Pending::NOTHING);
        equals_read(&state, &medium, &mut random);
        flushed(&mut state).unwrap();
    }
}
