//! The fast calls answer as the plain ones do.

use reference::limits::RECORD;
use reference::refusal::{Refusal, BEYOND_DOUBLING, BLOCKS_PENDING, RECORD_PENDING};
use reference::sample::{any_client, any_spans, good_spans};
use reference::sample::{damage, damaged_record, sound_state, table_arguments, Random};
use reference::spot::{Block, Row};
use reference::state::State;
use reference::store::{Advanced, Next};
use reference::view::Shelves;
use reference::{fast, lookup, record, spans, store, table, view};

const ROUNDS: u64 = 2_000;

/// A sound state of few rows, or a damaged one.
fn any_state(random: &mut Random) -> State {
    let state = sound_state(random, 40);
    if random.percent(30) {
        State::from_words(&damage(random, &state)).unwrap_or(state)
    } else {
        state
    }
}

/// A medium for the state, at times too short; random bytes.
fn any_medium(random: &mut Random, state: &State) -> Vec<u8> {
    let needed = if state.sound() && state.z <= 1536 {
        state.bytes(state.disks()) as usize
    } else {
        RECORD
    };
    let mut medium = vec![0; needed];
    random.fill(&mut medium);
    if random.percent(5) {
        medium.pop();
    }
    medium
}

fn any_block(random: &mut Random, state: &State) -> Block {
    let open = if state.sound() { state.open() } else { 10 };
    let block = if random.percent(80) {
        random.below(open)
    } else {
        random.odd_number(open)
    };
    Block(block)
}

#[test]
fn lookups() {
    let mut random = Random::new(1);
    let mut moves = [0; 8];
    for round in 0..ROUNDS {
        let rows = if round % 4 == 0 { 1_000_000 } else { 40 };
        let state = sound_state(&mut random, rows);
        assert!(state.sound() && fast::sound(&state));
        for _ in 0..50 {
            let x = any_block(&mut random, &state);
            let place = lookup::address(&state, x);
            assert_eq!(fast::address(&state, x), place);
            if let Ok(place) = place {
                moves[place.moves as usize] += 1;
            }
            let d = random.below(state.disks() + 1);
            let b = Row(random.below(state.s + 1));
            assert_eq!(fast::holder(&state, d, b), lookup::holder(&state, d, b));
        }
    }
    assert!(moves[..4].iter().all(|&count| count > 100), "{moves:?}");
}

/// Shelves for the state, at times too short or with a k outside 1 to N[t].
fn any_shelves(random: &mut Random, state: &State) -> Shelves {
    let disks = if state.sound() { state.disks() } else { 4 };
    let any = random.odd_number(disks);
    let some = random.range(1, disks);
    let k = random.pick(&[some, some, some, some, any]);
    let disk = state.s.min(1_000_000) * state.z.min(65_536);
    let needed = [
        RECORD as u64 + k.min(16) * disk,
        disks.saturating_sub(k) * disk,
    ];
    let [first, second] = needed.map(|bytes| match random.percent(90) {
        true => bytes + random.below(2),
        false => random.odd_number(bytes),
    });
    Shelves { k, first, second }
}

#[test]
fn views() {
    let mut random = Random::new(7);
    let mut seen = [0; 9];
    for round in 0..ROUNDS {
        let state = match round % 4 {
            0 => sound_state(&mut random, 1_000_000),
            _ => any_state(&mut random),
        };
        for _ in 0..50 {
            let x = any_block(&mut random, &state);
            let shelves = any_shelves(&mut random, &state);
            let view = view::view(&state, &shelves, x);
            assert_eq!(fast::view(&state, &shelves, x), view);
            seen[view.err().unwrap_or(0) as usize] += 1;
        }
    }
    let often = |number: &usize| seen[*number] > 1_000;
    assert!([0, 1, 2, 3, 8].iter().all(often), "{seen:?}");
}

/// Small numbers, all of them, and random ones.
#[test]
fn table_moves() {
    let entries = table::entries();
    let mut found = [0; 2];
    let mut compare = |m, n, mark| {
        let plain = table::table_move(&entries, m, n, mark);
        assert_eq!(fast::table_move(m, n, mark), plain, "{m} {n} {mark}");
        found[plain.is_some() as usize] += 1;
    };
    for (m, n) in (0..=18).flat_map(|m| (0..=18).map(move |n| (m, n))) {
        for mark in 0..=m * n + 1 {
            compare(m, n, mark);
        }
    }
    let mut random = Random::new(9);
    for _ in 0..20 * ROUNDS {
        let [m, n, mark] = table_arguments(&mut random);
        compare(m, n, mark);
    }
    assert!(found.iter().all(|&count| count > 10_000), "{found:?}");
}

#[test]
fn soundness_of_damaged_states() {
    let mut random = Random::new(2);
    for _ in 0..20 * ROUNDS {
        let state = sound_state(&mut random, 40);
        let Some(mut state) = State::from_words(&damage(&mut random, &state)) else {
            continue;
        };
        assert_eq!(fast::sound(&state), state.sound(), "{state:?}");
        let mut other = state;
        assert_eq!(fast::flushed(&mut state), store::flushed(&mut other));
        assert_eq!(state, other);
    }
}

#[test]
fn reads_and_writes() {
    let mut random = Random::new(3);
    for _ in 0..ROUNDS {
        let mut state = any_state(&mut random);
        let mut medium = any_medium(&mut random, &state);
        let mut other = medium.clone();
        for _ in 0..20 {
            let x = any_block(&mut random, &state);
            let short = random.percent(3) as u64;
            let mut piece = vec![0; (state.z.min(65_536) - short.min(state.z)) as usize];
            random.fill(&mut piece);
            let mut copy = piece.clone();
            assert_eq!(
                fast::read(&state, &medium, x, &mut piece),
                store::read(&state, &other, x, &mut copy)
            );
            assert_eq!(piece, copy);
            random.fill(&mut piece);
            let mut same = state;
            assert_eq!(
                fast::write(&mut state, &mut medium, x, &piece),
                store::write(&mut same, &mut other, x, &piece)
            );
            assert_eq!(state, same);
            assert_eq!(medium, other);
            if random.percent(30) {
                let _ = fast::flushed(&mut state);
            }
        }
    }
}

#[test]
fn span_tables() {
    let mut random = Random::new(10);
    let mut made = [0; 2];
    for round in 0..20 * ROUNDS {
        let blocks = [0, 3, 100, 16_000_000][round as usize % 4];
        let table = any_spans(&mut random, blocks);
        let plain = spans::make_spans(table);
        assert_eq!(fast::make_spans(table), plain, "{table:?}");
        made[plain.is_ok() as usize] += 1;
        let good = good_spans(&mut random, blocks);
        assert_eq!(fast::make_spans(good), Ok(good), "{good:?}");
    }
    assert!(made.iter().all(|&count| count > 5_000), "{made:?}");
}

#[test]
fn reads_and_writes_of_clients() {
    let mut random = Random::new(11);
    let mut seen = [[0; 22]; 2];
    for _ in 0..ROUNDS {
        let mut state = any_state(&mut random);
        let mut medium = any_medium(&mut random, &state);
        let mut other = medium.clone();
        let open = if state.sound() { state.open() } else { 10 };
        for _ in 0..20 {
            let table = match random.percent(70) {
                true => good_spans(&mut random, open),
                false => any_spans(&mut random, open),
            };
            let (client, x) = (any_client(&mut random), any_block(&mut random, &state));
            let short = random.percent(3) as u64;
            let mut piece = vec![0; (state.z.min(65_536) - short.min(state.z)) as usize];
            random.fill(&mut piece);
            let mut copy = piece.clone();
            let read = spans::client_read(&table, client, &state, &other, x, &mut copy);
            let fast = fast::client_read(&table, client, &state, &medium, x, &mut piece);
            assert_eq!((fast, &piece), (read, &copy));
            random.fill(&mut piece);
            let mut same = state;
            let write = spans::client_write(&table, client, &mut same, &mut other, x, &piece);
            let fast = fast::client_write(&table, client, &mut state, &mut medium, x, &piece);
            assert_eq!((fast, state), (write, same));
            assert_eq!(medium, other);
            for (seen, answer) in seen.iter_mut().zip([read, write]) {
                seen[answer.err().unwrap_or(0) as usize] += 1;
            }
            if random.percent(30) {
                let _ = fast::flushed(&mut state);
            }
        }
    }
    let often = |row: usize, numbers: &[usize]| numbers.iter().all(|&it| seen[row][it] > 50);
    assert!(often(0, &[0, 1, 21, 2, 3, 4]), "{seen:?}");
    assert!(often(1, &[0, 1, 21, 2, 3, 4, 7, 19]), "{seen:?}");
}

#[test]
fn growths() {
    let mut random = Random::new(4);
    let (mut recorded, mut waited) = (0, 0);
    for _ in 0..ROUNDS {
        let mut state = any_state(&mut random);
        let mut medium = any_medium(&mut random, &state);
        let mut other = medium.clone();
        for _ in 0..20 {
            let x = any_block(&mut random, &state);
            let copied = fast::copy(state, &mut medium, x);
            assert_eq!(copied, store::copy(state, &mut other, x));
            state = copied.map_or(state, |next| next.0);
            if random.percent(30) {
                let recorded = fast::checkpoint(state, &mut medium);
                assert_eq!(recorded, store::checkpoint(state, &mut other));
                state = recorded.map_or(state, |next| next.0);
            }
            let advanced = fast::advance(state, &mut medium);
            assert_eq!(advanced, store::advance(state, &mut other));
            state = advanced.map_or(state, |next| next.0 .0);
            assert_eq!(medium, other);
            recorded += matches!(advanced, Ok((_, Advanced::Recorded))) as u64;
            waited += matches!(advanced, Err(BLOCKS_PENDING | RECORD_PENDING)) as u64;
            if random.percent(50) {
                let _ = fast::flushed(&mut state);
            }
        }
    }
    assert!(recorded > 200 && waited > 1_000, "{recorded} and {waited}");
}

#[test]
fn formats() {
    let mut random = Random::new(6);
    let mut formatted = 0;
    for _ in 0..5 * ROUNDS {
        let mut medium = vec![0; 40_000];
        random.fill(&mut medium);
        let mut other = medium.clone();
        let (z, s) = (random.odd_number(512), random.odd_number(4));
        let disks = random.odd_number(2);
        let first = fast::format(&mut medium, z, s, disks);
        assert_eq!(first, store::format(&mut other, z, s, disks));
        assert_eq!(medium, other);
        formatted += first.is_ok() as u64;
    }
    assert!(formatted > 20, "{formatted}");
}

/// A state to grow: most often of few rows, and no growth runs.
fn state_to_grow(random: &mut Random) -> State {
    let state = any_state(random);
    if random.percent(20) {
        return state;
    }
    State {
        s: state.s.min(6),
        growing: 0,
        w: 0,
        recorded: 0,
        copied: 0,
        ..state
    }
}

/// A count to grow to, near that of the disks or near twice that.
fn any_count(random: &mut Random, state: &State) -> u64 {
    let disks = if state.sound() { state.disks() } else { 4 };
    let around = random.pick(&[disks, 2 * disks]);
    let odd = random.odd_number(around);
    let more = disks + random.range(1, 8);
    random.pick(&[odd, more, more])
}

/// A grow of either kind, and how often it gave each number.
struct Grow {
    fast: fn(State, &mut [u8], u64) -> Result<Next, Refusal>,
    plain: fn(State, &mut [u8], u64) -> Result<Next, Refusal>,
    seen: [u64; 21],
}

impl Grow {
    fn compare(&mut self, random: &mut Random) {
        let state = state_to_grow(random);
        let count = any_count(random, &state);
        let mut medium = vec![0; random.pick(&[511, 20_000, 60_000])];
        random.fill(&mut medium);
        let mut other = medium.clone();
        let next = (self.fast)(state, &mut medium, count);
        assert_eq!(next, (self.plain)(state, &mut other, count));
        assert_eq!(medium, other);
        self.seen[next.err().unwrap_or(0) as usize] += 1;
    }

    fn saw(&self, numbers: &[usize]) -> bool {
        numbers.iter().all(|&number| self.seen[number] > 50)
    }
}

#[test]
fn grows() {
    let mut random = Random::new(9);
    let mut held = Grow {
        fast: fast::grow,
        plain: store::grow,
        seen: [0; 21],
    };
    let mut other = Grow {
        fast: fast::grow_beyond_doubling,
        plain: store::grow_beyond_doubling,
        seen: [0; 21],
    };
    for _ in 0..5 * ROUNDS {
        held.compare(&mut random);
        other.compare(&mut random);
    }
    let numbers = [0, 1, 6, 9, 8, 2, 19, 18];
    let beyond = BEYOND_DOUBLING as usize;
    assert!(held.saw(&numbers) && held.saw(&[beyond]), "{:?}", held.seen);
    assert!(other.saw(&numbers), "{:?}", other.seen);
    assert_eq!(other.seen[beyond], 0);
}

#[test]
fn restarts() {
    let mut random = Random::new(5);
    for _ in 0..10 * ROUNDS {
        let state = sound_state(&mut random, 10);
        let mut medium = vec![0; 20_000];
        let bytes = if random.percent(20) {
            record::write(&state)
        } else {
            damaged_record(&mut random, &state)
        };
        medium[..RECORD].copy_from_slice(&bytes);
        assert_eq!(fast::restart(&medium), store::restart(&medium));
    }
    assert_eq!(fast::restart(&[0; 511]), store::restart(&[0; 511]));
}
