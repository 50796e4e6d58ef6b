//! Random numbers and random states for tests.

use crate::limits;
use crate::record;
use crate::spans::{Span, Spans, REACH};
use crate::state::{Pending, State, WORDS};

/// A splitmix64 generator.
#[derive(Clone, Debug)]
pub struct Random(u64);

impl Random {
    pub fn new(seed: u64) -> Random {
        Random(seed)
    }

    /// Any word.
    pub fn word(&mut self) -> u64 {
        self.0 = self.0.wrapping_add(0x9E37_79B9_7F4A_7C15);
        let mut z = self.0;
        z = (z ^ (z >> 30)).wrapping_mul(0xBF58_476D_1CE4_E5B9);
        z = (z ^ (z >> 27)).wrapping_mul(0x94D0_49BB_1331_11EB);
        z ^ (z >> 31)
    }

    /// A number below `end`; `end` > 0.
    pub fn below(&mut self, end: u64) -> u64 {
        self.word() % end
    }

    /// A number from `low` to `high`, both possible.
    pub fn range(&mut self, low: u64, high: u64) -> u64 {
        low + self.below(high - low + 1)
    }

    /// True `times` times in a hundred.
    pub fn percent(&mut self, times: u64) -> bool {
        self.below(100) < times
    }

    pub fn pick<T: Copy>(&mut self, choices: &[T]) -> T {
        choices[self.below(choices.len() as u64) as usize]
    }

    pub fn fill(&mut self, bytes: &mut [u8]) {
        for part in bytes.chunks_mut(8) {
            part.copy_from_slice(&self.word().to_le_bytes()[..part.len()]);
        }
    }

    /// A number near `around`, or an extreme one.
    pub fn odd_number(&mut self, around: u64) -> u64 {
        match self.below(10) {
            0 => around.wrapping_sub(1),
            1 => around,
            2 => around.wrapping_add(1),
            3 => around.wrapping_add(1 << 32),
            4 => around.wrapping_add(1 << 63),
            5 => u64::MAX,
            6 => u64::MAX - self.below(3),
            7 => 1 << self.below(64),
            8 => self.below(20),
            _ => self.word() >> self.below(64),
        }
    }
}

/// m, n and a mark for the printed table of moves: those of an entry, or with
/// some of the numbers near them or extreme.
pub fn table_arguments(random: &mut Random) -> [u64; 3] {
    let disks = random.range(2, limits::DISKS);
    let m = random.range(1, disks - 1);
    let n = disks - m;
    let mut arguments = [m, n, random.below(m * n)];
    if random.percent(50) {
        return arguments;
    }
    for argument in &mut arguments {
        if random.percent(40) {
            *argument = random.odd_number(*argument);
        }
    }
    if random.percent(30) {
        // With a large m the sum wraps.
        arguments[1] = disks.wrapping_sub(arguments[0]);
    }
    arguments
}

/// A span table that keeps the rule, for a volume of about so many blocks:
/// most often one span ends where the other begins.
pub fn good_spans(random: &mut Random, blocks: u64) -> Spans {
    let first = random.pick(&[0, 0, 1, blocks / 3]);
    let middle = random.range(first, blocks.max(first));
    let next = (middle + random.pick(&[0, 0, 0, 1, 2])).min(REACH);
    let end = random.pick(&[blocks, blocks, blocks + 1, REACH]);
    let end = end.clamp(next, REACH);
    let mut spans = [(first, middle), (next, end)].map(|(first, end)| Span {
        first,
        count: end - first,
    });
    if random.percent(10) {
        spans[random.below(2) as usize].count = 0;
    }
    if random.percent(50) {
        spans.swap(0, 1);
    }
    Spans(spans)
}

/// Any span table: one that keeps the rule, or with some of its numbers moved,
/// at a limit or extreme.
pub fn any_spans(random: &mut Random, blocks: u64) -> Spans {
    let mut spans = good_spans(random, blocks);
    let [a, b] = random.pick(&[[0, 1], [1, 0]]);
    let any = random.odd_number(blocks);
    let other = spans.0[b];
    spans.0[a] = match random.below(12) {
        0 => other,
        1 => Span {
            first: other.first,
            count: 1,
        },
        2 => Span {
            first: (other.first + other.count).saturating_sub(1),
            count: 1,
        },
        3 => Span {
            first: other.first,
            count: 0,
        },
        4 => span_to(random, REACH),
        5 => span_to(random, REACH + 1),
        6 => Span {
            first: any,
            count: any.wrapping_neg().wrapping_add(random.below(3)),
        },
        7 => Span {
            first: any,
            ..spans.0[a]
        },
        8 => Span {
            count: any,
            ..spans.0[a]
        },
        9 => return Spans::ZEROS,
        _ => spans.0[a],
    };
    spans
}

/// A span whose first block and count make `end`.
fn span_to(random: &mut Random, end: u64) -> Span {
    let any = random.below(end);
    let first = random.pick(&[end, end - 1, 0, any]);
    Span {
        first,
        count: end - first,
    }
}

/// A client: 0, 1, or at times another number.
pub fn any_client(random: &mut Random) -> u64 {
    match random.below(20) {
        0 => 2,
        1 => random.odd_number(1),
        client => client % 2,
    }
}

/// A state of 512-byte blocks at rest.
pub fn at_rest(counts: &[u64], s: u64) -> State {
    let mut state = State {
        z: limits::SECTOR,
        s,
        ..State::ZEROS
    };
    state.t = counts.len() as u64 - 1;
    state.counts[..counts.len()].copy_from_slice(counts);
    state
}

/// The growth to the last count under way; all copies are recorded.
pub fn growing(counts: &[u64], s: u64, w: u64, recorded: u64) -> State {
    State {
        growing: 1,
        w,
        recorded,
        copied: recorded,
        ..at_rest(counts, s)
    }
}

/// A sound state with up to `rows` rows; most often a growth runs. Anything
/// may be pending.
pub fn sound_state(random: &mut Random, rows: u64) -> State {
    let mut state = State::ZEROS;
    state.z = limits::SECTOR * random.pick(&[1, 1, 1, 2, 3, 128]);
    state.s = random.range(1, rows);
    put_counts(random, &mut state);
    if state.t > 0 && random.percent(80) {
        state.growing = 1;
        let windows = state.growth().windows();
        let any = random.below(windows);
        state.w = random.pick(&[0, windows - 1, any]);
        put_marks(random, &mut state);
    }
    let pending = random.pick(&[0, 0, 0, 0, 1, 2, 2, 3]);
    state.pending = Pending::from_word(pending).expect("at most 3");
    state
}

/// Disk counts: many small growths, few large ones, or one of the widest.
fn put_counts(random: &mut Random, state: &mut State) {
    let any = random.range(1, limits::DISKS);
    state.counts[0] = random.pick(&[1, 1, 2, 3, 4, 8, any]);
    let widest = random.pick(&[1, 2, 4, 8, 15]);
    for _ in 0..random.range(0, limits::GROWTHS) {
        let count = state.disks() + random.range(1, widest);
        if count <= limits::DISKS {
            state.t += 1;
            state.counts[state.t as usize] = count;
        }
    }
    if random.percent(10) {
        state.t = 1;
        state.counts = [random.range(7, 9), 16, 0, 0, 0, 0, 0, 0];
    }
}

/// Random marks that fit window w.
fn put_marks(random: &mut Random, state: &mut State) {
    let moving = state.moving_marks();
    let (some, others) = (random.word(), random.word());
    let most = !(1 << random.below(64));
    state.copied = moving & random.pick(&[u64::MAX, most, some, some, 0]);
    state.recorded = state.copied & random.pick(&[u64::MAX, most, others, 0]);
    if state.recorded == moving {
        state.recorded &= state.recorded - 1;
    }
}

/// The words of a state with one or a few of them changed. They may make no
/// state.
pub fn damage(random: &mut Random, state: &State) -> [u64; WORDS] {
    let mut words = state.to_words();
    for _ in 0..random.pick(&[1, 1, 1, 2, 3]) {
        let i = random.below(WORDS as u64) as usize;
        words[i] = match random.below(6) {
            0 => words[i] ^ 1 << random.below(64),
            1 => words[i].wrapping_add(1),
            2 => words[i].wrapping_sub(1),
            3 => words[random.below(WORDS as u64) as usize],
            _ => random.odd_number(words[i]),
        };
    }
    if random.percent(30) {
        words[random.pick(&[13, 14])] ^= 1 << random.below(64);
    }
    words
}

/// A record that is damaged, or of a state that is.
pub fn damaged_record(random: &mut Random, state: &State) -> [u8; limits::RECORD] {
    let mut bytes = record::write(state);
    match random.below(8) {
        0 => random.fill(&mut bytes),
        1 => {
            let damaged = State::from_words(&damage(random, state));
            bytes = record::write(&damaged.unwrap_or(*state));
        }
        2 => swap_columns(random, &mut bytes),
        3 => zeros_before(random, &mut bytes),
        4 => bytes.copy_within(0..511, 1),
        5 => bytes.copy_within(1..512, 0),
        6 => blank_or_letter(random, &mut bytes),
        _ => {
            for _ in 0..random.range(1, 3) {
                let symbol = random.pick(b"0123456789  \n\t+-aZ\0\xff");
                bytes[random.below(512) as usize] = symbol;
            }
        }
    }
    bytes
}

fn swap_columns(random: &mut Random, bytes: &mut [u8]) {
    let (a, b) = (random.below(13) as usize, random.below(13) as usize);
    for i in 0..10 {
        bytes.swap(a * 10 + i, b * 10 + i);
    }
}

/// Turns some spaces before a number into zeros, or all.
fn zeros_before(random: &mut Random, bytes: &mut [u8]) {
    let column = random.below(13) as usize * 10;
    let from = random.below(10) as usize;
    for byte in &mut bytes[column + from..column + 10] {
        if *byte == b' ' {
            *byte = b'0';
        }
    }
}

/// Blanks a column, or puts a letter or sign in it.
fn blank_or_letter(random: &mut Random, bytes: &mut [u8]) {
    let column = random.below(13) as usize * 10;
    if random.percent(30) {
        bytes[column..column + 10].fill(b' ');
    } else {
        let at = column + random.below(10) as usize;
        bytes[at] = random.pick(b"+-xA.,\x00\x80 0");
    }
}
