//! What a growth does with the blocks of each disk.

use serde::Serialize;
use streterva::{table_move, State};

/// A growth from some disks to more, for each disk after it: how many old blocks stay on it, leave it and are brought
/// to it, and how many blocks the growth adds on it.
#[derive(Clone, Debug, Serialize)]
pub struct Moves {
    pub from: u64,
    pub to: u64,
    pub windows: u64,
    pub stays: Vec<u64>,
    pub leaves: Vec<u64>,
    pub arrives: Vec<u64>,
    pub added: Vec<u64>,
}

impl Moves {
    /// Counted from the library's table: a block on old disk d moves by its row in its window, whatever the growths
    /// before.
    pub fn of(from: u64, to: u64, rows: u64) -> Moves {
        let window = to;
        let (mut leaves, mut arrives) = (vec![0; to as usize], vec![0; to as usize]);
        for mark in 0..from * (to - from) {
            let disk = mark / (to - from);
            let row = disk + mark % (to - from);
            let moved = table_move(from, to - from, mark).expect("each mark of the growth is in the table");
            let windows_with_row = rows / window + u64::from(row < rows % window);
            leaves[disk as usize] += windows_with_row;
            arrives[moved.disk as usize] += windows_with_row;
        }
        let old = |disk: usize| if (disk as u64) < from { rows } else { 0 };
        let stays: Vec<u64> = (0..to as usize).map(|disk| old(disk) - leaves[disk]).collect();
        let added = (0..to as usize).map(|disk| rows - stays[disk] - arrives[disk]).collect();
        Moves { from, to, windows: rows.div_ceil(window), stays, leaves, arrives, added }
    }

    /// The newest growth of a state, finished or under way.
    pub fn newest(state: &State) -> Option<Moves> {
        let newest = state.growths().checked_sub(1)?;
        Some(Moves::of(state.counts()[newest as usize], state.disks(), state.rows()))
    }

    /// The blocks that are moved.
    pub fn blocks(&self) -> u64 {
        self.leaves.iter().sum()
    }

    /// The advance calls of the whole growth: one for each block moved and one for each window.
    pub fn calls(&self) -> u64 {
        self.blocks() + self.windows
    }
}

#[cfg(test)]
mod tests {
    use super::*;
    use streterva::Block;
    use streterva_store::trial;

    /// Calls against those that grow tells, and each disk's numbers against address, for every pair of counts.
    #[test]
    fn as_the_library_counts() {
        for (from, to) in (1..16).flat_map(|from| (from + 1..=16).map(move |to| (from, to))) {
            for rows in [1, 2, 5, 16, 37] {
                let moves = Moves::of(from, to, rows);
                let before = trial::format(512, rows, from).unwrap();
                let (grown, left) = trial::grow(&before, to, true).unwrap();
                assert_eq!(moves.calls(), left, "{from} to {to}, {rows} rows");
                as_address_tells(&moves, &before, &at_rest(&grown));
            }
        }
    }

    fn at_rest(grown: &State) -> State {
        let mut words = grown.words();
        words[11] = 0;
        words[15] = 0;
        State::from_words(words).unwrap()
    }

    fn as_address_tells(moves: &Moves, before: &State, after: &State) {
        let disks = moves.to as usize;
        let (mut stays, mut leaves, mut arrives, mut added) =
            (vec![0; disks], vec![0; disks], vec![0; disks], vec![0; disks]);
        for block in 0..after.rows() * moves.to {
            let now = after.address(Block(block)).unwrap().spot.disk as usize;
            match before.address(Block(block)) {
                Ok(old) if old.spot.disk as usize == now => stays[now] += 1,
                Ok(old) => {
                    leaves[old.spot.disk as usize] += 1;
                    arrives[now] += 1;
                }
                Err(_) => added[now] += 1,
            }
        }
        let counted = (&moves.stays, &moves.leaves, &moves.arrives, &moves.added);
        assert_eq!(counted, (&stays, &leaves, &arrives, &added));
    }
}
