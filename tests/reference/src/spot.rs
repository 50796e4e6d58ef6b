//! Blocks, rows, spots, and the layout after a number of growths.

/// An address in the volume.
#[derive(Clone, Copy, PartialEq, Eq, PartialOrd, Ord, Debug)]
pub struct Block(pub u64);

/// A position on one disk.
#[derive(Clone, Copy, PartialEq, Eq, PartialOrd, Ord, Debug)]
pub struct Row(pub u64);

#[derive(Clone, Copy, PartialEq, Eq, Debug)]
pub struct Spot {
    pub disk: u64,
    pub row: Row,
}

/// The part of a window's moving blocks that a block belongs to.
#[derive(Clone, Copy, PartialEq, Eq, Debug)]
pub enum Part {
    Head,
    Body,
    Tail,
}

/// Why a block is at its spot; growths are told by number.
#[derive(Clone, Copy, PartialEq, Eq, Debug)]
pub enum Why {
    SetOut,
    Added { growth: u64 },
    Moved { growth: u64, part: Part },
}

#[derive(Clone, Copy, PartialEq, Eq, Debug)]
pub struct Place {
    pub spot: Spot,
    pub why: Why,
    /// By how many growths the block was moved.
    pub moves: u64,
}

/// Where block `x` is after the growths that led through `counts`.
pub fn after(counts: &[u64], s: u64, x: Block) -> Place {
    let t = counts.len() - 1;
    if t == 0 {
        let spot = Spot {
            disk: x.0 % counts[0],
            row: Row(x.0 / counts[0]),
        };
        return Place {
            spot,
            why: Why::SetOut,
            moves: 0,
        };
    }
    let (m, n) = (counts[t - 1], counts[t] - counts[t - 1]);
    let growth = t as u64;
    if x.0 >= m * s {
        return Place {
            spot: added(m, n, s, x),
            why: Why::Added { growth },
            moves: 0,
        };
    }
    let old = after(&counts[..t], s, x);
    match moved(m, n, old.spot) {
        Some((spot, part)) => Place {
            spot,
            why: Why::Moved { growth, part },
            moves: old.moves + 1,
        },
        None => old,
    }
}

/// The spot of a block that the growth from m disks by n disks adds.
fn added(m: u64, n: u64, s: u64, x: Block) -> Spot {
    let y = x.0 - m * s;
    let b = y / n;
    let size = (m + n) as i64;
    let first = (b as i64 - (n as i64 - 1)).rem_euclid(size);
    let disk = (first + (y % n) as i64).rem_euclid(size);
    Spot {
        disk: disk as u64,
        row: Row(b),
    }
}

/// Where the block at spot `old` moves in the growth from m disks by n disks,
/// and as which part; `None` when it stays.
pub fn moved(m: u64, n: u64, old: Spot) -> Option<(Spot, Part)> {
    let d0 = old.disk;
    let b1 = old.row.0 % (m + n);
    if b1 < d0 || b1 > d0 + n - 1 {
        return None;
    }
    let (disk, part) = if m >= n {
        if b1 < n {
            (d0 + m, Part::Head)
        } else if b1 >= m - 1 {
            (d0 + n, Part::Tail)
        } else {
            (m + n - 1 - (b1 - d0), Part::Body)
        }
    } else if b1 < m {
        (d0 + m, Part::Head)
    } else if b1 >= n - 1 {
        (d0 + n, Part::Tail)
    } else {
        (d0 + b1 + 1, Part::Body)
    };
    Some((Spot { disk, row: old.row }, part))
}

/// All blocks that are in row `row` after the growths through `counts`: a
/// block's row never changes, so these are the ones set out or added there.
pub fn blocks_of_row(counts: &[u64], s: u64, row: Row) -> Vec<Block> {
    let mut blocks = Vec::with_capacity(16);
    let mut m = 0;
    for &count in counts {
        let n = count - m;
        let first = m * s + row.0 * n;
        blocks.extend((first..first + n).map(Block));
        m = count;
    }
    blocks
}
