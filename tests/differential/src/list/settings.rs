//! What is chosen once for a list.

use reference::limits::{DISKS, GROWTHS, SECTOR};
use reference::sample::Random;

/// About how many bytes a medium has at most.
const MEDIUM: u64 = 200_000;

/// The volume that a list formats, and how it grows it.
pub struct Settings {
    pub z: u64,
    pub s: u64,
    pub first: u64,
    /// Disks that the medium has room for.
    pub room: u64,
    /// Most disks added at once.
    pub widest: u64,
    /// Calls in a hundred that are cut, if they store, or followed by a cut.
    pub cuts: u64,
    /// Calls in a hundred that are flushed, besides those that 18 or 19 ask for.
    pub flushes: u64,
    /// Whether the guarantee covers the list: restart comes only after a cut or
    /// with nothing pending, and no cut before the first flushed after format.
    pub covered: bool,
}

pub fn choose(random: &mut Random) -> Settings {
    let small = random.range(2, 4);
    let large = random.range(5, 128);
    let (sectors, rows) = match random.below(100) {
        0..=79 => (1, random.pick(&[3, 8, 12, 20, 20, 40])),
        80..=95 => (small, 9),
        _ => (large, 2),
    };
    if random.percent(6) {
        return widest_growth(random);
    }
    let (z, s) = (sectors * SECTOR, random.range(1, rows));
    let most = (MEDIUM / (s * z)).clamp(2, DISKS);
    let any = random.range(1, most);
    let first = random.pick(&[1, 1, 1, 2, 2, 3, 4, any]).min(most);
    let any = random.range(first, most);
    Settings {
        z,
        s,
        first,
        room: random.pick(&[most, any, most.min(first + GROWTHS)]),
        widest: random.pick(&[1, 1, 2, 3, 8, 15]),
        cuts: random.pick(&[0, 2, 5, 10]),
        flushes: random.pick(&[2, 5, 15, 30]),
        covered: random.percent(85),
    }
}

/// A growth whose windows have all or nearly all 64 marks.
fn widest_growth(random: &mut Random) -> Settings {
    let first = random.range(7, 9);
    Settings {
        z: SECTOR,
        s: random.range(14, 34),
        first,
        room: DISKS,
        widest: DISKS - first,
        cuts: random.pick(&[0, 2, 5]),
        flushes: random.pick(&[2, 5, 15]),
        covered: random.percent(85),
    }
}
