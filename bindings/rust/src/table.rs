use crate::raw;

/// An entry of the table of moves: the answer of [`table_move`].
#[derive(Clone, Copy, Debug, PartialEq, Eq, Hash)]
pub struct TableMove {
    /// Its offset in the table, counted from 0.
    pub offset: u64,
    /// The entry: the disk of the block after the growth, 1 to 15.
    pub disk: u64,
}

/// Tells the entry of the table of moves for a mark of the growth from `old` disks by `added` more, or `None` where
/// there is no such mark: a number of disks is 0, both together are above 16, or the mark is not below `old * added`.
///
/// The mark is that of a moving block of a window, as in [`State::copied`](crate::State::copied). An old block on disk
/// `d`, below `old`, in row `b` moves where `d <= b1` and `b1 < d + added`, with `b1 = b % (old + added)`; its mark is
/// then `d * added + (b1 - d)`. The table has the pairs by `old + added` rising, those of one sum by `old` rising, and
/// the marks of a pair in their order: 3,060 entries.
///
/// ```
/// use streterva::{table_move, TableMove};
///
/// // From 3 disks to 5 the block on disk 1 in row 2 has mark 3, and moves to disk 3.
/// assert_eq!(table_move(3, 2, 3), Some(TableMove { offset: 28, disk: 3 }));
/// assert_eq!(table_move(3, 2, 6), None);
/// ```
pub fn table_move(old: u64, added: u64, mark: u64) -> Option<TableMove> {
    let mut figures = [0; raw::TABLE_MOVE_FIGURES];
    let number = raw::table_move(old, added, mark, &mut figures);
    if number != 0 {
        unreachable!("the library answered {number}");
    }
    let [offset, disk] = figures;
    (disk != 0).then_some(TableMove { offset, disk })
}
