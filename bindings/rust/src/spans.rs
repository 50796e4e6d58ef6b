use crate::raw;
use crate::state::accepted;
use crate::Refusal;

/// One of the two clients of a volume.
#[derive(Clone, Copy, Debug, PartialEq, Eq, Hash)]
#[repr(u64)]
pub enum Client {
    /// Client 0.
    Zero = 0,
    /// Client 1.
    One = 1,
}

/// A client's blocks: `count` of them from block `first` on. With a count of 0 the client has none.
#[derive(Clone, Copy, Debug, PartialEq, Eq, Hash)]
pub struct Span {
    /// The first block.
    pub first: u64,
    /// The number of blocks.
    pub count: u64,
}

/// A span table: the blocks of client 0 and of client 1, which share none. It is checked when made, and keeps the rule
/// from then on.
#[derive(Clone, Copy, Debug, PartialEq, Eq, Hash)]
pub struct Spans {
    words: [u64; raw::SPAN_WORDS],
}

impl Spans {
    /// The most that a span's first block and count make together.
    pub const MOST_REACHED: u64 = raw::MOST_REACHED;

    /// The table of these spans. A span may reach past the open blocks; one of 0 blocks shares none.
    ///
    /// # Errors
    ///
    /// 21, the spans share a block, or first plus count of one is above [`Spans::MOST_REACHED`].
    pub fn new(zero: Span, one: Span) -> Result<Spans, Refusal> {
        let mut words = [zero.first, zero.count, one.first, one.count];
        accepted(raw::spans(&mut words))?;
        Ok(Spans { words })
    }

    /// The client's span.
    pub const fn of(&self, client: Client) -> Span {
        let at = 2 * client as usize;
        Span {
            first: self.words[at],
            count: self.words[at + 1],
        }
    }

    /// The words of the table: first and count of client 0, then those of client 1.
    pub const fn words(&self) -> [u64; raw::SPAN_WORDS] {
        self.words
    }
}
