//! The plain volume: what every open block holds.

use crate::spot::Block;

/// For each open block its bytes, or `None` while it is unset.
#[derive(Clone, Debug)]
pub struct Plain {
    blocks: Vec<Option<Vec<u8>>>,
}

impl Plain {
    /// A volume of `open` unset blocks.
    pub fn format(open: u64) -> Plain {
        let blocks = vec![None; open as usize];
        Plain { blocks }
    }

    pub fn write(&mut self, x: Block, piece: &[u8]) {
        self.blocks[x.0 as usize] = Some(piece.to_vec());
    }

    /// The block was written after the last flushed or restart before a cut.
    pub fn unset(&mut self, x: Block) {
        self.blocks[x.0 as usize] = None;
    }

    /// A growth is finished: the added blocks are unset.
    pub fn grown(&mut self, open: u64) {
        self.blocks.resize(open as usize, None);
    }

    pub fn open(&self) -> u64 {
        self.blocks.len() as u64
    }

    pub fn bytes(&self, x: Block) -> Option<&[u8]> {
        self.blocks[x.0 as usize].as_deref()
    }
}
