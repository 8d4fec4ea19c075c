//! The tree of a number of lines, by the library's figures, and the range of
//! copies that it leaves.

use pansdaoh::{Refusal, Settings};

pub struct Sizes {
    /// k
    pub levels: u64,
    /// D
    pub data: u64,
    /// Index buckets of the whole tree.
    pub tree: u64,
}

impl Sizes {
    /// Of so many lines; refused by 1 and 2.
    pub fn new(lines: u64, n: u64, p: u64) -> Result<Sizes, Refusal> {
        // Without copies the tree is sent once.
        let once = pansdaoh::size(lines, Settings { n, p, layout: 1, copies: 0 }, 0)?;
        Ok(Sizes { levels: once.k, data: once.d, tree: once.n - once.d })
    }

    /// The least and the most copies in a layout.
    pub fn copies(&self, layout: u64) -> (u64, u64) {
        match layout {
            1 => (0, 4.min(self.levels - 1)),
            _ => (1, self.data.max(1)),
        }
    }
}
