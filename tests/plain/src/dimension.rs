//! How many 16-bit numbers a group's dimension has. A book says it for all of its messages.

use crate::{Block, Book};

/// Block length and entries.
pub const TWO: u16 = 2;
/// Block length, entries, number of groups and number of data.
pub const FOUR: u16 = 4;

impl Book {
    /// Whether a dimension counts the groups and the data of an entry.
    pub fn is_counted(&self) -> bool {
        self.dimension == FOUR
    }

    pub fn dimension_octets(&self) -> usize {
        2 * usize::from(self.dimension)
    }

    /// The dimension of so many entries of a block as the book has it.
    pub fn dimension_of(&self, block: &Block, entries: u16) -> Vec<u16> {
        let mut numbers = vec![block.length, entries, block.groups.len() as u16, block.data.len() as u16];
        numbers.truncate(self.dimension.into());
        numbers
    }
}
