//! Which messages are as the book's own writer has them: read and written back, they are the same octets.

use crate::answers::{OUT_OF_RANGE, UNLISTED};
use crate::message::Part;
use crate::{text_length, Block, Book, Message};

impl Message<'_> {
    /// The book's own version and block lengths, zeros as padding and after each text's first NUL, and no value out of
    /// range or unlisted.
    pub fn is_as_written(&self, book: &Book) -> bool {
        self.version == book.version
            && book.byte_order().number16(self.octets, 0) == self.block.length
            && self.has_own_blocks(self.block, &self.root)
            && self.list().iter().all(|record| record[0] != OUT_OF_RANGE && record[0] != UNLISTED)
    }

    /// A part whose block has its declared length: zeros in what no field says, and the same of its groups.
    fn has_own_blocks(&self, block: &Block, part: &Part) -> bool {
        let mut unsaid = self.octets[part.start..part.start + usize::from(block.length)].to_vec();
        for field in &block.fields {
            let octets = &mut unsaid[usize::from(field.offset)..field.end()];
            let said = if field.is_text() { text_length(octets) } else { octets.len() };
            octets[..said].fill(0);
        }
        let mut groups = block.groups.iter().zip(part.groups.iter().flatten());
        unsaid.iter().all(|&octet| octet == 0)
            && groups.all(|(group, entries)| {
                let own_length = entries.length == usize::from(group.block.length);
                own_length && entries.parts.iter().all(|part| self.has_own_blocks(&group.block, part))
            })
    }
}
