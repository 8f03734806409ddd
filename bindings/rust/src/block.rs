use crate::{sys, Cause, Pair};

/// The layout of a block: without sums, or carrying the sums of its lower and upper ends beside its records.
#[derive(Clone, Copy, Debug, PartialEq, Eq, Hash)]
#[allow(missing_docs)]
#[repr(u32)]
pub enum Layout {
    Plain = 0,
    Sums = 1,
}

/// A block of the day file: 512 bytes with up to 30 records.
///
/// ```
/// use donzibrau::{Block, Cause, Layout, Pair};
///
/// let mut block = Block::new(0, Layout::Sums)?;
/// block.add(7, 1, Pair::new(500_000, 500_000)?)?; // box 7, line 1, its count
/// assert_eq!(block.as_bytes()[2..4], [1, 1]); // one record; the layout
/// assert_eq!(block.as_bytes()[484..492], 500_000i64.to_le_bytes());
/// assert_eq!(Block::new(100, Layout::Plain), Err(Cause::BlockBounds));
/// # Ok::<(), Cause>(())
/// ```
#[derive(Clone, Debug, PartialEq, Eq)]
pub struct Block([u8; 512]);

impl Block {
    /// A block with no records, at this place of its file, counted from 0. Refused: [`Cause::BlockBounds`] for a number above 99.
    pub fn new(number: u32, layout: Layout) -> Result<Block, Cause> {
        let mut bytes = [0; 512];
        let returned = unsafe { sys::dzb_begin_block(number, layout as u32, bytes.as_mut_ptr(), bytes.len()) };
        Cause::judge(returned, Block(bytes))
    }

    /// A block from its bytes, whatever they are: they are judged when a record is added.
    pub const fn from_bytes(bytes: [u8; 512]) -> Block {
        Block(bytes)
    }

    /// The bytes, for the file.
    pub const fn as_bytes(&self) -> &[u8; 512] {
        &self.0
    }

    /// Adds a record behind those there. Refused, with the block as it was: [`Cause::BlockChecksum`], [`Cause::BlockLayout`],
    /// [`Cause::BlockSums`], and [`Cause::BlockBounds`] if it holds 30.
    pub fn add(&mut self, box_number: u32, line: u32, count: Pair) -> Result<(), Cause> {
        let (bytes, length) = (self.0.as_mut_ptr(), self.0.len());
        let returned = unsafe { sys::dzb_add_record(box_number, line, count.lower(), count.upper(), bytes, length) };
        Cause::judge(returned, ())
    }
}
