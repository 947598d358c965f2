//! Pages, and the three kinds of number that tell places apart.
//!
//! A page number names a page of the image, a slot a place in a leaf's order
//! of keys, an offset a byte of a page. Numbers in a page are little-endian.

/// Bytes in a page.
pub const PAGE: usize = 512;

/// The fewest pages of an image.
pub const PAGES_LEAST: usize = 2;

/// The most pages of an image.
pub const PAGES_MOST: usize = 1024;

/// The bytes of one page.
pub type Page = [u8; PAGE];

/// The number of a page; 0 as a reference means none.
#[derive(Clone, Copy, Debug, PartialEq, Eq)]
pub struct PageNumber(pub u16);

impl PageNumber {
    /// The reference to no page.
    pub const NONE: PageNumber = PageNumber(0);

    /// Gives whether this is the reference to no page.
    pub fn is_none(self) -> bool {
        self == PageNumber::NONE
    }

    /// Gives the place of the page among the image's pages.
    pub fn index(self) -> usize {
        usize::from(self.0)
    }
}

/// A place in a leaf's order of keys.
#[derive(Clone, Copy, Debug, PartialEq, Eq)]
pub struct Slot(pub usize);

/// A byte's place in its page.
#[derive(Clone, Copy, Debug, PartialEq, Eq)]
pub struct Offset(pub usize);

/// Gives the two-byte number at an offset.
pub fn number_at(page: &Page, offset: Offset) -> usize {
    let at = offset.0;
    usize::from(u16::from_le_bytes([page[at], page[at + 1]]))
}

/// Writes a two-byte number at an offset.
pub fn set_number(page: &mut Page, offset: Offset, number: usize) {
    let at = offset.0;
    // All counts, lengths and offsets of a store are at most 4,032.
    page[at..at + 2].copy_from_slice(&(number as u16).to_le_bytes());
}

/// Gives the page reference at an offset.
pub fn reference_at(page: &Page, offset: Offset) -> PageNumber {
    let at = offset.0;
    PageNumber(u16::from_le_bytes([page[at], page[at + 1]]))
}

/// Writes a page reference at an offset.
pub fn set_reference(page: &mut Page, offset: Offset, reference: PageNumber) {
    set_number(page, offset, reference.index());
}

/// Gives whether all bytes are zero.
pub fn all_zero(bytes: &[u8]) -> bool {
    // Joined without an early end, so that many bytes go in one step.
    bytes.iter().fold(0, |joined, byte| joined | byte) == 0
}
