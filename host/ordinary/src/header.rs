//! The header, page 0.
//!
//! | bytes | what they hold |
//! |---|---|
//! | 0..1 | number of pages |
//! | 2..3 | root |
//! | 4..5 | height, 1 for a lone leaf |
//! | 6..7 | first free page |
//! | 8..11 | entry count |
//! | 12..13 | edition, 1 |
//! | 14..511 | zero |

use crate::page::{
    all_zero, number_at, reference_at, set_number, set_reference, Offset, Page, PageNumber, PAGE,
};

const PAGE_COUNT: Offset = Offset(0);
const ROOT: Offset = Offset(2);
const HEIGHT: Offset = Offset(4);
const FIRST_FREE: Offset = Offset(6);
const ENTRIES: Offset = Offset(8);
const EDITION_AT: Offset = Offset(12);
const HEADER_END: usize = 14;

/// The edition of the layouts.
pub const EDITION: usize = 1;

/// The most levels of a tree: a fifth needs 1,024 leaves.
pub const HEIGHT_MOST: usize = 4;

/// Gives the root's page.
pub fn root(header: &Page) -> PageNumber {
    reference_at(header, ROOT)
}

/// Gives the height of the tree.
pub fn height(header: &Page) -> usize {
    number_at(header, HEIGHT)
}

/// Gives the first page of the free list.
pub fn first_free(header: &Page) -> PageNumber {
    reference_at(header, FIRST_FREE)
}

/// Gives the number of entries.
pub fn entries(header: &Page) -> u32 {
    let at = ENTRIES.0;
    u32::from_le_bytes([header[at], header[at + 1], header[at + 2], header[at + 3]])
}

/// Makes a page the root of a tree of this height.
pub fn set_root(header: &mut Page, root: PageNumber, height: usize) {
    set_reference(header, ROOT, root);
    set_number(header, HEIGHT, height);
}

/// Makes a page the first of the free list.
pub fn set_first_free(header: &mut Page, first: PageNumber) {
    set_reference(header, FIRST_FREE, first);
}

/// Writes the number of entries.
pub fn set_entries(header: &mut Page, entries: u32) {
    let at = ENTRIES.0;
    header[at..at + 4].copy_from_slice(&entries.to_le_bytes());
}

/// Writes the header of a fresh store: page 1 is the root, and the free list
/// begins at the page given.
pub fn write_fresh(header: &mut Page, page_count: usize, first_free: PageNumber) {
    *header = [0; PAGE];
    set_number(header, PAGE_COUNT, page_count);
    set_root(header, PageNumber(1), 1);
    set_first_free(header, first_free);
    set_number(header, EDITION_AT, EDITION);
}

/// Gives whether the page by itself is a header of so many pages.
pub fn sound(header: &Page, page_count: usize) -> bool {
    number_at(header, PAGE_COUNT) == page_count
        && (1..=HEIGHT_MOST).contains(&height(header))
        && number_at(header, EDITION_AT) == EDITION
        && all_zero(&header[HEADER_END..])
}
