//! Free pages and the free list.
//!
//! | bytes | what they hold |
//! |---|---|
//! | 0 | 0 |
//! | 1 | 0 |
//! | 2..3 | next free page |
//! | 4..511 | zero |

use crate::header;
use crate::page::{all_zero, reference_at, set_reference, Offset, Page, PageNumber, PAGE};

const NEXT: Offset = Offset(2);
const FREE_END: usize = 4;

/// Gives the next page of the free list.
pub fn next(page: &Page) -> PageNumber {
    reference_at(page, NEXT)
}

/// Writes a free page.
pub fn write(page: &mut Page, next: PageNumber) {
    *page = [0; PAGE];
    set_reference(page, NEXT, next);
}

/// Gives whether the page by itself is a free page.
pub fn sound(page: &Page) -> bool {
    all_zero(&page[..NEXT.0]) && all_zero(&page[FREE_END..])
}

/// Gives the pages of the free list, first to last.
pub fn list(pages: &[Page]) -> impl Iterator<Item = PageNumber> + '_ {
    let first = header::first_free(&pages[0]);
    std::iter::successors(Some(first), |number| Some(next(&pages[number.index()])))
        .take_while(|number| !number.is_none())
}

/// Gives whether the free list has at least so many pages.
pub fn has(pages: &[Page], wanted: usize) -> bool {
    list(pages).take(wanted).count() == wanted
}

/// Removes the first page of the free list and gives it; the list must not be
/// empty, which the room rule of put has tested.
pub fn take(pages: &mut [Page]) -> PageNumber {
    let taken = header::first_free(&pages[0]);
    let rest = next(&pages[taken.index()]);
    header::set_first_free(&mut pages[0], rest);
    taken
}

/// Zeroes a page and puts it first in the free list.
pub fn give(pages: &mut [Page], number: PageNumber) {
    let rest = header::first_free(&pages[0]);
    write(&mut pages[number.index()], rest);
    header::set_first_free(&mut pages[0], number);
}
