//! Overflow pages and the chains of the long values.
//!
//! | bytes | what they hold |
//! |---|---|
//! | 0 | 3 |
//! | 1 | 0 |
//! | 2..3 | next page of the chain |
//! | 4..5 | bytes held |
//! | 6..7 | 0 |
//! | 8.. | payload, then zeros |

use crate::free;
use crate::leaf::INLINE_MOST;
use crate::page::{
    all_zero, number_at, reference_at, set_number, set_reference, Offset, Page, PageNumber, PAGE,
};

const MARK: u8 = 3;
const NEXT: Offset = Offset(2);
const HELD: Offset = Offset(4);
const PAYLOAD: usize = 8;

/// The most bytes of a value.
pub const VALUE_MOST: usize = 4032;

/// The most bytes that an overflow page holds.
pub const HELD_MOST: usize = PAGE - PAYLOAD;

/// The most pages of a chain.
pub const CHAIN_MOST: usize = VALUE_MOST / HELD_MOST;

/// Gives the number of overflow pages of a value of this length.
pub fn pages_for(value_length: usize) -> usize {
    if value_length <= INLINE_MOST {
        return 0;
    }
    value_length.div_ceil(HELD_MOST)
}

/// Gives the next page of the chain.
pub fn next(page: &Page) -> PageNumber {
    reference_at(page, NEXT)
}

/// Gives the bytes of the value that the page holds.
pub fn payload(page: &Page) -> &[u8] {
    &page[PAYLOAD..PAYLOAD + number_at(page, HELD)]
}

/// Gives whether the page by itself is an overflow page that holds so many
/// bytes.
pub fn sound(page: &Page, held: usize) -> bool {
    page[0] == MARK
        && page[1] == 0
        && number_at(page, HELD) == held
        && all_zero(&page[HELD.0 + 2..PAYLOAD])
        && all_zero(&page[PAYLOAD + held..])
}

/// Gives the payloads of a chain, first page to last; none for the reference
/// to no page.
pub fn payloads(pages: &[Page], first: PageNumber) -> impl Iterator<Item = &[u8]> {
    std::iter::successors(Some(first), |number| Some(next(&pages[number.index()])))
        .take_while(|number| !number.is_none())
        .map(|number| payload(&pages[number.index()]))
}

/// Takes the pages of a value's chain, first to last, writes them, and gives
/// the first; an inline value takes none.
pub fn take_chain(pages: &mut [Page], value: &[u8]) -> PageNumber {
    let count = pages_for(value.len());
    let mut taken = [PageNumber::NONE; CHAIN_MOST + 1];
    for number in &mut taken[..count] {
        *number = free::take(pages);
    }
    // The entry after the last page taken is still none: the chain's end.
    for (held, link) in value.chunks(HELD_MOST).zip(taken[..=count].windows(2)) {
        write(&mut pages[link[0].index()], held, link[1]);
    }
    taken[0]
}

/// Frees the pages of a chain, first page first.
pub fn free_chain(pages: &mut [Page], first: PageNumber) {
    let mut number = first;
    while !number.is_none() {
        let rest = next(&pages[number.index()]);
        free::give(pages, number);
        number = rest;
    }
}

/// Writes an overflow page.
fn write(page: &mut Page, held: &[u8], next: PageNumber) {
    *page = [0; PAGE];
    page[0] = MARK;
    set_reference(page, NEXT, next);
    set_number(page, HELD, held.len());
    page[PAYLOAD..PAYLOAD + held.len()].copy_from_slice(held);
}
