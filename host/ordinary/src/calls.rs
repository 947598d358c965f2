//! The calls: format, check, get, view, put, delete, scan, and the four that
//! the host program uses.
//!
//! Each call tests in the order 1, 9, 3, 4, 2 before it reads or changes the
//! map, so that nothing is written before the first four have passed.

use crate::check::{walk, Counts, Report};
use crate::leaf::{self, KEY_MOST};
use crate::overflow::VALUE_MOST;
use crate::page::{Page, PageNumber, PAGE, PAGES_LEAST, PAGES_MOST};
use crate::refusal::Refusal;
use crate::{free, header, tree};

/// What check answers; all numbers are 0 when it refuses.
#[derive(Clone, Copy, Debug, PartialEq, Eq)]
pub struct CheckAnswer {
    /// The refusal number.
    pub refusal: Refusal,
    /// The pages in each role.
    pub counts: Counts,
    /// The height of the tree.
    pub height: usize,
    /// The number of entries.
    pub entries: u32,
}

/// What get answers.
#[derive(Clone, Copy, Debug, PartialEq, Eq)]
pub struct GetAnswer {
    /// The refusal number.
    pub refusal: Refusal,
    /// The value's length for `Done` and `OutputShort`, else 0.
    pub length: usize,
}

/// What view answers; all numbers are 0 and the flag is no when it refuses.
#[derive(Clone, Copy, Debug, PartialEq, Eq)]
pub struct ViewAnswer {
    /// The refusal number.
    pub refusal: Refusal,
    /// Where in the image the inline value begins, 0 for a chained value.
    pub offset: usize,
    /// The length of the inline value, 0 for a chained value.
    pub length: usize,
    /// The length of the value, be it inline or chained.
    pub value_length: usize,
    /// Whether the value is chained.
    pub chained: bool,
}

impl ViewAnswer {
    /// Gives the part of the image that this answer names.
    pub fn part<'image>(&self, image: &'image [u8]) -> &'image [u8] {
        image
            .get(self.offset..)
            .and_then(|rest| rest.get(..self.length))
            .unwrap_or(&[])
    }
}

/// What scan answers; all numbers are 0 and the flag is no when it refuses.
#[derive(Clone, Copy, Debug, PartialEq, Eq)]
pub struct ScanAnswer {
    /// The refusal number.
    pub refusal: Refusal,
    /// The number of entries written.
    pub entries: usize,
    /// The number of bytes written.
    pub bytes: usize,
    /// Whether entries of the range remain.
    pub more: bool,
}

// ---------------------------------------------------------------------------
// Tests before a call
// ---------------------------------------------------------------------------

/// Gives the pages of an accepted image and what its check found; the tests
/// of key and value have their place between 9 and 2.
fn open<'image>(
    image: &'image [u8],
    work: &mut [u16],
    tested: Result<(), Refusal>,
) -> Result<(&'image [Page], Report), Refusal> {
    let (pages, rest) = image.as_chunks::<PAGE>();
    test_image(pages, rest)?;
    let report = walk(pages, roles_of(work, pages, tested)?)?;
    Ok((pages, report))
}

/// Gives the pages of an accepted image to be changed; the tests of key and
/// value have their place between 9 and 2.
pub(crate) fn open_mut<'image>(
    image: &'image mut [u8],
    work: &mut [u16],
    tested: Result<(), Refusal>,
) -> Result<&'image mut [Page], Refusal> {
    let (pages, rest) = image.as_chunks_mut::<PAGE>();
    test_image(pages, rest)?;
    walk(pages, roles_of(work, pages, tested)?)?;
    Ok(pages)
}

/// Gives refusal 1 for an image of a length that is not allowed, cut into
/// whole pages and the bytes after them.
fn test_image(pages: &[Page], rest: &[u8]) -> Result<(), Refusal> {
    if !rest.is_empty() || !(PAGES_LEAST..=PAGES_MOST).contains(&pages.len()) {
        return Err(Refusal::ImageLength);
    }
    Ok(())
}

/// Gives the part of the work area that is used, or refusal 9, or else what
/// the tests of key and value have refused.
fn roles_of<'work>(
    work: &'work mut [u16],
    pages: &[Page],
    tested: Result<(), Refusal>,
) -> Result<&'work mut [u16], Refusal> {
    let roles = work.get_mut(..pages.len()).ok_or(Refusal::WorkShort)?;
    tested.map(|()| roles)
}

/// Gives refusal 3 for a key of a length that is not allowed.
pub(crate) fn test_key(length: usize) -> Result<(), Refusal> {
    if length == 0 || length > KEY_MOST {
        return Err(Refusal::KeyLength);
    }
    Ok(())
}

/// Gives refusal 3 for a key, else 4 for a value, of a length that is not
/// allowed.
pub(crate) fn test_entry(key_length: usize, value_length: usize) -> Result<(), Refusal> {
    test_key(key_length)?;
    if value_length > VALUE_MOST {
        return Err(Refusal::ValueLength);
    }
    Ok(())
}

/// Gives refusal 3 for bounds of lengths that are not allowed.
pub(crate) fn test_bounds(low_length: usize, high_length: usize) -> Result<(), Refusal> {
    if low_length.max(high_length) > KEY_MOST {
        return Err(Refusal::KeyLength);
    }
    Ok(())
}

// ---------------------------------------------------------------------------
// The calls
// ---------------------------------------------------------------------------

/// Makes the image a fresh store: page 1 an empty leaf and the root, all pages
/// from 2 on free, chained rising.
pub fn format(image: &mut [u8]) -> Refusal {
    let (pages, rest) = image.as_chunks_mut::<PAGE>();
    if let Err(refusal) = test_image(pages, rest) {
        return refusal;
    }
    let count = pages.len();
    // The page after a page, none after the last; counts stay within 1,024.
    let after = |number: usize| {
        if number + 1 < count {
            PageNumber((number + 1) as u16)
        } else {
            PageNumber::NONE
        }
    };
    for (number, page) in pages.iter_mut().enumerate() {
        match number {
            0 => header::write_fresh(page, count, after(1)),
            1 => leaf::write_packed(page, &[], PageNumber::NONE),
            _ => free::write(page, after(number)),
        }
    }
    Refusal::Done
}

/// Checks the image and gives the pages in each role, the height and the
/// number of entries.
pub fn check(image: &[u8], work: &mut [u16]) -> CheckAnswer {
    match open(image, work, Ok(())) {
        Ok((_, report)) => CheckAnswer {
            refusal: Refusal::Done,
            counts: report.counts,
            height: report.height,
            entries: report.entries,
        },
        Err(refusal) => CheckAnswer {
            refusal,
            counts: Counts::default(),
            height: 0,
            entries: 0,
        },
    }
}

/// Writes the value of a key at the start of the output and gives its length.
pub fn get(image: &[u8], work: &mut [u16], key: &[u8], output: &mut [u8]) -> GetAnswer {
    let found = open(image, work, test_key(key.len())).and_then(|(pages, _)| {
        let cell = tree::find(pages, key).ok_or(Refusal::NoSuchKey)?;
        Ok((pages, cell))
    });
    let (pages, cell) = match found {
        Ok(found) => found,
        Err(refusal) => return GetAnswer { refusal, length: 0 },
    };
    let length = cell.value_length();
    let Some(room) = output.get_mut(..length) else {
        return GetAnswer {
            refusal: Refusal::OutputShort,
            length,
        };
    };
    write_value(pages, cell, room);
    GetAnswer {
        refusal: Refusal::Done,
        length,
    }
}

/// Gives where in the image the value of a key stands, if it is inline, and
/// its length.
pub fn view(image: &[u8], work: &mut [u16], key: &[u8]) -> ViewAnswer {
    let mut answer = ViewAnswer {
        refusal: Refusal::Done,
        offset: 0,
        length: 0,
        value_length: 0,
        chained: false,
    };
    let located = open(image, work, test_key(key.len())).and_then(|(pages, _)| {
        let (number, slot) = tree::locate(pages, key).ok_or(Refusal::NoSuchKey)?;
        Ok((&pages[number.index()], number, slot))
    });
    match located {
        Err(refusal) => answer.refusal = refusal,
        Ok((page, number, slot)) => {
            let cell = leaf::cell(page, slot);
            answer.value_length = cell.value_length();
            answer.chained = cell.chained();
            if !cell.chained() {
                let cell_start = PAGE * number.index() + leaf::cell_offset(page, slot).0;
                answer.offset = cell_start + cell.payload_start();
                answer.length = cell.value_length();
            }
        }
    }
    answer
}

/// Puts a value under a key, in place of the old one if there is one.
pub fn put(image: &mut [u8], work: &mut [u16], key: &[u8], value: &[u8]) -> Refusal {
    open_mut(image, work, test_entry(key.len(), value.len()))
        .and_then(|pages| tree::put(pages, key, value))
        .into()
}

/// Deletes the entry of a key.
pub fn delete(image: &mut [u8], work: &mut [u16], key: &[u8]) -> Refusal {
    open_mut(image, work, test_key(key.len()))
        .and_then(|pages| tree::delete(pages, key))
        .into()
}

/// Writes the entries from a lower bound (included) to an upper bound
/// (excluded) in key order, as many as fit: key length (1), value length (2),
/// key, value.
pub fn scan(
    image: &[u8],
    work: &mut [u16],
    low: &[u8],
    high: &[u8],
    output: &mut [u8],
) -> ScanAnswer {
    let mut answer = ScanAnswer {
        refusal: Refusal::Done,
        entries: 0,
        bytes: 0,
        more: false,
    };
    let pages = match open(image, work, test_bounds(low.len(), high.len())) {
        Ok((pages, _)) => pages,
        Err(refusal) => {
            answer.refusal = refusal;
            return answer;
        }
    };
    for cell in tree::range(pages, low, high) {
        let key = cell.key();
        let value_start = 3 + key.len();
        let length = value_start + cell.value_length();
        let Some(entry) = output[answer.bytes..].get_mut(..length) else {
            answer.more = true;
            break;
        };
        entry[0] = key.len() as u8;
        entry[1..3].copy_from_slice(&(cell.value_length() as u16).to_le_bytes());
        entry[3..value_start].copy_from_slice(key);
        write_value(pages, cell, &mut entry[value_start..]);
        answer.entries += 1;
        answer.bytes += length;
    }
    answer
}

/// Writes a cell's value into room of just its length.
fn write_value(pages: &[Page], cell: leaf::Cell, room: &mut [u8]) {
    let mut rest = room;
    for part in tree::value_parts(pages, cell) {
        let (place, after) = rest.split_at_mut(part.len());
        place.copy_from_slice(part);
        rest = after;
    }
}

// ---------------------------------------------------------------------------
// The host's calls
// ---------------------------------------------------------------------------

/// Put with a work area of its own; gives refusal × 65,536.
pub fn host_put(image: &mut [u8], key: &[u8], value: &[u8]) -> u32 {
    packed(put(image, &mut [0; PAGES_MOST], key, value), 0)
}

/// Get with a work area of its own; gives refusal × 65,536 + length.
pub fn host_get(image: &[u8], key: &[u8], output: &mut [u8]) -> u32 {
    let answer = get(image, &mut [0; PAGES_MOST], key, output);
    packed(answer.refusal, answer.length)
}

/// Delete with a work area of its own; gives refusal × 65,536.
pub fn host_delete(image: &mut [u8], key: &[u8]) -> u32 {
    packed(delete(image, &mut [0; PAGES_MOST], key), 0)
}

/// Check with a work area of its own; gives refusal × 65,536.
pub fn host_check(image: &[u8]) -> u32 {
    packed(check(image, &mut [0; PAGES_MOST]).refusal, 0)
}

/// Gives refusal × 65,536 + length; a value's length is at most 4,032.
fn packed(refusal: Refusal, length: usize) -> u32 {
    u32::from(refusal.number()) * 65_536 + length as u32
}
