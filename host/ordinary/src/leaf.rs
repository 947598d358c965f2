//! Leaves: slots, cells, holes, compaction and the split rule.
//!
//! | bytes | what they hold |
//! |---|---|
//! | 0 | 1 |
//! | 1 | 0 |
//! | 2..3 | slot count c |
//! | 4..5 | cell start s |
//! | 6..7 | hole bytes |
//! | 8..9 | next leaf |
//! | 10..11 | 0 |
//! | 12..12+2c−1 | slots: the offsets of the cells, in key order |
//! | 12+2c..s−1 | zero |
//! | s..511 | cells, and zeros between them |
//!
//! | bytes of a cell | what they hold |
//! |---|---|
//! | 0 | key length |
//! | 1..2 | value length v |
//! | 3.. | key, then the value if v is at most 64, else the first overflow page (2) |

use crate::overflow::VALUE_MOST;
use crate::page::{
    all_zero, number_at, reference_at, set_number, set_reference, Offset, Page, PageNumber, Slot,
    PAGE,
};

const MARK: u8 = 1;
const SLOT_COUNT: Offset = Offset(2);
const CELL_START: Offset = Offset(4);
const HOLES: Offset = Offset(6);
const NEXT: Offset = Offset(8);
const SLOTS: usize = 12;
const SLOT: usize = 2;
const CELL_KEY: usize = 3;
const REFERENCE: usize = 2;

/// The most bytes of a key.
pub const KEY_MOST: usize = 32;

/// The most bytes of a value that stands in its cell.
pub const INLINE_MOST: usize = 64;

/// The least cost of a leaf that isn't the root.
pub const LEAF_LEAST: usize = 125;

/// The most cost of a leaf.
pub const LEAF_MOST: usize = PAGE - SLOTS;

/// Gives the bytes that a value of this length takes in its cell.
fn payload_length(value_length: usize) -> usize {
    if value_length <= INLINE_MOST {
        value_length
    } else {
        REFERENCE
    }
}

/// Gives the cost of a cell of these lengths: its length and its slot.
pub fn cost_of(key_length: usize, value_length: usize) -> usize {
    CELL_KEY + key_length + payload_length(value_length) + SLOT
}

/// The bytes of one cell.
#[derive(Clone, Copy)]
pub struct Cell<'page>(&'page [u8]);

impl<'page> Cell<'page> {
    /// Gives the cell at an offset, if its lengths are allowed ones and it
    /// ends inside the page.
    pub fn read(page: &'page Page, offset: Offset) -> Option<Cell<'page>> {
        let bytes = page.get(offset.0..)?;
        let [key_length, value_low, value_high, ..] = *bytes else {
            return None;
        };
        let key_length = usize::from(key_length);
        let value_length = usize::from(u16::from_le_bytes([value_low, value_high]));
        if key_length == 0 || key_length > KEY_MOST || value_length > VALUE_MOST {
            return None;
        }
        let length = CELL_KEY + key_length + payload_length(value_length);
        bytes.get(..length).map(Cell)
    }

    /// Gives the key.
    pub fn key(self) -> &'page [u8] {
        &self.0[CELL_KEY..self.payload_start()]
    }

    /// Gives the length of the value, be it inline or chained.
    pub fn value_length(self) -> usize {
        usize::from(u16::from_le_bytes([self.0[1], self.0[2]]))
    }

    /// Gives whether the value stands in a chain of overflow pages.
    pub fn chained(self) -> bool {
        self.value_length() > INLINE_MOST
    }

    /// Gives the inline value, empty if the value is chained.
    pub fn inline(self) -> &'page [u8] {
        if self.chained() {
            return &[];
        }
        &self.0[self.payload_start()..]
    }

    /// Gives the first overflow page, none if the value is inline.
    pub fn first_overflow(self) -> PageNumber {
        if !self.chained() {
            return PageNumber::NONE;
        }
        let at = self.payload_start();
        PageNumber(u16::from_le_bytes([self.0[at], self.0[at + 1]]))
    }

    /// Gives the length of the cell.
    pub fn length(self) -> usize {
        self.0.len()
    }

    /// Gives the cost of the cell: its length and its slot.
    pub fn cost(self) -> usize {
        self.length() + SLOT
    }

    /// Gives where in the cell the inline value or the reference begins.
    pub fn payload_start(self) -> usize {
        CELL_KEY + usize::from(self.0[0])
    }
}

/// The bytes of a cell that stands in no page yet.
pub struct LooseCell(Vec<u8>);

impl LooseCell {
    /// Gives the cell of a key and a value; a long value's chain is taken
    /// already and begins at the page given.
    pub fn build(key: &[u8], value: &[u8], first_overflow: PageNumber) -> LooseCell {
        let mut bytes = Vec::with_capacity(cost_of(key.len(), value.len()));
        bytes.push(key.len() as u8);
        bytes.extend((value.len() as u16).to_le_bytes());
        bytes.extend(key);
        if first_overflow.is_none() {
            bytes.extend(value);
        } else {
            bytes.extend(first_overflow.0.to_le_bytes());
        }
        LooseCell(bytes)
    }

    /// Gives the cell.
    pub fn cell(&self) -> Cell<'_> {
        Cell(&self.0)
    }
}

// ---------------------------------------------------------------------------
// Reading a leaf
// ---------------------------------------------------------------------------

/// Gives the number of slots.
pub fn slot_count(page: &Page) -> usize {
    number_at(page, SLOT_COUNT)
}

/// Gives the cell start: the offset below which the next cell goes.
pub fn cell_start(page: &Page) -> usize {
    number_at(page, CELL_START)
}

/// Gives the number of hole bytes.
pub fn holes(page: &Page) -> usize {
    number_at(page, HOLES)
}

/// Gives the next leaf in key order.
pub fn next(page: &Page) -> PageNumber {
    reference_at(page, NEXT)
}

/// Gives the offset of a slot's cell.
pub fn cell_offset(page: &Page, slot: Slot) -> Offset {
    Offset(number_at(page, slot_offset(slot)))
}

/// Gives the cell of a slot.
pub fn cell(page: &Page, slot: Slot) -> Cell<'_> {
    let start = cell_offset(page, slot).0;
    let value_length = number_at(page, Offset(start + 1));
    let length = CELL_KEY + usize::from(page[start]) + payload_length(value_length);
    Cell(&page[start..start + length])
}

/// Gives the cells in key order.
pub fn cells(page: &Page) -> impl Iterator<Item = Cell<'_>> {
    (0..slot_count(page)).map(|slot| cell(page, Slot(slot)))
}

/// Gives the cost of all cells.
pub fn cost(page: &Page) -> usize {
    PAGE - cell_start(page) - holes(page) + SLOT * slot_count(page)
}

/// Gives the slot of a key, or else the slot where it would go.
pub fn find(page: &Page, key: &[u8]) -> Result<Slot, Slot> {
    let mut low = 0;
    let mut high = slot_count(page);
    while low < high {
        let middle = (low + high) / 2;
        match cell(page, Slot(middle)).key().cmp(key) {
            std::cmp::Ordering::Less => low = middle + 1,
            std::cmp::Ordering::Equal => return Ok(Slot(middle)),
            std::cmp::Ordering::Greater => high = middle,
        }
    }
    Err(Slot(low))
}

/// Gives whether the page by itself is a leaf: its layout, its cells inside
/// s..511 and apart, its keys strictly rising, zeros everywhere else.
pub fn sound(page: &Page) -> bool {
    let count = slot_count(page);
    let start = cell_start(page);
    let slots_end = SLOTS + SLOT * count;
    if page[0] != MARK || page[1] != 0 || !all_zero(&page[NEXT.0 + 2..SLOTS]) {
        return false;
    }
    if slots_end > start || start > PAGE {
        return false;
    }

    let mut covered = [0_u8; PAGE];
    let mut total = 0;
    let mut last_key: &[u8] = &[];
    for slot in 0..count {
        let offset = cell_offset(page, Slot(slot));
        let Some(cell) = Cell::read(page, offset) else {
            return false;
        };
        total += cell.length();
        if offset.0 < start || total > PAGE - start || cell.key() <= last_key {
            return false;
        }
        covered[offset.0..offset.0 + cell.length()].fill(u8::MAX);
        last_key = cell.key();
    }

    // The cells are apart exactly when they cover as many bytes as their
    // lengths add up to.
    let bytes_covered: u16 = covered.iter().map(|&mask| u16::from(mask & 1)).sum();
    let stray = page[slots_end..]
        .iter()
        .zip(&covered[slots_end..])
        .fold(0, |joined, (byte, mask)| joined | (byte & !mask));
    usize::from(bytes_covered) == total && start + holes(page) + total == PAGE && stray == 0
}

// ---------------------------------------------------------------------------
// Changing a leaf
// ---------------------------------------------------------------------------

/// Writes a leaf of these cells, packed: the first ends at 512, each next one
/// lies right below it.
pub fn write_packed(page: &mut Page, cells: &[Cell], next: PageNumber) {
    *page = [0; PAGE];
    page[0] = MARK;
    let mut start = PAGE;
    for (slot, cell) in cells.iter().enumerate() {
        start -= cell.length();
        page[start..start + cell.length()].copy_from_slice(cell.0);
        set_number(page, slot_offset(Slot(slot)), start);
    }
    set_number(page, SLOT_COUNT, cells.len());
    set_number(page, CELL_START, start);
    set_reference(page, NEXT, next);
}

/// Makes another leaf the next one.
pub fn set_next(page: &mut Page, next: PageNumber) {
    set_reference(page, NEXT, next);
}

/// Removes the cell of a slot: its bytes become zero and a hole, the slots
/// close up, the cell start stays.
pub fn remove(page: &mut Page, slot: Slot) {
    let start = cell_offset(page, slot).0;
    let length = cell(page, slot).length();
    let count = slot_count(page);
    let slots_end = slot_offset(Slot(count)).0;

    page[start..start + length].fill(0);
    page.copy_within(
        slot_offset(Slot(slot.0 + 1)).0..slots_end,
        slot_offset(slot).0,
    );
    page[slots_end - SLOT..slots_end].fill(0);
    set_number(page, SLOT_COUNT, count - 1);
    set_number(page, HOLES, holes(page) + length);
}

/// Adds a cell at a slot, right below the cell start, after compaction if
/// there is too little room; the leaf's cost with it must be at most 500.
pub fn add(page: &mut Page, slot: Slot, cell: Cell) {
    let count = slot_count(page);
    let slots_end = slot_offset(Slot(count)).0;
    if cell_start(page) - slots_end < cell.cost() {
        compact(page);
    }
    let start = cell_start(page) - cell.length();

    page[start..start + cell.length()].copy_from_slice(cell.0);
    page.copy_within(
        slot_offset(slot).0..slots_end,
        slot_offset(Slot(slot.0 + 1)).0,
    );
    set_number(page, slot_offset(slot), start);
    set_number(page, SLOT_COUNT, count + 1);
    set_number(page, CELL_START, start);
}

/// Packs the cells in slot order, so that no holes remain.
fn compact(page: &mut Page) {
    let before = *page;
    let kept: Vec<Cell> = cells(&before).collect();
    write_packed(page, &kept, next(&before));
}

/// Gives how many cells of a sequence the left page keeps: the fewest whose
/// cost doubled is at least the cost of all.
pub fn left_share(cells: &[Cell]) -> usize {
    let total: usize = cells.iter().map(|cell| cell.cost()).sum();
    let mut kept = 0;
    let mut cost = 0;
    while 2 * cost < total {
        cost += cells[kept].cost();
        kept += 1;
    }
    kept
}

/// Gives the offset of a slot's two bytes.
fn slot_offset(slot: Slot) -> Offset {
    Offset(SLOTS + SLOT * slot.0)
}
