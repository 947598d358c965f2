//! Inner nodes: records of separator and child.
//!
//! | bytes | what they hold |
//! |---|---|
//! | 0 | 2 |
//! | 1 | 0 |
//! | 2..3 | record count |
//! | 4..7 | 0 |
//! | 8..9 | first child |
//! | 10..11 | 0 |
//! | 12+35i.. | record i: key length (1), child (2), key padded with zeros to 32 |
//! | after the records | zero |
//!
//! Children are counted from 0, the first child; child i+1 is record i's, and
//! separator i stands between children i and i+1. A child's place in its
//! parent is this count.

use crate::leaf::KEY_MOST;
use crate::page::{
    all_zero, number_at, reference_at, set_number, set_reference, Offset, Page, PageNumber, PAGE,
};

const MARK: u8 = 2;
const RECORD_COUNT: Offset = Offset(2);
const FIRST_CHILD: Offset = Offset(8);
const RECORDS: usize = 12;
const RECORD: usize = 35;
const RECORD_CHILD: usize = 1;
const RECORD_KEY: usize = 3;

/// The most records of an inner node.
pub const RECORDS_MOST: usize = 14;

/// The fewest records of an inner node that isn't the root.
pub const RECORDS_LEAST: usize = 7;

// ---------------------------------------------------------------------------
// Reading an inner node
// ---------------------------------------------------------------------------

/// Gives the number of records.
pub fn record_count(page: &Page) -> usize {
    number_at(page, RECORD_COUNT)
}

/// Gives the child at a place.
pub fn child(page: &Page, place: usize) -> PageNumber {
    if place == 0 {
        return reference_at(page, FIRST_CHILD);
    }
    reference_at(page, Offset(record_start(place - 1) + RECORD_CHILD))
}

/// Gives a record's separator.
pub fn separator(page: &Page, record: usize) -> &[u8] {
    let start = record_start(record);
    let key = start + RECORD_KEY;
    &page[key..key + usize::from(page[start])]
}

/// Gives the place of the child below which a key belongs; a key equal to a
/// separator goes right.
pub fn place_of(page: &Page, key: &[u8]) -> usize {
    (0..record_count(page))
        .take_while(|&record| separator(page, record) <= key)
        .count()
}

/// Gives whether the page by itself is an inner node of at least so many
/// records: its layout, and its separators strictly rising.
pub fn sound(page: &Page, records_least: usize) -> bool {
    let count = record_count(page);
    if page[0] != MARK
        || page[1] != 0
        || !all_zero(&page[RECORD_COUNT.0 + 2..FIRST_CHILD.0])
        || !all_zero(&page[FIRST_CHILD.0 + 2..RECORDS])
        || !(records_least..=RECORDS_MOST).contains(&count)
        || !all_zero(&page[record_start(count)..])
    {
        return false;
    }
    let mut last_key: &[u8] = &[];
    for record in 0..count {
        let start = record_start(record);
        let length = usize::from(page[start]);
        if length > KEY_MOST || !all_zero(&page[start + RECORD_KEY + length..start + RECORD]) {
            return false;
        }
        let key = separator(page, record);
        if key <= last_key {
            return false;
        }
        last_key = key;
    }
    true
}

// ---------------------------------------------------------------------------
// Changing inner nodes
// ---------------------------------------------------------------------------

/// A key that parts two children.
#[derive(Clone, Copy)]
pub struct Separator {
    length: u8,
    padded: [u8; KEY_MOST],
}

impl Separator {
    /// Gives the separator of a key.
    pub fn of(key: &[u8]) -> Separator {
        let mut padded = [0; KEY_MOST];
        padded[..key.len()].copy_from_slice(key);
        Separator {
            length: key.len() as u8,
            padded,
        }
    }
}

/// A separator and the child right of it.
#[derive(Clone, Copy)]
pub struct Record {
    /// The key that parts the child from the one before.
    pub separator: Separator,
    /// The child.
    pub child: PageNumber,
}

/// An inner node taken out of its page, to be changed and written back.
pub struct Node {
    /// The child left of all records.
    pub first_child: PageNumber,
    /// The records, in key order.
    pub records: Vec<Record>,
}

impl Node {
    /// Gives the node of a page.
    pub fn read(page: &Page) -> Node {
        let records = (0..record_count(page))
            .map(|record| Record {
                separator: Separator::of(separator(page, record)),
                child: child(page, record + 1),
            })
            .collect();
        Node {
            first_child: child(page, 0),
            records,
        }
    }

    /// Writes the node, of at most 14 records, into a page.
    pub fn write(&self, page: &mut Page) {
        *page = [0; PAGE];
        page[0] = MARK;
        set_number(page, RECORD_COUNT, self.records.len());
        set_reference(page, FIRST_CHILD, self.first_child);
        for (place, record) in self.records.iter().enumerate() {
            let start = record_start(place);
            page[start] = record.separator.length;
            set_reference(page, Offset(start + RECORD_CHILD), record.child);
            page[start + RECORD_KEY..start + RECORD].copy_from_slice(&record.separator.padded);
        }
    }

    /// Splits a node of 15 records: 0 to 6 stay, the key of 7 is given to go
    /// up, and the new right node begins with the child of 7.
    pub fn split(&mut self) -> (Separator, Node) {
        let follow = self.records.split_off(RECORDS_LEAST + 1);
        let risen = self.records.remove(RECORDS_LEAST);
        let right = Node {
            first_child: risen.child,
            records: follow,
        };
        (risen.separator, right)
    }

    /// Appends the right partner's records, the parent's key between the two
    /// coming down with the partner's first child.
    pub fn merge(&mut self, between: Separator, right: Node) {
        self.records.push(Record {
            separator: between,
            child: right.first_child,
        });
        self.records.extend(right.records);
    }

    /// Moves the right partner's first record over by rotation and gives the
    /// key that goes up.
    pub fn rotate_from_right(&mut self, between: Separator, right: &mut Node) -> Separator {
        let moved = right.records.remove(0);
        self.records.push(Record {
            separator: between,
            child: right.first_child,
        });
        right.first_child = moved.child;
        moved.separator
    }

    /// Moves the left partner's last record over by rotation and gives the
    /// key that goes up.
    pub fn rotate_from_left(&mut self, between: Separator, left: &mut Node) -> Separator {
        let moved = left.records.remove(left.records.len() - 1);
        self.records.insert(
            0,
            Record {
                separator: between,
                child: self.first_child,
            },
        );
        self.first_child = moved.child;
        moved.separator
    }
}

/// Gives where a record begins.
fn record_start(record: usize) -> usize {
    RECORDS + RECORD * record
}
