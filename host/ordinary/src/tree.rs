//! The tree: descent, growing, mending.
//!
//! Everything here works on the pages of an accepted image and leaves pages
//! that make an accepted image.

use crate::header::{self, HEIGHT_MOST};
use crate::inner::{self, Node, Record, Separator, RECORDS_LEAST, RECORDS_MOST};
use crate::leaf::{self, Cell, LooseCell, LEAF_LEAST, LEAF_MOST};
use crate::page::{Page, PageNumber, Slot};
use crate::refusal::Refusal;
use crate::{free, overflow};

// ---------------------------------------------------------------------------
// Descent
// ---------------------------------------------------------------------------

/// An inner node on the way down, and the place of the child taken.
#[derive(Clone, Copy)]
pub struct Step {
    /// The inner node.
    pub page: PageNumber,
    /// The place of the child in it.
    pub place: usize,
}

/// The way from the root to a leaf.
pub struct Path {
    steps: [Step; HEIGHT_MOST],
    inner_levels: usize,
    /// The leaf reached.
    pub leaf: PageNumber,
}

impl Path {
    /// Gives the inner nodes above the leaf, from the root down.
    pub fn above(&self) -> &[Step] {
        &self.steps[..self.inner_levels]
    }
}

/// Gives the way to the leaf below which a key belongs.
pub fn descend(pages: &[Page], key: &[u8]) -> Path {
    let start = Step {
        page: PageNumber::NONE,
        place: 0,
    };
    let mut path = Path {
        steps: [start; HEIGHT_MOST],
        inner_levels: header::height(&pages[0]) - 1,
        leaf: header::root(&pages[0]),
    };
    for step in &mut path.steps[..path.inner_levels] {
        let page = &pages[path.leaf.index()];
        let place = inner::place_of(page, key);
        *step = Step {
            page: path.leaf,
            place,
        };
        path.leaf = inner::child(page, place);
    }
    path
}

/// Gives the leaf and the slot of a key, if the key is in the map.
pub fn locate(pages: &[Page], key: &[u8]) -> Option<(PageNumber, Slot)> {
    let number = descend(pages, key).leaf;
    let slot = leaf::find(&pages[number.index()], key).ok()?;
    Some((number, slot))
}

/// Gives the cell of a key, if the key is in the map.
pub fn find<'image>(pages: &'image [Page], key: &[u8]) -> Option<Cell<'image>> {
    locate(pages, key).map(|(number, slot)| leaf::cell(&pages[number.index()], slot))
}

/// Gives the parts of a cell's value: the inline value, or the payloads of
/// its chain.
pub fn value_parts<'image>(
    pages: &'image [Page],
    cell: Cell<'image>,
) -> impl Iterator<Item = &'image [u8]> {
    let chain = overflow::payloads(pages, cell.first_overflow());
    std::iter::once(cell.inline()).chain(chain)
}

/// Gives the cells of a range in key order; an empty upper bound means no end.
pub fn range<'image, 'bound>(
    pages: &'image [Page],
    low: &[u8],
    high: &'bound [u8],
) -> impl Iterator<Item = Cell<'image>> + use<'image, 'bound> {
    let first = descend(pages, low).leaf;
    let page = &pages[first.index()];
    let Slot(skipped) = leaf::find(page, low).unwrap_or_else(|place| place);
    let leaves = std::iter::successors(Some(page), |page| {
        let next = leaf::next(page);
        (!next.is_none()).then(|| &pages[next.index()])
    });
    leaves
        .flat_map(leaf::cells)
        .skip(skipped)
        .take_while(move |cell| high.is_empty() || cell.key() < high)
}

// ---------------------------------------------------------------------------
// Put and delete
// ---------------------------------------------------------------------------

/// Puts a value under a key, unless too few pages are free.
pub fn put(pages: &mut [Page], key: &[u8], value: &[u8]) -> Result<(), Refusal> {
    let path = descend(pages, key);
    let page = &pages[path.leaf.index()];
    let found = leaf::find(page, key);
    let old = found.ok().map(|slot| leaf::cell(page, slot));
    let old_cost = old.map_or(0, |cell| cell.cost());
    let old_chain = old.map_or(PageNumber::NONE, |cell| cell.first_overflow());
    let credit = old.map_or(0, |cell| overflow::pages_for(cell.value_length()));
    let cost = leaf::cost(page) - old_cost + leaf::cost_of(key.len(), value.len());
    let splits = cost > LEAF_MOST;

    let growth = if splits {
        pages_to_split(pages, &path)
    } else {
        0
    };
    let wanted = overflow::pages_for(value.len()) + growth;
    if !free::has(pages, wanted.saturating_sub(credit)) {
        return Err(Refusal::TooFewPages);
    }

    overflow::free_chain(pages, old_chain);
    let chain = overflow::take_chain(pages, value);
    let added = LooseCell::build(key, value, chain);
    let page = &mut pages[path.leaf.index()];
    let slot = match found {
        Ok(slot) => {
            leaf::remove(page, slot);
            slot
        }
        Err(slot) => {
            count_entries(pages, |entries| entries + 1);
            slot
        }
    };
    if splits {
        split_leaf(pages, &path, slot, added.cell());
    } else {
        leaf::add(&mut pages[path.leaf.index()], slot, added.cell());
        mend(pages, &path);
    }
    Ok(())
}

/// Deletes the entry of a key, unless the key is not in the map.
pub fn delete(pages: &mut [Page], key: &[u8]) -> Result<(), Refusal> {
    let path = descend(pages, key);
    let page = &pages[path.leaf.index()];
    let slot = leaf::find(page, key).map_err(|_| Refusal::NoSuchKey)?;
    let chain = leaf::cell(page, slot).first_overflow();

    overflow::free_chain(pages, chain);
    leaf::remove(&mut pages[path.leaf.index()], slot);
    count_entries(pages, |entries| entries - 1);
    mend(pages, &path);
    Ok(())
}

/// Changes the entry count.
fn count_entries(pages: &mut [Page], change: impl Fn(u32) -> u32) {
    let entries = header::entries(&pages[0]);
    header::set_entries(&mut pages[0], change(entries));
}

// ---------------------------------------------------------------------------
// Growing
// ---------------------------------------------------------------------------

/// Gives the pages taken if the leaf of a path splits: one for it, one for
/// each full inner node met without a break going up, one if the root splits.
fn pages_to_split(pages: &[Page], path: &Path) -> usize {
    let full = path
        .above()
        .iter()
        .rev()
        .take_while(|step| inner::record_count(&pages[step.page.index()]) == RECORDS_MOST)
        .count();
    let root_splits = full == path.above().len();
    1 + full + usize::from(root_splits)
}

/// Splits the leaf of a path, a cell being added at a slot: the right part
/// goes to a page taken now.
fn split_leaf(pages: &mut [Page], path: &Path, slot: Slot, added: Cell) {
    let before = pages[path.leaf.index()];
    let mut cells: Vec<Cell> = leaf::cells(&before).collect();
    cells.insert(slot.0, added);
    let (left, right) = cells.split_at(leaf::left_share(&cells));

    let right_page = free::take(pages);
    leaf::write_packed(&mut pages[path.leaf.index()], left, right_page);
    leaf::write_packed(&mut pages[right_page.index()], right, leaf::next(&before));
    grow(pages, path, Separator::of(right[0].key()), right_page);
}

/// Enters a page split off below a path's lowest inner node, splitting inner
/// nodes upwards as long as they are full.
fn grow(pages: &mut [Page], path: &Path, separator: Separator, right: PageNumber) {
    let mut rising = Record {
        separator,
        child: right,
    };
    for step in path.above().iter().rev() {
        let mut node = Node::read(&pages[step.page.index()]);
        node.records.insert(step.place, rising);
        if node.records.len() <= RECORDS_MOST {
            node.write(&mut pages[step.page.index()]);
            return;
        }
        let (separator, right_node) = node.split();
        let right_page = free::take(pages);
        node.write(&mut pages[step.page.index()]);
        right_node.write(&mut pages[right_page.index()]);
        rising = Record {
            separator,
            child: right_page,
        };
    }

    let root = Node {
        first_child: header::root(&pages[0]),
        records: vec![rising],
    };
    let height = header::height(&pages[0]);
    let root_page = free::take(pages);
    root.write(&mut pages[root_page.index()]);
    header::set_root(&mut pages[0], root_page, height + 1);
}

// ---------------------------------------------------------------------------
// Mending
// ---------------------------------------------------------------------------

/// Two neighbours under one parent: the node to mend and its partner.
struct Pair {
    parent: PageNumber,
    /// The parent's record whose separator stands between the two.
    record: usize,
    left: PageNumber,
    right: PageNumber,
}

impl Pair {
    /// Gives the child of a step with its partner: the right sibling under the
    /// same parent, else the left.
    fn of(pages: &[Page], step: Step) -> Pair {
        let parent = &pages[step.page.index()];
        let record = step.place.min(inner::record_count(parent) - 1);
        Pair {
            parent: step.page,
            record,
            left: inner::child(parent, record),
            right: inner::child(parent, record + 1),
        }
    }

    /// Gives the parent's separator between the two.
    fn separator(&self, pages: &[Page]) -> Separator {
        Separator::of(inner::separator(&pages[self.parent.index()], self.record))
    }

    /// Puts another separator between the two.
    fn set_separator(&self, pages: &mut [Page], separator: Separator) {
        let mut parent = Node::read(&pages[self.parent.index()]);
        parent.records[self.record].separator = separator;
        parent.write(&mut pages[self.parent.index()]);
    }

    /// Frees the right page and removes its record from the parent.
    fn free_right(&self, pages: &mut [Page]) {
        free::give(pages, self.right);
        let mut parent = Node::read(&pages[self.parent.index()]);
        parent.records.remove(self.record);
        parent.write(&mut pages[self.parent.index()]);
    }
}

/// Mends the leaf of a path if it isn't the root and costs under 125, and then
/// the inner nodes above it.
fn mend(pages: &mut [Page], path: &Path) {
    let Some((&step, above)) = path.above().split_last() else {
        return;
    };
    if leaf::cost(&pages[path.leaf.index()]) >= LEAF_LEAST {
        return;
    }
    let pair = Pair::of(pages, step);
    if mend_leaves(pages, &pair) {
        mend_inner(pages, step.page, above);
    }
}

/// Merges two leaves, or shares their cells if one page cannot hold them, and
/// gives whether they were merged.
fn mend_leaves(pages: &mut [Page], pair: &Pair) -> bool {
    let left = pages[pair.left.index()];
    let right = pages[pair.right.index()];
    let cells: Vec<Cell> = leaf::cells(&left).chain(leaf::cells(&right)).collect();

    if leaf::cost(&left) + leaf::cost(&right) <= LEAF_MOST {
        leaf::write_packed(&mut pages[pair.left.index()], &cells, leaf::next(&right));
        pair.free_right(pages);
        return true;
    }
    let (to_left, to_right) = cells.split_at(leaf::left_share(&cells));
    leaf::write_packed(&mut pages[pair.left.index()], to_left, leaf::next(&left));
    leaf::write_packed(&mut pages[pair.right.index()], to_right, leaf::next(&right));
    pair.set_separator(pages, Separator::of(to_right[0].key()));
    false
}

/// Mends an inner node that has lost a record, then the nodes above it, as
/// long as one that isn't the root has 6; frees a root with no record.
fn mend_inner(pages: &mut [Page], number: PageNumber, above: &[Step]) {
    let records = inner::record_count(&pages[number.index()]);
    let Some((&step, higher)) = above.split_last() else {
        if records == 0 {
            let child = inner::child(&pages[number.index()], 0);
            let height = header::height(&pages[0]);
            free::give(pages, number);
            header::set_root(&mut pages[0], child, height - 1);
        }
        return;
    };
    if records >= RECORDS_LEAST {
        return;
    }

    let pair = Pair::of(pages, step);
    let between = pair.separator(pages);
    let mut left = Node::read(&pages[pair.left.index()]);
    let mut right = Node::read(&pages[pair.right.index()]);
    // One of the two has 6 records; with a partner of 7 they fill one page.
    if left.records.len() + right.records.len() < RECORDS_MOST {
        left.merge(between, right);
        left.write(&mut pages[pair.left.index()]);
        pair.free_right(pages);
        mend_inner(pages, step.page, higher);
        return;
    }
    let risen = if pair.left == number {
        left.rotate_from_right(between, &mut right)
    } else {
        right.rotate_from_left(between, &mut left)
    };
    left.write(&mut pages[pair.left.index()]);
    right.write(&mut pages[pair.right.index()]);
    pair.set_separator(pages, risen);
}
