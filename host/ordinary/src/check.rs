//! What an accepted image is: one walk over tree, chains and free list.
//!
//! A rule of a page by itself stands with the page's kind (`sound`); the walk
//! adds what lies between pages: references, levels, bounds, the order of the
//! leaves, and that every page is met exactly once. The roles in the work
//! area are the marks of the pages already met, so that no page is looked at
//! twice and the walk is linear in the image whatever its bytes are.

use crate::inner::{self, RECORDS_LEAST};
use crate::leaf::{self, LEAF_LEAST};
use crate::overflow::{self, HELD_MOST};
use crate::page::{Page, PageNumber};
use crate::refusal::Refusal;
use crate::{free, header};

/// What a page is used for, by the number that stands in the work area.
#[derive(Clone, Copy, Debug, PartialEq, Eq)]
pub enum Role {
    /// A leaf of the tree.
    Leaf = 1,
    /// An inner node of the tree.
    Inner = 2,
    /// A page of a chain.
    Overflow = 3,
    /// A page of the free list.
    Free = 4,
    /// Page 0.
    Header = 5,
}

/// The mark of a page not met yet, and of every page of a damaged image.
const UNMET: u16 = 0;

/// How many pages have each role; together all pages of the image.
#[derive(Clone, Copy, Debug, Default, PartialEq, Eq)]
pub struct Counts {
    /// Leaves.
    pub leaf: usize,
    /// Inner nodes.
    pub inner: usize,
    /// Overflow pages.
    pub overflow: usize,
    /// Free pages.
    pub free: usize,
    /// The header, always 1.
    pub header: usize,
}

/// What the walk found in an accepted image.
#[derive(Clone, Copy, Debug)]
pub struct Report {
    /// The pages in each role.
    pub counts: Counts,
    /// The height of the tree.
    pub height: usize,
    /// The number of entries.
    pub entries: u32,
}

/// Walks the image and writes every page's role, or zeros for a damaged image;
/// there is one role for each page.
pub fn walk(pages: &[Page], roles: &mut [u16]) -> Result<Report, Refusal> {
    roles.fill(UNMET);
    let report = Walk::begin(pages, roles).whole();
    if report.is_none() {
        roles.fill(UNMET);
    }
    report.ok_or(Refusal::Damaged)
}

/// The keys allowed below a node: from low (included) to high (excluded).
#[derive(Clone, Copy)]
struct Bounds<'image> {
    /// The empty key, which is below all keys, bounds nothing.
    low: &'image [u8],
    high: Option<&'image [u8]>,
}

/// A walk under way. Each step gives none as soon as the image is damaged.
struct Walk<'image, 'work> {
    pages: &'image [Page],
    roles: &'work mut [u16],
    /// The number of cells met.
    entries: u32,
    /// What the leaf met last says is the next one; none before the first.
    awaited: Option<PageNumber>,
}

impl<'image, 'work> Walk<'image, 'work> {
    /// Gives a walk that has met no page.
    fn begin(pages: &'image [Page], roles: &'work mut [u16]) -> Self {
        Walk {
            pages,
            roles,
            entries: 0,
            awaited: None,
        }
    }

    /// Walks header, tree, chains and free list and gives what it found.
    fn whole(mut self) -> Option<Report> {
        let header = self.pages.first()?;
        if !header::sound(header, self.pages.len()) {
            return None;
        }
        self.roles[0] = Role::Header as u16;

        let height = header::height(header);
        let unbounded = Bounds {
            low: &[],
            high: None,
        };
        self.subtree(header::root(header), height, true, unbounded)?;
        if self.awaited != Some(PageNumber::NONE) || self.entries != header::entries(header) {
            return None;
        }
        self.free_list(header::first_free(header))?;
        Some(Report {
            counts: self.counts()?,
            height,
            entries: self.entries,
        })
    }

    /// Marks a page with its role and gives it, unless the reference names no
    /// page, the header, or a page met before.
    fn meet(&mut self, number: PageNumber, role: Role) -> Option<&'image Page> {
        // Page 0 has its role since the start, so that none is refused here.
        let mark = self.roles.get_mut(number.index())?;
        if *mark != UNMET {
            return None;
        }
        *mark = role as u16;
        self.pages.get(number.index())
    }

    /// Walks a node and what lies below it; leaves are at level 1, and the
    /// level falls by one at each step down.
    fn subtree(
        &mut self,
        number: PageNumber,
        level: usize,
        is_root: bool,
        bounds: Bounds<'image>,
    ) -> Option<()> {
        if level == 1 {
            return self.leaf(number, is_root, bounds);
        }
        let page = self.meet(number, Role::Inner)?;
        let records_least = if is_root { 1 } else { RECORDS_LEAST };
        if !inner::sound(page, records_least) {
            return None;
        }
        let count = inner::record_count(page);
        for place in 0..=count {
            let below = Bounds {
                low: if place == 0 {
                    bounds.low
                } else {
                    inner::separator(page, place - 1)
                },
                high: if place == count {
                    bounds.high
                } else {
                    Some(inner::separator(page, place))
                },
            };
            // Separators are between the inherited bounds whenever the leaves
            // are: no leaf but a root is empty.
            self.subtree(inner::child(page, place), level - 1, false, below)?;
        }
        Some(())
    }

    /// Walks a leaf and its chains.
    fn leaf(&mut self, number: PageNumber, is_root: bool, bounds: Bounds<'image>) -> Option<()> {
        let page = self.meet(number, Role::Leaf)?;
        if !leaf::sound(page) || !(is_root || leaf::cost(page) >= LEAF_LEAST) {
            return None;
        }
        if self.awaited.is_some_and(|awaited| awaited != number) {
            return None;
        }
        self.awaited = Some(leaf::next(page));

        let mut last_key = None;
        for cell in leaf::cells(page) {
            // Keys rise, so the first and the last tell of all.
            if last_key.is_none() && cell.key() < bounds.low {
                return None;
            }
            last_key = Some(cell.key());
            self.entries += 1;
            if cell.chained() {
                self.chain(cell.first_overflow(), cell.value_length())?;
            }
        }
        match (last_key, bounds.high) {
            (Some(key), Some(high)) if key >= high => None,
            _ => Some(()),
        }
    }

    /// Walks the chain of a value of more than 64 bytes.
    fn chain(&mut self, first: PageNumber, value_length: usize) -> Option<()> {
        let mut number = first;
        let mut left = value_length;
        while left > 0 {
            let held = left.min(HELD_MOST);
            let page = self.meet(number, Role::Overflow)?;
            if !overflow::sound(page, held) {
                return None;
            }
            number = overflow::next(page);
            left -= held;
        }
        number.is_none().then_some(())
    }

    /// Walks the free list.
    fn free_list(&mut self, first: PageNumber) -> Option<()> {
        let mut number = first;
        while !number.is_none() {
            let page = self.meet(number, Role::Free)?;
            if !free::sound(page) {
                return None;
            }
            number = free::next(page);
        }
        Some(())
    }

    /// Gives the number of pages in each role, unless a page was never met.
    fn counts(&self) -> Option<Counts> {
        let mut counts = Counts::default();
        for &role in self.roles.iter() {
            match role {
                1 => counts.leaf += 1,
                2 => counts.inner += 1,
                3 => counts.overflow += 1,
                4 => counts.free += 1,
                5 => counts.header += 1,
                _ => return None,
            }
        }
        Some(counts)
    }
}
