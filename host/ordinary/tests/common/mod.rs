//! What the tests share: a small generator of random numbers, a slow reading
//! of an image by the letter of the paper, and a bench that holds a store and
//! the map it must be.
//!
//! The slow reading uses nothing of the crate, so that a slip in the crate's
//! layouts or in its check shows as a difference.

#![allow(dead_code)]

use ordinary::{check, delete, get, put, scan, view, Refusal};
use std::collections::BTreeMap;

/// Boundary lengths of values.
pub const LENGTHS: [usize; 10] = [0, 1, 63, 64, 65, 504, 505, 1008, 1009, 4032];

/// What stands in a work area before a call.
pub const UNTOUCHED: u16 = 0xA5A5;

// ---------------------------------------------------------------------------
// Random numbers
// ---------------------------------------------------------------------------

/// A generator that gives the same numbers for the same seed.
pub struct Random(u64);

impl Random {
    /// Gives the generator of a seed.
    pub fn seeded(seed: u64) -> Random {
        Random(seed.wrapping_mul(0x9E37_79B9_7F4A_7C15) | 1)
    }

    /// Gives the next number.
    pub fn next(&mut self) -> u64 {
        self.0 ^= self.0 >> 12;
        self.0 ^= self.0 << 25;
        self.0 ^= self.0 >> 27;
        self.0.wrapping_mul(0x2545_F491_4F6C_DD1D)
    }

    /// Gives a number below a limit.
    pub fn below(&mut self, limit: usize) -> usize {
        ((self.next() >> 33) as usize) % limit
    }

    /// Gives yes so many times in a hundred.
    pub fn percent(&mut self, share: usize) -> bool {
        self.below(100) < share
    }

    /// Gives one of the items.
    pub fn one_of<'items, T>(&mut self, items: &'items [T]) -> &'items T {
        &items[self.below(items.len())]
    }

    /// Gives random bytes.
    pub fn bytes(&mut self, length: usize) -> Vec<u8> {
        (0..length).map(|_| self.next() as u8).collect()
    }
}

// ---------------------------------------------------------------------------
// The slow reading
// ---------------------------------------------------------------------------

/// A leaf as the slow reading finds it.
#[derive(Clone, Debug, PartialEq, Eq)]
pub struct Leaf {
    pub page: usize,
    pub keys: Vec<Vec<u8>>,
    pub costs: Vec<usize>,
    pub cost: usize,
    pub start: usize,
    pub holes: usize,
    pub next: usize,
}

/// An inner node as the slow reading finds it.
#[derive(Clone, Debug, PartialEq, Eq)]
pub struct Inner {
    pub page: usize,
    pub level: usize,
    pub separators: Vec<Vec<u8>>,
    pub children: Vec<usize>,
}

/// A whole accepted image as the slow reading finds it.
#[derive(Clone, Debug, PartialEq, Eq)]
pub struct Shape {
    pub height: usize,
    pub root: usize,
    pub free: Vec<usize>,
    pub leaves: Vec<Leaf>,
    pub inner: Vec<Inner>,
    pub chains: BTreeMap<Vec<u8>, Vec<usize>>,
    pub map: BTreeMap<Vec<u8>, Vec<u8>>,
    pub roles: Vec<u16>,
}

impl Shape {
    /// Gives the pages in a role.
    pub fn count(&self, role: u16) -> usize {
        self.roles.iter().filter(|&&found| found == role).count()
    }

    /// Gives the inner nodes from the root down to a key's leaf, and the leaf.
    pub fn path(&self, key: &[u8]) -> (Vec<&Inner>, &Leaf) {
        let mut above = Vec::new();
        let mut page = self.root;
        while let Some(node) = self.inner.iter().find(|node| node.page == page) {
            let place = node
                .separators
                .iter()
                .filter(|s| s.as_slice() <= key)
                .count();
            above.push(node);
            page = node.children[place];
        }
        let leaf = self.leaves.iter().find(|leaf| leaf.page == page).unwrap();
        (above, leaf)
    }

    /// Gives whether the room rule lets a put pass.
    pub fn has_room(&self, key: &[u8], value: &[u8]) -> bool {
        let (above, leaf) = self.path(key);
        let old_cost = match leaf.keys.iter().position(|k| k == key) {
            Some(slot) => leaf.costs[slot],
            None => 0,
        };
        let in_cell = if value.len() <= 64 { value.len() } else { 2 };
        let chain = if value.len() <= 64 {
            0
        } else {
            value.len().div_ceil(504)
        };
        let mut taken = chain;
        if leaf.cost - old_cost + 5 + key.len() + in_cell > 500 {
            taken += 1;
            let mut unbroken = true;
            for node in above.iter().rev() {
                unbroken = unbroken && node.separators.len() == 14;
                taken += usize::from(unbroken);
            }
            taken += usize::from(unbroken);
        }
        let old_chain = self.chains.get(key).map_or(0, |chain| chain.len());
        taken <= self.free.len() + old_chain
    }
}

/// Gives a two-byte number of an image.
fn two(image: &[u8], page: usize, offset: usize) -> usize {
    let at = page * 512 + offset;
    image[at] as usize + 256 * image[at + 1] as usize
}

/// A slow reading under way.
struct Reading<'image> {
    image: &'image [u8],
    pages: usize,
    shape: Shape,
    links: Vec<usize>,
}

/// Gives the shape of an image that check must accept, or what is wrong with
/// the image; its length must be an allowed one.
pub fn examine(image: &[u8]) -> Result<Shape, String> {
    let pages = image.len() / 512;
    let shape = Shape {
        height: two(image, 0, 4),
        root: two(image, 0, 2),
        free: Vec::new(),
        leaves: Vec::new(),
        inner: Vec::new(),
        chains: BTreeMap::new(),
        map: BTreeMap::new(),
        roles: vec![0; pages],
    };
    let mut reading = Reading {
        image,
        pages,
        shape,
        links: Vec::new(),
    };
    reading.whole()?;
    Ok(reading.shape)
}

/// Gives an error with a word on the matter unless the condition holds.
fn need(holds: bool, matter: &str, page: usize) -> Result<(), String> {
    if holds {
        Ok(())
    } else {
        Err(format!("page {page}: {matter}"))
    }
}

impl Reading<'_> {
    fn byte(&self, page: usize, offset: usize) -> usize {
        self.image[page * 512 + offset] as usize
    }

    fn zero(&self, page: usize, from: usize, to: usize) -> bool {
        let start = page * 512;
        self.image[start + from..start + to] == [0; 512][from..to]
    }

    fn meet(&mut self, page: usize, role: u16) -> Result<(), String> {
        need(page >= 1 && page < self.pages, "no such page", page)?;
        need(self.shape.roles[page] == 0, "met twice", page)?;
        self.shape.roles[page] = role;
        Ok(())
    }

    fn whole(&mut self) -> Result<(), String> {
        need(two(self.image, 0, 0) == self.pages, "page count", 0)?;
        need((1..=4).contains(&self.shape.height), "height", 0)?;
        need(two(self.image, 0, 12) == 1, "edition", 0)?;
        need(self.zero(0, 14, 512), "rest", 0)?;
        self.shape.roles[0] = 5;
        self.node(self.shape.root, self.shape.height, true, None, None)?;

        let mut following: Vec<usize> = self.shape.leaves.iter().map(|leaf| leaf.page).collect();
        following.remove(0);
        following.push(0);
        need(following == self.links, "next leaves", 0)?;

        let mut page = two(self.image, 0, 6);
        while page != 0 {
            self.meet(page, 4)?;
            need(
                self.zero(page, 0, 2) && self.zero(page, 4, 512),
                "free page",
                page,
            )?;
            self.shape.free.push(page);
            page = two(self.image, page, 2);
        }
        let entries: usize = self.shape.leaves.iter().map(|leaf| leaf.keys.len()).sum();
        let counted = two(self.image, 0, 8) + 65_536 * two(self.image, 0, 10);
        need(entries == counted, "entry count", 0)?;
        need(!self.shape.roles.contains(&0), "a page never met", 0)
    }

    fn node(
        &mut self,
        page: usize,
        level: usize,
        is_root: bool,
        low: Option<&[u8]>,
        high: Option<&[u8]>,
    ) -> Result<(), String> {
        if level == 1 {
            return self.leaf(page, is_root, low, high);
        }
        self.meet(page, 2)?;
        let count = two(self.image, page, 2);
        need(
            self.byte(page, 0) == 2 && self.byte(page, 1) == 0,
            "inner mark",
            page,
        )?;
        need(
            self.zero(page, 4, 8) && self.zero(page, 10, 12),
            "inner zeros",
            page,
        )?;
        need(count <= 14, "too many records", page)?;
        need(
            count >= if is_root { 1 } else { 7 },
            "too few records",
            page,
        )?;
        need(self.zero(page, 12 + 35 * count, 512), "inner rest", page)?;
        let mut separators = Vec::new();
        let mut children = vec![two(self.image, page, 8)];
        for record in 0..count {
            let start = 12 + 35 * record;
            let length = self.byte(page, start);
            need((1..=32).contains(&length), "separator length", page)?;
            need(
                self.zero(page, start + 3 + length, start + 35),
                "padding",
                page,
            )?;
            let key = page * 512 + start + 3;
            separators.push(self.image[key..key + length].to_vec());
            children.push(two(self.image, page, start + 1));
        }
        need(
            separators.windows(2).all(|w| w[0] < w[1]),
            "separators' order",
            page,
        )?;
        for separator in &separators {
            need(
                low.is_none_or(|low| low <= separator.as_slice()),
                "separator low",
                page,
            )?;
            need(
                high.is_none_or(|high| separator.as_slice() < high),
                "separator high",
                page,
            )?;
        }
        self.shape.inner.push(Inner {
            page,
            level,
            separators: separators.clone(),
            children: children.clone(),
        });
        for (place, &child) in children.iter().enumerate() {
            let below = if place == 0 {
                low
            } else {
                Some(separators[place - 1].as_slice())
            };
            let above = if place == count {
                high
            } else {
                Some(separators[place].as_slice())
            };
            self.node(child, level - 1, false, below, above)?;
        }
        Ok(())
    }

    fn leaf(
        &mut self,
        page: usize,
        is_root: bool,
        low: Option<&[u8]>,
        high: Option<&[u8]>,
    ) -> Result<(), String> {
        self.meet(page, 1)?;
        let count = two(self.image, page, 2);
        let start = two(self.image, page, 4);
        let holes = two(self.image, page, 6);
        need(
            self.byte(page, 0) == 1 && self.byte(page, 1) == 0,
            "leaf mark",
            page,
        )?;
        need(self.zero(page, 10, 12), "leaf zeros", page)?;
        need(12 + 2 * count <= start && start <= 512, "cell start", page)?;
        need(self.zero(page, 12 + 2 * count, start), "room", page)?;

        let mut cells: Vec<(usize, usize)> = Vec::new();
        let mut keys: Vec<Vec<u8>> = Vec::new();
        let mut chained = Vec::new();
        for slot in 0..count {
            let offset = two(self.image, page, 12 + 2 * slot);
            need(start <= offset && offset + 3 <= 512, "cell outside", page)?;
            let key_length = self.byte(page, offset);
            let value_length = two(self.image, page, offset + 1);
            need((1..=32).contains(&key_length), "key length", page)?;
            need(value_length <= 4032, "value length", page)?;
            let in_cell = if value_length <= 64 { value_length } else { 2 };
            let end = offset + 3 + key_length + in_cell;
            need(end <= 512, "cell past the end", page)?;
            for &(other, other_end) in &cells {
                need(end <= other || other_end <= offset, "cells overlap", page)?;
            }
            cells.push((offset, end));
            let at = page * 512 + offset + 3;
            let key = self.image[at..at + key_length].to_vec();
            if value_length > 64 {
                let first = two(self.image, page, end - 2);
                chained.push((key.clone(), first, value_length));
            } else {
                let value = self.image[at + key_length..at + key_length + value_length].to_vec();
                self.shape.map.insert(key.clone(), value);
            }
            keys.push(key);
        }
        let mut inside = [false; 512];
        for &(from, to) in &cells {
            inside[from..to].fill(true);
        }
        for (offset, inside) in inside.iter().enumerate().skip(start) {
            need(
                *inside || self.byte(page, offset) == 0,
                "hole not zero",
                page,
            )?;
        }
        let lengths: usize = cells.iter().map(|&(from, to)| to - from).sum();
        need(start + lengths + holes == 512, "holes", page)?;
        need(keys.windows(2).all(|w| w[0] < w[1]), "keys' order", page)?;
        for key in &keys {
            need(
                low.is_none_or(|low| low <= key.as_slice()),
                "key below",
                page,
            )?;
            need(
                high.is_none_or(|high| key.as_slice() < high),
                "key above",
                page,
            )?;
        }
        let cost = lengths + 2 * count;
        need(cost <= 500 && (is_root || cost >= 125), "leaf cost", page)?;
        self.links.push(two(self.image, page, 8));
        self.shape.leaves.push(Leaf {
            page,
            keys,
            costs: cells.iter().map(|&(from, to)| to - from + 2).collect(),
            cost,
            start,
            holes,
            next: two(self.image, page, 8),
        });
        for (key, first, value_length) in chained {
            self.chain(key, first, value_length)?;
        }
        Ok(())
    }

    fn chain(&mut self, key: Vec<u8>, first: usize, value_length: usize) -> Result<(), String> {
        let count = value_length.div_ceil(504);
        let mut value = Vec::new();
        let mut chain = Vec::new();
        let mut page = first;
        for place in 0..count {
            self.meet(page, 3)?;
            let held = if place + 1 == count {
                value_length - 504 * place
            } else {
                504
            };
            need(
                self.byte(page, 0) == 3 && self.byte(page, 1) == 0,
                "overflow mark",
                page,
            )?;
            need(two(self.image, page, 4) == held, "bytes held", page)?;
            need(self.zero(page, 6, 8), "overflow zeros", page)?;
            need(self.zero(page, 8 + held, 512), "overflow rest", page)?;
            value.extend_from_slice(&self.image[page * 512 + 8..page * 512 + 8 + held]);
            chain.push(page);
            page = two(self.image, page, 2);
        }
        need(page == 0, "chain too long", page)?;
        self.shape.map.insert(key.clone(), value);
        self.shape.chains.insert(key, chain);
        Ok(())
    }
}

// ---------------------------------------------------------------------------
// The bench
// ---------------------------------------------------------------------------

/// A store, a work area longer than needed, and the map that the store must
/// be; every call is compared with the map and with the slow reading.
pub struct Bench {
    pub image: Vec<u8>,
    pub work: Vec<u16>,
    pub map: BTreeMap<Vec<u8>, Vec<u8>>,
    pub shape: Shape,
}

impl Bench {
    /// Gives a fresh store of so many pages, formatted over other bytes.
    pub fn fresh(pages: usize) -> Bench {
        let mut image = vec![0xEE; pages * 512];
        assert_eq!(ordinary::format(&mut image), Refusal::Done);
        let shape = examine(&image).unwrap();
        let work = vec![UNTOUCHED; pages + 3];
        let map = BTreeMap::new();
        Bench {
            image,
            work,
            map,
            shape,
        }
    }

    fn pages(&self) -> usize {
        self.image.len() / 512
    }

    /// Compares the work area with roles, and sees that the rest is untouched.
    pub fn expect_work(&mut self, roles: &[u16]) {
        let pages = self.pages();
        assert_eq!(&self.work[..pages], roles);
        assert!(self.work[pages..].iter().all(|&entry| entry == UNTOUCHED));
        self.work.fill(UNTOUCHED);
    }

    /// Sees that the slow reading and check accept the image, and that it is
    /// the map.
    pub fn accepted(&mut self) {
        self.shape = examine(&self.image).unwrap();
        assert_eq!(self.shape.map, self.map);
        let answer = check(&self.image, &mut self.work);
        assert_eq!(answer.refusal, Refusal::Done);
        assert_eq!(answer.height, self.shape.height);
        assert_eq!(answer.entries as usize, self.map.len());
        assert_eq!(answer.counts.leaf, self.shape.count(1));
        assert_eq!(answer.counts.inner, self.shape.count(2));
        assert_eq!(answer.counts.overflow, self.shape.count(3));
        assert_eq!(answer.counts.free, self.shape.count(4));
        assert_eq!(answer.counts.header, 1);
        let roles = self.shape.roles.clone();
        self.expect_work(&roles);
    }

    /// Puts, and compares all that put promises.
    pub fn put(&mut self, key: &[u8], value: &[u8]) -> Refusal {
        let before = self.image.clone();
        let roles = self.shape.roles.clone();
        let room = self.shape.has_room(key, value);
        let refusal = put(&mut self.image, &mut self.work, key, value);
        self.expect_work(&roles);
        if room {
            assert_eq!(refusal, Refusal::Done);
            self.map.insert(key.to_vec(), value.to_vec());
        } else {
            assert_eq!(refusal, Refusal::TooFewPages);
            assert!(self.image == before);
        }
        self.accepted();
        refusal
    }

    /// Deletes, and compares all that delete promises.
    pub fn delete(&mut self, key: &[u8]) -> Refusal {
        let before = self.image.clone();
        let roles = self.shape.roles.clone();
        let refusal = delete(&mut self.image, &mut self.work, key);
        self.expect_work(&roles);
        if self.map.remove(key).is_some() {
            assert_eq!(refusal, Refusal::Done);
        } else {
            assert_eq!(refusal, Refusal::NoSuchKey);
            assert!(self.image == before);
        }
        self.accepted();
        refusal
    }

    /// Gets and views, and compares all that get and view promise.
    pub fn get(&mut self, key: &[u8]) -> Refusal {
        let roles = self.shape.roles.clone();
        let mut output = vec![0x5A; 4035];
        let answer = get(&self.image, &mut self.work, key, &mut output);
        self.expect_work(&roles);
        let seen = view(&self.image, &mut self.work, key);
        self.expect_work(&roles);
        assert_eq!(seen.refusal, answer.refusal);
        assert_eq!(seen.value_length, answer.length);
        let Some(value) = self.map.get(key).cloned() else {
            assert_eq!(answer.refusal, Refusal::NoSuchKey);
            assert_eq!(answer.length, 0);
            assert_eq!((seen.offset, seen.length, seen.chained), (0, 0, false));
            assert!(output.iter().all(|&byte| byte == 0x5A));
            return Refusal::NoSuchKey;
        };
        assert_eq!(answer.refusal, Refusal::Done);
        assert_eq!(answer.length, value.len());
        assert_eq!(&output[..value.len()], &value[..]);
        assert!(output[value.len()..].iter().all(|&byte| byte == 0x5A));
        if value.len() > 64 {
            assert_eq!((seen.offset, seen.length, seen.chained), (0, 0, true));
        } else {
            assert!(!seen.chained);
            assert_eq!(seen.part(&self.image), &value[..]);
            assert_eq!(&self.image[seen.offset - key.len()..seen.offset], key);
        }
        if !value.is_empty() {
            let mut short = vec![0x5A; value.len() - 1];
            let answer = get(&self.image, &mut self.work, key, &mut short);
            self.expect_work(&roles);
            assert_eq!(answer.refusal, Refusal::OutputShort);
            assert_eq!(answer.length, value.len());
            assert!(short.iter().all(|&byte| byte == 0x5A));
        }
        Refusal::Done
    }

    /// Scans into so much room, and compares all that scan promises.
    pub fn scan(&mut self, low: &[u8], high: &[u8], room: usize) {
        let roles = self.shape.roles.clone();
        let mut output = vec![0x5A; room];
        let answer = scan(&self.image, &mut self.work, low, high, &mut output);
        self.expect_work(&roles);
        let mut wanted = Vec::new();
        let mut entries = 0;
        let mut more = false;
        for (key, value) in &self.map {
            if key.as_slice() < low || (!high.is_empty() && key.as_slice() >= high) {
                continue;
            }
            if wanted.len() + 3 + key.len() + value.len() > room {
                more = true;
                break;
            }
            wanted.push(key.len() as u8);
            wanted.push((value.len() % 256) as u8);
            wanted.push((value.len() / 256) as u8);
            wanted.extend(key);
            wanted.extend(value);
            entries += 1;
        }
        assert_eq!(answer.refusal, Refusal::Done);
        assert_eq!(answer.entries, entries);
        assert_eq!(answer.bytes, wanted.len());
        assert_eq!(answer.more, more);
        assert_eq!(&output[..wanted.len()], &wanted[..]);
        assert!(output[wanted.len()..].iter().all(|&byte| byte == 0x5A));
    }

    /// Gives a page's bytes.
    pub fn page(&self, page: usize) -> &[u8] {
        &self.image[page * 512..page * 512 + 512]
    }

    /// Gives the first bytes of the keys, leaf by leaf.
    pub fn leaves(&self) -> Vec<Vec<u8>> {
        let firsts = |leaf: &Leaf| leaf.keys.iter().map(|key| key[0]).collect();
        self.shape.leaves.iter().map(firsts).collect()
    }
}

/// Gives a key of so many bytes: a first byte, then zeros.
pub fn key(first: u8, length: usize) -> Vec<u8> {
    let mut key = vec![0; length];
    key[0] = first;
    key
}

/// Gives a 32-byte key of a number below 4,096.
pub fn wide_key(number: usize) -> Vec<u8> {
    let mut key = vec![0; 32];
    key[0] = (number / 16) as u8;
    key[1] = (number % 16) as u8;
    key
}
