//! Prints evidence rows: deterministic scripts, the refusal numbers they give,
//! and what the store then looks like.
//!
//! A script line `put 3 k=32 v=64` puts the key [3, 0, 0, ..] of 32 bytes with
//! a value of 64 bytes, all of them 7. A line `put #35 k=32 v=64` puts the key
//! [35 / 16, 35 % 16, 0, 0, ..] of 32 bytes. Deletes are written alike.

use ordinary::page::{Page, PageNumber};
use ordinary::{check, delete, free, header, inner, leaf, overflow, put, Refusal};

/// A key of a script.
#[derive(Clone, Copy)]
enum Key {
    /// A first byte, then zeros, so many bytes in all.
    Plain(u8, usize),
    /// Two bytes that count in sixteens, then zeros, 32 bytes in all.
    Wide(usize),
}

impl Key {
    /// Gives the bytes.
    fn bytes(self) -> Vec<u8> {
        match self {
            Key::Plain(first, length) => {
                let mut bytes = vec![0; length];
                bytes[0] = first;
                bytes
            }
            Key::Wide(number) => {
                let mut bytes = vec![0; 32];
                bytes[0] = (number / 16) as u8;
                bytes[1] = (number % 16) as u8;
                bytes
            }
        }
    }

    /// Gives the key as a script line names it.
    fn name(self) -> String {
        match self {
            Key::Plain(first, length) => format!("{first} k={length}"),
            Key::Wide(number) => format!("#{number} k=32"),
        }
    }
}

/// Gives a key of the image by its first byte, and by its second one after a
/// point if the script counts in two bytes.
fn label(key: &[u8], wide: bool) -> String {
    if wide {
        format!("{}.{}", key[0], key[1])
    } else {
        format!("{}", key[0])
    }
}

/// A leaf as it is printed.
#[derive(Clone, PartialEq)]
struct LeafRow {
    page: u16,
    next: u16,
    keys: Vec<Vec<u8>>,
    cost: usize,
    start: usize,
    holes: usize,
}

/// An inner node as it is printed.
#[derive(Clone, PartialEq)]
struct InnerRow {
    page: u16,
    level: usize,
    separators: Vec<Vec<u8>>,
    children: Vec<u16>,
}

/// A store as it is printed.
#[derive(Clone)]
struct Shape {
    height: usize,
    root: u16,
    entries: u32,
    free: Vec<u16>,
    leaves: Vec<LeafRow>,
    inner: Vec<InnerRow>,
    chains: Vec<(Vec<u8>, usize, Vec<u16>)>,
    digest: u64,
}

impl Shape {
    /// Gives the number of inner nodes on a level.
    fn inner_count(&self, level: usize) -> usize {
        self.inner.iter().filter(|row| row.level == level).count()
    }
}

/// A store, and whether its keys count in two bytes.
struct Store {
    image: Vec<u8>,
    wide: bool,
}

impl Store {
    /// Gives a fresh store and prints the line.
    fn fresh(pages: usize, wide: bool) -> Store {
        let mut image = vec![0; pages * 512];
        let refusal = ordinary::format(&mut image);
        println!("  format n={pages} -> {}", refusal.number());
        Store { image, wide }
    }

    /// Puts quietly.
    fn put_quietly(&mut self, key: Key, value_length: usize) -> u8 {
        let mut work = [0; 1024];
        let value = vec![7; value_length];
        put(&mut self.image, &mut work, &key.bytes(), &value).number()
    }

    /// Puts and prints the line.
    fn put(&mut self, key: Key, value_length: usize) {
        let number = self.put_quietly(key, value_length);
        println!("  put {} v={value_length} -> {number}", key.name());
    }

    /// Deletes quietly.
    fn delete_quietly(&mut self, key: Key) -> u8 {
        delete(&mut self.image, &mut [0; 1024], &key.bytes()).number()
    }

    /// Deletes and prints the line.
    fn delete(&mut self, key: Key) {
        let number = self.delete_quietly(key);
        println!("  delete {} -> {number}", key.name());
    }

    /// Gives the store's shape.
    fn shape(&self) -> Shape {
        let answer = check(&self.image, &mut [0; 1024]);
        assert_eq!(answer.refusal, Refusal::Done);
        let (pages, _) = self.image.as_chunks::<512>();
        let root = header::root(&pages[0]);
        let digest = |(at, &byte): (usize, &u8)| (at as u64 % 251 + 1) * u64::from(byte);
        let mut shape = Shape {
            height: answer.height,
            root: root.0,
            entries: answer.entries,
            free: free::list(pages).map(|number| number.0).collect(),
            leaves: Vec::new(),
            inner: Vec::new(),
            chains: Vec::new(),
            digest: self.image.iter().enumerate().map(digest).sum(),
        };
        gather(pages, root, answer.height, &mut shape);
        shape
    }

    /// Prints the store's shape.
    fn print(&self, title: &str) {
        let shape = self.shape();
        let labels = |keys: &[Vec<u8>]| -> String {
            let labels: Vec<String> = keys.iter().map(|key| label(key, self.wide)).collect();
            labels.join(" ")
        };
        println!("  {title}:");
        println!(
            "    height {} root {} entries {} digest {}",
            shape.height, shape.root, shape.entries, shape.digest
        );
        println!("    free list {:?}", shape.free);
        for row in &shape.inner {
            println!(
                "    inner page {} level {} records {} separators [{}] children {:?}",
                row.page,
                row.level,
                row.separators.len(),
                labels(&row.separators),
                row.children
            );
        }
        for row in &shape.leaves {
            println!(
                "    leaf page {} cost {} start {} holes {} next {} keys [{}]",
                row.page,
                row.cost,
                row.start,
                row.holes,
                row.next,
                labels(&row.keys)
            );
        }
        for (key, length, chain) in &shape.chains {
            println!(
                "    chain of key {} value {length} pages {} {chain:?}",
                label(key, self.wide),
                chain.len()
            );
        }
    }
}

/// Gathers a node and what lies below it, in tree order.
fn gather(pages: &[Page], number: PageNumber, level: usize, shape: &mut Shape) {
    let page = &pages[number.index()];
    if level > 1 {
        let count = inner::record_count(page);
        shape.inner.push(InnerRow {
            page: number.0,
            level,
            separators: (0..count)
                .map(|i| inner::separator(page, i).to_vec())
                .collect(),
            children: (0..=count).map(|i| inner::child(page, i).0).collect(),
        });
        for place in 0..=count {
            gather(pages, inner::child(page, place), level - 1, shape);
        }
        return;
    }
    shape.leaves.push(LeafRow {
        page: number.0,
        next: leaf::next(page).0,
        keys: leaf::cells(page).map(|cell| cell.key().to_vec()).collect(),
        cost: leaf::cost(page),
        start: leaf::cell_start(page),
        holes: leaf::holes(page),
    });
    for cell in leaf::cells(page).filter(|cell| cell.chained()) {
        let mut chain = Vec::new();
        let mut link = cell.first_overflow();
        while !link.is_none() {
            chain.push(link.0);
            link = overflow::next(&pages[link.index()]);
        }
        shape
            .chains
            .push((cell.key().to_vec(), cell.value_length(), chain));
    }
}

/// What a delete set off.
#[derive(Default)]
struct Events {
    leaf_merge: bool,
    leaf_share: bool,
    rotation: bool,
    inner_merge: bool,
    root_gone: bool,
}

impl Events {
    /// Gives what lies between two shapes, one delete apart.
    fn between(before: &Shape, after: &Shape) -> Events {
        let root_gone = after.height < before.height;
        // A separator changes at the same record count by a shared leaf on
        // level 2, and by a rotation above it.
        let reparted = |row: &&InnerRow| {
            after.inner.iter().any(|other| {
                other.page == row.page
                    && other.separators.len() == row.separators.len()
                    && other.separators != row.separators
            })
        };
        let leaf_merge = after.leaves.len() < before.leaves.len();
        Events {
            leaf_merge,
            leaf_share: !leaf_merge
                && before
                    .inner
                    .iter()
                    .filter(reparted)
                    .any(|row| row.level == 2),
            rotation: before
                .inner
                .iter()
                .filter(reparted)
                .any(|row| row.level > 2),
            inner_merge: (2..before.height)
                .any(|level| after.inner_count(level) < before.inner_count(level)),
            root_gone,
        }
    }

    /// Gives the events' names.
    fn names(&self) -> String {
        let named = [
            (self.leaf_merge, "leaf merge"),
            (self.leaf_share, "leaf share"),
            (self.rotation, "rotation"),
            (self.inner_merge, "inner merge"),
            (self.root_gone, "root gone"),
        ];
        let names: Vec<&str> = named
            .iter()
            .filter(|(met, _)| *met)
            .map(|(_, name)| *name)
            .collect();
        names.join(", ")
    }
}

/// Prints how the record counts of the inner nodes changed.
fn print_changes(before: &Shape, after: &Shape) {
    for row in &before.inner {
        match after.inner.iter().find(|other| other.page == row.page) {
            None => println!(
                "      inner page {} of {} records freed",
                row.page,
                row.separators.len()
            ),
            Some(other) if other != row => println!(
                "      inner page {}: {} records became {}{}",
                row.page,
                row.separators.len(),
                other.separators.len(),
                if other.separators != row.separators {
                    ", separators changed"
                } else {
                    ""
                }
            ),
            Some(_) => {}
        }
    }
}

/// Builds a store of 128 pages from 200 wide keys in an order, then deletes in
/// another order, printing what each delete set off above the leaves.
fn deep(
    title: &str,
    building: (&str, &dyn Fn(usize) -> usize),
    deleting: (&str, &dyn Fn(usize) -> usize),
) {
    println!("{title}");
    let mut store = Store::fresh(128, true);
    println!("  put #b k=32 v=64 for i in 0..=199, b = {}:", building.0);
    let mut heights = Vec::new();
    for place in 0..200 {
        let number = store.put_quietly(Key::Wide(building.1(place)), 64);
        assert_eq!(number, 0);
        let height = store.shape().height;
        if heights.last().is_none_or(|&(_, last)| last != height) {
            heights.push((place, height));
        }
    }
    println!("    all answers 0; height first reached at i: {heights:?} (i, height)");
    store.print("built");
    println!("  delete #b k=32 for i in 0..=199, b = {}:", deleting.0);
    let mut first = Events::default();
    for place in 0..200 {
        let before = store.shape();
        let number = store.delete_quietly(Key::Wide(deleting.1(place)));
        assert_eq!(number, 0);
        let after = store.shape();
        let events = Events::between(&before, &after);
        if !events.names().is_empty() {
            let freed: Vec<u16> = after.free[..after.free.len() - before.free.len()].to_vec();
            println!(
                "    i={place} b={}: {}; freed, last first {freed:?}; digest {}",
                deleting.1(place),
                events.names(),
                after.digest
            );
        }
        let above = events.rotation || events.inner_merge || events.root_gone;
        if above {
            print_changes(&before, &after);
        }
        let unseen = (events.rotation && !first.rotation)
            || (events.inner_merge && !first.inner_merge)
            || (events.root_gone && !first.root_gone);
        if unseen {
            store.print(&format!("after the first {} (i={place})", events.names()));
        }
        first.rotation |= events.rotation;
        first.inner_merge |= events.inner_merge;
        first.root_gone |= events.root_gone;
    }
    println!("    all answers 0");
    store.print("emptied");
    println!();
}

fn main() {
    println!("(1) fresh store");
    let store = Store::fresh(4, false);
    store.print("then");
    println!();

    for pages in [4, 3] {
        println!("(2) five cells of cost 101, n={pages}");
        let mut store = Store::fresh(pages, false);
        for first in 1..=5 {
            store.put(Key::Plain(first, 32), 64);
        }
        store.print("then");
        if pages == 4 {
            store.delete(Key::Plain(1, 32));
            store.print("then");
            store.delete(Key::Plain(2, 32));
            store.print("then");
        }
        println!();
    }

    println!("(3) seven cells of cost 101, then two deletes");
    let mut store = Store::fresh(8, false);
    for first in 1..=7 {
        store.put(Key::Plain(first, 32), 64);
    }
    store.print("then");
    for first in 1..=2 {
        store.delete(Key::Plain(first, 32));
        store.print("then");
    }
    println!();

    let rising: (&str, &dyn Fn(usize) -> usize) = ("i", &|place| place);
    let falling: (&str, &dyn Fn(usize) -> usize) = ("199 - i", &|place| 199 - place);
    let scattered: (&str, &dyn Fn(usize) -> usize) = ("37 * i % 200", &|place| 37 * place % 200);
    deep("(4a) built rising, deleted from the front", rising, rising);
    deep("(4b) built rising, deleted from the back", rising, falling);
    deep(
        "(4c) built falling, deleted from the front",
        falling,
        rising,
    );
    deep(
        "(4d) built falling, deleted from the back",
        falling,
        falling,
    );
    deep(
        "(4e) built scattered, deleted from the front",
        scattered,
        rising,
    );
    deep(
        "(4f) built scattered, deleted from the back",
        scattered,
        falling,
    );

    println!("(5a) a put that mends by merging");
    let mut store = Store::fresh(8, false);
    for first in 1..=5 {
        store.put(Key::Plain(first, 32), 64);
    }
    store.put(Key::Plain(4, 32), 0);
    store.print("before the last put");
    store.put(Key::Plain(5, 32), 0);
    store.print("then");
    println!();

    println!("(5b) a put that mends by sharing");
    let mut store = Store::fresh(8, false);
    for first in [1, 2, 3, 5, 6, 4] {
        store.put(Key::Plain(first, 32), 64);
    }
    store.put(Key::Plain(5, 32), 50);
    store.print("before the last put");
    store.put(Key::Plain(6, 32), 0);
    store.print("then");
    println!();

    println!("(6) a put that compacts");
    let mut store = Store::fresh(3, false);
    for first in 1..=4 {
        store.put(Key::Plain(first, 32), 64);
    }
    store.print("before the last put");
    store.put(Key::Plain(1, 32), 64);
    store.print("then");
    println!();

    println!("(7) chains: taken, replaced, refused, freed");
    let mut store = Store::fresh(12, false);
    store.put(Key::Plain(1, 4), 65);
    store.put(Key::Plain(2, 4), 505);
    store.put(Key::Plain(3, 4), 1009);
    store.print("then");
    store.put(Key::Plain(2, 4), 1009);
    store.print("then");
    store.put(Key::Plain(3, 4), 4032);
    store.put(Key::Plain(1, 4), 64);
    store.print("then");
    store.put(Key::Plain(4, 4), 2520);
    store.put(Key::Plain(4, 4), 1512);
    store.delete(Key::Plain(3, 4));
    store.print("then");
    store.delete(Key::Plain(9, 4));
    store.delete(Key::Plain(2, 4));
    store.delete(Key::Plain(4, 4));
    store.print("then");
}
