//! The rules of change in their finer points: which pages are taken and freed
//! in which order, where cells go, what mends and what doesn't.

mod common;

use common::{key, wide_key, Bench};
use ordinary::Refusal;

#[test]
fn a_new_chain_begins_with_the_old_chains_last_page() {
    let mut bench = Bench::fresh(9);
    bench.put(&[1], &[7; 1500]);
    assert_eq!(bench.shape.chains[&vec![1]], [2, 3, 4]);
    bench.put(&[1], &[8; 1500]);
    assert_eq!(bench.shape.chains[&vec![1]], [4, 3, 2]);
    bench.put(&[1], &[9; 2000]);
    assert_eq!(bench.shape.chains[&vec![1]], [2, 3, 4, 5]);
    bench.put(&[1], &[9; 3]);
    assert_eq!(bench.shape.free, [5, 4, 3, 2, 6, 7, 8]);
}

#[test]
fn a_chain_is_taken_before_the_right_leaf_and_the_root() {
    let mut bench = Bench::fresh(8);
    for first in 1..=4 {
        bench.put(&key(first, 32), &[7; 64]);
    }
    bench.put(&key(5, 32), &[7; 64]);
    assert_eq!((bench.shape.leaves[1].page, bench.shape.root), (2, 3));

    let mut bench = Bench::fresh(8);
    for number in 0..12 {
        bench.put(&key(number, 32), &[7; 65]);
        if bench.shape.height == 2 {
            break;
        }
    }
    // The store is full of chains before the first split, which is refused.
    assert_eq!(bench.shape.free.len(), 0);
    assert_eq!(bench.shape.height, 1);

    let mut bench = Bench::fresh(8);
    for number in 0..4 {
        bench.put(&key(number, 32), &[7; 64]);
    }
    bench.put(&key(4, 31), &[7; 42]);
    bench.put(&key(5, 12), &[7; 600]);
    assert_eq!(bench.shape.chains[&key(5, 12)], [2, 3]);
    assert_eq!(bench.shape.leaves[1].page, 4);
    assert_eq!(bench.shape.root, 5);
}

#[test]
fn a_tie_stays_left() {
    let mut bench = Bench::fresh(6);
    for (first, length) in [(1, 64), (2, 64), (3, 12), (4, 64), (5, 64)] {
        bench.put(&key(first, 32), &vec![7; length]);
    }
    // 101 + 101 + 49 on either side: 502 in all.
    bench.put(&key(6, 32), &[7; 12]);
    assert_eq!(bench.leaves(), [vec![1, 2, 3], vec![4, 5, 6]]);
}

#[test]
fn adding_compacts_and_never_uses_holes() {
    let mut bench = Bench::fresh(3);
    for first in 1..=4 {
        bench.put(&key(first, 32), &[7; 64]);
    }
    assert_eq!(bench.shape.leaves[0].start, 512 - 4 * 99);
    bench.put(&key(1, 32), &[8; 64]);
    // Cells 2, 3, 4 packed from the end, then the new cell below them.
    let slots: Vec<u8> = bench.page(1)[12..20].to_vec();
    let offset = |cells: u16| (512 - cells * 99).to_le_bytes();
    let wanted = [offset(4), offset(1), offset(2), offset(3)].concat();
    assert_eq!(slots, wanted);
    assert_eq!(bench.shape.leaves[0].holes, 0);

    let mut bench = Bench::fresh(3);
    bench.put(&[1], &[7; 5]);
    bench.put(&[1], &[7; 5]);
    assert_eq!(
        (bench.shape.leaves[0].start, bench.shape.leaves[0].holes),
        (512 - 18, 9)
    );
    bench.delete(&[1]);
    assert_eq!(
        (bench.shape.leaves[0].start, bench.shape.leaves[0].holes),
        (512 - 18, 18)
    );
    bench.put(&[1], &[7; 5]);
    assert_eq!(
        (bench.shape.leaves[0].start, bench.shape.leaves[0].holes),
        (512 - 27, 18)
    );
}

#[test]
fn a_put_mends_by_merging_and_by_sharing() {
    let mut bench = Bench::fresh(8);
    for first in 1..=5 {
        bench.put(&key(first, 32), &[7; 64]);
    }
    bench.put(&key(4, 32), &[]);
    assert_eq!(bench.shape.leaves[1].cost, 138);
    bench.put(&key(5, 32), &[]);
    assert_eq!(bench.leaves(), [vec![1, 2, 3, 4, 5]]);
    assert_eq!(bench.shape.free, [3, 2, 4, 5, 6, 7]);

    let mut bench = Bench::fresh(8);
    for first in [1, 2, 3, 5, 6] {
        bench.put(&key(first, 32), &[7; 64]);
    }
    bench.put(&key(4, 32), &[7; 64]);
    assert_eq!(bench.leaves(), [vec![1, 2, 3, 4], vec![5, 6]]);
    bench.put(&key(5, 32), &[7; 50]);
    assert_eq!(bench.shape.leaves[1].cost, 188);
    bench.put(&key(6, 32), &[]);
    // 404 + 124: shared, three cells of 101 being 303 of 528.
    assert_eq!(bench.leaves(), [vec![1, 2, 3], vec![4, 5, 6]]);
    assert_eq!(bench.shape.inner[0].separators, [key(4, 32)]);
    assert_eq!(bench.shape.leaves[0].holes, 0);
}

#[test]
fn a_separator_stays_when_its_key_goes() {
    let mut bench = Bench::fresh(8);
    for first in 1..=6 {
        bench.put(&key(first, 32), &[7; 64]);
    }
    assert_eq!(bench.leaves(), [vec![1, 2, 3], vec![4, 5, 6]]);
    bench.delete(&key(4, 32));
    assert_eq!(bench.shape.inner[0].separators, [key(4, 32)]);
    assert_eq!(bench.get(&key(4, 32)), Refusal::NoSuchKey);
    bench.put(&key(4, 32), &[7; 64]);
    assert_eq!(bench.leaves(), [vec![1, 2, 3], vec![4, 5, 6]]);
}

#[test]
fn inner_nodes_split_merge_and_give_back_the_root() {
    let mut bench = Bench::fresh(128);
    let mut number = 0;
    while bench.shape.height < 3 {
        let free = bench.shape.free.clone();
        bench.put(&wide_key(number), &[7; 64]);
        if bench.shape.height == 3 {
            // The right leaf, then the right inner node, then the root.
            let taken = &free[..3];
            assert_eq!(bench.shape.leaves.last().unwrap().page, taken[0]);
            assert_eq!(bench.shape.inner.last().unwrap().page, taken[1]);
            assert_eq!(bench.shape.root, taken[2]);
            assert_eq!(bench.shape.inner[1].separators.len(), 7);
            assert_eq!(bench.shape.inner[2].separators.len(), 7);
        }
        number += 1;
    }
    let full = bench.shape.clone();
    let (left, right, root) = (full.inner[1].page, full.inner[2].page, full.root);
    let mut deleted = 0;
    while bench.shape.height == 3 {
        bench.delete(&wide_key(deleted));
        deleted += 1;
    }
    // The right leaf was freed first, then the right inner node, then the root.
    assert_eq!(bench.shape.free[..2], [root, right]);
    assert_eq!(bench.shape.free[2], full.leaves[1].page);
    assert_eq!(bench.shape.root, left);
    assert_eq!(bench.shape.inner[0].separators.len(), 14);
}

#[test]
fn the_partner_is_the_right_sibling_else_the_left() {
    let mut bench = Bench::fresh(8);
    for first in 1..=8 {
        bench.put(&key(first, 32), &[7; 64]);
    }
    assert_eq!(bench.leaves(), [vec![1, 2, 3], vec![4, 5, 6], vec![7, 8]]);
    bench.delete(&key(5, 32));
    bench.delete(&key(6, 32));
    assert_eq!(bench.leaves(), [vec![1, 2, 3], vec![4, 7, 8]]);
    bench.delete(&key(4, 32));
    bench.delete(&key(8, 32));
    assert_eq!(bench.leaves(), [vec![1, 2, 3, 7]]);

    // Inner nodes alike: root, then inner nodes of 8 leaves each.
    let mut full = Bench::fresh(128);
    for number in 0..200 {
        full.put(&wide_key(number), &[7; 64]);
    }
    let nodes: Vec<usize> = full.shape.inner[1..].iter().map(|node| node.page).collect();
    let merged = |first: usize| {
        let mut bench = Bench::fresh(128);
        bench.image = full.image.clone();
        bench.map = full.map.clone();
        bench.accepted();
        bench.delete(&wide_key(first));
        bench.delete(&wide_key(first + 1));
        bench.shape
    };
    let after = merged(24);
    assert_eq!(after.inner[2].page, nodes[1]);
    assert_eq!(after.inner[2].separators.len(), 14);
    assert_eq!(after.free[0], nodes[2]);

    // The last but one has a last partner of 10, which gives one record.
    let last = nodes.len() - 1;
    let after = merged(24 * (last - 1));
    assert_eq!(after.inner[last].separators.len(), 7);
    assert_eq!(
        after.inner[last + 1].separators.len(),
        full.shape.inner[last + 1].separators.len() - 1
    );
    let risen = &full.shape.inner[last + 1].separators[0];
    assert_eq!(&after.inner[0].separators[last - 1], risen);
}

#[test]
fn four_levels_and_back() {
    let mut bench = Bench::fresh(301);
    let mut number = 0;
    while bench.put(&wide_key(number), &[7; 64]) == Refusal::Done {
        number += 1;
    }
    assert_eq!(bench.shape.height, 4);
    // From the front and from the back in turn.
    let mut order: Vec<usize> = Vec::new();
    for place in 0..number / 2 {
        order.push(place);
        order.push(number - 1 - place);
    }
    order.extend((number / 2..number - number / 2).take(number % 2));
    for number in order {
        assert_eq!(bench.delete(&wide_key(number)), Refusal::Done);
    }
    assert_eq!(bench.shape.height, 1);
    assert_eq!(bench.shape.leaves[0].cost, 0);
    assert_eq!(bench.shape.free.len(), 299);
}
