//! The rows of the paper's bench sheet, and its batch listing.

mod common;

use common::{key, Bench};
use ordinary::{batch, check, format, get, put, Refusal};

#[test]
fn format_of_four_pages() {
    let bench = Bench::fresh(4);
    let header = [4, 0, 1, 0, 1, 0, 2, 0, 0, 0, 0, 0, 1, 0];
    assert_eq!(bench.page(0)[..14], header);
    assert!(bench.page(0)[14..].iter().all(|&byte| byte == 0));
    assert_eq!(bench.page(1)[..6], [1, 0, 0, 0, 0, 2]);
    assert!(bench.page(1)[6..].iter().all(|&byte| byte == 0));
    assert_eq!(bench.page(2)[..4], [0, 0, 3, 0]);
    assert_eq!(bench.page(3)[..4], [0, 0, 0, 0]);
    assert_eq!(bench.shape.free, [2, 3]);
}

#[test]
fn two_puts_and_a_delete() {
    let mut bench = Bench::fresh(4);
    bench.put(&[0x41], &[1, 2]);
    let first = [1, 0, 1, 0, 0xFA, 1, 0, 0, 0, 0, 0, 0, 0xFA, 1];
    assert_eq!(bench.page(1)[..14], first);
    bench.put(&[0x42], &[3, 4]);
    bench.delete(&[0x41]);
    let last = [1, 0, 1, 0, 0xF4, 1, 6, 0, 0, 0, 0, 0, 0xF4, 1];
    assert_eq!(bench.page(1)[..14], last);
    assert_eq!(bench.page(1)[0x1F4..0x1FA], [1, 2, 0, 0x42, 3, 4]);
    assert!(bench.page(1)[0x1FA..].iter().all(|&byte| byte == 0));
}

#[test]
fn value_lengths() {
    let pages = [(0, 0), (64, 0), (65, 1), (504, 1), (505, 2), (4032, 8)];
    for (length, chain) in pages {
        let mut bench = Bench::fresh(11);
        assert_eq!(bench.put(&[0x41], &vec![7; length]), Refusal::Done);
        assert_eq!(bench.shape.count(3), chain);
        assert_eq!(bench.get(&[0x41]), Refusal::Done);
    }
    let mut bench = Bench::fresh(11);
    let before = bench.image.clone();
    let refusal = put(&mut bench.image, &mut bench.work, &[0x41], &[7; 4033]);
    assert_eq!(refusal, Refusal::ValueLength);
    assert!(bench.image == before);
}

#[test]
fn key_lengths() {
    let mut bench = Bench::fresh(4);
    for length in [1, 32] {
        assert_eq!(bench.put(&vec![7; length], &[1]), Refusal::Done);
    }
    for length in [0, 33] {
        let refusal = put(&mut bench.image, &mut bench.work, &vec![7; length], &[1]);
        assert_eq!(refusal, Refusal::KeyLength);
    }
}

#[test]
fn five_cells_split_three_and_two() {
    let mut bench = Bench::fresh(3);
    for first in 1..=4 {
        assert_eq!(bench.put(&key(first, 32), &[7; 64]), Refusal::Done);
    }
    assert_eq!(bench.put(&key(5, 32), &[7; 64]), Refusal::TooFewPages);

    let mut bench = Bench::fresh(4);
    for first in 1..=5 {
        assert_eq!(bench.put(&key(first, 32), &[7; 64]), Refusal::Done);
    }
    assert_eq!(bench.leaves(), [vec![1, 2, 3], vec![4, 5]]);
    assert_eq!(bench.shape.height, 2);
    assert_eq!(
        (bench.shape.leaves[0].page, bench.shape.leaves[1].page),
        (1, 2)
    );
    assert_eq!(bench.shape.root, 3);

    bench.delete(&key(1, 32));
    assert_eq!(bench.shape.leaves[0].cost, 202);
    bench.delete(&key(2, 32));
    assert_eq!(bench.leaves(), [vec![3, 4, 5]]);
    assert_eq!(bench.shape.leaves[0].cost, 303);
    assert_eq!(bench.shape.free, [3, 2]);
    assert_eq!(bench.shape.height, 1);
}

#[test]
fn seven_keys_share() {
    let mut bench = Bench::fresh(8);
    for first in 1..=7 {
        assert_eq!(bench.put(&key(first, 32), &[7; 64]), Refusal::Done);
    }
    bench.delete(&key(1, 32));
    bench.delete(&key(2, 32));
    assert_eq!(bench.leaves(), [vec![3, 4, 5], vec![6, 7]]);
    assert_eq!(bench.shape.inner[0].separators, [key(6, 32)]);
}

#[test]
fn a_leaf_just_full() {
    for (last_cost, leaves) in [(12, 1), (13, 2)] {
        let mut bench = Bench::fresh(4);
        for first in 1..=61 {
            bench.put(&[first], &[7, 7]);
        }
        bench.put(&[62], &vec![7; last_cost - 6]);
        assert_eq!(bench.shape.leaves.len(), leaves);
    }
}

#[test]
fn room_for_a_chain() {
    let mut bench = Bench::fresh(3);
    assert_eq!(bench.put(&[0x41], &[7; 65]), Refusal::Done);
    assert_eq!(bench.put(&[0x41], &[7; 100]), Refusal::Done);
    assert_eq!(bench.put(&[0x41], &[7; 505]), Refusal::TooFewPages);
    assert_eq!(bench.put(&[0x42], &[7; 65]), Refusal::TooFewPages);
    assert_eq!(bench.get(&[0x41]), Refusal::Done);
}

#[test]
fn image_lengths() {
    for length in [0, 511, 512, 513, 1023, 1025, 1025 * 512] {
        let mut image = vec![0xEE; length];
        assert_eq!(format(&mut image), Refusal::ImageLength);
        assert!(image.iter().all(|&byte| byte == 0xEE));
        assert_eq!(check(&image, &mut []).refusal, Refusal::ImageLength);
    }
    let bench = Bench::fresh(2);
    assert!(bench.shape.free.is_empty());
    assert_eq!(bench.shape.count(1), 1);
    let mut image = vec![0xEE; 1024 * 512];
    assert_eq!(format(&mut image), Refusal::Done);
}

#[test]
fn batch_listing() {
    let input = b"P\t41\t0102\nP\t42\t\nG\t41\nG\t43\nS\t\t42\nD\t42\nD\t42\nX\n";
    let wanted = b"P\t0\nP\t0\nG\t0\t0102\nG\t5\nE\t41\t0102\nS\t0\t1\nD\t0\nD\t5\n?\t8\n";
    let mut bench = Bench::fresh(4);
    let mut output = [0x5A; 100];
    let answer = batch(&mut bench.image, &mut bench.work, input, &mut output);
    assert_eq!(answer.refusal, Refusal::Done);
    assert_eq!(answer.consumed, input.len());
    assert_eq!(answer.written, wanted.len());
    assert_eq!(&output[..wanted.len()], wanted);
    assert!(output[wanted.len()..].iter().all(|&byte| byte == 0x5A));
    bench.expect_work(&[5, 1, 4, 4]);
}

#[test]
fn a_store_of_two_pages() {
    let mut bench = Bench::fresh(2);
    for first in 1..=4 {
        assert_eq!(bench.put(&key(first, 32), &[7; 64]), Refusal::Done);
    }
    assert_eq!(bench.put(&key(5, 32), &[7; 64]), Refusal::TooFewPages);
    assert_eq!(bench.put(&key(1, 32), &[7; 65]), Refusal::TooFewPages);
    assert_eq!(
        get(&bench.image, &mut bench.work, &key(9, 32), &mut []).length,
        0
    );
}
