//! Damaged images: check must refuse just what the slow reading refuses, and
//! no call may panic.

mod common;

use common::{examine, wide_key, Bench, Random, UNTOUCHED};
use ordinary::*;

/// Compares check with the slow reading, and the other calls with check.
fn compare(image: &[u8], bench_work: &mut [u16]) -> bool {
    let pages = image.len() / 512;
    bench_work.fill(UNTOUCHED);
    let answer = check(image, bench_work);
    match examine(image) {
        Ok(shape) => {
            assert_eq!(answer.refusal, Refusal::Done);
            assert_eq!(&bench_work[..pages], &shape.roles[..]);
        }
        Err(matter) => {
            assert_eq!(answer.refusal, Refusal::Damaged, "{matter}");
            assert_eq!(answer.counts, Counts::default());
            assert!(bench_work[..pages].iter().all(|&entry| entry == 0));
        }
    }
    assert!(bench_work[pages..].iter().all(|&entry| entry == UNTOUCHED));
    answer.refusal == Refusal::Done
}

/// Gives an image of two levels with chains, holes and free pages.
fn small() -> Vec<u8> {
    let mut bench = Bench::fresh(18);
    for number in 0..12 {
        let length = [64, 3, 64, 70, 64, 0][number % 6] * (1 + number % 2);
        bench.put(
            &wide_key(number * 16)[..31],
            &vec![number as u8 + 1; length],
        );
    }
    bench.put(&[3, 3], &[9; 1009]);
    bench.put(&[3, 4], &[9; 9]);
    bench.delete(&wide_key(32)[..31]);
    assert_eq!(bench.shape.height, 2);
    assert!(bench.shape.free.len() > 1);
    assert!(bench.shape.leaves.iter().any(|leaf| leaf.holes > 0));
    assert!(bench.shape.count(3) > 3);
    bench.image
}

/// Gives an image of three levels.
fn large() -> Vec<u8> {
    let mut bench = Bench::fresh(70);
    for number in 0..140 {
        bench.put(&wide_key(number * 3 % 140), &[7; 60]);
    }
    assert_eq!(bench.shape.height, 3);
    bench.image
}

#[test]
fn one_byte_changed_anywhere() {
    let mut random = Random::seeded(5);
    for (image, masks, step) in [(small(), 4, 1), (large(), 1, 7)] {
        let mut image = image;
        let mut work = vec![0; image.len() / 512 + 2];
        assert!(compare(&image, &mut work));
        let mut accepted = 0;
        for at in (0..image.len()).step_by(step) {
            for _ in 0..masks {
                let mask = 1 + random.below(255) as u8;
                image[at] ^= mask;
                if compare(&image, &mut work) {
                    accepted += 1;
                    let mut changed = image.clone();
                    delete(&mut changed, &mut work, &wide_key(16)[..31]);
                    assert!(compare(&changed, &mut work));
                }
                image[at] ^= mask;
            }
        }
        // Keys and values may change without damage.
        assert!(accepted > 0);
    }
}

#[test]
fn numbers_changed_anywhere() {
    let mut random = Random::seeded(6);
    for image in [small(), large()] {
        let mut work = vec![0; image.len() / 512 + 2];
        for _ in 0..4000 {
            let mut changed = image.clone();
            for _ in 0..1 + random.below(2) {
                // The numbers stand at the beginning of a page.
                let at = 512 * random.below(image.len() / 512) + 2 * random.below(24);
                let number = random.below(600) as u16;
                changed[at..at + 2].copy_from_slice(&number.to_le_bytes());
            }
            compare(&changed, &mut work);
        }
    }
}

#[test]
fn pages_exchanged() {
    let mut random = Random::seeded(7);
    for image in [small(), large()] {
        let pages = image.len() / 512;
        let mut work = vec![0; pages + 2];
        for _ in 0..500 {
            let mut changed = image.clone();
            let from = random.below(pages);
            let to = random.below(pages);
            changed.copy_within(from * 512..from * 512 + 512, to * 512);
            // Some chain pages stand for each other; else a page copied over
            // another is damage.
            if compare(&changed, &mut work) {
                assert!(from == to || changed == image || changed[from * 512] == 3);
            }
        }
    }
}

#[test]
fn two_cells_sharing_a_chain() {
    let mut bench = Bench::fresh(6);
    bench.put(&[1], &[7; 70]);
    bench.put(&[2], &[7; 70]);
    let mut image = bench.image.clone();
    // The cell of 1 stands at 506, its reference at 510; that of 2 at 500.
    image.copy_within(512 + 510..512 + 512, 512 + 504);
    let mut work = [0; 6];
    assert!(!compare(&image, &mut work));
    // With the page of 2 put into the free list only the sharing is wrong.
    image[3 * 512..4 * 512].fill(0);
    image[3 * 512 + 2] = 4;
    image[6] = 3;
    assert!(!compare(&image, &mut work));
}

#[test]
fn touching_and_overlapping_cells() {
    let mut bench = Bench::fresh(3);
    bench.put(&[5], &[1, 9]);
    bench.put(&[6], &[1]);
    let mut work = [0; 3];
    assert!(compare(&bench.image, &mut work));
    // Slots in any order of offsets: the cells of 5 and 6 change their keys.
    let mut image = bench.image.clone();
    image[512 + 506 + 3] = 7;
    assert!(!compare(&image, &mut work));
    image[512 + 12..512 + 16].rotate_left(2);
    assert!(compare(&image, &mut work));
    // Both slots at one cell.
    let mut image = bench.image.clone();
    image.copy_within(512 + 12..512 + 14, 512 + 14);
    assert!(!compare(&image, &mut work));
}

#[test]
fn random_bytes_as_an_image() {
    let mut random = Random::seeded(8);
    let mut output = vec![0; 5000];
    for round in 0..400 {
        let length = if round % 2 == 0 {
            512 * random.below(12)
        } else {
            random.below(6000)
        };
        let mut image = random.bytes(length);
        for _ in 0..random.below(200) {
            let at = random.below(length.max(1));
            if at < length {
                image[at] = random.below(6) as u8;
            }
        }
        let mut work = vec![0; random.below(14)];
        let key_length = random.below(36);
        let key = random.bytes(key_length);
        check(&image, &mut work);
        get(&image, &mut work, &key, &mut output);
        view(&image, &mut work, &key).part(&image);
        scan(&image, &mut work, &key, &[], &mut output);
        put(&mut image, &mut work, &key, &output[..random.below(5000)]);
        delete(&mut image, &mut work, &key);
        let input = random.bytes(200);
        batch(&mut image, &mut work, &input, &mut output);
        host_check(&image);
        host_get(&image, &key, &mut output);
        host_put(&mut image, &key, &[1]);
        host_delete(&mut image, &key);
    }
}
