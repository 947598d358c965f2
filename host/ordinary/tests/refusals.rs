//! The order of the refusals, what each leaves alone, and the host's calls.

mod common;

use common::{Bench, UNTOUCHED};
use ordinary::*;

/// Runs every call with one set of buffers and gives the refusal numbers of
/// check, get, view, put, delete, scan and batch; sees that nothing changes.
fn refused(image: &[u8], work_length: usize, key: &[u8], value: &[u8], work_after: u16) -> [u8; 7] {
    let pages = image.len() / 512;
    let mut numbers = Vec::new();
    for call in 0..7 {
        let mut changed = image.to_vec();
        let mut work = vec![UNTOUCHED; work_length];
        let mut output = vec![0x5A; 64];
        let refusal = match call {
            0 => {
                let answer = check(image, &mut work);
                assert_eq!(answer.counts, Counts::default());
                assert_eq!((answer.height, answer.entries), (0, 0));
                answer.refusal
            }
            1 => {
                let answer = get(image, &mut work, key, &mut output);
                assert_eq!(answer.length, 0);
                answer.refusal
            }
            2 => {
                let answer = view(image, &mut work, key);
                assert_eq!(
                    (answer.offset, answer.length, answer.value_length),
                    (0, 0, 0)
                );
                assert!(!answer.chained);
                answer.refusal
            }
            3 => put(&mut changed, &mut work, key, value),
            4 => delete(&mut changed, &mut work, key),
            5 => {
                let answer = scan(image, &mut work, key, &[], &mut output);
                assert_eq!((answer.entries, answer.bytes, answer.more), (0, 0, false));
                answer.refusal
            }
            _ => {
                let answer = batch(&mut changed, &mut work, b"X\n", &mut output);
                assert_eq!((answer.consumed, answer.written), (0, 0));
                answer.refusal
            }
        };
        assert!(changed == image);
        assert!(output.iter().all(|&byte| byte == 0x5A));
        if refusal == Refusal::Damaged {
            assert!(work[..pages].iter().all(|&entry| entry == work_after));
            assert!(work[pages..].iter().all(|&entry| entry == UNTOUCHED));
        } else {
            assert!(work.iter().all(|&entry| entry == UNTOUCHED));
        }
        numbers.push(refusal.number());
    }
    numbers.try_into().unwrap()
}

#[test]
fn order_of_refusals() {
    let long_key = [7; 33];
    let long_value = [7; 4033];
    let damaged = vec![0xEE; 3 * 512];

    assert_eq!(refused(&[0; 700], 0, &long_key, &long_value, 0), [1; 7]);
    assert_eq!(refused(&damaged, 2, &long_key, &long_value, 0), [9; 7]);
    assert_eq!(
        refused(&damaged, 5, &long_key, &long_value, 0),
        [2, 3, 3, 3, 3, 3, 2]
    );
    assert_eq!(
        refused(&damaged, 5, &[], &long_value, 0),
        [2, 3, 3, 3, 3, 2, 2]
    );
    assert_eq!(
        refused(&damaged, 5, &[7], &long_value, 0),
        [2, 2, 2, 4, 2, 2, 2]
    );
    assert_eq!(refused(&damaged, 5, &[7], &[7], 0), [2; 7]);
    assert_eq!(refused(&damaged, 3, &[7], &[7], 0), [2; 7]);
}

#[test]
fn bounds_of_scan() {
    let bench = Bench::fresh(3);
    let mut work = [UNTOUCHED; 3];
    let mut output = [0; 8];
    for (low, high, number) in [(33, 0, 3), (0, 33, 3), (33, 33, 3), (32, 32, 0), (0, 0, 0)] {
        let answer = scan(
            &bench.image,
            &mut work,
            &vec![7; low],
            &vec![7; high],
            &mut output,
        );
        assert_eq!(answer.refusal.number(), number);
    }
}

#[test]
fn the_hosts_calls() {
    let mut image = vec![0; 6 * 512];
    assert_eq!(host_check(&image), 2 * 65_536);
    assert_eq!(host_check(&image[..700]), 65_536);
    assert_eq!(format(&mut image), Refusal::Done);
    assert_eq!(host_check(&image), 0);
    assert_eq!(host_put(&mut image, &[1], &[7; 600]), 0);
    assert_eq!(host_put(&mut image, &[2], &[7; 4032]), 6 * 65_536);
    assert_eq!(host_put(&mut image, &[], &[7; 4033]), 3 * 65_536);
    assert_eq!(host_put(&mut image, &[1], &[7; 4033]), 4 * 65_536);
    let mut output = [0x5A; 700];
    assert_eq!(host_get(&image, &[1], &mut output), 600);
    assert_eq!(output[..600], [7; 600]);
    assert_eq!(output[600..], [0x5A; 100]);
    assert_eq!(host_get(&image, &[1], &mut [0; 599]), 7 * 65_536 + 600);
    assert_eq!(host_get(&image, &[2], &mut output), 5 * 65_536);
    assert_eq!(host_delete(&mut image, &[2]), 5 * 65_536);
    assert_eq!(host_delete(&mut image, &[1]), 0);
    assert_eq!(host_get(&image, &[1], &mut output), 5 * 65_536);
    assert_eq!(host_check(&[0; 1025 * 512]), 65_536);
}

#[test]
fn an_empty_value_fits_an_empty_output() {
    let mut bench = Bench::fresh(3);
    bench.put(&[1], &[]);
    let answer = get(&bench.image, &mut bench.work, &[1], &mut []);
    assert_eq!((answer.refusal, answer.length), (Refusal::Done, 0));
    let seen = view(&bench.image, &mut bench.work, &[1]);
    assert_eq!((seen.offset, seen.length), (2 * 512, 0));
}
