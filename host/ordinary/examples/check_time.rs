//! Prints how long check takes on full images of 1,024 pages.

use ordinary::{batch, check, format, Refusal};
use std::time::Instant;

/// Fills a store of 1,024 pages by batch lines with keys and values of these
/// lengths, in a scattered order, until a put is refused.
fn full(key_length: usize, value_length: usize) -> Vec<u8> {
    let mut image = vec![0; 1024 * 512];
    let mut work = vec![0; 1024];
    assert_eq!(format(&mut image), Refusal::Done);
    let value = "07".repeat(value_length);
    let mut input = String::new();
    for number in 0..65_536_u32 {
        let scattered = number.wrapping_mul(40_503) % 65_536;
        let padding = "00".repeat(key_length - 2);
        input += &format!("P\t{scattered:04x}{padding}\t{value}\n");
    }
    let mut output = vec![0; 4 * 65_536];
    let answer = batch(&mut image, &mut work, input.as_bytes(), &mut output);
    assert_eq!(answer.refusal, Refusal::Done);
    image
}

/// Times the best of many checks and prints it.
fn time(name: &str, image: &[u8]) {
    let mut work = vec![0; 1024];
    let mut best = u128::MAX;
    let mut total = 0;
    let rounds = 300;
    for _ in 0..rounds {
        let start = Instant::now();
        let answer = check(image, &mut work);
        let spent = start.elapsed().as_nanos();
        assert_eq!(answer.refusal, Refusal::Done);
        best = best.min(spent);
        total += spent;
    }
    let answer = check(image, &mut work);
    println!(
        "{name}: {} entries, height {}, {:?}: best {:.1} us, mean {:.1} us",
        answer.entries,
        answer.height,
        answer.counts,
        best as f64 / 1000.0,
        total as f64 / rounds as f64 / 1000.0,
    );
}

fn main() {
    time("keys of 32, values of 64", &full(32, 64));
    time("keys of 2, values of 2", &full(2, 2));
    time("keys of 8, values of 16", &full(8, 16));
    time("keys of 16, values of 600", &full(16, 600));
    time("keys of 2, values of 4,032", &full(2, 4032));
    let mut image = vec![0; 1024 * 512];
    format(&mut image);
    time("fresh", &image);
}
