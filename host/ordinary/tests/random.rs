//! Random sequences of calls, compared with a map call by call.

mod common;

use common::{wide_key, Bench, Random, LENGTHS};
use ordinary::Refusal;

/// How a run makes its keys.
#[derive(Clone, Copy)]
enum Keys {
    /// 1 to 4 bytes of few values, many of them prefixes of others.
    Short,
    /// 32 bytes.
    Wide,
    /// 1 to 32 bytes, zeros at the end among them.
    Mixed,
}

/// How a run makes its values.
#[derive(Clone, Copy)]
enum Values {
    /// Boundary lengths, the longest ones among them.
    Boundary,
    /// At most 64 bytes, mostly just 64.
    Inline,
    /// At most 64 bytes with some chains.
    Mostly,
}

/// Gives a random key.
fn random_key(random: &mut Random, keys: Keys) -> Vec<u8> {
    match keys {
        Keys::Short => {
            let length = 1 + random.below(4);
            (0..length)
                .map(|_| *random.one_of(&[0, 1, 2, 127, 128, 255]))
                .collect()
        }
        Keys::Wide => wide_key(random.below(400)),
        Keys::Mixed => {
            let length = 1 + random.below(32);
            let mut key = vec![0; length];
            key[0] = random.below(40) as u8;
            if length > 3 {
                key[length - 2] = random.below(2) as u8;
            }
            key
        }
    }
}

/// Gives a random value.
fn random_value(random: &mut Random, values: Values) -> Vec<u8> {
    let length = match values {
        Values::Boundary => *random.one_of(&LENGTHS),
        Values::Inline if random.percent(80) => 64,
        Values::Inline => random.below(65),
        Values::Mostly if random.percent(90) => random.below(65),
        Values::Mostly => *random.one_of(&[65, 504, 505, 1008, 1009]),
    };
    random.bytes(length)
}

/// What a run met.
#[derive(Default)]
struct Met {
    height: usize,
    absent: usize,
    crowded: usize,
}

/// Runs so many calls over growing and shrinking stretches, then deletes all.
fn run(pages: usize, seed: u64, calls: usize, keys: Keys, values: Values) -> Met {
    let mut random = Random::seeded(seed);
    let mut bench = Bench::fresh(pages);
    let mut met = Met::default();
    for call in 0..calls {
        let growing = (call * 4 / calls).is_multiple_of(2);
        let present: Vec<Vec<u8>> = if random.percent(50) {
            bench.map.keys().cloned().collect()
        } else {
            Vec::new()
        };
        let key = if present.is_empty() {
            random_key(&mut random, keys)
        } else {
            random.one_of(&present).clone()
        };
        let refusal = if random.percent(8) {
            bench.get(&key)
        } else if random.percent(3) {
            let other = random_key(&mut random, keys);
            let room = random.below(3000);
            bench.scan(&key, &other, room);
            bench.scan(&[], &other, room);
            bench.scan(&key, &[], room);
            Refusal::Done
        } else if random.percent(if growing { 85 } else { 20 }) {
            let value = random_value(&mut random, values);
            bench.put(&key, &value)
        } else {
            bench.delete(&key)
        };
        met.absent += usize::from(refusal == Refusal::NoSuchKey);
        met.crowded += usize::from(refusal == Refusal::TooFewPages);
        met.height = met.height.max(bench.shape.height);
    }
    bench.scan(&[], &[], 1 << 20);
    while let Some(key) = {
        let present: Vec<Vec<u8>> = bench.map.keys().cloned().collect();
        (!present.is_empty()).then(|| random.one_of(&present).clone())
    } {
        assert_eq!(bench.delete(&key), Refusal::Done);
    }
    assert_eq!(bench.shape.height, 1);
    assert_eq!(bench.shape.free.len(), pages - 2);
    met
}

#[test]
fn small_stores_of_boundary_values() {
    for (round, &pages) in [2, 3, 5, 7, 11, 17, 29].iter().enumerate() {
        let met = run(pages, round as u64 + 1, 400, Keys::Mixed, Values::Boundary);
        assert!(met.absent > 0 && met.crowded > 0);
    }
}

#[test]
fn short_keys() {
    for (round, &pages) in [5, 13, 37].iter().enumerate() {
        run(pages, round as u64 + 11, 700, Keys::Short, Values::Mostly);
    }
}

#[test]
fn wide_keys_reach_three_levels() {
    for seed in 21..24 {
        let met = run(131, seed, 1200, Keys::Wide, Values::Inline);
        assert_eq!(met.height, 3);
        assert!(met.absent > 0);
    }
}

#[test]
fn wide_keys_in_a_tight_store() {
    for seed in 31..34 {
        let met = run(19, seed, 900, Keys::Wide, Values::Mostly);
        assert!(met.crowded > 0);
    }
}

#[test]
fn boundary_values_in_a_larger_store() {
    let met = run(257, 41, 700, Keys::Mixed, Values::Boundary);
    assert!(met.height >= 2);
}

#[test]
fn rising_falling_and_strided_orders() {
    for stride in [1, 199, 37, 83] {
        let mut bench = Bench::fresh(128);
        for place in 0..200 {
            bench.put(&wide_key(place * stride % 200), &[7; 64]);
        }
        assert_eq!(bench.shape.height, 3);
        for place in 0..200 {
            let number = place * 67 % 200;
            assert_eq!(bench.delete(&wide_key(number)), Refusal::Done);
        }
        assert_eq!(bench.shape.height, 1);
    }
}

#[test]
#[ignore = "a long run, for a release build"]
fn many_seeds() {
    for seed in 100..160 {
        let pages = 2 + seed as usize * 7 % 300;
        for keys in [Keys::Short, Keys::Wide, Keys::Mixed] {
            for values in [Values::Boundary, Values::Inline, Values::Mostly] {
                run(pages, seed, 500, keys, values);
            }
        }
    }
}
