//! Batch lines: what is malformed, what fits, and that each line does what the
//! single call does.

mod common;

use common::{Bench, Random, UNTOUCHED};
use ordinary::{batch, delete, format, get, put, scan, BatchAnswer, Refusal};

/// Runs a batch on a fresh store of 20 pages and gives the output as text.
fn answers(input: &str) -> String {
    let mut bench = Bench::fresh(20);
    let mut output = vec![0x5A; 20_000];
    let answer = batch(
        &mut bench.image,
        &mut bench.work,
        input.as_bytes(),
        &mut output,
    );
    assert_eq!(answer.refusal, Refusal::Done);
    assert_eq!(answer.consumed, input.len());
    String::from_utf8(output[..answer.written].to_vec()).unwrap()
}

#[test]
fn malformed_lines() {
    let lines = [
        "\n",
        "PP\t41\t\n",
        "p\t41\t\n",
        " P\t41\t\n",
        "G\n",
        "S\t\n",
        "S\n",
        "P\t41\n",
        "P\n",
        "G\t41\t\n",
        "G\t41\t\t\n",
        "S\t\t\t\n",
        "D\t41\t42\n",
        "P\t41\t42\t\n",
        "G\t4\n",
        "G\t4A\n",
        "G\t 41\n",
        "G\t41\r\n",
        "G\t41 \n",
        "G\tgg\n",
        "\t\n",
        "\tG\t41\n",
        "G\t41",
        "X",
        "?\t8\n",
        "G\t4:\n",
        "G\t4`\n",
        "G\t4/\n",
        "P\t\t0\n",
        "G\t4\u{e9}\n",
    ];
    for line in lines {
        assert_eq!(answers(line), "?\t8\n", "{line:?}");
    }
    let odd = "00".repeat(33) + "0";
    assert_eq!(answers(&format!("G\t{odd}\n")), "?\t8\n");
}

#[test]
fn refusals_in_lines() {
    let long_key = "00".repeat(33);
    let long_value = "00".repeat(4033);
    assert_eq!(answers(""), "");
    assert_eq!(answers("G\t\n"), "G\t3\n");
    assert_eq!(answers("D\t\n"), "D\t3\n");
    assert_eq!(answers("P\t\t\n"), "P\t3\n");
    assert_eq!(answers(&format!("P\t{long_key}\t{long_value}\n")), "P\t3\n");
    assert_eq!(answers(&format!("P\t41\t{long_value}\n")), "P\t4\n");
    assert_eq!(answers(&format!("S\t{long_key}\t\n")), "S\t3\n");
    assert_eq!(answers(&format!("S\t\t{long_key}\n")), "S\t3\n");
    assert_eq!(answers("S\t\t\n"), "S\t0\t0\n");
    assert_eq!(
        answers("P\t41\t\nG\t41\nS\t\t\nS\t42\t41\n"),
        "P\t0\nG\t0\t\nE\t41\t\nS\t0\t1\nS\t0\t0\n"
    );
}

#[test]
fn answers_that_just_fit() {
    let input = b"P\t41\t0102\nG\t41\nS\t\t\nX\nD\t41\n";
    let whole = b"P\t0\nG\t0\t0102\nE\t41\t0102\nS\t0\t1\n?\t8\nD\t0\n";
    let ends = [(0, 0), (10, 4), (15, 13), (19, 29), (21, 33), (26, 37)];
    for room in 0..=whole.len() + 1 {
        let mut image = vec![0; 4 * 512];
        format(&mut image);
        let mut work = [UNTOUCHED; 4];
        let mut output = vec![0x5A; room];
        let answer = batch(&mut image, &mut work, input, &mut output);
        let &(consumed, written) = ends.iter().rfind(|&&(_, written)| written <= room).unwrap();
        let refusal = if consumed == input.len() {
            Refusal::Done
        } else {
            Refusal::OutputShort
        };
        assert_eq!(
            answer,
            BatchAnswer {
                refusal,
                consumed,
                written
            }
        );
        assert_eq!(output[..written], whole[..written]);
        assert!(output[written..].iter().all(|&byte| byte == 0x5A));
        assert_eq!(work, [5, 1, 4, 4]);
    }
}

/// Gives random bytes that often make whole lines.
fn random_lines(random: &mut Random) -> Vec<u8> {
    let mut input = Vec::new();
    for _ in 0..random.below(30) {
        let letter = *random.one_of(b"PPPPGDSX");
        input.push(letter);
        let fields = match letter {
            b'P' | b'S' => 2,
            _ => 1,
        };
        for _ in 0..fields {
            input.extend(b"\t");
            let most = *random.one_of(&[1, 2, 2, 2, 33, 70, 600]);
            for _ in 0..random.below(most + 1) {
                let pair = *random.one_of(&[b"00", b"01", b"a0", b"ff", b"7c"]);
                input.extend(pair);
            }
        }
        input.push(b'\n');
    }
    for _ in 0..random.below(3) {
        if !input.is_empty() {
            let at = random.below(input.len());
            input[at] = *random.one_of(b"PGDS\t\n0a9fXA ");
        }
    }
    if random.percent(20) {
        input.pop();
    }
    input
}

/// Gives the bytes of a field, unless it is malformed.
fn field_bytes(field: &str) -> Option<Vec<u8>> {
    if !field.len().is_multiple_of(2) || !field.chars().all(|c| "0123456789abcdef".contains(c)) {
        return None;
    }
    let pair = |at: usize| u8::from_str_radix(&field[at..at + 2], 16).unwrap();
    Some((0..field.len()).step_by(2).map(pair).collect())
}

/// Gives bytes as digits.
fn digits(bytes: &[u8]) -> String {
    bytes.iter().map(|byte| format!("{byte:02x}")).collect()
}

/// Gives the answer of one line by way of the single calls.
fn by_single_calls(image: &mut [u8], line: &str) -> String {
    let mut work = vec![0; image.len() / 512];
    let malformed = "?\t8\n".to_string();
    let Some(text) = line.strip_suffix('\n') else {
        return malformed;
    };
    let parts: Vec<&str> = text.split('\t').collect();
    let fields: Option<Vec<Vec<u8>>> = parts[1..].iter().map(|part| field_bytes(part)).collect();
    let Some(fields) = fields else {
        return malformed;
    };
    match (parts[0], &fields[..]) {
        ("P", [key, value]) => format!("P\t{}\n", put(image, &mut work, key, value).number()),
        ("D", [key]) => format!("D\t{}\n", delete(image, &mut work, key).number()),
        ("G", [key]) => {
            let mut output = vec![0; 4032];
            let answer = get(image, &mut work, key, &mut output);
            match answer.refusal {
                Refusal::Done => format!("G\t0\t{}\n", digits(&output[..answer.length])),
                refusal => format!("G\t{}\n", refusal.number()),
            }
        }
        ("S", [low, high]) => {
            let mut output = vec![0; 1 << 17];
            let answer = scan(image, &mut work, low, high, &mut output);
            if answer.refusal != Refusal::Done {
                return format!("S\t{}\n", answer.refusal.number());
            }
            assert!(!answer.more);
            let mut text = String::new();
            let mut rest = &output[..answer.bytes];
            while !rest.is_empty() {
                let key_end = 3 + rest[0] as usize;
                let end = key_end + rest[1] as usize + 256 * rest[2] as usize;
                text += &format!(
                    "E\t{}\t{}\n",
                    digits(&rest[3..key_end]),
                    digits(&rest[key_end..end])
                );
                rest = &rest[end..];
            }
            text + &format!("S\t0\t{}\n", answer.entries)
        }
        _ => malformed,
    }
}

#[test]
fn each_line_does_what_the_single_call_does() {
    let mut random = Random::seeded(3);
    let mut stopped = 0;
    for round in 0..300 {
        let mut image = vec![0; 512 * (2 + round % 37)];
        format(&mut image);
        let mut by_batch = image.clone();
        let mut work = vec![0; image.len() / 512];
        for _ in 0..3 {
            let input = random_lines(&mut random);
            let mut output = vec![0x5A; random.below(3000)];
            let answer = batch(&mut by_batch, &mut work, &input, &mut output);

            let mut wanted = String::new();
            let mut consumed = 0;
            let mut refusal = Refusal::Done;
            for line in input.split_inclusive(|&byte| byte == b'\n') {
                let mut changed = image.clone();
                let line = std::str::from_utf8(line).unwrap();
                let text = by_single_calls(&mut changed, line);
                if wanted.len() + text.len() > output.len() {
                    refusal = Refusal::OutputShort;
                    stopped += 1;
                    break;
                }
                wanted += &text;
                consumed += line.len();
                image = changed;
            }
            let written = wanted.len();
            assert_eq!(
                answer,
                BatchAnswer {
                    refusal,
                    consumed,
                    written
                }
            );
            assert_eq!(&output[..written], wanted.as_bytes());
            assert!(output[written..].iter().all(|&byte| byte == 0x5A));
            assert!(image == by_batch);
        }
    }
    assert!(stopped > 0);
}

#[test]
fn random_bytes_as_input() {
    let mut random = Random::seeded(4);
    let mut image = vec![0; 512 * 9];
    format(&mut image);
    let mut work = vec![0; 9];
    for _ in 0..3000 {
        let length = random.below(60);
        let input: Vec<u8> = if random.percent(50) {
            random.bytes(length)
        } else {
            (0..length)
                .map(|_| *random.one_of(b"PGDS\t\t\t\n\n0000aa19fX"))
                .collect()
        };
        let mut output = vec![0; random.below(200)];
        let answer = batch(&mut image, &mut work, &input, &mut output);
        assert!(answer.consumed <= input.len() && answer.written <= output.len());
    }
}
