//! The batch: text lines of commands, text lines of answers.
//!
//! | command | answer |
//! |---|---|
//! | `P key value` | `P n` |
//! | `G key` | `G 0 value` or `G n` |
//! | `D key` | `D n` |
//! | `S low high` | `E key value` for each entry, then `S 0 count`; or `S n` |
//! | a malformed line | `? 8` |
//!
//! Fields are parted by tabs, lines end with a line feed, bytes are pairs of
//! the digits 0-9a-f. A line whose whole answer doesn't fit isn't begun.

use crate::calls::{open_mut, test_bounds, test_entry, test_key};
use crate::leaf::Cell;
use crate::page::Page;
use crate::refusal::Refusal;
use crate::tree;

/// The bytes of an answer of a letter and a refusal number.
const SHORT_ANSWER: usize = 4;

/// What batch answers; both numbers are 0 for the refusals 1, 9 and 2.
#[derive(Clone, Copy, Debug, PartialEq, Eq)]
pub struct BatchAnswer {
    /// The refusal number: 7 if the batch stopped before a line whose answer
    /// doesn't fit.
    pub refusal: Refusal,
    /// The bytes of input consumed.
    pub consumed: usize,
    /// The bytes of output written.
    pub written: usize,
}

/// Checks the image once and runs the lines of the input in order.
pub fn batch(image: &mut [u8], work: &mut [u16], input: &[u8], output: &mut [u8]) -> BatchAnswer {
    let mut answer = BatchAnswer {
        refusal: Refusal::Done,
        consumed: 0,
        written: 0,
    };
    let pages = match open_mut(image, work, Ok(())) {
        Ok(pages) => pages,
        Err(refusal) => {
            answer.refusal = refusal;
            return answer;
        }
    };
    let mut output = Output {
        bytes: output,
        written: 0,
    };
    for line in input.split_inclusive(|&byte| byte == b'\n') {
        if run(pages, line, &mut output).is_none() {
            answer.refusal = Refusal::OutputShort;
            break;
        }
        answer.consumed += line.len();
    }
    answer.written = output.written;
    answer
}

// ---------------------------------------------------------------------------
// Commands
// ---------------------------------------------------------------------------

/// A field of a line: pairs of digits, so many bytes.
#[derive(Clone, Copy)]
struct Field<'input>(&'input [u8]);

impl<'input> Field<'input> {
    /// Gives the field of these digits, unless they are malformed.
    fn read(digits: &'input [u8]) -> Option<Field<'input>> {
        let allowed = |byte: &u8| matches!(byte, b'0'..=b'9' | b'a'..=b'f');
        (digits.len().is_multiple_of(2) && digits.iter().all(allowed)).then_some(Field(digits))
    }

    /// Gives the number of bytes.
    fn length(self) -> usize {
        self.0.len() / 2
    }

    /// Gives the bytes.
    fn bytes(self) -> Vec<u8> {
        let digit = |byte: u8| match byte {
            b'a'..=b'f' => byte - b'a' + 10,
            _ => byte & 15,
        };
        self.0
            .chunks_exact(2)
            .map(|pair| digit(pair[0]) << 4 | digit(pair[1]))
            .collect()
    }
}

/// A well-formed line.
enum Command<'input> {
    Put(Field<'input>, Field<'input>),
    Get(Field<'input>),
    Delete(Field<'input>),
    Scan(Field<'input>, Field<'input>),
}

impl<'input> Command<'input> {
    /// Gives the command of a line, unless the line is malformed.
    fn read(line: &'input [u8]) -> Option<Command<'input>> {
        let text = line.strip_suffix(b"\n")?;
        let mut fields = text.split(|&byte| byte == b'\t');
        let letter = fields.next()?;
        let first = Field::read(fields.next()?)?;
        let second = match fields.next() {
            Some(digits) => Some(Field::read(digits)?),
            None => None,
        };
        if fields.next().is_some() {
            return None;
        }
        match (letter, second) {
            (b"P", Some(second)) => Some(Command::Put(first, second)),
            (b"G", None) => Some(Command::Get(first)),
            (b"D", None) => Some(Command::Delete(first)),
            (b"S", Some(second)) => Some(Command::Scan(first, second)),
            _ => None,
        }
    }
}

/// Runs one line and writes its answer; gives none, with nothing changed, if
/// the answer doesn't fit.
fn run(pages: &mut [Page], line: &[u8], output: &mut Output) -> Option<()> {
    match Command::read(line) {
        None => {
            output.fit(SHORT_ANSWER)?;
            output.short(b'?', Refusal::MalformedLine);
        }
        Some(Command::Put(key, value)) => {
            output.fit(SHORT_ANSWER)?;
            output.short(b'P', run_put(pages, key, value).into());
        }
        Some(Command::Delete(key)) => {
            output.fit(SHORT_ANSWER)?;
            output.short(b'D', run_delete(pages, key).into());
        }
        Some(Command::Get(key)) => run_get(pages, key, output)?,
        Some(Command::Scan(low, high)) => run_scan(pages, low, high, output)?,
    }
    Some(())
}

/// Does what put does after its check.
fn run_put(pages: &mut [Page], key: Field, value: Field) -> Result<(), Refusal> {
    test_entry(key.length(), value.length())?;
    tree::put(pages, &key.bytes(), &value.bytes())
}

/// Does what delete does after its check.
fn run_delete(pages: &mut [Page], key: Field) -> Result<(), Refusal> {
    test_key(key.length())?;
    tree::delete(pages, &key.bytes())
}

/// Answers a G line, or gives none if the answer doesn't fit.
fn run_get(pages: &[Page], key: Field, output: &mut Output) -> Option<()> {
    let found = test_key(key.length())
        .and_then(|()| tree::find(pages, &key.bytes()).ok_or(Refusal::NoSuchKey));
    match found {
        Err(refusal) => {
            output.fit(SHORT_ANSWER)?;
            output.short(b'G', refusal);
        }
        Ok(cell) => {
            output.fit(b"G\t0\t".len() + 2 * cell.value_length() + 1)?;
            output.push(b"G\t0\t");
            output.push_value(pages, cell);
            output.push(b"\n");
        }
    }
    Some(())
}

/// Answers an S line with the whole range, or gives none if that doesn't fit.
fn run_scan(pages: &[Page], low: Field, high: Field, output: &mut Output) -> Option<()> {
    if let Err(refusal) = test_bounds(low.length(), high.length()) {
        output.fit(SHORT_ANSWER)?;
        output.short(b'S', refusal);
        return Some(());
    }
    let (low, high) = (low.bytes(), high.bytes());

    let mut count = 0;
    let mut length = 0;
    for cell in tree::range(pages, &low, &high) {
        count += 1;
        length += b"E\t\t\n".len() + 2 * (cell.key().len() + cell.value_length());
        output.fit(length)?;
    }
    let last = format!("S\t0\t{count}\n");
    output.fit(length + last.len())?;

    for cell in tree::range(pages, &low, &high) {
        output.push(b"E\t");
        output.push_digits(cell.key());
        output.push(b"\t");
        output.push_value(pages, cell);
        output.push(b"\n");
    }
    output.push(last.as_bytes());
    Some(())
}

// ---------------------------------------------------------------------------
// Answers
// ---------------------------------------------------------------------------

/// The output and how much of it is written.
struct Output<'output> {
    bytes: &'output mut [u8],
    written: usize,
}

impl Output<'_> {
    /// Gives none unless so many bytes more fit.
    fn fit(&self, length: usize) -> Option<()> {
        (length <= self.bytes.len() - self.written).then_some(())
    }

    /// Writes bytes that fit.
    fn push(&mut self, bytes: &[u8]) {
        let end = self.written + bytes.len();
        self.bytes[self.written..end].copy_from_slice(bytes);
        self.written = end;
    }

    /// Writes bytes that fit as pairs of digits.
    fn push_digits(&mut self, bytes: &[u8]) {
        const DIGITS: &[u8; 16] = b"0123456789abcdef";
        for &byte in bytes {
            self.push(&[
                DIGITS[usize::from(byte >> 4)],
                DIGITS[usize::from(byte & 15)],
            ]);
        }
    }

    /// Writes a cell's value that fits as pairs of digits.
    fn push_value(&mut self, pages: &[Page], cell: Cell) {
        for part in tree::value_parts(pages, cell) {
            self.push_digits(part);
        }
    }

    /// Writes an answer that fits of a letter and a refusal number.
    fn short(&mut self, letter: u8, refusal: Refusal) {
        self.push(&[letter, b'\t', b'0' + refusal.number(), b'\n']);
    }
}
