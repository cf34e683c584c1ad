//! The job of framecheck in plain Rust, for comparing speed. The rules are in
//! docs/RECEIVER.md. Build: rustc -O -C opt-level=3 framecheck_baseline.rs

use std::io::{self, ErrorKind, Read, Write};

const CHUNK: usize = 64 * 1024;
const MAX_LINE: usize = 256;
const MAX_TERMS: usize = 16;
const MAX_MINUTE: u16 = 63;

/// The line being read. One byte over the limit is kept, so that a line too
/// long can be told; what follows is dropped.
struct Line {
    bytes: [u8; MAX_LINE + 1],
    len: usize,
}

impl Line {
    fn push(&mut self, part: &[u8]) {
        let n = part.len().min(self.bytes.len() - self.len);
        self.bytes[self.len..self.len + n].copy_from_slice(&part[..n]);
        self.len += n;
    }

    fn bytes(&self) -> &[u8] {
        &self.bytes[..self.len]
    }
}

#[derive(Clone, Copy, Default)]
struct Term {
    minute: u16,
    weight: u16,
}

struct Frame {
    sum: u16,
    terms: [Term; MAX_TERMS],
    len: usize,
}

enum Refusal {
    Line(u16, usize),
    Frame(u16, usize),
}

/// Reads the field that begins at `start`: its value if it is a number, and
/// the offset of the comma or line end behind it.
#[inline(always)]
fn field(line: &[u8], start: usize) -> (Option<u16>, usize) {
    let mut value: u32 = 0;
    let mut at = start;
    while at < line.len() && line[at].is_ascii_digit() {
        value = value.wrapping_mul(10).wrapping_add(u32::from(line[at] - b'0'));
        at += 1;
    }
    if at < line.len() && line[at] != b',' {
        while at < line.len() && line[at] != b',' {
            at += 1;
        }
        return (None, at);
    }
    let digits = at - start;
    let leading_zero = digits > 1 && line[start] == b'0';
    // Up to five digits the value has not wrapped.
    if digits == 0 || digits > 5 || leading_zero || value > u32::from(u16::MAX) {
        return (None, at);
    }
    (Some(value as u16), at)
}

fn read_frame(line: &[u8]) -> Result<Frame, Refusal> {
    if line.len() > MAX_LINE || line.first() != Some(&b'F') {
        return Err(Refusal::Line(13, 0));
    }
    if line.len() == 1 {
        return Err(Refusal::Line(14, 0));
    }
    if line[1] != b',' {
        return Err(Refusal::Line(13, 0));
    }

    // One pass over the fields after F; the refusals are told apart after it,
    // since a wrong number of fields comes before a field that is no number.
    let mut frame = Frame { sum: 0, terms: [Term::default(); MAX_TERMS], len: 0 };
    let mut first_bad = None;
    let mut fields = 0;
    let mut end = 1;
    while end < line.len() {
        let start = end + 1;
        let (value, after) = field(line, start);
        end = after;
        match value {
            None => first_bad = first_bad.or(Some(start)),
            Some(value) if fields == 0 => frame.sum = value,
            Some(value) => {
                let index = (fields - 1) / 2;
                if index < MAX_TERMS {
                    if fields % 2 == 1 {
                        frame.terms[index].minute = value;
                    } else {
                        frame.terms[index].weight = value;
                    }
                }
            }
        }
        fields += 1;
    }

    if fields % 2 == 0 {
        return Err(Refusal::Line(14, 0));
    }
    if let Some(place) = first_bad {
        return Err(Refusal::Line(15, place));
    }
    frame.len = fields / 2;
    if frame.len == 0 || frame.len > MAX_TERMS {
        return Err(Refusal::Frame(10, 0));
    }
    let terms = &frame.terms[..frame.len];
    let mut least = 0;
    for (index, term) in terms.iter().enumerate() {
        if term.minute > MAX_MINUTE || term.minute < least {
            return Err(Refusal::Frame(11, index));
        }
        least = term.minute + 1;
    }
    if let Some(index) = terms.iter().position(|term| term.weight == 0) {
        return Err(Refusal::Frame(12, index));
    }
    Ok(frame)
}

#[inline(always)]
fn put_number(out: &mut Vec<u8>, number: u16) {
    let digit = |unit: u16| b'0' + (number / unit % 10) as u8;
    if number >= 10000 {
        out.extend_from_slice(&[digit(10000), digit(1000), digit(100), digit(10), digit(1)]);
    } else if number >= 1000 {
        out.extend_from_slice(&[digit(1000), digit(100), digit(10), digit(1)]);
    } else if number >= 100 {
        out.extend_from_slice(&[digit(100), digit(10), digit(1)]);
    } else if number >= 10 {
        out.extend_from_slice(&[digit(10), digit(1)]);
    } else {
        out.push(digit(1));
    }
}

fn answer(line: &[u8], out: &mut Vec<u8>) {
    match read_frame(line) {
        Ok(frame) => {
            out.extend_from_slice(b"F,");
            put_number(out, frame.sum);
            for term in &frame.terms[..frame.len] {
                out.push(b',');
                put_number(out, term.minute);
                out.push(b',');
                put_number(out, term.weight);
            }
        }
        Err(refusal) => {
            let (layer, number, place): (&[u8], _, _) = match refusal {
                Refusal::Line(number, place) => (b"line", number, place),
                Refusal::Frame(number, place) => (b"frame", number, place),
            };
            out.push(if number == 13 { b'?' } else { b'F' });
            out.extend_from_slice(b",refused,");
            out.extend_from_slice(layer);
            out.push(b',');
            put_number(out, number);
            out.push(b',');
            // A place is at most the longest line, 256.
            put_number(out, place as u16);
        }
    }
    out.push(b'\n');
}

/// Looks at 32 bytes at a time first, which the compiler turns into vector
/// instructions.
fn find_newline(bytes: &[u8]) -> Option<usize> {
    let newline = |&byte: &u8| byte == b'\n';
    let mut clear = 0;
    for block in bytes.chunks_exact(32) {
        if block.iter().fold(false, |found, byte| found | newline(byte)) {
            break;
        }
        clear += block.len();
    }
    bytes[clear..].iter().position(newline).map(|at| clear + at)
}

fn main() -> io::Result<()> {
    let mut input = io::stdin().lock();
    let mut output = io::stdout().lock();
    let mut chunk = vec![0; CHUNK];
    let mut out = Vec::with_capacity(2 * CHUNK);
    let mut line = Line { bytes: [0; MAX_LINE + 1], len: 0 };
    loop {
        let n = match input.read(&mut chunk) {
            Ok(0) => break,
            Ok(n) => n,
            Err(error) if error.kind() == ErrorKind::Interrupted => continue,
            Err(error) => return Err(error),
        };
        let mut rest = &chunk[..n];
        while let Some(end) = find_newline(rest) {
            line.push(&rest[..end]);
            answer(line.bytes(), &mut out);
            line.len = 0;
            rest = &rest[end + 1..];
        }
        line.push(rest);
        output.write_all(&out)?;
        out.clear();
    }
    // A last line without its byte 10.
    if line.len > 0 {
        answer(line.bytes(), &mut out);
        output.write_all(&out)?;
    }
    output.flush()
}
