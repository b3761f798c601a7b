//! The mixture sheet: its answer, and the answer as text.

use crate::blend::Blend;
use crate::limits::Pair;
use crate::refusal::{refuse, refuse_if, Answer, Refusal};
use std::io::Write;

const MOST_BYTES: usize = 64 * 1_024;
const HEADER: &[u8] = b"formula,parts";
const ANSWER: &str = "answer,record,lower,upper\r\n";

/// Form for the whole sheet first, then the records in order, then the limits.
pub fn answer(sheet: &[u8]) -> Answer<Pair> {
    refuse_if(sheet.len() > MOST_BYTES, 15, 0)?;
    let mut lines = Lines(sheet);
    refuse_if(lines.next().unwrap_or_default() != HEADER, 15, 0)?;
    let mut records = Vec::new();
    for line in lines {
        match record(line) {
            Some(found) => records.push(found),
            None => return refuse(15, records.len() as u64 + 1),
        }
    }
    let mut blend = Blend::EMPTY;
    for (index, (formula, parts)) in records.into_iter().enumerate() {
        blend = blend.add_text(formula, parts).map_err(|refusal| Refusal { place: index as u64 + 1, ..refusal })?;
    }
    blend.limits()
}

/// Lines that end in CRLF, the last one's optional.
struct Lines<'a>(&'a [u8]);

impl<'a> Iterator for Lines<'a> {
    type Item = &'a [u8];

    fn next(&mut self) -> Option<&'a [u8]> {
        if self.0.is_empty() {
            return None;
        }
        let end = (1..self.0.len()).find(|&at| self.0[at] == b'\n' && self.0[at - 1] == b'\r');
        let (line, rest) = end.map_or((self.0, &[][..]), |end| (&self.0[..end - 1], &self.0[end + 1..]));
        self.0 = rest;
        Some(line)
    }
}

/// Two fields without quote mark, CR or LF, the second a number of parts.
fn record(line: &[u8]) -> Option<(&[u8], u64)> {
    let comma = line.iter().position(|&byte| byte == b',')?;
    let (formula, digits) = (&line[..comma], &line[comma + 1..]);
    if formula.iter().any(|byte| matches!(byte, b'"' | b'\r' | b'\n')) {
        return None;
    }
    Some((formula, parts(digits)?))
}

/// 1 to 7 digits without leading zero, or 0.
fn parts(digits: &[u8]) -> Option<u64> {
    let good = (1..=7).contains(&digits.len()) && digits.iter().all(u8::is_ascii_digit) && (digits[0] != b'0' || digits.len() == 1);
    good.then(|| digits.iter().fold(0, |value, digit| value * 10 + u64::from(digit - b'0')))
}

/// The answer, both limits without their marks, as text at the start of `out`, and its length; a refusal writes nothing.
pub fn write_answer(answer: Answer<(u64, u64)>, out: &mut [u8]) -> Answer<usize> {
    let mut line = [0; 96]; // at most 76 bytes
    let mut rest = &mut line[..];
    let written = match answer {
        Ok((lower, upper)) => {
            write!(rest, "{ANSWER}0,0,{}.{:02},{}.{:02}\r\n", lower / 100, lower % 100, upper / 100, upper % 100)
        }
        Err(Refusal { number, place }) => write!(rest, "{ANSWER}{number},{place},,\r\n"),
    };
    debug_assert!(written.is_ok());
    let length = 96 - rest.len();
    refuse_if(length > out.len(), 17, 0)?;
    out[..length].copy_from_slice(&line[..length]);
    Ok(length)
}
