//! The lines of a text, and the bytes of their records.

use crate::number::{parse, parse_at};
use crate::quote::quoted;

/// The longest text that is read, in MiB: far more than one that somebody wrote.
pub const MOST_TEXT: u64 = 64;
/// The longest script, in MiB. It stays in memory until its last line is known to be good.
pub const MOST_SCRIPT: usize = 256;
/// The most turns of a line: a slip in the number is told, and not carried out.
pub const MOST_TURNS: u64 = 1_000_000;

/// A number of a record: its name, and its bytes.
type Field = (&'static str, usize);

const SPACE: &[Field] = &[
    ("start", 8),
    ("size", 8),
    ("reserved-start", 8),
    ("reserved-size", 8),
];
const REQUEST: &[Field] = &[
    ("op", 4),
    ("flags", 4),
    ("handle", 4),
    ("pad", 4),
    ("addr", 8),
    ("bo_offset", 8),
    ("range", 8),
];
const LOOKUP: &[Field] = &[("address", 8)];
const MAP: &[Field] = &[("address", 8), ("size", 8), ("object", 4), ("offset", 8)];
const RANGE: &[Field] = &[("address", 8), ("size", 8)];
const MOST_FIELDS: usize = REQUEST.len();

/// The values of `op`.
const OP_MAP: u64 = 0;
const OP_UNMAP: u64 = 1;

/// The flag of a request for a sparse range.
const FLAG_SPARSE: u64 = 256;

/// The first line that is bad, and what is wrong with it.
#[derive(Debug, PartialEq)]
pub struct BadLine {
    pub line: usize,
    pub what: String,
}

/// The bytes of the lines so far, and how many they may be.
struct Script {
    bytes: Vec<u8>,
    most: usize,
}

impl Script {
    fn put(&mut self, bytes: &[u8]) -> Result<(), String> {
        if bytes.len() > self.most - self.bytes.len() {
            return Err(format!("the script is longer than {MOST_SCRIPT} MiB"));
        }
        // Without this, too little memory would end the program without a message.
        let room = self.bytes.try_reserve(bytes.len());
        room.map_err(|_| "there is no memory for the script".to_string())?;
        self.bytes.extend_from_slice(bytes);
        Ok(())
    }
}

/// The words of a line stand between white space, to which ASCII's separators belong. A line may
/// be as long as the text, so they are never all in memory.
fn words_of(line: &str) -> impl Iterator<Item = &str> + Clone {
    line.split(|c: char| c.is_whitespace() || ('\x1c'..='\x1f').contains(&c))
        .filter(|word| !word.is_empty())
}

fn fields_of(kind: &str) -> Option<&'static [Field]> {
    match kind {
        "SP" => Some(SPACE),
        "RQ" => Some(REQUEST),
        "LK" => Some(LOOKUP),
        "map" => Some(MAP),
        "unmap" | "map-sparse" | "unmap-sparse" => Some(RANGE),
        _ => None,
    }
}

/// The numbers of a record, and how many there are: those that no record has room for only count.
fn numbers_of<'a>(
    words: impl Iterator<Item = &'a str>,
    turn: Option<u64>,
) -> Result<(Vec<u128>, usize), String> {
    let (mut numbers, mut count) = (Vec::with_capacity(MOST_FIELDS), 0);
    for word in words {
        let number = match turn {
            Some(turn) => parse_at(word, turn)?,
            None => parse(word)?,
        };
        if count < MOST_FIELDS {
            numbers.push(number);
        }
        count += 1;
    }
    Ok((numbers, count))
}

fn check_count(kind: &str, fields: &[Field], count: usize) -> Result<(), String> {
    let wanted = match kind {
        _ if count == fields.len() => return Ok(()),
        "SP" if count == 2 => return Ok(()),
        "SP" => "2 or 4".to_string(),
        _ => fields.len().to_string(),
    };
    let names: Vec<&str> = fields.iter().map(|field| field.0).collect();
    let names = names.join(" ");
    Err(format!(
        "{kind} wants {wanted} numbers, not {count}: {names}"
    ))
}

/// The numbers as values, if each fits its field.
fn fitted(fields: &[Field], numbers: &[u128]) -> Result<Vec<u64>, String> {
    let value = |(&(name, bytes), &number): (&Field, &u128)| {
        let bits = 8 * bytes;
        let value = u64::try_from(number).ok();
        value
            .filter(|_| number >> bits == 0)
            .ok_or_else(|| format!("{name} {number} does not fit in {bits} bits"))
    };
    fields.iter().zip(numbers).map(value).collect()
}

fn put(mark: &str, fields: &[Field], values: &[u64], script: &mut Script) -> Result<(), String> {
    script.put(mark.as_bytes())?;
    fields
        .iter()
        .zip(values)
        .try_for_each(|(&(_, bytes), value)| script.put(&value.to_le_bytes()[..bytes]))
}

fn put_raw<'a>(words: impl Iterator<Item = &'a str>, script: &mut Script) -> Result<(), String> {
    let mut words = words.peekable();
    if words.peek().is_none() {
        return Err("bytes wants one byte at least".to_string());
    }
    words.try_for_each(|word| {
        let byte = match word.as_bytes() {
            // `from_str_radix` would take a sign too.
            [one, other] if one.is_ascii_hexdigit() && other.is_ascii_hexdigit() => {
                u8::from_str_radix(word, 16).ok()
            }
            _ => None,
        };
        let byte = byte.ok_or_else(|| {
            let word = quoted(word);
            format!("'{word}' is not a byte of two hexadecimal digits")
        })?;
        script.put(&[byte])
    })
}

/// A line that is not repeated, or one turn of a line that is.
fn put_record<'a>(
    kind: &str,
    words: impl Iterator<Item = &'a str>,
    turn: Option<u64>,
    script: &mut Script,
) -> Result<(), String> {
    if kind == "bytes" {
        return put_raw(words, script);
    }
    let fields = fields_of(kind).ok_or_else(|| format!("'{}' is not a record", quoted(kind)))?;
    let (mut numbers, count) = numbers_of(words, turn)?;
    check_count(kind, fields, count)?;
    // A space of two numbers has no reservation.
    numbers.resize(fields.len(), 0);
    let values = fitted(fields, &numbers)?;
    match request_of(kind, &values) {
        Some(request) => put("RQ", REQUEST, &request, script),
        None => put(kind, fields, &values, script),
    }
}

/// The fields of the request that a line stands for.
fn request_of(kind: &str, values: &[u64]) -> Option<[u64; REQUEST.len()]> {
    let (op, flags) = match kind {
        "map" => (OP_MAP, 0),
        "unmap" => (OP_UNMAP, 0),
        "map-sparse" => (OP_MAP, FLAG_SPARSE),
        "unmap-sparse" => (OP_UNMAP, FLAG_SPARSE),
        _ => return None,
    };
    let &[address, size, ref rest @ ..] = values else {
        return None;
    };
    let (object, offset) = match *rest {
        [object, offset] => (object, offset),
        _ => (0, 0),
    };
    Some([op, flags, object, 0, address, offset, size])
}

/// A line `repeat N: RECORD`.
fn put_repeated(line: &str, script: &mut Script) -> Result<(), String> {
    let (head, body) = line.split_once(':').unwrap_or((line, ""));
    let (mut head, mut words) = (words_of(head).skip(1), words_of(body));
    let (Some(number), None, Some(kind)) = (head.next(), head.next(), words.next()) else {
        return Err("repeat wants a number, a colon and a record".to_string());
    };
    let turns = u64::try_from(parse(number)?).ok();
    let turns = turns.filter(|&turns| turns <= MOST_TURNS).ok_or_else(|| {
        let number = quoted(number);
        format!("repeat has at most {MOST_TURNS} turns, not {number}")
    })?;
    (0..turns).try_for_each(|turn| put_record(kind, words.clone(), Some(turn), script))
}

fn put_line(line: &[u8], script: &mut Script) -> Result<(), String> {
    let line = std::str::from_utf8(line).map_err(|error| {
        let from_there = quoted(&line[error.valid_up_to()..]);
        format!("'{from_there}' is not UTF-8")
    })?;
    let mut words = words_of(line);
    match words.next() {
        None => Ok(()),
        Some("repeat") => put_repeated(line, script),
        Some(kind) => put_record(kind, words, None, script),
    }
}

fn assemble_within(text: &[u8], most: usize) -> Result<Vec<u8>, BadLine> {
    let bytes = Vec::new();
    let mut script = Script { bytes, most };
    for (at, line) in text.split(|&byte| byte == b'\n').enumerate() {
        // The comment goes first: it need not be text.
        let end = line.iter().position(|&byte| byte == b'#');
        put_line(&line[..end.unwrap_or(line.len())], &mut script)
            .map_err(|what| BadLine { line: at + 1, what })?;
    }
    Ok(script.bytes)
}

/// The bytes of a whole script.
pub fn assemble(text: &[u8]) -> Result<Vec<u8>, BadLine> {
    assemble_within(text, MOST_SCRIPT << 20)
}

#[cfg(test)]
mod tests;
