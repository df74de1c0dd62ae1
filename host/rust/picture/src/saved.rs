//! A saved table: the lent words as bytes, 64-bit little-endian, four words a mapping.

use crate::mapping::Mapping;

const WORD: usize = 8;
const MAPPING: usize = 4 * WORD;
pub const MOST_MAPPINGS: usize = 4096;

/// What is read of a table, in MiB: above any table's size, so that a file is told with its own.
pub const MOST_READ: u64 = 1;

fn words(place: &[u8]) -> [u64; 4] {
    let mut words = [0; 4];
    for (word, bytes) in words.iter_mut().zip(place.chunks_exact(WORD)) {
        *word = bytes
            .iter()
            .rev()
            .fold(0, |value, &byte| value << 8 | u64::from(byte));
    }
    words
}

/// The mappings up to the first of size 0; behind it there are zeros alone.
pub fn table(bytes: &[u8]) -> Result<Vec<Mapping>, String> {
    let places = bytes.len() / MAPPING;
    if bytes.len() % MAPPING != 0 || !(1..=MOST_MAPPINGS).contains(&places) {
        let told = bytes.len();
        return Err(format!(
            "a table has 1 to {MOST_MAPPINGS} times {MAPPING} bytes, not {told}"
        ));
    }
    let mut table: Vec<Mapping> = Vec::new();
    for (place, bytes) in bytes.chunks_exact(MAPPING).enumerate() {
        let words = words(bytes);
        if words[1] == 0 {
            break;
        }
        let mapping = Mapping::of(words).map_err(|what| format!("mapping {place}: {what}"))?;
        if table
            .last()
            .is_some_and(|last| mapping.range.start < last.range.end)
        {
            return Err(format!(
                "mapping {place}: overlaps or precedes the one before"
            ));
        }
        table.push(mapping);
    }
    if bytes[table.len() * MAPPING..].iter().any(|&byte| byte != 0) {
        return Err(format!(
            "behind its {} mappings the table is not zeros",
            table.len()
        ));
    }
    Ok(table)
}

#[cfg(test)]
mod tests {
    use super::*;

    fn bytes(mappings: &[[u64; 4]]) -> Vec<u8> {
        mappings
            .concat()
            .into_iter()
            .flat_map(u64::to_le_bytes)
            .collect()
    }

    #[test]
    fn mappings_up_to_the_first_of_size_0() {
        let two = [[0, 4096, 7, 0], [8192, 4096, 0xffff_ffff, 1 << 40]];
        let mappings = two.map(|words| Mapping::of(words).unwrap());
        assert_eq!(table(&bytes(&two)).unwrap(), mappings);
        assert_eq!(table(&bytes(&[two[0], two[1], [0; 4]])).unwrap(), mappings);
        assert_eq!(table(&[0; 131_072]).unwrap(), []);
        let full: Vec<[u64; 4]> = (0..4096).map(|at| [at << 12, 4096, 7, 0]).collect();
        assert_eq!(table(&bytes(&full)).unwrap().len(), 4096);
    }

    #[test]
    fn what_is_no_table_is_told() {
        for length in [0, 31, 33, 131_071, 131_104] {
            let told = table(&vec![0; length]).unwrap_err();
            assert_eq!(
                told,
                format!("a table has 1 to 4096 times 32 bytes, not {length}")
            );
        }
        let (first, second) = ([4096, 4096, 7, 0], [8192, 4096, 7, 4096]);
        for (mappings, told) in [
            (
                [second, first],
                "mapping 1: overlaps or precedes the one before",
            ),
            (
                [first, first],
                "mapping 1: overlaps or precedes the one before",
            ),
            ([first, [8192, 4096, 0, 0]], "mapping 1: 0 is no object"),
            (
                [first, [0, 0, 0, 1]],
                "behind its 1 mappings the table is not zeros",
            ),
            (
                [[0; 4], first],
                "behind its 0 mappings the table is not zeros",
            ),
        ] {
            assert_eq!(table(&bytes(&mappings)).unwrap_err(), told);
        }
    }
}
