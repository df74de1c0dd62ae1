//! Numbers as they are read, and as the picture shows them.

use std::ffi::OsStr;
use std::os::unix::ffi::OsStrExt;
use waylluqen_assemble::number;
use waylluqen_assemble::quote::quoted;

/// Whether a word is for a place that takes numbers, be it one that the place refuses.
pub fn is_meant(word: &OsStr) -> bool {
    word.to_str().is_some_and(number::is_meant)
}

/// A 64-bit number in the form that a script takes, or what is wrong with it.
pub fn parse(word: &OsStr) -> Result<u64, String> {
    let shown = || quoted(word.as_bytes());
    let text = word.to_str();
    let text = text.ok_or_else(|| format!("'{}' is not a number", shown()))?;
    u64::try_from(number::parse(text)?).map_err(|_| format!("{} does not fit in 64 bits", shown()))
}

/// An address or an offset, in the form that a script takes: 0x460_0000.
pub fn hex(number: u64) -> String {
    let digits = format!("{number:x}");
    let mut out = String::from("0x");
    for (at, digit) in digits.chars().enumerate() {
        if at > 0 && (digits.len() - at) % 4 == 0 {
            out.push('_');
        }
        out.push(digit);
    }
    out
}

/// A number of bytes in the largest unit that it has one of, with one decimal if it needs one.
pub fn size(bytes: u64) -> String {
    const UNITS: [&str; 5] = ["B", "KiB", "MiB", "GiB", "TiB"];
    let has_one = |place: &usize| bytes >> (10 * place) > 0;
    let place = (0..UNITS.len()).rev().find(has_one).unwrap_or(0);
    let (tenfold, unit) = (u128::from(bytes) * 10, 1_u128 << (10 * place));
    let tenths = (tenfold + unit / 2) / unit;
    let number = match (tenths / 10, tenths % 10) {
        (1024, 0) if place + 1 < UNITS.len() => return format!("almost 1 {}", UNITS[place + 1]),
        // What is left out of 4 GiB is not 4 GiB.
        (whole, 0) if tenths * unit > tenfold => format!("almost {whole}"),
        (whole, 0) => whole.to_string(),
        (whole, tenth) => format!("{whole}.{tenth}"),
    };
    format!("{number} {}", UNITS[place])
}

/// As many as `number` of what `one` is.
pub fn count(number: usize, one: &str) -> String {
    let ending = if number == 1 { "" } else { "s" };
    format!("{number} {one}{ending}")
}

#[cfg(test)]
mod tests {
    use super::*;

    #[test]
    fn of_64_bits() {
        let parse = |word: &str| parse(word.as_ref());
        assert_eq!(parse("0xaB_cD"), Ok(0xabcd));
        assert_eq!(parse("18446744073709551615"), Ok(u64::MAX));
        for (word, told) in [
            ("", "'' is not a number"),
            ("1a", "'1a' is not a number"),
            ("-0x10", "'-0x10' is negative"),
            (
                "18446744073709551616",
                "18446744073709551616 does not fit in 64 bits",
            ),
        ] {
            assert_eq!(parse(word), Err(told.to_string()));
        }
    }

    #[test]
    fn words_are_quoted() {
        let no_text = parse(OsStr::from_bytes(b"1\xff\x1b"));
        assert_eq!(no_text, Err(r"'1\xff\x1b' is not a number".to_string()));
        let long = "0".repeat(99) + "18446744073709551616";
        let told = format!("{}... does not fit in 64 bits", "0".repeat(37));
        assert_eq!(parse(long.as_ref()), Err(told));
    }

    #[test]
    fn for_a_number_s_place() {
        for word in ["0", "-1", "-0x10", "99999999999999999999999"] {
            assert!(is_meant(word.as_ref()), "{word}");
        }
        for word in ["-", "-x", "--grant", "a", "1a", ""] {
            assert!(!is_meant(word.as_ref()), "{word}");
        }
    }

    #[test]
    fn shown_in_hexadecimal() {
        for (number, shown) in [(0, "0x0"), (0x1000, "0x1000"), (0x1_0000, "0x1_0000")] {
            assert_eq!(hex(number), shown);
        }
        assert_eq!(hex(1 << 48), "0x1_0000_0000_0000");
        assert_eq!(parse(hex(0x460_0000).as_ref()), Ok(0x460_0000));
    }

    #[test]
    fn shown_as_sizes() {
        assert_eq!(size(0), "0 B");
        assert_eq!(size(4096), "4 KiB");
        assert_eq!(size(0x10_0000 - 0x1000), "1020 KiB");
        assert_eq!(size(0x4000_0000 - 0x1000), "almost 1 GiB");
        assert_eq!(size(0x7e_9000), "7.9 MiB");
        assert_eq!(size(1 << 48), "256 TiB");
        assert_eq!(size((1 << 48) - 4096), "almost 256 TiB");
        assert_eq!(size((1 << 48) + 4096), "256 TiB");
    }

    #[test]
    fn one_and_more() {
        assert_eq!(count(1, "mapping"), "1 mapping");
        assert_eq!(count(0, "mapping"), "0 mappings");
    }
}
